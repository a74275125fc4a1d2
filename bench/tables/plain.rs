// The same work as crates/tables_bench in plain Rust: a sorted Vec with binary search.
use std::hint::black_box;
use std::time::Instant;

const ROWS: u64 = 1_000_000;
const SHUFFLED: u64 = 100_000;
const STRIDE: u64 = 7_919;

#[derive(Clone, Copy)]
struct Wide {
    code: u64,
    rest: [u64; 8],
}

fn row_with(code: u64) -> Wide {
    Wide {
        code,
        rest: [code; 8],
    }
}

#[inline(never)]
fn fill(rows: &mut Vec<Wide>, n: u64, stride: u64) -> u64 {
    let mut done = 0u64;
    for i in 0..n {
        let row = row_with(i.wrapping_mul(stride) % n);
        if let Err(place) = rows.binary_search_by_key(&row.code, |r| r.code) {
            rows.insert(place, row);
            done += 1;
        }
    }
    done
}

#[inline(never)]
fn look(rows: &[Wide], n: u64) -> u64 {
    let mut sum = 0u64;
    for i in 0..n {
        let wanted = i.wrapping_mul(STRIDE) % n;
        if let Ok(place) = rows.binary_search_by_key(&wanted, |r| r.code) {
            sum = sum.wrapping_add(rows[place].rest[7]);
        }
    }
    sum
}

#[inline(never)]
fn drain(rows: &mut Vec<Wide>, n: u64) -> u64 {
    let mut done = 0u64;
    for i in (0..n).rev() {
        if let Ok(place) = rows.binary_search_by_key(&i, |r| r.code) {
            black_box(rows.remove(place));
            done += 1;
        }
    }
    done
}

fn main() {
    // written once before the clock starts, as the lent memory of the table is
    let mut rows = vec![row_with(0); ROWS as usize];
    rows.clear();
    let start = Instant::now();
    let filled = fill(&mut rows, ROWS, 1);
    let rising = start.elapsed().as_micros();
    let start = Instant::now();
    let sum = look(&rows, ROWS);
    let looked = start.elapsed().as_micros();
    let start = Instant::now();
    let drained = drain(&mut rows, ROWS);
    let out = start.elapsed().as_micros();
    let start = Instant::now();
    let mixed = fill(&mut rows, SHUFFLED, STRIDE);
    let random = start.elapsed().as_micros();
    println!("rising {rising} us, looked {looked} us, out {out} us, random {random} us");
    println!("filled {filled}, sum {sum}, drained {drained}, mixed {mixed}");
}
