#!/usr/bin/env bash
# Runs the program on every example: a report must be as its .out file has it, a refusal as its .err file, with status 1 and nothing printed.
set -u
cd "$(dirname "${BASH_SOURCE[0]}")"
# builds the program, where it is not built as it stands
(cd ../crates/quarter && rt run < stdin > /dev/null 2>&1) || { echo "the program quarter does not build or run"; exit 1; }
quarter=../crates/quarter/out/quarter
said=$(mktemp)
passed=0
failed=0
hold() { if "$@"; then passed=$((passed + 1)); else failed=$((failed + 1)); echo "not as expected: $text"; fi; }
for text in *.txt; do
    hold cmp -s <("$quarter" < "$text") "${text%.txt}.out"
done
for text in refused/*.txt; do
    printed=$("$quarter" < "$text" 2> "$said")
    status=$?
    hold test "$status" -eq 1 -a -z "$printed" -a "$(cat "$said")" = "$(cat "${text%.txt}.err")"
done
rm -f "$said"
echo "$passed as expected, $failed not"
test "$failed" -eq 0
