#!/usr/bin/env python3
"""Respells this repository's own definitions and lemmas: a word that was written with hyphens is written in snake case.

usage: tools/respell.py [--list]      at the top of the repository; once, after the scripts of the kit

Own words are those that specs/*.antt and proofs/*.antt declare. They are turned wherever they stand as a whole word: in
every .antt file, in the clauses and ghost items of .rt files, and between backticks in docs/ and comments where nothing else
stands there. Words of the library and the names that the check makes (goals, calls, labels) keep their spelling, and so do
all code and all strings.
"""

import os
import re
import sys

WORD = re.compile(r"(?<![\w'·-])[A-Za-z_][\w']*(?:-[\w']+)+(?![\w'-])")
DECLARED = re.compile(r"^\s*(?:(?:pub|abbrev|unfoldable|opaque)\s+)*([A-Za-z_][\w']*(?:-[\w']+)+)\s*(?:\{[^}]*\}\s*)?:(?!:)", re.M)
RENAMED = re.compile(r"\bas\s+([A-Za-z_][\w']*(?:-[\w']+)+)(?![\w'-])")
# declared here and in the library alike, or made by the check: not ours to turn
KEPT = {"length-map"}


def files(root, ends):
    for folder, dirs, names in os.walk(root):
        dirs[:] = sorted(d for d in dirs if d not in ("out", "target", ".git"))
        for name in sorted(names):
            if name.endswith(ends):
                yield os.path.join(folder, name)


def read(path):
    with open(path, encoding="utf-8") as f:
        return f.read()


def without_comments(text):
    return re.sub(r"--.*", "", text)


def own_words():
    words = set()
    for crate in sorted(os.listdir("crates")):
        for part in ("specs", "proofs"):
            folder = os.path.join("crates", crate, part)
            if not os.path.isdir(folder):
                continue
            for name in sorted(os.listdir(folder)):
                if name.endswith(".antt"):
                    text = without_comments(read(os.path.join(folder, name)))
                    words |= set(DECLARED.findall(text)) | set(RENAMED.findall(text))
    return words - KEPT


def turned(words, text):
    pieces = re.split(r'("[^"\n]*")', text)
    turn = lambda m: m[0].replace("-", "_") if m[0] in words else m[0]
    return "".join(it if it.startswith('"') else WORD.sub(turn, it) for it in pieces)


def in_ticks(words, text):
    return re.sub(r"`[^`\s]*`", lambda m: turned(words, m[0]), text)


def antt(words, text):
    lines = []
    for line in text.split("\n"):
        code, dash, comment = line.partition("--")
        lines.append(turned(words, code) + dash + in_ticks(words, comment))
    return "\n".join(lines)


def closing(text, start):
    deep = 0
    for at in range(start, len(text)):
        deep += (text[at] == "{") - (text[at] == "}")
        if not deep:
            return at + 1
    return len(text)


def clauses(text):
    """The stretches of a .rt file that hold words of contracts: what stands in the braces of a clause or a ghost item."""
    at = 0
    for m in re.finditer(r"(?m)^\s*(?:pub\s+)?(?:requires|ensures|ghost|invariant|decreases)\b[^{}\n;]*\{", text):
        if m.start() < at:
            continue
        at = closing(text, m.end() - 1)
        yield m.end() - 1, at


def rt(words, text):
    out, at = [], 0
    for start, end in clauses(text):
        out += [comments(words, text[at:start]), turned(words, text[start:end])]
        at = end
    return "".join(out + [comments(words, text[at:])])


def comments(words, text):
    return re.sub(r"(?m)^(\s*//.*)$", lambda m: in_ticks(words, m[0]), text)


def main():
    words = own_words()
    if "--list" in sys.argv:
        print("\n".join(sorted(words)))
        return
    for ends, turn, root in (((".antt",), antt, "crates"), ((".rt",), rt, "crates"), ((".md",), in_ticks, "docs")):
        for path in files(root, ends):
            old = read(path)
            new = turn(words, old)
            if new != old:
                with open(path, "w", encoding="utf-8") as f:
                    f.write(new)


if __name__ == "__main__":
    main()
