#!/usr/bin/env python3
"""Spells the names of this repository's own definitions and lemmas in snake case: `countBelow` becomes `count_below`, and `length-rowsOf` becomes
`length-rows_of`. A dash stays, since it joins two names; a type, a module and a fact keep their capital.

usage: python3 tools/snake_names.py FOLDER..     each FOLDER has crates/

It was run once, after /opt/rattle/port/port.py. It turns the code of .antt files with the spans between backticks in comments, the clauses and `ghost use` lines of
.rt files, and nothing of .rt code, strings, inputs or outputs. Where a lemma has the name that a definition gets, the lemma gets `_lem` (LEMMAS).
A second run changes nothing."""

import os
import re
import sys

WORD = re.compile(r"[^\s(){}\[\].;,@\"«»`]+")
PART = re.compile(r"(?<=[a-z0-9])([A-Z])")
# Lemmas that have the name that a definition gets, each beside it.
LEMMAS = {
    "all_pass": "allPass",
    "as_many": "asMany",
    "block_new": "blockNew",
    "block_words": "blockWords",
    "deep_of": "deepOf",
    "is_word": "isWord",
    "open_lent": "openLent",
    "same_block": "sameBlock",
    "same_bytes": "sameBytes",
    "same_key": "sameKey",
    "settled_is": "settledIs",
    "too_long": "tooLong",
}


def part(s):
    return PART.sub(lambda m: "_" + m[1].lower(), s) if re.match("[a-z]", s) else s


def word(m):
    w = m[0]
    if "::" in w or "/" in w:
        return w
    if w in turning and m.string[m.start() - 1 : m.start()] != ".":
        return w + "_lem"
    return "-".join(part(s) for s in w.split("-"))


# The rows of LEMMAS whose definition still has its old name.
turning = set()


def code(text):
    return WORD.sub(word, text)


# A clause names no lemma of LEMMAS.
def clause(text):
    kept = set(turning)
    turning.clear()
    text = code(text)
    turning.update(kept)
    return text


def spans(text):
    return re.sub(r"`[^`\n]+`", lambda m: code(m[0]), text)


def antt(text):
    lines = []
    for line in text.split("\n"):
        m = re.search(r"(?:^|(?<=\s))--(?!-*[^\s-])", line)
        head, tail = (line[: m.start()], line[m.start() :]) if m else (line, "")
        lines.append(code(head) + spans(tail))
    return "\n".join(lines)


CLAUSE = re.compile(r"^\s*(?:requires|ensures|ghost)\b")


def rt(text):
    out, depth, inside = [], 0, False
    for line in text.split("\n"):
        if line.lstrip().startswith("//"):
            out.append(re.sub(r"`[^`\n]+`", lambda m: clause(m[0]), line))
            continue
        if not inside and CLAUSE.match(line):
            inside, depth = True, 0
        if inside:
            out.append(clause(line))
            depth += line.count("{") - line.count("}")
            if depth <= 0 and ("{" in line or "}" in line or line.rstrip().endswith(";")):
                inside = False
        else:
            out.append(line)
    return "\n".join(out)


def texts(root):
    for folder, dirs, files in os.walk(os.path.join(root, "crates")):
        dirs[:] = sorted(d for d in dirs if d != "out")
        for f in sorted(files):
            if f.endswith((".antt", ".rt")):
                path = os.path.join(folder, f)
                with open(path, encoding="utf-8") as it:
                    yield path, it.read()


def turn(root):
    n = 0
    words = {w for path, text in texts(root) if path.endswith(".antt") for w in WORD.findall(text)}
    turning.update(lemma for lemma, definition in LEMMAS.items() if definition in words)
    for path, old in list(texts(root)):
        new = antt(old) if path.endswith(".antt") else rt(old)
        if new != old:
            n += 1
            with open(path, "w", encoding="utf-8") as it:
                it.write(new)
    print(f"{n} files turned in {root}")


if __name__ == "__main__":
    if len(sys.argv) < 2:
        sys.exit(__doc__)
    for it in sys.argv[1:]:
        turn(it)
