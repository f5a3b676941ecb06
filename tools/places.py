#!/usr/bin/env python3
"""places.py [COMMIT] [-v]: counts, in crates/*/src, the places of the points of docs/DESIGN-PASS.md; with -v it lists them. With no COMMIT it reads the files as they are.

1 enums of the shape of Option or Result: a variant that has a Refusal beside others, or one variant with a value and one without; results that are a number
  with 0, or a count, for none, by the comment before the function
2 names of functions of one crate that differ in block and vote (or slot), or end in a number or a size; names that two crates have
3 loops that are no `for`
4 functions that compare, convert or print by hand, by their names
5 functions that take the counts of both tables beside the words; clauses that say that rows fit into words
6 parameters that are lent arrays to be read together by one number
7 functions that choose a step by a letter or by an enum of calls"""
import os, re, subprocess, sys

words = [w for w in sys.argv[1:] if w != "-v"]
listing = "-v" in sys.argv
os.chdir(os.path.join(os.path.dirname(os.path.abspath(__file__)), ".."))


def sources():
    if words:
        names = subprocess.run(["git", "ls-tree", "-r", "--name-only", words[0]], capture_output=True, text=True).stdout.split()
        read = lambda f: subprocess.run(["git", "show", f"{words[0]}:{f}"], capture_output=True, text=True).stdout
    else:
        names = subprocess.run(["git", "ls-files", "-co", "--exclude-standard"], capture_output=True, text=True).stdout.split()
        read = lambda f: open(f, encoding="utf-8").read()
    for f in sorted(set(names)):
        if re.match(r"crates/[^/]+/src/.*\.rt$", f) and (words or os.path.exists(f)):
            yield f.split("/")[1], read(f)


def functions(text):
    """(comment, name, signature, body) of each function"""
    lines = text.split("\n")
    for at, line in enumerate(lines):
        m = re.match(r"( *)(?:pub )?(?:extern \"C\" )?fn (\w+)", line)
        if not m:
            continue
        first = at
        while first and re.match(r" *(//|#\[)", lines[first - 1]):
            first -= 1
        begin = at
        while begin < len(lines) and not (lines[begin].endswith("{") and not re.match(r" *(requires|ensures|ghost|×)", lines[begin])) and not lines[begin].endswith(";"):
            begin += 1
        end = begin
        while end < len(lines) and lines[end] != m[1] + "}" and not lines[begin].endswith(";"):
            end += 1
        yield "\n".join(lines[first:at]), m[2], "\n".join(lines[at:begin + 1]), "\n".join(lines[begin + 1:end])


places = {n: [] for n in "1 enums,1 numbers,2 pairs,2 sizes,2 crates,3 loops,4 compare,4 convert,4 print,5 parameters,5 clauses,6 arrays,7 steps".split(",")}
crates = {}
for crate, text in sources():
    for m in re.finditer(r"enum (\w+)[^{]*\{(.*?)\n\}", text, re.S):
        variants = re.findall(r"^    (\w+)(\([^)]*\)| \{.*?\})?,", m[2], re.M | re.S)
        with_value = [v for v in variants if v[1]]
        if any("(Refusal)" in v[1] for v in variants) or (len(variants) == 2 and len(with_value) == 1):
            places["1 enums"].append(f"{crate}::{m[1]}")
        elif {v[0] for v in variants} & {"Refuse", "Refused"}:
            places["1 enums"].append(f"{crate}::{m[1]}")
    seen = {}
    for comment, name, signature, body in functions(text):
        seen[name] = (signature, body)
        if re.search(r"-> (usize|Spot|Admitted)", signature) and re.search(r"\bor (0|n|the number|how many)\b|or the number of", comment):
            places["1 numbers"].append(f"{crate}::{name}")
        if re.search(r"_(\d+|one|two|four|eight)$|^(one|two|four|eight)_", name):
            places["2 sizes"].append(f"{crate}::{name}")
        if re.match(r"(same|is_below|same_\w+|is_zero)$", name):
            places["4 compare"].append(f"{crate}::{name}")
        if re.match(r"(node|exported)_\w+$|\w+_struct$", name):
            places["4 convert"].append(f"{crate}::{name}")
        if re.match(r"(print|put|write)_\w+$|decimal$|named\w*$|digits$", name) and crate in ("case_runner", "packet_cases", "asking", "cases", "question_cases", "numbers"):
            places["4 print"].append(f"{crate}::{name}")
        head = signature.split("requires")[0].split("ensures")[0]
        if re.search(r"blocks_used: (&mut )?usize", head) and re.search(r"votes_used: (&mut )?usize", head):
            places["5 parameters"].append(f"{crate}::{name}")
        if len(re.findall(r"\b(slots|numbers|children|siblings|weights|masks|parents): &", head)) > 1:
            places["6 arrays"].append(f"{crate}::{name}")
        if re.search(r"match (letter|call|question|program|bytes\[)", body):
            places["7 steps"].append(f"{crate}::{name}")
        crates.setdefault(name, set()).add(crate)
    for n in seen:
        for a, b in (("block", "vote"), ("blocks", "votes"), ("block", "slot")):
            m = "_".join(b if w == a else w for w in n.split("_"))
            if m != n and m in seen:
                places["2 pairs"].append(f"{crate}::{n} and {m}")
    places["3 loops"] += [f"{crate}: {m[0].strip()}" for m in re.finditer(r"^\s*(?:'\w+: )?(while [^\n]*|loop \{)", text, re.M)]
    places["5 clauses"] += [crate for line in text.split("\n") if re.search(r"(BlocksFit|VotesFit) ", line)]
for name, of in crates.items():
    if len(of) > 1 and name not in ("main", "new"):
        places["2 crates"].append(f"{name}: {', '.join(sorted(of))}")
for n, found in places.items():
    print(f"{n}: {len(found)}")
    if listing:
        for f in found:
            print(f"    {f}")
