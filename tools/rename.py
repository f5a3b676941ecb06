#!/usr/bin/env python3
"""Rewrites files that were written with the names from before landing 20: python3 tools/rename.py FILE..

It reads docs/RENAMES.md. A definition's name is replaced where the file imports it from its module; fields, crates and modules everywhere. What is a
function's or a variable's own name is left to the reader."""
import os
import re
import sys

TOKEN = re.compile(r"[A-Za-z_][A-Za-z0-9_'′₀-₉ᴰ]*(?:-[A-Za-z0-9_'′₀-₉ᴰ]+)*")
USE = re.compile(r"use\s+(Rattle·[^\s{;]+?)(?:\.\{([^}]*)\}|\s+as\s+(\S+?);?$)", re.M)
FIELDS = {"shown": "viewed", "brought": "viewed", "reply": "answer"}


def listed():
    """The definitions by module, the modules and the crates."""
    path = os.path.join(os.path.dirname(os.path.abspath(__file__)), "..", "docs", "RENAMES.md")
    names, modules, crates = {}, {}, {}
    for line in open(path):
        cells = [cell.strip() for cell in line.strip().strip("|").split("|")]
        if not line.startswith("| ") or len(cells) != 2 or cells[0] == "old":
            continue
        pairs = re.findall(r"`([^`]+)` → `([^`]+)`", cells[1])
        if re.fullmatch(r"[a-z_]+/specs/\S+", cells[0]) and pairs:
            names.setdefault(cells[0], {}).update(pairs)
        elif "/" in cells[0] and "/" in cells[1]:
            modules[cells[0]] = cells[1]
        elif re.fullmatch(r"[a-z_]+", cells[0]) and re.fullmatch(r"[a-z_]+", cells[1]):
            crates[cells[0]] = cells[1]
    return names, modules, crates


def module_of(path):
    """Rattle·protocol·specs.specs.Calls.Vote as protocol/specs/Calls/Vote."""
    crate, _, rest = re.sub(r"·(specs|proofs)\.", ".", path[len("Rattle·"):]).partition(".")
    return crate + "/" + rest.replace(".", "/")


def renamed(text, names, modules, crates):
    plain, qualified = dict(FIELDS), {}
    for use in USE.finditer(text):
        new = names.get(module_of(use.group(1)), {})
        if use.group(2) is not None:
            plain.update({old: new[old] for old in (name.strip() for name in use.group(2).split(",")) if old in new})
        else:
            qualified[use.group(3)] = new

    def replaced(match):
        before, token = text[: match.start()], match.group(0)
        alias = re.search(r"([A-Za-z][\w-]*)\.$", before[-40:])
        if alias and token in qualified.get(alias.group(1), {}):
            return qualified[alias.group(1)][token]
        if before.endswith("·") or (before.endswith(".") and alias):
            return token
        return plain.get(token, token)

    out = TOKEN.sub(replaced, text)
    for old, new in modules.items():
        (crate, part, name), to = old.split("/", 2), new.split("/", 2)[2]
        out = re.sub(rf"(Rattle·{crate}(?:·\w+)?\.{part}\.){name.replace('/', '.')}\b", lambda m: m.group(1) + to.replace("/", "."), out)
    for old, new in crates.items():
        out = re.sub(rf"Rattle·{old}(?![\w-])", "Rattle·" + new, out)
        out = re.sub(rf"(?<![\w·:]){old}::", new + "::", out)
    return out


for file in sys.argv[1:]:
    old = open(file).read()
    new = renamed(old, *listed())
    if new != old:
        open(file, "w").write(new)
        print(file)
