#!/usr/bin/env python3
"""Brings this repository's own definitions and lemmas to the spelling of today's Rattle. Run once, at the top, right after the kit's port.py.

A definition, a field and a constructor are in snake case. In a lemma's name a dash stays where it joins the names of two functions,
as in `sum-append`, and every other one is an underscore. A module beside the generated `contracts` has another name: specs/Contracts.antt
becomes specs/Promises.antt; a crate named as one of the kit's has another name: bytes becomes octets. Functions of src/, exported names, strings, inputs and outputs stay as they are; must-fail edits are brought over by hand.
What it renames is printed, and it stops before it writes anything where two names would fall together.
"""
import collections
import glob
import os
import re
import sys

TOKEN = re.compile(r"[^\s(){}\[\].,;:\"«»|`]+")
# Functions of the library and of this repository, whose names a dash joins in a lemma's.
LIBRARY = "length append take drop set reverse map add sub mul div mod pow dvd le lt eq zero one suc cond not or and cons nil length".split()
SPECIAL = {"xn-1": "xn_minus_one"}


def words(path):
    """The declared names of a file: (name, whether a definition's or a field's of one, whether no field)."""
    inside_specs = "/specs/" in path
    for line in open(path, encoding="utf-8"):
        text = line.rstrip("\n")
        if text.lstrip().startswith("--") or text.startswith("use "):
            continue
        m = re.match(r"\s*((?:abbrev |unfoldable |pub |record |data |ruleset |module )*)([^\s(){}\[\].,;:λ→=\"«»|↦]+)(?: .*)?\s:", text) or re.match(
            r"\s*\|?\s*((?:abbrev |unfoldable |pub |record |data )*)([^\s(){}\[\].,;:λ→=\"«»|↦]+) :", text
        )
        if m:
            yield m.group(2), inside_specs, not text[0].isspace()


def spelled(name, definition, functions):
    if name in SPECIAL:
        return SPECIAL[name]
    parts = name.split("-")
    if definition or len(parts) < 2 or any(not p for p in parts):
        return name.replace("-", "_") if all(parts) else name
    # Longest known functions first.
    pieces, i = [], 0
    while i < len(parts):
        for j in range(len(parts), i, -1):
            joined = "_".join(parts[i:j])
            if joined in functions or j == i + 1:
                pieces.append((joined, joined in functions))
                i = j
                break
    out = pieces[0][0]
    for (_, left), (text, right) in zip(pieces, pieces[1:]):
        out += ("-" if left and right else "_") + text
    return out


def main():
    antt = [f for f in glob.glob("crates/**/*.antt", recursive=True) if "/out/" not in f]
    rt = [f for f in glob.glob("crates/**/*.rt", recursive=True) if "/out/" not in f]
    lemma_files = [f for f in antt if re.fullmatch(r"crates/\w+/(specs|proofs)/\w+\.antt", f)]
    defined, proved, functions = {}, {}, set(LIBRARY)
    for f in sorted(lemma_files):
        for name, definition, alone in words(f):
            (defined if definition else proved)[name] = f
            if definition and alone and name[:1].islower():
                functions.add(name.replace("-", "_"))
    table = {}
    for name in list(defined) + list(proved):
        if "-" in name:
            new = spelled(name, name in defined, functions)
            if new != name:
                table[name] = new
    # Names that would fall together: with one that is there, or with one another.
    present = set()
    for f in antt + rt:
        for token in TOKEN.findall(open(f, encoding="utf-8").read()):
            present.add(token)
    in_source = set(re.findall(r"\bfn (\w+)", "\n".join(open(f, encoding="utf-8").read() for f in rt)))
    # A definition may have the name of the function that it is the meaning of, as `sheet_reply`.
    bad = [(a, b) for a, b in table.items() if b in present and b not in in_source]
    twice = [b for b, n in collections.Counter(table.values()).items() if n > 1]
    for a, b in sorted(table.items()):
        print(f"{a} -> {b}")
    if bad or twice:
        for a, b in bad:
            where = [f for f in antt + rt if b in TOKEN.findall(open(f, encoding='utf-8').read())]
            print(f"falls together: {a} with {b}: {where[:4]}", file=sys.stderr)
        print("twice:", twice, file=sys.stderr)
        raise SystemExit(1)
    for f in antt + rt:
        text = open(f, encoding="utf-8").read()
        lines = []
        for line in text.split("\n"):
            comment = "--" if f.endswith(".antt") else "//"
            if line.lstrip().startswith(comment):
                # In a comment, names between backticks alone.
                line = re.sub(r"`[^`]*`", lambda m: TOKEN.sub(lambda t: table.get(t.group(0), t.group(0)), m.group(0)), line)
            else:
                line = TOKEN.sub(lambda t: table.get(t.group(0), t.group(0)), line)
            lines.append(line)
        new = "\n".join(lines)
        new = re.sub(r"\bRattle\.bytes\b", "Rattle.octets", new)
        new = re.sub(r"\bbytes::", "octets::", new)
        new = re.sub(r"(Rattle\.(?:calls|pattern)\.specs\.)Contracts\b", r"\1Promises", new)
        if re.fullmatch(r"crates/(calls|pattern)/specs/Lib\.antt", f):
            new = new.replace("pub mod Contracts", "pub mod Promises")
        if new != text:
            open(f, "w", encoding="utf-8").write(new)
    for crate in ("calls", "pattern"):
        old = f"crates/{crate}/specs/Contracts.antt"
        if os.path.exists(old):
            os.rename(old, f"crates/{crate}/specs/Promises.antt")
    if os.path.isdir("crates/bytes"):
        os.rename("crates/bytes", "crates/octets")
        text = open("crates.txt", encoding="utf-8").read()
        open("crates.txt", "w", encoding="utf-8").write(re.sub(r"\bbytes\b", "octets", text))


main()
