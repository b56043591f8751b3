#!/usr/bin/env python3
"""Lists functions and structs of src/ that differ only in names, types and constants.

    python3 tools/twins.py [COMMIT]

Each line is a group: what has one shape once every name, literal and line break is set aside. Contracts, tests and
bodies that are a single name are left out. Without a commit the tree is read as it stands.
"""

import re
import subprocess
import sys

KEYWORDS = set(
    "as break const continue else enum fn for if impl in let loop match mut pub ref return self Self struct trait type use where while".split()
)
TOKEN = re.compile(r"[A-Za-z_]\w*|\d[\w.]*|b?'(?:\\.|[^'\\])'|b?\"(?:\\.|[^\"\\])*\"|->|=>|==|!=|<=|>=|&&|\|\||\.\.=?|::|\S")
LEAST = 4


def sources(commit):
    if commit:
        names = subprocess.run(["git", "ls-tree", "-r", "--name-only", commit, "crates"], capture_output=True, text=True, check=True).stdout
    else:
        names = subprocess.run(["git", "ls-files", "crates"], capture_output=True, text=True, check=True).stdout
    for name in names.split("\n"):
        if re.fullmatch(r"crates/\w+/src/.*\.rt", name) and not name.endswith("tests.rt") and "/examples/" not in name:
            if commit:
                text = subprocess.run(["git", "show", f"{commit}:{name}"], capture_output=True, text=True, check=True).stdout
            else:
                text = open(name, encoding="utf-8").read()
            yield name, text


def closing(text, start):
    depth = 0
    for place in range(start, len(text)):
        depth += {"{": 1, "}": -1}.get(text[place], 0)
        if depth == 0:
            return place
    return len(text)


def bodies(text):
    text = re.sub(r"//[^\n]*", "", text)
    for found in re.finditer(r"\b(fn|struct) (\w+)", text):
        place = found.end()
        while True:
            brace = text.find("{", place)
            if brace < 0:
                break
            before = text[place:brace]
            if found[1] == "struct" and ";" in before:
                break
            end = closing(text, brace)
            if re.search(r"(requires|ensures)\s*\w*\s*$", before):
                place = end + 1
                continue
            yield found[1], found[2], text[brace : end + 1]
            break


def shape(body):
    names, out = {}, []
    for token in TOKEN.findall(body):
        if token[0].isalpha() or token[0] == "_":
            out.append(token if token in KEYWORDS else f"n{names.setdefault(token, len(names))}")
        elif token[0].isdigit() or token[-1] in "'\"":
            out.append("#")
        else:
            out.append(token)
    return tuple(out)


def main():
    groups = {}
    for name, text in sources(sys.argv[1] if len(sys.argv) > 1 else None):
        for kind, item, body in bodies(text):
            tokens = shape(body)
            if len(tokens) >= LEAST + 2:
                groups.setdefault((kind, tokens), []).append(f"{name[7:]}:{item}")
    twins = sorted(items for items in groups.values() if len(items) > 1)
    for items in twins:
        print("  ".join(items))
    print(f"{len(twins)} groups of {sum(map(len, twins))}")


main()
