#!/usr/bin/env python3
"""Counts the places in crates/*/src that docs/DESIGN-PASS.md speaks of, point by point.

usage: tools/places.py [--list] [COMMIT]      at the top of the repository; of the files as they stand, or of a commit
"""

import collections
import re
import subprocess
import sys

FUNCTION = re.compile(r"^( *)(?:pub )?(?:extern \"C\" )?fn (\w+)(?:<[^(]*>)?\(", re.M)
WORD = re.compile(r"[A-Za-z_]\w*|\d[\w.]*|\S")
KEPT = {"let", "mut", "if", "else", "while", "loop", "for", "in", "match", "return", "break", "continue", "as", "fn", "self"}


def sources(commit):
    """Returns the source files and their texts."""
    if commit:
        listed = subprocess.run(["git", "ls-tree", "-r", "--name-only", commit, "crates"], capture_output=True, text=True, check=True).stdout
        names = [n for n in listed.split("\n") if re.match(r"crates/\w+/src/.*\.rt$", n)]
        return {n: subprocess.run(["git", "show", commit + ":" + n], capture_output=True, text=True, check=True).stdout for n in names}
    listed = subprocess.run(["git", "ls-files", "crates"], capture_output=True, text=True, check=True).stdout
    names = [n for n in listed.split("\n") if re.match(r"crates/\w+/src/.*\.rt$", n)]
    return {n: open(n, encoding="utf-8").read() for n in names}


def functions(name, text):
    """Yields each function: its name, its parameters, its body."""
    for m in FUNCTION.finditer(text):
        depth, at = 1, m.end()
        while depth:
            depth += {"(": 1, ")": -1}.get(text[at], 0)
            at += 1
        parameters = [p for p in re.split(r",(?![^<]*>)", text[m.end():at - 1]) if p.strip()]
        end = text.find("\n" + m[1] + "}", at)
        opened = re.compile(r"^(?:" + m[1] + r"|.*\) .*|.*\) *)\{$", re.M).search(text, at - 1, end)
        if opened:
            yield name + " " + m[2], parameters, text[opened.end():end]


def shape(body):
    """Returns the body with names, numbers and types left out."""
    body = re.sub(r"//.*", "", body)
    return " ".join(w if w in KEPT or not (w[0].isalnum() or w[0] == "_") else "_" for w in WORD.findall(body))


def main():
    arguments = [a for a in sys.argv[1:] if a != "--list"]
    found = collections.OrderedDict()
    shapes = collections.defaultdict(list)
    for name, text in sources(arguments[0] if arguments else None).items():
        crate = name.split("/")[1]
        for m in re.finditer(r"^(?:pub )?enum (\w+)[^{]*\{\n(.*?)^\}", text, re.M | re.S):
            variants = re.findall(r"^    (\w+)(\(.*\))?,", m[2], re.M)
            if len(variants) < 4 and any(v[1] for v in variants) and any(not v[1] for v in variants):
                found.setdefault("1 enums of the shape of Option", []).append(crate + " " + m[1])
        for m in re.finditer(r"^(?:pub )?struct (\w+)[^{;]*\{\n(.*?)^\}", text, re.M | re.S):
            if re.search(r"(refusal: u32|: bool),", m[2]):
                found.setdefault("1 structs with a flag or a number beside values", []).append(crate + " " + m[1])
        for m in re.finditer(r"^const (\w+): u8 = \d", text, re.M):
            found.setdefault("1 numbers for kinds", []).append(crate + " " + m[1])
        for f, parameters, body in functions(crate, text):
            if re.search(r"\brefusal::[A-Z]", body) or re.search(r"refusal != 0|\.refusal\b", body):
                found.setdefault("1 functions that return or test refusal numbers", []).append(f)
            if body.count(";") + body.count("{") > 3:
                shapes[shape(body)].append(f)
            for m in re.finditer(r"^ +('\w+: )?(while|loop)\b.*", body, re.M):
                found.setdefault("3 while and loop", []).append(f + " " + m[0].strip())
            for m in re.finditer(r"^ +(\w+): \1,$", body, re.M):
                found.setdefault("4 fields written as x: x", []).append(f + " " + m[1])
            if len(re.findall(r"return (?:true|false);", body)) > 1:
                found.setdefault("4 chains of early returns of a bool", []).append(f)
            if len(parameters) > 9:
                found.setdefault("5 functions of ten or more parameters", []).append(f)
            for m in re.finditer(r"let mut (\w+) = \[[^;\]]+; [^\]]+\];", body):
                found.setdefault("6 local buffers of a fixed length", []).append(f + " " + m[1])
            for m in re.finditer(r"match (family|\w*kind)\b", body):
                found.setdefault("7 switches on a number", []).append(f)
    found["2 functions alike but for names, numbers and types"] = [" = ".join(fs) for fs in shapes.values() if len(fs) > 1]
    for what in sorted(found):
        print(len(found[what]), what)
        if "--list" in sys.argv:
            print("".join("    " + place + "\n" for place in found[what]), end="")


if __name__ == "__main__":
    main()
