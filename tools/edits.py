#!/usr/bin/env python3
"""Reads every error by which an edit of must-fail or must-fail-more is refused.

usage: tools/edits.py CRATE..      at the top of the repository; it works in a copy

`rt ci` shows one line of each refusal. Where an edit takes away a name that a proof file cites, that line may tell of declarations that depend on
the one that was rejected for it, and so show nothing of the contract. Here each edit is applied, its crate checked, and each error counted: at a
goal or a fact, for a missing name, or as a dependent of another. An edit with none of the first kind is marked, and the status is 1.
"""

import os
import re
import shutil
import subprocess
import sys
import tempfile

ERROR = re.compile(r"(?:note: )?(?:\./)?\S+:\d+:\d+: (?:error|it is not proved)")
NAME = re.compile(r"has no field|is not in scope|has no `|exports no")
DEPENDENT = re.compile(r"declarations? that depends? on")


def tried(folder, edit):
    """Applies the edit in the crate's folder, checks the crate, puts the file back. Returns its errors."""
    with open(edit, encoding="utf-8") as f:
        text = f.read()
    path = os.path.join(folder, re.search(r"^file: (\S+)", text, re.M)[1])
    with open(path, encoding="utf-8") as f:
        before = f.read()
    after = before
    for old, new in re.findall(r"^old: (.*)\nnew: (.*)$", text, re.M):
        if after.count(old) != 1:
            return [f"{edit}:1:1: error: has no `old:` text that stands once"]
        after = after.replace(old, new)
    with open(path, "w", encoding="utf-8") as f:
        f.write(after)
    try:
        said = subprocess.run(["rt", "check"], cwd=folder, stdout=subprocess.PIPE, stderr=subprocess.STDOUT, text=True, errors="replace").stdout
    finally:
        with open(path, "w", encoding="utf-8") as f:
            f.write(before)
    # a message goes on in lines that begin with blanks
    return [line for line in said.replace("\n  ", " ").split("\n") if ERROR.match(line)]


def main(names):
    weak = 0
    copy = tempfile.mkdtemp()
    try:
        shutil.copy("crates.txt", copy)
        shutil.copytree("crates", os.path.join(copy, "crates"), ignore=shutil.ignore_patterns("out", "data"))
        for name in names:
            folder = os.path.join(copy, "crates", name)
            for kind in ("must-fail", "must-fail-more"):
                where = os.path.join(folder, kind)
                for edit in sorted(os.listdir(where)) if os.path.isdir(where) else []:
                    errors = tried(folder, os.path.join(where, edit))
                    dependents = [e for e in errors if DEPENDENT.search(e)]
                    missing = [e for e in errors if NAME.search(e) and e not in dependents]
                    facts = [e for e in errors if e not in dependents and e not in missing]
                    weak += not facts
                    first = facts[0] if facts else "REFUSED BY NO FACT: " + (errors or ["no error"])[0]
                    print(f"{name}/{edit}: {len(facts)} at goals, {len(missing)} for names, {len(dependents)} dependents: {first[:200]}", flush=True)
    finally:
        shutil.rmtree(copy, ignore_errors=True)
    return 1 if weak else 0


if __name__ == "__main__":
    raise SystemExit(main(sys.argv[1:]))
