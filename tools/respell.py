#!/usr/bin/env python3
"""Brings the repository's own definitions and lemmas to today's spelling: words in snake case.

usage: tools/respell.py [--check] [FOLDER]      FOLDER: the top of the repository, default the current folder

Two kinds of names turn, in specs/, in proofs/, in the clauses of src/, in must-fail edits of these, and in the code spans of documents:

  a word with a capital inside, as 'cliqueAt', becomes 'clique_at', wherever it stands;
  a name with a dash that a file of specs/ or a file of laws in proofs/ declares, or a law of a Proof.antt that answers no goal,
  as 'passed-more', becomes 'passed_more', but not in a file that imports that name from a library, and not behind a dot, where
  the names that Rattle makes stand. A dash between two names of definitions stays, as in 'length-written'. A law that would have
  the name of a definition, or of a variable beside it, gets the ending '_lem'.

A part 'getD' or 'get_d', the library's old word, becomes 'get_or'. OTHER has words whose plain spelling would meet another name.
Functions of src/, exported names, strings, inputs and outputs keep their names. --check writes nothing and lists names that would fall together.
Run once, after port.py; it proves nothing.
"""

import collections
import os
import re
import sys

WORD = re.compile(r"[^\s(){}.;,@\"«»]+")
CAMEL = re.compile(r"[a-z_][^\sA-Z]*[a-z0-9'][A-Z]|[a-z][A-Z]")
DECLARED = re.compile(
    r"^( *)(?:(?:abbrev|pub|record|data|unfoldable) )*([^\s(){}.;,@\"«»]+)(?: \{[^{}\n]*\}| \([^()\n]*\))* :(?=[ \n])", re.M
)
TYPED = re.compile(r"^ *(?:(?:abbrev|pub) )*([^\s(){}.;,@\"«»]+)(?: \{[^{}\n]*\})* : *(tie|goal)\.", re.M)
IMPORT = re.compile(r"\buse ([^\s;{]+)\.\{([^;}]*)\}")
QUIET = re.compile(r'--[^\n]*|"(?:[^"\\\n]|\\.)*"')
SPAN = re.compile(r"`[^`\n]+`")
FENCE = re.compile(r"^( *)```[^\n]*\n.*?^\1``` *$|(?:^ {4,}\S[^\n]*\n)+", re.S | re.M)

# Words whose plain spelling is also the name of another thing where they are used.
OTHER = {
    "block_size": "block_size_lem",
    "by_map": "by_map_lem",
    "is_cut": "is_cut_lem",
    "no_kind": "no_kind_lem",
    "rows_fit": "rows_fit_lem",
    "rows_right": "rows_right_lem",
    "runStarts": "starts_of_runs",
    "same_map": "same_map_lem",
}

# Words of the library's lemma names, beside the names of definitions.
LEMMA_WORDS = set("cons nil append add mul sub div mod pow lt le eq ne suc zero true false and".split())


def snake(word):
    word = re.sub(r"(?<![^\W_-])getD(?![a-zA-Z])", "get_or", word)
    word = re.sub(r"(?<![a-zA-Z])get_d(?![a-zA-Z])", "get_or", word)
    word = re.sub(r"(?<=[a-z0-9'])([A-Z]+)", lambda m: "_" + m[1].lower(), word)
    return word


def files(top, ends):
    for folder, dirs, names in os.walk(os.path.join(top, "crates")):
        dirs[:] = sorted(d for d in dirs if d not in ("out", "data"))
        for n in sorted(names):
            if n.endswith(ends):
                yield os.path.join(folder, n)


def is_law_file(path):
    """Whether the file is one of specs/ or of the laws of proofs/, and no function's own proof."""
    return os.path.basename(path) not in ("Proof.antt", "Invariants.antt", "Answers.antt")


class Respeller:
    def __init__(self, top):
        self.top = top
        self.crates = set(os.listdir(os.path.join(top, "crates")))
        self.text = {}
        for p in files(top, (".antt", ".rt", ".edit")):
            with open(p, encoding="utf-8") as f:
                self.text[p] = f.read()
        # names with a dash, declared in a law file: as fields (turn behind a dot too) and others
        self.fields, self.laws = set(), set()
        self.own = {}
        for p, t in self.text.items():
            if not p.endswith(".antt"):
                continue
            quiet = QUIET.sub(lambda m: " " * len(m[0]), t)
            answers = {m[1] for m in TYPED.finditer(quiet)}
            mine = set()
            in_record, depth = False, 0
            for line in quiet.split("\n"):
                indent = len(line) - len(line.lstrip())
                if not line.strip():
                    continue
                if in_record and indent <= depth:
                    in_record = False
                m = DECLARED.match(line)
                if m and "-" in m[2] and not m[2].startswith("-") and m[2] not in answers and not m[2][0].isupper() and re.match(r"[a-zA-Z_]", m[2]):
                    if is_law_file(p):
                        (self.fields if in_record else self.laws).add(m[2])
                    else:
                        mine.add(m[2])
                if re.match(r" *(?:pub |abbrev )*record \S+", line) and line.rstrip().endswith("where"):
                    in_record, depth = True, indent
            self.own[p] = mine
        self.met = collections.defaultdict(lambda: collections.defaultdict(set))
        self.names_of_definitions()
        self.plain = {}
        self.endings()

    def names_of_definitions(self):
        self.words = set(LEMMA_WORDS)
        for p, t in self.text.items():
            if not p.endswith(".antt"):
                continue
            quiet = QUIET.sub(lambda m: " " * len(m[0]), t)
            if "/specs/" in p:
                self.words.update(snake(m[2]) for m in DECLARED.finditer(quiet) if "-" not in m[2])
            self.words.update(w for w in self.kept(quiet) if "-" not in w)
        self.words = {w for w in self.words if len(w) > 1}

    def joined(self, w):
        """A name with dashes: a dash between two names of definitions stays, and each other one becomes '_'."""
        parts = [snake(x) for x in w.split("-")]
        out = parts[0]
        for a, b in zip(parts, parts[1:]):
            out += ("-" if a in self.words and b in self.words else "_") + b
        return out

    def endings(self):
        """Which names with a dash would meet another name in some file."""
        dashed = self.laws | self.fields
        self.suffixed = set()
        for p, t in self.text.items():
            if not p.endswith((".antt", ".rt")):
                continue
            quiet = QUIET.sub(" ", t) if p.endswith(".antt") else t
            tokens = set(m[0] for m in WORD.finditer(quiet))
            others = {snake(w) for w in tokens if w not in dashed and w not in self.own.get(p, ())}
            for w in tokens & (self.laws | self.own.get(p, set())):
                if self.joined(w) in others:
                    self.suffixed.add(w)

    def kept(self, t):
        """The names that a file imports from a library."""
        out = set()
        for m in IMPORT.finditer(t):
            steps = m[1].split(".")
            if steps[0] == "Rattle" and len(steps) > 1 and steps[1] in self.crates:
                continue
            for item in m[2].split(","):
                out.update(w.strip() for w in item.split(" as "))
        return out

    def word(self, w, before, keep, mine, path):
        if w in keep:
            return w
        if w == "get_d_map" and before.endswith("ListN."):
            return "get_or-map"
        if w in OTHER and path.endswith(".antt") and not before.endswith("."):
            return OTHER[w]
        if w == "runStarts":
            return OTHER[w]
        if not re.match(r"[a-z_]", w):
            return w
        new = w
        behind = before.endswith(".") and not before.endswith("..")
        if "-" in w:
            upper = False
            if behind:
                head = re.search(r"([^\s(){}.;,@\"«»]+)\.$", before)
                upper = bool(head) and head[1][0].isupper()
            if w in self.fields or ((w in self.laws or w in mine) and (not behind or upper)):
                return w.replace("-", "_") if w in self.fields and w not in self.laws else self.joined(w) + ("_lem" if w in self.suffixed else "")
            elif not CAMEL.search(w) and "getD" not in w:
                return w
        return snake(new) if (CAMEL.search(new) or "getD" in new or "get_d" in new) else new

    def code(self, t, keep, mine, path):
        out, last = [], 0
        for m in WORD.finditer(t):
            new = self.word(m[0], t[max(0, m.start() - 80) : m.start()], keep, mine, path)
            behind = t[max(0, m.start() - 1) : m.start()] == "."
            if not behind:
                self.met[path][new].add(m[0])
            if new != m[0]:
                out.append(t[last : m.start()])
                out.append(new)
                last = m.end()
        out.append(t[last:])
        return "".join(out)

    def comment(self, t, keep, mine, path):
        """A comment: words with a capital inside alone, and names in backticks."""
        return WORD.sub(lambda m: self.word(m[0], "", keep, mine, path) if (CAMEL.match(m[0]) or m[0] in self.laws) else m[0], t)

    def antt(self, path, t):
        keep, mine = self.kept(t), self.own.get(path, set())
        out, last = [], 0
        for m in QUIET.finditer(t):
            out.append(self.code(t[last : m.start()], keep, mine, path))
            out.append(self.comment(m[0], keep, mine, path) if m[0].startswith("--") else m[0])
            last = m.end()
        out.append(self.code(t[last:], keep, mine, path))
        return "".join(out)

    def rt(self, path, t):
        """Clauses, ghost items and comments. Rust's own names have no capital inside a word that begins small, so such a word is the logic's."""
        keep = self.kept(t)
        quoted = re.compile(r'//[^\n]*|b?"(?:[^"\\\n]|\\.)*"|ghost use[^;]*;|(?:requires|ensures)\*?(?: \w+)? \{')
        out, last = [], 0
        for m in quoted.finditer(t):
            if m.start() < last:
                continue
            out.append(t[last : m.start()])
            end = m.end()
            if m[0].startswith("//"):
                out.append(self.comment(m[0], keep, set(), path))
            elif m[0].startswith(("b\"", '"')):
                out.append(m[0])
            else:
                if not m[0].startswith("ghost"):
                    depth = 1
                    while depth:
                        depth += {"{": 1, "}": -1}.get(t[end], 0)
                        end += 1
                out.append(self.code(t[m.start() : end], keep, set(), path))
            last = end
        out.append(t[last:])
        return "".join(out)

    def edit(self, path, t):
        of = re.search(r"^file: (\S+)", t, re.M)
        if of and of[1].endswith(".antt"):
            return re.sub(r"^((?:old|new): )(.*)$", lambda m: m[1] + self.code(m[2], set(), set(), path), t, flags=re.M)
        return re.sub(
            r"^((?:old|new): .*(?:ensures|requires).*)$", lambda m: self.code(m[1], set(), set(), path), t, flags=re.M
        )

    def document(self, path, t):
        def turn(m):
            return WORD.sub(lambda w: self.word(w[0], "", set(), set(), path) if (CAMEL.match(w[0]) or w[0] in self.laws or w[0] in self.fields) else w[0], m[0])

        return SPAN.sub(turn, FENCE.sub(turn, t))

    def run(self, check):
        changed = 0
        out = {}
        for p, t in self.text.items():
            new = self.antt(p, t) if p.endswith(".antt") else self.rt(p, t) if p.endswith(".rt") else self.edit(p, t)
            out[p] = new
        for p in sorted(self.met):
            for new, olds in sorted(self.met[p].items()):
                if len(olds) > 1:
                    print(f"meet: {os.path.relpath(p, self.top)}: {new} <- {' '.join(sorted(olds))}")
        for p in list(out):
            if p.endswith(".rt"):
                self.parameters(p, out[p])
        docs = [os.path.join(self.top, "README.md"), os.path.join(self.top, "CONTRIBUTING.md")]
        for folder, _, names in os.walk(os.path.join(self.top, "docs")):
            docs += [os.path.join(folder, n) for n in names if n.endswith(".md") and n not in ("PORT.md", "LAWS.md")]
        for p in docs:
            with open(p, encoding="utf-8") as f:
                self.text[p] = f.read()
            out[p] = self.document(p, self.text[p])
        for p, new in out.items():
            if new != self.text[p]:
                changed += 1
                if not check:
                    with open(p, "w", encoding="utf-8") as f:
                        f.write(new)
        print(f"respell: {changed} files; {len(self.laws)} laws and {len(self.fields)} fields with a dash")

    def parameters(self, path, t):
        """Shows a clause's word that a parameter of its function would hide."""
        words = set()
        for m in re.finditer(r"ghost use[^;]*;", t):
            words.update(WORD.findall(m[0]))
        for m in re.finditer(r"\bfn (\w+)(?:<[^>]*>)?\(([^{]*?)\)(?: -> [^{]*?)?\s*(?=requires|ensures|\{)", t):
            for q in re.findall(r"(\w+):", m[2]):
                if q in words:
                    print(f"hidden: {os.path.relpath(path, self.top)}: fn {m[1]}: parameter {q} is a word")


def main(argv):
    check = "--check" in argv
    rest = [a for a in argv if a != "--check"]
    Respeller(os.path.abspath(rest[0] if rest else ".")).run(check)


if __name__ == "__main__":
    main(sys.argv[1:])
