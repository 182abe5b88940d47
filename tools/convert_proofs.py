#!/usr/bin/env python3
"""Turns proofs/F/Proof.antt of the older form, which answers the needs of F's Tie, into Invariants.antt and Answers.antt.

usage: tools/convert_proofs.py NAMES CRATE..      at the top of the repository; NAMES is the folder that `rt names NAMES` wrote

Each need gets the name of its goal, each step and place its name of today, and each fact of several clauses its labels. Answers that a search
alone proves are left out. A file with laws that speak of places in the code stays a Proof.antt, in today's names, since an answer's laws can name
few places. It goes by text and proves nothing: rt check decides. A Proof.antt with no Tie stays.
"""

import json
import os
import re
import sys

WORD = r"[^\s(){}.;,@\"«»]+"
PARAMETER = r"[^\s(){}.;,@\"«»=]+"
TRIVIAL = re.compile(r"^(?:search rules|omega arith|refl|tt)$")
RESPELLED = {"well-formed": "well_formed", "int-to-float": "int_to_float"}
PREFIX = re.compile(r"^(?:overflow|nonzero|bounds|offset_bounds)[-_]")


def fold(name):
    return name.replace("-", "_")


def split_items(text):
    """The items of a file at the margin, each with its comments: (comment, lines)."""
    items, comment, now = [], [], None
    for line in text.split("\n"):
        if line.startswith("--"):
            if now:
                items.append(now)
                now = None
            comment.append(line)
        elif line and not line[0].isspace() and not (line[0] in ")]" ):
            if now:
                items.append(now)
            now = (comment, [line])
            comment = []
        elif now:
            now[1].append(line)
        elif comment and not line.strip():
            # a comment with a blank line after it stands alone
            items.append((comment, []))
            comment = []
    if now:
        items.append(now)
    return items


def head_of(line):
    m = re.match(rf"(?:(?:abbrev|pub|unfoldable) )*({WORD})(?: \{{[^}}]*\}})* :", line)
    return m[1] if m else None


class Function:
    def __init__(self, crate, path, data, text, source):
        self.crate, self.path, self.data, self.text = crate, path, data, text
        self.module = f"Rattle.{crate}.proofs.{path.replace('/', '.')}"
        self.places, self.steps, self.sub, self.callee, self.labels = {}, {}, {}, {}, {}
        for i, (place, _, (old, new), callee, renames) in enumerate(data["places"]):
            self.places[fold(place)] = data["places_by_name"][i]
            if old:
                self.steps.setdefault(fold(old), new)
            for a, b in renames:
                self.sub.setdefault(new, {})[a] = b
            if callee:
                self.callee[new] = callee
            clauses = data["clauses"][i]
            if clauses and len(clauses["fields"]) > 1:
                self.labels[new] = clauses["fields"]
        self.needs = {}
        for old, new in data["needs"]:
            self.needs[fold(old)] = new
        self.settled = {fold(s) for s in data["settled"]}
        self.loops = []
        for (old, new), names in data["loops"]:
            self.loops.append((old, new, names))
        self.notes = []
        self.others = set()
        self.source = source
        self.steps_lower = {k.lower(): v for k, v in self.steps.items()}
        self.whole = False
        self.dropped = set()

    # ---- names

    def need(self, name):
        for k in (fold(name), fold(PREFIX.sub("", name)), fold(re.sub(r"^slice[-_]bounds[-_]", "part_", name))):
            if k in self.needs:
                return self.needs[k]
        return None

    def place(self, name):
        return self.places.get(fold(name))

    def nested(self, index_path, count):
        """.0, .1.0, .1.1: which of count parts a path of nested pairs names, and how many of its numbers that takes."""
        at, used = 0, 0
        for k in index_path:
            used += 1
            if k == "0":
                return at, used
            at += 1
            if at == count - 1:
                return at, used
        return None, 0

    def paths(self, body, aliases):
        """Renames what stands behind dots."""
        tokens = re.split(rf"((?<=\.){WORD})", body)
        # rebuild by chains: a head, then .field .field
        chain = re.compile(rf"({WORD}|\))((?:\.{WORD})+)")

        def turn(m):
            head, rest = m[1], m[2][1:].split(".")
            out, i = [], 0
            step = aliases.get(head)
            while i < len(rest):
                f = rest[i]
                if f in RESPELLED:
                    f = rest[i] = RESPELLED[f]
                if step and f in ("ensures",) and not self.whole and step in self.labels and i + 1 < len(rest) and rest[i + 1].isdigit():
                    at, used = self.nested(self.digits(rest, i + 1), len(self.labels[step]))
                    if at is not None:
                        out += [f, self.labels[step][at]]
                        i += 1 + used
                        step = None
                        continue
                if step and f in ("new", "auto", "kept") and step in self.callee and i + 1 < len(rest) and rest[i + 1].isdigit():
                    params = self.data["params"].get(self.callee[step], [])
                    digits = self.digits(rest, i + 1)
                    at = 0
                    while at < len(digits) and digits[at] == "1":
                        at += 1
                    if at < len(digits) and at < len(params):
                        out += [f, params[at]]
                        i += 2 + at
                        step = None
                        continue
                if step and f in self.sub.get(step, {}):
                    out.append(self.sub[step][f])
                    step = None
                    i += 1
                    continue
                if f == "requires" and not self.whole and self.data["pre"] and len(self.data["pre"]["fields"]) > 1 and i + 1 < len(rest) and rest[i + 1].isdigit() and not step:
                    fields = self.data["pre"]["fields"]
                    at, used = self.nested(self.digits(rest, i + 1), len(fields))
                    if at is not None:
                        out += [f, fields[at]]
                        i += 1 + used
                        continue
                if not f.isdigit() and f != "args" and (not out and head not in self.others or out[-1:] == ["before"]):
                    new = self.steps.get(fold(f)) or self.steps_lower.get(fold(f).lower())
                    if new:
                        out.append(new)
                        step = new
                        i += 1
                        continue
                step = None
                if "-" in f and fold(f) in self.source:
                    f = fold(f)
                out.append(f)
                i += 1
            # a chain of before's before a step is not needed
            flat = out
            k = 0
            while k < len(flat) and flat[k] == "before":
                k += 1
            if 0 < k < len(flat) and head != ")":
                flat = flat[k:]
            return head + "".join("." + f for f in flat)

        return chain.sub(turn, body)

    @staticmethod
    def digits(rest, i):
        out = []
        while i < len(rest) and rest[i].isdigit():
            out.append(rest[i])
            i += 1
        return out

    def aliases(self, body):
        """Names bound by let to a step of a context."""
        out = {}
        self.others = set()
        for m in re.finditer(rf"\blet ({WORD}) = ({WORD}|\([^()]*\))((?:\.{WORD})+) in\b", body):
            fields = m[3].split(".")[1:]
            if fields[-1] == "before":
                continue
            self.others.add(m[1])
            if fold(fields[-1]) in self.steps and all(x == "before" for x in fields[:-1]):
                out[m[1]] = self.steps[fold(fields[-1])]
        return out

    def types(self, text):
        if self.whole:
            return self.whole_types(text)

        def turn(m):
            new = self.place(m[1])
            if new is None:
                need = self.need(m[1][5:]) if m[1].startswith("Need-") else None
                if need:
                    return "goal." + need
                self.notes.append("place " + m[1])
                return "goal." + m[1]
            return "goal." + new

        return re.sub(rf"\btie\.({WORD})((?:\s+(?:invariant|decreases)-[\w-]+)*)", turn, text)

    def whole_types(self, text):
        def turn(m):
            w = m[1]
            k = re.match(r"(invariant|decreases)-(\S+)$", w)
            if k:
                new = next((new for old, new, _ in self.loops if fold(old) == fold(k[2])), None)
                if new is None:
                    self.notes.append("loop " + w)
                return f"tie.{k[1]}-{new or k[2]}"
            if w.startswith("Need-"):
                need = self.need(w[5:])
                if need is None:
                    self.notes.append("need " + w)
                return "tie.Need-" + (need or w[5:])
            if w in ("close", "spec"):
                return m[0]
            new = self.place(w)
            if new is None:
                self.notes.append("place " + w)
            return "tie." + (new or w)

        return re.sub(rf"\btie\.({WORD})", turn, text)

    def convert_whole(self):
        """The same file with today's names: for a function whose own laws speak of places."""
        self.whole = True
        items = split_items(self.text)
        out, answers, invs = [], {}, []
        name, goal = None, None
        for comment, lines in items:
            text = "\n".join(lines)
            first = lines[0] if lines else ""
            if re.search(r"\bstatement M\b", text) or re.match(rf"(?:pub )?\S*[-_]spec =", first):
                continue
            m = re.match(rf"(?:(?:abbrev|pub) )*({WORD})\s*:\s*tie\.(Need-)?({WORD})(.*)$", text, re.S)
            if m and m[2]:
                name, goal = m[1], self.need(m[3])
                if goal is None and fold(PREFIX.sub("", m[3])) in self.settled:
                    self.dropped.add(name)
                    continue
                if goal is None:
                    self.notes.append("need " + m[3])
                    self.dropped.add(name)
                    continue
                answers[goal] = name
            elif m and re.match(r"(invariant|decreases)-", m[3]):
                invs.append(m[1])
            d = re.match(rf"({WORD})((?:\s+{PARAMETER})*)\s*=(?=\s)(.*)$", text, re.S)
            if d and d[1] in self.dropped:
                continue
            text = self.body(text)
            out.append("\n".join(comment + ([text] if text else [])).rstrip())
        given = " ".join(invs)
        order = list(invs)
        for old, new in self.data["needs"]:
            if new in answers:
                order.append(answers[new])
            else:
                local = "need-" + new
                out.append(f"{local} : tie.Need-{new}{' ' if given else ''}{given}\n{local} c = search rules")
                order.append(local)
                if "rules}" not in self.text and "rules," not in self.text:
                    out.insert(0, "use borrow.Author.Rules.{rules}")
        spec = self.path.split("/")[-1].lstrip("+") + "_spec"
        out.append(f"pub {spec} : {{M : Type 1}} → statement M\n{spec} =\n    tie.close\n    (tie.spec\n    " + "\n    ".join(order) + ")")
        # lines of use stay together; a signature and its definition too
        text = ""
        for k, o in enumerate(out):
            f = o.split("\n")
            sig = out[k - 1].split("\n") if k else [""]
            together = k and (o.startswith("use ") and out[k - 1].startswith("use "))
            if k:
                last = [x for x in sig if not x.startswith("--")][0] if any(not x.startswith("--") for x in sig) else ""
                h = head_of(last) or re.match(rf"(?:(?:abbrev|pub) )*({WORD})?", last)[1]
                first = next((x for x in f if not x.startswith("--")), "")
                if h and (re.match(rf"{re.escape(h)}(?=\s)", first)) or last.startswith("unfolding") or first.startswith("unfolding"):
                    together = True
            text += ("\n" if together else "\n\n") + o if k else o
        return {"Proof.antt": text + "\n"}

    def body(self, text):
        return self.paths(self.types(text), self.aliases(text))

    # ---- facts of several clauses

    def record(self, text, labels):
        """A body that ends in a tuple becomes one that ends in a record of the labels."""
        lead, tail = self.last_term(text)
        parts = self.tuple_parts(tail)
        flat = []
        while parts and len(flat) + len(parts) < len(labels) and len(parts) >= 2:
            inner = self.tuple_parts(parts[-1])
            flat += parts[:-1]
            if not inner:
                parts = [parts[-1]]
                break
            parts = inner
        if parts:
            flat += parts
        if len(flat) == len(labels):
            pairs = "; ".join(f"{l} = {p.strip()}" for l, p in zip(labels, flat))
            return lead + "record { " + pairs + " }"
        if re.match(r"^(search|grind|omega|first_of|hlevel|assumption)\b", tail.strip()):
            return text
        path = []
        for i in range(len(labels)):
            path.append("it" + ".1" * i + (".0" if i < len(labels) - 1 else ""))
        self.notes.append("record " + labels[0])
        return lead + "(let it = " + tail.strip() + " in record { " + "; ".join(f"{l} = {p}" for l, p in zip(labels, path)) + " })"

    @staticmethod
    def last_term(text):
        """Cuts a body after its last 'in' at depth 0."""
        depth, at = 0, 0
        for m in re.finditer(r"[(\[{]|[)\]}]|(?<![^\s(){}])in(?=\s)", text):
            if m[0] in "([{":
                depth += 1
            elif m[0] in ")]}":
                depth -= 1
            elif depth == 0:
                at = m.end()
        # the form 'let .. in (' with the tuple behind
        return text[:at] + (" " if at else ""), text[at:]

    @staticmethod
    def tuple_parts(term):
        term = term.strip()
        if not (term.startswith("(") and term.endswith(")")):
            return None
        depth, parts, now = 0, [], ""
        for i, ch in enumerate(term):
            if ch in "([{":
                depth += 1
                if depth == 1 and i == 0:
                    continue
            if ch in ")]}":
                depth -= 1
                if depth == 0 and i < len(term) - 1:
                    return None
                if depth == 0:
                    break
            if ch == "," and depth == 1:
                parts.append(now)
                now = ""
            else:
                now += ch
        if now.strip():
            parts.append(now)
        return parts if len(parts) > 1 else None

    # ---- invariants

    def invariant(self, kind, k, lines):
        """Invariant or measure of loop k over one record."""
        old, new, names = self.loops[k]
        changed = self.data["changed"][k]
        text = "\n".join(lines)
        m = re.match(rf"(?:{WORD})((?:\s+(?:{PARAMETER}|\([^)]*\)))*?)\s*=(?=\s)(.*)$", text, re.S)
        params = m[1].split()
        fields = []
        for n, c in zip(names, changed):
            fields.append("l.initial." + n if c else "l." + n)
        fields += ["l." + n for n, c in zip(names, changed) if c]
        rest = m[2]
        if len(params) != len(fields):
            self.notes.append(f"{kind}-{new}: {len(params)} parameters for {len(fields)}")
        pairs = dict(zip(params, fields))
        bound = set()
        for b in re.finditer(r"λ ((?:\([^)]*\)|[^.()])*)\.", rest):
            bound.update(re.findall(WORD, b[1]))
        bound.update(re.findall(rf"\(({WORD})(?: {WORD})* : ", rest))
        bound.update(x for b in re.finditer(rf"\(({WORD}(?: {WORD})*) : ", rest) for x in b[1].split())
        bound.update(re.findall(rf"\blet ({WORD})", rest))
        lets = [p for p in params if p in bound and p != "_"]
        sub = {p: f for p, f in pairs.items() if p not in lets}

        def turn(w):
            if rest[max(0, w.start() - 1) : w.start()] == ".":
                return w[0]
            return sub.get(w[0], w[0])

        turned = re.sub(WORD, turn, rest)
        if lets:
            # a bound name hides the parameter: rename the parameter by a let in front
            self.notes.append(f"{kind}-{new}: bound {' '.join(lets)}")
            turned = " " + " ".join(f"let {p} = {pairs[p]} in" for p in lets) + turned
        name = f"{kind}-{new}"
        return [f"abbrev pub {name} : goal.{name}", f"{name} l ={turned}"]

    # ---- the whole

    def convert(self):
        if not re.search(r"\.Tie as tie\b", self.text):
            return None
        items = split_items(self.text)
        uses, others, invariants, answers = [], [], {}, []
        i = 0
        specname = None
        decl = []  # grouped declarations: (comment, name, signature lines, [definition lines])
        while i < len(items):
            comment, lines = items[i]
            if not lines:
                decl.append((comment, None, [], []))
                i += 1
                continue
            first = lines[0]
            if first.startswith("use "):
                uses.append((comment, lines))
                i += 1
                continue
            name = head_of(first)
            if name is None and not re.match(r"(module|record|data|pub record|pub data|ruleset|pub ruleset)\b", first):
                # a signature whose ':' stands on a later line
                m = re.match(rf"(?:(?:abbrev|pub) )*({WORD})", first)
                name = m[1] if m else None
            group = []
            j = i + 1
            if name is not None:
                while j < len(items) and items[j][1]:
                    f = items[j][1][0]
                    if f.startswith("unfolding "):
                        group.append(items[j][1])
                        j += 1
                        continue
                    if re.match(rf"{re.escape(name)}(?=[\s])", f) and not re.match(rf"{re.escape(name)}(?: \{{[^}}]*\}})* :(?=[\s])", f):
                        group.append(items[j][1])
                        j += 1
                        continue
                    break
            decl.append((comment, name, lines, group))
            i = j
        out_answers, out_invariants, helpers = [], [], []
        for comment, name, sig, group in decl:
            sigtext = "\n".join(sig)
            if name is None:
                helpers.append((comment, None, [self.strip(self.body("\n".join(sig)))] if sig else [], []))
                continue
            if re.search(r"\bstatement M\b", sigtext):
                continue
            m = re.search(rf": *tie\.((?:invariant|decreases)-({WORD}))\s*$", sigtext)
            if m:
                kind = m[1].split("-")[0]
                k = next((k for k, (old, new, _) in enumerate(self.loops) if fold(old) == fold(m[2])), None)
                if k is None:
                    self.notes.append("loop " + m[2])
                    continue
                out_invariants.append((comment, kind, k, group[-1], group[:-1]))
                continue
            m = re.search(rf":\s*tie\.Need-({WORD})", sigtext)
            if m and re.match(rf"(?:pub )?{re.escape(name)}\s*:\s*tie\.Need-", sigtext):
                goal = self.need(m[1])
                if goal is None:
                    if fold(PREFIX.sub("", m[1])) not in self.settled:
                        self.notes.append("need " + m[1])
                    self.unanswered = True
                    # keep it as a comment-free law only where another answer cites it
                    continue
                answers.append((comment, name, goal, group))
                continue
            helpers.append((comment, name, sig, group))
        # answers that others cite keep their old name as an abbreviation
        alltext = self.text
        rename = {name: goal for _, name, goal, _ in answers}
        inv_names = set()
        inv_text = []
        for comment, kind, k, lines, unfolds in out_invariants:
            body = self.invariant(kind, k, lines)
            inv_text.append("\n".join(comment + [body[0]] + ["\n".join(u) for u in unfolds] + body[1:]))
        invbody = "\n".join(inv_text)
        # helpers that invariants cite
        need = set()
        grown = True
        words = set(re.findall(WORD, re.sub(r"(?m)^--.*$", "", invbody)))
        while grown:
            grown = False
            for _, name, sig, group in helpers:
                if name and name in words and name not in need:
                    need.add(name)
                    for l in [sig] + group:
                        words |= set(re.findall(WORD, "\n".join(l)))
                    grown = True
        inv_helpers, ans_helpers = [], []
        for h in helpers:
            (inv_helpers if h[1] in need else ans_helpers).append(h)

        def show(h, public):
            comment, name, sig, group = h
            s = self.strip(self.body("\n".join(sig)))
            if public and name and not re.match(r"(abbrev )?pub |pub ", s):
                s = s.replace("abbrev ", "abbrev pub ", 1) if s.startswith("abbrev ") else "pub " + s
            parts = comment + ([s] if s else [])
            for g in group:
                parts.append(self.strip(self.body("\n".join(g))))
            return "\n".join(parts)

        used_ans = []
        for comment, name, goal, group in answers:
            unfolds = [g for g in group if g[0].startswith("unfolding ")]
            defs = [g for g in group if not g[0].startswith("unfolding ")]
            if len(defs) != 1:
                self.notes.append("answer of clauses " + goal)
            d = "\n".join(defs[0]) if defs else ""
            m = re.match(rf"{re.escape(name)}((?:\s+{PARAMETER})*)\s*=(?=\s)(.*)$", d, re.S)
            if not m:
                self.notes.append("answer form " + goal)
                used_ans.append((comment, name, goal, unfolds, None, d))
                continue
            params = m[1].split()
            body = self.body(m[2])
            labels = self.data["asked"].get(self.old_need(goal))
            if labels and len(labels) > 1:
                body = self.record(body, labels)
            if len(params) > 1 and re.search(rf"(?<![\w.-]){re.escape(params[1])}(?![\w-])", body):
                self.notes.append("κs used in " + goal)
            used_ans.append((comment, name, goal, unfolds, params, body))
        # drop what a search proves, unless another answer cites it
        cited = set()
        for _, name, _, _, _, body in used_ans:
            cited |= set(re.findall(WORD, body)) & set(rename)
        for _, _, sig, group in helpers:
            for l in [sig] + group:
                cited |= set(re.findall(WORD, "\n".join(l))) & set(rename)
        texts = []
        for comment, name, goal, unfolds, params, body in used_ans:
            if params is None:
                continue
            if TRIVIAL.match(body.strip()) and name not in cited and not unfolds:
                continue
            b = re.sub(WORD, lambda w: rename.get(w[0], w[0]) if body[max(0, w.start() - 1) : w.start()] != "." else w[0], body)
            c = params[0] if params else "c"
            text = comment + [f"pub {goal} : goal.{goal}"] + ["\n".join(u) for u in unfolds] + [f"{goal} {c} ={b}" if b.startswith("\n") else f"{goal} {c} = {b.strip()}"]
            texts.append("\n".join(text))
        hs = [show(h, False) for h in ans_helpers]
        hs = [re.sub(WORD, lambda w, h=h: rename.get(w[0], w[0]) if h[max(0, w.start() - 1) : w.start()] != "." else w[0], h) for h in hs]
        use_text = []
        for comment, lines in uses:
            t = "\n".join(lines)
            if re.search(r"\.Statement\.|\.Tie as tie", t):
                continue
            use_text.append("\n".join(comment + [t]))
        files = {}
        if inv_text:
            files["Invariants.antt"] = "\n".join(use_text) + f"\nuse {self.module}.Given as goal\n\n" + "\n\n".join([show(h, True) for h in inv_helpers] + inv_text) + "\n"
        if texts or any(h for h in hs if h.strip()) and texts:
            more = ""
            names = [h[1] for h in inv_helpers if h[1]]
            answer_text = "\n\n".join(h for h in hs + texts if h.strip())
            names = [n for n in names if re.search(rf"(?<![\w.-]){re.escape(n)}(?![\w-])", answer_text)]
            if names:
                more = f"use {self.module}.Invariants.{{{', '.join(names)}}}\n"
            files["Answers.antt"] = "\n".join(use_text) + "\n" + more + f"use {self.module}.Goals as goal\n\n" + answer_text + "\n"
        return {k: unused(v) for k, v in files.items()}

    def old_need(self, goal):
        for old, new in self.data["needs"]:
            if new == goal:
                return goal if goal in self.data["asked"] else old
        return goal

    @staticmethod
    def strip(text):
        return text.rstrip()


def unused(text):
    """Drops imports that the file does not use."""
    lines = text.split("\n")
    body = "\n".join(l for l in lines if not l.startswith("use "))
    words = set(re.findall(WORD, body))
    parts = set()
    for w in words:
        parts.add(w)
    out = []
    for l in lines:
        m = re.match(r"use (\S+)\.\{(.*)\}$", l)
        if m:
            keep = []
            for item in m[2].split(","):
                item = item.strip()
                name = item.split(" as ")[-1]
                if "◌" in name:
                    ops = [p for p in name.split("◌") if p]
                    if all(o in words or o in body for o in ops):
                        keep.append(item)
                elif name in words:
                    keep.append(item)
            if not keep:
                continue
            l = f"use {m[1]}.{{{', '.join(keep)}}}"
        out.append(l)
    return "\n".join(out)


def main(argv):
    names, crates = argv[0], argv[1:]
    for crate in crates:
        with open(os.path.join(names, "crates", crate, "names.json")) as f:
            data = json.load(f)
        base = os.path.join("crates", crate, "proofs")
        source = set()
        for folder, _, found in os.walk(os.path.join("crates", crate, "src")):
            for n in found:
                with open(os.path.join(folder, n)) as f:
                    source |= set(re.findall(r"\b[a-z]\w*", f.read()))
        for folder, _, found in os.walk(base):
            if "Proof.antt" not in found:
                continue
            path = os.path.relpath(folder, base)
            key = f"Rattle-{crate}-proofs.{path.replace('/', '.')}.Lts"
            if key not in data:
                print(f"left: {folder}: no names")
                continue
            with open(os.path.join(folder, "Proof.antt")) as f:
                text = f.read()
            fn = Function(crate, path, data[key], text, source)
            speaks = re.search(r"\btie\.(?!Need-|invariant-|decreases-|spec\b|close\b)", text)
            files = fn.convert_whole() if speaks and re.search(r"\.Tie as tie\b", text) else fn.convert()
            if files is None:
                print(f"left: {folder}: no Tie")
                continue
            for note in fn.notes:
                print(f"look: {folder}: {note}")
            os.remove(os.path.join(folder, "Proof.antt"))
            for name, t in files.items():
                with open(os.path.join(folder, name), "w") as f:
                    f.write(t)
            if not files and not os.listdir(folder):
                os.rmdir(folder)


if __name__ == "__main__":
    main(sys.argv[1:])
