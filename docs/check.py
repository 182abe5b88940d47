#!/usr/bin/env python3
"""Checks the documents against the crates, and writes what can be made from them.

    docs/check.py           lists what is wrong in the documents; exit status 1 where anything is
    docs/check.py --write   writes docs/LAWS.md, the links of docs/PROOFS.md, and the line numbers and lengths beside all links; then checks
    docs/check.py --laws    lists laws that are stated twice, up to bound names, public laws that nothing cites, and public names of proofs/
                            that only their own file uses

It needs Python alone. What it checks:
- A name in backticks that follows a crate, a module or a file (csc `nnz`, Blocks `rowOf`, `Tree.cliqueTree`) is defined there; any
  other name in backticks occurs in the sources. Paths exist, and so do the files that links name.
- A link to a line names what that line holds: a definition, or a piece of code.
- README's map and ARCHITECTURE's layers have every crate. PROOFS's tables name edits that exist, and every crate's edits.
- What docs/READING.md says of contracts: those of the door use layout's definitions alone; there are no axioms.
- docs/LAWS.md, the links of docs/PROOFS.md, line numbers and lengths of files are what --write makes.

In docs/PROOFS.md write names in backticks and no links: --write makes each name that has one place a link, and lists the places below.
"""
import collections
import os
import re
import sys

sys.dont_write_bytecode = True
import crates  # noqa: E402
import laws  # noqa: E402

ROOT = crates.ROOT
LINKED = "docs/PROOFS.md"
LAWS = "docs/LAWS.md"
NAMED = ["docs/PROOFS.md", "docs/READING.md", "docs/DECISIONS.md", "docs/ARCHITECTURE.md", "README.md", "CONTRIBUTING.md"]
PAGES = NAMED + ["docs/DIFFERENCES.md", "docs/ROUTES.md", "docs/SPEED.md", "rust/README.md", "python/README.md", "compare/README.md",
                 "reference/README.md"]
MARK = "<!-- The places of the names above, written by docs/check.py --write. -->"
SPAN = re.compile(r"`([^`\n]+)`")
NAME = re.compile(r"[^\s`(){}\[\],;:=<>*/]+(?:::[A-Za-z_]+)?")
LINK = re.compile(r"\[((?:`[^`]*`|[^\]`])*)\]\(([^)\s]+)\)")
REFERENCE = re.compile(r"\[(`[^`\n]+`)\](?:\[[^\]\n]*\])?(?!\()")
# a link to a file, and how many lines it has
LINES = re.compile(r"(\]\(([^)\s#]+)\)) \((\d+)\)")
# words between two names of one place
GOING_ON = re.compile(r"(,| and| to| or|, and| over| \.\.|,? then)? $")
MEMBERS = crates.MEMBER.values()
PATH = re.compile(r"(?<![\w/.-])((?:crates|docs|rust|c|compare|python|include|reference)/[\w./-]*[\w/])")


class Places:
    """What is defined where."""

    def __init__(self, files):
        self.files = files
        self.crates = set(crates.listed())
        self.by_name = collections.defaultdict(list)
        self.modules = collections.defaultdict(list)
        for file in files:
            if not file.is_function:
                for name in {file.module, file.module.split(".")[0], file.module.split(".")[-1]}:
                    self.modules[name].append(file)
            for item in file.items:
                self.by_name[item.name].append(item)
        self.words = set()
        for home in ("crates", "include", "rust", "c", "compare", "python", "reference"):
            for folder, _, names in os.walk(ROOT / home):
                if not re.search(r"/(target|out|__pycache__|data)\b", folder):
                    for name in names:
                        if name.endswith((".antt", ".rt", ".rs", ".h", ".c", ".py", "run", "solve", "setup", "test", ".toml")):
                            self.words.update(re.findall(r"[\w'₀₁₂-]+", open(os.path.join(folder, name), errors="replace").read()))
                            self.words.update(re.findall(r"\w+", name))

    def defined(self, name, crate=None, files=None):
        """Returns the items of that name, `X::y` and `X.y` by their owner, within a crate or files; public ones where there are any."""
        name, owner = (name.split("::")[-1], name.split("::")[0]) if "::" in name else (name, None)
        found = [i for i in self.by_name.get(name, []) if not i.file.is_function
                 and (crate is None or i.file.crate == crate) and (files is None or i.file in files)
                 and (owner is None or i.owner == owner or i.file.crate == owner)]
        found = [i for i in found if i.public] or found
        return [i for i in found if i.kind not in MEMBERS or owner] or found


def one(items):
    """Returns the item that is meant, the only one of the first of these that has any: layout's definitions, definitions, layout, all."""
    own = [i for i in items if i.kind not in MEMBERS]
    for kept in ([i for i in own if i.file.crate == "layout" and i.file.part == "specs"], [i for i in own if i.file.part == "specs"],
                 [i for i in own if i.file.crate == "layout"], own, items):
        if kept:
            return kept[0] if len(kept) == 1 else None
    return None


class Reader:
    """Goes over the names in backticks of one document's cells and sentences, and says what each is."""

    def __init__(self, places, page, report):
        self.places, self.page, self.report = places, page, report

    def names(self, line, number):
        """Returns (start, end, item or None) for each name in backticks of a line, and reports those that are nowhere."""
        found, files, crate, record, last, foreign, end = [], None, None, None, None, False, 0
        for span in SPAN.finditer(line):
            between = line[end:span.start()]
            end = span.end()
            if "|" in between:
                record = None
            if not GOING_ON.fullmatch(between):
                (files, crate), last = self.told(between), None
            text = span.group(1)
            foreign = foreign and between == " " or text.endswith(".rs")
            if foreign or not NAME.fullmatch(text) or text.startswith(("-", ".", "#")):
                continue
            after = re.match(r"(?:[^`|;]{0,3}\(| of )crates?[ /](\w+)", line[end:])
            is_field = re.search(r"\bfields? (`[^`]+`(,| and) )*$", line[:span.start()]) and not line[end:].startswith(" of ")
            item, wrong = self.meant(text, files, crate, record if is_field else None,
                                     after.group(1) if after and after.group(1) in self.places.crates else None, last)
            if wrong:
                self.report(self.page, number, wrong)
            if item is not None:
                last = item.file
                record = record if is_field else item
            found.append((span.start(), span.end(), item))
        return found

    def told(self, before):
        """Returns the files or the crate that the words right before a name say, as `Blocks`, `columns Runs`, `Calls.Cut` or `csc`."""
        words = re.search(r"(?:^|[\s(;,|])(?:([\w]+)(?:'s)? )?([\w.]+)(?:'s)? $", before)
        if not words:
            return None, None
        first, last = words.groups()
        crate = first if first in self.places.crates else None
        if last in self.places.modules and last[0].isupper():
            files = self.places.modules[last]
            own = [f for f in files if f.crate == (crate or "layout")]
            return own or files, None
        if last in self.places.crates:
            return None, last
        return None, None

    def meant(self, text, files, crate, record, after, last):
        """Returns the item that a name means, and what is wrong with it."""
        places = self.places
        if record is not None:
            fields = [i for i in record.file.items if i.owner == record.name and i.name == text]
            return (fields[0], None) if fields else (None, f"`{text}` is no field of {record.name}")
        if "." in text and not text.endswith("."):
            home, name = text.rsplit(".", 1)
            if home in places.modules:
                inside = [f for f in places.modules[home] if after is None or f.crate == after] or places.modules[home]
                found = places.defined(name, files=[f for f in inside if f.crate == (after or "layout")]) or places.defined(name, files=inside)
                return (found[0], None) if found else (None, f"`{name}` is not in {home}")
            fields = [i for i in places.by_name.get(name, []) if i.owner == home]
            if fields:
                return one(fields), None
            return None, None if text in places.words or set(re.findall(r"\w+", text)) <= places.words else f"`{text}` is nowhere"
        if files is not None:
            found = places.defined(text, files=files)
            return (one(found) or found[0], None) if found else (None, f"`{text}` is not in {files[0].shown}")
        if crate is not None:
            found = places.defined(text, crate=crate)
            source = [i for i in found if i.file.part == "src"]
            return (one(source or found) or found[0], None) if found else (None, f"`{text}` is not in crate {crate}")
        found = (last and places.defined(text, files=[last])) or places.defined(text, crate=after) or places.defined(text)
        if found:
            # a plain word without a place may be a bound name or English
            item = None if re.fullmatch("[a-z]+", text) and not (last and found[0].file is last) or text in places.crates else one(found)
            return (None if item and item.kind in MEMBERS and item.file.part == "src" else item), None
        known = text in places.words or set(re.findall(r"\w+", text)) <= places.words
        return None, None if known else f"`{text}` is nowhere"


def outside_code(text):
    """Returns (number, line) for the lines that are no code block."""
    fenced = False
    for number, line in enumerate(text.split("\n"), 1):
        if line.startswith("```"):
            fenced = not fenced
        elif not fenced and not line.startswith("    "):
            yield number, line


def bare(text):
    """Returns a document without the links that --write makes."""
    return REFERENCE.sub(r"\1", text.split("\n" + MARK)[0]).rstrip("\n") + "\n"


def relative(item, page):
    return os.path.relpath(item.file.path, (ROOT / page).parent) + f"#L{item.line}"


def labels(shown):
    """Returns a label for each pair of a name as it is shown and its item: the name, or else with its file, or also with its line. To
    Markdown upper and lower case are one."""
    ways = (lambda name, item: name,
            lambda name, item: " ".join(filter(None, [item.file.shown.removeprefix("crates/").rsplit(".", 1)[0], item.owner, item.name])),
            lambda name, item: f"{item.file.shown} {item.line} {item.name}")
    found = {}
    for way in ways:
        same = collections.defaultdict(set)
        for name, item in shown:
            same[way(name, item).casefold()].add(id(item))
        for name, item in shown:
            if len(same[way(name, item).casefold()]) == 1:
                found.setdefault((name, id(item)), way(name, item))
    return found


def linked(text, places):
    """Returns the document with each name that has one place as a link, and the places below."""
    lines, targets, reader = bare(text).split("\n"), {}, Reader(places, LINKED, lambda *_: None)
    spans = {number: [s for s in reader.names(line, number) if s[2] is not None and not in_link(line, s[0])]
             for number, line in outside_code("\n".join(lines)) if not line.startswith("#")}
    label_of = labels([(lines[number - 1][start:end], item) for number, found in spans.items() for start, end, item in found])
    for number, found in spans.items():
        line = lines[number - 1]
        for start, end, item in reversed(found):
            shown = line[start:end]
            label = label_of[shown, id(item)]
            targets[label] = relative(item, LINKED)
            line = line[:start] + f"[{shown}]" + ("" if label == shown else f"[{label}]") + line[end:]
        lines[number - 1] = line
    places_below = [f"[{label}]: {target}" for label, target in sorted(targets.items())]
    return "\n".join(lines) + "\n" + MARK + "\n\n" + "\n".join(places_below) + "\n"


def in_link(line, at):
    return any(found.start() <= at < found.end() for found in LINK.finditer(line))


def line_of(path, text, places):
    """Returns the lines of a file that hold what a link's text names: a definition, or else the text itself."""
    names = SPAN.findall(text)
    if not names:
        return []
    name = names[-1]
    items = [i.line for i in places.by_name.get(re.split(r"\.|::", name)[-1], []) if i.file.path == path]
    if items:
        return items
    return [n for n, line in enumerate(path.read_text().splitlines(), 1) if name in line]


def renumbered(text, page, places):
    """Returns the document with the line numbers of its links, and the lengths of files that links have beside them, as they are."""
    def again(found):
        label, target = found.groups()
        path, _, line = target.partition("#L")
        full = ((ROOT / page).parent / path).resolve()
        if not line or not full.is_file():
            return found.group(0)
        lines = line_of(full, label, places)
        return found.group(0) if not lines or int(line) in lines else f"[{label}]({path}#L{lines[0]})"

    def counted(found):
        full = ((ROOT / page).parent / found.group(2)).resolve()
        return f"{found.group(1)} ({len(full.read_text().splitlines())})" if full.is_file() else found.group(0)
    return LINES.sub(counted, LINK.sub(again, text))


# ---- the checks

def check_links(page, text, places, report):
    for number, line in outside_code(text):
        for found in LINK.finditer(line):
            label, target = found.groups()
            if re.match(r"https?:|#", target):
                continue
            path, _, at = target.partition("#L")
            full = ((ROOT / page).parent / path.split("#")[0]).resolve()
            if not full.exists():
                report(page, number, f"link to {path}, which is not there")
            elif at and int(at) not in line_of(full, label, places):
                report(page, number, f"line {at} of {path} does not hold {label}")
    for number, line in enumerate(text.split("\n"), 1):
        for path in PATH.findall(line):
            if not re.search(r"\b(NAME|FUNCTION|target|out)\b", path) and not (ROOT / path).exists():
                report(page, number, f"{path} is not there")
        for name in re.findall(r"(?<![\w/-])[A-Z]{4,}\.md", line):
            if not any((ROOT / home / name).exists() for home in ("", "docs", os.path.dirname(page))):
                report(page, number, f"{name} is not there")
        for path in re.findall(r"(?<![\w/])specs/[\w/]*\w", line):
            if not (ROOT / "crates/layout" / (path + ".antt")).exists():
                report(page, number, f"{path} is not in crate layout")


def check_crates(places, report):
    """README's map and ARCHITECTURE's table have every crate, and no other."""
    readme = re.findall(r"^\| (crates/[^|]*)\|", (ROOT / "README.md").read_text(), re.M)
    mapped = {name.removeprefix("crates/") for row in readme for name in re.split(r", ", row.strip())} - {"include/chordal.h"}
    layers = (ROOT / "docs/ARCHITECTURE.md").read_text().split("## Layers")[1].split("\n## ")[0]
    cells = [row.split("|")[2] for row in layers.split("\n") if row.startswith("| ")][1:]
    shown = {name for cell in cells for name in re.findall(r"[a-z_]+", re.sub(r"\([^)]*\)", "", cell))}
    for page, found in (("README.md", mapped), ("docs/ARCHITECTURE.md", shown)):
        for name in sorted(places.crates - found):
            report(page, 0, f"crate {name} is missing")
        for name in sorted(found - places.crates):
            report(page, 0, f"{name} is no crate")


def check_edits(text, places, report):
    """Edits that PROOFS names exist; those that it does not name are in crates of which it names none."""
    exist = {(path.parent.parent.name, path.stem) for path in (ROOT / "crates").glob("*/must-fail*/*.edit")}
    named, tables = set(), False
    for number, line in enumerate(bare(text).split("\n"), 1):
        tables = (tables or line.startswith("## Wrong programs")) and not line.startswith("## What rests")
        cells = [line.split("|")[2]] if tables and line.startswith("|") and "---" not in line else re.findall(r"\bedits? ([^|.`:]*)", line)
        for cell in cells:
            crate = None
            for word in re.findall(r"[\w-]+", cell):
                if word in places.crates:
                    crate = word
                elif "-" in word and crate:
                    named.add((crate, word))
                    if (crate, word) not in exist:
                        report(LINKED, number, f"{crate} has no edit {word}")
    for crate, edit in sorted(exist - named):
        if any(c == crate for c, _ in named):
            report(LINKED, 0, f"edit {crate} {edit} is in no table")


def check_trust(places, report):
    """What docs/READING.md says: contracts of the door use layout's specs alone, these no proofs; no axioms, no foreign declarations."""
    for file in places.files:
        if (file.crate, file.part) in (("door", "src"), ("layout", "specs")):
            for path in file.imports.values():
                if path.split(".")[0] in places.crates and not path.startswith("layout.specs."):
                    report(file.shown, 0, f"uses {path}")
        for number, line in enumerate(file.lines, 1):
            if re.match(r'\s*(pub )?axiom |\s*(unsafe )?extern "C" \{', line):
                report(file.shown, number, "an axiom or a foreign declaration")


def check(places):
    wrong = []
    report = lambda page, line, what: wrong.append(f"{page}:{line}: {what}" if line else f"{page}: {what}")
    for page in PAGES:
        if not (ROOT / page).exists():
            report(page, 0, "is missing")
            continue
        text = (ROOT / page).read_text()
        check_links(page, text, places, report)
        if page in NAMED:
            reader = Reader(places, page, report)
            for number, line in outside_code(bare(text)):
                reader.names(line, number)
    check_crates(places, report)
    check_trust(places, report)
    check_edits((ROOT / LINKED).read_text(), places, report)
    for page, text in made(places).items():
        if not (ROOT / page).exists() or (ROOT / page).read_text() != text:
            report(page, 0, "is not as the crates are; run docs/check.py --write")
    return wrong


def named_items(places):
    """Returns the ids of the items that the documents name."""
    found = set()
    for page in filter(lambda page: (ROOT / page).exists(), NAMED):
        reader = Reader(places, page, lambda *_: None)
        for number, line in outside_code(bare((ROOT / page).read_text())):
            found.update(id(item) for _, _, item in reader.names(line, number) if item is not None)
    return found


def made(places):
    """Returns what --write writes, by page."""
    pages = {LAWS: laws.index(places.files)}
    for page in PAGES:
        if (ROOT / page).exists():
            pages[page] = renumbered((ROOT / page).read_text(), page, places)
    pages[LINKED] = linked(pages[LINKED], places)
    return pages


def main(arguments):
    files = crates.read_all()
    if arguments == ["--laws"]:
        print("Stated twice, up to bound names:")
        for group in laws.repeated(files):
            print("  " + "; ".join(f"{law.file.shown}:{law.line} {law.name}" + ("" if law.public else " (not public)") for law in group))
        print("Public, and cited nowhere:")
        for law in laws.uncited(files, "".join((ROOT / page).read_text() for page in NAMED if (ROOT / page).exists())):
            print(f"  {law.file.shown}:{law.line} {law.name}")
        print("Public in proofs/, and used by their own file alone:")
        for item in laws.only_at_home(files, named_items(Places(files))):
            print(f"  {item.file.shown}:{item.line} {item.name}")
        return 0
    if arguments not in ([], ["--write"]):
        print(__doc__)
        return 2
    places = Places(files)
    if arguments:
        for page, text in made(places).items():
            if not (ROOT / page).exists() or (ROOT / page).read_text() != text:
                (ROOT / page).write_text(text)
                print(f"{page} written")
    wrong = check(places)
    print("\n".join(wrong) if wrong else "The documents agree with the crates.")
    return 1 if wrong else 0


if __name__ == "__main__":
    sys.exit(main(sys.argv[1:]))
