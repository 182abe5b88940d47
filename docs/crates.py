"""Reads the crates' files: each definition, law and function with its place. docs/check.py works on what this finds.

It knows as much of the two languages as their layout shows, with no parser: an item starts at the indentation of its module, and
what belongs to it is indented further.
"""
import dataclasses
import pathlib
import re

ROOT = pathlib.Path(__file__).resolve().parent.parent
HEADER = re.compile(r"(module|(?:pub )?record|(?:pub )?data)\s+(\S+)(.*)")
SIGNATURE = re.compile(r"((?:abbrev |unfoldable |pub )*)([^\s(){}:=,;]+(?: [^\s(){}:=,;]+)*)(?: \{[^}]*\})? : (.*)")
UNFOLDS = re.compile("abbrev|unfoldable")
RULES = re.compile(r"(pub )?ruleset (\S+) =")
MEMBER = {"record": "field", "data": "case"}
RUST_ITEM = re.compile(r"(?:pub )?(?:extern \"C\" )?(fn|struct|enum|const|impl|mod)\s+(\w+)")
RUST_MEMBER = re.compile(r"(?:pub )?(\w+)(?:[:,(]|$)")
USE = re.compile(r"(?:pub |ghost )*use (\S+?)(?:\.\{([^}]*)\})?(?: as (\S+?))?;?$")


@dataclasses.dataclass
class Item:
    """A named thing of a file: `kind` is law, definition, record, data, field, case, or a Rattle word such as fn."""
    file: "File"
    name: str
    kind: str
    public: bool
    line: int
    owner: str = ""
    telescope: str = ""
    statement: str = ""
    first: str = ""
    comment: str = ""
    end: int = 0


@dataclasses.dataclass
class File:
    """A file of a crate: `part` is src, specs or proofs, `module` its path below that, with dots."""
    path: pathlib.Path
    crate: str
    part: str
    module: str
    lines: list
    items: list = dataclasses.field(default_factory=list)
    imports: dict = dataclasses.field(default_factory=dict)

    @property
    def shown(self):
        return self.path.relative_to(ROOT).as_posix()

    @property
    def is_function(self):
        """Whether it proves one function, whose contract is then its statement: a file in that function's folder, whose name is no module's."""
        return self.part == "proofs" and bool(re.search(r"(^|\.)[a-z_+]\w*\.(Proof|Invariants|Answers)$", self.module))

    def head(self):
        """Returns the file's first comment, as one line; a list of names in it is left out."""
        taken = []
        for line in self.lines:
            if not re.match(r"(--|//) [^ -]", line):
                break
            taken.append(line[2:].strip())
        return " ".join(taken)


def indent(line):
    return len(line) - len(line.lstrip(" "))


def comment_above(lines, at, depth):
    """Returns the comment lines that end right above line `at` at indentation `depth`, as one line; section lines are none."""
    taken = []
    while at > 0 and indent(lines[at - 1]) == depth and re.match(r" *(--|//) (?!---)", lines[at - 1]):
        at -= 1
        taken.insert(0, lines[at].strip()[2:].strip())
    return " ".join(taken)


def imports(file):
    """Notes for each name that the file uses where it comes from, crate, part and module, or the kit's module."""
    for line in file.lines:
        found = USE.match(line)
        if not found:
            continue
        path, names, other = found.groups()
        path = path.removeprefix("Rattle.")
        for name in re.split(r", *", names) if names else []:
            file.imports[name.split(" as ")[-1].strip()] = path
        if other:
            file.imports[other + "."] = path


def end_of(lines, start):
    """Returns where what starts at a line ends: a header after its `where`, a signature or a clause before the next line out here."""
    depth, end = indent(lines[start]), start + 1
    header = HEADER.match(lines[start].strip())
    while end < len(lines) and lines[end].strip() and indent(lines[end]) > depth and not lines[end].strip().startswith("--"):
        if header and lines[end - 1].endswith(" where"):
            break
        end += 1
    return end


def read_proofs(file):
    """Finds the items of a file of definitions or laws: `around` holds the modules, records and types around the line."""
    lines, around, start = file.lines, [], 0
    while start < len(lines):
        line = lines[start]
        if not line.strip() or line.strip().startswith("--") or line.startswith(("use ", "pub use ", "pub mod ")):
            start += 1
            continue
        depth = indent(line)
        while around and depth <= around[-1]["depth"]:
            around.pop()
        if around and around[-1]["body"] is None:
            around[-1]["body"] = depth
        if depth != (around[-1]["body"] if around else 0):
            start += 1
            continue
        end = end_of(lines, start)
        text = " ".join(part.strip() for part in lines[start:end])
        inside = around[-1] if around and around[-1]["kind"] != "module" else None
        here = {"line": start + 1, "end": end, "first": line.strip(), "comment": comment_above(lines, start, depth),
                "owner": inside["name"] if inside else "",
                "telescope": " ".join(o["telescope"] for o in around if o["kind"] == "module")}
        header, signature, rules = HEADER.match(text), SIGNATURE.match(text), RULES.match(text)
        if header and text.endswith(" where"):
            kind, telescope = header.group(1).split()[-1], header.group(3).rsplit(" where", 1)[0].strip()
            if kind != "module":
                file.items.append(Item(file, header.group(2), kind, text.startswith("pub"), statement=telescope, **here))
            around.append({"depth": depth, "body": None, "kind": kind, "telescope": telescope, "name": header.group(2)})
        elif signature and (inside or " " not in signature.group(2)):
            words, names, statement = signature.groups()
            kind = MEMBER[inside["kind"]] if inside else "definition" if file.part == "specs" or UNFOLDS.search(words) else "law"
            for name in names.split():
                file.items.append(Item(file, name, kind, "pub" in words, statement=statement, **here))
        elif rules:
            file.items.append(Item(file, rules.group(2), "ruleset", bool(rules.group(1)), **here))
        elif file.items and text.split(" ")[0] == file.items[-1].name:
            while end < len(lines) and (not lines[end].strip() or indent(lines[end]) > depth):
                end += 1
            file.items[-1].end = end
        start = end


def read_source(file):
    """Finds the functions, types and constants of a source file, those of an `impl` and an enum's cases with their type."""
    owner, kind = "", ""
    for i, line in enumerate(file.lines):
        depth, text = indent(line), line.strip()
        if depth == 0 and text and not text.startswith(("//", "#", "}", ")")):
            owner = ""
        found = RUST_ITEM.match(text)
        if found and found.group(1) == "impl":
            owner, kind = found.group(2), "impl"
        elif found and found.group(1) != "mod":
            if depth == 0 or (owner and kind == "impl" and depth == 4):
                file.items.append(Item(file, found.group(2), found.group(1), text.startswith("pub"), i + 1, owner if depth else ""))
            if depth == 0 and found.group(1) in ("struct", "enum"):
                owner, kind = found.group(2), found.group(1)
        elif owner and kind in ("struct", "enum") and depth == 4 and RUST_MEMBER.match(text):
            file.items.append(Item(file, RUST_MEMBER.match(text).group(1), "field", True, i + 1, owner))


def listed():
    """Returns the crates of crates.txt, in its order."""
    lines = (ROOT / "crates.txt").read_text().splitlines()
    return [line.split(":")[0].split()[0] for line in lines if ":" in line and not line.startswith("#")]


def read_all():
    """Returns the files of the crates that crates.txt lists, in its order, specs before proofs before src."""
    files = []
    for crate in listed():
        for part, ending in (("specs", ".antt"), ("proofs", ".antt"), ("src", ".rt")):
            home = ROOT / "crates" / crate / part
            for path in sorted(home.rglob("*" + ending)):
                module = ".".join(path.relative_to(home).with_suffix("").parts)
                if module == "Lib":
                    continue
                file = File(path, crate, part, module, path.read_text().splitlines())
                imports(file)
                (read_source if part == "src" else read_proofs)(file)
                files.append(file)
    return files
