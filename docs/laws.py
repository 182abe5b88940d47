"""The laws: the index of the public ones, those that are stated twice, public ones that nothing cites, names that could be private."""
import collections
import re

TOKEN = re.compile(r"[(){},;]|[^\s(){},;]+")
INDEX_HEAD = """# Laws

Every public law of the crates, file by file: its comment, and the first line of its statement, with `…` where the statement goes on. What stands
under `given` has these parameters too. That a function meets its contract (the folder proofs/FUNCTION) is not listed: the contract stands above the
function. Written by `docs/check.py --write`.
"""


def public_laws(files):
    return [item for file in files if file.part == "proofs" and not file.is_function for item in file.items
            if item.kind == "law" and item.public]


def index(files):
    """Returns docs/LAWS.md."""
    by_file = collections.OrderedDict()
    for law in public_laws(files):
        by_file.setdefault(law.file.shown, []).append(law)
    out, crate = [INDEX_HEAD], None
    for shown, laws in by_file.items():
        file = laws[0].file
        if file.crate != crate:
            crate = file.crate
            out.append(f"## {crate}\n")
        out.append(f"### [{file.module}](../{shown})\n")
        if file.head():
            out.append(file.head() + "\n")
        given = ""
        for law in laws:
            if law.telescope not in ("", given):
                out.append(f"    given {law.telescope}")
            given, space = law.telescope, "      " if law.telescope else "    "
            if law.comment:
                out.append(f"{space}-- {law.comment}")
            out.append(space + law.first.removeprefix("pub ") + ("" if law.first.endswith(law.statement) else " …"))
        out.append("")
    return "\n".join(out)


# ---- statements with bound names left out

def split_binders(tokens):
    """Returns the tokens with `(a b : T)` as `(a : T) (b : T)`, braces as parentheses and no arrows, and the names that are bound."""
    out, bound, i = [], [], 0
    while i < len(tokens):
        token = tokens[i]
        if token in "({":
            j = i + 1
            while j < len(tokens) and not re.fullmatch(r"[(){},;:→]|λ", tokens[j]):
                j += 1
            if j < len(tokens) and tokens[j] == ":" and j > i + 1:
                close, depth = j, 1
                while depth and close + 1 < len(tokens):
                    close += 1
                    depth += (tokens[close] in "({") - (tokens[close] in ")}")
                kind, inner = split_binders(tokens[j + 1:close])
                bound += inner
                for name in tokens[i + 1:j]:
                    bound.append(name)
                    out += ["(", name, ":"] + kind + [")"]
                i = close + 1
                continue
        if token == "λ":
            j = i + 1
            while j < len(tokens) and not tokens[j].endswith(".") and tokens[j] not in "({":
                bound.append(tokens[j])
                j += 1
            if j < len(tokens) and tokens[j].endswith("."):
                bound.append(tokens[j][:-1])
        if token == "let" and i + 1 < len(tokens):
            bound.append(tokens[i + 1])
        if token != "→":
            out.append({"{": "(", "}": ")"}.get(token, token))
        i += 1
    return out, bound


def head(token):
    """Returns a token up to its first dot: the name of `p.rows` and of the binder `p.`, and nothing of a field alone."""
    return token.split(".")[0] if token.strip(".") else token


def plain(law, own):
    """Returns the law's statement, its module's parameters included, with bound names numbered and other names by their crates."""
    tokens, bound = split_binders(TOKEN.findall(law.telescope + " " + law.statement))
    bound, numbers, out, i = set(bound), {}, [], 0
    # a projection is written tight: `p.rows` is p, and a field of it
    counts = collections.Counter(head(t) for t in tokens)
    while i < len(tokens):
        token = tokens[i]
        name = head(token)
        if token == "(" and i + 2 < len(tokens) and tokens[i + 2] == ":" and counts[tokens[i + 1]] == 1:
            depth, close = 1, i
            while depth:
                close += 1
                depth += (tokens[close] == "(") - (tokens[close] == ")")
            tokens[i:close + 1] = tokens[i + 3:close]
            continue
        if name in bound and not token.startswith("."):
            out.append("#%d" % numbers.setdefault(name, len(numbers)) + token[len(name):])
        elif name in own:
            out.append((law.file.shown if law.file.is_function else law.file.crate) + "." + token)
        else:
            out.append(law.file.imports[name].split(".")[0] + "." + token if name in law.file.imports else token)
        i += 1
    return " ".join(out)


def repeated(files):
    """Returns the groups of laws, public or not, whose statements are the same up to bound names."""
    groups = collections.OrderedDict()
    for file in files:
        own = {item.name for item in file.items}
        for law in file.items:
            if file.part == "proofs" and law.kind == "law" and not re.search(r"\b(tie|goal)\.|\bstatement\b", law.telescope + " " + law.statement):
                groups.setdefault(plain(law, own), []).append(law)
    return [laws for laws in groups.values() if len(laws) > 1]


# ---- citations

def words(lines):
    """Returns the names in the lines, comments and imports left out."""
    taken = set()
    for line in lines:
        if not re.match(r" *(--|//|(pub |ghost )*use )", line):
            for token in re.findall(r"[^\s(){},;=\[\]]+", line):
                taken.add(token.rstrip("."))
                taken.update(token.split("."))
    return taken


def uncited(files, documents):
    """Returns the public laws that no other law, proof or contract cites, and that no document names."""
    used = {id(file): words(file.lines) for file in files}
    by_name = collections.defaultdict(list)
    for file in files:
        for name, path in file.imports.items():
            if not name.endswith(".") and name in used[id(file)]:
                by_name[name].append(path)
        for alias, path in file.imports.items():
            if alias.endswith("."):
                for name in used[id(file)]:
                    by_name[name].append(path)
    named = set(re.findall(r"`(?:[\w-]+\.)*([^`\s.]+)`", documents))
    found = []
    for law in public_laws(files):
        home = f"{law.file.crate}.proofs.{law.file.module}"
        others = law.file.lines[:law.line - 1] + law.file.lines[law.end:]
        cited = any(path == home for path in by_name[law.name]) or law.name in words(others)
        if not cited and law.name not in named:
            found.append(law)
    return found


# ---- public names that only their own file uses

MARKS = re.compile(r"(?:abbrev |unfoldable |pub )*")
OPENED = re.compile(r"(?:unfoldable |pub |ghost )*use ([^\s{};]+?)(?:\.\{([^}]*)\}| as \S+?)?;?$")
PATH = re.compile(r"Rattle\.[^\s(){},;]+")


def plain_path(path):
    """Returns a path with its crate first, as docs/crates.py has it."""
    return path.removeprefix("Rattle.")


def home_of(file):
    return f"{file.crate}.{file.part}.{file.module}"


def used_outside(files):
    """Returns for each module the names of it that other files bring in, or write with the module's path."""
    used, homes = collections.defaultdict(set), {home_of(file) for file in files}
    for file in files:
        for line in file.lines:
            found = OPENED.match(line)
            if found and found.group(2) is not None:
                used[plain_path(found.group(1))].update(name.split(" as ")[0].strip() for name in found.group(2).split(","))
            elif found and plain_path(found.group(1)) in homes:
                used[plain_path(found.group(1))] |= words(file.lines)
            elif not found:
                for path in PATH.findall(line):
                    home, _, name = plain_path(path).rpartition(".")
                    used[home].add(name)
    return used


def is_open(item):
    """Whether it is an abbreviation that unfolds everywhere, so that a public statement may name it though it is private."""
    return "abbrev" in MARKS.match(item.first).group(0) and not any(
        line.strip().startswith("unfolding ") for line in item.file.lines[item.line:item.end])


def seen_in(item):
    """Returns the names, bound ones left out, that others see in a public item: in its statement, its fields' and the body of what unfolds."""
    parts = [item.telescope, item.statement.split(" unfolding ")[0]]
    parts += [member.statement for member in item.file.items if member.owner == item.name]
    if item.kind == "ruleset" or re.search("abbrev|unfoldable", MARKS.match(item.first).group(0)):
        parts += item.file.lines[item.line - 1:item.end]
    bound = set()
    for part in parts:
        bound.update(split_binders(TOKEN.findall(part))[1])
        left = re.match(re.escape(item.name) + r" ([^=]*?) ?=(?: |$)", part.strip())
        bound.update(re.findall(r"[^\s(){},;]+", left.group(1)) if left and item.kind != "ruleset" else [])
    return words(parts) - bound


def only_at_home(files, told):
    """Returns the public names of proofs/ that no other file uses. Not among them: what the documents name (`told`, by id), that a function
    meets its contract, and what the language wants public, since a public statement, a body that unfolds or a public set of rules names it.
    Fields go with their record: a proof search reads them without naming them."""
    used, found = used_outside(files), []
    for file in files:
        if file.part != "proofs":
            continue
        own = {item.name: item for item in file.items if not item.owner}
        own.update((item.name, own[item.owner]) for item in file.items if item.kind == "case")
        public = [item for item in file.items if item.public and not item.owner]
        seen = [item for item in public if item.name in used[home_of(file)] or id(item) in told
                or file.is_function and re.search(r"\bstatement\b|\bgoal\.", item.statement)]
        kept, done = {item.name for item in seen}, set()
        while seen:
            item = seen.pop()
            if item.name not in done:
                done.add(item.name)
                others = [own[name] for name in seen_in(item) if name in own]
                kept.update(other.name for other in others if not is_open(other))
                seen += others
        found += [item for item in public if item.name not in kept]
    return found
