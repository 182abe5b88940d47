#!/usr/bin/env python3
"""Draws the crates: docs/crates.svg has all of them by level, docs/cut.svg and docs/joining.svg the way of a call through them.

It reads crates.txt and crates/*/src/*.rt and needs nothing but Python. `docs/draw.py --check` writes nothing and exits with 1
where a picture is not what it would draw.
"""
import pathlib
import re
import sys

ROOT = pathlib.Path(__file__).resolve().parent.parent
PAD, LINE, GAP, ROW = 8, 15, 14, 70
CALLS = {"cut": ("chordal_cut", "The way of a cut"), "joining": ("chordal_join", "The way of a joining")}


def dependencies():
    """Returns each crate's dependencies among the crates of the repository, in the order of crates.txt."""
    listed = {}
    for line in (ROOT / "crates.txt").read_text().splitlines():
        if ":" in line and not line.startswith("#"):
            name, others = line.split(":")
            listed[name.split()[0]] = others.split()
    return {name: [d for d in others if d in listed] for name, others in listed.items()}


def levels(crates):
    """Returns each crate's level: 0 where it depends on none, else one above the highest that it depends on."""
    found = {}

    def level(name):
        if name not in found:
            found[name] = 1 + max((level(d) for d in crates[name]), default=-1)
        return found[name]

    for name in crates:
        level(name)
    return found


def functions(crates):
    """Returns the calls of every function as pairs of crate and name, by crate and name of the caller."""
    bodies = {}
    for crate in crates:
        for file in sorted((ROOT / "crates" / crate / "src").glob("*.rt")):
            text = re.sub(r"//[^\n]*|ghost use[^;]*;|(ensures|requires)\*?(?: \w+)? \{.*?\}\n", "", file.read_text(), flags=re.S)
            brought = {}
            for use in re.finditer(r"^use (\w+)::(?:\{([^}]*)\}|(\w+));", text, re.M):
                for item in (use.group(2) or use.group(3)).split(","):
                    brought[item.strip()] = use.group(1)
            parts = re.split(r"^\s*(?:#\[[^\n]*\]\s*)?(?:pub )?(?:extern \"C\" )?fn (\w+)", text, flags=re.M)
            for name, body in zip(parts[1::2], parts[2::2]):
                calls = bodies.setdefault((crate, name), [])
                for of, called in re.findall(r"(?:(\w+)::)*(\w+)\(", body):
                    calls.append((of if of in crates else brought.get(of, brought.get(called, crate)), called))
    return {caller: [c for c in calls if c in bodies and c != caller] for caller, calls in bodies.items()}


def reached(calls, call):
    """Returns the functions through which each crate is entered on the way from `call`, and which crate calls which."""
    entered, ties, seen, waiting = {"door": [call]}, set(), set(), [("door", call)]
    while waiting:
        at = waiting.pop(0)
        if at in seen:
            continue
        seen.add(at)
        for crate, name in calls.get(at, []):
            if crate != at[0]:
                ties.add((at[0], crate))
                if name not in entered.setdefault(crate, []):
                    entered[crate].append(name)
            waiting.append((crate, name))
    return entered, ties


def picture(title, boxes, ties, level):
    """Returns an SVG: one box for each crate with its lines of text, rows by level, the highest on top, and its ties."""
    rows = sorted({level[name] for name in boxes}, reverse=True)
    wide = lambda name: 2 * PAD + 7.2 * max(len(t) for t in [name] + boxes[name])
    high = lambda name: 2 * PAD + LINE * (1 + len(boxes[name]))
    width = max(sum(wide(n) + GAP for n in boxes if level[n] == r) for r in rows) + GAP
    place, top = {}, 40
    for r in rows:
        names = [n for n in boxes if level[n] == r]
        left = (width - sum(wide(n) + GAP for n in names) + GAP) / 2
        for n in names:
            place[n] = (left, top)
            left += wide(n) + GAP
        top += max(high(n) for n in names) + ROW - 2 * PAD
    out = [f'<svg xmlns="http://www.w3.org/2000/svg" viewBox="0 0 {width:.0f} {top:.0f}" font-family="monospace" font-size="12">',
           f'<rect width="{width:.0f}" height="{top:.0f}" fill="white"/>', f'<text x="{GAP}" y="22" font-size="15">{title}</text>']
    for a, b in sorted(ties):
        (x, y), (u, v) = place[a], place[b]
        out.append(f'<line x1="{x + wide(a) / 2:.0f}" y1="{y + high(a):.0f}" x2="{u + wide(b) / 2:.0f}" y2="{v:.0f}" stroke="#9ab" stroke-width="0.8"/>')
    for n in boxes:
        x, y = place[n]
        out.append(f'<rect x="{x:.0f}" y="{y:.0f}" width="{wide(n):.0f}" height="{high(n):.0f}" rx="4" fill="#eef4fa" stroke="#345"/>')
        for k, text in enumerate([n] + boxes[n]):
            weight = ' font-weight="bold"' if k == 0 else ""
            out.append(f'<text x="{x + PAD:.0f}" y="{y + PAD + LINE * (k + 1) - 3:.0f}"{weight}>{text}</text>')
    return "\n".join(out + ["</svg>", ""])


def pictures():
    """Returns each picture's file and text."""
    crates = dependencies()
    level = levels(crates)
    # a tie that follows from others is left out
    below = {}
    for name in sorted(crates, key=level.get):
        below[name] = set(crates[name]).union(*(below[d] for d in crates[name]))
    ties = {(a, b) for a in crates for b in crates[a] if not any(b in below[d] for d in crates[a])}
    yield "crates.svg", picture("The crates by level", {name: [] for name in crates}, ties, level)
    calls = functions(crates)
    for name, (call, title) in CALLS.items():
        entered, ties = reached(calls, call)
        boxes = {crate: entered[crate] for crate in crates if crate in entered}
        yield f"{name}.svg", picture(title, boxes, ties, level)


def main():
    stale = False
    for file, text in pictures():
        path = ROOT / "docs" / file
        if sys.argv[1:] == ["--check"]:
            if not path.exists() or path.read_text() != text:
                print(f"docs/{file} is not what docs/draw.py draws")
                stale = True
        else:
            path.write_text(text)
    sys.exit(stale)


if __name__ == "__main__":
    main()
