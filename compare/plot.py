#!/usr/bin/env python3
"""Draws docs/speed.svg from the tables of docs/SPEED.md: left, how many times faster than clarabel each call is on the
named inputs; right, the compact cut's time as n, m, the entries, the cones and the cliques are doubled; below, the time of
every call against the bytes of its inputs and outputs, with the time of copying them. Run from the repository's root."""
import math
import re
import statistics

CALLS = [("compact cut", "#1f5fa8"), ("standard cut", "#5aa02c"), ("compact joining", "#d97b00"), ("standard joining", "#8e44ad")]
OTHER = "#999999"


def micros(text):
    number, _, unit = text.strip().partition(" ")
    return float(number) * {"us": 1, "ms": 1e3, "s": 1e6}[unit] if unit else None


def lines():
    """Yields the lines of all tables that have a column "door", as dictionaries of their cells by heading."""
    heading = []
    for line in open("docs/SPEED.md", encoding="utf-8"):
        cells = [c.strip() for c in line.strip().strip("|").split("|")]
        if cells[0] == "input":
            heading = cells
        elif len(cells) == len(heading) and re.match(r"^[0-9.]+ (us|ms|s)$", dict(zip(heading, cells)).get("door", "")):
            yield dict(zip(heading, cells))


def rows():
    for line in lines():
        if line.get("clarabel", "-") != "-":
            yield line["input"], line["call"], micros(line["clarabel"]), micros(line["door"])


def measured():
    """Yields call, bytes, time and time of copying of each line with these columns."""
    for line in lines():
        if "copying" in line:
            yield line["call"], int(line["bytes"]), micros(line["door"]), micros(line["copying"])


def text(x, y, s, anchor="start", size=12, fill="#1c1c1c", weight="normal"):
    s = s.replace("&", "&amp;").replace("<", "&lt;")
    return f'<text x="{x:.1f}" y="{y:.1f}" text-anchor="{anchor}" font-size="{size}" fill="{fill}" font-weight="{weight}">{s}</text>'


def ratios(out, data, x0, width, y0):
    names = []
    for name, call, _, _ in data:
        if "doubled" not in name and call in dict(CALLS) and name not in names:
            names.append(name)
    shown = [math.log10(c / d) for n, k, c, d in data if n in names and k in dict(CALLS)]
    low, high = math.floor(min(shown + [0])), math.ceil(max(shown))
    at = lambda v: x0 + (v - low) / (high - low) * width
    bottom = y0 + 46 * len(names)
    for e in range(low, high + 1):
        one = e == 0
        out.append(f'<line x1="{at(e):.1f}" y1="{y0 - 6}" x2="{at(e):.1f}" y2="{bottom}" stroke="{"#1c1c1c" if one else "#dddddd"}"/>')
        out.append(text(at(e), bottom + 16, f"{10 ** e:g}", "middle", 11))
    out.append(text(x0 + width / 2, bottom + 34, "clarabel's time / ours (right of 1: faster)", "middle", 11))
    for i, name in enumerate(names):
        y = y0 + 46 * i
        out.append(text(x0 - 12, y + 24, name, "end", 11))
        for j, (call, colour) in enumerate(CALLS):
            for n, k, c, d in data:
                if n == name and k == call:
                    v = at(math.log10(c / d))
                    a, b = sorted((at(0), v))
                    out.append(f'<rect x="{a:.1f}" y="{y + 2 + 9 * j}" width="{max(b - a, 1):.1f}" height="7" fill="{colour}"/>')
    return bottom


def time_label(e):
    return f"{10 ** (e + 3):g} ns" if e < 0 else f"{10 ** e:g} us" if e < 3 else f"{10 ** (e - 3):g} ms" if e < 6 else f"{10 ** (e - 6):g} s"


def bytes_label(e):
    return f"{10 ** e:g} B" if e < 3 else f"{10 ** (e - 3):g} kB" if e < 6 else f"{10 ** (e - 6):g} MB"


def axes(out, x0, width, y0, height, sizes, times, label, title):
    """Draws two logarithmic axes. Returns where a size and where a time stand."""
    lx, hx = math.log10(min(sizes)) - 0.1, math.log10(max(sizes)) + 0.1
    ly, hy = math.floor(math.log10(min(times))), math.ceil(math.log10(max(times)))
    px = lambda v: x0 + (math.log10(v) - lx) / (hx - lx) * width
    py = lambda t: y0 + height - (math.log10(t) - ly) / (hy - ly) * height
    for e in range(ly, hy + 1):
        y = py(10**e)
        out.append(f'<line x1="{x0}" y1="{y:.1f}" x2="{x0 + width}" y2="{y:.1f}" stroke="#dddddd"/>')
        out.append(text(x0 - 6, y + 4, time_label(e), "end", 11))
    for e in range(math.ceil(lx), math.floor(hx) + 1):
        out.append(text(px(10**e), y0 + height + 16, label(e), "middle", 11))
    out.append(text(x0 + width / 2, y0 + height + 34, title, "middle", 11))
    return px, py


def polyline(points, colour, dash=""):
    path = " ".join(f"{x:.1f},{y:.1f}" for x, y in points)
    return f'<polyline points="{path}" fill="none" stroke="{colour}" stroke-width="2" stroke-dasharray="{dash}"/>'


def growth(out, data, x0, width, y0, height):
    series = {}
    for name, call, clarabel, door in data:
        m = re.match(r"(\w+) doubled: (\d+)", name)
        if m and call == "compact cut":
            series.setdefault(m[1], []).append((int(m[2]), clarabel, door))
    times = [t for s in series.values() for p in s for t in p[1:]]
    sizes = [p[0] for s in series.values() for p in s]
    px, py = axes(out, x0, width, y0, height, sizes, times, lambda e: f"{10 ** e:,}", "the count that is doubled")
    dash = {"n": "", "m": "6 4", "cliques": "2 3", "entries": "10 3 2 3", "cones": "1 5"}
    for column, colour, fill in ((1, "#999999", "#777777"), (2, "#1f5fa8", "#1f5fa8")):
        labels = []
        for key, s in series.items():
            s.sort()
            out.append(polyline([(px(p[0]), py(p[column])) for p in s], colour, dash.get(key, "")))
            labels.append((py(s[-1][column]) + 4, px(s[-1][0]) + 4, key))
        below = 0
        for y, x, key in sorted(labels):
            below = max(y, below + 11)
            out.append(text(x, below, key, size=11, fill=fill))


def limit(out, data, x0, width, y0, height):
    sizes, times = [b for _, b, _, _ in data], [t for _, _, *both in data for t in both]
    px, py = axes(out, x0, width, y0, height, sizes, times, bytes_label, "bytes of inputs and outputs")
    for call, size, time, _ in data:
        colour = dict(CALLS).get(call, OTHER)
        out.append(f'<circle cx="{px(size):.1f}" cy="{py(time):.1f}" r="3" fill="{colour}" fill-opacity="0.7"/>')
    copied = {}
    for _, size, _, copying in data:
        copied.setdefault(round(8 * math.log10(size)), []).append((px(size), py(copying)))
    middles = [tuple(map(statistics.median, zip(*points))) for points in copied.values()]
    out.append(polyline(sorted(middles), "#1c1c1c"))


def legend(out, entries, x, y):
    for j, (name, colour) in enumerate(entries):
        out.append(f'<rect x="{x + 130 * j}" y="{y}" width="10" height="10" fill="{colour}"/>')
        out.append(text(x + 14 + 130 * j, y + 9, name, size=11))


def main():
    data, calls = list(rows()), list(measured())
    out = []
    bottom = ratios(out, data, 380, 300, 70)
    growth(out, data, 820, 280, 70, bottom - 70)
    out.append(text(250, 30, "Each call beside clarabel", size=15, weight="bold"))
    legend(out, CALLS, 250, 40)
    out.append(text(780, 30, "The compact cut, doubled", size=15, weight="bold"))
    out.append(text(780, 49, "blue: ours, grey: clarabel", size=11))
    height = bottom + 50
    if calls:
        out.append(text(110, height + 30, "Every call beside copying its bytes", size=15, weight="bold"))
        legend(out, CALLS + [("other calls", OTHER), ("copying (line)", "#1c1c1c")], 110, height + 40)
        limit(out, calls, 110, 990, height + 70, 420)
        height += 540
    head = f'<svg xmlns="http://www.w3.org/2000/svg" viewBox="0 0 1160 {height}" width="1160" height="{height}" font-family="DejaVu Sans, Helvetica, Arial, sans-serif">'
    body = ["<title>Speed beside clarabel and copying</title>", f'<rect width="1160" height="{height}" fill="#ffffff"/>'] + out
    open("docs/speed.svg", "w", encoding="utf-8").write("\n".join([head] + body + ["</svg>"]) + "\n")


main()
