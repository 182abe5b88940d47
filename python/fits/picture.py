"""Draws a dome's seams from above as SVG: both images of each marker, their distance enlarged, for a right and a broken fit."""
import math

import numpy

from tejiwakpa import original_residual

from .domes import ARC_SECOND
WIDTH, HEIGHT, RADIUS = 760, 490, 165
FIRST, SECOND, GREY, INK = "#1f5fa8", "#d97b00", "#c8c8c8", "#1c1c1c"


def _text(x, y, s, size=13, anchor="middle", weight="normal", fill=INK):
    return (f'<text x="{x:.1f}" y="{y:.1f}" text-anchor="{anchor}" font-size="{size}" font-weight="{weight}" '
            f'fill="{fill}">{s}</text>')


def _above(direction):
    # seen from above: the zenith in the middle, the horizon on the rim
    flat = math.hypot(direction[0], direction[1])
    away = math.atan2(flat, direction[2]) / (math.pi / 2)
    return (0.0, 0.0) if flat == 0 else (away * direction[0] / flat, away * direction[1] / flat)


def _half(out, dome, x, cx, cy, enlarged):
    out.append(f'<circle cx="{cx}" cy="{cy}" r="{RADIUS}" fill="#fbfbf8" stroke="{GREY}"/>')
    ring = dome.projectors - 1
    for i in range(ring):
        angle = 2 * math.pi * i / ring
        out.append(_text(cx + 0.72 * RADIUS * math.cos(angle), cy - 0.72 * RADIUS * math.sin(angle) + 4, i, 12, fill="#8a8a8a"))
    out.append(_text(cx, cy + 4, ring, 12, fill="#8a8a8a"))
    for _, _, first, second in dome.images(x):
        middle = (first + second) / 2
        spread = [middle + enlarged * (image - middle) for image in (first, second)]
        points = [_above(p / numpy.linalg.norm(p)) for p in spread]
        (ax, ay), (bx, by) = [(cx + RADIUS * u, cy - RADIUS * v) for u, v in points]
        out.append(f'<path d="M{ax:.1f} {ay:.1f}L{bx:.1f} {by:.1f}" stroke="{GREY}"/>')
        out.append(f'<circle cx="{ax:.1f}" cy="{ay:.1f}" r="2.6" fill="{FIRST}"/>')
        out.append(f'<circle cx="{bx:.1f}" cy="{by:.1f}" r="1.7" fill="{SECOND}"/>')


def _angle(seconds):
    if seconds < 120:
        return f"{seconds:.0f} arc seconds"
    return f"{seconds / 60:.0f} arc minutes" if seconds < 7200 else f"{seconds / 3600:.1f} degrees"


def draw(dome, right, broken, path):
    """Draws the right fit beside one with a wrong tie, and writes the SVG."""
    wrong = broken.run.joined
    out = [f'<svg xmlns="http://www.w3.org/2000/svg" viewBox="0 0 {WIDTH} {HEIGHT}" font-family="sans-serif">',
           f'<rect width="{WIDTH}" height="{HEIGHT}" fill="white"/>']
    halves = [(190, "right fit", right.solution, right), (570, f"overlap {broken.overlap} tied to a wrong row", wrong, broken.run.solved)]
    # large enough to show the broken seams, small enough that they do not cross the dome
    enlarged = max(1, min(40, int(0.25 / (dome.gaps(wrong.x).max() * ARC_SECOND))))
    for cx, name, joined, solved in halves:
        out.append(_text(cx, 28, name, 16, weight="bold"))
        _half(out, dome, joined.x, cx, 215, enlarged)
        out.append(_text(cx, 405, f"largest seam: {_angle(dome.gaps(joined.x).max())}"))
        out.append(_text(cx, 424, f"the solver: {solved.status}, value {solved.value:.3f}, residual {solved.residual:.0e}"))
        out.append(_text(cx, 443, f"original residual: {original_residual(dome.problem, joined):.0e}", weight="bold"))
    scale = "" if enlarged == 1 else f", {enlarged} times as far apart"
    out.append(_text(WIDTH / 2, 475, f"{dome.projectors - 1} projectors in a ring and one at the zenith, from above: both images of each "
                                     f"marker{scale}", 12, fill="#5a5a5a"))
    out.append("</svg>")
    with open(path, "w", encoding="utf-8") as file:
        file.write("\n".join(out) + "\n")
