#!/usr/bin/env python3
"""Draws a run of the equalizer: plot.py IN OUT MARKS CURVE SVG. Needs Python 3 and nothing else."""
import math
import struct
import sys

INK, FAINT, GRID = "#222", "#777", "#ddd"
BEFORE, BLIND, AFTER, LOST = "#8a8f98", "#c77d1e", "#1f6fb2", "#c0392b"
SIDE, GAP, LEFT, TOP = 250, 35, 55, 60
WIDTH = LEFT + 3 * SIDE + 2 * GAP + 25


def samples(path):
    with open(path, "rb") as f:
        return list(struct.iter_unpack("<ff", f.read()))


def curve(path):
    rows = [line.split() for line in open(path)]
    return [(int(n), float(e), mode) for n, e, mode in rows]


def text(x, y, words, size=12, anchor="start", colour=INK):
    return f'<text x="{x:g}" y="{y:g}" font-size="{size}" text-anchor="{anchor}" fill="{colour}">{words}</text>'


def cloud(left, title, points, colour):
    """Points of the plane, from -2 to 2 in each part."""
    half = SIDE / 2
    out = [f'<rect x="{left}" y="{TOP}" width="{SIDE}" height="{SIDE}" fill="none" stroke="{GRID}"/>']
    out.append(f'<path d="M{left} {TOP + half}h{SIDE}M{left + half} {TOP}v{SIDE}" stroke="{GRID}"/>')
    dots = "".join(
        f"M{left + half + re * half / 2:.1f} {TOP + half - im * half / 2:.1f}h0"
        for re, im in points
        if abs(re) < 2 and abs(im) < 2
    )
    out.append(f'<path d="{dots}" stroke="{colour}" stroke-width="2.4" stroke-linecap="round" opacity="0.6"/>')
    for re in (-1, 1):
        for im in (-1, 1):
            x, y = left + half + re * math.sqrt(0.5) * half / 2, TOP + half - im * math.sqrt(0.5) * half / 2
            out.append(f'<path d="M{x - 5:.1f} {y:.1f}h10M{x:.1f} {y - 5:.1f}v10" stroke="{INK}"/>')
    out.append(text(left, TOP - 8, title, 13))
    return out


def runs_of(marks, mark):
    """The stretches of a mark, from a sample to before another."""
    start = None
    for i, m in enumerate(list(marks) + [None]):
        if m == mark and start is None:
            start = i
        if m != mark and start is not None:
            yield start, i
            start = None


def main():
    path_in, path_out, path_marks, path_curve, path_svg = sys.argv[1:]
    before, after = samples(path_in), samples(path_out)
    marks = open(path_marks, "rb").read()
    points = curve(path_curve)
    count = len(marks)
    switch = next((n for n, _, mode in points if mode == "decision"), count)
    heard = [i for i in range(count) if marks[i] == 0]
    last = heard[-1000:]
    blind = [i for i in heard if i < switch][-300:]
    first = heard[:1000]

    out = [text(LEFT, 24, "QPSK through echoes, noise, a drifting phase and a dropout", 16)]
    out += cloud(LEFT, f"received, samples {first[0]} to {first[-1]}", [before[i] for i in first], BEFORE)
    out += cloud(LEFT + SIDE + GAP, f"blind (CMA), {blind[0]} to {blind[-1]}", [after[i] for i in blind], BLIND)
    out += cloud(LEFT + 2 * (SIDE + GAP), f"by decisions, {last[0]} to {last[-1]}", [after[i] for i in last], AFTER)

    left, top, width, height = LEFT, TOP + SIDE + 55, 3 * SIDE + 2 * GAP, 190
    errors = [e for _, e, _ in points if e > 0]
    low, high = math.floor(math.log10(min(errors))), math.ceil(math.log10(max(errors)))

    def across(i):
        return left + width * i / count

    def down(e):
        return top + height * (high - math.log10(e)) / max(high - low, 1)

    out.append(text(left, top - 10, "mean error, as the equalizer reports it after each call", 13))
    for k in range(low, high + 1):
        y = down(10.0**k)
        out.append(f'<path d="M{left} {y:.1f}h{width}" stroke="{GRID}"/>')
        out.append(text(left - 8, y + 4, f"{10.0**k:g}", 11, "end", FAINT))
    for a, b in runs_of(marks, 1):
        x = across(a)
        out.append(f'<rect x="{x:.1f}" y="{top}" width="{across(b) - x:.1f}" height="{height}" fill="{LOST}" opacity="0.15"/>')
    x = across(switch)
    out.append(f'<path d="M{x:.1f} {top}v{height}" stroke="{INK}" stroke-dasharray="4 3"/>')
    out.append(text(x + 6, top + 14, f"switch to decisions, sample {switch}", 12))
    for mode, colour in (("cma", BLIND), ("decision", AFTER)):
        line = [(n, e) for n, e, m in points if m == mode and e > 0]
        if line:
            d = "M" + "L".join(f"{across(n):.1f} {down(e):.1f}" for n, e in line)
            out.append(f'<path d="{d}" fill="none" stroke="{colour}" stroke-width="1.8"/>')

    strip = top + height + 34
    kinds = ((0, "#b9c6d3", "heard"), (1, LOST, "in red blank"), (2, "#7d3c98", "in purple spilled"), (3, INK, "in black silent"), (4, "#d68910", "in orange off scale"))
    out.append(text(left, strip - 8, "marks: " + ", and ".join(words for mark, _, words in kinds if mark in marks), 13))
    for mark, colour, _ in kinds:
        for a, b in runs_of(marks, mark):
            out.append(f'<rect x="{across(a):.1f}" y="{strip}" width="{across(b) - across(a):.1f}" height="16" fill="{colour}"/>')
    step = 10 ** max(int(math.log10(count)), 0) // 2 or 1
    for n in range(0, count + 1, step):
        out.append(text(across(n), strip + 32, str(n), 11, "middle", FAINT))
    tall = strip + 48
    with open(path_svg, "w") as f:
        f.write(f'<svg xmlns="http://www.w3.org/2000/svg" viewBox="0 0 {WIDTH} {tall}" font-family="sans-serif">\n')
        f.write(f'<rect width="{WIDTH}" height="{tall}" fill="#fff"/>\n')
        f.write("\n".join(out))
        f.write("\n</svg>\n")


main()
