#!/usr/bin/env python3
"""Reads the lines of growth.cpp, writes them as a table to standard output and as a plot, both axes logarithmic, to the SVG named."""
import math
import sys

rows = [w for w in (line.split() for line in sys.stdin) if w[:1] == ["growth"]]
WHAT = [("build, µs", 4), ("check, µs", 5), ("sure query, ns a point", 6)]
sizes = sorted({int(r[2]) for r in rows})
value = {(r[1], int(r[2])): r for r in rows}

print("| triangles | " + " | ".join(f"{name}, {s}" for name, _ in WHAT for s in ("median", "area")) + " |")
print("|---" * (1 + 2 * len(WHAT)) + "|")
for n in sizes:
    cells = [f"{float(value[s, n][i]):,.{0 if float(value[s, n][i]) >= 100 else 1}f}" for _, i in WHAT for s in ("median", "area")]
    print(f"| {n:,} | " + " | ".join(cells) + " |")

if len(sys.argv) > 1:
    W, H, LEFT, TOP = 840, 460, 60, 20
    WIDE, TALL = 520, 390
    low, high = 0.1, 10 ** math.ceil(math.log10(max(float(r[i]) for r in rows for _, i in WHAT)))
    x = lambda n: LEFT + WIDE * math.log(n / sizes[0]) / math.log(sizes[-1] / sizes[0])
    y = lambda v: TOP + TALL * (1 - math.log(v / low) / math.log(high / low))
    out = [f'<svg xmlns="http://www.w3.org/2000/svg" width="{W}" height="{H}" font-family="sans-serif" font-size="12">']
    out.append(f'<rect width="{W}" height="{H}" fill="white"/>')
    for n in sizes:
        out.append(f'<line x1="{x(n):.1f}" y1="{TOP}" x2="{x(n):.1f}" y2="{TOP + TALL}" stroke="#ddd"/>')
        out.append(f'<text x="{x(n):.1f}" y="{TOP + TALL + 16}" text-anchor="middle">{n}</text>')
    v = low
    while v <= high * 1.001:
        out.append(f'<line x1="{LEFT}" y1="{y(v):.1f}" x2="{LEFT + WIDE}" y2="{y(v):.1f}" stroke="#ddd"/>')
        out.append(f'<text x="{LEFT - 6}" y="{y(v) + 4:.1f}" text-anchor="end">{v:g}</text>')
        v *= 10
    out.append(f'<text x="{LEFT + WIDE / 2:.0f}" y="{TOP + TALL + 38}" text-anchor="middle">triangles</text>')
    for k, ((name, i), colour) in enumerate(zip(WHAT, ("#b30000", "#0050b3", "#007a33"))):
        for j, (s, dash) in enumerate((("median", ""), ("area", ' stroke-dasharray="6 4"'))):
            points = " ".join(f"{x(n):.1f},{y(float(value[s, n][i])):.1f}" for n in sizes)
            out.append(f'<polyline points="{points}" fill="none" stroke="{colour}" stroke-width="2"{dash}/>')
            at = TOP + 20 + 22 * (2 * k + j)
            out.append(f'<line x1="{LEFT + WIDE + 12}" y1="{at - 4}" x2="{LEFT + WIDE + 40}" y2="{at - 4}" stroke="{colour}" stroke-width="2"{dash}/>')
            out.append(f'<text x="{LEFT + WIDE + 46}" y="{at}">{name}, {s}</text>')
    out.append("</svg>")
    open(sys.argv[1], "w").write("\n".join(out) + "\n")
