# The table of arc tangents: entry k is arctan(k / 1024) * 2^30 to the nearest whole number, for k from 0 to 1024.
#   python3 tools/arc_tangent_table.py rt      the lines of ARCS in crates/angles/src/arc_tangent.rt
#   python3 tools/arc_tangent_table.py antt    the lines of arcs in crates/spec_angles/specs/Table.antt
#   python3 tools/arc_tangent_table.py check   that both files hold these lines
# Plain integers, no library: Euler's series, arctan x = sum of (2 * 4 .. 2n) / (3 * 5 .. (2n + 1)) * x^(2n + 1) / (1 + x^2)^(n + 1), in units of 2^-160.
# Each term is cut, and is at most half the term before it, so it is short by less than two units, and the terms left out are less than four together.
# An entry stands only where that cannot move it to another whole number.
import os
import sys
import textwrap

PLACES = 160


def entry(k):
    below = 2**20 + k * k
    term = (1024 * k << PLACES) // below
    total, n = 0, 0
    while term > 0:
        total += term
        n += 1
        term = term * 2 * n * k * k // ((2 * n + 1) * below)
    slack = 2 * n + 4
    half = 1 << (PLACES - 31)
    nearest = (total + half) >> (PLACES - 30)
    assert nearest == (total + slack + half) >> (PLACES - 30), k
    return nearest


def lines(form, entries):
    if form == "rt":
        return textwrap.wrap(", ".join(map(str, entries)) + ",", 100, initial_indent="    ", subsequent_indent="    ")  # as rt fmt fills lines
    return ["    " + " ∷ ".join(str(e) for e in entries[i : i + 8]) + " ∷" for i in range(0, 1025, 8)]


FILES = {"rt": "crates/angles/src/arc_tangent.rt", "antt": "crates/spec_angles/specs/Table.antt"}

if len(sys.argv) != 2 or sys.argv[1] not in ("rt", "antt", "check"):
    sys.exit("usage: python3 tools/arc_tangent_table.py rt | antt | check")
entries = [entry(k) for k in range(1025)]
assert entries[0] == 0 and entries[1024] == 843314857
if sys.argv[1] == "check":
    root = os.path.join(os.path.dirname(os.path.abspath(__file__)), "..")
    for form, file in FILES.items():
        assert "\n".join(lines(form, entries)) in open(os.path.join(root, file), encoding="utf8").read(), file
    print("both files hold the table")
else:
    print("\n".join(lines(sys.argv[1], entries)))
