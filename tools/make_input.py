#!/usr/bin/env python3
"""Turns a drawing in plain text into the records that gauge reads.

    tools/make_input.py DRAWING > INPUT

A line of a drawing is one of these; '#' starts a comment:

    settings STRATEGY LEAF_MINIMUM MAXIMUM_DEPTH     strategy: median or area
    triangle AX AY AZ  BX BY BZ  CX CY CZ
    point X Y Z
    distance D
    rule N                                           1: strictly below the distance, 2: below or equal

The rule may be left out, and is told once at most: its record is written only where it is told, and without it gauge takes 1.
Nothing is judged here but the words and how many numbers there are: gauge says what it refuses.
"""
import struct
import sys

STRATEGIES = {"median": 1, "area": 2}
NUMBERS = {"settings": 3, "triangle": 9, "point": 3, "distance": 1, "rule": 1}


def record(kind, body):
    return struct.pack("<IH", len(body), kind) + body


def floats(numbers):
    return struct.pack("<%df" % len(numbers), *numbers)


def read(lines):
    settings, triangles, points, distance, rule = None, [], [], None, None
    for number, line in enumerate(lines, 1):
        words = line.split("#")[0].split()
        if not words:
            continue
        kind, rest = words[0], words[1:]
        if kind not in NUMBERS or len(rest) != NUMBERS[kind]:
            sys.exit("line %d: a settings, triangle, point, distance or rule line was expected" % number)
        if kind == "rule" and rule is not None:
            sys.exit("line %d: the rule was told before" % number)
        try:
            if kind == "settings":
                settings = (STRATEGIES[rest[0]] if rest[0] in STRATEGIES else int(rest[0]), int(rest[1]), int(rest[2]))
            elif kind == "triangle":
                triangles += [float(x) for x in rest]
            elif kind == "point":
                points += [float(x) for x in rest]
            elif kind == "distance":
                distance = float(rest[0])
            else:
                rule = int(rest[0])
        except ValueError:
            sys.exit("line %d: a number was expected" % number)
    if settings is None or distance is None:
        sys.exit("a drawing has a settings line and a distance line")
    return settings, triangles, points, distance, rule


def main():
    if len(sys.argv) != 2:
        sys.exit(__doc__)
    with open(sys.argv[1]) as drawing:
        settings, triangles, points, distance, rule = read(drawing)
    try:
        run = record(1, struct.pack("<4H", 1, *settings)) + record(2, floats(triangles)) + record(5, floats(points)) + record(6, floats([distance]))
        if rule is not None:
            run += record(7, struct.pack("<H", rule))
    except (struct.error, OverflowError) as problem:
        sys.exit("a number does not fit its record: %s" % problem)
    sys.stdout.buffer.write(run)


main()
