#!/usr/bin/env python3
"""Makes the example drawing of a flange in millimetres, and the points that an arm touched on its
rough casting.

    tools/make_flange.py > examples/flange.txt

Its STL and its points alone are made of that, by examples/stock.c and by sed; tests/host/run compares them:

    stock examples/flange.txt examples/flange.stl
    { head -n 1 examples/flange_points.txt; sed -n 's/^point //p' examples/flange.txt; }

The casting stands about 2.6 mm over the drawing, more below, less on one lobe, and is sunk at one
place beside the hub: there it is short of stock. Most points are touched over the faces; then the arm
goes along the rims, and to some of their corners.
"""
import math
import random

AROUND = 36
# radius and height of the profile, counter-clockwise round the metal; lobes move the outer ones
PROFILE = [(20, 0), (52, 0), (72, 0), (72, 16), (54, 18), (36, 18), (32, 46), (20, 46)]
SUNK = (-0.10, 54.0)  # angle and radius, on the upper face
# places of the profile where the metal has a sharp rim, and how many steps the arm goes on between two points there; the corners of the
# rims that it touches, at the tips of the lobes and about the hub
RIMS = {2: 3, 3: 3, 6: 4, 7: 9, 0: 9}
CORNERS = [(k, step) for k in (2, 3) for step in (0, 12, 24)] + [(6, step) for step in (3, 11, 19, 31)]


def lobe(angle):
    return 16 * max(0.0, math.cos(3 * angle)) ** 2


def place(k, step):
    radius, height = PROFILE[k % len(PROFILE)]
    angle = 2 * math.pi * step / AROUND
    if radius > 60:
        radius += lobe(angle)
    return (radius * math.cos(angle), radius * math.sin(angle), height)


def minus(a, b):
    return tuple(x - y for x, y in zip(a, b))


def normal(a, b, c):
    (ax, ay, az), (bx, by, bz) = minus(b, a), minus(c, a)
    n = (ay * bz - az * by, az * bx - ax * bz, ax * by - ay * bx)
    size = math.sqrt(sum(x * x for x in n))
    return tuple(x / size for x in n)


def faces(k, step):
    """The two triangles between two places of the profile, and between two steps."""
    a, b, c, d = place(k, step), place(k + 1, step), place(k + 1, step + 1), place(k, step + 1)
    return (a, d, c), (a, c, b)


def stock(p, n, chance):
    angle = math.atan2(p[1], p[0])
    radius = math.hypot(p[0], p[1])
    over = 2.6 + 0.35 * math.sin(2 * angle + 0.5) + chance.uniform(-0.25, 0.25)
    if n[2] < -0.9:
        over += 1.3 + 0.6 * math.cos(angle)
    if radius > 60:
        over -= 1.5 * max(0.0, math.cos(angle - 2 * math.pi / 3)) ** 8
    if n[2] > 0.9:
        away = (angle - SUNK[0]) ** 2 * radius ** 2 + (radius - SUNK[1]) ** 2
        over -= 3.8 * math.exp(-away / (2 * 13.0 ** 2)) * (p[2] < 20)
    return over


def written(p):
    """Without a minus before a zero: many programs join corners by their bits."""
    return "%.3f %.3f %.3f" % tuple(round(x, 3) + 0.0 for x in p)


def main():
    chance = random.Random(1)
    triangles, points = [], []

    def touch(p, *normals):
        """Straight out of the faces that meet there, as far as the one with the most stock."""
        over = max(stock(p, n, chance) for n in normals)
        out = [sum(numbers) for numbers in zip(*normals)]
        points.append(tuple(x + over * y / math.hypot(*out) for x, y in zip(p, out)))

    for step in range(AROUND):
        for k in range(len(PROFILE)):
            for corners in faces(k, step):
                triangles.append(corners)
                size = math.dist(corners[0], corners[1]) * math.dist(corners[0], corners[2])
                for _ in range(1 if size < 500 else 2):
                    s, t = sorted((chance.uniform(0.1, 0.9), chance.uniform(0.1, 0.9)))
                    touch(tuple(x * s + y * (t - s) + z * (1 - t) for x, y, z in zip(*corners)), normal(*corners))
    for k, steps in RIMS.items():
        for step in range(1, AROUND, steps):
            s = chance.uniform(0.2, 0.8)
            p = tuple(x * s + y * (1 - s) for x, y in zip(place(k, step), place(k, step + 1)))
            touch(p, *(normal(*faces(before, step)[0]) for before in (k - 1, k)))
    for k, step in CORNERS:
        touch(place(k, step), *(normal(*faces(*at)[0]) for at in ((k - 1, step - 1), (k - 1, step), (k, step - 1), (k, step))))
    print("# A flange with three lobes and a hub, in millimetres, and the points touched on its casting.")
    print("# tools/make_flange.py makes this file.")
    print("settings area 1 40")
    for corners in triangles:
        print("triangle", "  ".join(written(p) for p in corners))
    for p in points:
        print("point", written(p))
    print("distance 50")


main()
