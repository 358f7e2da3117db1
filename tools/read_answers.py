#!/usr/bin/env python3
"""Turns what gauge printed into decimal numbers, with the distance itself in place of its square and the part that was hit in words.

    .. | tools/read_answers.py
"""
import math
import struct
import sys

PARTS = ("on the face", "at corner a", "at corner b", "at corner c", "on edge ab", "on edge ac", "on edge bc")


def number(bits):
    return struct.unpack("<f", struct.pack("<I", int(bits, 16)))[0]


def short(x):
    return "%.9g" % x


def main():
    for line in sys.stdin:
        words = line.split()
        if len(words) == 8 and words[1] == "found":
            x, y, z, squared = (number(bits) for bits in words[3:7])
            place = "(%s, %s, %s), distance %s" % (short(x), short(y), short(z), short(math.sqrt(squared)))
            print("point %s: triangle %s at %s, %s" % (words[0], words[2], place, PARTS[int(words[7])]))
        elif len(words) == 2 and words[1] == "nothing":
            print("point %s: nothing within the search distance" % words[0])
        else:
            print(line.rstrip("\n"))


main()
