#!/usr/bin/env python3
"""Writes the sample grammars of this folder, each from a short description (see README.md)."""
import os
import struct


def record(kind, *numbers):
    body = b"".join(struct.pack("<H", n) for n in numbers)
    return struct.pack("<HH", 2 + len(body), kind) + body


def packed(tokens, start, dimensions, functions, places):
    """functions: (arity, [constituent, ..]), a constituent a list of tokens (numbers) and pairs (k, l).
    places: (result, function, [argument, ..]), or None for an empty place."""
    out = record(1, tokens, start)
    out += b"".join(record(2, d) for d in dimensions)
    for arity, constituents in functions:
        out += record(3, arity)
        for symbols in constituents:
            numbers = []
            for s in symbols:
                numbers += list(s) if isinstance(s, tuple) else [0, s]
            out += record(4, *numbers)
    for place in places:
        if place is None:
            out += record(6)
        else:
            out += record(5, place[0], place[1], *place[2])
    return out


SAMPLES = {
    # One word: the smallest file that means something.
    "word": packed(1, 0, [1], [(0, [[0]])], [(0, 0, [])]),
    # K: the strings 0..0 1..1 2..2 with as many of each; a category of dimension 3.
    "K": packed(3, 0, [1, 3],
                [(1, [[(1, 1), (1, 2), (1, 3)]]), (1, [[0, (1, 1)], [1, (1, 2)], [2, (1, 3)]]), (0, [[], [], []])],
                [(0, 0, [1]), (1, 1, [1]), (1, 2, [])]),
    # doubled: one 0, doubled as often as one likes, so that a list of places may write a string of 2 to the 255 tokens.
    "doubled": packed(1, 0, [1], [(1, [[(1, 1), (1, 1)]]), (0, [[0]])], [(0, 0, [0]), (0, 1, [])]),
    # D: 0, a list of 2s and 3s, 1, and the same list again.
    "D": packed(4, 0, [1, 1],
                [(1, [[0, (1, 1), 1, (1, 1)]]), (0, [[2]]), (0, [[3]]), (2, [[(1, 1), (2, 1)]])],
                [(0, 0, [1]), (1, 1, []), (1, 2, []), (1, 3, [1, 1])]),
    # E: the empty string, doubled as often as one likes.
    "E": packed(0, 0, [1], [(1, [[(1, 1), (1, 1)]]), (0, [[]])], [(0, 0, [0]), (0, 1, [])]),
    # P: a category without trees, so that token 0 is never offered.
    "P": packed(1, 0, [1, 1], [(1, [[0]]), (0, [[]])], [(0, 1, []), (0, 0, [1])]),
    # Corrections of badge stamps: "badge DIGITS came|left in|out at HOUR again badge DIGITS" with the same digits both
    # times, verbs in two parts, and remarks after the hour once a word is added for them (category 5 has none here).
    # Tokens 0 to 9 are the digits; 10 badge, 11 came, 12 left, 13 in, 14 out, 15 at, 16 late, 17 early, 18 again.
    # Place 8 is empty: a warehouse has struck it.
    "stamps": packed(19, 0, [1, 1, 1, 2, 1, 1],
                     # F0 note, F1 and F2 number, F3 to F6 digits, F7 and F8 verbs in two parts, F9 to F11 times
                     [(3, [[10, (1, 1), (2, 1), (2, 2), (3, 1), 18, 10, (1, 1)]]),
                      (1, [[(1, 1)]]), (2, [[(1, 1), (2, 1)]]),
                      (0, [[1]]), (0, [[2]]), (0, [[7]]), (0, [[9]]),
                      (0, [[11], [13]]), (0, [[12], [14]]),
                      (1, [[15, (1, 1)]]), (1, [[16, 15, (1, 1)]]), (2, [[15, (1, 1), (2, 1)]])],
                     [(0, 0, [1, 3, 4]), (1, 1, [2]), (1, 2, [2, 1]),
                      (2, 3, []), (2, 4, []), (2, 5, []), (2, 6, []),
                      (3, 7, []), None, (3, 8, []),
                      (4, 9, [2]), (4, 10, [2]), (4, 11, [2, 5])]),
}

if __name__ == "__main__":
    here = os.path.dirname(os.path.abspath(__file__))
    for name, data in SAMPLES.items():
        with open(os.path.join(here, name + ".grammar"), "wb") as f:
            f.write(data)
