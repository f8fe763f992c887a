"""The grammars and notes that are timed, written into a folder: `python3 workloads.py FOLDER`.

K, D and E are the samples. `pairs` is B -> B B | 2. `agreement` is made here: German notes to a clock, such as "badge 4 7 der
Meister hat sich am Tor gestempelt nochmals badge 4 7", with the badge's number said twice (a constituent that is used twice), verbs in
two and in three parts, and words that agree in gender and number. The notes are written by random trees of it; the seed is fixed.
"""
import os
import random
import sys

sys.dont_write_bytecode = True

HERE = os.path.dirname(os.path.abspath(__file__))
sys.path.insert(0, os.path.join(HERE, "..", "samples"))
from make import SAMPLES, packed  # noqa: E402


class Builder:
    """Collects words, categories, functions and places by name."""

    def __init__(self):
        self.words, self.categories, self.functions, self.places = {}, {}, {}, []

    def word(self, name):
        return self.words.setdefault(name, len(self.words))

    def category(self, name, dimension=1):
        self.categories.setdefault(name, (len(self.categories), dimension))

    def function(self, arity, constituents):
        """A constituent is a text: words, and `k.l` for constituent l of argument k."""
        key = (arity, tuple(constituents))
        return self.functions.setdefault(key, len(self.functions))

    def place(self, result, arguments, *constituents):
        self.places.append((result, self.function(len(arguments), constituents), tuple(arguments)))

    def symbols(self, text):
        out = []
        for part in text.split():
            if len(part) == 3 and part[1] == "." and part[0].isdigit():
                out.append((int(part[0]), int(part[2])))
            else:
                out.append(self.word(part))
        return out

    def finish(self):
        number = {name: n for name, (n, _) in self.categories.items()}
        self.dimensions = [d for _, d in self.categories.values()]
        self.rules = [(arity, [self.symbols(c) for c in constituents]) for arity, constituents in self.functions]
        self.rows = [(number[r], f, [number[a] for a in args]) for r, f, args in self.places]
        self.names = list(self.categories)
        return packed(len(self.words), 0, self.dimensions, self.rules, self.rows)


GENDERS = ("m", "f", "n")
NUMBERS = ("s", "p")
CLASSES = [g + n for n in NUMBERS for g in GENDERS]
DETERMINERS = {
    "ms": ["der", "ein", "dieser"], "fs": ["die", "eine", "diese"], "ns": ["das", "ein", "dieses"],
    "mp": ["die", "alle", "viele"], "fp": ["die", "alle", "etliche"], "np": ["diese", "alle", "manche"],
}
PRONOUNS = {"ms": "er", "fs": "sie", "ns": "es", "mp": "jene", "fp": "alle", "np": "welche"}
REFLEXIVES = {"ms": "sich", "fs": "sich", "ns": "sich", "mp": "einander", "fp": "einander", "np": "gegenseitig"}
FRONTS = {"s": ["hat", "hatte", "wird", "kann"], "p": ["haben", "hatten", "werden", "koennen"]}


def agreement():
    """Some 60 categories, 400 functions and places, and 600 words."""
    b = Builder()
    for name, dimension in [("Note", 1), ("Number", 1), ("Digit", 1), ("Clause", 1), ("Tail", 1)]:
        b.category(name, dimension)
    for c in CLASSES:
        b.category("Subject-" + c, 2)
        for sort in ("Nominal-", "Noun-", "Adjective-", "Determiner-"):
            b.category(sort + c)
    for n in NUMBERS:
        b.category("Predicate-" + n, 2)
        b.category("Verb2-" + n, 2)
        b.category("Verb3-" + n, 3)
    for name in ("Object", "Middle", "Modifier", "Adverb", "Preposition", "Spot", "Hall", "Gate", "Time", "Hour", "Minute", "Day",
                 "Reason", "Remark", "Shift", "Task", "Tool", "Greeting"):
        b.category(name)

    # The note: the number is said twice, and must be the same number.
    b.place("Note", ["Number", "Clause", "Tail"], "badge 1.1 2.1 nochmals badge 1.1 3.1")
    b.place("Note", ["Number", "Clause"], "badge 1.1 2.1 nochmals badge 1.1")
    b.place("Note", ["Greeting", "Number", "Clause"], "1.1 badge 2.1 3.1 nochmals badge 2.1")
    b.place("Number", ["Digit"], "1.1")
    b.place("Number", ["Number", "Digit"], "1.1 2.1")
    for i in range(10):
        b.place("Digit", [], "%d" % i)
    b.place("Tail", ["Clause"], "weil 1.1")
    b.place("Tail", ["Clause", "Tail"], "und 1.1 2.1")
    b.place("Tail", ["Clause"], "und 1.1")
    b.place("Tail", ["Reason"], "1.1")
    b.place("Tail", ["Remark"], "1.1")
    b.place("Tail", ["Reason", "Remark"], "1.1 2.1")

    # Clauses: subject and predicate agree in number, subject and reflexive in gender too.
    for c in CLASSES:
        n = c[1]
        b.place("Clause", ["Subject-" + c, "Predicate-" + n], "1.1 2.1 1.2 2.2")
        b.place("Clause", ["Time", "Subject-" + c, "Predicate-" + n], "1.1 3.1 2.1 2.2 3.2")
        b.place("Subject-" + c, ["Determiner-" + c, "Nominal-" + c], "1.1 2.1", REFLEXIVES[c])
        b.place("Subject-" + c, ["Determiner-" + c, "Nominal-" + c], "1.1 2.1", "")
        b.place("Subject-" + c, [], PRONOUNS[c], "")
        b.place("Nominal-" + c, ["Noun-" + c], "1.1")
        b.place("Nominal-" + c, ["Adjective-" + c, "Nominal-" + c], "1.1 2.1")
        b.place("Object", ["Determiner-" + c, "Nominal-" + c], "1.1 2.1")
        for word in DETERMINERS[c]:
            b.place("Determiner-" + c, [], word)
        for i in range(17):
            # Every second noun is two words.
            b.place("Noun-" + c, [], "noun-%s-%d" % (c, i) + (" second-%s-%d" % (c, i) if i % 2 == 1 else ""))
        for i in range(6):
            b.place("Adjective-" + c, [], "adjective-%s-%d" % (c, i))
    for n in NUMBERS:
        b.place("Predicate-" + n, ["Verb2-" + n], "1.1", "1.2")
        b.place("Predicate-" + n, ["Verb2-" + n, "Middle"], "1.1", "2.1 1.2")
        b.place("Predicate-" + n, ["Verb2-" + n, "Object"], "1.1", "2.1 1.2")
        b.place("Predicate-" + n, ["Verb2-" + n, "Middle", "Object"], "1.1", "3.1 2.1 1.2")
        b.place("Predicate-" + n, ["Verb3-" + n, "Object"], "1.1", "2.1 1.2 1.3")
        b.place("Predicate-" + n, ["Verb3-" + n, "Middle", "Object"], "1.1", "3.1 1.2 2.1 1.3")
        for i in range(20):
            b.place("Verb2-" + n, [], FRONTS[n][i % 4], "verb2-%d" % i)
        for i in range(14):
            b.place("Verb3-" + n, [], FRONTS[n][i % 4], "particle-%d" % (i // 2), "verb3-%d" % i)

    # What stands in the middle: places and times.
    b.place("Object", ["Object", "Preposition", "Spot"], "1.1 2.1 3.1")
    b.place("Middle", ["Modifier"], "1.1")
    b.place("Middle", ["Middle", "Modifier"], "1.1 2.1")
    b.place("Modifier", ["Preposition", "Spot"], "1.1 2.1")
    b.place("Modifier", ["Time"], "1.1")
    b.place("Modifier", ["Adverb"], "1.1")
    b.place("Modifier", ["Task"], "beim 1.1")
    b.place("Modifier", ["Tool"], "mit 1.1")
    b.place("Spot", ["Hall"], "1.1")
    b.place("Spot", ["Gate"], "1.1")
    b.place("Spot", ["Gate", "Digit"], "1.1 2.1")
    b.place("Time", ["Hour"], "um 1.1 uhr")
    b.place("Time", ["Hour", "Minute"], "um 1.1 uhr 2.1")
    b.place("Time", ["Day"], "am 1.1")
    b.place("Time", ["Day", "Shift"], "am 1.1 in 2.1")
    for name, count in [("Hall", 12), ("Gate", 6), ("Hour", 12), ("Minute", 6), ("Day", 7), ("Adverb", 12), ("Preposition", 6),
                        ("Task", 10), ("Tool", 10), ("Shift", 3)]:
        for i in range(count):
            word = "%s-%d" % (name.lower(), i)
            b.place(name, [], word + " " + word + "-b" if name in ("Hall", "Tool") else word)
    for i in range(20):
        b.place("Reason", [], " ".join("reason-%d-%d" % (i, j) for j in range(6)))
    for i in range(14):
        b.place("Remark", [], " ".join("remark-%d-%d" % (i, j) for j in range(5)))
    for i in range(6):
        b.place("Greeting", [], " ".join("greeting-%d-%d" % (i, j) for j in range(4)))
    return b, b.finish()


class Trees:
    """Random trees of a grammar, and their strings; each token with the category of the place that wrote it."""

    def __init__(self, b, seed):
        self.b, self.random = b, random.Random(seed)
        # Chosen more often, for longer notes: a clause more.
        self.favoured = []
        self.of = [[] for _ in b.dimensions]
        self.height = [None] * len(b.dimensions)
        for p, (result, _, _) in enumerate(b.rows):
            self.of[result].append(p)
        changed, level = True, 0
        while changed:
            changed, level = False, level + 1
            found = [r for r, _, args in b.rows
                     if self.height[r] is None and all(self.height[a] is not None and self.height[a] < level for a in args)]
            for r in found:
                self.height[r], changed = level, True

    def tree(self, category, depth):
        """The strings of a random tree of at most this height."""
        fits = [p for p in self.of[category]
                if all(self.height[a] < depth for a in self.b.rows[p][2])]
        fits += [p for p in fits if p in self.favoured for _ in range(4)]
        p = self.random.choice(fits)
        _, function, args = self.b.rows[p]
        parts = [self.tree(a, depth - 1) for a in args]
        strings = []
        for symbols in self.b.rules[function][1]:
            string = []
            for s in symbols:
                string += parts[s[0] - 1][s[1] - 1] if isinstance(s, tuple) else [(s, category)]
            strings.append(string)
        return strings

    def notes(self, count, low, high, depth):
        """So many notes of `low` to `high` tokens."""
        out = []
        while len(out) < count:
            note = self.tree(0, self.random.randint(depth[0], depth[1]))[0]
            if low <= len(note) <= high:
                out.append(note)
        return out


def pairs():
    """B -> B B | 2, with a token count of 3 so that the token is 2."""
    return packed(3, 0, [1], [(2, [[(1, 1), (2, 1)]]), (0, [[2]])], [(0, 0, [0, 0]), (0, 1, [])])


# Lengths at which growth is measured.
LENGTHS = (8, 16, 32, 64)


def write(folder):
    os.makedirs(folder, exist_ok=True)

    def put(name, data):
        with open(os.path.join(folder, name), "wb") as f:
            f.write(data)

    def put_notes(name, notes):
        put(name + ".notes", "".join(" ".join(map(str, note)) + "\n" for note in notes).encode())

    b, data = agreement()
    for name in ("K", "D", "E"):
        put(name + ".grammar", SAMPLES[name])
    put("pairs.grammar", pairs())
    put("agreement.grammar", data)

    put_notes("empty", [[]])
    for n in LENGTHS:
        put_notes("K-zeros-%d" % n, [[0] * n])
        third = n // 3
        put_notes("K-thirds-%d" % n, [[0] * third + [1] * third + [2] * third])
        half = n // 2 - 1
        put_notes("D-%d" % n, [[0] + [2] * half + [1] + [2] * half])
        put_notes("pairs-%d" % n, [[2] * n])
    put_notes("pairs-40", [[2] * 40])

    trees = Trees(b, 2026)
    notes = trees.notes(60, 30, 36, (6, 9))
    put_notes("agreement-30", [[t for t, _ in note] for note in notes])
    put("agreement-30.sorts", "".join(" ".join(b.names[c] for _, c in note) + "\n" for note in notes).encode())
    notes = trees.notes(1000, 8, 12, (5, 7))
    put_notes("agreement-thousand", [[t for t, _ in note] for note in notes])
    notes = trees.notes(200, 8, 30, (5, 8))
    put_notes("agreement-mixed", [[t for t, _ in note] for note in notes])
    trees.favoured = [p for p, row in enumerate(b.rows) if row[0] == b.names.index("Tail") and row[0] in row[2]]
    notes = trees.notes(12, 64, 80, (11, 13))
    for n in LENGTHS:
        put_notes("agreement-%d" % n, [[t for t, _ in note[:n]] for note in notes])
    constituents = sum(len(f[1]) for f in b.rules)
    symbols = sum(len(c) for f in b.rules for c in f[1])
    arguments = sum(len(p[2]) for p in b.rows)
    return {
        "categories": len(b.dimensions), "functions": len(b.rules), "places": len(b.rows), "tokens": len(b.words),
        "cells": len(b.dimensions) + len(b.rules) + constituents + symbols + len(b.rows) + arguments,
    }


if __name__ == "__main__":
    print(write(sys.argv[1]))
