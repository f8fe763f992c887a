#!/usr/bin/env python3
"""Respells the repository's own definitions and lemmas: words in snake case, types in upper camel case.

usage: python3 tools/spell.py [--list]     at the top of the repository, once, after the toolchain's own port script

It goes by text. A name is one that specs/ or a lemma file of proofs/ declares: a definition, a lemma, a constructor, a field of a record, a set of rules.
The crate of the facts' log is renamed, since the toolchain has a library of its old name.
An answer to a goal keeps its name, since the prover gives it; so do names of src/. --list prints the table of names and what would fall together.
"""

import collections
import glob
import os
import re
import sys

ANTT = sorted(glob.glob("crates/*/specs/**/*.antt", recursive=True) + glob.glob("crates/*/proofs/**/*.antt", recursive=True))
RT = sorted(glob.glob("crates/*/src/**/*.rt", recursive=True))
EDITS = sorted(glob.glob("crates/*/must-fail/*.edit"))
PAGES = ["README.md"] + sorted(glob.glob("docs/*.md"))
DECLARED = re.compile(r"^( *)(?:abbrev |unfoldable )?(?:pub )?(?:record |data |ruleset )?([^\s:(){}\[\]|,;.λ→]+) :(?= )(.*)$", re.M)
CRATES = {"log": "fact_log"}
TOKEN = r"[^\s:(){}\[\]|,;.λ→`«»]"
GOALS = re.compile(r"^\s*(?:goal|given|need)[\w-]*\.")


def read(p):
    with open(p, encoding="utf-8") as f:
        return f.read()


def spelled(name):
    """The name as it is to be spelled."""
    if name[0].isupper():
        return re.sub(r"-([a-z])", lambda m: m.group(1).upper(), name)
    words = re.sub(r"(?<=[a-z0-9])([A-Z])", lambda m: "_" + m.group(1).lower(), name)
    return words.replace("-", "_").replace("′", "'")


def declared():
    """Each declared name, with the files that declare it."""
    found = collections.defaultdict(set)
    for p in ANTT:
        for m in DECLARED.finditer(read(p)):
            if not GOALS.match(m.group(3)):
                found[m.group(2)].add(p)
    return found


def fields():
    """Names of fields of records that the repository declares."""
    found = set()
    for p in ANTT:
        inside = None
        for line in read(p).split("\n"):
            m = re.match(r"^( *)(?:pub )?record\b", line)
            if m:
                inside = len(m.group(1))
                continue
            if inside is not None and line.strip():
                if len(line) - len(line.lstrip()) <= inside:
                    inside = None
                else:
                    d = DECLARED.match(line)
                    if d:
                        found.add(d.group(2))
    return found


def renamed_crates():
    """Renames crates: the folder, crates.txt, paths and uses."""
    for old, new in CRATES.items():
        if not os.path.isdir(f"crates/{old}"):
            continue
        os.rename(f"crates/{old}", f"crates/{new}")
        files = glob.glob("crates/*/specs/**/*.antt", recursive=True) + glob.glob("crates/*/proofs/**/*.antt", recursive=True)
        files += glob.glob("crates/*/src/**/*.rt", recursive=True) + glob.glob("crates/*/must-fail/*.edit") + ["crates.txt"] + PAGES
        for p in files:
            text = read(p)
            turned = re.sub(rf"(?<=Rattle\.){old}(?=\.)", new, text)
            turned = re.sub(rf"(?<![\w.:]){old}(?=::)", new, turned)
            turned = re.sub(rf"`{old}`", f"`{new}`", turned)
            turned = re.sub(rf"\bcrates/{old}\b", f"crates/{new}", turned)
            if p == "crates.txt":
                turned = re.sub(rf"^{old}:", f"{new}:", turned, flags=re.M)
                turned = re.sub(rf"(?<=[ ]){old}(?=[ \n])", new, turned)
            if turned != text:
                with open(p, "w", encoding="utf-8") as f:
                    f.write(turned)


def main():
    names = declared()
    table = {n: spelled(n) for n in names if spelled(n) != n}
    olds = fields()
    clash = collections.defaultdict(set)
    for n in names:
        clash[spelled(n)].add(n)
    # names that would fall together: a definition of specs/ keeps the plain name, else the one in camel case; a lemma gets _lem
    for new, group in clash.items():
        if len(group) > 1:
            keeper = max(group, key=lambda n: (any("/specs/" in p for p in names[n]), bool(re.search("[A-Z]", n)), n))
            for n in group - {keeper}:
                table[n] = new + "_lem"
    functions = set(re.findall(r"\bfn (\w+)", "\n".join(read(p) for p in RT)))
    if "--list" in sys.argv:
        for n, new in sorted(table.items()):
            print(n, new, "FIELD" if n in olds else "", len(names[n]))
        for new, group in sorted(clash.items()):
            if len(group) > 1:
                print("TOGETHER", new, sorted(group), [sorted(names[g]) for g in sorted(group)])
        for n, new in sorted(table.items()):
            if new in functions:
                print("FUNCTION", n, new, sorted(names[n]))
        return
    whole = re.compile(r"(?<!" + TOKEN[:-1] + r"])(" + "|".join(re.escape(n) for n in sorted(table, key=len, reverse=True)) + r")(?!" + TOKEN[:-1] + r"])") if table else None
    turned = 0

    def turn(text, path=None):
        def one(m):
            name = m.group(1)
            if text[m.start() - 1:m.start()] == "." and text[m.start() - 2:m.start() - 1].strip():
                line = text[text.rfind("\n", 0, m.start()) + 1:m.start()]
                if name not in olds and not re.search(r"Rattle\.[\w.'-]*$", line):
                    return m.group(0)
            if path and path.endswith(".rt") and name in functions:
                return m.group(0)
            return table[name]
        return whole.sub(one, text) if whole else text

    for p in ANTT + RT:
        old = read(p)
        new = turn(old, p)
        if new != old:
            turned += 1
            with open(p, "w", encoding="utf-8") as f:
                f.write(new)
    # an edit, and a page between backticks: a name in the old spelling whose new spelling is declared now
    known = {table.get(n, n) for n in names}
    word = re.compile(r"(?<![\w'-])[A-Za-z][\w'′-]*")

    def word_of(m):
        w = m.group(0)
        return spelled(w) if spelled(w) != w and spelled(w) in known and w not in known else w

    for p in EDITS:
        old = read(p)
        new = re.sub(r"^(old|new): .*$", lambda m: word.sub(word_of, m.group(0)), old, flags=re.M)
        if new != old:
            turned += 1
            with open(p, "w", encoding="utf-8") as f:
                f.write(new)
    for p in PAGES:
        old = read(p)
        new = re.sub(r"`[^`\n]+`", lambda m: word.sub(word_of, m.group(0)), old)
        if new != old:
            turned += 1
            with open(p, "w", encoding="utf-8") as f:
                f.write(new)
    renamed_crates()
    print(f"spell: {len(table)} names, {turned} files")


if __name__ == "__main__":
    main()
