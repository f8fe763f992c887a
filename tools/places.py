#!/usr/bin/env python3
"""Counts the places in src/ that are written as an older Rattle had it, by the patterns below.

    python3 tools/places.py [-v] [TREE]

TREE is the repository's folder (this one if left out); -v lists each place. Comments and ghost lines are left out.
"""
import re
import sys
from pathlib import Path

PATTERNS = [
    # point, name, pattern over a file's code, what it finds
    (1, "give-up", r"let [^;{}]*?\belse \{\s*return (?:None|Err\([^;]*\));\s*\}", "let-else that only passes None or an error on"),
    (1, "if-none", r"\} else \{\s*None\s*\}", "if with `else { None }`"),
    (1, "arm-none", r"\b(?:None|_|Err\(_\)) => (?:None|false|0|true)\b", "match arm that turns nothing into nothing, false or 0"),
    (1, "err-arm", r"\bErr\((\w+)\) => (?:return )?Err\(", "match arm that passes an error on"),
    (1, "return-none", r"if [^{};]*\{\s*return (?:None|Err\([^;]*\));\s*\}", "if that gives up"),
    (1, "sentinel", r"(?:!=|==|>|>=) 0\b|\breturn 0;|else \{ 0 \}", "number tested or answered as 0"),
    (1, "flag", r"^\s*(?:pub(?:\(crate\))? )?\w+: bool,$", "bool field of a struct"),
    (1, "kind-number", r"\.number\(\) *(?:==|!=|>=|<=|<|>)|\blast *(?:==|>=|<=)|\b(?:slot|constituent) *(?:==|>|<) *\d", "number compared that names a kind"),
    (1, "enum", r"^(?:pub(?:\(crate\))? )?enum \w+", "enum of our own (those of the shape of Option or Result are read by hand)"),
    (1, "dummy", r"\) -> u8\n\s+ensures \{ \w+ \}", "number answered that means nothing"),
    (3, "while", r"\bwhile (?!let\b)", "while on a condition"),
    (3, "while-let", r"\bwhile let\b", "while let"),
    (3, "loop", r"\bloop \{", "loop"),
    (3, "for-range", r"\bfor \w+ in [^{]*\.\.", "for over a range of numbers"),
    (4, "same", r"\bfn (?:same_\w+|number|from_number|sort|offset|counts_of)\b", "equality or conversion as a function"),
    (4, "copied-fields", r"\b(\w+): (\w+(?:\.\w+)?)\.\1,", "field copied by name in a literal"),
    (4, "text", r"-> &'static str", "words of a value as a function"),
    (4, "bytes", r"\b256 \*", "bytes put together by hand"),
    (6, "array", r"^\s*(?:pub(?:\(crate\))? )?\w+: \[[^\]]*; ?[^\]]*\],$", "array in a struct"),
    (6, "indexed", r"\b\w+\[[a-z_]\w*(?: as usize)?\]", "index by a variable"),
    (7, "fn-type", r"\bdyn \w+|\bF: Fn|\bimpl Fn", "closure parameter or dyn (today's form)"),
    (7, "slot-switch", r"\bif slot == \d", "switch on a number that says which field"),
]


def code(text):
    out = []
    for line in text.split("\n"):
        s = line.strip()
        if s.startswith("//") or s.startswith("ghost "):
            out.append("")
        elif s.startswith("requires ") or s.startswith("ensures "):
            # keep the clause's place, and its text only for the pattern that reads it
            out.append(line if re.search(r"ensures \{ \w+ \}", line) else "")
        else:
            out.append(line.split(" //")[0])
    return "\n".join(out)


def files(tree):
    return sorted(tree.glob("crates/*/src/**/*.rt"))


def clauses(tree):
    """Facts that stand as a `requires` of three or more functions of one crate, and functions with six or more parameters."""
    facts, long = {}, []
    for path in files(tree):
        crate = path.relative_to(tree).parts[1]
        text = path.read_text()
        for m in re.finditer(r"^\s*requires (?:\w+ )?\{ (.*) \}$", text, re.M):
            fact = re.sub(r"\.(?:now|old)\b", "", m.group(1))
            facts.setdefault((crate, fact), 0)
            facts[(crate, fact)] += 1
        for m in re.finditer(r"\bfn (\w+)(?:<[^(]*>)?\(([^)]*)\)", text):
            n = len([p for p in m.group(2).split(",") if p.strip()])
            if n >= 6:
                long.append(f"{path.relative_to(tree)}:{m.group(1)} ({n})")
    return {k: n for k, n in facts.items() if n >= 3}, long


def main():
    args = [a for a in sys.argv[1:] if a != "-v"]
    verbose = "-v" in sys.argv
    tree = Path(args[0]) if args else Path(__file__).resolve().parent.parent
    for point, name, pattern, what in PATTERNS:
        found = []
        for path in files(tree):
            text = code(path.read_text())
            for m in re.finditer(pattern, text, re.M):
                line = text.count("\n", 0, m.start()) + 1
                found.append(f"{path.relative_to(tree)}:{line}: {m.group(0).split(chr(10))[0].strip()}")
        print(f"{point} {name:14} {len(found):4}  {what}")
        if verbose:
            for f in found:
                print("      " + f)
    facts, long = clauses(tree)
    print(f"5 {'facts':14} {len(facts):4}  facts required by three or more functions of one crate")
    if verbose:
        for (crate, fact), n in sorted(facts.items(), key=lambda x: -x[1]):
            print(f"      {crate}: {n} times: {fact}")
    print(f"5 {'parameters':14} {len(long):4}  functions with six or more parameters")
    if verbose:
        for f in long:
            print("      " + f)


if __name__ == "__main__":
    main()
