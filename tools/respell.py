#!/usr/bin/env python3
"""Respells the repository's own definitions and lemmas for today's Rattle, once, after port.py.

usage: python3 tools/respell.py [--list]     at the top of the repository; --list only prints old and new names

A word of a definition, lemma or field is in snake case: `stopsIn` is `stops_in`, `first-order-of` is `first_order_of`. A dash stays only
between the names of two definitions (`length-keep`); where just one of two joined words is a definition's name, they are joined by `_`. Types
and modules keep their capitals. What is renamed: names that files of specs/ or proofs/ of a crate declare (not what stands in a function's own
folder of proofs/). Where: in .antt and .rt files, in the texts of must-fail edits, and in backticks in comments and pages. Functions and types
of src/, exported names, strings and outputs keep their spelling; a name that would fall together with another one stops the script.
"""

import os
import re
import sys

EDGE_L = r"(?<![\w₀-₉'·-])"
EDGE_R = r"(?![\w₀-₉'-])"
SIGNATURE = re.compile(r"^(\s*)((?:unfoldable |abbrev |pub )*)([^\s(){}:;,=|.]+)((?: [^\s(){}:;,=|.]+)*)\s*:\s")
TYPE = re.compile(r"^\s*(?:pub )?(?:data|record)\s+([^\s(){}:]+)")
# words of the library that lemmas are named after
LIBRARY = {"length", "map", "reverse", "append", "take", "drop", "set", "min", "max", "replicate", "concat", "get_or", "getD"}
# dashes and capitals that mean something else
KEPT = {"the", "c"}


def files(root, ends):
    for folder, dirs, names in os.walk(root):
        dirs[:] = sorted(d for d in dirs if d not in ("out", ".git", "target"))
        for n in sorted(names):
            if n.endswith(ends):
                yield os.path.join(folder, n)


def code(line):
    return line.split("-- ")[0] if not line.startswith("--") else ""


def declared():
    """Names that files of specs/ and proofs/ declare: those of types and definitions, and those of laws (whose type is an equation, or which stand in proofs/)."""
    types, definitions, others, local = set(), set(), set(), set()
    for p in files("crates", ".antt"):
        own = re.search(r"/proofs/[^/]+/", p) is not None
        for l in open(p, encoding="utf-8"):
            l = code(l)
            m = TYPE.match(l)
            if m:
                (local if own else types).add(m.group(1))
                continue
            m = SIGNATURE.match(l)
            if not m or l.strip().startswith(("use ", "mod ", "unfolding ", "let ", "pub use")):
                continue
            for n in [m.group(3)] + m.group(4).split():
                if own:
                    local.add(n)
                elif "unfoldable" in m.group(2) or "abbrev" in m.group(2):
                    definitions.add(n)
                else:
                    others.add(n)
    return types, definitions, others, local


def snake(word):
    """`stopsIn` is `stops_in`; a word that begins with a capital is a type."""
    if not word or word[0].isupper():
        return word
    word = re.sub(r"(?<=[a-z0-9₀-₉])([A-Z])(?=[a-z0-9])", lambda m: "_" + m.group(1).lower(), word)
    return re.sub(r"(?<=[a-z0-9₀-₉])([A-Z]+)(?![a-z])", lambda m: "_" + m.group(1).lower(), word)


def respelled(name, known):
    """known: the old names of types and definitions."""
    parts = name.split("-")
    both = len(parts) == 2 and parts[0] in known and parts[1] in known
    return ("-" if both else "_").join("get_or" if w == "getD" else snake(w) for w in parts)


def table():
    types, definitions, others, local = declared()
    known = types | definitions | LIBRARY
    names = definitions | others
    new = {}
    for n in sorted(names):
        if n in KEPT or not re.match(r"[A-Za-z]", n):
            continue
        t = CLASHES.get(n) or respelled(n, known)
        if t != n:
            new[n] = t
    taken = {}
    clash = []
    stay = (names | types | local) - set(new)
    for n, t in new.items():
        if t in taken or t in stay:
            clash.append((n, t, taken.get(t, "a name that stays")))
        taken[t] = n
    return new, clash


def pattern(names):
    return re.compile(EDGE_L + "(" + "|".join(re.escape(n) for n in sorted(names, key=len, reverse=True)) + ")" + EDGE_R)


def main(argv):
    new, still = table()
    if argv == ["--list"]:
        for n, t in new.items():
            print(n, t)
    for n, t, other in still:
        print(f"respell: {n} would be {t}, as is {other}", file=sys.stderr)
    if argv == ["--list"] or still:
        return 1 if still else 0
    every = pattern(new)
    capitals = pattern([n for n in new if "-" not in n])

    # what is left in capitals within a word: variables, names that an import gives, and names within a function's own folder of proofs/
    loose = re.compile(EDGE_L + r"([a-z][a-z0-9₀-₉]*(?:_[a-z0-9₀-₉]+)*[A-Z][A-Za-z0-9₀-₉]*)" + EDGE_R)

    def turn(m):
        return new[m.group(1)]

    def listed(text):
        """The names that a file's header lists, with two blanks or more behind them."""
        m = re.match(r"(--   )(\S.*?)(  .*|\n?)$", text, re.S)
        return m.group(1) + every.sub(turn, m.group(2)) + m.group(3) if m else text

    def loosen(text):
        return loose.sub(lambda m: "get_or" if m.group(1) == "getD" else snake(m.group(1)), text)

    def ticked(text):
        return re.sub(r"`[^`\n]+`", lambda m: every.sub(turn, m.group(0)), text)

    for p in files("crates", (".antt", ".rt", ".edit")):
        out = []
        for l in open(p, encoding="utf-8"):
            if p.endswith(".antt"):
                at = 0 if l.lstrip().startswith("--") else l.find(" -- ")
            elif p.endswith(".rt"):
                at = l.find("//")
            else:
                at = 0 if l.startswith("#") else -1
            body, comment = (l, "") if at < 0 else (l[:at], l[at:])
            parts = re.split(r'("(?:[^"\\]|\\.)*")', body)
            body = "".join(x if k % 2 else every.sub(turn, x) for k, x in enumerate(parts))
            comment = capitals.sub(turn, ticked(listed(comment)))
            out.append(body + comment if p.endswith(".rt") else loosen(body + comment))
        write(p, "".join(out))
    for p in list(files("docs", ".md")) + ["README.md", "CONTRIBUTING.md"]:
        with open(p, encoding="utf-8") as f:
            write(p, ticked(f.read()))
    return 0


def write(p, text):
    with open(p, encoding="utf-8") as f:
        if f.read() == text:
            return
    with open(p, "w", encoding="utf-8") as f:
        f.write(text)


# names that would fall together with another one, and what they are called: a law that would have its definition's name ends in `_lem`
CLASHES = {
    "dear-home": "dear_home_legs",
    "first_on": "first_on_lem",
    "no_record": "no_record_lem",
    "or_later": "or_later_lem",
    "words_last": "words_last_lem",
} | {
    n: n.replace("-", "_") + "_lem"
    for n in [
        "carried-home", "close-away", "far-lane", "in-block", "is-inside", "is-left", "is-node", "known-lines", "layout-of", "live-in",
        "pairs-in", "part-record", "pool-words", "stops-in", "ten-stops", "trailer-bytes", "trailer-of", "two-one",
    ]
}

if __name__ == "__main__":
    sys.exit(main(sys.argv[1:]))
