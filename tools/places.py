#!/usr/bin/env python3
"""Places in src/ that docs/DESIGN-PASS.md counts: `tools/places.py [FOLDER]` at a checkout's top, a line for each place, and counts at the end.

Each point has a pattern of its own, read off the text: it finds what has the shape, good or bad, and the page says of each place what became of it.
"""
import collections
import pathlib
import re
import sys

top = pathlib.Path(sys.argv[1] if len(sys.argv) > 1 else ".")
found = collections.defaultdict(list)


def heads(text):
    """The functions of a file: name, and the text from `fn` to the body."""
    for m in re.finditer(r"^ *(?:pub )?(?:extern \"C\" )?fn (\w+)", text, re.M):
        end = text.find("{\n", m.start())
        body = re.search(r"\n *\{\n", text[m.start() :])
        yield m.group(1), text[m.start() : m.start() + (body.start() if body else end)]


def facts(clause):
    """The facts of a `requires`, taken apart at its products."""
    clause = clause.strip()
    if clause.startswith("("):
        depth = 0
        for k, c in enumerate(clause):
            depth += (c == "(") - (c == ")")
            if depth == 0:
                break
        if k == len(clause) - 1:
            return facts(clause[1:-1])
    parts, depth, part = [], 0, ""
    for c in clause:
        depth += (c == "(") - (c == ")")
        if c == "×" and depth == 0:
            parts.append(part)
            part = ""
        else:
            part += c
    parts.append(part)
    return [clause] if len(parts) == 1 else [f for p in parts for f in facts(p)]


asked, travel = collections.defaultdict(set), collections.defaultdict(set)
for path in sorted(top.glob("crates/*/src/**/*.rt")):
    crate = path.relative_to(top).parts[1]
    text = re.sub(r"^ *//.*$|//.*$", "", path.read_text(), flags=re.M)

    def at(point, what, crate=crate, path=path):
        found[point].append(f"{crate}/{'/'.join(path.parts[path.parts.index('src') + 1:])} {what}")

    for m in re.finditer(r"^ *(?:pub )?enum (\w+)", text, re.M):
        at("1 enums of ours", m.group(1))
    for m in re.finditer(r"^    (?:pub )?(\w+): bool,$", text, re.M):
        at("1 flags in structs", m.group(1))
    for m in re.finditer(r"^    (?:pub )?(selection|rules|bound|number|mark): u32,$", text, re.M):
        at("1 numbers for kinds or refusals, in structs", m.group(1))
    for m in re.finditer(r"^    \w+\(u32\),$", text, re.M):
        at("1 numbers for kinds or refusals, in enums", m.group(0).strip())
    for name, head in heads(text):
        if re.search(r"cause", name) and "-> u32" in head:
            at("1 functions that answer a refusal's number", name)
        if re.search(r"\bnumber: u32", head):
            at("1 functions that take a refusal's number", name)
    for m in re.finditer(r"^ *(?:'\w+: )?while (.*) \{$", text, re.M):
        kind = "over a set" if m.group(1) == "left != 0" else "while"
        at(f"3 loops: {kind}", m.group(1))
    for m in re.finditer(r"^ *for (.*) in (.*) \{$", text, re.M):
        at("3 done: for", m.group(1) + " in " + m.group(2))
    for m in re.finditer(r"\b(?:i|k|j|c|q|p|s|h|choice|used|next) [+-]= 1;", text):
        at("3 counted by hand", m.group(0))
    for m in re.finditer(r"\S+ as (u8|u32|u64|usize)\b", text):
        at("4 casts by as", m.group(0))
    for name, _ in heads(text):
        if name in ("lesser", "lesser_place", "wide", "places", "exchange_stops", "put_bytes", "clear", "cleared", "word_at", "put_word", "empty"):
            at("4 library methods by hand, by name", name)
    for name, head in heads(text):
        for clause in re.findall(r"requires (?:\w+ )?\{ (.*) \}", head):
            for fact in facts(clause):
                asked[re.sub(r"\.(now|old)\b", "", fact)].add(f"{crate}::{name}")
        params = tuple(re.findall(r"(\w+): ", head.split("requires")[0].split("ensures")[0]))
        for pair in (("w", "p", "index"), ("kids", "alive"), ("setting", "t"), ("t", "precedence"), ("buffer", "at"), ("size", "set", "first", "second"), ("used", "shift", "index")):
            if all(x in params for x in pair):
                travel[", ".join(pair)].add(f"{crate}::{name}")
    for m in re.finditer(r"^    (?:pub )?(length|stops|count): \w+,$", text, re.M):
        at("6 lengths beside buffers", m.group(1))
    for m in re.finditer(r"^ *match (.*) \{$", text, re.M):
        at("7 matches", m.group(1))

for fact, names in sorted(asked.items(), key=lambda x: -len(x[1])):
    if len(names) >= 3:
        found["5 facts in three contracts or more"].append(f"{len(names)} {fact}: {' '.join(sorted(names))}")
for pair, names in sorted(travel.items()):
    if len(names) >= 3:
        found["5 parameters that travel together"].append(f"{len(names)} ({pair}): {' '.join(sorted(names))}")

for point in sorted(found):
    for place in found[point]:
        print(f"{point}: {place}")
print()
for point in sorted(found):
    print(f"{len(found[point]):4} {point}")
