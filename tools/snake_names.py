#!/usr/bin/env python3
"""Spells the repository's own definitions and lemmas as today's Rattle does: words in snake case, facts in camel case.

usage: tools/snake_names.py      at the top of the repository, once, after port.py

It reads which names the files of crates/ declare, and turns those with a capital inside a word, as rowOf to row_of, wherever
they stand in .antt and .rt files (quoted text aside), in must-fail edits and in the code spans of .md files. Names of the library, of
Rust's own items and of local variables stay. APART has the names whose plain spelling would fall together with another name.
"""

import os
import re

APART = {
    "wholeRoom": "whole_room_cells",  # whole_room is a parameter
    "floatRoom": "float_room_cells",  # float_room is a parameter
    "wholeCells": "whole_cells_of",  # whole_cells is a field of Accepted
    "outCells": "out_cells_of",  # the function out_cells stands beside it
    "countMost": "most_count",  # count_most is a lemma and a field
    "fourBytes": "four_bytes_of",  # four_bytes is a lemma
    "lentRow": "row_lent",  # lent_row is a lemma
    "inFrame": "is_in_frame",  # in_frame is a field
    "belowHalf": "just_below_half",  # below_half is a field
    "wholeCell": "whole_sheet_cell",  # whole_cell is another crate's
    "fourDigits": "FourDigits",  # a fact
}
DECLARED = re.compile(
    r"^\s*(?:(?:unfoldable|abbrev|pub)\s+)*([^\s(){}.;,@\"«»:]+)\s*(?:\([^)]*\)|\{[^}]*\})*\s*:(?=\s)"
)
WORD = re.compile(r"[^\s(){}.;,@\"«»:`|]+")
QUOTED = re.compile(r'"(?:[^"\\\n]|\\.)*"')
SPAN = re.compile(r"`[^`\n]+`")


def snake(name):
    """rowOf is row_of, listOf-length is list_of-length; a part that begins with a capital is a fact and stays."""
    parts = [
        part if part[:1].isupper() else re.sub(r"(?<=[a-z0-9₀-₉])([A-Z])", lambda m: "_" + m.group(1).lower(), part)
        for part in name.split("-")
    ]
    return "-".join(parts)


def files(top, endings):
    for folder, folders, names in os.walk(top):
        folders[:] = sorted(f for f in folders if f not in ("out", "target", ".git"))
        for name in sorted(names):
            if name.endswith(endings):
                yield os.path.join(folder, name)


def read(path):
    with open(path, encoding="utf-8") as f:
        return f.read()


def spellings():
    rows = {}
    for path in files("crates", ".antt"):
        for line in read(path).split("\n"):
            declared = DECLARED.match(line)
            if declared:
                name = declared.group(1)
                spelled = APART.get(name, snake(name))
                if spelled != name:
                    rows[name] = spelled
    return rows


def turn(text, rows):
    return WORD.sub(lambda m: rows.get(m.group(0), m.group(0)), text)


def turn_around(text, rows, kept):
    """Everything but what `kept` matches."""
    done, at = [], 0
    for m in kept.finditer(text):
        done += [turn(text[at : m.start()], rows), m.group(0)]
        at = m.end()
    return "".join(done + [turn(text[at:], rows)])


def main():
    rows = spellings()
    turned = 0
    for path in files(".", (".antt", ".rt", ".edit", ".md")):
        old = read(path)
        if path.endswith(".md"):
            new = SPAN.sub(lambda m: turn(m.group(0), rows), old)
        elif path.endswith(".rt"):
            new = turn_around(old, rows, QUOTED)
        else:
            new = turn(old, rows)
        if new != old:
            turned += 1
            with open(path, "w", encoding="utf-8") as f:
                f.write(new)
    print(f"{len(rows)} names, {turned} files")


main()
