#!/usr/bin/env python3
"""Respells this repository's own definitions and lemmas: words in snake case, types in camel case.

usage: python3 tools/port/names.py [FOLDER]      run once, at the top, after the kit's port.py

names.tsv, beside this script, has a row for each name: old, a tab, new. What turns is a whole word of a proof file, a definition,
a clause or an edit. Comments, strings, names that Rattle makes (an answer's own name, what stands behind `goal.` and `c.`) and
names of the library stay.
"""

import os
import re
import sys

HERE = os.path.dirname(os.path.realpath(__file__))
WORD = re.compile(r'[^\s(){}.;,@"«»]+')
QUIET = re.compile(r'"(?:[^"\\\n]|\\.)*"|(?:(?<![^\s(){}.;,@"«»])--|//)[^\n]*')
STD = re.compile(r"Rattle\.std\.[\w.+'-]*\{([^}]*)\}")


def read_table():
    with open(os.path.join(HERE, "names.tsv"), encoding="utf-8") as f:
        return dict(line.rstrip("\n").split("\t") for line in f)


def respell_word(table, stays, text, m):
    before = text[: m.start()]
    if m[0] in stays or re.search(r"(?:^|[\s(\[])(?:c|l|goal)\.$", before):
        return m[0]
    return table.get(m[0], m[0])


def respell_code(table, stays, text):
    return WORD.sub(lambda m: respell_word(table, stays, text, m), text)


def respell(table, text):
    stays = {w for w in table if re.search(rf"(?m)^(?:abbrev )?(?:pub )?{re.escape(w)} : (?:goal|need)\.", text)}
    stays |= {w.strip() for m in STD.finditer(text) for w in m[1].split(",")}
    parts, at = [], 0
    for m in QUIET.finditer(text):
        parts += [respell_code(table, stays, text[at : m.start()]), m[0]]
        at = m.end()
    return "".join(parts) + respell_code(table, stays, text[at:])


def files(top):
    for folder, dirs, names in os.walk(os.path.join(top, "crates")):
        dirs[:] = sorted(d for d in dirs if d != "out")
        for name in sorted(names):
            if name.endswith((".antt", ".rt", ".edit")):
                yield os.path.join(folder, name)


def main():
    table = read_table()
    for path in files(sys.argv[1] if len(sys.argv) > 1 else "."):
        with open(path, encoding="utf-8") as f:
            text = f.read()
        new = respell(table, text)
        if new != text:
            with open(path, "w", encoding="utf-8") as f:
                f.write(new)


if __name__ == "__main__":
    main()
