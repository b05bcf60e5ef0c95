#!/usr/bin/env python3
"""Brings the repository's own definitions and lemmas to the spelling that today's Rattle uses.

usage: python3 tools/respell.py [--check]      at the top of the repository, once, right after the kit's port.py

A name that specs/ or a file of lemmas declares, and that has a dash, gets underscores: number-of is
number_of. One that begins with a capital, as a type or a statement does, is joined in camel case:
Place-order is PlaceOrder. Names of goals (those that a generated module states), names that some file
imports from a library, names of src/ and strings stay. It prints each pair, and, after 'falls together:', each new name that was there before.
"""

import os
import re
import sys

WORD = r"[\w'\-◌′]"
TOKEN = re.compile(rf"(?<![\w'\-◌′])(?!\d)[\w◌]{WORD}*")
DECLARED = re.compile(
    rf"^[ ]*(?:(?:abbrev|unfoldable|pub|data|record|ruleset)[ ]+)*((?!\d)[\w]{WORD}*)[ ]+:[ ]|^[ ]*(?:pub[ ]+)?(?:data|record)[ ]+((?!\d)[\w]{WORD}*)[ ]",
    re.M,
)
IMPORT = re.compile(r"^(?:ghost )?use ([\w.+'◌-]+)\.\{([^}]*)\}", re.M)
GOAL = re.compile(rf"^\s*(?:(?:abbrev|pub)\s+)*({WORD}+)\s*:\s*goal\.", re.M)
# The library has a put_mid, of which this lemma speaks.
OWN = {"put-mid": "put_mid_lem"}
STRING = re.compile(r'"(?:[^"\\]|\\.)*"')


def files(root):
    for folder, dirs, names in os.walk(os.path.join(root, "crates")):
        dirs[:] = sorted(d for d in dirs if d != "out")
        for name in sorted(names):
            if name.endswith((".rt", ".antt", ".edit")):
                yield os.path.join(folder, name)


def respelled(name):
    parts = [it for it in name.split("-") if it]
    if name[0].isupper():
        return parts[0] + "".join(it[0].upper() + it[1:] for it in parts[1:])
    return "_".join(parts)


def names_of(texts):
    """The names with a dash that a specification or a file of proofs declares, less those of goals."""
    found, goals = set(), set()
    for path, text in texts.items():
        if not path.endswith(".antt"):
            continue
        goals.update(GOAL.findall(text))
        found.update(it for pair in DECLARED.findall(text) for it in pair if "-" in it)
    return found - goals


def of_libraries(root, texts):
    """The names that some file imports from a library."""
    own = set(os.listdir(os.path.join(root, "crates")))
    found = set()
    for text in texts.values():
        for path, names in IMPORT.findall(text):
            if not (path.startswith("Rattle.") and path.split(".")[1] in own):
                found.update(it.strip().split(" ")[0] for it in names.split(","))
    return found


def turned(text, table):
    def word(it):
        return table.get(it[0], it[0])

    out, at = [], 0
    for it in STRING.finditer(text):
        out.append(TOKEN.sub(word, text[at : it.start()]))
        out.append(it[0])
        at = it.end()
    out.append(TOKEN.sub(word, text[at:]))
    return "".join(out)


def main():
    root = os.getcwd()
    texts = {}
    for path in files(root):
        with open(path, encoding="utf-8", newline="") as f:
            texts[path] = f.read()
    table = {it: OWN.get(it, respelled(it)) for it in names_of(texts) - of_libraries(root, texts)}
    there = set()
    for text in texts.values():
        there.update(TOKEN.findall(text))
    for old in sorted(table):
        print(f"{old} -> {table[old]}")
    news = list(table.values())
    for new in sorted({it for it in news if it in there or news.count(it) > 1}):
        print(f"falls together: {new}")
    if "--check" in sys.argv:
        return
    for path, text in texts.items():
        new = turned(text, table)
        if new != text:
            with open(path, "w", encoding="utf-8", newline="") as f:
                f.write(new)


main()
