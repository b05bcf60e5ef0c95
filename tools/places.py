#!/usr/bin/env python3
"""Lists, point by point, places in src/ that a newer form of the language may serve better: places.py [FOLDER]."""
import re
import sys
from collections import defaultdict
from pathlib import Path

ROOT = Path(sys.argv[1] if len(sys.argv) > 1 else ".")
TEXTS = {
    str(f.relative_to(ROOT / "crates")): re.sub(r"//.*", "", f.read_text())
    for f in sorted(ROOT.glob("crates/*/src/**/*.rt"))
    if f.name != "tests.rt"
}
FN = re.compile(r"\bfn\s+(\w+)\s*(?:<[^(]*?>)?\(")
TAIL = re.compile(r"\s*->[^{;]*?(?=\s+(?:requires|ensures|where)\b|\s*[{;])|\s*(?:requires|ensures)(?:\s+\w+)?\s*\{")
KEPT = {"if", "else", "for", "in", "let", "mut", "return", "match", "Ok", "Err", "Some", "None", "self"}


def closing(text, at):
    """The place after the bracket that closes the one before `at`."""
    depth = 1
    while depth:
        depth += {"(": 1, "{": 1, "[": 1, ")": -1, "}": -1, "]": -1}.get(text[at], 0)
        at += 1
    return at


def functions():
    """Place, name, parameters, head with the clauses, and body of each function."""
    for name, text in TEXTS.items():
        for m in FN.finditer(text):
            end = start = closing(text, m.end())
            while c := TAIL.match(text, end):
                end = closing(text, c.end()) if c.group().endswith("{") else c.end()
            brace = re.compile(r"\s*\{").match(text, end)
            body = text[brace.end() : closing(text, brace.end()) - 1] if brace else ""
            place = f"{name}:{text.count(chr(10), 0, m.start()) + 1}: {m.group(1)}"
            yield place, text[m.end() : start - 1], text[start:end], body


def found(pattern):
    for name, text in TEXTS.items():
        for m in re.finditer(pattern, text, re.M):
            yield f"{name}:{text.count(chr(10), 0, m.start()) + 1}: " + re.sub(r"\s+", " ", m.group()).strip()


def options():
    """1: flags beside values, enums like Option or Result, numbers for kinds, answers passed on by hand"""
    yield from found(r"^.*(?:Option<\(bool|\(bool,|^\s*(?:pub(?:\(crate\))? )?\w+: bool,$|let mut \w+ = (?:true|false);).*$")
    for place, params, head, body in functions():
        if "&mut" in params.replace("&mut self", "") and re.match(r"\s*-> bool", head):
            yield place + " -> bool, with a lent place"
    yield from found(r"^.*\b(?!len\(\))[a-z_]+(?:\[\w+\]\.\w+)? [!=]= 0\b.*$")
    yield from found(r"^.*match (?:\w+\.number\(\)|u8::from\(\w+\)).*$")
    for name, text in TEXTS.items():
        for m in re.finditer(r"enum (\w+)[^{]*\{([^}]*)\}", text):
            kinds = re.findall(r"\w+(?:\([^)]*\))?(?=,)", m.group(2))
            if len(kinds) == 2 and any("(" not in k for k in kinds) and any("(" in k for k in kinds):
                yield f"{name}: enum {m.group(1)}"
    yield from found(r"^.*let (?:Some|Ok)\([^=]*\) = [^;{]*else \{\s*return (?:None|Err\([^;]*\)|false);\s*\}")
    yield from found(r"^.*(?:None => (?:None|Err\(|\"\"|false)|Err\((\w+)\) => Err\().*$")


def twins():
    """2: functions whose bodies are equal but for names, types, sizes and constants"""
    same = defaultdict(list)
    for place, params, head, body in functions():
        if len(re.findall(r"\w+", body)) < 5:
            continue
        names = {}

        def turned(m):
            word = m.group()
            if word[0] == '"' or word[0].isdigit():
                return "N"
            return word if word in KEPT else names.setdefault(word, f"v{len(names)}")

        key = re.sub(r'"[^"]*"|\b\d\w*\b|\b[A-Za-z_]\w*\b', turned, body)
        same[re.sub(r"\s+", "", key)].append(place)
    yield from (" = ".join(group) for group in same.values() if len(group) > 1)


def loops():
    """3: loops over numbers, and loops that step by hand"""
    yield from found(r"^\s*(?:for \w+ in .*\.\..*|while\b.*|loop\b.*)$")


def by_hand():
    """4: equality, order, conversion and printing by hand"""
    yield from found(r"^.*(?:\.0 [!=]= \w+\.0|\.as_slice\(\) == ).*$")
    yield from found(r"^.*[/%] (?:10|16|256|1024|65536|16777216|4294967296|1048576|1073741824)\b.*$")
    yield from found(r"^.*\* (?:256|1024|65536|16777216)\b.*$")
    yield from found(r"^.*fn (?:number|words|usage|of|status_of|file_kind|zone|hex_\w+)\(.*$")


def repeated():
    """5: clauses that three or more functions require, and parameters of three or more of which one never goes without the other"""
    clauses, alone, both = defaultdict(set), defaultdict(set), defaultdict(set)
    for place, params, head, body in functions():
        file, name = place.split(":")[0], place.split()[-1]
        for c in re.findall(r"requires(?:\s+\w+)?\s*\{(.*?)\}\s*(?=requires|ensures|$)", head, re.S):
            clauses["requires " + re.sub(r"\s+", " ", c).strip()].add(f"{file}: {name}")
        ps = [re.sub(r"\s+", " ", re.sub(r"&'\w+ ", "&", p)).strip() for p in re.split(r",(?![^<(\[]*[>)\]])", params)]
        ps = sorted(p for p in ps if ":" in p and not re.match(r"(?:rt|heap):", p))
        for where in (file, "all files"):
            for i, p in enumerate(ps):
                alone[where, p].add(name)
                for q in ps[i + 1 :]:
                    both[where, p, q].add(name)
    for key, places in clauses.items():
        if len(places) >= 3:
            yield f"{key}: {len(places)}: " + "; ".join(sorted(places))
    for (where, p, q), names in both.items():
        if len(names) >= 3 and (alone[where, p] == names or alone[where, q] == names):
            yield f"({p}, {q}) in {where}: " + ", ".join(sorted(names))


def buffers():
    """6: arrays in fields, and what is put in its place by index"""
    yield from found(r"^\s*(?:pub(?:\(\w+\))? )?\w+: \[.*; .*\],$")
    yield from found(r"^\s*[\w.]+\[[^\]]*\] = .*$")
    yield from found(r"^.*\bcount: usize,.*$")


def switches():
    """7: enums that are matched in three or more methods, function pointers, dyn"""
    methods = defaultdict(list)
    for place, params, head, body in functions():
        if re.search(r"match \*?self\b", body):
            methods[place.split(":")[0]].append(place.split()[-1])
    yield from (f"{name}: " + ", ".join(names) for name, names in methods.items() if len(names) >= 3)
    yield from found(r"^.*(?:\bfn\(|\bdyn\b).*$")


for point in (options, twins, loops, by_hand, repeated, buffers, switches):
    places = list(dict.fromkeys(point()))
    print(f"\n## {point.__doc__}: {len(places)}")
    print("\n".join(places))
