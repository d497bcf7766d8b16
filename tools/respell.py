#!/usr/bin/env python3
"""Brings the names of this repository's own definitions and lemmas to one spelling: words in snake case, types and facts in camel case.

usage: python3 tools/respell.py [--dry]     at the top of the repository, once, after the toolchain's own port.py

A name counts as ours if a file of specs/ or proofs/ declares it. Names that Rattle makes (goals, and the steps of a goal's `c` and `l`),
names of src/, strings and prose keep their spelling. What two names would share is printed, and nothing is written then.
"""
import os
import re
import sys

TOKEN = re.compile(r"[^\s(){}\[\],;.\"@`]+")
NAME = r"[A-Za-z_][A-Za-z0-9_'?-]*"
DECLARED = re.compile(r"^(\s*)((?:abbrev |unfoldable |pub |data |record |mutual |irreducible )*)(" + NAME + r"(?: " + NAME + r")*) :(?: (.*))?$")
HEADED = re.compile(r"^(\s*)(?:abbrev |unfoldable |pub )*(?:data|record) (?:pub )?(" + NAME + r")\b(.*)$")


def files(ending):
    for top, dirs, names in os.walk("crates"):
        dirs[:] = sorted(d for d in dirs if d != "out")
        for n in sorted(names):
            if n.endswith(ending):
                yield os.path.join(top, n)


def read(p):
    with open(p, encoding="utf-8") as f:
        return f.read()


def made(path, text):
    """the names in this file that Rattle makes"""
    names = set(re.findall(r"\bgoal\.(" + NAME + ")", text))
    if path.endswith("/Invariants.antt"):
        names |= {m for m in re.findall(r"^(?:abbrev |pub )*(" + NAME + r")\b", text, re.M) if re.match(r"(invariant|measure|decreases)", m)}
    return names


# names that a function of src/ has too, in the snake case of theirs
OTHERS = {
    "bind-continuation": "binding_continuation",
    "bind-value": "binding_value",
    "bind-world": "binding_world",
    "continuation-at": "continuation_there",
    "gates-of": "gates_there",
    "gauges-of": "gauges_there",
    "is-done": "is_finished",
    "kept-room": "room_kept",
    "published-room": "room_published",
    "read-into": "reads_into",
    "settle-term": "settled_term",
    "settle-type": "settled_type",
    "site-of": "site_given",
    "term-at": "nth_term",
    "term-parts": "parts_of_term",
    "type-parts": "parts_of_type",
    "value-at": "value_there",
    "world-at": "world_there",
}


def is_type(rest):
    return rest is not None and re.search(r"Type(?: \d+)?\s*$", rest.split(" -- ")[0].strip()) is not None


def camel(name):
    parts = re.split(r"[-_]", name)
    return "".join(p[:1].upper() + p[1:] for p in parts if p)


def spelled(name, a_type):
    if name in OTHERS:
        return OTHERS[name]
    if a_type or (name[0].isupper() and "-" in name):
        return camel(name)
    return name.replace("-", "_")


def declared():
    names = {}
    for p in files(".antt"):
        text = read(p)
        skip = made(p, text)
        lines = text.split("\n")
        for i, line in enumerate(lines):
            if line.startswith("use "):
                for n in re.findall(r" as (" + NAME + ")", line):
                    names.setdefault(n, False)
            if line.lstrip().startswith(("--", "use ")):
                continue
            for n in re.findall(r"\bderiving \w+ as (" + NAME + ")", line):
                names[n] = False
            m = HEADED.match(line)
            if m:
                if m[2] not in skip:
                    names[m[2]] = True
                continue
            m = DECLARED.match(line)
            if not m:
                continue
            if m[1] and not m[2] and (re.search(r"\blet\b|λ", line)):
                continue
            rest = m[4] or ""
            j = i + 1
            while j < len(lines) and re.match(r"\s+\S", lines[j]) and not m[1] and not DECLARED.match(lines[j]):
                rest += " " + lines[j].strip()
                j += 1
            for n in m[3].split():
                if n in skip or n in ("where", "let"):
                    continue
                t = is_type(rest) and not m[1] or names.get(n) is True
                names[n] = bool(t)
    for p in files(".rt"):
        for line in read(p).split("\n"):
            if line.startswith("ghost use "):
                for n in re.findall(r" as (" + NAME + ")", line):
                    names.setdefault(n, False)
    return names


def pieces(text, comment):
    """the text in parts, each with whether it is code"""
    out, i, start = [], 0, 0
    while i < len(text):
        if text.startswith(comment, i) and (comment == "//" or i == 0 or text[i - 1] in " \n"):
            j = text.find("\n", i)
            j = len(text) if j < 0 else j
        elif text[i] == '"':
            j = i + 1
            while j < len(text) and text[j] != '"':
                j += 2 if text[j] == "\\" else 1
            j += 1
        else:
            i += 1
            continue
        out += [(text[start:i], True), (text[i:j], False)]
        i = start = j
    return out + [(text[start:], True)]


def turn(text, table, skip, comment):
    out = []
    for part, code in pieces(text, comment):
        if not code:
            if part.startswith(comment):
                part = re.sub(r"`[^`]*`", lambda m: swap(m[0], table, skip), part)
            out.append(part)
        else:
            out.append(swap(part, table, skip))
    return "".join(out)


def swap(part, table, skip):
    def one(m):
        w = m[0]
        before = part[max(0, m.start() - 24):m.start()]
        if w in skip or w not in table:
            return w
        if re.search(r"(?:^|[\s(\[{,])(?:c|l|goal|w)\.$", before):
            return w
        return table[w]
    return TOKEN.sub(one, part)


def ghost_parts(text):
    """a source file in parts, each with whether it is ghost: imports, clauses and ghost members"""
    out, i = [], 0
    head = re.compile(r"ghost use [^;]*;|\b(?:requires|ensures|invariant|decreases|ghost|clause)\b[*]?(?: «?\w+»?)?(?::| =)? \{")
    while True:
        m = head.search(text, i)
        if not m:
            return out + [(text[i:], False)]
        if m[0].endswith("{"):
            deep, j = 1, m.end()
            while j < len(text) and deep:
                deep += (text[j] == "{") - (text[j] == "}")
                j += 1
        else:
            j = m.end()
        out += [(text[i:m.start()], False), (text[m.start():j], True)]
        i = j


def main():
    dry = "--dry" in sys.argv
    ours = declared()
    table = {n: spelled(n, t) for n, t in ours.items() if spelled(n, t) != n and ("-" in n or t)}
    used = {}
    for p in list(files(".antt")) + list(files(".rt")):
        for w in TOKEN.findall(re.sub(r'"(\\.|[^"\\])*"', '""', read(p))):
            used.setdefault(w, set()).add(p)
    back = {}
    for n, t in sorted(table.items()):
        back.setdefault(t, []).append(n)
    bad = False
    for t, ns in sorted(back.items()):
        if len(ns) > 1 or t in used:
            print("shared:", t, ns, sorted(used.get(t, []))[:6])
            bad = True
    if dry or (bad and "--anyway" not in sys.argv):
        print(len(table), "names;", "nothing was written")
        return
    for p in files(".antt"):
        text = read(p)
        new = turn(text, table, made(p, text), "--")
        if new != text:
            open(p, "w", encoding="utf-8").write(new)
    for p in files(".rt"):
        text = read(p)
        new = "".join(turn(part, table, set(), "//") if ghost else part for part, ghost in ghost_parts(text))
        if new != text:
            open(p, "w", encoding="utf-8").write(new)


if __name__ == "__main__":
    main()
