#!/usr/bin/env python3
"""Brings the repository's own definitions and lemmas to one spelling: words in snake case, types in camel case, a prime as an apostrophe.

usage: python3 tools/respell.py [--check]      at the top of the repository

It goes by spelling. A name is the repository's own where a file of specs/ or proofs/ declares it; a name that a library gave, a goal's name and
whatever stands in code, in strings or in inputs and outputs stays. --check writes nothing, and lists the names that would fall together in a file.
"""

import os
import re
import sys

TOKEN = re.compile(r"[^\s(){}\[\];,.«»\"`λ:=]+")
DECLARED = re.compile(r"^\s*(?:(?:pub|abbrev|unfoldable|private)\s+)*(?:(?:data|record|ruleset)\s+)?([^\s(){}\[\];,.«»\"]+)(?=\s*(?::|\(|\{|\s[A-Za-z₀-₉ ]+:))")
BOUND = re.compile(r"(?:\blet|λ)\s+([^\s(){}\[\];,.«»\"=:]+)\s*(?=[:=.])|\(([^\s(){}\[\];,.«»\"=:]+) :")
ALIAS = re.compile(r" as ([^\s(){}\[\];,.«»\"]+)")
FUNCTION = re.compile(r"/proofs/.+/(?:Answers|Invariants|Proof)\.antt$")
GOAL = re.compile(r"([^\s]+) : goal\.([^\s]+)")


def own_crates(root):
    return sorted(c for c in os.listdir(os.path.join(root, "crates")) if os.path.isdir(os.path.join(root, "crates", c, "src")))


def files(root, ends):
    for top in ("crates", "docs", "README.md"):
        path = os.path.join(root, top)
        if os.path.isfile(path):
            if path.endswith(ends):
                yield path
            continue
        for folder, dirs, names in os.walk(path):
            dirs[:] = sorted(d for d in dirs if d != "out")
            for n in sorted(names):
                if n.endswith(ends):
                    yield os.path.join(folder, n)


def spelled(name):
    name = name.replace("′", "'")
    if "-" not in name.strip("-"):
        return name
    if name[0].isupper():
        return "".join(p[:1].upper() + p[1:] for p in name.split("-"))
    return name.replace("-", "_")


def is_name(t):
    return bool(re.match(r"^[^\W\d]", t)) and ("-" in t.strip("-") or "′" in t)


def uncommented(text):
    return re.sub(r"--[^\n]*", "", text)


def library_names(text, crates):
    names = set()
    for m in re.finditer(r"^use ([^\s{]+?)\.?\{([^}]*)\}", text, re.M):
        head = m.group(1).split(".")
        if head[0] == "Rattle" and len(head) > 1 and head[1] in crates and "contracts" not in head:
            continue
        names |= {n.strip().split(" as ")[0].strip("«»") for n in m.group(2).split(",")}
    return names


def goal_names(text):
    return {m.group(2) for m in GOAL.finditer(text)}


def declared(text):
    names = set()
    for line in uncommented(text).splitlines():
        if line.startswith("use ") or GOAL.search(line):
            continue
        m = DECLARED.match(line)
        if m:
            names.add(m.group(1))
    return {n for n in names if is_name(n)}


def bound(text):
    names = {m.group(1) or m.group(2) for m in BOUND.finditer(uncommented(text))} | {m.group(1) for m in ALIAS.finditer(text)}
    for m in re.finditer(r"^[^\n:=]*[^\s:=]\s*=(?!=)", uncommented(text), re.M):
        names |= {t.group(0) for t in list(TOKEN.finditer(m.group(0)))[1:]}
    return {n for n in names if is_name(n)}


def pieces(text):
    """Code, strings and comments of an .antt file, in order."""
    for m in re.finditer(r'"(?:[^"\\\n]|\\.)*"|--[^\n]*|(?:(?!--)[^"])+|.', text, re.S):
        t = m.group(0)
        yield ("comment" if t.startswith("--") else "string" if t.startswith('"') else "code"), t


def turned(code, table, step_heads):
    out, last = [], 0
    for m in TOKEN.finditer(code):
        t = m.group(0)
        if t not in table:
            continue
        before = code[: m.start()]
        if step_heads and re.search(r"(?:^|[^\w'])[clwg]\.$", before):
            continue
        out.append(code[last : m.start()] + table[t])
        last = m.end()
    return "".join(out) + code[last:]


def turn_antt(path, text, own, crates):
    in_proof = bool(FUNCTION.search(path))
    keep = library_names(text, crates) | goal_names(text)
    mine = {n for n in own | declared(text) | bound(text) if n not in keep}
    table = {n: spelled(n) for n in mine}
    used = {m.group(0) for k, p in pieces(text) if k == "code" for m in TOKEN.finditer(p)}
    together = {}
    for n in used:
        together.setdefault(table.get(n, n), set()).add(n)
    for new, olds in sorted(together.items()):
        if len(olds) > 1:
            print(f"falls together: {path}: {', '.join(sorted(olds))}")
    said = {n: table[n] for n in table if n in used}
    return "".join(turned(p, table, in_proof) if k == "code" else turned(p, said, False) if k == "comment" else p for k, p in pieces(text))


def turn_rt(path, text, own):
    aliases = {m.group(1) for m in ALIAS.finditer(text) if is_name(m.group(1))}
    table = {n: spelled(n) for n in own | aliases if "-" in n}
    out = []
    for m in re.finditer(r"""b?'(?:[^'\\\n]|\\.)'|"(?:[^"\\]|\\.)*"|//[^\n]*|[^"'/]+|.""", text, re.S):
        t = m.group(0)
        out.append(t if t[0] in "\"'/" or t.startswith("b'") else turned(t, table, False))
    return "".join(out)


def turn_md(text, own, all_names):
    words = {m.group(0) for m in TOKEN.finditer(text.replace("`", " ")) if is_name(m.group(0))}
    table = {n: spelled(n) for n in words if n in own or spelled(n) in all_names}

    def span(m):
        inner = m.group(1)
        return "`" + turned(inner, table, False) + "`" if not re.search(r"[/.]", inner) else m.group(0)

    return re.sub(r"`([^`\n]+)`", span, text)


def main(argv):
    check = "--check" in argv
    root = os.getcwd()
    crates = own_crates(root)
    texts = {p: open(p, encoding="utf-8").read() for p in files(root, (".antt", ".rt", ".md"))}
    own, all_names = set(), set()
    for p, t in texts.items():
        if p.endswith(".antt") and not FUNCTION.search(p):
            all_names |= {m.group(1) for m in map(DECLARED.match, uncommented(t).splitlines()) if m}
    for p, t in texts.items():
        if p.endswith(".antt") and not FUNCTION.search(p):
            own |= declared(t)
    changed = 0
    for p, t in texts.items():
        new = turn_antt(p, t, own, crates) if p.endswith(".antt") else turn_rt(p, t, own) if p.endswith(".rt") else turn_md(t, own, all_names | {spelled(n) for n in own})
        if new != t:
            changed += 1
            if not check:
                with open(p, "w", encoding="utf-8") as f:
                    f.write(new)
    print(f"{len(own)} names of the repository's own, {changed} files {'would change' if check else 'changed'}")
    return 0


if __name__ == "__main__":
    raise SystemExit(main(sys.argv[1:]))
