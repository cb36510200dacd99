#!/usr/bin/env python3
"""Counts the places of older forms in crates/*/src, for docs/DESIGN-PASS.md.

    tools/forms.py [COMMIT] [-l]     of a commit, or of the checkout; -l lists the places

1  enums of the repository's own; boolean fields and parameters that stand beside a value; numbers for kinds and refusals
2  twins: functions of the same name in two files, or of two names in one, of which nine tenths of the words are the same
3  loops over a range of numbers, and `while`
4  functions that convert, compare or print by hand, and errors handed on by hand
5  clauses of `requires` that stand in three or more functions, and parameters that stand together in three or more
6  arrays with a length beside them, and searches by hand
7  a `match` on a number
"""
import difflib, itertools, re, subprocess, sys

args = [a for a in sys.argv[1:] if a != "-l"]
LIST = "-l" in sys.argv
REV = args[0] if args else None


def run(*command):
    return subprocess.run(command, capture_output=True, text=True, check=True).stdout


def sources():
    if REV:
        names = run("git", "ls-tree", "-r", "--name-only", REV).split()
    else:
        names = run("git", "ls-files").split()
    for name in names:
        if re.fullmatch(r"crates/[^/]+/src/.*\.rt", name):
            yield name, run("git", "show", f"{REV}:{name}") if REV else open(name).read()


FILES = dict(sources())


def lines(pattern):
    found = []
    for name, text in FILES.items():
        for n, line in enumerate(text.split("\n"), 1):
            if not line.lstrip().startswith("//") and re.search(pattern, line):
                found.append((f"{name}:{n}", line.strip()))
    return found


def functions():
    """Name of the file, name of the function, its parameters, its clauses, its body."""
    for name, text in FILES.items():
        for m in re.finditer(r"^( *)(?:pub(?:\(crate\))? )?(?:const )?fn (\w+)", text, re.M):
            end = text.find("\n" + m.group(1) + "}", m.start())
            one = re.match(r"[^\n]*\{\}", text[m.start():])
            whole = text[m.start():end] if end > 0 and not one else text[m.start():text.find("\n", m.start())]
            yield name, m.group(2), whole


def twins():
    words = [(f, n, re.findall(r"\w+|[^\w\s]", w)) for f, n, w in functions()]
    words = [(f, n, [x for x in w if not x.isdigit()]) for f, n, w in words if len(w) >= 24]
    found = []
    for (f, n, w), (g, m, v) in itertools.combinations(words, 2):
        if (n == m) == (f == g):
            continue
        if "laws.rt" in f or "tests" in f or not 0.8 < len(w) / len(v) < 1.25:
            continue
        a = difflib.SequenceMatcher(None, w, v, autojunk=False)
        if a.real_quick_ratio() > 0.9 and a.quick_ratio() > 0.9 and a.ratio() > 0.9:
            found.append((f"{f}:{n}", f"{g}:{m}"))
    return found


def repeated_clauses():
    counts = {}
    for _, text in FILES.items():
        for line in re.findall(r"^ +(requires .*)$", text, re.M):
            counts[line] = counts.get(line, 0) + 1
    return [(str(n), line) for line, n in sorted(counts.items()) if n >= 3]


def together():
    groups = {}
    for f, n, whole in functions():
        head = whole[: whole.find("{")]
        params = re.findall(r"(\w+): (&?(?:mut )?[\w\[\]; <>'&]+)", head)
        for k in (4, 3):
            for group in itertools.combinations(sorted({p[0] for p in params}), k):
                groups.setdefault(group, set()).add(f"{f}:{n}")
    found = [(str(len(fs)), ", ".join(g)) for g, fs in groups.items() if len(fs) >= 3]
    return sorted(found, key=lambda x: (-int(x[0]), x[1]))[:12]


CONVERTS = r"\bfn (\w+_(?:from|word|number)|number_of|flag_of|half_in|reason|form|text|refusal|is|is_as|name_of|order|by_length|smaller_of|empty|none|usual|is_more)\b"

POINTS = [
    ("1 enums of one's own", lines(r"^(?:pub(?:\(crate\))? )?enum ")),
    ("1 flags beside a value", lines(r"^ +(?:pub )?(?:gone|whole|below|exact|begins|quoted|counts|with_acts): bool,?$|\(.*\b(?:gone|whole|below|begins): bool")),
    ("1 refusals by number", lines(r"No\(\d+\)")),
    ("1 kinds by number", lines(r"\bkind: u64")),
    ("2 twins", twins()),
    ("3 loops over numbers", lines(r"\bfor [\w']+ in [^\[{]*\.\.|^\s*while ")),
    ("4 conversion, comparison, printing by hand", lines(CONVERTS)),
    ("4 errors handed on by hand", lines(r"Err\(e\) => (?:return )?Err|if let Err\(e\)")),
    ("5 clauses in three or more functions", repeated_clauses()),
    ("5 parameters together (the first twelve groups)", together()),
    ("6 arrays of bytes or words", lines(r"let mut \w+ = \[0(?:u8|u64)?; ")),
    ("7 match on a number", lines(r"\bmatch (?:k|kind|n) \{")),
]
for title, found in POINTS:
    print(f"{title}: {len(found)}")
    if LIST:
        for place, what in found:
            print(f"    {place}  {what}")
