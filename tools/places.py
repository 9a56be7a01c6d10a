#!/usr/bin/env python3
"""Counts places in crates/*/src that an older form of the language may have left, point by point.

usage: python3 tools/places.py [--list] [COMMIT]     (at the top of the repository; without COMMIT the work tree)

Each count is of places to look at, not a verdict. docs/DESIGN-PASS.md says what became of each.
"""
import collections
import os
import re
import subprocess
import sys

LIST = "--list" in sys.argv
COMMIT = next((a for a in sys.argv[1:] if not a.startswith("--")), None)


def git(*args):
    return subprocess.run(["git", *args], capture_output=True, text=True, check=True).stdout


def sources():
    if COMMIT:
        names = git("ls-tree", "-r", "--name-only", COMMIT, "crates").splitlines()
        read = lambda name: git("show", f"{COMMIT}:{name}")
    else:
        names = [os.path.join(f, n) for f, _, ns in os.walk("crates") for n in ns if "/out" not in f]
        read = lambda name: open(name, encoding="utf-8").read()
    return {n: read(n).split("\n") for n in sorted(names) if "/src/" in n and n.endswith(".rt")}


SOURCES = sources()


def lines(pattern):
    return [f"{n}:{i}: {l.strip()}" for n, ls in SOURCES.items() for i, l in enumerate(ls, 1) if re.search(pattern, l)]


def repeated_clauses():
    """Clauses `requires` and `ghost` of one text that stand three times or more."""
    found = collections.defaultdict(list)
    for n, ls in SOURCES.items():
        for i, l in enumerate(ls, 1):
            m = re.match(r"\s*(?:requires|ghost)\b[^{]*\{(.*)\}[,;]?\s*$", l)
            if m and ("requires" in l or l.rstrip().endswith(",")):
                found[re.sub(r"(self|[a-z_]+)\.(now|old|new)", r"\1", m.group(1).strip())].append(f"{n}:{i}")
    return {f"{text}  [{len(at)}]": at for text, at in found.items() if len(at) >= 3}


def travelling():
    """Runs of three parameters or more, by name and type, that stand in three signatures or more."""
    text = {n: re.sub(r"//.*", "", "\n".join(ls)) for n, ls in SOURCES.items()}
    runs = collections.defaultdict(set)
    for n, t in text.items():
        for m in re.finditer(r"\bfn ([a-z_0-9]+)[^(]*\(([^)]*)\)", t):
            ps = [p.strip() for p in re.sub(r"\s+", " ", m.group(2)).split(",") if ":" in p]
            for size in range(3, len(ps) + 1):
                for i in range(len(ps) - size + 1):
                    runs[", ".join(ps[i:i + size])].add(f"{n}: {m.group(1)}")
    many = {r: at for r, at in runs.items() if len(at) >= 3}
    longest = {r: at for r, at in many.items() if not any(r != q and r in q and at <= bt for q, bt in many.items())}
    return {f"{r}  [{len(at)}]": sorted(at) for r, at in longest.items()}


def twins(least=5):
    """Pairs of runs of five code lines or more, of the same shape."""
    keep = {"fn", "pub", "let", "if", "else", "match", "for", "in", "while", "return", "impl", "ensures", "requires", "mut"}
    word = re.compile(r"[^\s(){}\[\],;.:&]*[A-Za-z0-9\u0370-\u03ff][^\s(){}\[\],;.:&]*")
    seen = collections.defaultdict(list)
    text = {}
    for n, ls in SOURCES.items():
        out = []
        for i, raw in enumerate(ls, 1):
            s = re.sub(r"\s+", " ", raw.split("//")[0]).strip()
            if re.search("[A-Za-z]", s) and not s.startswith(("use ", "ghost use", "pub use", "mod ", "pub mod", "pub(crate) mod")):
                out.append((i, word.sub(lambda m: m.group(0) if m.group(0) in keep else "·", s)))
        text[n] = out
        for k in range(len(out) - least + 1):
            shape = tuple(l[1] for l in out[k:k + least])
            if sum(map(len, shape)) >= 60:
                seen[shape].append((n, k))
    pairs, used = [], set()
    for at in seen.values():
        if len(at) < 2:
            continue
        (a, i), (b, j) = at[0], at[1]
        if (a, i) in used or (a == b and abs(i - j) < least):
            continue
        size = least
        while i + size < len(text[a]) and j + size < len(text[b]) and text[a][i + size][1] == text[b][j + size][1] and (a != b or i + size < j):
            size += 1
        used.update((a, i + d) for d in range(size))
        pairs.append(f"{a}:{text[a][i][0]} ~ {b}:{text[b][j][0]} ({size} lines)")
    return pairs


def two_sided():
    """Enums of two variants of which one has a value: the shape of Option, Result."""
    found = []
    for n, ls in SOURCES.items():
        for m in re.finditer(r"\benum (\w+)[^{]*\{((?:[^{}]|\{[^{}]*\})*)\}", re.sub(r"//.*", "", "\n".join(ls))):
            variants = [v.strip() for v in re.split(r",(?![^(]*\))(?![^{]*\})", m.group(2)) if v.strip()]
            if len(variants) == 2 and re.search(r"[({]", m.group(2)):
                found.append(f"{n}: {m.group(1)}")
    return found


INDEX_LOOP = r"^\s*(while (?!let)|loop\b)|\bfor [a-z_]+ in .*\.\.|^\s*(?!self\b)[a-z_]+ [+-]= 1;"
POINTS = {
    "1 a flag or a bare number as a parameter or an answer": lines(r"-> u8\b|\b(?!result)[a-z_]+: bool[,)]"),
    "1 constants that number kinds": lines(r"const [A-Z_]+: u8 ="),
    "1 enums of two variants, one with a value": two_sided(),
    "2 pairs of runs of the same shape": twins(),
    "3 loops that count, and counters": lines(INDEX_LOOP),
    "4 arms that turn one Option or Result into another": lines(r"^\s*(Ok|Err|Some|None)\b.*=> (Some|None|Ok|Err|0|at|rows\.len)\b"),
    "4 comparisons and conversions written out": lines(r"\b(Less|Greater)\s*$|=> [0-9]+,$|fn refused\(|fn answered\("),
    "5 clauses of one text in three places or more": repeated_clauses(),
    "5 parameters that travel together": travelling(),
    "6 a length or a place beside a buffer, and parallel arrays": lines(r"\b(used|limit|currencies): usize|\bcash: (&)?\[i64; 8\]|table: \[Currency; 8\]"),
    "6 halving by hand": lines(r"/ 2;"),
    "7 a switch on which step to run": lines(r"match figure\b|let Some\(register\) =|\bfn\([^)]*\) ->"),
}

for name, found in POINTS.items():
    print(f"{len(found):4}  {name}")
    if LIST:
        if isinstance(found, dict):
            for text, at in found.items():
                print(f"        {text}")
                for place in at:
                    print(f"            {place}")
        else:
            for place in found:
                print(f"        {place}")
