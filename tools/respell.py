#!/usr/bin/env python3
"""Respells this repository's own definitions and lemmas in snake case, and its types in camel case.

usage: python3 tools/respell.py        at the top of a checkout that was turned once by the kit's port script

It was run once, when the repository moved to a newer Rattle, and stays for who lays the older text beside the newer.
A name is one that a .antt file right in specs/ or proofs/ declares and that has a hyphen or a prime.
"""
import os
import re
import sys

TOKEN = re.compile(r"[^\s(){}\[\];,.·\"`]+")
NAME = r"[^\s(){}:;.,]+"
DECLARED = re.compile(rf"\s*(?:abbrev |unfoldable )?(?:pub )?(?:record |data )?({NAME}(?: {NAME})*?)\s*(?:[({{].*)?:(?:\s|$)")


def files(root):
    for folder, dirs, names in os.walk(os.path.join(root, "crates")):
        dirs[:] = sorted(d for d in dirs if d != "out")
        for name in sorted(names):
            if name.endswith((".rt", ".antt", ".edit")):
                yield os.path.relpath(os.path.join(folder, name), root)


def lemma_file(path):
    parts = path.split("/")
    return path.endswith(".antt") and len(parts) == 4 and parts[2] in ("specs", "proofs")


def declared(root):
    found = set()
    for path in files(root):
        if not lemma_file(path):
            continue
        for line in open(os.path.join(root, path), encoding="utf-8"):
            if line.lstrip().startswith(("--", "use ", "pub use ", "module ")):
                continue
            m = DECLARED.match(line)
            if m and (" " not in m.group(1) or "/specs/" in path):
                found.update(m.group(1).split())
    return found


def respelled(name):
    words = name.split("-")
    if name[0].isupper():
        return "".join(w[:1].upper() + w[1:] for w in words)
    return "_".join(words)


def imported(text, own):
    """The names that a file takes from elsewhere than this repository."""
    out = set()
    for m in re.finditer(r"^\s*(?:pub )?(?:ghost )?use ([\w.·]+)\.\{([^}]*)\}", text, re.M):
        crate = m.group(1).split(".")
        if len(crate) > 1 and crate[0] == "Rattle" and crate[1] in own:
            continue
        for it in m.group(2).split(","):
            out.add(it.split(" as ")[0].strip())
    return out


def main():
    root = sys.argv[1] if len(sys.argv) > 1 else "."
    own = set(os.listdir(os.path.join(root, "crates")))
    names = {n: respelled(n) for n in declared(root) if "-" in n and not n.startswith("-") and not n.endswith("-")}
    there = declared(root)
    for n, to in sorted(names.items()):
        if to in there:
            print(f"falls together: {n} and {to}")
    seen = {}
    for path in files(root):
        full = os.path.join(root, path)
        text = open(full, encoding="utf-8").read()
        left = imported(text, own)
        mark = "//" if path.endswith(".rt") else "--" if path.endswith(".antt") else None

        def turn(m):
            t = m.group(0)
            return names[t] if t in names and t not in left else t

        out = []
        for line in text.split("\n"):
            at = line.find(mark) if mark and line.lstrip().startswith(mark) else -1
            out.append(line if at >= 0 else TOKEN.sub(turn, line))
        new = "\n".join(out)
        for t in left & set(names):
            print(f"kept in {path}: {t}, of another library")
        if new != text:
            open(full, "w", encoding="utf-8").write(new)
            seen[path] = True
    print(f"{len(names)} names, {len(seen)} files")


if __name__ == "__main__":
    main()
