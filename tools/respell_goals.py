#!/usr/bin/env python3
"""Respells the names of steps and goals in the answers: a name of the source keeps its underscores there.

usage: python3 tools/respell_goals.py    at the top of a checkout. It was run once, after tools/respell.py.
"""
import os
import re

WORD = re.compile(r"[A-Za-z_][A-Za-z0-9_]*_[A-Za-z0-9_]*")
TOKEN = re.compile(r"[A-Za-z_][A-Za-z0-9_'-]*-[A-Za-z0-9_'-]*")
FIXED = [("overflow-" + w, "overflow_" + w) for w in ("add", "sub", "mul", "shl", "shr", "cast", "step", "neg")]
FIXED += [("in-ok", "in_ok"), ("in-err", "in_err"), ("in-default", "in_default"), ("nonzero-div", "nonzero_div"), ("nonzero-rem", "nonzero_rem"),
          ("slice-bounds", "slice_bounds"), ("invariant-of", "invariant_of"), ("In-default", "In_default"), ("In-ok", "In_ok"), ("In-err", "In_err"), ("In-false", "In_false")]


def main():
    words = set()
    for folder, dirs, names in os.walk("crates"):
        dirs[:] = [d for d in dirs if d != "out"]
        for n in names:
            if n.endswith(".rt"):
                words.update(WORD.findall(open(os.path.join(folder, n), encoding="utf-8").read()))
    pairs = sorted(((w.replace("_", "-"), w) for w in words if not w.startswith("_") and not w.endswith("_")), key=lambda p: -len(p[0])) + FIXED
    for folder, dirs, names in os.walk("crates"):
        dirs[:] = [d for d in dirs if d != "out"]
        parts = folder.split("/")
        if len(parts) < 4 or parts[2] != "proofs":
            continue
        for n in names:
            if not n.endswith(".antt"):
                continue
            p = os.path.join(folder, n)
            text = open(p, encoding="utf-8").read()
            taken = set()
            for m in re.finditer(r"^use ([\w.]+)\.\{([^}]*)\}", text, re.M):
                if not m.group(1).endswith(("Goals", "Given")):
                    taken.update(w.strip() for w in m.group(2).split(","))

            def turn(m):
                t = m.group(0)
                if t in taken:
                    return t
                for a, b in pairs:
                    t = re.sub(rf"(?<![A-Za-z0-9_]){re.escape(a)}(?![A-Za-z0-9_])", b, t)
                return t

            new = "\n".join(l if l.startswith("--") else TOKEN.sub(turn, l) for l in text.split("\n"))
            if new != text:
                open(p, "w", encoding="utf-8").write(new)
                print(p)


if __name__ == "__main__":
    main()
