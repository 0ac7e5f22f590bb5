#!/usr/bin/env python3
"""same_statements OLD NEW: whether every lemma and theorem in the files of proofs/ has the same statement in two trees of one spelling.

A statement runs from a name and its colon to the clause below it. Prints each that is gone, new or changed, and how many are the same.
"""

import os
import re
import sys

NAME = r"[^\s(){}\[\];,.\"|:]+"


def statements(path):
    with open(path, encoding="utf-8") as file:
        lines = re.sub(r"(?m)--[^\n]*$", "", file.read()).split("\n")
    found, at = {}, 0
    while at < len(lines):
        begin = re.match(rf"^( *)((?:pub |abbrev |unfoldable )*)({NAME}) :(.*)$", lines[at])
        at += 1
        if not begin or begin[3] in ("mod", "use", "record", "data", "module"):
            continue
        text = begin[2] + begin[4]
        while at < len(lines) and lines[at].strip() and len(lines[at]) - len(lines[at].lstrip()) > len(begin[1]):
            text += " " + lines[at].strip()
            at += 1
        found.setdefault(begin[3], []).append(re.sub(r"\s", "", text))
    return found


def main(old, new):
    counts = {"same": 0, "changed": 0, "gone": 0, "new": 0}
    for crate in sorted(os.listdir(os.path.join(old, "crates"))):
        folder = os.path.join("crates", crate, "proofs")
        if not os.path.isdir(os.path.join(old, folder)):
            continue
        for name in sorted(os.listdir(os.path.join(old, folder))):
            if not name.endswith(".antt"):
                continue
            path = os.path.join(folder, name)
            one, other = statements(os.path.join(old, path)), statements(os.path.join(new, path))
            for law in sorted(one.keys() | other.keys()):
                what = "gone" if law not in other else "new" if law not in one else "same" if one[law] == other[law] else "changed"
                counts[what] += 1
                if what != "same":
                    print(f"{what}: {path}: {law}")
    print(", ".join(f"{number} {what}" for what, number in counts.items()))


if __name__ == "__main__":
    main(*sys.argv[1:])
