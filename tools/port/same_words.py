#!/usr/bin/env python3
"""same_words OLD NEW: whether the files of specs/ and proofs/ say the same in two spellings, OLD as it stood and NEW as the scripts left it.

A file is read as a list of words, without comments, layout, imports, parentheses, `_` and `-`, and in small letters; a proof that
walked the code by hand (Proof.antt) is left out. Prints how many files were compared, and each pair of words that differs, with how often.
"""

import collections
import difflib
import os
import re
import sys


def words(text):
    text = re.sub(r"--[^\n]*", "", text)
    text = re.sub(r"(?m)^(pub )?use [^\n]*$", "", text)
    text = re.sub(r"\s+\.(?=[A-Za-z0-9])", ".", text)
    found = []
    for run in re.findall(r"[^\s(){}\[\];,]+|[\[\]{}]", text):
        for word in run.replace("′", "'").replace("·", ".").replace("◌", "_").split("."):
            if re.search(r"\w", word):
                word = re.sub(r"lem$", "", re.sub(r"[-_]", "", word).lower())
            if word:
                found.append(word)
    return found


def read(path):
    with open(path, encoding="utf-8") as file:
        return words(file.read())


def paths(root):
    for folder, dirs, files in os.walk(os.path.join(root, "crates")):
        dirs[:] = sorted(d for d in dirs if d != "out")
        for name in sorted(files):
            path = os.path.relpath(os.path.join(folder, name), root)
            if name.endswith(".antt") and name != "Proof.antt" and re.match(r"crates/[^/]+/(specs|proofs)/", path):
                yield path


def main(old, new):
    pairs, compared = collections.Counter(), 0
    for path in paths(old):
        if not os.path.exists(os.path.join(new, path)):
            print("gone:", path)
            continue
        one, other = read(os.path.join(old, path)), read(os.path.join(new, path))
        compared += 1
        for what, i, j, k, l in difflib.SequenceMatcher(None, one, other, autojunk=False).get_opcodes():
            if what != "equal":
                pairs[" ".join(one[i:j]), " ".join(other[k:l])] += 1
    print(f"{compared} files compared")
    for (one, other), times in pairs.most_common():
        print(f"{times} times: {one!r} is {other!r}")


if __name__ == "__main__":
    main(*sys.argv[1:])
