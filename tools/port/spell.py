#!/usr/bin/env python3
"""Spells the repository's own names as today's Rattle does. Run once, at the top, after port.py.

A definition, a lemma or a field of the repository's own goes from camel case to snake case, and a dash between plain words becomes `_`.
A dash stays where one of the two names that it joins was in camel case, as in `find_by-find`, and beside a sign, as in `∈-map`. Where a
lemma would get the name of a definition that it meets in a file, it ends in `_lem`. Names of src/, types, modules, and what a library
brings in keep theirs, and so do the answers of a Proof.antt, which Rattle names.

usage: tools/port/spell.py [--list]
"""

import collections
import os
import re
import sys

KEYS = "mod pub use where data record module open as let in elim abbrev unfoldable unfold unfolding axiom ruleset infix infixl infixr mutual do"
WORDS = set(KEYS.split())
NAME = r"[^\s(){}\[\];,.\"|]+"
DEFINED = re.compile(r"^( *)((?:pub |abbrev |unfoldable |axiom )*)(" + NAME + r") :(?=\s|$)")
USE = re.compile(r"^(?:ghost )?use ([^;{]*?)(?:\.\{([^}]*)\})?(?: as (" + NAME + r"))?;?$", re.M | re.S)
CAMEL = re.compile(r"^[a-z][a-z0-9]*[A-Z]")
EDGE = r"\s(){}\[\];,.\"|⌜⌝`"
LIBRARY = ["ofBits", "getD"]
PLAIN = re.compile(r"^[a-zA-Z0-9_'-]+$")


def texts():
    for folder, dirs, files in os.walk("crates"):
        dirs[:] = sorted(d for d in dirs if d != "out")
        for name in sorted(files):
            if name.endswith((".antt", ".rt", ".edit")):
                path = os.path.join(folder, name)
                with open(path, encoding="utf-8") as file:
                    yield path, file.read()


def snake(name):
    parts = name.split("-")
    turned = [re.sub(r"(?<=[a-z0-9])([A-Z])", lambda m: "_" + m[1].lower(), p) if CAMEL.match(p) else p for p in parts]
    if not PLAIN.match(name) or any(CAMEL.match(p) for p in parts):
        return "-".join(turned)
    return "_".join(turned)


def crates():
    with open("crates.txt", encoding="utf-8") as file:
        return {line.split(":")[0].split()[0] for line in file if line.strip() and not line.startswith("#")}


def imports(text, own):
    """The names that a file brings in, by whether a crate of this repository has them."""
    ours, theirs = set(), set()
    for use in USE.finditer(text):
        path, group, alias = use[1].strip(), use[2], use[3]
        into = ours if path.startswith("Rattle.") and path.split(".")[1] in own else theirs
        if group is None:
            into.add(alias or path.split(".")[-1])
            continue
        for item in group.split(","):
            item = item.strip()
            if item:
                into.add(re.split(r" as ", item)[0].strip())
                into.add(re.split(r" as ", item)[-1].strip())
    return ours, theirs


def definitions(path, text):
    """The names that a proof or specification file defines, and which of them Rattle names."""
    found, made = set(), set()
    for line in text.split("\n"):
        line = re.sub(r"--.*", "", line)
        got = DEFINED.match(line)
        if got and got[3] not in WORDS:
            if path.endswith("/Proof.antt") and (re.search(r": tie\.", line) or re.search(r"statement M$", line)):
                made.add(got[3])
            else:
                found.add(got[3])
    # fields and constructors stand in the lines of a record or of data, and are found above; module parameters are no names of others
    return found, made


def fields(text):
    """The names that stand in the body of a record."""
    found, depth = set(), None
    for line in text.split("\n"):
        line = re.sub(r"--.*", "", line)
        if not line.strip():
            continue
        indent = len(line) - len(line.lstrip())
        if depth is not None and indent <= depth:
            depth = None
        if depth is not None:
            got = DEFINED.match(line)
            if got:
                found.add(got[3])
        elif re.match(r"\s*(pub )?record [A-Z]", line):
            depth = indent
    return found


def main():
    own = crates()
    files = dict(texts())
    defined = collections.defaultdict(set)
    made_in = {}
    for path, text in files.items():
        if path.endswith(".antt"):
            found, made = definitions(path, text)
            made_in[path] = made
            for name in found:
                defined[name].add(path)
    in_records = set().union(*(fields(t) for p, t in files.items() if p.endswith(".antt")))
    # a short name and a binder in camel case too, and what port.py turned everywhere but in the must-fail edits
    for path, text in files.items():
        brought = imports(text, own)[1] if path.endswith(".antt") else set(LIBRARY)
        searched = "\n".join(l for l in text.split("\n") if l.startswith("ghost use")) if path.endswith(".rt") else text
        for name in re.findall(rf"(?<![^{EDGE}])[a-z][a-z0-9]*[A-Z][^{EDGE}]*", searched):
            if name not in brought and name not in LIBRARY:
                defined[name].add(path)
    turn = {n: snake(n) for n in defined if (CAMEL.match(n) or "-" in n)}
    turn = {n: to for n, to in turn.items() if to != n}

    tokens, theirs = {}, {}
    for path, text in files.items():
        tokens[path] = set(re.split(r"[\s(){}\[\];,.\"|⌜⌝`]+", text))
        theirs[path] = imports(text, own)[1] if not path.endswith(".edit") else set()

    # what stands in a file by its bare name: no field, no part of a path; of a source file only what its ghost lines bring in
    bare = {}
    for path, text in files.items():
        if path.endswith(".antt"):
            bare[path] = set(re.findall(rf"(?<![^{EDGE}]|\.)[^{EDGE}]+(?![^{EDGE}]|\.)", re.sub(r"--.*", "", text)))
        elif path.endswith(".rt"):
            ours, others = imports("\n".join(l for l in text.split("\n") if l.startswith("ghost use")), own)
            bare[path] = ours | others
        else:
            bare[path] = set()
    met = collections.defaultdict(set)
    for path, words in bare.items():
        for word in words:
            met[word].add(path)
    rounds = 0
    while True:
        rounds += 1
        taken = collections.defaultdict(set)
        for name, to in turn.items():
            for path in met[name]:
                taken[path, to].add(name)
        bad, why = set(), {}
        for (path, to), names in taken.items():
            others = {n for n in names if n != to}
            standing = to in bare[path] and to not in turn
            if len(others) + standing > 1:
                for n in others:
                    # a definition in camel case keeps the plain name; a lemma gives way
                    if "-" in n or standing:
                        bad.add(n)
                        why.setdefault(n, (path, to, sorted(names)))
        if not bad or rounds > 4:
            break
        if "--list" in sys.argv:
            for n in sorted(bad):
                print("meets:", n, *why[n])
        for n in bad:
            turn[n] = turn[n] + "_lem"
    if "--list" in sys.argv:
        for n in sorted(turn):
            print(n, turn[n], len(met[n]))
        return
    for path, text in files.items():
        keep = theirs[path] | made_in.get(path, set())
        words = {n for n in turn if n in tokens[path] and n not in keep}
        if not words:
            continue
        if path.endswith(".antt"):
            text = turned(text, turn, words, in_records)
        elif path.endswith(".edit") and re.search(r"^file: .*\.antt", text):
            text = turned(text, turn, words, in_records)
        else:
            # in a source file a dash is an operator, so only what stands in a clause, a ghost line or a comment
            text = "\n".join(turned(l, turn, words if ghostly(l) else {w for w in words if "-" not in w}, in_records) for l in text.split("\n"))
        with open(path, "w", encoding="utf-8") as file:
            file.write(text)


def ghostly(line):
    return bool(re.search(r"//|^\s*ghost |\b(requires|ensures)\b.*\{", line))




def turned(text, turn, words, in_records):
    short = {m[3] + "." for m in USE.finditer(text) if m[3]}

    def one(match):
        if match[2] not in words:
            return match[0]
        # behind a dot stands a field, or what a module holds
        if match[1].endswith(".") and not match[1][:1].isupper() and match[1] not in short and match[2] not in in_records:
            return match[0]
        return match[1] + turn[match[2]]

    return re.sub(rf"((?:[^{EDGE}]*\.)?)([^{EDGE}]+)", one, text) if words else text


if __name__ == "__main__":
    main()
