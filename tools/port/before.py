#!/usr/bin/env python3
"""Makes the repository readable to the kit's port.py. Run once, at the top, before it.

port.py leaves out every step for an older spelling in a tree that has one of today's library names bare in a proof file. Twelve short
names in proofs/Determined.antt, each of a function of the crate, are such names by chance. Each gets the ending `_call`, and port.py
then takes every step.
"""

import os
import re

BY_CHANCE = {
    "answers": ["key_back", "distance_back"],
    "cuts": ["patch_of"],
    "lines": ["line_of"],
    "lists": ["room_for", "count_of"],
    "marched": ["pair_ok", "stored_at"],
    "search": ["place_of"],
    "slopes": ["distance_of"],
    "words": ["write_word", "read_word"],
}

for crate, names in BY_CHANCE.items():
    path = os.path.join("crates", crate, "proofs", "Determined.antt")
    with open(path, encoding="utf-8") as file:
        text = file.read()
    for name in names:
        text, brought = re.subn(rf"\b{name}\.Reads as {name}\b", f"{name}.Reads as {name}_call", text)
        if brought != 1:
            raise SystemExit(f"before: {path}: {name} is brought in {brought} times")
        text = re.sub(rf"(?<![\w.·]){name}\.Post\b", f"{name}_call.Post", text)
    with open(path, "w", encoding="utf-8") as file:
        file.write(text)
