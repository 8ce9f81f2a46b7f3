#!/usr/bin/env python3
"""Gives a crate another name, where a library of the kit took its own.

usage: tools/rename_crate.py OLD NEW     at the top of the repository: crates/OLD becomes crates/NEW, with every path into it
"""

import glob
import os
import re
import sys

old, new = sys.argv[1:]
os.rename(f"crates/{old}", f"crates/{new}")
with open("crates.txt", encoding="utf-8") as f:
    lines = f.read()
with open("crates.txt", "w", encoding="utf-8") as f:
    f.write(re.sub(rf"(?m)(?<![\w#]){old}(?!\w)(?=[^#\n]*$)", new, lines))
for path in sorted(p for e in ("rt", "antt", "edit") for p in glob.glob(f"crates/**/*.{e}", recursive=True)):
    with open(path, encoding="utf-8", newline="") as f:
        text = f.read()
    turned = re.sub(rf"(?<![\w.])Rattle([.·]){old}(?![\w])", rf"Rattle\1{new}", text)
    turned = re.sub(rf"(?<![\w.:]){old}::", f"{new}::", turned)
    if turned != text:
        with open(path, "w", encoding="utf-8", newline="") as f:
            f.write(turned)
