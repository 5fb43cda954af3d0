#!/usr/bin/env python3
"""Brings names in backticks in README.md, CONTRIBUTING.md and docs/*.md to the spelling that port.py and respell.py gave the definitions and lemmas:
respell_pages.py LANDED PORTED, two folders, before port.py and after respell.py. Run once, at the top."""

import collections
import glob
import os
import re
import sys

DECLARED = re.compile(r"^(\s*)((?:abbrev |unfoldable |pub |data |record |ruleset )*)([A-Za-z_«][^\s:(){}.;,]*)((?:\s+[({][^=]*[)}])*)\s*:\s")


def declared(path):
    with open(path, encoding="utf-8") as f:
        return [m[3].strip("«»") for m in map(DECLARED.match, f) if m]


landed, ported = sys.argv[1:]
names = collections.defaultdict(collections.Counter)
for new in glob.glob(f"{ported}/crates/*/**/*.antt", recursive=True):
    old = landed + new[len(ported):]
    if os.path.basename(new) == "Proof.antt" or not os.path.exists(old):
        continue
    for a, b in zip(declared(old), declared(new)):
        names[a][b] += 1
turned = {a: bs.most_common(1)[0][0] for a, bs in names.items()}
for page in ["README.md", "CONTRIBUTING.md", *glob.glob("docs/*.md")]:
    if page in ("docs/PORT.md", "docs/MUST-FAIL.md"):
        continue
    text = open(page, encoding="utf-8").read()
    new = re.sub(r"`[^`\n]+`", lambda m: re.sub(r"[^\s(){}.;,:`]+", lambda w: turned.get(w[0], w[0]), m[0]), text)
    if new != text:
        open(page, "w", encoding="utf-8").write(new)
        print(page)
