#!/usr/bin/env python3
"""Brings the repository's own definitions and lemmas to today's spelling: words in snake case. Run once, at the top, on what
/opt/rattle/port/port.py wrote. Functions of src/, exported names, strings, inputs and outputs keep their names.

A lemma whose name falls together with a definition's gets `_law` behind it; the two definitions that would be named as fields of a
struct get their words in the other order (OTHER)."""

import collections
import os
import re

TOKEN = re.compile(r"""[^\s(){}.;,:«»"`@]+""")
DECLARED = re.compile(r"^(\s*)((?:abbrev |unfoldable |pub |data |record |ruleset )*)([A-Za-z_][^\s:(){}.;,«»]*)((?:\s+[({][^=]*[)}])*)\s*:\s(.*)")
USED = re.compile(r"^\s*(?:pub )?(?:ghost )?use\s+([^\s{;]+?)\.\{([^}]*)\}", re.M)
ALIAS = re.compile(r"^\s*(?:ghost )?use\s+([^\s{;]+)\s+as\s+([^\s;]+)", re.M)
OTHER = {"effectWithin": "within_effect", "prepareWithin": "within_prepare"}


def snake(name):
    if name in OTHER:
        return OTHER[name]
    if name[0].isupper():
        name = name[0].lower() + name[1:]
    return re.sub(r"([a-z0-9])([A-Z])", lambda m: m[1] + "_" + m[2].lower(), name.replace("-", "_"))


def files():
    for top in ("crates",):
        for folder, dirs, names in os.walk(top):
            dirs[:] = sorted(d for d in dirs if d != "out")
            for name in sorted(names):
                if name.endswith((".antt", ".rt")):
                    yield os.path.join(folder, name)


def is_old(name):
    return "-" in name or (not name[0].isupper() and re.search(r"[a-z0-9][A-Z]", name) is not None)


def module_of(path):
    """crates/NAME/specs/A.antt as Rattle.NAME.specs.A"""
    return "Rattle." + path.removeprefix("crates/").removesuffix(".antt").replace("/", ".")


crates = [line.split(":")[0].split()[0] for line in open("crates.txt") if ":" in line and not line.startswith("#")]
texts = {path: open(path, encoding="utf-8").read() for path in files()}
declared = collections.defaultdict(set)  # name: the modules that declare it
labels = collections.defaultdict(set)  # of a proof by goals: the goals' names, which the check gives
fields = set()
for path, text in texts.items():
    if not path.endswith(".antt"):
        continue
    in_record, margin = False, 0
    for line in text.split("\n"):
        indent = len(line) - len(line.lstrip())
        if line.strip() and (indent <= margin or not in_record):
            in_record, margin = re.match(r"\s*(pub |abbrev )*(record|data)\b", line) is not None, indent
        found = DECLARED.match(line)
        if not found:
            continue
        name, rest = found[3], found[5]
        if path.endswith("/Proof.antt") and (rest.startswith("tie.") or "statement" in rest or name.startswith(("Need", "invariant-", "decreases-"))):
            labels[path].add(name)
            continue
        declared[name].add(module_of(path))
        if in_record and indent > margin:
            fields.add(name)

groups = collections.defaultdict(set)
for name in declared:
    if is_old(name) or not name[0].isupper():
        groups[snake(name)].add(name)
turned = {}
laws = {}  # names that already have today's spelling and make room for a definition
for new, names in groups.items():
    camel = {n for n in names if "-" not in n and n != new}
    for name in names:
        if len(names) == 1:
            if name != new:
                turned[name] = new
        elif camel:  # the definition gets the plain name
            if name in camel:
                turned[name] = new
            elif name == new:
                laws[name] = new + "_law"
            else:
                turned[name] = new + "_law"
        elif name != new:  # a lemma beside a name that has today's spelling
            turned[name] = new + ("_at" if name[0].isupper() else "_law")
assert len({new for new in turned.values()}) == len(turned), "names fall together"


def own(path):
    return any(path == "Rattle." + c or path.startswith("Rattle." + c + ".") for c in crates)


for path, text in texts.items():
    foreign, mine, aliases = set(), set(), set()
    for found in USED.finditer(text):
        names = [n.strip() for n in found[2].replace("\n", " ").split(",")]
        for name in names:
            first = name.split(" as ")[0].strip()
            if not own(found[1]):
                foreign.add(first)
            elif found[1] in declared.get(first, ()) or first in declared:
                mine.add(first)
    for found in ALIAS.finditer(text):
        if own(found[1]):
            aliases.add(found[2])
    here = {n for n, where in declared.items() if module_of(path) in where}
    skipped = labels.get(path, set())
    is_rust = path.endswith(".rt")

    def respelled(line):
        mark = "//" if is_rust else "--"
        at = line.find(mark)
        code, comment = (line, "") if at < 0 else (line[:at], line[at:])
        out, last = [], 0
        for found in TOKEN.finditer(code):
            name = found[0]
            out.append(code[last:found.start()])
            last = found.end()
            new = turned.get(name)
            dotted = code[: found.start()].endswith(".")
            if name in laws and not is_rust and not dotted and (name in here or name in mine):
                new = laws[name]
            elif new is not None:
                if name in foreign and name not in here:
                    new = None
                elif dotted:
                    root = re.search(r"([^\s(){}.;,:«»]+)\.$", code[: found.start()])
                    if not (name in fields or (root and root[1] in aliases) or code[: found.start()].endswith("}.")):
                        new = None
                elif name in skipped:
                    new = None
                elif is_rust and "-" in name and name not in mine:
                    new = None
            out.append(name if new is None else new)
        out.append(code[last:])

        def quoted(found):
            return "`" + TOKEN.sub(lambda t: turned.get(t[0], t[0]), found[1]) + "`"

        comment = re.sub(r"`([^`]*)`", quoted, comment)
        comment = TOKEN.sub(lambda t: turned[t[0]] if t[0] in turned and re.search(r"[a-z][A-Z]", t[0]) else t[0], comment)
        return "".join(out) + comment

    new = "\n".join(respelled(line) for line in text.split("\n"))
    if new != text:
        with open(path, "w", encoding="utf-8") as f:
            f.write(new)
print(f"respell: {len(turned)} names, {len(laws)} made room for a definition")
