#!/usr/bin/env python3
"""Brings the must-fail edits (docs/edits, docs/rounds, crates/*/must-fail) to today's spelling. Run once, in two steps:

    turn_edits.py write LANDED   in a clone at the last commit before the port: puts beside each .antt file that an edit changes the file
                                 as the edit makes it (specs/Zq0.antt, ..), and a list of these in turn_edits.json. Commit, run port.py, commit, run
                                 tools/respell.py there, and commit: HEAD~2 is what write wrote.
    turn_edits.py read LANDED NAMES   here: takes an edit's texts from what the scripts made of both files, names of declarations from the
                                 declarations of the files before and after them, and a function's goals from NAMES-CRATE/names.json, which
                                 `rt check --generated .. --old-names` writes. Says what has to be mended by hand.
"""
import difflib
import glob
import json
import os
import re
import subprocess
import sys

WORD = re.compile(r"[^\s(){}.;,]+")
DECLARED = re.compile(r"^\s*(?:(?:abbrev|unfoldable|pub|data|record|ruleset)\s+)*([^\s:(){}.;,]+)((?:\s+[({][^=]*[)}])*)\s*:(?:\s|$)")
SAME = {"loop-holds": "loop-init", "loop-again": "loop-preserved", "loop-less": "loop-smaller"}


def read(path):
    """The lines of an edit as (word, rest), and (None, line) of others."""
    lines = []
    for line in open(path, encoding="utf-8").read().rstrip("\n").split("\n"):
        word, colon, rest = line.partition(": ")
        lines.append((word, rest) if colon and word in ("file", "old", "new", "refused", "falls", "at", "also", "renamed") and lines else (None, line))
    return lines


def edits(root):
    return sorted(os.path.relpath(it, root) for pattern in ("docs/edits/*.edit", "docs/rounds/*/*.edit", "crates/*/must-fail/*.edit") for it in glob.glob(f"{root}/{pattern}"))


def crate_of(edit):
    parts = edit.split("/")
    return "model" if parts[1] == "edits" else parts[2] if parts[1] == "rounds" else parts[1]


def text(path):
    return open(path, encoding="utf-8").read()


def pairs(lines):
    file = old = None
    for word, rest in lines:
        if word == "file":
            file = rest
        elif word == "old":
            old = rest
        elif word == "new":
            yield file, old, rest


def write(landed):
    table, n = {}, 0
    for edit in edits(landed):
        made = {}
        for file, old, new in pairs(read(f"{landed}/{edit}")):
            if file.endswith(".antt"):
                at = made.setdefault(file, text(f"{landed}/crates/{crate_of(edit)}/{file}"))
                assert at.count(old) == 1, (edit, file, old)
                made[file] = at.replace(old, new)
        for file, at in made.items():
            other = f"crates/{crate_of(edit)}/{file.split('/')[0]}/Zq{n}.antt"
            n += 1
            with open(f"{landed}/{other}", "w", encoding="utf-8") as out:
                out.write(at)
            table.setdefault(edit, {})[file] = other
    with open(f"{landed}/turn_edits.json", "w") as out:
        json.dump(table, out)


def part(function, whole):
    at = whole.find(f"fn {function}(") if function else 0
    if at < 0:
        return 0, 0
    end = whole.find("\n}", at) if function else -1
    return at, end if end >= 0 else len(whole)


def cut(old, was, line, other, is_once):
    """Of a line before and after an edit, both in today's spelling, the texts to exchange: where the old text's words stand, or more where that is not enough."""
    first, last = was.index(old), was.index(old) + len(old)
    a, b = len(WORD.findall(was[:first])), len(WORD.findall(was[first:last]))
    start = end = None
    here = list(WORD.finditer(line))
    if len(here) == len(WORD.findall(was)) and b:
        start, end = here[a].start(), here[a + b - 1].end()
        lead, tail = re.match(r"[\s(]*", old)[0], re.search(r"[\s)]*$", old)[0]
        for c in reversed(lead):
            if start and line[start - 1] == c:
                start -= 1
        for c in tail:
            if end < len(line) and line[end] == c:
                end += 1
    same = os.path.commonprefix([line, other])
    back = os.path.commonprefix([line[::-1], other[::-1]])
    low = len(same)
    high = max(len(line) - len(back), low - (len(other) - len(line)) if len(other) < len(line) else low, low)
    if start is None:
        start, end = low, high
    start, end = min(start, low), max(end, high)

    def words():
        nonlocal start, end
        while start and re.match(r"[^\s(){};,]", line[start - 1]) and re.match(r"[^\s(){};,]", line[start : start + 1] or " "):
            start -= 1
        while end < len(line) and re.match(r"[^\s(){};,]", line[end]) and (end == 0 or re.match(r"[^\s(){};,]", line[end - 1])):
            end += 1

    words()
    while True:
        level, low = 0, 0
        for c in line[start:end]:
            level += (c == "(") - (c == ")")
            low = min(low, level)
        if old.count("(") == old.count(")") and low < 0 and start and "(" in line[:start]:
            start = line.rindex("(", 0, start)
        elif old.count("(") == old.count(")") and level > 0 and ")" in line[end:]:
            end = line.index(")", end) + 1
        else:
            break
    while not is_once(line[start:end]) and (start or end < len(line)):
        if start:
            start = line.rstrip().rfind(" ", 0, max(start - 1, 0)) + 1
        if not is_once(line[start:end]) and end < len(line):
            at = line.find(" ", end + 1)
            end = at if at >= 0 else len(line)
    return line[start:end], other[start : len(other) - (len(line) - end)]


def names_of(landed):
    """For each file of specs/ and proofs/ the old names of its declarations, each with the new one."""
    found = {}
    was = subprocess.run(["git", "-C", landed, "ls-tree", "-r", "--name-only", "HEAD~2", "crates"], capture_output=True, text=True, check=True).stdout.split("\n")
    for file in was:
        if file.endswith(".antt") and "/Zq" not in file and os.path.isfile(f"{landed}/{file}"):
            old = subprocess.run(["git", "-C", landed, "show", f"HEAD~2:{file}"], capture_output=True, text=True, check=True).stdout
            a, b = ([m[1] for m in map(DECLARED.match, it.split("\n")) if m] for it in (old, text(f"{landed}/{file}")))
            if len(a) == len(b):
                found[file] = dict(zip(a, b))
            else:
                found[file] = {}
                for tag, i, j, k, m in difflib.SequenceMatcher(None, [re.sub(r"[-_A-Z]", "", it).lower() for it in a], [re.sub(r"[-_A-Z]", "", it).lower() for it in b], False).get_opcodes():
                    if j - i == m - k:
                        found[file].update(zip(a[i:j], b[k:m]))
    return found


def turn(landed, names):
    table, declared, changed, left = json.load(open(f"{landed}/turn_edits.json")), names_of(landed), 0, []
    for edit in edits("."):
        lines, crate, new = read(edit), crate_of(edit), []
        if not os.path.exists(f"{landed}/{edit}"):
            left.append(f"{edit}: is not in LANDED")
            continue
        function = next((rest for word, rest in lines if word == "refused"), "")
        function = function if edit.startswith("docs/rounds") and " " not in function else None
        file, turned, here = None, {}, {}
        for word, rest in lines:
            if word == "file":
                file = rest
            if word == "old":
                old = rest
            if word in ("old", "new") and file.endswith(".antt"):
                if word == "new":
                    pair = None
                    base = f"crates/{crate}/{file}"
                    a, b = text(f"{landed}/{base}").split("\n"), text(f"{landed}/{table[edit][file]}").split("\n")
                    was = subprocess.run(["git", "-C", landed, "show", f"HEAD~2:{base}"], capture_output=True, text=True, check=True).stdout
                    at = was[: was.index(old)].count("\n")
                    line = was.split("\n")[at]
                    now = text(base) if os.path.isfile(base) else ""
                    hunks = [(p, q) for tag, i, j, k, m in difflib.SequenceMatcher(None, a, b, False).get_opcodes() if tag == "replace" and j - i == m - k for p, q in zip(a[i:j], b[k:m])]
                    plain = lambda it: re.sub(r"[^a-z0-9]", "", it.lower())
                    hunks.sort(key=lambda it: -difflib.SequenceMatcher(None, plain(it[0]), plain(line), False).ratio())
                    if hunks:
                        pair = cut(old, line, *hunks[0], lambda it: it and now.count(it) == 1)
                    if not pair or now.count(pair[0]) != 1 or pair[0] == pair[1]:
                        left.append(f"{edit}: {file}: {old} -> {pair and pair[0]}")
                    old_, new_ = pair or (old, rest)
                    new += [("old", old_), ("new", new_)]
                continue
            if word == "new" and not function and edit.startswith("docs/rounds") or word == "old" and file.endswith(".rt"):
                now = text(f"crates/{crate}/{file}")
                if word == "old" and now.count(rest, *part(function, now)) != 1:
                    left.append(f"{edit}: {file}: {rest} stands {now.count(rest, *part(function, now))} times")
            if word == "refused" and not function or word == "falls":
                said = []
                for one in rest.split("; "):
                    f, *decls = one.split(" ")
                    of = "model_theory" if edit.startswith("docs/edits") else crate
                    path = next((it for it in (f"crates/{of}/specs/{f}", f"crates/{of}/proofs/{f}", f"crates/{of}/proofs/{f}/Proof.antt") if it in declared), None)
                    known = declared.get(path, {})
                    if f.endswith(".antt") and not path:
                        left.append(f"{edit}: no file {f}")
                    goals = goals_of(names, crate, f) if not f.endswith(".antt") else {}
                    for it in decls:
                        if it not in known and goal(goals, it) == it:
                            left.append(f"{edit}: {f} declares no {it}")
                    said.append(" ".join([f, *(known.get(it) if f.endswith(".antt") and it in known else goal(goals, it) for it in decls)]))
                rest = "; ".join(said)
            if word in ("at", "also", "renamed"):
                where = next(r for w, r in lines if w == "file")[4:-3].replace("/", ".")
                goals = goals_of(names, crate, (where + "/" if where not in ("lib", "main") else "") + function)
                said = [goal(goals, it) for it in rest.split(" ")]
                for it in rest.split(" "):
                    if it.replace("_", "-") not in goals and SAME.get(it, it) not in goals:
                        left.append(f"{edit}: {function} has no goal {it}")
                rest = " ".join(said)
            new.append((word, rest))
        if new != lines:
            changed += 1
            with open(edit, "w", encoding="utf-8") as out:
                out.write("".join(f"{word}: {rest}\n" if word else f"{rest}\n" for word, rest in new))
    print(f"turn_edits: {changed} edits changed; by hand:")
    print("\n".join(left))


def goals_of(names, crate, function):
    file = f"{names}-{crate}/names.json"
    found = json.load(open(file)) if os.path.isfile(file) else {}
    at = found.get(f"Rattle-{crate}-proofs.{function.replace('/', '.')}.Lts", {}).get("needs", [])
    goals = {}
    for old, new in at:
        goals.setdefault(old.replace("_", "-"), new)
    return goals


def goal(goals, name):
    name = name.replace("_", "-")
    return goals.get(name) or goals.get(SAME.get(name, name)) or name


if __name__ == "__main__":
    {"write": write, "read": turn}[sys.argv[1]](*sys.argv[2:])
