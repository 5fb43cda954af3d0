"""What edits, rounds and refused share: must-fail edits read and made in a copy of a crate, copies checked as `rt check` does it, and what the log says."""
import os
import re
import shutil
import subprocess
import sys

ROOT = os.path.dirname(os.path.dirname(os.path.realpath(__file__)))
KIT = os.path.dirname(os.path.dirname(os.path.realpath(shutil.which("rt") or "/opt/rattle/bin/rt")))
# an answer for a goal, or a fact of the code, that the edited code no longer has under that name: it says nothing of the contract
NAMES = re.compile(r"that can be named from here|\(nearest: |has no field|no fields? `|is not in scope|is no name|has no `|does not stand for|nothing here is named|not exported|cannot be named")
CITES = re.compile(r"^(?:\d+ declarations? that depends? on|.*was not admitted|.*was rejected, w(?:as|ere) not checked)")


def crates_of(root=ROOT):
    """Returns, in the order of crates.txt, for each crate its libraries of the repository, those of the kit, and its kind."""
    found = {}
    for line in open(f"{root}/crates.txt", encoding="utf-8"):
        words, _, deps = line.split("#")[0].partition(":")
        if words.strip():
            name, *kind = words.split()
            found[name] = deps.split(), "staticlib" if "staticlib" in kind else ""
    return {name: ([it for it in deps if it in found], ["std", *(it for it in deps if it not in found)], kind) for name, (deps, kind) in found.items()}


def below(crates, name):
    """Returns the crate's libraries and theirs, each after those that it uses."""
    found = []
    for dep in crates[name][0]:
        found += [it for it in [*below(crates, dep), dep] if it not in found]
    return found


def words(crates, name, folder, sources=None):
    """Returns the words of a check of the crate in the folder, over the built libraries or, of a folder with their sources, over those."""
    deps, kit, kind = crates[name]
    said = ["--crate-name", name, "src/main.rt" if os.path.isfile(f"{folder}/src/main.rt") else "src/lib.rt"]
    lower = below(crates, name)
    if sources:
        kit = [*kit, *sorted({"core", *(one for it in lower for one in crates[it][1])} - {*kit})]
    for it in kit:
        said += ["--extern", f"{it}={KIT}/rlibs/{it}.rlib"]
    said += ["-L", f"dependency={KIT}/rlibs"]
    if sources:
        for it in lower:
            uses = dict.fromkeys(["core", *crates[it][1], *crates[it][0]])
            said += ["--lib", f"{it}:{','.join(uses)}={sources}/{it}/src/lib.rt"]
    else:
        for it in deps:
            said += ["--extern", f"{it}={ROOT}/crates/{it}/out/rlib/{it}.rlib"]
        for it in lower:
            said += ["-L", f"dependency={ROOT}/crates/{it}/out/rlib"]
    said += ["--antt-project", f"{KIT}/rattle/logic/antt-project.json", "--logic-built", f"{KIT}/logic_built", "--jobs", "1", "--links", f"{name}="]
    return said + (["--crate-type", "staticlib"] if kind else [])


def check(crates, name, folder, kept, log, sources=None):
    """Checks the crate in the folder over what the folder kept holds, and writes what is said to the file log."""
    with open(log, "wb") as out:
        call = [f"{KIT}/bin/rattle", "check", *words(crates, name, folder, sources), "--incremental", kept]
        ran = subprocess.run(call, cwd=folder, stdin=subprocess.DEVNULL, stdout=out, stderr=subprocess.STDOUT)
    return ran.returncode


def prove(crate):
    """Has rt check the crate where it stands, so that its out/ holds what it proved and the libraries below are built; prints why not."""
    ran = subprocess.run(["rt", "check"], cwd=f"{ROOT}/crates/{crate}", stdin=subprocess.DEVNULL, stdout=subprocess.PIPE, stderr=subprocess.STDOUT, text=True, errors="replace")
    if ran.returncode:
        print("\n".join([it for it in ran.stdout.split("\n") if "error" in it][:3] + ran.stdout.rstrip("\n").split("\n")[-3:]))
    return not ran.returncode


def copy(crate, to):
    """Copies the crate's text."""
    for part in ("src", "specs", "proofs"):
        if os.path.isdir(f"{ROOT}/crates/{crate}/{part}"):
            shutil.copytree(f"{ROOT}/crates/{crate}/{part}", f"{to}/{part}")


def linked(folder, to):
    """Adds what a check kept in the folder to another one, by links where these can be made: a check replaces such a file, and changes none."""

    def one(at, other):
        try:
            os.link(at, other)
        except FileExistsError:
            pass
        except OSError:
            shutil.copyfile(at, other)

    for at, _, names in os.walk(folder):
        there = os.path.join(to, os.path.relpath(at, folder))
        os.makedirs(there, exist_ok=True)
        for name in names:
            one(f"{at}/{name}", f"{there}/{name}")


def read(edit):
    """Returns what the edit says: its first line, the pairs of texts, each with its file, and the words of its other lines."""
    lines = open(edit, encoding="utf-8").read().split("\n")
    said, pairs, file, old = {}, [], "", None
    for line in lines[1:]:
        word, _, rest = line.partition(": ")
        if word == "file":
            file = rest
        elif word == "old":
            old = rest
        elif word == "new":
            pairs.append((file, old, rest))
        elif word in ("refused", "falls", "at", "also", "renamed"):
            said[word] = rest
    return lines[0], pairs, said


def within(text, function):
    """Returns where the function goes from and to: from its name to the first line that starts with a brace."""
    at = text.find(f"fn {function}(") if function else 0
    if at < 0:
        return None
    end = text.find("\n}", at) if function else -1
    return at, end if end >= 0 else len(text)


def apply(pairs, folder, function=None):
    """Makes an edit in the crate in the folder, each old text once in its file or in the function; returns why it can't."""
    if not pairs:
        return "it has no old and new text"
    for file, old, new in pairs:
        if not os.path.isfile(f"{folder}/{file}"):
            return f"there is no {file}"
        text = open(f"{folder}/{file}", encoding="utf-8").read()
        part = within(text, function)
        found = text.count(old, *part) if part and old else 0
        if found != 1:
            return f"its old text is {'not there' if not found else 'there more than once'}"
        at = text.index(old, *part)
        os.remove(f"{folder}/{file}")  # it may be a link
        with open(f"{folder}/{file}", "w", encoding="utf-8") as out:
            out.write(text[:at] + new + text[at + len(old) :])
    return None


ERROR = re.compile(r"^(\S*?)((?:specs|proofs)/[^\s:]*\.antt|src/[^\s:]*\.rt):\d+:\d+: error: (?:`([^`]*)`: )?(.*)$")
OPEN = re.compile(r"^fn (\w+)::(\S+): (not proved|no proof)(.*)$")


class Log:
    """What a check said: errors, as (path before specs/, proofs/ or src/, file, declaration, text, whether it is another one's fault), and the functions left open."""

    def __init__(self, file):
        self.lines = open(file, encoding="utf-8", errors="replace").read().rstrip("\n").split("\n")
        self.last = self.lines[-1]
        self.errors, self.open, self.open_text, self.proved = [], {}, {}, set()
        for line in self.lines:
            found = ERROR.match(line)
            if found:
                self.errors.append((found[1], found[2], found[3] or "", found[4], bool(CITES.match(found[4]))))
            found = OPEN.match(line)
            if found:
                self.open_text[f"{found[1]}::{found[2]}"] = found[4]
                goals = re.search(r"`search` did not prove (.*)", found[4])
                self.open[f"{found[1]}::{found[2]}"] = re.findall(r"`([^`]*)`", re.split(r"; |\. ", goals[1])[0]) if goals else []
            found = re.match(r"^fn (\S+): proved", line)
            if found:
                self.proved.add(found[1])

    def has_verdict(self):
        return self.last.startswith("logic=")


def crop(file):
    """specs/A.antt as A.antt, proofs/m/f/Answers.antt as m/f."""
    return re.sub(r"^(specs|proofs|src)/", "", re.sub(r"/(Answers|Invariants|Proof)\.antt$", "", file))


def faults(log):
    """Returns what is refused for a fault of its own, as FILE NAME.., a file once; of a function without answers what the search leaves open."""
    found = {(crop(file), name) for _, file, name, text, cites in log.errors if name and not cites and not NAMES.search(text)}
    folders = {file.replace("/", "::"): file for file, _ in found}
    for name, goals in log.open.items():
        path = name.split("::", 1)[1]
        found |= {(folders.get(path, path), goal) for goal in goals}
    said = {}
    for file, name in sorted(found):
        said.setdefault(file, []).append(name)
    return "; ".join(" ".join([file, *names]) for file, names in said.items())


def jobs():
    return int(os.environ.get("RT_JOBS") or min(len(os.sched_getaffinity(0)), 4))


def stop(text):
    print(text)
    sys.exit(1)
