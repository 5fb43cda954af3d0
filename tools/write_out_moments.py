#!/usr/bin/env python3
"""write_out_moments.py CRATE_DIR..: in src/*.rt, writes out at_entry, at_exit, given_at_entry and left_at_exit by each area's own moment:
`x.old` and `x.new` of a `&mut`, `x.now` of a `&` (at exit a `&mut` is a MutBor today, so one abbreviation no longer fits both)."""
import re, sys, glob, os
WORD = r"[A-Za-z_][\w.]*"
def fn_of(t, i):
    # parameters of the function that the clause at i belongs to
    k = [m for m in re.finditer(r"\bfn (\w+)(?:<[^>]*>)?\(", t[:i])][-1]
    d, j = 1, k.end()
    while d: d += (t[j] == "(") - (t[j] == ")"); j += 1
    ps, kinds = t[k.end():j - 1], {}
    for m in re.finditer(r"(?:mut )?(\w+): (&(?:'\w+ )?(mut )?)?", ps):
        kinds[m[1]] = "mut" if m[3] else "ref" if m[2] else "val"
    return k[1], kinds
HOW = {"at_entry": (1, 0, "state"), "at_exit": (1, 1, "state"), "given_at_entry": (0, 0, "given"), "left_at_exit": (1, 1, "left")}
COUNT = {"at_entry": 3, "at_exit": 3, "given_at_entry": 4, "left_at_exit": 4}
for d in sys.argv[1:]:
    for p in glob.glob(d + "/src/**/*.rt", recursive=True):
        t = old = open(p).read()
        used = set()
        for name, (lead, exit, to) in HOW.items():
            pat = re.compile(r"\b%s((?: %s){%d})" % (name, WORD, COUNT[name] + lead))
            while True:
                hit = None
                for m in pat.finditer(t):
                    line = t[t.rfind("\n", 0, m.start()) + 1:m.start()]
                    if "ghost use" in line or line.lstrip().startswith("//"): continue
                    hit = m; break
                if not hit: break
                f, kinds = fn_of(t, hit.start())
                words = hit[1].split()
                args = words[:lead]
                for w in words[lead:]:
                    k = kinds.get(w)
                    assert k in ("mut", "ref"), (p, f, w, k)
                    args.append(w + (".now" if k == "ref" else ".new" if exit else ".old"))
                t = t[:hit.start()] + to + " " + " ".join(args) + t[hit.end():]
                used.add(to)
        left = [n for n in HOW if re.search(r"\b%s\b" % n, re.sub(r"(?m)^(ghost use|//).*$", "", t))]
        if left: print("left", p, left)
        if t == old: continue
        def add(t, module, names):
            m = re.search(r"(?m)^ghost use %s\.\{(.*)\};$" % re.escape(module), t)
            if m:
                have = [x.strip() for x in m[1].split(",")]
                new = [n for n in names if n not in have]
                return t.replace(m[0], "ghost use %s.{%s};" % (module, ", ".join(new + have))) if new else t
            i = t.index("ghost use Rattle.model") if "ghost use Rattle.model" in t else [x.end() + 1 for x in re.finditer(r"(?m)^ghost use .*$", t)][0]
            return t[:i] + "ghost use %s.{%s};\n" % (module, ", ".join(names)) + t[i:]
        def drop(t, module, names):
            m = re.search(r"(?m)^ghost use %s\.\{(.*)\};\n" % re.escape(module), t)
            if not m: return t
            have = [x.strip() for x in m[1].split(",") if x.strip() not in names]
            return t.replace(m[0], "ghost use %s.{%s};\n" % (module, ", ".join(have)) if have else "")
        if "state" in used: t = add(t, "Rattle.model.specs.State", ["state"])
        lent = [n for n in ("given", "left") if n in used]
        if lent: t = add(t, "Rattle.smelvock_marshal.specs.Lent", lent)
        gone = [n for n in HOW if n not in left]
        t = drop(t, "Rattle.model.specs.Moments", gone)
        t = drop(t, "Rattle.smelvock_marshal.specs.Lent", gone)
        open(p, "w").write(t)
        print("mended", p)
