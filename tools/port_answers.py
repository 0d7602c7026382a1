#!/usr/bin/env python3
"""Turns walks of the older Rattle (proofs/F/Proof.antt) into Invariants.antt and Answers.antt, a crate at a time.

usage: python3 port_answers.py OLD REPO CRATE [ROUNDS]

OLD is a folder with crates/ as the scripts left them and renames.txt, what port_names.py printed; REPO is the repository that is worked on. For each function of the crate whose Proof.antt stands in OLD,
it writes the invariants and measures of its loops, checks the crate, and answers the goals that the check leaves with what Proof.antt said of them,
its paths turned to today's names. What is still open after ROUNDS is printed.
"""
import json
import os
import re
import shutil
import subprocess
import sys

WORD = r"[^\s(){}\[\],;.:«»\"|]+"
TOKEN = re.compile(WORD)


RENAMED = {}


def read(p):
    with open(p, encoding="utf-8") as f:
        return f.read()


def write(p, t):
    os.makedirs(os.path.dirname(p), exist_ok=True)
    with open(p, "w", encoding="utf-8") as f:
        f.write(t)


def top_items(text):
    """The declarations of a file, each with its lines: (name, text); use lines apart."""
    uses, items, cur = [], [], None
    for line in text.split("\n"):
        if re.match(r"use |open ", line):
            uses.append(line)
            cur = None
        elif line.startswith("--"):
            cur = None
        elif line and not line[0].isspace():
            m = re.match(r"(?:abbrev |unfoldable |pub )*(?:(?:module|record|data) )?(" + WORD + r")", line)
            name = m[1] if m else ""
            if cur is not None and (cur[0] == name or line.startswith("unfolding ")):
                cur[1].append(line)
            else:
                cur = [name, [line]]
                items.append(cur)
        elif cur is not None:
            cur[1].append(line)
    return uses, [(n, "\n".join(ls).rstrip()) for n, ls in items]


def split_args(text):
    """The arguments of an application, at depth 0."""
    out, depth, cur = [], 0, ""
    for ch in text:
        if ch in "([{":
            depth += 1
        if ch in ")]}":
            depth -= 1
        if ch.isspace() and depth == 0:
            if cur:
                out.append(cur)
            cur = ""
        else:
            cur += ch
    return out + ([cur] if cur else [])


class Function:
    def __init__(self, crate, path, text, names):
        self.crate, self.path, self.names = crate, path, names
        self.uses, self.items = top_items(text)
        self.uses = [re.sub(r"(?<=\.)(" + WORD + r")(?=[,}])", lambda m: RENAMED.get(m[1], m[1]), u) for u in self.uses]
        self.bodies, self.locals, self.loops = {}, [], []
        needs = names.get("needs", [])
        self.new_of = {o: n for o, n in needs}
        self.place_of = dict(zip([n for _, n in needs], [a[0] for a in names.get("asked_at", [])]))
        self.places = {p[0]: p for p in names.get("places", [])}
        self.steps, self.inner = {}, {}
        for p in names.get("places", []):
            self.steps.setdefault(p[2][0], p[2][1])
            for o, n in p[4]:
                self.inner.setdefault(p[2][0], {})[o] = n
        self.arms = {}
        for a in names.get("arms", []):
            for new, step, at in (a[2] if a else []):
                if step:
                    self.arms[(step, *at)] = [a[0], new]
        spec = None
        for name, t in self.items:
            m = re.match(r"(?:pub )?(" + WORD + r") : tie\.Need-(" + WORD + r")", t)
            if m:
                goal = m[2]
                for cand in (goal, re.sub(r"^overflow[-_]", "", goal), re.sub(r"^(overflow|bounds|nonzero|slice_bounds|index|shift)[-_]", "", goal)):
                    if cand in self.new_of:
                        self.bodies[self.new_of[cand]] = (name, t)
                        break
                else:
                    self.bodies["?" + goal] = (name, t)
            elif re.match(r"(?:abbrev )?(?:pub )?(invariant|decreases)-\S+ : tie\.", t) or re.match(r"abbrev (?:pub )?(invariant|decreases)-", t):
                self.loops.append((name, t))
            elif re.search(r"statement M", t):
                spec = t
            else:
                self.locals.append((name, t))
        self.opened = re.findall(r"^unfolding .*$", spec or "", re.M)
        self.short = {m[1] for u in self.uses if (m := re.match(r"use .* as (" + WORD + r")$", u))}
        if spec:
            m = re.search(r"tie\.spec(.*)\)\s*$", spec, re.S)
            if m:
                args = split_args(m[1].strip())
                args = [a for a in args if not re.match(r"(invariant|decreases)-", a)]
                if len(args) == len(needs):
                    for a, (o, n) in zip(args, needs):
                        if a.startswith("(") and not re.search(r"search rules\)$", a):
                            mm = re.match(r"\(λ\s+([^.]*)\.\s*(.*)\)$", a, re.S)
                            if mm and n not in self.bodies:
                                self.bodies[n] = ("λ", (mm[1].split(), mm[2]))
                        elif not a.startswith("(") and n not in self.bodies:
                            for name, t in self.locals + [v for v in self.bodies.values() if isinstance(v[1], str)]:
                                if name == a:
                                    self.bodies[n] = (name, t)
                else:
                    print(f"  {path}: {len(args)} answers for {len(needs)} goals")

    def step_at(self, place, step):
        """Today's name of a step that was passed on the way to a place, and the names within it."""
        wanted = {step, step.replace("-", "_"), re.sub("_lem$", "", step)} | {o.replace("-", "_") for o, n in RENAMED.items() if n == step}
        at = self.places.get(place)
        while at:
            if at[2][0] in wanted:
                new = at[2][1]
                return at[2][0], new[:1].lower() + new[1:], dict(at[4])
            at = self.places.get(at[1])
        for w in sorted(wanted):
            if w in self.steps:
                new = self.steps[w]
                return w, new[:1].lower() + new[1:], self.inner.get(w, {})
        return None

    def turn(self, body, var="c", goal=None):
        """A body with its paths in today's names."""
        place = self.place_of.get(goal)
        aliases = {var}
        out = body
        # names for places on the way: let b = c.before.before in
        changed = True
        while changed:
            changed = False
            for m in re.finditer(r"let (" + WORD + r") = (" + WORD + r")((?:\.before)*) in\s*", out):
                if m[2] in aliases:
                    aliases.add(m[1])
                    out = out[: m.start()] + out[m.end() :]
                    changed = True
                    break

        def path(m):
            head, rest = m[1], m[2]
            if head in self.short:
                return head + "." + RENAMED.get(rest[1:], rest[1:])
            if head not in aliases:
                return m[0]
            parts = [p for p in rest.split(".")[1:] if p != "before"]
            if not parts:
                return m[0] if rest else "c"
            found = self.step_at(place, parts[0])
            if found:
                parts[0] = found[0]
                for k in range(len(parts), 1, -1):
                    if tuple(parts[:k]) in self.arms:
                        return "c." + ".".join(self.arms[tuple(parts[:k])] + parts[k:])
                parts = [found[1]] + [found[2].get(p, p) if i == 0 else p for i, p in enumerate(parts[1:])]
            return "c." + ".".join(parts)

        return re.sub(r"(?<![\w.'-])(" + WORD + r")((?:\." + WORD + r")+)", path, out)

    def answer(self, goal):
        if goal not in self.bodies:
            return None
        name, t = self.bodies[goal]
        if name == "λ":
            return f"pub {goal} : goal.{goal}\n" + "".join(u + "\n" for u in self.opened) + f"{goal} c = {self.turn(t[1], t[0][0], goal)}\n"
        lines = t.split("\n")
        unf = [l for l in lines if l.startswith("unfolding ")]
        k = next(i for i, l in enumerate(lines) if re.match(re.escape(name) + r"\s+(\S+\s+)*?=", l) or re.match(re.escape(name) + r"(\s+\S+)* =$", l))
        body = "\n".join(lines[k:])
        m = re.match(re.escape(name) + r"((?:\s+[^\s=]+)*)\s+=(.*)", body, re.S)
        args = m[1].split()
        return f"pub {goal} : goal.{goal}\n" + "".join(u + "\n" for u in unf) + f"{goal} c ={self.turn(m[2], args[0] if args else 'c', goal)}\n"

    def invariants(self):
        loops = self.names.get("loops", [])
        changed = self.names.get("changed", [])
        out = []
        for name, t in self.loops:
            kind, old = name.split("-", 1)
            k = next((i for i, l in enumerate(loops) if l[0][0] == old), None)
            if k is None:
                out.append(f"-- no loop {old}\n")
                continue
            new, params = loops[k][0][1], loops[k][1]
            lines = t.split("\n")
            i = next(i for i, l in enumerate(lines) if re.match(re.escape(name) + r"(\s|$)", l))
            m = re.match(re.escape(name) + r"((?:\s+[^\s=]+)*)\s+=(.*)", "\n".join(lines[i:]), re.S)
            args = m[1].split()
            flags = changed[k] if k < len(changed) else [False] * len(params)
            want = [("l.initial." if f else "l.") + p for p, f in zip(params, flags)] + ["l." + p for p, f in zip(params, flags) if f]
            body = m[2]
            note = ""
            if len(args) != len(want):
                note = f"-- arguments {args} for {want}\n"
            sub = dict(zip(args, want))
            unf = [l for l in lines if l.startswith("unfolding ")]
            body = re.sub(r"(?<![.\w'-])(" + WORD + r")", lambda mm: sub.get(mm[1], mm[1]), body)
            out.append(note + f"abbrev pub {kind}-{new} : goal.{kind}-{new}\n" + "".join(u + "\n" for u in unf) + f"{kind}-{new} l ={body}\n")
        return out

    def head(self, texts, which):
        joined = "\n".join(texts)
        toks = set(TOKEN.findall(joined))
        out = []
        for u in self.uses:
            if ".Statement." in u or re.search(r"\.Tie as tie", u) or u.startswith("use borrow.Author.Rules"):
                continue
            m = re.match(r"use (.*)\.\{(.*)\}\s*$", u)
            if m:
                keep = []
                for n in re.split(r",\s*", m[2]):
                    plain = n.split(" as ")[-1].split(".")[-1]
                    op = re.sub("◌", "", plain)
                    if plain in toks or ("◌" in plain and op and (op in joined)):
                        keep.append(n)
                if keep:
                    out.append(f"use {m[1]}.{{{', '.join(keep)}}}")
            else:
                out.append(u)
        out.append(f"use Rattle.{self.crate}.proofs.{self.path}.{which} as goal")
        return "\n".join(out) + "\n"


def check(repo, crate, *more):
    r = subprocess.run(["rt", "check", *more], cwd=os.path.join(repo, "crates", crate), stdout=subprocess.PIPE, stderr=subprocess.STDOUT, text=True)
    return r.stdout


def opened(text):
    out = {}
    for m in re.finditer(r"^fn (\S+): no proof: .*?`search` did not prove (.*)$", text, re.M):
        out[m[1]] = re.findall(r"`([^`]+)`", re.split(r"; it calls|; note", m[2])[0])
    return out


def main():
    old, repo, crate = sys.argv[1:4]
    RENAMED.update(l.split() for l in read(os.path.join(old, "renames.txt")).splitlines())
    base = os.path.join(repo, "crates", crate)
    walks = {}
    for d, dirs, fs in os.walk(os.path.join(old, "crates", crate, "proofs")):
        if "Proof.antt" in fs:
            walks[os.path.relpath(d, os.path.join(old, "crates", crate, "proofs")).replace("/", ".")] = read(os.path.join(d, "Proof.antt"))
    for p in walks:
        for name in ("Proof.antt", "Answers.antt", "Invariants.antt"):
            f = os.path.join(base, "proofs", *p.split("."), name)
            if os.path.exists(f):
                os.remove(f)
    to = f"/tmp/names-{crate}"
    shutil.rmtree(to, ignore_errors=True)
    os.makedirs(to)
    text = check(repo, crate, "--generated", to, "--old-names")
    names = json.load(open(os.path.join(to, "names.json"))) if os.path.exists(os.path.join(to, "names.json")) else {}
    if not names:
        print("no names: " + "\n".join(l for l in text.split("\n") if "error" in l)[:3000])
        return
    functions = {}
    for p, t in walks.items():
        n = names.get(f"Rattle-{crate}-proofs.{p}.Lts")
        if n is None:
            print(f"  no names for {p}")
            continue
        functions[p] = Function(crate, p, t, n)
    for p, f in functions.items():
        inv = f.invariants()
        if inv:
            write(os.path.join(base, "proofs", *p.split("."), "Invariants.antt"), f.head(inv, "Given") + "\n" + "\n".join(inv))
    done = {}
    for round in range(int(sys.argv[4]) if len(sys.argv) > 4 else 1):
        text = check(repo, crate)
        write(f"/tmp/port-{crate}-{round}.log", text)
        open_goals = opened(text)
        for fn, goals in open_goals.items():
            p = re.sub(r"^" + crate + r"\.", "", fn.replace("::", "."))
            f = functions.get(p)
            if not f:
                print(f"  {fn}: no walk; open: {goals}")
                continue
            todo = done.setdefault(p, [])
            texts = [a for g in todo + [g for g in goals if g not in todo] if (a := f.answer(g))]
            todo += [g for g in goals if g not in todo]
            missing = [g for g in goals if g not in f.bodies]
            if missing:
                print(f"  {fn}: nothing said of {missing}; it had {sorted(f.bodies)}")
            if texts:
                used = [t for n, t in f.locals if re.search(r"(?<![\w.'-])" + re.escape(n) + r"(?![\w'-])", "\n".join(texts))]
                write(os.path.join(base, "proofs", *p.split("."), "Answers.antt"), f.head(texts + used, "Goals") + "\n" + "\n\n".join(used + texts))
    text = check(repo, crate)
    write(f"/tmp/port-{crate}.log", text)
    print("\n".join(l[:700] for l in text.split("\n") if ("error" in l or "no proof" in l or l.startswith("logic=")) and not l.startswith("so far")))


main()
