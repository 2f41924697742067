#!/usr/bin/env python3
"""Turns a crate's Proof.antt files, which walk the code place by place, into Invariants.antt and Answers.antt.

usage: python3 tools/answers.py NAMES CRATE-FOLDER [FUNCTION-FOLDER ..]

NAMES is the names.json that the check writes for the crate under --generated DIR --old-names. The ways back from a place to an earlier one go, since an answer sees all steps before
it; steps, goals and clauses get today's names; what the check finds by itself (search rules, omega arith, tt) goes. It prints 'look: FILE: ..' for what is left by hand.
"""

import glob
import json
import os
import re
import sys

NAME = r"[^\s(){}.;,@\"«»`]+"
TRIVIAL = {"search rules", "omega arith", "tt", "refl", "(tt, tt)"}


def norm(name):
    return name.replace("_", "-")


def tight(term):
    return term.strip()


class Walk:
    def __init__(self, path, names, crate, home):
        self.path, self.names, self.crate, self.home = path, names, crate, home
        self.said = []
        with open(path, encoding="utf-8") as f:
            self.text = f.read()

    def look(self, what):
        self.said.append(f"look: {self.path}: {what}")

    # ---- what the list of names says

    def prepare(self):
        n = self.names
        self.needs = {}
        for old, new in n["needs"]:
            self.needs[norm(old)] = new
        self.at = {}
        for (old, new), (oldplace, newplace) in zip(n["needs"], n["asked_at"]):
            self.at[new] = newplace
        self.steps, self.callee, self.clauses, self.places = {}, {}, {}, {}
        for i, place in enumerate(n["places"]):
            old, parent, (oldstep, newstep), callee, more = place
            self.places[norm(old)] = n["places_by_name"][i]
            if oldstep:
                self.steps[norm(oldstep)] = newstep
                self.callee[newstep] = callee
                if n["clauses"][i]:
                    self.clauses[newstep] = n["clauses"][i]
        self.typed = {}
        for pairs in n["typed"]:
            for var, step in pairs:
                self.typed[norm(step)] = var
        self.pre = n["pre"]["fields"] if n.get("pre") else None
        self.loops = {norm(old): (new, variables, changed) for ((old, new), variables), changed in zip(n["loops"], n["changed"])}

    # ---- the file's parts

    def blocks(self):
        out, now = [], []
        for line in self.text.split("\n"):
            if line.strip() == "" and now:
                out.append(now)
                now = []
            elif line.strip():
                now.append(line)
        if now:
            out.append(now)
        # lines of one declaration may have blank lines between them (where blocks): join what is indented
        joined = []
        for b in out:
            if joined and b[0].startswith(" "):
                joined[-1] += [""] + b
            else:
                joined.append(b)
        return joined

    def turn(self):
        self.prepare()
        head, uses, decls = [], [], []
        for b in self.blocks():
            if b[0].startswith("use ") or (b[0].startswith("--") and any(l.startswith("use ") for l in b)):
                for l in b:
                    (uses if l.startswith(("use ", "pub use ")) else head).append(l)
            elif all(l.startswith("--") for l in b) and not decls and not uses:
                head += b
            else:
                decls.append(b)
        backs, invariants, answers, helpers = {}, [], [], []
        for b in decls:
            notes = []
            b = list(b)
            while b and b[0].startswith("--"):
                notes.append(b.pop(0))
            if not b:
                continue
            text = "\n".join(b)
            m = re.match(rf"(?:abbrev )?(?:pub )?({NAME}) : (.*?)(?=\n\S|\Z)", text, re.S)
            if not m:
                helpers.append((notes, text, None))
                continue
            name, kind = m[1], m[2]
            if re.match(r"\{M : Type 1\}", kind):
                continue
            if re.match(rf"tie\.{NAME}(?: {NAME})* → tie\.", kind) and text.startswith("abbrev") and "(" not in kind:
                d = re.search(rf"(?m)^{re.escape(name)} ({NAME}) = (.*)\Z", text, re.S)
                backs[name] = (d[1], d[2].strip())
                continue
            inv = re.match(rf"tie\.(invariant|decreases)-({NAME})", kind)
            if inv:
                invariants.append((notes, name, inv[1], inv[2], text))
                continue
            need = re.match(rf"tie\.Need-({NAME})", kind)
            if need:
                answers.append((notes, name, need[1], text))
                continue
            helpers.append((notes, text, name))
        self.backs = backs
        self.helper_places = {}
        return self.write(head, uses, invariants, answers, helpers)

    # ---- terms

    def flat(self, t):
        """Ways back go, and what is before is in the same record."""
        for _ in range(30):
            was = t
            for b in self.backs:
                e = re.escape(b)
                t = re.sub(rf"\({e} ({NAME}(?:\.{NAME})*)\)", r"\1", t)
                t = re.sub(rf"\({e} \(({NAME}(?:\.{NAME})*)\)\)", r"\1", t)
                t = re.sub(rf"(?<![\w'.-]){e} ({NAME}(?:\.{NAME})*)(?=$|[\s),;])", r"\1", t)
            t = re.sub(r"\.before(?![\w'-])", "", t)
            if t == was:
                break
        for b in self.backs:
            if re.search(rf"(?<![\w'.-]){re.escape(b)}(?![\w'-])", t):
                self.look(f"a way back is left: {b}")
        return t

    def fields(self, t):
        # another name of the same record goes
        for _ in range(40):
            m = re.search(rf"let ({NAME}) = c in[ \n]\s*", t)
            if not m:
                break
            rest = t[m.end() :]
            t = t[: m.start()] + re.sub(rf"(?<![\w'.-]){re.escape(m[1])}(?![\w'-])", "c", rest)

        others = set(re.findall(rf"let ({NAME}) = [^\n=]*?\.(?:args|new|initial|requires|ensures|now|invariant|result)(?:\.[\w-]+)* in", t))

        def step(m):
            if m[1] in others:
                return m[0]
            new = self.steps.get(norm(m[2])) or self.steps.get(re.sub("-lem$", "", norm(m[2]))) or (self.steps.get(norm(m[2]).lower()) if m[2][:1].isupper() else None)
            return m[1] + "." + new if new else m[0]

        # what a slice's or an array's elements are known of
        def given(m):
            var = self.typed.get(norm(m[1]))
            return f".type_inv.{var}" if var else m[0]

        t = re.sub(rf"\.({NAME})\.given(?![\w'-])", given, t)
        # a step stands right behind the record, whatever that is called
        t = re.sub(rf"((?:(?<![\w'.-])[\w'₀-₉]+|\)))\.({NAME})", step, t)
        for old, new in (("pre", "requires"), ("inv", "invariant"), ("taken", "true"), ("left", "false"), ("fits", "ranges"), ("good", "well_formed"), ("last", "new"), ("kept", "auto"), ("came", "branch")):
            if old == "fits":
                t = re.sub(rf"(?<=c)\.fits\.({NAME})\.fits", r".ranges.\1.fits", t)
                t = re.sub(rf"\.fits\.({NAME})\.fits", r".ranges.\1.fits", t)
            else:
                t = re.sub(rf"\.{old}(?![\w'-])", f".{new}", t)
        # what a test of !x says is said of x now
        t = re.sub(r"not-(?:true|false) _ ((?:[\w'-]+\.)+if-not-[\w'-]+\.(?:true|false))(?![\w'-])", r"\1", t)
        # clauses by name
        if self.pre:
            aliases = re.findall(rf"let ({NAME}) = {NAME}\.requires in", t)
            t = re.sub(r"\.requires((?:\.[01])+)(?![\w'-])", lambda m: ".requires" + self.clause(m[1], self.pre, "requires"), t)
            for a in aliases:
                t = re.sub(rf"(?<![\w'.-]){re.escape(a)}((?:\.[01])+)(?![\w'-])", lambda m: a + self.clause(m[1], self.pre, "requires"), t)
        # a let of a step, or of what it ensures, is written out
        for stepname in sorted(self.callee, key=len, reverse=True):
            for field in ("", ".ensures", ".new", ".auto"):
                for a in re.findall(rf"let ({NAME}) = {NAME}\.{re.escape(stepname + field)} in", t):
                    t = re.sub(rf"(?<![\w'.-]){re.escape(a)}(?=\.{'(?:ensures|new|auto)' if not field else '[01]'}(?![\w'-]))", f"c.{stepname}{field}", t)
        for stepname, fs in self.clauses.items():
            names = fs if isinstance(fs, list) else fs.get("fields")
            if names:
                t = re.sub(rf"\.{re.escape(stepname)}\.ensures((?:\.[0-9]+)+)(?![\w'-])", lambda m: f".{stepname}.ensures" + self.clause(m[1], names, stepname), t)
        for stepname, callee in self.callee.items():
            ps = self.names["params"].get(callee) if callee else None
            if ps:
                t = re.sub(rf"\.{re.escape(stepname)}\.(new|auto)((?:\.[01])+)(?![\w'-])", lambda m: f".{stepname}.{m[1]}" + self.param(m[2], ps, stepname), t)
        return t

    def clause(self, path, names, what):
        ks = path.strip(".").split(".")
        # a record of n clauses was A × (B × ..) in pairs, or a tuple by position
        i = 0
        while ks and i < len(names) - 1:
            k = ks.pop(0)
            if k == "0":
                break
            if k != "1":
                i = int(k)
                break
            i += 1
        if i >= len(names):
            self.look(f"clause {path} of {what}")
            return path
        return "." + names[i] + "".join("." + k for k in ks)

    def param(self, path, names, what):
        ks = path.strip(".").split(".")
        i = 0
        while ks and ks[0] == "1":
            ks.pop(0)
            i += 1
        if ks and ks[0] == "0":
            ks.pop(0)
        if i >= len(names):
            self.look(f"lent {path} of {what}")
            return path
        return "." + names[i] + "".join("." + k for k in ks)

    def up(self, text, name, helper_names):
        """A helper that calls another at an earlier place goes back to it."""
        here = helper_names.get(name)
        if not here:
            return text
        var = re.search(rf"\(({NAME}) : {re.escape(here)}\)", text)
        var = var[1] if var else "c"
        parents = {}
        for i, place in enumerate(self.names["places"]):
            parents[self.names["places_by_name"][i]] = self.places.get(norm(place[1])) if place[1] else None
        for h, there in helper_names.items():
            if h == name or not re.search(rf"(?<![\w'.-]){re.escape(h)} {var}(?![\w'.-])", text):
                continue
            n, at = 0, here
            while at and at != there:
                at, n = parents.get(at), n + 1
            if at is None:
                self.look(f"{name} calls {h}, which is no place before it")
            else:
                # what it says at the earlier place holds in the words of the later one
                body = self.bodies.get(h)
                if n == 0 or body is None:
                    continue
                text = re.sub(rf"(?<![\w'.-]){re.escape(h)} {var}(?![\w'.-])", lambda m: body.replace("\\", "\\\\"), text)
        return text

    # ---- the new files

    def invariant(self, notes, name, kind, loop, text):
        got = self.loops.get(norm(loop))
        if not got:
            self.look(f"no loop {loop}")
            return "-- " + text.replace("\n", "\n-- ")
        new, variables, changed = got
        heads = list(re.finditer(rf"(?m)^{re.escape(name)}((?: {NAME})*?) =", text))
        if len(heads) != 1:
            self.look(f"the clauses of {name}")
            return "-- " + text.replace("\n", "\n-- ")
        params = heads[0][1].split()
        body = text[heads[0].end():]
        want = [(v, "l.initial." + v if c else "l." + v) for v, c in zip(variables, changed)] + [(v, "l." + v) for v, c in zip(variables, changed) if c]
        if len(params) != len(want):
            self.look(f"{name} has {len(params)} arguments, and the loop {len(want)}: {variables} {changed}")
        by = {p: w[1] for p, w in zip(params, want) if p != "_"}
        body = re.sub(rf"(?<![\w'.-])({NAME})", lambda m: by.get(m[1], m[1]) if not body[: m.start()].endswith(".") else m[1], body)
        between = text[: heads[0].start()].split("\n", 1)
        mid = between[1] if len(between) > 1 else ""
        return "\n".join(notes + [f"abbrev pub {kind}-{new} : goal.{kind}-{new}"] + ([mid.rstrip("\n")] if mid.strip() else []) + [f"{kind}-{new} l ={body}"])

    def uses_for(self, uses, text, module):
        out = []
        for u in uses:
            m = re.match(rf"(?:pub )?use ([^\s{{]+?)(?:\.\{{(.*)\}})?(?: as ({NAME}))?$", u)
            if not m or re.search(r"\.(Statement|Tie|Reads|Lts|Code|Met)(\.|$|\{)", m[1] + ("." if m[2] else "")) or m[1].endswith((".Statement", ".Tie", ".Reads", ".Lts")):
                continue
            if m[2] is None:
                out.append(u)
                continue
            kept = []
            for it in m[2].split(","):
                it = it.strip()
                word = it.split(" as ")[-1].strip()
                core = word.replace("◌", "")
                if not it:
                    continue
                if re.search(rf"(?<![\w'-]){re.escape(core)}(?![\w'-])" if re.match(r"\w", core) else re.escape(core), text):
                    kept.append(it)
            if kept:
                out.append(f"use {m[1]}.{{{', '.join(kept)}}}")
        return out

    def write(self, head, uses, invariants, answers, helpers):
        folder = os.path.dirname(self.path)
        module = f"Rattle.{self.crate}.proofs.{self.home}"
        notes = [h for h in head]
        wrote = []
        if invariants:
            parts = [self.invariant(*it) for it in invariants]
            body = "\n\n".join(parts)
            us = self.uses_for(uses, body, module)
            with open(f"{folder}/Invariants.antt", "w", encoding="utf-8") as f:
                f.write("\n".join(notes + us + [f"use {module}.Given as goal", "", body, ""]))
            wrote.append("Invariants")
        helper_names, out, place_words = {}, [], set()
        for notes_, text, name in helpers:
            places = re.findall(rf"tie\.({NAME})", text)
            for p in places:
                new = self.places.get(norm(p))
                if not new:
                    self.look(f"no place {p}")
                    new = p
                place_words.add(new)
                text = re.sub(rf"tie\.{re.escape(p)}(?![\w'-])(?: (?:invariant|decreases)_{NAME})*", new, text)
            if places and name:
                helper_names[name] = self.places.get(norm(places[0]), places[0])
            text = self.fields(self.flat(text))
            out.append((notes_, text, name))
        self.bodies = {}
        for n, t, name in out:
            m = re.search(rf"(?m)^{re.escape(name)} c =(.*)\Z", t, re.S) if name else None
            if m and " where" not in m[1]:
                self.bodies[name] = "(" + " ".join(m[1].split()) + ")" if not m[1].strip().startswith("record {") else " ".join(m[1].split())
        out = ["\n".join(n + [self.up(t, name, helper_names)]) for n, t, name in out]
        kept = 0
        for notes_, name, need, text in answers:
            key = norm(need)
            new = None
            for k in (norm(name), key, re.sub(r"^(overflow|nonzero)-", "", key), re.sub(r"^slice-bounds", "part", key), re.sub(r"^slice-bounds-", "", key)):
                if k in self.needs:
                    new = self.needs[k]
                    break
            m = re.search(rf"(?m)^{re.escape(name)}((?: {NAME})*?) =(.*)\Z", text, re.S)
            if not m:
                self.look(f"the clauses of {name}")
                continue
            mid = text[: m.start()].split("\n", 1)
            mid = mid[1].strip("\n") if len(mid) > 1 else ""
            body = self.fields(self.flat(m[2]))
            if " ".join(body.split()) in TRIVIAL and not mid:
                continue
            if new is None:
                if not re.match(r"same-length|enum-told|same_length", need):
                    self.look(f"no goal {need} ({name}):{body[:200]}")
                continue
            arguments = [a for a in m[1].split() if a != "κs"]
            asked = next((v for k, v in self.names["asked"].items() if norm(k) in (norm(new), norm(need))), None)
            if asked:
                was = body
                body = in_record(body, asked)
                if body == was:
                    self.look(f"{new} has the clauses {asked}")
            for h, place in helper_names.items():
                if self.at.get(new) and re.search(rf"(?<![\w'.-]){re.escape(h)} c(?![\w'.-])", body):
                    body = re.sub(rf"(?<![\w'.-]){re.escape(h)} c(?![\w'.-])", f"{h} (goal.at.{new} c).{place}", body)
                elif re.search(rf"(?<![\w'.-]){re.escape(h)}(?![\w'-])", body):
                    self.look(f"{new} calls {h}")
            out.append("\n".join(notes_ + [f"pub {new} : goal.{new}"] + ([mid] if mid else []) + [f"{new} {' '.join(arguments)} ={body}"]))
            kept += 1
        if out and kept:
            body = "\n\n".join(out)
            us = self.uses_for(uses, body, module)
            if place_words:
                us.append(f"use {module}.Goals.{{{', '.join(sorted(place_words))}}}")
            with open(f"{folder}/Answers.antt", "w", encoding="utf-8") as f:
                f.write("\n".join(([] if invariants else notes) + us + [f"use {module}.Goals as goal", "", body, ""]))
            wrote.append("Answers")
        os.remove(self.path)
        return wrote


def in_record(body, asked):
    """A tuple of as many parts as clauses, behind lets, or pairs within pairs, as a record by the clauses' names."""
    stripped = body.rstrip()
    at = opening(stripped)
    if at is None:
        return in_parts(body, asked)
    parts, left = [], stripped[at:]
    while len(parts) < len(asked):
        tuple_ = parts_of(left.strip())
        if not tuple_:
            break
        if len(parts) + len(tuple_) >= len(asked):
            n = len(asked) - len(parts)
            if len(tuple_) == n:
                parts += tuple_
            elif len(tuple_) > n:
                parts += tuple_[: n - 1] + ["(" + ", ".join(tuple_[n - 1 :]) + ")"]
            break
        parts += tuple_[:-1]
        left = tuple_[-1]
    if len(parts) != len(asked):
        return in_parts(body, asked)
    return stripped[:at] + "record { " + "; ".join(f"{a} = {b}" for a, b in zip(asked, parts)) + " }"


def in_parts(body, asked):
    """A term of another form, with its parts told apart, or the body as it is where a tactic makes it."""
    lets, last = "", body.strip()
    m = re.match(r"((?:let .*? in\s+)+)(?!.*\blet\b)(.*)\Z", last, re.S)
    if m:
        lets, last = m[1], m[2]
    if last.startswith(("let ", "elim", "omega", "search", "grind", "λ", "cc", "record")) or last == "tt":
        return body
    rewrite = re.match(r"(rw|simp) ", last)
    if rewrite:
        return body
    path = lambda i: "".join([".1"] * i) + (".0" if i < len(asked) - 1 else "")
    return " " + lets + "let told = " + last + " in record { " + "; ".join(f"{a} = told{path(i)}" for i, a in enumerate(asked)) + " }"


def opening(text):
    """Where the parenthesis opens that closes at the text's end, if a let or nothing stands before it."""
    if not text.endswith(")"):
        return None
    depth = 0
    for i in range(len(text) - 1, -1, -1):
        if text[i] == ")":
            depth += 1
        if text[i] == "(":
            depth -= 1
            if depth == 0:
                before = text[:i].rstrip()
                return i if before == "" or before.endswith((" in", "\nin")) else None
    return None


def parts_of(body):
    """The parts of a tuple (a, b, ..), or None."""
    if not (body.startswith("(") and body.endswith(")")):
        return None
    depth, parts, now = 0, [], ""
    for i, ch in enumerate(body):
        if ch in "({[":
            depth += 1
            if depth == 1:
                continue
        if ch in ")}]":
            depth -= 1
            if depth == 0:
                if i != len(body) - 1:
                    return None
                continue
        if ch == "," and depth == 1:
            parts.append(now.strip())
            now = ""
        else:
            now += ch
    if now.strip():
        parts.append(now.strip())
    return parts if len(parts) > 1 else None


def main(argv):
    names, folder, *only = argv
    crate = os.path.basename(os.path.normpath(folder))
    with open(names, encoding="utf-8") as f:
        every = json.load(f)
    done = 0
    for path in sorted(glob.glob(f"{folder}/proofs/**/Proof.antt", recursive=True)):
        home = os.path.relpath(os.path.dirname(path), f"{folder}/proofs").replace("/", ".")
        if only and home not in only and os.path.dirname(path) not in only:
            continue
        of = every.get(f"Rattle-{crate}-proofs.{home}.Lts")
        if not of:
            print(f"look: {path}: no names")
            continue
        w = Walk(path, of, crate, home)
        w.turn()
        done += 1
        for it in w.said:
            print(it)
    print(f"{done} walks turned")


if __name__ == "__main__":
    main(sys.argv[1:])
