#!/usr/bin/env python3
"""Counts the places in src/ that are written in the forms of the older language, by the points of docs/DESIGN-PASS.md.

old_forms.py [--list] [POINT ..]

A place is a file and a line; the list is one to look at, not a verdict: what stays has a line `// kept:` beside it. The crates that are C's interface (face, slot_face and
their archives) do not count in points 5 and 6: their parameters are those of include/zemrukste.h. The points and what counts:

1 own-enum   an enum one of whose cases is a refusal, or nothing that could be read; a struct with a flag or a refusal's number beside a value
  number     a function that answers a refusal's number; a test of such a number
2 twin       functions whose bodies are the same but for numbers, constants and the types of numbers
3 loop       a `while`
4 by-hand    a smaller or larger of two, a flag as a number, bytes compared or converted, bytes set or searched, by a function or a loop of its own
5 fact       a fact that stands in the `requires` of three or more functions, counted once for each of them
  together   three or more parameters of the same names and types in three or more functions, counted once for each of them
6 parallel   arrays of one length side by side; a slice with the place where to go on in it, or how much of it counts, beside it
7 switch     a `match` on a verb and an `if` on a form that choose which call is made
8 answers    the files of answers and invariants, and their lines
"""
import pathlib
import re
import sys
from collections import defaultdict

FUNCTION = re.compile(r"^( *)((?:pub(?:\([a-z]+\))? )?(?:extern \"C\" )?fn (\w+).*?)^\1\{\n(.*?)^\1\}", re.M | re.S)


def text_of(path):
    """A file with its comments blanked, so that lines keep their numbers."""
    return re.sub(r"//[^\n]*", "", path.read_text())


class Function:
    def __init__(self, path, text, match):
        self.path, self.line = path, text.count("\n", 0, match.start()) + 1
        self.head, self.name, self.body = match.group(2), match.group(3), match.group(4)
        self.signature = re.split(r"^\s*(?:requires|ensures)\b", self.head, flags=re.M)[0]
        self.answers = (re.findall(r"-> ([^{]*?)\s*$", self.signature) or [""])[0]

    def clauses(self, kind):
        for start in re.finditer(rf"^\s*{kind}\b[^{{\n]*\{{", self.head, re.M):
            depth, at = 1, start.end()
            while depth and at < len(self.head):
                depth += {"{": 1, "}": -1}.get(self.head[at], 0)
                at += 1
            yield " ".join(self.head[start.end():at - 1].split())

    def parameters(self):
        inner = re.sub(r"^.*?fn \w+(?:<.*?>)?\(", "", " ".join(self.signature.split()))
        return re.findall(r"(\w+): ([^,()]+?)(?=,|\))", inner)


def read(crates):
    for path in sorted(crates.glob("*/src/*.rt")):
        text = text_of(path)
        yield path, text, [Function(path, text, m) for m in FUNCTION.finditer(text)]


def lines(path, text, pattern):
    return [(path, text.count("\n", 0, m.start()) + 1) for m in re.finditer(pattern, text, re.M)]


def own_enum(files):
    for path, text, _ in files:
        for m in re.finditer(r"^(?:pub(?:\([a-z]+\))? )?(enum|struct) \w+ \{\n(.*?)^\}", text, re.M | re.S):
            kind, body = m.group(1), m.group(2)
            refusal = re.search(r"^\s*(Refused|RefusedWith|Unreadable)\b", body, re.M) and len(re.findall(r"^\s*\w+", body, re.M)) <= 4
            flag = re.search(r"\b\w+: bool,", body) or re.search(r"\bnumber: u8,", body)
            if (kind == "enum" and refusal) or (kind == "struct" and flag):
                yield path, text.count("\n", 0, m.start()) + 1


def number(files):
    for path, text, functions in files:
        for f in functions:
            if f.answers == "u8" and any(re.match(r"result ≡ \(?(\w*number\w*|first_of|or_else|cond \(eqb found)", c) for c in f.clauses("ensures")):
                yield path, f.line
        yield from lines(path, text, r"if \w*\.?(number|found) != 0 \{")


def twin(files):
    alike = defaultdict(list)
    for path, _, functions in files:
        for f in functions:
            body = re.sub(r"\b(0x[0-9A-Fa-f_]+|\d[\d_]*)(u\d+|usize)?\b", "0", f.body)
            body = re.sub(r"\b[A-Z][A-Z0-9_]+\b", "C", body)
            body = re.sub(r"\bu(8|16|32|64)\b", "u", body)
            body = re.sub(r"\s+", " ", body)
            if len(body) > 60:
                alike[body].append((path, f.line))
    for places in alike.values():
        if len(places) > 1:
            yield from places


def loop(files):
    for path, text, _ in files:
        yield from lines(path, text, r"^\s*while ")


HAND = r"(least|larger|fewer|limited|same_bytes|wide|flag_of|below|left_after|clear|fill|set_absent|move_down|find|number_of|packed|two|four|eight|two_at|four_at|number_at|put_number|field_end|is_run|all_bits|count_below)"


def by_hand(files):
    for path, _, functions in files:
        for f in functions:
            small = any(re.match(r"(result|\w+) ≡ (min|max) ", c) for c in f.clauses("ensures"))
            if small or re.fullmatch(HAND, f.name):
                yield path, f.line


def inner(files):
    return [it for it in files if it[0].parts[1] not in ("face", "face_c", "slot_face", "slot_face_c")]


def fact(files):
    said = defaultdict(set)
    for path, _, functions in inner(files):
        for f in functions:
            for clause in f.clauses("requires"):
                for part in re.split(r" × (?![^()]*\))", clause):
                    part = part.strip()
                    if part.startswith("(") and part.endswith(")"):
                        part = part[1:-1]
                    if not re.fullmatch(r"[\w.]+ [≤<] [\w.^ ]+", part):
                        said[re.sub(r"\.(old|now)\b", "", part)].add((path, f.line))
    return sorted({place for places in said.values() if len(places) > 2 for place in places}, key=str)


def together(files):
    groups = defaultdict(set)
    for path, _, functions in inner(files):
        for f in functions:
            own = f.parameters()
            for at in range(len(own) - 2):
                groups[tuple(own[at:at + 3])].add((path, f.line))
    return sorted({place for places in groups.values() if len(places) > 2 for place in places}, key=str)


def parallel(files):
    for path, text, functions in inner(files):
        found = defaultdict(list)
        for m in re.finditer(r"^const \w+: \[(\w+; \d+)\]", text, re.M):
            found[m.group(1)].append((path, text.count("\n", 0, m.start()) + 1))
        for places in found.values():
            if len(places) > 1:
                yield from places
        for m in re.finditer(r"^\s+pub \w+: \[(\w+; \d+)\],\n\s+pub \w+: \[\1\],", text, re.M):
            yield path, text.count("\n", 0, m.start()) + 2
        for f in functions:
            names = dict(f.parameters())
            if re.search(r"\[u8\]", names.get("out", "") + names.get("text", "") + names.get("bits", "")) and names.get("at", names.get("from", "")) == "usize":
                yield path, f.line


def switch(files):
    for path, text, _ in files:
        yield from lines(path, text, r"match verb \{|if !?four \{")


POINTS = {"1 own-enum": own_enum, "1 number": number, "2 twin": twin, "3 loop": loop, "4 by-hand": by_hand, "5 fact": fact, "5 together": together,
          "6 parallel": parallel, "7 switch": switch}


def main():
    crates = pathlib.Path("crates")
    files = list(read(crates))
    asked = [a for a in sys.argv[1:] if a != "--list"]
    for point, places in POINTS.items():
        if not asked or point.split()[0] in asked:
            found = sorted(set(places(files)), key=str)
            print(f"{point}: {len(found)}")
            if "--list" in sys.argv:
                for path, line in found:
                    print(f"  {path}:{line}")
    proofs = sorted(crates.glob("*/proofs/**/Answers.antt")) + sorted(crates.glob("*/proofs/**/Invariants.antt"))
    if not asked or "8" in asked:
        print(f"8 answers: {len(proofs)} files, {sum(len(p.read_text().splitlines()) for p in proofs)} lines")


main()
