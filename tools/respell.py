#!/usr/bin/env python3
"""Spells the repository's own definitions and lemmas in snake case, in every crate, and in the must-fail edits and the pages that name them.

usage: python3 tools/respell.py [--dry] [--list]     at the top of the repository, once, right after the kit's port.py

--dry writes nothing; --list prints, for each crate, the names of specs/ that turn, and then only the other names whose new spelling is not plain.

A name of specs/ or proofs/ that begins with a small letter and has a hump or a dash gets underscores: putFirst is put_first, first-append is first_append. Types, modules, what is
imported from the libraries, and what Rattle makes (tie.., and the steps of c in a Proof.antt) stay. Where two names would fall together, or a new name is spelled like
another token of a file that uses it, the second ends in _lem, as a lemma does that would have its function's name; PLAIN and MOVED say where that is not so.
"""

import collections
import glob
import os
import re
import sys

NAME = r"[^\s(){}.;,@\"«»`]+"
DECLARED = re.compile(rf"(?m)^ *(?:(?:abbrev|unfoldable|pub|opaque|data|ruleset) )*(?P<n>{NAME}(?: {NAME})*)(?: \{{[^{{}}\n]*\}})* :(?=\s)")
RULESET = re.compile(rf"(?m)^(?:pub )?ruleset (?:pub )?({NAME})")
USE = re.compile(r"(?m)^ *(?:pub |ghost )*use ([^\s;{]+?)(?:\.\{([^}]*)\})?;?$")
OWN = re.compile(r"^(?:Rattle\.(\w+))\b")

BOUND = re.compile(rf"[({{]((?:{NAME} )+): ")

# words with a run of capitals, and a word of the library that has another name now
WORDS = [("gCRC24A", "g_crc24a"), ("gCRC24B", "g_crc24b"), ("gCRC16", "g_crc16"), ("powersCRC24A", "powers_crc24a"), ("powersCRC24B", "powers_crc24b"), ("powersCRC16", "powers_crc16"), ("kMIMO", "k_mimo"), ("nIR", "n_ir"), ("placesAByte", "places_a_byte"), ("bytesABlock", "bytes_a_block"), ("bytesARow", "bytes_a_row"), ("getD", "get_or")]

# names in snake case already that a turned name would meet: each is a lemma, and a lemma that would have its function's name gets _lem
MOVED = ["put_first", "read_number", "room_fits", "is_digit"]


def crates():
    return sorted(os.listdir("crates"))


def snake(name):
    for old, new in WORDS:
        name = name.replace(old, new)
    words = re.sub(r"(?<=[a-z0-9])[A-Z]", lambda m: "_" + m[0].lower(), name)
    return words.replace("-", "_")


def texts():
    for kind in ("crates/*/specs/**/*.antt", "crates/*/proofs/**/*.antt"):
        for f in sorted(glob.glob(kind, recursive=True)):
            yield f


def fell(n, new, turned, declared, text):
    """Says whether another name has this spelling, a name that turned or one in snake case already: then the set has it."""
    if any(it == new for it in turned.values()):
        return {new}
    if new in declared and new not in MOVED and any(new in TOKENS[f] for f in TOKENS if n in TOKENS[f]):
        return {new}
    return set()


TOKENS = {}

# definitions whose spelling a lemma has in crates that never cite both
PLAIN = {"goesOn", "headAt", "tooMany", "tooShort"}


def is_walk(f):
    return os.path.basename(f) == "Proof.antt"


def main(argv):
    own = set(crates())
    text = {f: open(f, encoding="utf-8").read() for f in texts()}
    for f in sorted(glob.glob("crates/*/src/**/*.rt", recursive=True)):
        text[f] = open(f, encoding="utf-8").read()
    lent, declared, bound = set(), collections.defaultdict(set), collections.defaultdict(set)
    for f, t in text.items():
        for m in USE.finditer(t):
            first = OWN.match(m[1])
            if (first and first[1] in own) or m[2] is None:
                continue
            lent |= {it.strip().split(" as ")[0] for it in m[2].split(",")}
        if f.endswith(".antt") and not is_walk(f):
            for m in DECLARED.finditer(t):
                for n in m["n"].split():
                    declared[n].add(f)
            for m in BOUND.finditer(t):
                for n in m[1].split():
                    bound[n].add(f)
            for m in RULESET.finditer(t):
                declared[m[1]].add(f)
        elif is_walk(f):
            walk_goals = set(re.findall(rf"(?m)^({NAME}) : tie\.(?:Need-|invariant-|decreases-)", t))
            for m in DECLARED.finditer(t):
                for n in m["n"].split():
                    if n not in walk_goals and not n.endswith("-spec"):
                        declared[n].add(f)
    TOKENS.update({f: set(re.findall(NAME, t)) for f, t in text.items()})
    for n, fs in bound.items():
        if n not in lent and n not in declared:
            declared[n] |= fs
    turned = {}
    # a definition comes before a lemma, and what has a hump is a definition
    taken = {n for n in declared if snake(n) == n and n not in MOVED}
    for n in sorted(declared, key=lambda it: ("-" in it, it)):
        if n in lent or not n[:1].islower() or n in ("⌜", "→"):
            continue
        if not re.fullmatch(r"[\w'₀-₉-]+", n):
            continue
        new = snake(n)
        if new == n and n not in MOVED:
            continue
        if n not in PLAIN and (n in MOVED or new in lent or new in fell(n, new, turned, declared, text)):
            new = snake(n) + "_lem"
        turned[n] = new
    tokens = TOKENS
    users = collections.defaultdict(set)
    for f, ts in tokens.items():
        for n in ts & turned.keys():
            users[n].add(f)
    by_new = collections.defaultdict(set)
    for n, new in turned.items():
        by_new[new].add(n)
    bad = 0
    for new, olds in sorted(by_new.items()):
        if len(olds) > 1:
            print(f"meet: {sorted(olds)} -> {new}: {[sorted(declared[o])[:3] for o in sorted(olds)]}")
            bad += 1
        if new in lent:
            print(f"lent: {sorted(olds)} -> {new}")
            bad += 1
    for n, new in sorted(turned.items()):
        both = [f for f in sorted(users[n]) if new in tokens[f] and f.endswith(".antt")]
        if both:
            print(f"there: {n} -> {new} in {both[:4]}")
            bad += 1
        elif new in declared:
            print(f"apart: {n} -> {new}, which is declared in {sorted(declared[new])[:3]}")
    left = collections.Counter()
    for f, ts in tokens.items():
        if f.endswith(".antt") and not is_walk(f):
            for n in ts - turned.keys() - lent:
                if re.fullmatch(r"[a-z][\w'₀-₉]*(-\w+)+|[a-z]+\w*[a-z0-9][A-Z]\w*", n):
                    left[n] += 1
    print("left:", dict(left.most_common(80)))
    print(len(turned), "names turn;", bad, "meet")
    if "--list" in argv:
        where = collections.defaultdict(list)
        for n, new in turned.items():
            specs = sorted({f.split("/")[1] for f in declared[n] if "/specs/" in f})
            for c in specs:
                where[c].append(f"{n} {new}")
            if not specs and new != n.replace("-", "_"):
                for c in sorted({f.split("/")[1] for f in declared[n]}):
                    where[c + " (laws)"].append(f"{n} {new}")
        for c in sorted(where):
            print(f"list: {c}: " + ", ".join(sorted(where[c])))
    if "--dry" in argv:
        return
    cut = re.compile(rf"{NAME}")

    def turn(t, walk=False, code=False):
        out = []
        for line in t.split("\n"):
            if walk:
                # what Rattle makes stays: a name behind tie. or behind a dot of a place, unless it is a field of ours
                out.append(re.sub(NAME, lambda m: m[0] if line[: m.start()].endswith("tie.") or (m[0] in MOVED and line[: m.start()].endswith(".")) else turned.get(m[0], m[0]), line))
            elif code:
                out.append(cut.sub(lambda m: turned.get(m[0], m[0]) if re.search(r"[A-Z-]", m[0]) else m[0], line))
            else:
                out.append(cut.sub(lambda m: turned.get(m[0], m[0]), line))
        return "\n".join(out)

    for f, t in text.items():
        new = turn(t, walk=is_walk(f), code=f.endswith(".rt"))
        if new != t:
            open(f, "w", encoding="utf-8").write(new)
    for f in sorted(glob.glob("crates/*/must-fail/*.edit")):
        t = open(f, encoding="utf-8").read()
        new = turn(t)
        if new != t:
            open(f, "w", encoding="utf-8").write(new)
    for f in sorted(glob.glob("docs/**/*.md", recursive=True)) + ["README.md"]:
        if f.endswith("PORT.md"):
            continue
        t = open(f, encoding="utf-8").read()
        new = re.sub(rf"`({NAME})`", lambda m: "`" + turned.get(m[1], m[1]) + "`", t)
        if new != t:
            open(f, "w", encoding="utf-8").write(new)


if __name__ == "__main__":
    main(sys.argv[1:])
