#!/usr/bin/env python3
"""Draws docs/pictures/crates.svg: the crates in layers, from the standard up to the yard, and what each uses of another.

    python3 scripts/crates.py FOLDER

What a crate uses stands in its own files: of another's code in its sources, of another's definitions and laws in `use Rattle.NAME`
lines. A use that follows from others along the way down is left out. The sentence is the first line of the crate's source.
"""

import os
import re
import sys
import textwrap

from pictures import INK, Picture, tint

COLUMNS, BOX, GAP, LINE = 4, 182, 12, 12.5
CODE, LAWS = "#0072b2", "#e69f00"


def names():
    with open("crates.txt", encoding="utf-8") as file:
        return [line.split(":")[0].split()[0] for line in file if line.strip() and not line.startswith("#")]


def files(crate, folders, ending):
    for folder in folders:
        for at, _, found in os.walk(os.path.join("crates", crate, folder)):
            for name in sorted(found):
                if name.endswith(ending):
                    with open(os.path.join(at, name), encoding="utf-8") as file:
                        yield file.read()


def code_uses(crate, all_names):
    """The crates whose functions, types or constants the sources name."""
    text = "\n".join(re.sub(r"//.*|ghost use.*", "", source) for source in files(crate, ["src"], ".rt"))
    return {name for name in all_names if name != crate and re.search(rf"\b{name}::", text)}


def law_uses(crate, all_names):
    """The crates whose definitions or laws the contracts, definitions and proofs name."""
    text = "\n".join(list(files(crate, ["src"], ".rt")) + list(files(crate, ["specs", "proofs"], ".antt")))
    return {name for name in all_names if name != crate and f"Rattle.{name}." in text}


def sentence(crate):
    for root in ("lib.rt", "main.rt"):
        path = os.path.join("crates", crate, "src", root)
        if os.path.exists(path):
            with open(path, encoding="utf-8") as file:
                return file.readline().removeprefix("//").strip()
    sys.exit(f"{crate} has no source")


def below(crate, uses):
    """All crates on the way down from one."""
    found, left = set(), list(uses[crate])
    while left:
        name = left.pop()
        if name not in found:
            found.add(name)
            left.extend(uses[name])
    return found


def direct(crate, uses):
    """The uses that do not follow from others."""
    return {name for name in uses[crate] if not any(name in below(other, uses) for other in uses[crate] - {name})}


def layers(all_names, uses):
    """A crate stands one layer above the highest that it uses."""
    def depth(crate):
        return 1 + max((depth(other) for other in uses[crate]), default=-1)

    height = {name: depth(name) for name in all_names}
    return [[name for name in all_names if height[name] == at] for at in range(max(height.values()) + 1)]


def rows_of(all_names, uses):
    """The layers, each cut into rows of as many boxes as fit."""
    return [layer[at:at + COLUMNS] for layer in layers(all_names, uses) for at in range(0, len(layer), COLUMNS)]


def places(rows, words):
    """Where each box stands and how high it is, the standard at the foot."""
    where, y = {}, 96
    for row in reversed(rows):
        height = 24 + LINE * max(len(words[name]) for name in row)
        left = (800 - len(row) * BOX - (len(row) - 1) * GAP) / 2
        for at, name in enumerate(row):
            where[name] = (left + at * (BOX + GAP), y, height)
        y += height + 26
    return where, y


def draw_uses(picture, where, uses, code):
    for crate, (x, y, height) in where.items():
        for name in sorted(direct(crate, uses)):
            to_x, to_y, _ = where[name]
            colour, dash = (CODE, "") if name in code[crate] else (LAWS, "5 3")
            picture.line(x + BOX / 2, y + height, to_x + BOX / 2, to_y, colour=colour, width=1.3, dash=dash)


def has_code(crate):
    return any(re.search(r"^(pub )?(extern \"C\" )?fn ", source, flags=re.M) for source in files(crate, ["src"], ".rt"))


def draw_boxes(picture, where, words):
    for crate, (x, y, height) in where.items():
        fill = tint(CODE, 0.12) if has_code(crate) else tint(LAWS, 0.12)
        picture.rect(x, y, BOX, height, fill, stroke=INK)
        picture.text(x + BOX / 2, y + 14, crate, size=12, anchor="middle", bold=True)
        for at, line in enumerate(words[crate]):
            picture.text(x + 6, y + 28 + LINE * at, line.replace("&", "&amp;").replace("<", "&lt;"), size=9)


def main():
    if len(sys.argv) != 2:
        sys.exit("usage: crates.py FOLDER")
    all_names = names()
    code = {name: code_uses(name, all_names) for name in all_names}
    uses = {name: code[name] | law_uses(name, all_names) for name in all_names}
    words = {name: textwrap.wrap(sentence(name), 35) for name in all_names}
    where, end = places(rows_of(all_names, uses), words)
    picture = Picture(
        round(end), "The house: crates from the standard up to the yard",
        "A box for each crate with its sentence, in layers; lines go down to the crates that it uses.")
    picture.line(40, 58, 80, 58, colour=CODE, width=2)
    picture.text(88, 62, "calls its code", size=12)
    picture.line(220, 58, 260, 58, colour=LAWS, width=2, dash="5 3")
    picture.text(268, 62, "uses its definitions and laws alone", size=12)
    picture.text(40, 82, "A line goes down to what a crate uses; what follows along other lines is left out. Yellow boxes have no code of their own.", size=12)
    draw_uses(picture, where, uses, code)
    draw_boxes(picture, where, words)
    picture.save(sys.argv[1], "crates.svg")


if __name__ == "__main__":
    main()
