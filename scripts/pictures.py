#!/usr/bin/env python3
"""Draws the pictures of docs/pictures from the tables that `independent figures` prints.

    independent figures | python3 scripts/pictures.py FOLDER

Standard library only. The same tables always give the same bytes.
"""

import math
import os
import sys
from itertools import groupby

FONT = "DejaVu Sans, Verdana, Arial, sans-serif"
INK = "#222222"
FAINT = "#cccccc"
WIDTH = 800

# Colours that differ in lightness too, after Okabe and Ito.
KINDS = {"data": "#0072b2", "parity": "#e69f00", "tail": "#444444"}
SHADES = {"first": 1.0, "second": 0.45, "rest": 0.13}
VERSIONS = [("#0072b2", ""), ("#d55e00", "9 4"), ("#009e73", "2 3"), ("#aa4488", "10 3 2 3")]


def read_tables(text):
    """The tables by name, each a list of rows, each row a dictionary by column."""
    tables, headers = {}, {}
    for line in text.splitlines():
        name, *fields = line.split("\t")
        if name not in headers:
            headers[name], tables[name] = fields, []
        else:
            values = [int(field) if field.isdigit() else field for field in fields]
            tables[name].append(dict(zip(headers[name], values)))
    return tables


def number(value):
    """A number with commas between thousands."""
    return f"{value:,}"


def tint(colour, share):
    """A colour mixed with white."""
    parts = [int(colour[at:at + 2], 16) for at in (1, 3, 5)]
    return "#" + "".join(f"{round(255 - (255 - part) * share):02x}" for part in parts)


def short(value):
    """A coordinate, at most two decimals."""
    return f"{value:.2f}".rstrip("0").rstrip(".")


class Picture:
    """An SVG under construction."""

    def __init__(self, height, title, description):
        self.lines = [
            f'<svg xmlns="http://www.w3.org/2000/svg" viewBox="0 0 {WIDTH} {height}" width="{WIDTH}" '
            f'height="{height}" font-family="{FONT}" role="img">',
            f"<title>{title}</title>",
            f"<desc>{description}</desc>",
            f'<rect width="{WIDTH}" height="{height}" fill="#ffffff"/>',
        ]
        self.text(WIDTH / 2, 32, title, size=20, anchor="middle", bold=True)

    def add(self, element):
        self.lines.append(element)

    def text(self, x, y, words, size=13, anchor="start", bold=False, colour=INK, upright=False):
        turn = f' transform="rotate(-90 {short(x)} {short(y)})"' if upright else ""
        weight = ' font-weight="bold"' if bold else ""
        self.add(f'<text x="{short(x)}" y="{short(y)}" font-size="{size}" text-anchor="{anchor}" '
                 f'fill="{colour}"{weight}{turn}>{words}</text>')

    def line(self, x1, y1, x2, y2, colour=INK, width=1, dash=""):
        dashes = f' stroke-dasharray="{dash}"' if dash else ""
        self.add(f'<line x1="{short(x1)}" y1="{short(y1)}" x2="{short(x2)}" y2="{short(y2)}" '
                 f'stroke="{colour}" stroke-width="{width}"{dashes}/>')

    def rect(self, x, y, width, height, fill, stroke="none"):
        self.add(f'<rect x="{short(x)}" y="{short(y)}" width="{short(width)}" height="{short(height)}" '
                 f'fill="{fill}" stroke="{stroke}"/>')

    def badge(self, x, y, version, radius=9):
        """A version's number in a ring."""
        self.add(f'<circle cx="{short(x)}" cy="{short(y)}" r="{radius}" fill="#ffffff" stroke="{INK}" '
                 'stroke-width="1.5"/>')
        self.text(x, y + 4.5, version, size=12, anchor="middle", bold=True)

    def save(self, folder, name):
        with open(os.path.join(folder, name), "w", encoding="utf-8", newline="\n") as file:
            file.write("\n".join(self.lines) + "\n</svg>\n")


# Which part of the circle each version sends.

RADII = [(121, 145), (91, 115), (61, 85), (31, 55)]


def draw_circles(tables, folder):
    picture = Picture(
        740, "Which part of the circle each version sends",
        "Two circles, for K = 40 and K = 6,144. Four rings in each, one a version, show the places sent by the "
        "first K bits and by the next K, data and parity in two colours.")
    picture.text(400, 56, "One code block without filler. A transmission starts at place R·(24·version + 2) and goes "
                 "clockwise,", anchor="middle")
    picture.text(400, 74, "passing over dummies. The rings, from outside to inside: versions 0, 1, 2, 3.", anchor="middle")
    for circle, x in zip(tables["circle"], (200, 590)):
        draw_circle(picture, tables, circle, x, 304)
        draw_counts(picture, tables, circle, x, 510)
    draw_circle_legend(picture, 654)
    picture.save(folder, "versions-on-the-circle.svg")


def of(table, circle, **wanted):
    """The rows of a table that belong to a circle."""
    return [row for row in table if row["K"] == circle["K"] and all(row[key] == wanted[key] for key in wanted)]


def point(x, y, radius, share):
    """The point at a share of the turn, clockwise from the top."""
    angle = 2 * math.pi * share
    return x + radius * math.sin(angle), y - radius * math.cos(angle)


def kinds_of_places(tables, circle):
    """What each place holds. On a large circle, dummies and tails are too thin to be seen."""
    kinds = []
    for part in of(tables["part"], circle):
        kind = part["holds"]
        if circle["places"] > 1000 and kind in ("dummy", "tail"):
            kind = "data" if part["from"] < circle["places"] / 3 else "parity"
        kinds += [kind] * (part["to"] - part["from"])
    return kinds


def draw_circle(picture, tables, circle, x, y):
    k, places = circle["K"], circle["places"]
    picture.text(x, y - 194, f"K = {number(k)}, R = {circle['R']}: {number(places)} places", size=15,
                 anchor="middle", bold=True)
    kinds = kinds_of_places(tables, circle)
    starts = []
    for version, (inner, outer) in enumerate(RADII):
        first, second = of(tables["sent"], circle, version=version)
        starts.append(first["start"])
        walked = [(place - first["start"]) % places for place in range(places)]
        shades = ["first" if at < first["places"] else "second" if at < second["places"] else "rest" for at in walked]
        draw_ring(picture, list(zip(kinds, shades)), x, y, inner, outer)
    draw_marks(picture, x, y, starts, places)
    for version, ((inner, outer), start) in enumerate(zip(RADII, starts)):
        picture.badge(*point(x, y, (inner + outer) / 2, start / places), version)


def draw_ring(picture, cells, x, y, inner, outer):
    """A ring of cells, each a kind and a shade, drawn in runs of like ones; dummies are left white."""
    at = 0
    for (kind, shade), run in groupby(cells):
        length = len(list(run))
        if kind != "dummy":
            sector(picture, x, y, inner, outer, at / len(cells), (at + length) / len(cells),
                   tint(KINDS[kind], SHADES[shade]))
        at += length
    for radius in (inner, outer):
        picture.add(f'<circle cx="{x}" cy="{y}" r="{radius}" fill="none" stroke="{FAINT}" stroke-width="0.7"/>')


def sector(picture, x, y, inner, outer, begin, end, fill):
    large = 1 if end - begin > 0.5 else 0
    corners = [point(x, y, outer, begin), point(x, y, outer, end), point(x, y, inner, end), point(x, y, inner, begin)]
    a, b, c, d = [f"{short(cx)} {short(cy)}" for cx, cy in corners]
    picture.add(f'<path d="M{a}A{outer} {outer} 0 {large} 1 {b}L{c}A{inner} {inner} 0 {large} 0 {d}Z" fill="{fill}"/>')


def draw_marks(picture, x, y, starts, places):
    """The two borders between streams and the starts, outside the rings; an arrow for the way round."""
    rim = RADII[0][1]
    for place, anchor, shift in [(0, "end", -3), (places // 3, "start", 6)]:
        picture.line(*point(x, y, 26, place / places), *point(x, y, rim + 8, place / places), width=1.5, dash="3 2")
        label_x, label_y = point(x, y, rim + 13, place / places)
        picture.text(label_x + shift, label_y + 6, number(place), anchor=anchor, bold=True)
    for place, anchor, shift in zip(starts, ("start", "start", "end", "end"), (2, 0, 4, 0)):
        picture.line(*point(x, y, rim, place / places), *point(x, y, rim + 8, place / places), width=1.5)
        label_x, label_y = point(x, y, rim + 13, place / places)
        picture.text(label_x + shift, label_y + 6, number(place), anchor=anchor)
    picture.add(f'<path d="M{x} {y - 14}A14 14 0 1 1 {x - 14} {y}" fill="none" stroke="{INK}" stroke-width="1.5"/>')
    picture.add(f'<path d="M{x - 14} {y - 6}L{x - 18} {y + 2}L{x - 10} {y + 2}Z" fill="{INK}"/>')


def draw_counts(picture, tables, circle, x, y):
    """How many data places each version hears."""
    k = circle["K"]
    picture.text(x, y, f"data places heard, of {number(k)}", anchor="middle", bold=True)
    columns = [(x - 150, "start"), (x + 40, "end"), (x + 150, "end")]
    heads = ["", f"{number(k)} bits", f"{number(2 * k)} bits"]
    rows = [heads]
    for version in range(4):
        heard = [number(row["heard"]) for row in of(tables["sent"], circle, version=version)]
        rows.append([f"version {version}", *heard])
    for at, row in enumerate(rows):
        for (column, anchor), words in zip(columns, row):
            picture.text(column, y + 22 + 20 * at, words, anchor=anchor)
    picture.line(x - 150, y + 28, x + 150, y + 28, colour=FAINT)


def draw_circle_legend(picture, y):
    kinds = [("data", "data (stream 0)"), ("parity", "parity (streams 1, 2)"), ("tail", "tail bits")]
    shades = [("first", "sent by the first K bits"), ("second", "by the next K bits"), ("rest", "by neither")]
    for (kind, words), x in zip(kinds, (70, 270, 500)):
        picture.rect(x, y - 12, 22, 14, KINDS[kind])
        picture.text(x + 30, y, words)
    picture.badge(641, y - 5, "0")
    picture.text(656, y, "start of version 0")
    for (shade, words), x in zip(shades, (70, 320, 530)):
        picture.rect(x, y + 14, 22, 14, tint(KINDS["data"], SHADES[shade]))
        picture.rect(x + 24, y + 14, 22, 14, tint(KINDS["parity"], SHADES[shade]))
        picture.text(x + 54, y + 26, words)
    picture.text(70, y + 54, "White gaps at K = 40 are dummies, which are never sent; at K = 6,144 dummies and tail bits "
                 "are too thin to be", size=12)
    picture.text(70, y + 70, "seen. Numbers round a circle are places on it; dashed lines part stream 0 from streams 1 "
                 "and 2 by turns.", size=12)


# What each version sends when the circle is cut.

STRIP = 224


def draw_cuts(tables, folder):
    picture = Picture(
        700, "What each version sends when the circle is cut",
        "For K = 40 and K = 6,144: the circle laid out as a strip, whole and cut at 64·R, 50·R and 32·R places, one strip a version, "
        "with the places sent by the first K bits and by the next K, data and parity in two colours.")
    picture.text(400, 56, "One code block without filler, the circle laid out from place 0 on. A transmission starts at place "
                 "R·(2·⌈N_cb/(8·R)⌉·version + 2),", size=12, anchor="middle")
    picture.text(400, 73, "goes to the right, passes over dummies, and goes on from place 0 when it meets N_cb.", size=12,
                 anchor="middle")
    for circle, x in zip(tables["circle"], (24, 424)):
        k = circle["K"]
        picture.text(x + 28, 106, f"K = {number(k)}, R = {circle['R']}", size=15, bold=True)
        picture.text(x + 352, 106, "data places heard by", size=12, anchor="end")
        for words, shift in (("K bits", 298), ("2·K bits", 352)):
            picture.text(x + shift, 124, words, size=12, anchor="end")
        cuts = groupby(of(tables["cut"], circle), lambda row: row["columns"])
        for (columns, rows), y in zip(cuts, range(142, 700, 120)):
            draw_cut(picture, kinds_of_places(tables, circle), columns, list(rows), x, y)
    draw_cut_legend(picture, 634)
    picture.save(folder, "cut-circle.svg")


def draw_cut(picture, kinds, columns, rows, x, y):
    """The strips of one cut, a version each, and how many data places each hears."""
    places = rows[0]["places"]
    picture.text(x + 28, y, f"N_cb = {columns}·R = {number(places)}" + (", the whole circle" if places == len(kinds) else ""),
                 size=12, bold=True)
    for first, second in zip(rows[::2], rows[1::2]):
        top = y + 8 + 22 * first["version"]
        picture.badge(x + 12, top + 8, first["version"], radius=8)
        walked = [(place - first["start"]) % places for place in range(places)]
        shades = ["first" if at < first["passed"] else "second" if at < second["passed"] else "rest" for at in walked]
        draw_strip(picture, list(zip(kinds, shades)), len(kinds), x + 28, top)
        start = x + 28 + STRIP * first["start"] / len(kinds)
        picture.line(start, top - 2, start, top + 18, width=2)
        for row, shift in ((first, 298), (second, 352)):
            picture.text(x + shift, top + 13, number(row["heard"]), size=12, anchor="end")


def draw_strip(picture, cells, whole, x, y):
    """The cells of a strip in runs of like ones, dummies left white, and the frame of what is cut away."""
    at = 0
    for (kind, shade), run in groupby(cells):
        length = len(list(run))
        if kind != "dummy":
            picture.rect(x + STRIP * at / whole, y, STRIP * length / whole, 16, tint(KINDS[kind], SHADES[shade]))
        at += length
    picture.rect(x, y, STRIP * at / whole, 16, "none", stroke=FAINT)
    if at < whole:
        end = x + STRIP * at / whole
        for height in (y, y + 16):
            picture.line(end, height, x + STRIP, height, colour=FAINT, dash="3 3")
        picture.line(x + STRIP, y, x + STRIP, y + 16, colour=FAINT, dash="3 3")


def draw_cut_legend(picture, y):
    kinds = [("data", "data (stream 0)"), ("parity", "parity (streams 1, 2)"), ("tail", "tail bits")]
    shades = [("first", "sent by the first K bits"), ("second", "by the next K bits"), ("rest", "by neither")]
    for (kind, words), x in zip(kinds, (52, 232, 452)):
        picture.rect(x, y - 12, 22, 14, KINDS[kind])
        picture.text(x + 30, y, words, size=12)
    picture.line(586, y - 15, 586, y + 5, width=2)
    picture.text(596, y, "start of the version", size=12)
    for (shade, words), x in zip(shades, (52, 292, 502)):
        picture.rect(x, y + 12, 22, 14, tint(KINDS["data"], SHADES[shade]))
        picture.rect(x + 24, y + 12, 22, 14, tint(KINDS["parity"], SHADES[shade]))
        picture.text(x + 54, y + 24, words, size=12)
    picture.text(52, y + 50, "Dashed: cut away, never sent. At 32·R stream 0 alone is left: any version brings the data with one turn "
                 "of it.", size=12)


# How many data places are heard against bits received.


class Panel:
    """A frame with axes."""

    def __init__(self, picture, x, y, most_bits, most_heard):
        self.picture, self.x, self.y = picture, x, y
        self.width, self.height = 300, 210
        self.most_bits, self.most_heard = most_bits, most_heard

    def at(self, bits, heard):
        return (self.x + self.width * bits / self.most_bits, self.y + self.height * (1 - heard / self.most_heard))

    def axes(self, bit_ticks, heard_ticks):
        picture = self.picture
        for heard in heard_ticks:
            x, y = self.at(0, heard)
            picture.line(x, y, x + self.width, y, colour=FAINT)
            picture.text(x - 7, y + 4.5, number(heard), size=12, anchor="end")
        for bits in bit_ticks:
            x, y = self.at(bits, 0)
            picture.line(x, y, x, y + 5)
            picture.text(x, y + 19, number(bits), size=12, anchor="middle")
        picture.line(self.x, self.y - 8, self.x, self.y + self.height)
        picture.line(self.x, self.y + self.height, self.x + self.width, self.y + self.height)
        picture.text(self.x + self.width / 2, self.y + self.height + 38, "bits received", anchor="middle")
        picture.text(self.x - 52, self.y + self.height / 2, "data places heard", anchor="middle", upright=True)

    def curve(self, corners, colour, dash="", width=2.5):
        points = " ".join(",".join(short(part) for part in self.at(row["bits"], row["heard"])) for row in corners)
        dashes = f' stroke-dasharray="{dash}"' if dash else ""
        self.picture.add(f'<polyline points="{points}" fill="none" stroke="{colour}" stroke-width="{width}" '
                         f'stroke-linejoin="round"{dashes}/>')

    def dot(self, bits, heard, colour):
        x, y = self.at(bits, heard)
        self.picture.add(f'<circle cx="{short(x)}" cy="{short(y)}" r="4" fill="{colour}"/>')


def draw_curves(tables, folder):
    picture = Picture(
        800, "How many data places are heard, by bits received",
        "Four panels: for K = 40 and K = 6,144, each version alone, and four transmissions of 24·R bits in the "
        "order 0, 2, 3, 1.")
    picture.text(400, 56, "One code block without filler. It can be read as soon as all its K data places are heard.",
                 anchor="middle")
    quarters = [number(circle["quarter"]) for circle in tables["circle"]]
    picture.text(232, 88, "One version alone", size=15, anchor="middle", bold=True)
    picture.text(622, 88, "Together, in the order 0, 2, 3, 1", size=15, anchor="middle", bold=True)
    ticks = {40: range(0, 121, 20), 6144: range(0, 16001, 4000)}
    for circle, y in zip(tables["circle"], (140, 460)):
        draw_alone(picture, tables, circle, 82, y, ticks[circle["K"]])
        draw_together(picture, tables, circle, 472, y)
    draw_curve_legend(picture, quarters, 742)
    picture.save(folder, "data-places-heard.svg")


def heard_ticks(circle):
    return [circle["K"] * part // 4 for part in range(5)]


def draw_alone(picture, tables, circle, x, y, ticks):
    k = circle["K"]
    panel = Panel(picture, x, y, circle["bits"] * 1.06, k)
    panel.axes(ticks, heard_ticks(circle))
    picture.text(x + 6, y - 30, f"K = {number(k)}", bold=True)
    for row in of(tables["needed"], circle):
        version, needed = row["version"], row["bits"]
        colour, dash = VERSIONS[version]
        corners = of(tables["alone"], circle, version=version)
        panel.curve([corner for corner in corners if corner["bits"] <= needed], colour, dash)
        panel.dot(needed, k, colour)
        if version > 0:
            dot_x, dot_y = panel.at(needed, k)
            picture.text(dot_x, dot_y - 10, number(needed), size=12, anchor="middle")
    for version in range(4):
        corners = of(tables["alone"], circle, version=version)
        picture.badge(*panel.at(crossing(corners, k / 2), k / 2), version)


def crossing(corners, heard):
    """Where a curve reaches a number of data places."""
    for before, after in zip(corners, corners[1:]):
        if after["heard"] >= heard:
            return before["bits"] + heard - before["heard"]
    return corners[-1]["bits"]


def draw_together(picture, tables, circle, x, y):
    k, quarter = circle["K"], circle["quarter"]
    corners = of(tables["together"], circle)
    panel = Panel(picture, x, y, 4 * quarter, k)
    order = corners[-1]["versions"].split(" ")
    for at, version in enumerate(order):
        left, top = panel.at(at * quarter, k)
        picture.rect(left, top, panel.width / 4, panel.height, tint(VERSIONS[int(version)][0], 0.16))
        picture.badge(left + panel.width / 8, y + panel.height - 16, version)
    panel.axes(range(0, 4 * quarter + 1, quarter), heard_ticks(circle))
    panel.curve(corners, INK, width=3)
    complete = next(row["bits"] for row in corners if row["heard"] == k)
    panel.dot(complete, k, INK)
    dot_x, dot_y = panel.at(complete, k)
    picture.text(dot_x, dot_y - 10, number(complete), size=12, anchor="middle")
    picture.text(x + 6, y - 30, f"K = {number(k)}, {number(quarter)} bits each", bold=True)


def draw_curve_legend(picture, quarters, y):
    for version, (colour, dash) in enumerate(VERSIONS):
        x = 60 + 175 * version
        picture.line(x, y - 4, x + 50, y - 4, colour=colour, width=2.5, dash=dash)
        picture.badge(x + 25, y - 4, version)
        picture.text(x + 60, y, f"version {version}")
    picture.text(60, y + 26, "Dots: all data places heard, after so many bits (versions 0 and 1 alone: all 3·D bits). "
                 "Right: each transmission has", size=12)
    picture.text(60, y + 43, f"24·R bits, a quarter of the circle's places: {quarters[0]} for K = 40, {quarters[1]} for "
                 "K = 6,144.", size=12)


# Where the column numbers come from.

CELL = 11


def draw_columns(tables, folder):
    picture = Picture(
        300, "Where the 32 column numbers come from",
        "For each column c from 0 to 31: its five bits as dark and light cells, the five bits of the number P(c) that table "
        "5.1.4-1 prints for it, which are the same cells the other way round, and P(c).")
    picture.text(400, 56, "A column c, its five bits (dark is 1), the same bits read backwards, and the number P(c) that they "
                 "are.", anchor="middle")
    for row in tables["column"]:
        x, y = 20 + 195 * (row["c"] // 8), 84 + 25 * (row["c"] % 8)
        picture.text(x + 16, y + 11, row["c"], anchor="end")
        draw_bits(picture, row["c"], x + 24, y)
        picture.text(x + 90, y + 11, "→", anchor="middle")
        draw_bits(picture, row["P"], x + 101, y)
        picture.text(x + 161, y + 11, row["P"], bold=True)
    picture.save(folder, "column-order.svg")


def draw_bits(picture, value, x, y):
    """Five bits, the highest first."""
    for at in range(5):
        bit = value >> (4 - at) & 1
        picture.rect(x + CELL * at, y, CELL, CELL, KINDS["data"] if bit else "#ffffff", stroke=INK)


# How many repeats at worst.

REPEAT_ALLOCATIONS = (2, 1), (4, 1), (6, 1), (6, 4)


def by_size(tables):
    """The rows of the repeats by A, each a list in the order of the allocations."""
    rows = {}
    for row in tables["repeats"]:
        rows.setdefault(row["A"], []).append(row)
    for several in rows.values():
        assert [(row["Q"], row["N"]) for row in several] == list(REPEAT_ALLOCATIONS)
    return rows


def heard_after(row):
    """What part is heard after the first, the second and the third, in whole percents, never rounded up to all."""
    return [math.floor(100 * row[step] / row["places"]) for step in ("first", "second", "third")]


def draw_repeats(tables, folder):
    rows = by_size(tables)
    picture = Picture(
        200 + 30 * len(rows), "How many repeats at worst",
        "A table: for common A and Q, N the least G of one transmission that surely brings the block, the least G of each of "
        "three, versions 0, 1 and 3, and what part of the data is heard after each of the three in the worst order.")
    picture.text(400, 56, "One true transmission of any version brings the block if its G is at least that of the column one;", anchor="middle")
    picture.text(400, 74, "one each of versions 0, 1 and 3, in any order, if the G of each is at least that of the column three.",
                 anchor="middle")
    top = 128
    for at, (q, n) in enumerate(REPEAT_ALLOCATIONS):
        x = 118 + 108 * at
        picture.text(x + 60, top - 22, f"Q = {q}, N = {n}", anchor="middle", bold=True)
        picture.text(x + 50, top, "one", anchor="end")
        picture.text(x + 104, top, "three", anchor="end")
    picture.text(58, top, "A", anchor="end")
    picture.text(108, top, "blocks", anchor="end")
    picture.text(662, top - 22, "heard, Q = 2, N = 1", anchor="middle", bold=True)
    picture.text(568, top, "worst order and part heard")
    picture.line(20, top + 8, 780, top + 8)
    for at, (a, several) in enumerate(rows.items()):
        draw_repeat_row(picture, several, top + 30 + 30 * at)
    y = top + 30 + 30 * len(rows)
    for shade, (step, x) in zip(("first", "second", "rest"), (("the first", 40), ("the second", 290), ("the third", 550))):
        picture.rect(x, y - 11, 22, 14, tint(KINDS["data"], SHADES[shade]), stroke=FAINT)
        picture.text(x + 30, y, f"heard by {step} of the three")
    picture.save(folder, "repeats-at-worst.svg")


def draw_repeat_row(picture, several, y):
    first = several[0]
    picture.text(58, y, number(first["A"]), anchor="end", bold=True)
    picture.text(108, y, number(first["blocks"]), anchor="end")
    for at, row in enumerate(several):
        x = 118 + 108 * at
        picture.text(x + 50, y, number(row["one"]), anchor="end")
        picture.text(x + 104, y, number(row["three"]), anchor="end")
    for at, version in enumerate(first["order"].split(" ")):
        picture.badge(577 + 20 * at, y - 5, version, radius=8)
    left, width, begin = 634, 72, 0
    for shade, step in zip(("first", "second", "rest"), ("first", "second", "third")):
        end = width * first[step] / first["places"]
        picture.rect(left + begin, y - 13, end - begin, 16, tint(KINDS["data"], SHADES[shade]), stroke=FAINT)
        begin = end
    percents = heard_after(first)
    picture.text(left + width + 6, y, " · ".join(map(str, percents)) + " %", size=11)


def write_repeats(tables, folder):
    """The same as a table of text, and how near the bounds are."""
    lines = [
        "# How many repeats at worst",
        "",
        "Drawn by `scripts/pictures` from the independent program's figures. For a block of A bits, Q and N: the least G of one true transmission, "
        "of any version, that surely brings the block, and the least G of each of three, one each of versions 0, 1 and 3 in any order. "
        "`worst A Q N` in a replayed log tells both for any A, Q and N. The last columns: the order of the three in which least is heard, "
        "and what part of the data places is heard after each, for Q = 2, N = 1 and that least G.",
        "",
        "| A | Blocks | " + " | ".join(f"Q {q}, N {n}: one | three" for q, n in REPEAT_ALLOCATIONS)
        + " | Worst order | After 1 | After 2 | After 3 |",
        "|" + "---:|" * (2 + 2 * len(REPEAT_ALLOCATIONS)) + "---|" + "---:|" * 3,
    ]
    for a, several in by_size(tables).items():
        least = [f"{number(row['one'])} | {number(row['three'])}" for row in several]
        heard = [f"{percent} %" for percent in heard_after(several[0])]
        order = several[0]["order"].replace(" ", ", ")
        lines.append("| " + " | ".join([number(a), str(several[0]["blocks"]), *least, order, *heard]) + " |")
    lines += [
        "",
        "## How near the bounds are",
        "",
        "Of the 188 sizes K without filler, in one code block: for how many a G one allocation unit of N·Q bits below the least leaves a data "
        "place unheard. For one transmission, version 0, the bound is exact everywhere. For three it is exact from N·Q = 4 on for some K: for "
        "K = 56 (A = 32), Q = 4 and N = 1 three of 48 bits do and three of 44 leave 2 data places unheard. With N·Q = 2 one unit less "
        "still does for every K, since every circle has at least 4 dummies, which the walk passes without a bit.",
        "",
        "| N·Q | three: one unit less does not do | one: one unit less does not do |",
        "|---:|---:|---:|",
    ]
    lines += [f"| {row['unit']} | {row['three']} of {row['sizes']} | {row['one']} of {row['sizes']} |" for row in tables["tight"]]
    with open(os.path.join(folder, "repeats-at-worst.md"), "w", encoding="utf-8", newline="\n") as file:
        file.write("\n".join(lines) + "\n")


def main():
    if len(sys.argv) != 2:
        sys.exit("usage: independent figures | pictures.py FOLDER")
    tables = read_tables(sys.stdin.read())
    draw_circles(tables, sys.argv[1])
    draw_cuts(tables, sys.argv[1])
    draw_curves(tables, sys.argv[1])
    draw_columns(tables, sys.argv[1])
    draw_repeats(tables, sys.argv[1])
    write_repeats(tables, sys.argv[1])


if __name__ == "__main__":
    main()
