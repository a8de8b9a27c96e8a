"""Draws a braid, or two of them one above the other, as an SVG picture. Strands go from left to right, the first place
on top, each in the colour of its label. At a positive letter b_i the strand from place i goes over; at an inverse
letter it goes under. The 28 crossing numbers are a triangle of shades. It stands beside the braid, or below a folded
one.

A folded picture fits on a page of paper. Its letters have no names, and a tick stands above every tenth."""

from itertools import combinations
from typing import NamedTuple

import walnut

import files
from show import strands, word
from walnut import letter_text

COLOURS = ["#1f77b4", "#d62728", "#2ca02c", "#9467bd", "#ff7f0e", "#17a2b8", "#8c564b", "#e0559f"]
STRANDS = 8

CELL = 22
BESIDE = 40
HEAD = 24


class Layout(NamedTuple):
    """The number of letters in a row, and lengths in the picture."""

    row: int
    wide: int
    high: int
    margin: int
    above: int
    below: int
    folded: bool

    @property
    def row_high(self):
        return self.above + (STRANDS - 1) * self.high + self.below


PLAIN = Layout(row=40, wide=30, high=20, margin=46, above=36, below=26, folded=False)
FOLDED = Layout(row=0, wide=10, high=7, margin=26, above=14, below=6, folded=True)

# A page of A4 paper, at 96 pixels to an inch, and how much smaller its triangle is.
PAGE = (794, 1123)
SMALL = 0.6


def main(fold, *paths):
    """`fold` is the number of letters in a row of a folded picture: 0 if the page decides it. It is empty if the
    picture is not folded."""
    *paths, picture = paths
    drawn = [(codes, crossings(file)) for file, codes, _ in map(word, paths)]
    files.write(picture, svg(drawn, layout_of(drawn, fold)).encode())


def layout_of(drawn, fold):
    if fold == "":
        return PLAIN
    return fitting(drawn) if fold == "0" else FOLDED._replace(row=int(fold))


# ---- what the letters do; the library says it


def orders(codes):
    """The list of labels before each letter and after the last one."""
    return [list(pair.labels) for pair in strands(codes)]


def crossings(file):
    """How often each two labels cross, the smaller first."""
    return {pair: walnut.crossings(file, *pair) for pair in combinations(range(STRANDS), 2)}


# ---- the picture


def strand(label, path):
    return f'<path class="strand" stroke="{COLOURS[label]}" d="{path}"/>'


def slope(x, start, end, at):
    """The curve from one place to another."""
    start, end = start * at.high, end * at.high
    return f"M{x} {start}C{x + at.wide / 2:g} {start} {x + at.wide / 2:g} {end} {x + at.wide} {end}"


def crossing(code, labels, x, at):
    """One letter: the lower strand, a white border around the upper one, and the upper one."""
    place = code % 8
    path = [slope(x, place, place + 1, at), slope(x, place + 1, place, at)]
    over = 1 if code >= 8 else 0
    below, above = strand(labels[place + 1 - over], path[1 - over]), strand(labels[place + over], path[over])
    name = f"<title>{letter_text(code)}</title>"
    return f'<g class="crossing">{name}{below}<path class="border" d="{path[over]}"/>{above}</g>'


def straight(codes, lists, at):
    """The straight parts of a row: for each strand, a line from one of its crossings to the next."""
    lines = []
    for place in range(STRANDS):
        start = 0
        for k, code in enumerate([*codes, None]):
            if code is None or code % 8 in (place - 1, place):
                if start < k:
                    lines.append(strand(lists[k][place], f"M{start * at.wide} {place * at.high}H{k * at.wide}"))
                start = k + 1
    return lines


def names(codes, at):
    """The letters' names above a row."""
    text = [f"b{code % 8 + 1}" + ("⁻¹" if code >= 8 else "") for code in codes]
    middle = at.wide / 2
    return [f'<text class="letter" x="{k * at.wide + middle:g}" y="-14">{name}</text>' for k, name in enumerate(text)]


def ticks(codes, first, at):
    """A tick above every tenth letter of a folded row."""
    tenths = [k for k in range(len(codes)) if (first + k) % 10 == 0]
    return [f'<path class="tick" d="M{k * at.wide + at.wide / 2:g} -4V-6"/>' for k in tenths]


def name_of(label, side, x, down):
    return f'<text class="label {side}" style="fill:{COLOURS[label]}" x="{x:g}" y="{down:g}">{label}</text>'


def ends(lists, width, at):
    """The labels at both ends of a row."""
    away, down = (4, 2.5) if at.folded else (10, 4)
    for side, x, labels in (("left", -away, lists[0]), ("right", width + away, lists[-1])):
        for place, label in enumerate(labels):
            yield name_of(label, side, x, place * at.high + down)


def row(codes, lists, first, top, at):
    """A row of letters. The first letter has this place in the word."""
    drawn = [crossing(code, labels, k * at.wide, at) for k, (code, labels) in enumerate(zip(codes, lists))]
    where = 'x="-4" y="-5"' if at.folded else 'x="-10" y="-14"'
    place = f'<text class="place" {where}>{first}:</text>'
    above = ticks(codes, first, at) if at.folded else names(codes, at)
    parts = [place, *above, *ends(lists, len(codes) * at.wide, at), *straight(codes, lists, at), *drawn]
    fold = 'class="fold" ' if at.folded else ""
    return f'<g {fold}transform="translate({at.margin} {top})">\n' + "\n".join(parts) + "\n</g>"


def shade(number, most):
    """White for zero, blue above and red below. A darker shade is a number further from zero."""
    if not number:
        return "#ffffff"
    light = 235 - round(110 * abs(number) / most)
    return f"rgb({light},{light},255)" if number > 0 else f"rgb(255,{light},{light})"


def triangle(counts, left, top, at):
    """The crossing number of each two labels."""
    most = max(map(abs, counts.values())) or 1
    parts = [f'<text class="letter" x="{3.5 * CELL}" y="-14">crossings of two strands</text>']
    for (a, b), number in counts.items():
        x, up = (b - 1) * CELL, a * CELL
        parts.append(
            f'<g class="pair"><title>{a} and {b}: {number}</title>'
            f'<rect x="{x}" y="{up}" width="{CELL}" height="{CELL}" fill="{shade(number, most)}"/>'
            f'<text x="{x + CELL / 2:g}" y="{up + CELL / 2 + 4:g}">{str(number).replace("-", "−")}</text></g>'
        )
    # A label stands on the diagonal, left of its row and below its column.
    for label in range(STRANDS):
        parts.append(name_of(label, "middle", (label - 0.5) * CELL, (label + 0.5) * CELL + 4))
    size = f" scale({SMALL})" if at.folded else ""
    return f'<g transform="translate({left} {top}){size}">\n' + "\n".join(parts) + "\n</g>"


STYLE = """<style>
text { font: 11px sans-serif; text-anchor: middle; fill: #444 }
.letter { font-size: 10px }
.label { font-weight: bold }
.left, .place { text-anchor: end }
.right { text-anchor: start }
path { fill: none; stroke-width: 4 }
.strand { stroke-linecap: round }
.border { stroke: #fff; stroke-width: 10 }
rect { stroke: #bbb }
</style>"""
FOLDED_STYLE = """<style>
.fold text { font-size: 7px }
.fold path { stroke-width: 1.7 }
.fold .border { stroke-width: 4 }
.fold .tick { stroke: #888; stroke-width: 0.7 }
</style>"""


def across(drawn, at):
    """How wide the widest row is."""
    return max(max(min(len(codes), at.row), 1) for codes, _ in drawn) * at.wide


def braid(codes, counts, top, left, at):
    """One braid from a height on, with its crossing numbers: its parts, and the height at which it ends."""
    lists = orders(codes)
    starts = range(0, max(len(codes), 1), at.row)
    places = [(k, top + at.above + k // at.row * at.row_high) for k in starts]
    rows = [row(codes[k : k + at.row], lists[k : k + at.row + 1], k, down, at) for k, down in places]
    end = top + braid_high(len(codes), at)
    return [*rows, triangle(counts, left, end - TRIANGLE if at.folded else top + at.above, at)], end


# The height of a small triangle.
TRIANGLE = round(SMALL * (STRANDS + 1) * CELL)


def braid_high(letters, at):
    """The height of a braid of so many letters and of its triangle."""
    rows = -(-max(letters, 1) // at.row) * at.row_high
    return rows + round(SMALL * 26) + TRIANGLE if at.folded else max(rows, at.above + STRANDS * CELL)


def size(drawn, at):
    """Where the triangles stand, and the width and the height of the picture."""
    high = sum(braid_high(len(codes), at) + (HEAD if len(drawn) > 1 else 0) for codes, _ in drawn)
    wide = at.margin + across(drawn, at)
    if at.folded:
        left = at.margin + round(SMALL * CELL)
        return left, max(wide + at.margin, left + round(SMALL * STRANDS * CELL) + 10), high
    left = wide + BESIDE + 16
    return left, left + (STRANDS - 1) * CELL + 20, high


def fitting(drawn):
    """The folded layout with the shortest rows for which the picture is not taller, for its width, than the page."""
    most = max(1, *(len(codes) for codes, _ in drawn))
    layouts = (FOLDED._replace(row=letters) for letters in range(1, most + 1))
    sizes = ((at, *size(drawn, at)[1:]) for at in layouts)
    return next((at for at, wide, high in sizes if high * PAGE[0] <= wide * PAGE[1]), FOLDED._replace(row=most))


def shown_at(wide, high, at):
    """The size at which the picture is shown. A folded picture is made smaller until it fits on the page."""
    scale = min(1, PAGE[0] / wide, PAGE[1] / high) if at.folded else 1
    return f'viewBox="0 0 {wide} {high}" width="{int(wide * scale)}" height="{int(high * scale)}"'


def svg(drawn, at):
    """The picture of words, each with its crossing numbers. Each of two words has its number of letters above it."""
    left, width, height = size(drawn, at)
    parts, high = [], 0
    for codes, counts in drawn:
        if len(drawn) > 1:
            letters = files.count(len(codes), "letter")
            parts.append(f'<text class="right" x="{at.margin}" y="{high + HEAD - 6}">{letters}</text>')
            high += HEAD
        one, high = braid(codes, counts, high, left, at)
        parts += one
    words = " and one of ".join(str(len(codes)) for codes, _ in drawn)
    return "\n".join(
        [
            f'<svg xmlns="http://www.w3.org/2000/svg" {shown_at(width, height, at)}>',
            f"<title>a braid word of {words} letters on {STRANDS} strands</title>",
            STYLE,
            *([FOLDED_STYLE] if at.folded else []),
            f'<rect width="{width}" height="{height}" fill="#fff" style="stroke:none"/>',
            *parts,
            "</svg>",
            "",
        ]
    )
