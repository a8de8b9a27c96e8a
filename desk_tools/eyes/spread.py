"""Draws how words spread over the 24 lists of four labels, as an SVG picture.

On the left each list has a bar for one length: the number of words that end in the list. A line marks the even number.
This is the number that each list would have if all 12 lists that even or odd lengths can reach were reached equally
often. On the right every length up to 12 has a column of shades. A shade shows a list's share: its number divided by
the even number. A list that no word of the length reaches is hatched. Even lengths can reach 12 of the 24 lists, and
odd lengths the other 12."""

from itertools import permutations

import walnut

import files

LISTS = list(permutations(range(4)))
LENGTHS = range(walnut.SPREAD_LENGTH + 1)

# Lengths in the picture.
LINE = 18
TOP = 64
BARS = 96
WIDE = 240
SHADES = BARS + WIDE + 150
CELL = 36


def main(length, picture):
    files.write(picture, svg(int(length)).encode())


# ---- the numbers; the library says them


def numbers(length):
    """For each list, the number of words of the length that end in it."""
    return [walnut.words_ending(length, labels) for labels in LISTS]


def even(counts):
    """The even number: all words, divided by the 12 lists that even or odd lengths can reach."""
    return sum(counts) / (len(LISTS) / 2)


# ---- the picture


def text(x, y, words, kind=""):
    return f'<text class="{kind}" x="{x:g}" y="{y:g}">{words}</text>'


def middle(k):
    return TOP + k * LINE + LINE / 2


def names():
    """The names of the lists, one below the other."""
    return [text(BARS - 8, middle(k) + 4, " ".join(map(str, labels)), "end") for k, labels in enumerate(LISTS)]


def bars(length):
    """A bar for the number of each list, and a line at the even number."""
    counts = numbers(length)
    scale = WIDE / max(*counts, even(counts))
    parts = [text(BARS + WIDE / 2, TOP - 30, f"words of length {length}, {sum(counts):,} in all", "head")]
    for k, number in enumerate(counts):
        y = TOP + k * LINE + 2
        if number:
            parts.append(f'<rect class="bar" x="{BARS}" y="{y}" width="{number * scale:.2f}" height="{LINE - 4}"/>')
        else:
            parts.append(f'<rect class="none" x="{BARS}" y="{y}" width="{WIDE}" height="{LINE - 4}"/>')
        parts.append(text(BARS + WIDE + 8, middle(k) + 4, f"{number:,}", "number start"))
    x, bottom = BARS + even(counts) * scale, TOP + len(LISTS) * LINE
    parts.append(f'<path class="even" d="M{x:.2f} {TOP - 6}V{bottom + 6}"/>')
    parts.append(text(x, bottom + 22, "reached alike"))
    return parts


def shade(share):
    """The colour of a share: white for 0, a middle blue for 1, and the darkest blue from 2 on."""
    part = min(share, 2) / 2
    return f"rgb({round(255 - 215 * part)},{round(255 - 165 * part)},{round(255 - 75 * part)})"


def column(length, chosen):
    """The share of each list for one length. Below the shares stand the largest and the smallest share of the 12 lists
    that even or odd lengths can reach."""
    counts = numbers(length)
    shares = [number / even(counts) for number in counts]
    x = SHADES + length * CELL
    parts = [text(x + CELL / 2, TOP - 10, length)]
    for k, (labels, number, share) in enumerate(zip(LISTS, counts, shares)):
        name = f"<title>length {length}, list {' '.join(map(str, labels))}: {number:,}, {share:.2f} of even</title>"
        fill = shade(share) if number else "url(#none)"
        box = f'x="{x}" y="{TOP + k * LINE}" width="{CELL}" height="{LINE}" fill="{fill}"'
        kind = "share dark" if share > 1.2 else "share"
        value = text(x + CELL / 2, middle(k) + 4, f"{share:.2f}", kind) if number else ""
        parts.append(f'<g class="cell">{name}<rect {box}/>{value}</g>')
    bottom = TOP + len(LISTS) * LINE
    ends = sorted(shares, reverse=True)
    parts.append(text(x + CELL / 2, bottom + 22, f"{ends[0]:.2f}", "largest"))
    parts.append(text(x + CELL / 2, bottom + 38, f"{ends[len(LISTS) // 2 - 1]:.2f}", "smallest"))
    if length == chosen:
        parts.append(f'<rect class="chosen" x="{x}" y="{TOP}" width="{CELL}" height="{len(LISTS) * LINE}"/>')
    return parts


STYLE = """<style>
text { font: 11px sans-serif; text-anchor: middle; fill: #333 }
.head { font-size: 13px; font-weight: bold }
.end { text-anchor: end }
.start { text-anchor: start }
.number { font-size: 10px }
.share { font-size: 9px }
.dark { fill: #fff }
rect { stroke: #ccc }
.bar { fill: rgb(148,172,218); stroke: none }
.none { fill: url(#none); stroke: none }
.chosen { fill: none; stroke: #d62728; stroke-width: 2 }
.even { fill: none; stroke: #d62728; stroke-dasharray: 4 3 }
</style>
<defs><pattern id="none" width="6" height="6" patternUnits="userSpaceOnUse">
<rect width="6" height="6" fill="#f4f4f4" style="stroke:none"/><path d="M0 6L6 0" stroke="#ccc"/></pattern></defs>"""


def svg(length):
    width = SHADES + len(LENGTHS) * CELL + 24
    high = TOP + len(LISTS) * LINE + 70
    columns = [part for each in LENGTHS for part in column(each, length)]
    center = SHADES + len(LENGTHS) * CELL / 2
    bottom = TOP + len(LISTS) * LINE
    return "\n".join(
        [
            f'<svg xmlns="http://www.w3.org/2000/svg" viewBox="0 0 {width} {high}" width="{width}" height="{high}">',
            f"<title>how words of each length up to {LENGTHS[-1]} spread over the lists of four labels,"
            f" with bars for length {length}</title>",
            STYLE,
            f'<rect width="{width}" height="{high}" fill="#fff" style="stroke:none"/>',
            *names(),
            *bars(length),
            text(center, TOP - 30, "each length: the number of a list, 1.00 where all are reached alike", "head"),
            *columns,
            text(SHADES - 8, bottom + 22, "largest", "end"),
            text(SHADES - 8, bottom + 38, "smallest", "end"),
            text(BARS, bottom + 52, "hatched: no word of this length ends in the list", "start"),
            "</svg>",
            "",
        ]
    )
