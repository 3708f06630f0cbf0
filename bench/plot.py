#!/usr/bin/env python3
"""plot.py FIGURES.. > SVG: a row for each figure, with a dot at the ratio's median and a line from its least to its greatest, on a log axis.

A figure is a line: name, ratio, least, greatest, and two times, which are not drawn. The name's first word or two give its group.
Over and under the rows it says which side of 1 is slower, and with which Rust each group is compared.
"""
import math
import sys
from xml.sax.saxutils import escape

GROUPS = [("builders", "#3465a4"), ("readers", "#4e9a06"), ("decoder", "#a40000"), ("book", "#8f5902"), ("dump", "#5c3566"), ("widths", "#c4a000")]
LEFT, WIDTH, RIGHT, ROW, TOP = 360, 400, 40, 13, 44


def group(name):
    if name[0].isdigit():
        return 0
    for i, start in ((2, "decode"), (3, "book"), (3, "empty book"), (3, "playback"), (4, "dump"), (5, "widths")):
        if name.startswith(start):
            return i
    return 1


def read(names):
    rows = []
    for name in names:
        for line in open(name, encoding="utf8"):
            words = line.split()
            rows.append((" ".join(words[:-5]),) + tuple(map(float, words[-5:-2])))
    return rows


def plot(rows):
    low = 2.0 ** math.floor(math.log2(min(r[2] for r in rows)))
    high = 2.0 ** math.ceil(math.log2(max(r[3] for r in rows)))
    bottom = TOP + ROW * len(rows) + 4
    width, height = LEFT + WIDTH + RIGHT, bottom + 50

    def x(ratio):
        return LEFT + WIDTH * math.log(ratio / low) / math.log(high / low)

    out = ['<svg xmlns="http://www.w3.org/2000/svg" width="%d" height="%d" viewBox="0 0 %d %d" font-family="sans-serif" font-size="10">'
           % (width, height, width, height), '<rect width="100%" height="100%" fill="white"/>',
           '<text x="%d" y="14" font-size="12">time of ours / time of the Rust: median, least and greatest</text>' % 8,
           '<text x="%.1f" y="32" text-anchor="end">ours is faster \u2190</text>' % (x(1) - 5),
           '<text x="%.1f" y="32">\u2192 ours is slower</text>' % (x(1) + 5)]
    tick = low
    while tick <= high:
        out.append('<path d="M%.1f %dV%d" stroke="%s"/><text x="%.1f" y="%d" text-anchor="middle">%g</text>'
                   % (x(tick), TOP - 4, bottom, "black" if tick == 1 else "#dddddd", x(tick), bottom + 12, tick))
        tick *= 2
    for i, (name, ratio, least, greatest) in enumerate(rows):
        y = TOP + ROW * i + ROW / 2
        colour = GROUPS[group(name)][1]
        out.append('<text x="%d" y="%.1f" text-anchor="end">%s</text><path d="M%.1f %.1fH%.1f" stroke="%s"/>'
                   '<circle cx="%.1f" cy="%.1f" r="3" fill="%s"/><text x="%d" y="%.1f">%.2f</text>'
                   % (LEFT - 8, y + 3.5, escape(name), x(least), y, x(greatest), colour, x(ratio), y, colour, LEFT + WIDTH + 8, y + 3.5,
                      ratio))
    for i, (name, colour) in enumerate(GROUPS):
        out.append('<circle cx="%d" cy="%d" r="3" fill="%s"/><text x="%d" y="%d">%s</text>'
                   % (LEFT + 72 * i, bottom + 25, colour, LEFT + 72 * i + 7, bottom + 28.5, name))
    out.append('<text x="%d" y="%d">builders and readers: against the driver\'s own Rust; decoder, book, dump and widths: against Rust that '
               'was written for this</text>' % (8, bottom + 45))
    return "\n".join(out + ["</svg>"])


print(plot(read(sys.argv[1:])))
