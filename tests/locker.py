#!/usr/bin/env python3
"""The answer of the program `profile` to a book, a second time: a book is read by the places of its frames, a symbol's time is a fraction, and nothing
is shared with the library (REFERENCE, "Book", "Short and long forms", "Locker profile"). Frames are decoded as tests/dump.py does it.

    locker.py < BOOK        prints what `profile` prints
"""
import functools
import sys
from fractions import Fraction

import dump

SETTINGS = [row.kind for row in dump.ROWS if row.used != dump.ACTION]  # by slot
LENGTHS = {row.kind: row.length for row in dump.ROWS}
FORMS = tuple((row.used, row.kind) for row in dump.ROWS if row.used not in (dump.SETTING, dump.ACTION))  # the shorter one first
# The layout: its version, and a slot for each offset of the header, behind which the frames start. A book has START to MOST bytes.
VERSION, SLOTS = 1, 29
START, MOST = 4 + 2 * SLOTS, 4096
assert len(SETTINGS) <= SLOTS, "a setting has no slot"

# Each width's code with its exact width in Hz.
WIDTHS = {0: Fraction(15625, 2), 1: 15625, 2: 31250, 3: 62500, 4: 125000, 5: 250000, 6: 500000, 7: 1000000, 8: Fraction(10**6, 96),
          9: Fraction(10**6, 48), 10: Fraction(10**6, 24), 11: Fraction(10**6, 12), 12: Fraction(203125, 2), 13: 203125, 14: 406250, 15: 812500}


# ---- the book

def number(book, at):
    return book[at] << 8 | book[at + 1]


@functools.lru_cache(None)
def decoded(frame):
    """Kind and arguments; the kind of a frame that does not decode is 0."""
    _, kind, _, _, *values = dump.line(0, frame)
    return kind, values


def placed(book):
    """Where the slots lead, in the order of the places: each place with its slot's kind."""
    places = {kind: number(book, 4 + 2 * slot) for slot, kind in enumerate(SETTINGS)}
    return sorted((place, kind) for kind, place in places.items() if place)


def settings(book):
    """The arguments of each kind whose slot leads to a frame of it, and whether the book is well formed."""
    at, held, is_tiled = START, {}, True
    for place, kind in placed(book):
        found, values = decoded(bytes(book[place:place + LENGTHS[kind]]))
        is_tiled = is_tiled and place == at and found == kind
        at += LENGTHS[kind]
        if found == kind:
            held[kind] = values
    return held, is_tiled and book[0] == VERSION and book[1] == len(held) and number(book, 2) == at and at <= len(book) and not any(book[at:])


# ---- the rules

def is_long(sf, width):
    """A symbol lasts at least 16 ms."""
    return Fraction(2**sf) / WIDTHS[width] >= Fraction(16, 1000)


# Each rule in its order: its word, the kind that it is about, and whether that kind's arguments keep it.
RULES = (
    ("spreading_factor", 1, lambda sf, width, rate, optimised, _: 7 <= sf <= 12),
    ("width", 1, lambda sf, width, rate, optimised, _: width in (4, 5)),
    ("rate", 1, lambda sf, width, rate, optimised, _: rate in (1, 2, 3, 4)),
    ("header", 2, lambda preamble, payload, header, crc, _: header == 0),
    ("crc", 2, lambda preamble, payload, header, crc, _: crc == 1),
    ("syncword", 4, lambda syncword: syncword == 0x12),
    ("optimisation", 1, lambda sf, width, rate, optimised, _: (optimised == 1) == is_long(sf, width)),
)


def wrongs(book):
    """All that is wrong with a book, in the order in which it is looked for; the first is the answer. Behind a refusal stands what is wrong with the
    frames that the slots lead to, so that a test can tell which comes first; fewer than START bytes have no slots."""
    found = [] if START <= len(book) <= MOST else ["refused 11"]
    if len(book) < START:
        return found
    held, is_well_formed = settings(book)
    found += [] if is_well_formed else ["refused 10"]
    found += ["refused 16"] if any(short in held and long in held for short, long in FORMS) else []
    found += [] if {1, 2, 4} <= held.keys() else ["refused 22"]
    return found + ["rule %d %s" % (at, word) for at, (word, kind, is_kept) in enumerate(RULES, 1) if kind in held and not is_kept(*held[kind])]


def answer(book):
    return (wrongs(book) + ["yes"])[0]


if __name__ == "__main__":
    print("- " + answer(sys.stdin.buffer.read()))
