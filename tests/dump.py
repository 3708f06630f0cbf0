#!/usr/bin/env python3
"""The text of a dump, a second time: with a table of its own, and nothing shared with the library (REFERENCE, "Dump").

    dump.py < REEL          prints the text of a reel
"""
import collections
import sys

# What a field takes, an enum's codes or numbers up to a limit; where it names none, it takes all that it can hold.
SF = range(5, 13)
CR = range(0, 10)
TWO = (0, 1)
THREE = (0, 1, 2)
ADDR_LEN = range(0, 9)
CAD_EXIT = (0, 1, 16)
PBL_DETECT = (0, 8, 16, 24, 32)
CRC = (0, 1, 2, 3, 4, 9, 10, 11, 12)
SOURCE = range(0, 5)
NB_BITS = range(0, 65)
RX_BW = (255, 0, 64, 128, 192, 136, 200, 144, 24, 208, 88, 152, 32, 96, 216, 160, 17, 81, 224, 25, 209, 89, 153, 33,
         97, 217, 161, 18, 82, 225, 26, 210, 90, 154, 34, 98, 218, 162, 19, 83, 226, 27, 211, 91, 155, 35, 99, 219,
         163, 20, 84, 227, 28, 212, 92, 156, 36, 100, 220, 164, 21, 85, 228, 29, 213, 93, 157, 37, 101, 165, 86, 229,
         30, 94, 158, 38, 102, 222, 166, 23, 87, 230, 31, 215, 95, 159, 39, 103, 223, 167, 231)

# Kind, opcode, length, whether a book keeps it, fields in argument order (REFERENCE, "Commands"). Of a setting that is the longer form of another
# kind, that kind. A field: what it takes, and its place as the decoder has it, such as "2.7-4" for bits 7 to 4 of byte 2 and "2-3" for whole
# bytes ("<" low byte first, "" no bits at all: it reads as 0).
Row = collections.namedtuple("Row", "kind opcode length used fields")
SETTING, ACTION = "setting", "action"
ROWS = [Row(*row) for row in (
    (1, 0x0220, 4, SETTING, [("2.7-4", SF), ("2.3-0", None), ("3.7-4", CR), ("3.1-0", TWO), ("3.3-2", None)]),
    (2, 0x0221, 6, SETTING, [("2-3", None), ("4", None), ("5.2", None), ("5.1", None), ("5.0", None)]),
    (3, 0x0222, 4, SETTING, [("2", None), ("3.0", None)]),
    (4, 0x0223, 3, SETTING, [("2", None)]),
    (5, 0x0226, 8, SETTING, [("2.7", None), ("2.2-0", None), ("3-4", None), ("5-7", None)]),
    (6, 0x0226, 12, 5, [("2.7", None), ("2.2-0", None), ("3-4", None), ("5-7", None), ("8.6-0", None), ("9.7-4", None),
                        ("9.3-0", None), ("10", None), ("11", None)]),
    (7, 0x0227, 9, SETTING, [("2", None), ("3.4", None), ("3.3-0", None), ("4", CAD_EXIT), ("5-7", None), ("8", None)]),
    (8, 0x0228, 2, ACTION, []),
    (9, 0x0229, 2, ACTION, []),
    (10, 0x022A, 2, ACTION, []),
    (11, 0x022B, 11, SETTING, [("2.7-4", ADDR_LEN), ("2.3-0", None), ("3-10<", None)]),
    (12, 0x022D, 4, SETTING, [("2.4-0", None), ("3.4-0", None)]),
    (13, 0x022E, 8, SETTING, [("%d.4-0" % b, None) for b in range(2, 8)]),
    (14, 0x021D, 3, SETTING, [("2.7-6", THREE), ("2.3-0", None)]),
    (15, 0x021D, 4, SETTING, [("2.7-6", None), ("2.5-2", None), ("2.1-0", None), ("3.4", None), ("3.3-0", None)]),
    (16, 0x0240, 11, SETTING, [("2-5", None), ("6.3-0", None), ("7", RX_BW), ("8-10", None)]),
    (17, 0x0241, 9, SETTING, [("2-3", None), ("4", PBL_DETECT), ("5.4", None), ("", None), ("5.3-2", THREE), ("5.1-0", None),
                              ("6-7", None), ("8.7-4", CRC), ("8.0", None)]),
    (18, 0x0242, 4, SETTING, [("2.4", None), ("2.3-0+3", None)]),
    (19, 0x0243, 10, SETTING, [("2-5", None), ("6-9", None)]),
    (20, 0x0244, 11, SETTING, [("2-9", None), ("10.7", None), ("10.6-0", NB_BITS)]),
    (21, 0x0245, 4, SETTING, [("2", None), ("3", None)]),
    (22, 0x0246, 2, ACTION, []),
    (23, 0x0247, 2, ACTION, []),
    (24, 0x0200, 6, SETTING, [("2-5", None)]),
    (25, 0x0201, 3, SETTING, [("2.0", None)]),
    (26, 0x0201, 4, 25, [("2.0", None), ("3.2-0", None)]),
    (27, 0x0202, 4, SETTING, [("2.7", None), ("2.1-0", None), ("2.6-4", None), ("3.3-0", None)]),
    (28, 0x0202, 5, 27, [("2.7", None), ("2.1-0", None), ("2.6-4", None), ("3.3-0", None), ("4.4-0", None)]),
    (29, 0x020C, 5, ACTION, [("2-4", None)]),
    (30, 0x020D, 5, ACTION, [("2-4", None)]),
    (31, 0x020F, 3, SETTING, [("2.0", None)]),
    (32, 0x0210, 9, ACTION, [("2-4", None), ("5-7", None), ("8.4", None), ("8.2-0", None)]),
    (33, 0x0211, 10, SETTING, [("2.7", None), ("2.1-0", THREE), ("3-5", None), ("6-9", None)]),
    (34, 0x0215, 8, SETTING, [("2-4", None), ("5-7", None)]),
    (35, 0x0216, 3, SETTING, [("2.5-4", THREE), ("2.3-0", SOURCE)]),
    (36, 0x0218, 5, ACTION, [("2-4", None)]),
    (37, 0x0218, 6, ACTION, [("2-4", None), ("5", None)]),
    (38, 0x021A, 3, SETTING, [("2.3-0", None)]),
    (39, 0x021B, 10, SETTING, [("2-4", None), ("5", None), ("6.1-0", THREE), ("7-9", None)]),
)]
KINDS = 39
assert [row.kind for row in ROWS] == list(range(1, KINDS + 1)), "a row is missing, or is not at its place"


def bits(place):
    """The bits of a field, lowest first, as (byte, bit)."""
    if not place:
        return []
    if "+" in place:  # the last part is the lowest
        return [b for part in reversed(place.split("+")) for b in bits(part)]
    if "." in place:
        byte, span = place.split(".")
        high, _, low = span.partition("-")
        return [(int(byte), b) for b in range(int(low or high), int(high) + 1)]
    first, _, last = place.rstrip("<").partition("-")
    order = range(int(first), int(last or first) + 1)
    if not place.endswith("<"):
        order = reversed(order)
    return [(byte, b) for byte in order for b in range(8)]


BY_OPCODE = {}
for kind, opcode, length, _, fields in ROWS:
    laid = []
    held = [255, 255] + [0] * (length - 2)
    for place, codes in fields:
        where = bits(place)
        for byte, bit in where:
            held[byte] |= 1 << bit
        laid.append((where, min((b for b, _ in where), default=0), codes))
    BY_OPCODE.setdefault(opcode, {})[length] = (kind, held, laid)


def line(index, frame):
    """The numbers of a frame's line."""
    if len(frame) < 2:
        return [index, 0, 1, 0]
    lengths = BY_OPCODE.get(frame[0] * 256 + frame[1])
    if lengths is None:
        return [index, 0, 2, 0]
    if len(frame) not in lengths:
        return [index, 0, 3, 0]
    kind, held, laid = lengths[len(frame)]
    for at, byte in enumerate(frame):
        if byte & ~held[at]:
            return [index, 0, 4, at]
    values = []
    lacking = []
    for where, first, codes in laid:
        value = sum((frame[byte] >> bit & 1) << i for i, (byte, bit) in enumerate(where))
        values.append(value)
        if codes is not None and value not in codes:
            lacking.append(first)
    if lacking:
        return [index, 0, 5, min(lacking)]
    return [index, kind, 0, 0] + values


def text(reel):
    lines = []
    at = index = 0
    while at < len(reel):
        end = at + 1 + reel[at]
        cut = end > len(reel)
        numbers = [index, 0, 14, 0] if cut else line(index, reel[at + 1:end])
        lines.append(" ".join(map(str, numbers)) + "\n")
        if cut:
            break
        at = end
        index += 1
    return "".join(lines).encode()


if __name__ == "__main__":
    sys.stdout.buffer.write(text(sys.stdin.buffer.read()))
