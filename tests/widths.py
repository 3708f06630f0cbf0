#!/usr/bin/env python3
"""The answer of the program `widths` to a list of banks, a second time: by fractions, with a table of its own, and nothing shared with the library
(REFERENCE, "Widths for banks").

    widths.py < LIST        prints what `widths` prints
"""
import functools
import re
import sys
from fractions import Fraction

# Each width's name in kHz, a p for its point, and its code: RxBw without BwAuto.
NAMED = (
    "3076:0 2857:64 2666:128 2222:192 1333:136 1111:200 888:144 769:24 740:208 714:88 666:152 615:32 571:96 555:216 533:160 512:17 476:81 "
    "444:224 384:25 370:209 357:89 333:153 307:33 285:97 277:217 266:161 256:18 238:82 222:225 192:26 185:210 178:90 166:154 153:34 142:98 "
    "138:218 133:162 128:19 119:83 111:226 96:27 92:211 89:91 83:155 76:35 71:99 69:219 66:163 64:20 59:84 55:227 48:28 46:212 44:92 41:156 "
    "38:36 35:100 34:220 33:164 32:21 29:85 27:228 24:29 23:213 22:93 20:157 19:37 17:101 16:165 14:86 13:229 12:30 11:94 10:158 9p6:38 "
    "8p9:102 8p7:222 8p3:166 8:23 7p4:87 6p9:230 6:31 5p8:215 5p6:95 5p2:159 4p8:39 4p5:103 4p3:223 4p2:167 3p5:231 "
)
NAMES = {int(code): name for name, code in (word.split(":") for word in NAMED.split())}
MOST_BANKS, MOST_BYTES = 32, 65536

# What can be wrong with a line, in the order in which it is looked for.
UNREADABLE = "not a need, nor a need and a code"
NEED_PAST = "a need past 18446744073709551615"
CODE_PAST = "a code above 255"
LACKING = "no code, though an earlier bank has one"
SURPLUS = "a code, though an earlier bank has none"


def hz(code):
    """What a code would have as its width, listed or not."""
    return Fraction(40_000_000, (13, 14, 15, 18)[code >> 6] * ((code >> 3 & 7) + 1) << (code & 7))


WIDTHS = {code: hz(code) for code in NAMES}


@functools.lru_cache(None)
def narrowest(need):
    """The code of the narrowest listed width that is at least the need; None where there is none."""
    return min((code for code in WIDTHS if WIDTHS[code] >= need), key=WIDTHS.get, default=None)


# ---- the text of a list

def number(digits):
    """A number of however many digits: one of more than 20 is past every limit, whatever its end is."""
    return int(digits.lstrip(b"0")[:21] or b"0")


def faults(line, is_coded):
    """What is wrong with a bank's line, all of it; is_coded: whether the banks before it have codes, None where there are none."""
    found = re.fullmatch(rb"([0-9]+)(?:[ ,\t]([0-9]+))?", line)
    if not found:
        return [UNREADABLE]
    need, code = found.groups()
    wrong = {NEED_PAST: number(need) >= 2**64, CODE_PAST: code is not None and number(code) > 255,
             LACKING: code is None and is_coded is True, SURPLUS: code is not None and is_coded is False}
    return [what for what in wrong if wrong[what]]


def body(line):
    return line[:-1] if line.endswith(b"\r") else line


def is_skipped(line):
    return line.startswith(b"#") or not line.strip(b" \t")


def lines(text):
    """The lines of a text without what ends them; what follows the last newline is a line if there is any."""
    whole = text.split(b"\n")
    return [body(line) for line in (whole if whole[-1] else whole[:-1])]


class Wrong(Exception):
    """The first wrong line, counted from 1, and what is wrong with it."""


def banks(text):
    """The needs; and the codes, None where the banks have none."""
    needs, codes, is_coded = [], [], None
    for at, line in enumerate(lines(text), 1):
        if is_skipped(line):
            continue
        wrong = faults(line, is_coded)
        if wrong:
            raise Wrong(at, wrong)
        numbers = [number(digits) for digits in re.split(rb"[ ,\t]", line)]
        is_coded = len(numbers) == 2
        needs.append(numbers[0])
        codes += numbers[1:]
    return needs, codes if is_coded else None


# ---- the answer

def bank_line(bank, need):
    """A bank with its right code; the width is cut after six decimals."""
    code = narrowest(need)
    name = NAMES[code].replace("p", ".")
    return "%d %d %d %s %d.%06d\n" % ((bank, need, code, name if "." in name else name + ".0") + divmod(WIDTHS[code] * 10**6 // 1, 10**6))


def judged(needs, codes):
    """Refusal and bank, of needs alone where there are no codes; zeros where all is right."""
    if not 1 <= len(needs) <= MOST_BANKS:
        return 21, 0
    for bank, need in enumerate(needs, 1):
        code = narrowest(need)
        if code is None:
            return 19, bank
        if codes is not None and codes[bank - 1] != code:
            return 20, bank
    return 0, 0


def text(needs, codes):
    refusal, bank = judged(needs, codes)
    if not refusal:
        return "ok\n" if codes is not None else "".join(bank_line(at, need) for at, need in enumerate(needs, 1))
    said = "refused %d%s\n" % (refusal, " at bank %d" % bank if bank else "")
    return said + (bank_line(bank, needs[bank - 1]) if refusal == 20 else "")


def answer(given, name="standard input"):
    """What is written to standard output and to standard error for a list of this name."""
    if len(given) > MOST_BYTES:
        return b"", ("widths: %s: more than %d bytes\n" % (name, MOST_BYTES)).encode()
    try:
        return text(*banks(given)).encode(), b""
    except Wrong as wrong:
        line, what = wrong.args
        return b"", ("widths: %s: line %d: %s\n" % (name, line, what[0])).encode()


if __name__ == "__main__":
    for stream, said in zip((sys.stdout, sys.stderr), answer(sys.stdin.buffer.read())):
        stream.buffer.write(said)
