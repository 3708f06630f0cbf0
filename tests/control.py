#!/usr/bin/env python3
"""What the program `control` writes for a book and statuses, a second time: the frames are cut out of the book by their places, the words out of the
text by a regular expression, and one loop goes through both (REFERENCE, "Controller"). Behind that are makers of random books and statuses.

    control.py BOOK < STATUSES      prints what `control BOOK` prints
"""
import re
import sys

import books
import locker

MOST_BYTES = 65536  # of statuses
SAID = 80  # bytes of a wrong word
CODES = ("Fail", "PErr", "Ok", "Data") + ("Unknown",) * 4
GOOD = ("Ok", "Data")
REFUSALS = ("refused 11", "refused 10", "refused 16")  # the book's own: what else tests/locker.py tells is the profile's
MOST_FRAMES = len(locker.SETTINGS) - len(locker.FORMS)
TOO_FEW = "the first %d bytes do not end the run" % MOST_BYTES


# ---- what a book and a text say

def frames(book):
    """The frames of a book that can be read, in the order of its replay."""
    return [book[place:place + locker.LENGTHS[kind]] for place, kind in locker.placed(book)]


def words(text):
    """Each word with its place. A line that begins with # has none, so it counts as blanks."""
    blanked = re.sub(rb"^#[^\n]*", lambda comment: b" " * len(comment[0]), text, flags=re.M)
    return ((found[0], found.start()) for found in re.finditer(rb"[^\t-\r ]+", blanked))


def is_status(word):
    return re.fullmatch(rb"[0-9A-Fa-f]{4}", word) is not None


def told(word):
    """What a status says of the command that it judges: bits 11 to 9."""
    return CODES[int(word, 16) >> 9 & 7]


# ---- a run

def played(sent, text):
    """The lines of the steps; the last line, None where a word is wrong; and that word with its place. sent: the book's frames."""
    given, lines = words(text), []
    for step in range(1, len(sent) + 2 if sent else 1):
        word, place = next(given, (None, None))
        if word is None:
            return lines, "waiting %d" % (step - 1), None
        if not is_status(word):
            return lines, None, (word, place)
        does = "sent " + sent[step - 1].hex(" ") if step <= len(sent) else "read"
        judged = "judged %d %s " % (step - 1, told(word)) if step > 1 else ""
        lines.append("%d %s%s" % (step, judged, does))
        if judged and told(word) not in GOOD:
            return lines, "stopped %d %s" % (step - 1, told(word)), None
    return lines, "done", None


def read_of(given):
    """What is read of statuses: of more than the most bytes, and one, only whole words, since nobody knows how the last one goes on."""
    return given if len(given) <= MOST_BYTES else re.match(rb"(?s)(.*[\t-\r ])?", given[:MOST_BYTES + 1])[0]


def answer(book, given, name="standard input"):
    """What is written to standard output and to standard error for a book and statuses of this name."""
    refused, text = locker.answer(book), read_of(given)
    lines, last, wrong = ([], refused, None) if refused in REFUSALS else played(frames(book), text)
    said = b""
    if wrong:
        said = b"line %d: not four hex digits: %s" % (1 + text.count(b"\n", 0, wrong[1]), wrong[0][:SAID])
    if len(given) > MOST_BYTES and lacks(last):
        last, said = None, TOO_FEW.encode()
    written = "".join(line + "\n" for line in lines + ([last] if last else [])).encode()
    return written, b"control: %s: %s\n" % (name.encode(), said) if said else b""


def lacks(last):
    return last is not None and last.startswith("waiting")


# ---- random books

def held(r, pool, count):
    """So many frames by kind, in any order, of each setting one form."""
    other = {r.choice(pair) for pair in locker.FORMS}
    return {kind: r.choice(pool[kind]) for kind in r.sample([kind for kind in locker.SETTINGS if kind not in other], count)}


def book(r, pool):
    """A book of any number of frames, or one that is damaged, too long, too short or has a setting in both its forms."""
    if r.random() < 0.02:
        return books.zeros(r)[0]
    kept = held(r, pool, r.choice((0, 1, 2, 2, 3, MOST_FRAMES, r.randrange(MOST_FRAMES + 1), r.randrange(MOST_FRAMES + 1))))
    if r.random() < 0.06:
        kept.update((kind, r.choice(pool[kind])) for kind in r.choice(locker.FORMS))
    return books.some_damaged(r, kept, 0.12)[0]


# ---- random statuses

BLANKS = [b"\t", b"\n", b"\x0b", b"\x0c", b"\r", b" "]
# Words that are none. Some would be to a reader of numbers that is less strict; one with # in front is a comment where it stands first in its line.
NO_STATUSES = [b"0", b"04", b"404", b"04040", b"040404", b"04040404", b"0x04", b"0X04", b"x404", b"0x0404", b"\\x04", b"04g4", b"g404", b"040G", b"040h",
               b"/404", b"040/", b":404", b"040:", b"@404", b"040@", b"`404", b"040`", b"+404", b"-404", b"04.4", b"4e+1", b"4_04", b"0404,", b"04,04",
               b"04:04", b"'0404'", b"#", b"#0404", b"04#4", b"040#", b"0404#", b"0404#0404", b";", b"Ok", b"\0", b"0404\0", b"04\0004", b"\0000404",
               b"\x080404", b"\x0e0404", b"0404\x1c", b"\x1f404", b"040\x7f", b"\x80", b"\x850404", b"0404\xa0", b"\xc2\xa00404", b"04\xff4", b"\xb0404",
               "\u0660\u0664\u0660\u0664".encode(), "\uff10\uff14\uff10\uff14".encode(), "\u2028".encode(), b"\xef\xbb\xbf0404"]
COMMENTS = [b"#", b"# 0404", b"#0404 0404", b"##", b"# 04x4", b"#\xff\0", b"#\r", b"#\t# \x0b"]


def status(r, code):
    """A status of this code as a word, in either case or both."""
    value = (r.getrandbits(16) & 0xF1FF if r.random() < 0.7 else 4) | code << 9
    return r.choice((b"%04x" % value, b"%04X" % value, bytes(r.choice((byte, byte ^ 32)) if byte > 64 else byte for byte in b"%04X" % value)))


def wrong_word(r):
    if r.random() < 0.7:
        return r.choice(NO_STATUSES)
    size = r.choice((1, 3, 5, SAID - 1, SAID, SAID + 1, r.randrange(1, 300)))
    pick = r.choice((b"0123456789abcdefABCDEF", bytes(set(range(256)) - set(b"".join(BLANKS)))))
    return bytes(r.choice(pick) for _ in range(size))


def listed(r, count):
    """The words for a book of so many frames: too few, as many as it takes or more; of which one may stop it, and some be wrong."""
    size = r.choice((0, 1, count, count, count + 1, count + 1, count + 1, count + 2, count + 5, r.randrange(count + 3)))
    codes = [r.choice((2, 2, 2, 3)) for _ in range(size)]
    if codes:
        codes[0] = r.randrange(8)  # it judges nothing
    if size > 1 and r.random() < 0.4:
        codes[r.choice((1, min(count, size - 1), r.randrange(1, size)))] = r.choice((0, 0, 1, 1, 4, 5, 6, 7))
    found = [status(r, code) for code in codes]
    for _ in range(r.choice((0, 0, 0, 1, 1, 2))):
        found.insert(r.choice((len(found), r.randrange(len(found) + 1))), wrong_word(r))
    return found


def gap(r, blanks):
    """What stands between two words."""
    between = b"".join(r.choice(blanks) for _ in range(r.choice((1, 1, 1, 2, 5))))
    return between + b"\n" + r.choice(COMMENTS) + b"\n" if r.random() < 0.05 else between


def written(r, found):
    """The words with blanks and comments around them."""
    blanks = r.choice(([b"\n"], [b" "], [b"\r\n"], [b" ", b" ", b"\n"], [b"\t", b"\r\n"], BLANKS))
    text = r.choice((b"", b"", b"", r.choice(COMMENTS) + b"\n", gap(r, blanks)))
    text += b"".join(word + gap(r, blanks) for word in found)
    return text.rstrip(b"".join(BLANKS)) if r.random() < 0.3 else text


def moved(r, text):
    """The text behind a comment that is so long that one of its bytes, or the end, is the last that is read."""
    return b"#" * (MOST_BYTES - 1 - r.randrange(len(text) + 2)) + b"\n" + text


def lengthened(r, text):
    """The text with more behind it than is read."""
    return text + r.choice((b"\n#" + b"0" * MOST_BYTES, b"\n" + b"0404 " * (MOST_BYTES // 5 + 1), b" " * MOST_BYTES + b"\n0404"))


def statuses(r, given):
    """Statuses for a book."""
    text = written(r, listed(r, 0 if locker.answer(given) in REFUSALS else len(frames(given))))
    way = r.random()
    return moved(r, text) if way < 0.05 else lengthened(r, text) if way < 0.15 else text


if __name__ == "__main__":
    with open(sys.argv[1], "rb") as file:
        for stream, said in zip((sys.stdout, sys.stderr), answer(file.read(), sys.stdin.buffer.read())):
            stream.buffer.write(said)
