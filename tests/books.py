"""Random books in bytes, good ones and damaged ones, for compare-profile and compare-control. r is a random.Random."""
import dump
import locker
from frames import of_row
from locker import SETTINGS, SLOTS, START, VERSION

ROWS = {row.kind: row for row in dump.ROWS}
LONGEST = 4200  # some bytes more than a book may have


def image(frames, spare=0):
    """A book of these frames by kind, in their order, with so many bytes of room behind them."""
    places, at = {}, START
    for kind, frame in frames.items():
        places[kind] = at
        at += len(frame)
    words = [at] + [places.get(kind, 0) for kind in SETTINGS] + [0] * (SLOTS - len(SETTINGS))
    return bytearray(bytes([VERSION, len(frames)]) + b"".join(word.to_bytes(2, "big") for word in words) + b"".join(frames.values()) + bytes(spare))


def pool(r):
    """Frames of each setting, from which books take theirs."""
    return {kind: [of_row(r, ROWS[kind]) for _ in range(200)] for kind in SETTINGS}


def spare(r, least):
    """The room behind the frames: none, little, all that a book may have, or any."""
    most = locker.MOST - least
    return r.choice((0, 0, r.randrange(20), r.randrange(200), most, r.randrange(most + 1)))


def last(book):
    """Where the book says that its frames end."""
    return book[2] << 8 | book[3]


def flip_bit(r, book):
    at = r.choice((r.randrange(len(book)), r.randrange(START), r.randrange(4), r.randrange(START, len(book)) if len(book) > START else 0))
    book[at] ^= 1 << r.randrange(8)


def set_byte(r, book):
    book[r.randrange(min(len(book), last(book) + 3))] = r.choice((0, 1, 255, r.getrandbits(8)))


def cut(r, book):
    del book[r.choice((len(book) - 1, last(book) - 1, last(book), START - 1, START, 0, r.randrange(len(book)))):]


def lengthen(r, book):
    book += bytes(r.choice((1, 100, 4096 - len(book), 4097 - len(book), LONGEST - len(book))))


def litter(r, book):
    book.append(r.randrange(1, 256))


def count_off(r, book):
    book[1] = (book[1] + r.choice((1, -1))) % 256


def end_off(r, book):
    book[2:4] = ((last(book) + r.choice((1, -1, 3, -3))) % 65536).to_bytes(2, "big")


def version_off(r, book):
    book[0] = r.choice((0, VERSION + 1, VERSION + 2, 255))


def offsets_swapped(r, book):
    a, b = (4 + 2 * slot for slot in r.sample(range(SLOTS), 2))
    book[a:a + 2], book[b:b + 2] = book[b:b + 2], book[a:a + 2]


def offset_off(r, book):
    at = 4 + 2 * r.randrange(SLOTS)
    book[at:at + 2] = r.choice((0, 1, START - 1, START, last(book), len(book) % 65536, 65535)).to_bytes(2, "big")


def any_bytes(r, book):
    book[:] = bytes([r.choice((VERSION, r.getrandbits(8)))]) + r.randbytes(r.choice((0, START - 2, START - 1, START, 4095, 4096, r.randrange(LONGEST))))


DAMAGES = (flip_bit, set_byte, cut, lengthen, litter, count_off, end_off, version_off, offsets_swapped, offset_off, any_bytes)


def some_damaged(r, kept, share=0.3):
    """A book of these frames by kind, and by what it is damaged; such a share is."""
    book = image(kept, spare(r, START + sum(map(len, kept.values()))))
    damage = r.choice(DAMAGES) if r.random() < share else None
    if damage:
        damage(r, book)
    return bytes(book[:LONGEST]), damage.__name__ if damage else "none"


def zeros(r):
    """No book at all, of any length."""
    return bytes(r.choice((0, START - 1, START, START + 1, 4096, 4097, LONGEST, r.randrange(LONGEST + 1)))), "zeros"
