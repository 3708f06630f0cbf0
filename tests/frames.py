"""Random frames: `good` ones and those `of_row`, which decode, and those of `frame`, of which half are damaged or any bytes. r is a random.Random."""
import dump


def of_row(r, row, chosen={}):
    """A frame of a row of the table; chosen: what some of its arguments are, by their places from 0."""
    frame = bytearray(row.length)
    frame[0], frame[1] = row.opcode >> 8, row.opcode & 255
    for at, (place, codes) in enumerate(row.fields):
        where = dump.bits(place)
        edge = r.random()
        value = chosen[at] if at in chosen else r.choice(list(codes)) if codes is not None else (
            0 if edge < 0.1 else (1 << len(where)) - 1 if edge < 0.2 else r.getrandbits(len(where)) if where else 0)
        for i, (byte, bit) in enumerate(where):
            frame[byte] |= (value >> i & 1) << bit
    return bytes(frame)


def good(r):
    """A frame that decodes."""
    return of_row(r, r.choice(dump.ROWS))


def frame(r):
    """A good frame, a damaged one, or any bytes."""
    way = r.random()
    f = bytearray(good(r))
    if way < 0.5:
        return bytes(f)
    if way < 0.6:
        f[r.randrange(len(f))] ^= 1 << r.randrange(8)
    elif way < 0.7:
        for at in range(2, len(f)):
            f[at] = r.getrandbits(8)
    elif way < 0.75:
        del f[r.randrange(len(f) + 1):]
    elif way < 0.8:
        f += bytes(r.getrandbits(8) for _ in range(r.randrange(1, 4)))
    elif way < 0.85:
        f[1] = r.getrandbits(8)
    elif way < 0.95:
        f = bytearray(r.getrandbits(8) for _ in range(r.randrange(0, 14)))
    else:
        f = bytearray(r.getrandbits(8) for _ in range(r.choice((14, 100, 254, 255, r.randrange(256)))))
    return bytes(f)
