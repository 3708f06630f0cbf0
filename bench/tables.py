"""What bench/generate.py fills in from docs/commands.json: the arms of the decoder in Rust, and the rows and settings of the book in Rust and C."""
import sys

sys.dont_write_bytecode = True
sys.path.insert(0, "docs")
import commands

MANY = 8  # more runs of codes than these are looked up in words of bits


# ---- the decoder's arms

def value(a):
    """The number that a frame f holds of an argument, in Rust, and whether it is a byte."""
    place = commands.narrowed(a)
    where = commands.bits(place)
    if not where:
        return "0", False
    ones, first, last = (1 << len(where)) - 1, min(where)[0], max(where)[0]
    shift = " >> %d" % where[0][1] if where[0][1] else ""
    if first == last:
        return "f[%d]" % first + shift + (" & %d" % ones if ones < 255 else ""), True
    if a.get("low_byte_first"):
        return "be(&[%s])" % ", ".join("f[%d]" % byte for byte in range(last, first - 1, -1)), False
    return "be(&f[%d..%d])" % (first, last + 1) + shift + (" & 0x%X" % ones if len(where) % 8 else ""), False


def as_long(a):
    text, is_byte = value(a)
    return text if not is_byte else ("(%s) as u64" if "&" in text else "%s as u64") % text


def runs(codes):
    """The codes as runs of neighbours, each with its first and last."""
    found = []
    for code in sorted(codes):
        if found and found[-1][1] == code - 1:
            found[-1][1] = code
        else:
            found.append([code, code])
    return found


def pattern(first, last):
    return "%d..=%d" % (first, last) if last > first + 1 else " | ".join(map(str, range(first, last + 1)))


def lookup(a):
    """The name of the function that looks a code up in words."""
    return "is_" + a["name"]


def allowed(data, a):
    """What the decoder takes, as runs."""
    return runs(commands.codes_of(data, a)) if commands.is_code(data, a) else [a["range"]]


def refused_if(data, a):
    """When an argument is refused, in Rust; None where its bits take all that they can hold."""
    text, _ = value(a)
    taken, ones = allowed(data, a), (1 << len(commands.bits(commands.narrowed(a)))) - 1
    if ones == 0 or taken == [[0, ones]]:
        return None
    if len(taken) > MANY:
        return "!%s(%s)" % (lookup(a), text)
    if len(taken) == 1 and taken[0][0] == 0:
        return "%s > %d" % ("(%s)" % text if "&" in text else text, taken[0][1])
    return "!matches!(%s, %s)" % (text, " | ".join(pattern(*run) for run in taken))


def arm(data, kind):
    """The arm of a kind: stray bits, then codes from the lowest byte on, then the arguments."""
    held = [0] * kind["length"]
    for a in kind["arguments"]:
        for byte, bit in commands.bits(commands.narrowed(a)):
            held[byte] |= 1 << bit
    out = ["(0x%s, %d) => {" % (kind["opcode"][2:], kind["length"])]
    if any(mask != 255 for mask in held[2:]):
        out.append("    no_stray!(f, %s);" % ", ".join("0x%02X" % mask for mask in held[2:]))
    for a in sorted(kind["arguments"], key=lambda a: min(commands.bits(commands.narrowed(a)), default=(0, 0))):
        refused = refused_if(data, a)
        if refused:
            out += ["    if %s {" % refused, "        return refused(5, %d);" % min(commands.bits(commands.narrowed(a)))[0], "    }"]
    return out + ["    said(%d, &[%s])" % (kind["kind"], ", ".join(map(as_long, kind["arguments"]))), "}"]


def arms(data):
    for k in data["kinds"]:
        if not k["opcode"].startswith("02"):
            sys.exit("bench: kind %d, %s: the decoder's match is on the second byte of opcodes that begin with 02" % (k["kind"], k["name"]))
    opcodes = dict.fromkeys("0x" + k["opcode"][2:] for k in data["kinds"])
    lines = [line for k in data["kinds"] for line in arm(data, k)] + ["(%s, _) => refused(3, 0)," % " | ".join(opcodes)]
    return "".join("        %s\n" % line for line in lines)


def lookups(data):
    """A function for each enum that is looked up in words."""
    out = {}
    for a in (a for k in data["kinds"] for a in k["arguments"] if commands.is_code(data, a) and len(allowed(data, a)) > MANY):
        number = sum(1 << code for code in commands.codes_of(data, a))
        words = ["0x" + "_".join("%04X" % (number >> 64 * i + 16 * j & 0xFFFF) for j in (3, 2, 1, 0)) for i in range(4)]
        out[lookup(a)] = ("fn %s(code: u8) -> bool {\n    const WORDS: [u64; 4] = [%s];\n    WORDS[code as usize / 64] >> (code %% 64) & 1 == 1\n}\n"
                          % (lookup(a), ", ".join(words)))
    return "\n".join(out.values())


def decoder(data):
    with open("bench/decoder.rs", encoding="utf8") as file:
        return file.read().replace("/* LOOKUPS */\n", lookups(data)).replace("        /* ARMS */\n", arms(data))


# ---- rows and settings

def forms(data):
    """The slots of the settings that have a shorter and a longer form."""
    return [[data["kinds"][kind - 1]["slot"] for kind in pair] for pair in data["forms"]]


def joined(cells):
    return ", ".join("(%s)" % ", ".join(map(str, cell)) if isinstance(cell, (list, tuple)) else str(cell) for cell in cells)


def rust_rows(data):
    kept, pairs = commands.settings(data), forms(data)
    return f"""// Made by bench/generate.py from docs/commands.json.
pub const KINDS: usize = {len(data["kinds"])};
pub const SLOTS: usize = {len(kept)};

// The kind of each slot that a setting has, and the length of its frames.
pub const SETTINGS: [(u8, u8); {len(kept)}] = [{joined((k["kind"], k["length"]) for k in kept)}];

// The slots of the settings that have a short and a long form.
pub const FORMS: [(usize, usize); {len(pairs)}] = [{joined(pairs)}];

// Opcode and length of each kind, in the table's order.
pub static ROWS: [(u8, usize); KINDS] = [{joined(("0x" + k["opcode"][2:], k["length"]) for k in data["kinds"])}];
"""


def c_rows(data):
    kept, pairs = commands.settings(data), forms(data)
    most = sum(k["length"] for k in commands.fullest(data))
    return f"""enum {{ SETTINGS = {len(kept)}, PAIRS = {len(pairs)}, SLOTS = {len(kept)}, MOST_BYTES = {most} }};
static const int settings[SETTINGS] = {{{joined(k["kind"] for k in kept)}}};
static const int longer[PAIRS] = {{{joined(longer for _, longer in pairs)}}};
"""
