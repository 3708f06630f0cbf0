"""commands.py: docs/commands.json as the scripts beside it and tests/reference read it.

`load` ends a script with one line that names the entry where one does not fit: a field past its frame's end, a code twice, a slot left out.
"""
import json
import os
import re
import sys

ROOT = os.path.dirname(os.path.dirname(os.path.abspath(__file__)))
# What a row of the table, one of the decoder's two words and the operations of `vectors` have room for.
LONGEST_FRAME, MOST_ARGUMENTS, WORD, MOST_KINDS = 12, 9, 8, 63
PLACE = re.compile(r"\d+(-\d+|\.[0-7](-[0-7])?)?")


class Unfit(Exception):
    """An entry, and what is wrong with it."""


# ---- places and ranges

def bits(place):
    """The bits of a place, each a byte and a bit of the frame, the lowest of the value first."""
    if place == "none":
        return []
    if "+" in place:
        return [bit for part in reversed(place.split("+")) for bit in bits(part)]
    if "." in place:
        byte, span = place.split(".")
        high, _, low = span.partition("-")
        return [(int(byte), bit) for bit in range(int(low or high), int(high) + 1)]
    first, _, last = place.partition("-")
    return [(byte, bit) for byte in range(int(last or first), int(first) - 1, -1) for bit in range(8)]


def narrowed(argument):
    return argument.get("narrowed", argument["place"])


def is_code(data, argument):
    return argument["takes"] in {e["name"] for e in data["enums"]}


def codes_of(data, argument):
    """The codes that the checked builder takes of an argument that is an enum."""
    return argument.get("checked_codes", [code for code, _ in enum_of(data, argument)["codes"]])


def enum_of(data, argument):
    return next(e for e in data["enums"] if e["name"] == argument["takes"])


def list_of(data, enum):
    """The number of the list that has the codes of an enum; None where they are all from 0 to a limit."""
    codes = sorted(code for code, _ in enum["codes"])
    if codes == list(range(len(codes))):
        return None
    lists = [sorted(code for code, _ in enum_of(data, {"takes": name})["codes"]) for name, _ in data["lists"]]
    return lists.index(codes)


def greatest(data, argument):
    """The greatest value that the checked builder takes."""
    return max(codes_of(data, argument)) if is_code(data, argument) else argument["range"][1]


def settings(data):
    return [k for k in data["kinds"] if k["slot"] is not None]


def files(data):
    """The files of commands in their order: name without cmd_, place of the first row, kinds."""
    names = list(dict.fromkeys(k["file"] for k in data["kinds"]))
    held = [(name, [k for k in data["kinds"] if k["file"] == name]) for name in names]
    return [(name[len("cmd_"):], kinds[0]["kind"] - 1, kinds) for name, kinds in held]


# ---- the two forms of a setting

def other_form(data, kind):
    """The kind that is the same setting in another length; None where there is none."""
    other = {k: pair[1 - i] for pair in data["forms"] for i, k in enumerate(pair)}
    return data["kinds"][other[kind["kind"]] - 1] if kind["kind"] in other else None


def fullest(data):
    """The kinds of settings that fill a book most: of two forms the longer one."""
    shorter = [short for short, _ in data["forms"]]
    return [k for k in settings(data) if k["kind"] not in shorter]


# ---- names

def snake(name):
    """A name of the Rust for C: NotAKind is NOT_A_KIND, Crc1Byte is CRC1_BYTE, and 1B stays 1B."""
    return re.sub(r"(?<=[a-z])(?=[A-Z])|(?<=[A-Z0-9])(?=[A-Z][a-z])", "_", name).upper()


# ---- what an entry has to keep to

NAME, TYPE_NAME = re.compile("[a-z][a-z0-9_]*"), re.compile("[A-Z][A-Za-z0-9]*")
TEXT, NUMBER, LIST, YES = str, int, list, bool
KIND = {"kind": NUMBER, "name": TEXT, "builder": TEXT, "file": TEXT, "opcode": TEXT, "length": NUMBER, "slot": NUMBER, "says": TEXT, "arguments": LIST}
ARGUMENT = {"name": TEXT, "place": TEXT, "takes": TEXT}
ARGUMENT_MAY = {"narrowed": TEXT, "range": LIST, "checked_codes": LIST, "low_byte_first": YES, "unit": TEXT, "says": TEXT}
ENUM, ENUM_MAY = {"name": TEXT, "file": TEXT, "rust": TEXT, "says": TEXT, "codes": LIST}, {"strip": TEXT, "c": TEXT}
SORTS = {TEXT: "a text", NUMBER: "a number", LIST: "a list", YES: "true or false"}
PARTS = ["kinds", "forms", "lists", "enums", "status", "interrupts", "responses", "refusals", "order", "rules", "calls", "sizes"]


def require(holds, who, why):
    if not holds:
        raise Unfit("%s: %s" % (who, why))


def once(items, who, what):
    for i, item in enumerate(items):
        require(item not in items[:i], who, "%s %s stands there twice" % (what, item))


def shaped(entry, who, must, may={}):
    """An entry has all keys that it must have and no other than it may have, each of its sort. The slot of an action is null."""
    require(isinstance(entry, dict), who, "it is not written as the others are: %s" % json.dumps(entry))
    for key in must:
        require(key in entry, who, "it has no %s" % key)
    for key, value in entry.items():
        sort = {**must, **may}.get(key)
        require(sort, who, "%s is no key of it" % key)
        require(type(value) is sort and value != "" or (key, value) == ("slot", None), who, "its %s: %s is not %s" % (key, json.dumps(value), SORTS[sort]))


def paired(items, who, first, second):
    """A list of lists of two, such as a code and its name."""
    for item in items:
        require(isinstance(item, list) and [type(part) for part in item] == [first, second], who, "%s is not %s and %s" % (
            json.dumps(item), SORTS[first], SORTS[second]))


def whole(text, pattern, who, what):
    require(pattern.fullmatch(text), who, "%s is no %s" % (text, what))


def check_enum(data, enum):
    who = "enum %s" % (enum.get("name") if isinstance(enum, dict) else enum)
    shaped(enum, who, ENUM, ENUM_MAY)
    whole(enum["name"], TYPE_NAME, who, "name of an enum")
    require(enum["file"] in [k.get("file") for k in data["kinds"] if isinstance(k, dict)], who, "%s has no kind" % enum["file"])
    paired(enum["codes"], who, NUMBER, TEXT)
    once([code for code, _ in enum["codes"]], who, "the code")
    once([name for _, name in enum["codes"]], who, "the name")
    for _, name in enum["codes"]:
        whole(name, TYPE_NAME, who, "name of a code")
    require(enum["codes"] and all(code in range(256) for code, _ in enum["codes"]), who, "its codes are not 0 to 255")


def check_lists(data):
    """An enum whose codes are not all from 0 to a limit has them with one of the listed enums."""
    paired(data["lists"], "lists", TEXT, TEXT)
    for name, ending in data["lists"]:
        require(name in [e["name"] for e in data["enums"]], "lists", "%s is no enum" % name)
        whole(ending, re.compile("[A-Z]+"), "lists", "ending of a cell's name")
    once([name for name, _ in data["lists"]], "lists", "the enum")
    once([ending for _, ending in data["lists"]], "lists", "the ending")
    listed = [sorted(code for code, _ in e["codes"]) for e in data["enums"] if e["name"] in [name for name, _ in data["lists"]]]
    for e in data["enums"]:
        codes = sorted(code for code, _ in e["codes"])
        require(codes == list(range(len(codes))) or codes in listed, "enum %s" % e["name"],
                "its codes are not all from 0 to a limit, and no enum of `lists` has the same ones")


def check_place(kind, a, who):
    """The place lies behind the opcode and inside the frame, what it is narrowed to is its low bits, and a word of the decoder holds it."""
    whole(a["place"], PLACE, who, "place")
    where, narrow = bits(a["place"]), []
    if narrowed(a) != "none":
        for part in narrowed(a).split("+"):
            whole(part, PLACE, who, "place")
        narrow = bits(narrowed(a))
        require(narrow, who, "its place %s has no bit" % narrowed(a))
    require(where, who, "its place %s has no bit" % a["place"])
    inside = [byte for byte, _ in where]
    require(min(inside) >= 2, who, "its place %s lies on the opcode" % a["place"])
    require(max(inside) < kind["length"], who, "its place %s lies past the frame's end: the frame has %d bytes" % (a["place"], kind["length"]))
    require(len(where) <= 64, who, "its place %s has more than 64 bits" % a["place"])
    require(sorted(narrow) == sorted(where[:len(narrow)]), who, "what it is narrowed to, %s, is not the low bits of its place" % narrowed(a))
    in_a_word = max(inside) < WORD or kind["length"] - min(inside) <= WORD
    require(in_a_word or len(narrow) == 64, who, "its place %s is neither in the first eight bytes nor in the last eight" % a["place"])
    require(not a.get("low_byte_first") or len(where) == 64, who, "only eight bytes may stand with the low byte first")


def check_argument(data, kind, a):
    who = "kind %d, %s" % (kind["kind"], a.get("name") if isinstance(a, dict) else a)
    shaped(a, who, ARGUMENT, ARGUMENT_MAY)
    whole(a["name"], NAME, who, "name of an argument")
    require(a["name"] != "op", who, "the opcode has that name")
    check_place(kind, a, who)
    width, narrow = len(bits(a["place"])), len(bits(narrowed(a)))
    if is_code(data, a):
        codes = [code for code, _ in enum_of(data, a)["codes"]]
        require(max(codes) < 1 << width, who, "its place %s is too narrow for %s" % (a["place"], a["takes"]))
        require(codes_of(data, a) and all(code in codes for code in codes_of(data, a)), who, "its checked codes are not codes of %s" % a["takes"])
        return
    require(a["takes"] in ("number", "yes or no"), who, "it takes %s, which is no enum" % a["takes"])
    require("checked_codes" not in a, who, "only an enum has checked codes")
    require([type(n) for n in a.get("range", [])] == [int, int], who, "it has no range of two numbers")
    least, most = a["range"]
    if a["takes"] == "yes or no":
        require(width == 1 and a["range"] == [0, 1], who, "a yes or no has one bit, and the range 0 to 1")
        return
    require(least == 0 and (most == (1 << narrow) - 1 or most in range(1, min(256, 1 << narrow))), who,
            "its range %s is neither all that its bits can hold nor from 0 to a limit up to 255" % a["range"])


def check_kind(data, kind):
    who = "kind %s, %s" % (kind.get("kind"), kind.get("name")) if isinstance(kind, dict) else "kind %s" % kind
    shaped(kind, who, KIND)
    whole(kind["name"], NAME, who, "name of a command")
    require(kind["builder"] in (kind["name"] + "_cmd", kind["name"] + "_req"), who, "its builder is %s" % kind["builder"])
    whole(kind["file"], re.compile("cmd_[a-z0-9]+"), who, "file of commands")
    whole(kind["opcode"], re.compile("[0-9A-F]{4}"), who, "opcode of four hex digits")
    require(kind["length"] in range(2, LONGEST_FRAME + 1), who, "its frame has %s bytes, and not 2 to %d" % (kind["length"], LONGEST_FRAME))
    require(len(kind["arguments"]) <= MOST_ARGUMENTS, who, "it has %d arguments, and a row has room for %d" % (len(kind["arguments"]), MOST_ARGUMENTS))
    for a in kind["arguments"]:
        check_argument(data, kind, a)
    once([a["name"] for a in kind["arguments"]], who, "the argument")
    once([bit for a in kind["arguments"] for bit in bits(narrowed(a))], who, "of two fields, as they are narrowed, the byte and bit")
    require(sum(len(bits(narrowed(a))) == 64 for a in kind["arguments"]) <= 1, who, "it has two fields of eight bytes")


def check_order(data):
    """Kinds are numbered from 1, a setting has the next slot, and those of a file, and those of an opcode, stand together."""
    seen, slot = [], 0
    for n, k in enumerate(data["kinds"], 1):
        who = "kind %d, %s" % (k["kind"], k["name"])
        require(k["kind"] == n, who, "it stands at place %d: kinds are numbered from 1 in their order" % n)
        require(n <= MOST_KINDS, who, "the requests to `vectors` have room for %d kinds" % MOST_KINDS)
        require(k["slot"] in (None, slot), who, "its slot is %s, and the next one is %d" % (k["slot"], slot))
        slot += k["slot"] is not None
        alike = [s for s in seen if s["opcode"] == k["opcode"]]
        others = ", ".join(str(s["kind"]) for s in alike)
        require(all(s["length"] != k["length"] for s in alike), who, "kind %s has its opcode and its length" % others)
        require(not alike or alike == seen[-1:], who, "its opcode is that of kind %s, and only the kind right before it may have it" % others)
        require(k["file"] not in [s["file"] for s in seen] or seen[-1]["file"] == k["file"], who, "the kinds of %s do not stand together" % k["file"])
        seen.append(k)
    once([k["name"] for k in data["kinds"]], "kinds", "the name")
    for name, _, kinds in files(data):
        require(len(kinds) > 1, "kind %d, %s" % (kinds[0]["kind"], kinds[0]["name"]), "cmd_%s has no other kind, and a reader is for two or more" % name)


def check_forms(data):
    paired(data["forms"], "forms", NUMBER, NUMBER)
    once([k for pair in data["forms"] for k in pair], "forms", "the kind")
    for pair in data["forms"]:
        who = "forms %s" % pair
        require(all(k in range(1, len(data["kinds"]) + 1) for k in pair), who, "they are not two kinds")
        short, long = [data["kinds"][k - 1] for k in pair]
        require(short["opcode"] == long["opcode"], who, "their opcodes differ")
        require(None not in (short["slot"], long["slot"]), who, "one of them is an action")
        require(short["length"] < long["length"], who, "the first is not the shorter one")
        require(long["kind"] == short["kind"] + 1, who, "the longer form is not the next kind")


def check(data):
    """Raises Unfit at the first entry of the commands that does not fit."""
    require(isinstance(data, dict), "the file", "it is no table of parts")
    for part in PARTS:
        require(isinstance(data.get(part), list), "the file", "it has no list of %s" % part)
    for enum in data["enums"]:
        check_enum(data, enum)
    once([e["name"] for e in data["enums"]], "enums", "the enum")
    check_lists(data)
    for kind in data["kinds"]:
        check_kind(data, kind)
    check_order(data)
    check_forms(data)


def load():
    path = os.path.join(ROOT, "docs/commands.json")
    try:
        with open(path, encoding="utf8") as file:
            data = json.load(file)
        check(data)
    except (json.JSONDecodeError, Unfit) as wrong:
        sys.exit("docs/commands.json: %s" % wrong)
    return data
