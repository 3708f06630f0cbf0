"""make_rows.py: what sources and proofs say row by row, from docs/commands.json. docs/make_reference.py writes it.

What a reader believes (specs/Table.antt, specs/Codes.antt of table) is hand-written, and the check refuses a made line that is not as it says.
A part that stands in a file of its own has a first line that says so; any other stands between `from commands.json: NAME` and `end: NAME`.
"""
import re

from commands import MOST_ARGUMENTS, MOST_KINDS, WORD, bits, codes_of, enum_of, files, fullest, is_code, list_of, narrowed, settings, snake

MADE_BY = "Made from docs/commands.json by docs/make_reference.py"
LINE, SOURCE_LINE, CALL = 160, 100, 60  # columns of a proof, and of a source and its calls as rt fmt has them
SHORT = 10  # of an array whose items are no longer, rt fmt fills the lines
FIRST_FIELD = 4  # opcode, length, slot and number of fields stand before the fields of a row


# ---- forms of text

def hexed(number, digits=1):
    """In groups of four."""
    return "0x" + re.sub(r"(?<=.)(?=(?:.{4})+$)", "_", "%0*X" % (digits, number))


def constants(lines):
    """Each with an empty line behind it but the last, as rt fmt has them."""
    return "\n\n".join(lines).split("\n")


def arms(pairs):
    return ["        %s => %s," % pair for pair in pairs]


def at_places(data, said):
    """The arms of a match on the place of a row, the last for all places from there on."""
    last = len(data["kinds"]) - 1
    return arms([("%d%s" % (i, ".." if i == last else ""), said(k)) for i, k in enumerate(data["kinds"])])


def call(head, items, tail, indent):
    """A call or an array as rt fmt lays it out: in one line where what is handed over takes at most 60 columns."""
    inner = ", ".join(items)
    if len(inner) <= CALL and len(indent + head + inner + tail) <= SOURCE_LINE:
        return [indent + head + inner + tail]
    return [indent + head] + ["%s    %s," % (indent, item) for item in items] + [indent + tail]


def array(head, items, tail, indent=""):
    """An array as rt fmt lays it out: as a call, but that short items fill their lines."""
    lines = call(head, items, tail, indent)
    if len(lines) == 1 or max(map(len, items)) > SHORT:
        return lines
    return [indent + head] + filled([item + "," for item in items], indent + "    ", SOURCE_LINE) + [indent + tail]


def imports(uses):
    """`use` lines as rt fmt has them: this crate's first, and one for each module; in several lines where it is longer than 100 columns."""
    modules, out = {}, []
    for use in uses:
        module, name = use.rsplit("::", 1)
        modules.setdefault(module, []).append(name)
    for module in sorted(modules, key=lambda module: (module.split("::")[0] != "crate", module)):
        names = sorted(modules[module])
        one_line = "use %s::%s;" % (module, names[0] if len(names) == 1 else "{%s}" % ", ".join(names))
        if len(one_line) <= SOURCE_LINE:
            out.append(one_line)
        else:
            out += ["use %s::{" % module] + filled([name + "," for name in names], limit=SOURCE_LINE) + ["};"]
    return out


def filled(words, indent="    ", limit=LINE):
    """Lines of at most so many columns, broken between words."""
    lines = [indent]
    for word in words:
        if lines[-1] != indent and len(lines[-1]) + 1 + len(word) > limit:
            lines.append(indent)
        lines[-1] += word if lines[-1] == indent else " " + word
    return lines


def answers(unfolded, numbers):
    """What a proof says of the arms of a match on single numbers; an empty line stands before what follows."""
    out = []
    for n in numbers:
        out += ["", "pub returns-in-%d : goal.returns-in-%d" % (n, n), "unfolding " + unfolded, "returns-in-%d c = is c.in-%d.is" % (n, n)]
    return out[1:] + [""]


def listed(items):
    return " ∷ ".join(items + ["[]"])


# ---- table

def cell(data, a):
    """The name of a field and its number (specs/Number.antt)."""
    where, narrow = bits(a["place"]), bits(narrowed(a))
    coded = a["takes"] != "number"
    taken, end = 0, ""
    if is_code(data, a):
        codes = sorted(code for code, _ in enum_of(data, a)["codes"])
        listed_as = list_of(data, enum_of(data, a))
        if listed_as is not None:
            taken, end = 256 + listed_as, "_" + data["lists"][listed_as][1]
        elif len(codes) != 1 << len(where):
            taken = codes[-1]
    elif not coded and a["range"][1] != (1 << len(narrow)) - 1:
        taken = a["range"][1]
    end = (end or ("_TO%d" % taken if taken else "")) + ("_CUT%d" % len(narrow) if narrow != where else "")
    low_first = bool(a.get("low_byte_first"))
    letter = "L" if low_first else "C" if coded else "B" if "." in a["place"] else "W"
    first = min(byte for byte, _ in where) * 16 + 8 * low_first + where[0][1]
    number = ((first * 256 + len(narrow)) * 16 + len(where) - len(narrow)) * 4096 + 2048 * coded + taken
    return letter + re.sub(r"[.-]", "_", a["place"]) + end, number


def field(kind, a):
    return "K%d_%s" % (kind["kind"], a["name"].upper())


def row_constant(data, k):
    cells = [cell(data, a)[0] for a in k["arguments"]]
    head = ["0x" + k["opcode"], str(k["length"]), "ACTION" if k["slot"] is None else str(k["slot"]), str(len(cells))]
    size = FIRST_FIELD + MOST_ARGUMENTS
    return array("pub const ROW_%d: [u32; %d] = [" % (k["kind"], size), head + cells + ["0"] * (MOST_ARGUMENTS - len(cells)), "];")


def twin(data, k):
    """The kind behind it, where that has its opcode; None where it has not."""
    behind = data["kinds"][k["kind"]:k["kind"] + 1]
    return behind[0] if behind and behind[0]["opcode"] == k["opcode"] else None


def head_constant(data, k):
    n, other = k["kind"], twin(data, k)
    said = "pub const HEAD_%d: u32 =" % n
    sum_of = [hexed((n - 1) << 20, 8), "ROW_%d[2] * 0x1000" % n, "ROW_%d[3] * 0x100" % n, "ROW_%d[1] * 0x10" % n]
    value = " + ".join(sum_of + (["ROW_%d[1]" % other["kind"]] if other else [])) + ";"
    return [said + " " + value] if len(said) + 1 + len(value) <= SOURCE_LINE else (said + " " + value).replace(" +", "\n    +").split("\n")


def table_counts(data):
    return constants(["pub const KINDS: u64 = %d;" % len(data["kinds"]), "pub const SETTINGS: usize = %d;" % len(settings(data)),
                      "pub const PAIRS: usize = %d;" % len(data["forms"])])


def table_rows(data):
    endings = ", ".join("_" + ending for _, ending in data["lists"])
    cells = sorted({cell(data, a) for k in data["kinds"] for a in k["arguments"]}, key=lambda c: c[1])
    out = ["// %s: the cells, the rows, the pairs of forms and the heads." % MADE_BY,
           "// The check refuses a number that is not as specs/Table.antt has it.",
           "use crate::{ACTION, KINDS, PAIRS};", "",
           "// The fields' numbers, named by their places: B2_7_4 is byte 2, bits 7 to 4; W2_3 is bytes 2 and 3; L3_10 is bytes 3 to 10, low byte first.",
           "// C stands for B or W where the argument is a code: an enum's, or a yes or no. %s: one of that list of codes;" % endings,
           "// _TO9: nothing above 9; _CUT3: narrowed to 3 bits.",
           "// In hex: the first byte; 8 for the low byte first, plus the low bit; two digits for the narrowed width; the bits that the plain",
           "// builder has more; 8 for a code, plus three digits for what is taken."]
    out += constants(["const %s: u32 = %s;" % (name, hexed(number, 8)) for name, number in cells])
    out += ["", "// ROW_k is kind k: opcode, length, slot, number of fields, and the fields in the Rust's argument order."]
    out += constants(["\n".join(row_constant(data, k)) for k in data["kinds"]])
    out += [""] + array("pub const TABLE: [[u32; %d]; KINDS as usize] = [" % (FIRST_FIELD + MOST_ARGUMENTS),
                        ["ROW_%d" % k["kind"] for k in data["kinds"]], "];") + [""]
    out += ["// The kinds that are one setting in two lengths, the shorter form first."]
    out += array("pub const FORMS: [[u64; 2]; PAIRS] = [", ["[%d, %d]" % tuple(pair) for pair in data["forms"]], "];")
    out += ["", "// HEAD_k is what the code wants of row k beside its fields (specs/Heads.antt). In hex: two digits for the row's place, two for the",
            "// slot, the number of fields, the length, and the length of the next row where that has the same opcode."]
    return out + constants(["\n".join(head_constant(data, k)) for k in data["kinds"]])


def table_fields(data):
    out = []
    for k in data["kinds"]:
        out.append("pub const K%d_OP: u64 = crate::kinds::ROW_%d[0] as u64;" % (k["kind"], k["kind"]))
        out += ["pub const %s: u32 = crate::kinds::ROW_%d[%d];" % (field(k, a), k["kind"], i) for i, a in enumerate(k["arguments"], FIRST_FIELD)]
    return ["// %s: the opcode and the cells of each row as constants, by the" % MADE_BY,
            "// names of their arguments. A constant costs nothing when it is used; a row that is named is built first."] + constants(out)


def row_at(data):
    return at_places(data, lambda k: "kinds::ROW_%d" % k["kind"])


def head_at(data):
    return at_places(data, lambda k: "kinds::HEAD_%d" % k["kind"])


def place_answers(unfolded):
    """The last row has no number of its own: its arm is for all places from there on."""
    return lambda data: answers(unfolded, range(len(data["kinds"]) - 1))


# ---- codes

def words(enum):
    """Four words of 64 bits: bit v % 64 of word v / 64 is set where the enum has the code v."""
    return [sum(1 << code % 64 for code, _ in enum["codes"] if code // 64 == w) for w in range(4)]


def lists(data):
    return [enum_of(data, {"takes": name}) for name, _ in data["lists"]]


def codes_lists(data):
    """A list that needs more than a word has its words as constants, so that it stands in one line."""
    wide, out = [e for e in lists(data) if any(words(e)[1:])], []
    for e in wide:
        out += ["// The codes of `%s`, 64 to a word: bit v %% 64 of word v / 64 is set where the enum has the code v." % e["name"]]
        out += constants(["const %s_%d: u64 = %s;" % (snake(e["name"]), 64 * w, hexed(word, 16)) for w, word in enumerate(words(e))]) + [""]
    out += ["// The lists of codes by number, 64 to a word: %s." % ", ".join("`%s`" % e["name"] for e in lists(data))]
    out += ["const COUNT: usize = %d;" % len(data["lists"]), "", "const LISTS: [[u64; 4]; COUNT] = ["]
    for e in lists(data):
        said = ["%s_%d" % (snake(e["name"]), 64 * w) for w in range(4)] if e in wide else [hexed(words(e)[0]), "0", "0", "0"]
        out += array("[", said, "],", "    ")
    return out + ["];"]


def codes_words(data):
    rows = [["0x%X" % word if word else "0" for word in words(e)] for e in lists(data)]
    return ["    %s(%s)" % ("∷ " if i else "", listed(row)) for i, row in enumerate(rows)]


# ---- decoder

def seats(data):
    """The kinds that are the first of their opcode."""
    return [k for k in data["kinds"] if k["kind"] == 1 or k["opcode"] != data["kinds"][k["kind"] - 2]["opcode"]]


def seat_of(data):
    return arms([("0x" + k["opcode"], "kinds::HEAD_%d" % k["kind"]) for k in seats(data)])


def seat_answers(data):
    return answers("seat_from", [int(k["opcode"], 16) for k in seats(data)])


def masks(k):
    """The bits that the fields hold, opcode and all: the first eight bytes where there are more, and the last eight."""
    mask = [255, 255] + [0] * (k["length"] - 2)
    for a in k["arguments"]:
        for byte, bit in bits(narrowed(a)):
            mask[byte] |= 1 << bit
    both = [int.from_bytes(bytes(mask[:WORD] if len(mask) > WORD else []), "big"), int.from_bytes(bytes(mask[-WORD:]), "big")]
    return "[%s]" % ", ".join(hexed(n, -(-len("%X" % n) // 4) * 4) if n else "0" for n in both)


def held_at(data):
    return at_places(data, masks)


def whole(k):
    """The place of the one argument of eight bytes; None where there is none."""
    return next((i for i, a in enumerate(k["arguments"]) if len(bits(narrowed(a))) == 64), None)


def reader_arm(k, last):
    n, w = k["length"], whole(k)
    cells = ["fields::" + field(k, a) for a in k["arguments"]]
    given = [str(k["kind"] - 1), "frame", "first_of(frame, %d)" % n if n > WORD else "0", "last_of(frame, %d)" % n,
             "0" if w is None else "frame::get(frame, table::narrow_field(%s))" % cells[w], str(n)]
    head = "%s => read_fields(" % ("_" if last else k["kind"] - 1)
    return call(head, given + cells + ["NONE"] * (MOST_ARGUMENTS - len(cells)) + ["args"], "),", "        ")


# What a reader of rows gives: whether the frame is good, and its arguments.
READS = "    ensures { (result ≡ good_frame (row_at i) frame.now) × (args.new ≡ nine_in (row_at i) frame.now) }"


def reader(name, at, kinds):
    out = ["// The same for a row of cmd_%s." % name,
           "fn read_%s(i: usize, frame: &[u8], args: &mut [u64; %d]) -> bool" % (name, MOST_ARGUMENTS),
           "    requires { (%d ≤ i) × (i < %d) × (len_of (row_at i) ≡ length frame.now) }" % (at, at + len(kinds)),
           READS, "{", "    match i {"]
    return out + [line for k in kinds for line in reader_arm(k, k is kinds[-1])] + ["    }", "}"]


def decoder_rows(data):
    out = ["// %s: the fields of each row, an arm for each." % MADE_BY,
           "// Length and fields are constants there, so that what reads a field is a shift and a cut by numbers that the compiler knows. A place, a",
           "// length or a field that is not the row's is refused by the proof. A short frame has no first word, and most rows have no field of",
           "// eight bytes: both are then 0.",
           "ghost use Rattle.std.specs.Prelude.{◌≡◌, ◌<◌, ◌≤◌, length};",
           "ghost use Rattle.table.specs.Table.{kinds, row_at, len_of};", "ghost use Rattle.decoder.specs.Words.{good_frame, nine_in};", "",
           "use crate::{first_of, last_of, read_fields};", "use table::fields;", "",
           "// No field.", "const NONE: u32 = 0;", "",
           "// The arguments of a frame with the length of the row at a place; whether it has no stray bit, and each of them is taken.",
           "pub(crate) fn read_row(i: usize, frame: &[u8], args: &mut [u64; %d]) -> bool" % MOST_ARGUMENTS,
           "    requires { (i < kinds) × (len_of (row_at i) ≡ length frame.now) }",
           READS, "{"]
    for (name, _, _), behind in zip(files(data), files(data)[1:] + [None]):
        told = "read_%s(i, frame, args)" % name
        out += ["    if i < %d {" % behind[1], "        return %s;" % told, "    }"] if behind else ["    " + told, "}"]
    return out + [line for file in files(data) for line in [""] + reader(*file)]


class Arm:
    """What the proof of a reader says of one of its rows: what the calls of its arm ask (`asks`) and what the last of them gives (`gives`)."""

    def __init__(self, kinds, index):
        self.kinds, self.index, self.kind = kinds, index, kinds[index]
        self.is_last, self.is_long, self.whole = index == len(kinds) - 1, self.kind["length"] > WORD, whole(self.kind)
        self.place = "in_default" if self.is_last else "in-%d" % (self.kind["kind"] - 1)

    def said(self, name, what=""):
        """The name of a call, or of what it asks, which ends with the arm's place but in the first arm that has such a call."""
        calls = {"first_of": lambda k: k["length"] > WORD, "get": lambda k: whole(k) is not None, "narrow_field": lambda k: whole(k) is not None}
        is_first = not any(map(calls.get(name, lambda k: True), self.kinds[:self.index]))
        return name + what + ("" if is_first else "-" + self.place)

    def gave(self, name):
        return "c.%s.ensures" % self.said(name)

    def row(self):
        was = "(end c.requires.0 c.requires.1 c.in_default.in_default-own.rest)" if self.is_last else "c.%s.is" % self.place
        return "(row %d %d c.requires %s refl)" % (self.kind["kind"] - 1, self.kind["length"], was)

    def words(self):
        return "_ refl _ _ %s %s" % (self.gave("first_of") if self.is_long else "refl", self.gave("last_of"))

    def answer(self, name, text):
        lines = ["pub %s : goal.%s" % (name, name), "unfolding row_at first_word only_wide narrow_of sound"]
        one_line = "%s c = %s" % (name, text)
        return lines + ([one_line] if len(one_line) <= LINE else ["%s c =" % name] + filled(text.split(" "))) + [""]

    def asks(self):
        out = []
        for name in ["first_of"] * self.is_long + ["last_of"]:
            out += self.answer(self.said(name, "-requires"), "fits %s" % self.row())
        held = "0 0 (nothing _)"
        if self.whole is not None:
            cell_at = "(get_or (row_at %d) %d 0)" % (self.kind["kind"] - 1, FIRST_FIELD + self.whole)
            held = "_ %s (got %s _ _ %s tt _ %s)" % (cell_at, cell_at, self.gave("narrow_field"), self.gave("get"))
        return out + self.answer(self.said("read_fields", "-requires"), "asks %s %s %s tt" % (self.row(), self.words(), held))

    def gives(self):
        given = self.gave("read_fields")
        return self.answer("returns-" + self.place, "gives %s %s _ _ %s.0 %s.1" % (self.row(), self.words(), given, given))


def reader_proof(name, at, kinds):
    end = len(kinds) - 1
    has_whole = any(whole(k) is not None for k in kinds)
    out = ["-- %s: the arms of cmd_%s's rows. What an arm asks and gives is one law each" % (MADE_BY, name),
           "-- (proofs/Arms.antt); its place, length and fields are its row's by `refl`. Assumes nothing.",
           "use mathlib.Core.Path.{◌≡◌, refl}", "use mathlib.Core.List.{List}", "use Prim.Native.Nat.{ℕ, ◌<◌, ◌≤◌}", "use native.Mathlib.Omega.{arith}",
           "use lib.ListN.{%slength}" % ("get_or, " if has_whole else ""),
           "use Rattle.frame.specs.Field.{sound}", "use Rattle.table.specs.Number.{narrow_of}", "use Rattle.table.specs.Table.{row_at, len_of}",
           "use Rattle.table.proofs.Past.{Past, past}", "use Rattle.decoder.specs.Words.{first_word}",
           "use Rattle.decoder.proofs.Arms.{Arm, fits, asks, gives, %snothing, only_wide}" % ("got, " if has_whole else ""),
           "use Rattle.decoder.proofs.rows.read_%s.Goals as goal" % name, "",
           "-- the arm of the row at k, which has n bytes",
           "row : {i : ℕ} {s : List ℕ} (k n : ℕ) → (%d ≤ i) × (i < %d) × (len_of (row_at i) ≡ length s) → i ≡ k → len_of (row_at k) ≡ n → Arm i k n s" % (
               at, at + end + 1),
           "row k n r e en = record { this = e; of-table = omega (arith, r.1); long = r.2; length-is = en }", "",
           "-- what is matched last is the last place",
           "end : {i : ℕ} → %d ≤ i → i < %d → Past %d %d i → i ≡ %d" % (at, at + end + 1, at, end, at + end),
           "end low high p = omega (arith, past %d %d _ low p, high)" % (at, end), ""]
    told = [Arm(kinds, i) for i in range(len(kinds))]
    return (out + [line for arm in told for line in arm.asks()] + [line for arm in told for line in arm.gives()])[:-1]


# ---- settings and book

def head_of(data):
    return arms([(k["slot"], "kinds::HEAD_%d" % k["kind"]) for k in settings(data)])


def slot_answers(data):
    return answers("size_of lengths", [k["slot"] for k in settings(data)])


def settings_actions(data):
    return filled(" ∷ ".join(str(k["kind"]) for k in data["kinds"] if k["slot"] is None).split())


def least_frame(data, k):
    """A frame with the least of each argument that the checked builder takes."""
    frame = [int(k["opcode"][:2], 16), int(k["opcode"][2:], 16)] + [0] * (k["length"] - 2)
    for a in k["arguments"]:
        least = min(codes_of(data, a)) if is_code(data, a) else 0
        for i, (byte, bit) in enumerate(bits(narrowed(a))):
            frame[byte] |= (least >> i & 1) << bit
    return ["0x%02X" % n if i < 2 or n else "0" for i, n in enumerate(frame)]


def full_front(data):
    return filled(["%s(%s)" % ("∷ " if i else "", listed(least_frame(data, k))) for i, k in enumerate(fullest(data)[:-1])])


def full_last(data):
    return ["    " + " ∷ ".join(least_frame(data, fullest(data)[-1]))]


def full_slots(data):
    return filled(" ∷ ".join(str(k["slot"]) for k in fullest(data)).split())


# ---- enums

def spec_name(enum):
    return snake(enum["name"]).lower()


def variant(enum, name):
    return "%sV.%s" % (enum["name"], name)


def enum_uses(data, form):
    return [form.format(**e) for e in data["enums"]]


def valued(enum):
    """The values in the order of their codes, in one line where they fit."""
    values = [variant(enum, name) for _, name in sorted(enum["codes"])] + ["[]"]
    one_line = "values_of %s = %s" % (spec_name(enum), " ∷ ".join(values))
    if len(one_line) <= LINE:
        return [one_line]
    return ["values_of %s =" % spec_name(enum)] + filled(values[:1] + ["∷ " + value for value in values[1:]])


def enums_specs(data):
    names = [spec_name(e) for e in data["enums"]]
    crates = {"cmd_" + name: [spec_name(e) + "_code" for e in data["enums"] if e["file"] == "cmd_" + name] for name, _, _ in files(data)}
    out = ["-- %s: the enums of the port, their values and codes. proofs/Listed.antt" % MADE_BY,
           "-- shows that no value is missing (REFERENCE, \"Commands\"). Assumes nothing.",
           "use Rattle.std.specs.Prelude.{ℕ, Bool, true, false, List, [], ◌∷◌}", "use Rattle.table.specs.Table.{yes_no}"]
    out += ["use Rattle.%s.specs.Codes.{%s}" % (crate, ", ".join(codes[i:i + 5])) for crate, codes in crates.items() for i in range(0, len(codes), 5)]
    out += enum_uses(data, "use Rattle.{file}.specs.declared.{name}.{{{name}}}")
    out += enum_uses(data, "use Rattle.{file}.specs.declared.{name}.TheVariants as {name}V")
    out += ["", "-- the enums, and the yes or no", "pub data Enum : Type 0 where", "  yes_or_no : Enum"] + ["  %s : Enum" % name for name in names]
    out += ["", "abbrev pub Value : Enum → Type 0", "Value yes_or_no = Bool"] + ["Value %s = %s" % (spec_name(e), e["name"]) for e in data["enums"]]
    out += ["", "-- the code of a value: its number in the frame", "abbrev pub code_of : (e : Enum) → Value e → ℕ", "code_of yes_or_no b = yes_no b"]
    out += ["code_of %s x = %s_code x" % (name, name) for name in names]
    out += ["", "-- the values of each, in the order of their codes", "abbrev pub values_of : (e : Enum) → List (Value e)",
            "values_of yes_or_no = false ∷ true ∷ []"]
    return out + [line for e in data["enums"] for line in valued(e)]


def enums_listed(data):
    out = ["-- %s: no value is missing from the list of its enum, since the code of every" % MADE_BY,
           "-- value is among the codes. Assumes nothing.",
           "use mathlib.Core.Bool.{true, false}", "use lib.Dec.{T}", "use Rattle.table.specs.Codes.{is_in}",
           "use Rattle.enums.specs.Enums.{Enum, Value, code_of}", "use Rattle.enums.specs.Enums as of",
           "use Rattle.enums.specs.Values.{codes_in}"]
    out += enum_uses(data, "use Rattle.{file}.specs.declared.{name}.TheVariants as {name}V")
    out += ["", "pub listed : (e : Enum) (x : Value e) → T (is_in (code_of e x) (codes_in e))", "unfolding is_in",
            "listed of.yes_or_no x = elim x as (λ y. T (is_in (code_of of.yes_or_no y) (codes_in of.yes_or_no))) [ true ↦ tt | false ↦ tt ]"]
    for e in data["enums"]:
        name = "of." + spec_name(e)
        out.append("listed %s x = elim x as (λ y. T (is_in (code_of %s y) (codes_in %s))) [" % (name, name, name))
        out += ["  | %s ↦ tt" % variant(e, value) for _, value in e["codes"]] + ["]"]
    return out


def enum_sorts(data):
    def sort(a):
        if a["takes"] == "number":
            return "number"
        return "code of." + ("yes_or_no" if a["takes"] == "yes or no" else spec_name(enum_of(data, a)))

    out = []
    for k in data["kinds"]:
        out.append(("    -- %d %s" % (k["kind"], ", ".join(a["name"] for a in k["arguments"]))).rstrip())
        out += filled(("%s(%s)" % ("∷ " if k["kind"] > 1 else "", listed([sort(a) for a in k["arguments"]]))).replace(" ∷ ", "\0∷ ").split("\0"))
    return out


# ---- vectors, which calls the typed builders for the tests

WIDTHS = [(8, "byte"), (16, "u16_at"), (32, "u32_at"), (64, "u64_at")]


def reader_of(data, a):
    """The function that reads an argument out of a request."""
    if is_code(data, a):
        return snake(a["takes"]).lower()
    return "yes" if a["takes"] == "yes or no" else next(name for width, name in WIDTHS if len(bits(a["place"])) <= width)


def vectors_built(data, k):
    given = ["%s(p, A%d)" % (reader_of(data, a), i) for i, a in enumerate(k["arguments"])]
    return ["fn kind_%d(%s) -> Answer {" % (k["kind"], "p: &[u8]" if given else "")] + call(
        "let cmd = %s::%s(" % (k["file"], k["builder"]), given, ");", "    ") + ["    framed(&cmd)", "}", ""]


def vectors_code(e):
    """The first code's arm is for all that are not listed: the requests hold no other code."""
    first, others = e["codes"][0], e["codes"][1:]
    return ["", "pub fn %s(p: &[u8], at: usize) -> %s {" % (snake(e["name"]).lower(), e["name"]), "    match byte(p, at) {"] + arms(
        [(code, "%s::%s" % (e["name"], name)) for code, name in others] + [("_", "%s::%s" % (e["name"], first[1]))]) + ["    }", "}"]


def vectors_builders(data, name, at, kinds):
    own = [e for e in data["enums"] if e["file"] == "cmd_" + name]
    asked = [a for k in kinds for a in k["arguments"]]
    others = {e["name"]: e["file"][len("cmd_"):] for e in data["enums"] if e not in own}
    uses = {"crate::answer::Answer", "crate::answer::framed"} | {"cmd_%s::%s" % (name, e["name"]) for e in own}
    uses |= {"crate::request::byte"} if own else set()
    uses |= {"crate::request::A%d" % i for k in kinds for i in range(len(k["arguments"]))}
    uses |= {"crate::%s::%s" % (others[a["takes"]], reader_of(data, a)) for a in asked if a["takes"] in others}
    uses |= {"crate::request::" + reader_of(data, a) for a in asked if not is_code(data, a)}
    span = "%d to %d" % (at + 1, at + len(kinds))
    out = ["// %s: the builders of cmd_%s, kinds %s." % (MADE_BY, name, span)]
    out += imports(uses)
    out += ["", "// The answer for a kind from %s; empty for any other." % span, "pub fn built(kind: u8, p: &[u8]) -> Answer {", "    match kind {"]
    out += arms([(k["kind"], "kind_%d(%s)" % (k["kind"], "p" if k["arguments"] else "")) for k in kinds] + [("_", "Answer::new()")]) + ["    }", "}", ""]
    for k in kinds:
        out += vectors_built(data, k)
    told = "// The value whose code stands at a place; the requests hold no other code, and the last arm takes the first name too."
    coded = [line for e in own for line in vectors_code(e)]
    return out + [told] + coded[1:] if own else out[:-1]


def vectors_files(data):
    """The last file's builder answers up to where the other operations begin."""
    ends = [at for _, at, _ in files(data)[1:]] + [MOST_KINDS]
    return [line for (name, _, _), end in zip(files(data), ends)
            for line in ("    if op < %d {" % (end + 1), "        return %s::built(op, p);" % name, "    }")]


# ---- the files

def made(data):
    """For each file its parts by name; None is the name of a whole file."""
    held = {
        "crates/table/src/lib.rt": {"counts": table_counts, "row_at": row_at, "head_at": head_at},
        "crates/table/src/kinds.rt": {None: table_rows},
        "crates/table/src/fields.rt": {None: table_fields},
        "crates/table/proofs/row_at/Answers.antt": {"arms": place_answers("row_at")},
        "crates/table/proofs/head_at/Answers.antt": {"arms": place_answers("head_at")},
        "crates/codes/src/lib.rt": {"lists": codes_lists},
        "crates/codes/proofs/Listed.antt": {"words": codes_words},
        "crates/decoder/src/seats.rt": {"seat_of": seat_of},
        "crates/decoder/proofs/seats/seat_of/Answers.antt": {"arms": seat_answers},
        "crates/decoder/src/lib.rt": {"held_at": held_at},
        "crates/decoder/proofs/held_at/Answers.antt": {
            "arms": place_answers("held_of row_at first_word last_word big_end mask_of mask narrows_of narrow_of")},
        "crates/decoder/src/rows.rt": {None: decoder_rows},
        "crates/settings/src/lib.rt": {"head_of": head_of},
        "crates/settings/proofs/head_of/Answers.antt": {"arms": slot_answers},
        "crates/settings/proofs/Settings.antt": {"actions": settings_actions},
        "crates/book/proofs/Full.antt": {"front": full_front, "last": full_last, "slots": full_slots},
        "crates/enums/specs/Enums.antt": {None: enums_specs},
        "crates/enums/specs/Values.antt": {"sorts": enum_sorts},
        "crates/enums/proofs/Listed.antt": {None: enums_listed},
        "crates/vectors/src/main.rt": {"builders": vectors_files},
    }
    for name, at, kinds in files(data):
        held["crates/vectors/src/%s.rt" % name] = {None: lambda _, file=(name, at, kinds): vectors_builders(data, *file)}
        held["crates/decoder/proofs/rows/read_%s/Answers.antt" % name] = {None: lambda _, file=(name, at, kinds): reader_proof(*file)}
    return held
