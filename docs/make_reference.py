#!/usr/bin/env python3
"""make_reference.py: writes all that is made from docs/commands.json: the tables of docs/REFERENCE.md, the constants of include/hoardbutton.h,
tests/link/named.h, and what sources and proofs have row by row (docs/make_rows.py).

A made part stands between `from commands.json: NAME` and `end: NAME`, or in a file of its own, whose first line says so. tests/reference fails
where a file is not as this makes it. An entry that does not fit ends the script with one line that names it (docs/commands.py).
"""
import os
import re
import sys
import textwrap
from fractions import Fraction

sys.dont_write_bytecode = True
import make_rows
from commands import ROOT, fullest, greatest, is_code, load, other_form, settings, snake

LINE = 140


# ---- what the sizes come from

def line_length(data, kind, index_digits=20):
    """The longest line of a dump of that kind, with its newline."""
    numbers = [kind["kind"], 0, 0] + [greatest(data, a) for a in kind["arguments"]]
    return index_digits + sum(1 + len(str(n)) for n in numbers) + 1


def sizes(data):
    """Every size, computed from the rows, the pairs, the refusals and the rules of texts."""
    frames = sum(k["length"] for k in fullest(data))
    head = 4 + 2 * len(settings(data))
    refused = max(len("0 %d 0" % r["number"]) for r in data["refusals"])
    cut = 20 + 1 + refused + 1
    for k in data["kinds"]:
        assert line_length(data, k) <= cut * (1 + k["length"]), "a frame whose line is longer than HB_DUMP_BYTE_MAX has it"
    return {
        "HB_KINDS": len(data["kinds"]),
        "HB_SETTINGS": len(settings(data)),
        "HB_FRAME_MAX": max(k["length"] for k in data["kinds"]),
        "HB_ARGS_MAX": max(len(k["arguments"]) for k in data["kinds"]),
        "HB_BOOK_MIN": head,
        "HB_BOOK_MAX": 4096,
        "HB_BOOK_ALL": head + frames,
        "HB_REPLAY_MAX": frames + len(fullest(data)),
        "HB_LEVEL_TEXT_MAX": max(len("-%d.%d" % (n // 2, 5 * (n % 2))) for n in range(65536)),
        "HB_SNR_TEXT_MAX": max(len("-%d.%02d" % (n // 4, 25 * (n % 4))) for n in range(129)),
        "HB_DUMP_LINE_MAX": max([cut] + [line_length(data, k) for k in data["kinds"]]),
        "HB_DUMP_BYTE_MAX": cut,
        "HB_BANKS_MAX": 32,
    }


def sizes_told(data):
    """Each size with its name, its value and what it is."""
    values = sizes(data)
    said = {"fullest": len(fullest(data)), "longest": most(data, lambda k: k["length"]), "richest": most(data, lambda k: len(k["arguments"])),
            "widest": most(data, lambda k: line_length(data, k))}
    return [(name, values[name], text.format(**said)) for name, text in data["sizes"]]


def most(data, measure):
    """The kinds of which the measure is greatest, as one says them: 6 and 17."""
    greatest_one = max(map(measure, data["kinds"]))
    numbers = [str(k["kind"]) for k in data["kinds"] if measure(k) == greatest_one]
    return " and ".join(filter(None, [", ".join(numbers[:-1]), numbers[-1]]))


def lora_hz(code):
    """The width of a LoraBw code, rounded down: halves of 1 MHz, of 1/12 MHz and of 812.5 kHz."""
    if code < 8:
        return 1_000_000 >> (7 - code)
    return 1_000_000 // (12 << (11 - code)) if code < 12 else 812_500 >> (15 - code)


def rx_tenths(code):
    """The name of a listed RxBw code in tenths of kHz, by its rule; BwAuto has none."""
    if code == 255:
        return 0
    divisor = (13, 14, 15, 18)[code >> 6] * ((code >> 3 & 7) + 1) << (code & 7)
    return 40_000 // divisor * 10 if divisor <= 4_000 else (2 * 400_000 + divisor) // (2 * divisor)


def symbol_ms(sf, code):
    """How long a LoRa symbol lasts in ms, exactly: 2^sf over the width of a LoraBw code of 1 MHz or one of its halves."""
    return Fraction(1000 * 2 ** sf, Fraction(1_000_000, 2 ** (7 - code)))


# ---- names for C

def c_kind(kind):
    return "HB_" + kind["name"].upper()


def c_enum(enum):
    return "HB_" + (enum.get("c") or snake(enum["name"]))


def c_code(enum, name):
    strip = enum.get("strip", "")
    return c_enum(enum) + "_" + snake(name[len(strip):] if strip and name.startswith(strip) else name)


def c_refusal(refusal):
    return "HB_REFUSED_" + snake(refusal["name"])


def c_rule(rule):
    return "HB_RULE_" + rule["name"].upper()


# ---- tables of the reference

def table(head, rows):
    return ["| %s |" % " | ".join(head), "|%s|" % "|".join("---" for _ in head)] + ["| %s |" % " | ".join(row) for row in rows]


def comma(number):
    return "any number of 64 bits" if number == 2 ** 64 - 1 else format(number, ",")


def takes(data, a):
    if is_code(data, a):
        only = a.get("checked_codes")
        return "`%s`%s" % (a["takes"], "; checked: only %s" % ", ".join(map(str, only)) if only else "")
    if a["takes"] == "yes or no":
        return "yes or no"
    most = a["range"][1]
    return comma(most) if most == 2 ** 64 - 1 else "0 to " + comma(most)


def place(a):
    text = a["place"] + (", low byte first" if a.get("low_byte_first") else "")
    if "narrowed" not in a:
        return text
    return text + "; checked: " + {"none": "no bit"}.get(a["narrowed"], a["narrowed"].replace("+", " and "))


def says(entry):
    unit = entry.get("unit")
    return ", ".join(filter(None, [entry.get("says"), "in " + unit if unit else None]))


def md_commands(data):
    rows = [[str(k["kind"]), "`%s`" % k["builder"], "%s %s" % (k["opcode"][:2], k["opcode"][2:]), str(k["length"]),
             "action" if k["slot"] is None else str(k["slot"]), k["says"]] for k in data["kinds"]]
    return table(["kind", "builder", "opcode", "length", "slot", "what it does"], rows)


def md_arguments(data):
    rows = []
    for k in data["kinds"]:
        for n, a in enumerate(k["arguments"], 1):
            rows.append([str(k["kind"]), str(n), "`%s`" % a["name"], place(a), takes(data, a), says(a)])
    return table(["kind", "no", "argument", "place", "takes", "means"], rows)


def md_enums(data):
    rows = []
    for e in data["enums"]:
        codes = ", ".join("%d `%s`" % tuple(c) for c in sorted(e["codes"])) if e["name"] != "RxBw" else 'the %d codes listed in "Widths"' % len(e["codes"])
        other = "" if e["rust"] == e["name"] else " The Rust's `%s::%s`." % (e["file"], e["rust"])
        rows.append(["`%s`" % e["name"], e["says"] + other, codes])
    return table(["enum", "what it is", "codes"], rows)


def md_status(data):
    rows = [["`%s`" % s["field"], s["bits"], s["says"], "; ".join("%d `%s`: %s" % tuple(c) for c in s["codes"])] for s in data["status"]]
    return table(["field", "bits", "what it tells", "codes"], rows)


def md_interrupts(data):
    return table(["bit", "interrupt", "raised when"], [[str(bit), "`%s`" % name, text] for bit, name, text in data["interrupts"]])


def md_responses(data):
    rows = []
    for r in data["responses"]:
        first = ["`%s`" % r["name"], str(r["length"]), r["answers"]]
        for f in r["fields"]:
            rows.append(first + ["`%s`" % f["name"], f["place"], f["holds"], says(f)])
            first = ["", "", ""]
    return table(["response", "length", "answers", "field", "place", "holds", "means"], rows)


def md_lora_bw(data):
    codes = [c for e in data["enums"] if e["name"] == "LoraBw" for c in e["codes"]]
    return table(["code", "name", "Hz"], [[str(code), "`%s`" % name, comma(lora_hz(code))] for code, name in codes])


def md_rx_bw(data):
    codes = sorted(c for e in data["enums"] if e["name"] == "RxBw" for c in e["codes"])
    texts = ["%d `%s` %s" % (code, name, comma(rx_tenths(code))) for code, name in codes]
    return textwrap.wrap("; ".join(t.replace(" ", "\0") for t in texts) + ".", LINE, break_long_words=False)


def md_refusals(data):
    return table(["number", "name for C", "given when", "place"],
                 [[str(r["number"]), "`%s`" % c_refusal(r), r["when"], r["place"]] for r in data["refusals"]])


def md_order(data):
    banks = data["order"].index(21)
    said = [", ".join(map(str, part)) for part in (data["order"][:banks], data["order"][banks + 1:])]
    return ["Where several apply, the first of these is given: %s; for a list of banks 21, and then, at the first bank that one of them applies to, %s." % tuple(said)]


def md_calls(data):
    return table(["call", "for C", "refusals, in this order"],
                 [[what, "`%s`" % name, ", ".join(map(str, numbers)) or "none"] for name, what, numbers in data["calls"]])


def md_rules(data):
    return table(["number", "word", "name for C", "rule"],
                 [[str(r["number"]), "`%s`" % r["name"], "`%s`" % c_rule(r), r["rule"]] for r in data["rules"]])


def md_symbols(data):
    """The pairs of a spreading factor and a width that the profile permits, with the optimisation that each demands."""
    widths = [code for e in data["enums"] if e["name"] == "LoraBw" for code, name in e["codes"] if name in ("Bw125", "Bw250")]
    rows = []
    for sf in range(7, 13):
        lasting = [symbol_ms(sf, code) for code in widths]
        rows.append(["`Sf%d`" % sf] + [cell for ms in lasting for cell in ("%.3f ms" % ms, "on" if ms >= 16 else "off")])
    return table(["spreading factor", "symbol at 125 kHz", "optimisation", "symbol at 250 kHz", "optimisation"], rows)


def md_forms(data):
    pairs = [[data["kinds"][kind - 1] for kind in pair] for pair in data["forms"]]
    return table(["shorter form", "its length", "longer form", "its length"],
                 [[cell for k in pair for cell in ("kind %d, `%s`" % (k["kind"], k["builder"]), str(k["length"]))] for pair in pairs])


def md_sizes(data):
    return table(["name for C", "size", "what it is"], [["`%s`" % name, comma(value), text] for name, value, text in sizes_told(data)])


# ---- constants of the header

def comment(text):
    return textwrap.wrap("/* %s */" % text, LINE, subsequent_indent=" * ")


def c_arguments(data, arguments):
    """A line for each argument, in three columns."""
    rows = [(a["name"], c_takes(data, a), says(a).replace("*", "")) for a in arguments]
    wide = [max((len(row[i]) for row in rows), default=0) for i in (0, 1)]
    out = []
    for name, taken, text in rows:
        head = " *   %-*s  %-*s  " % (wide[0], name, wide[1], taken)
        blank = " *" + " " * (len(head) - 2)
        out += textwrap.wrap(head.replace(" ", "\0") + text, LINE, subsequent_indent=blank.replace(" ", "\0")) if text else [head]
    return [line.replace("\0", " ").rstrip() for line in out]


def c_takes(data, a):
    if is_code(data, a):
        only = ["%s only, but for hb_plain" % c_code(e, name) for e in data["enums"] if e["name"] == a["takes"]
                for code, name in e["codes"] if [code] == a.get("checked_codes")]
        return only[0] if only else next(c_enum(e) for e in data["enums"] if e["name"] == a["takes"]) + "_.."
    if a["takes"] == "yes or no":
        return "1 or 0"
    return "any number" if a["range"][1] == 2 ** 64 - 1 else "0 to %d" % a["range"][1]


def c_kinds(data):
    out = []
    for k in data["kinds"]:
        kept = "An action. " if k["slot"] is None else ""
        other = other_form(data, k)
        form = " One setting with %s: a book holds one of the two." % c_kind(other) if other else ""
        none = "" if k["arguments"] else " No arguments."
        text = comment(kept + k["says"] + form + none) + c_arguments(data, k["arguments"])
        if k["arguments"]:
            text = [line.replace(" */", "") for line in text]
            text[-1] += " */"
        out += text + ["#define %s %d" % (c_kind(k), k["kind"]), ""]
    return out[:-1]


def c_codes(data):
    out = []
    for e in data["enums"]:
        out += comment(e["says"])
        out += ["#define %s %d" % (c_code(e, name), code) for code, name in e["codes"]] + [""]
    return out[:-1]


def c_refusals(data):
    return ["#define %s %d /* %s%s */" % (c_refusal(r), r["number"], r["when"], "; place: " + r["place"] if r["place"] != "0" else "")
            for r in data["refusals"]]


def c_rules(data):
    """The names of codes are those for C, of the enums that the judged kinds take."""
    taken = {a["takes"] for k in data["kinds"] if k["kind"] in (1, 2, 4) for a in k["arguments"]}
    names = {name: c_code(e, name) for e in data["enums"] if e["name"] in taken for _, name in e["codes"]}
    told = [re.sub(r"`(\w+)`", lambda m: names.get(m[1], m[1]), r["rule"]) for r in data["rules"]]
    return ["#define %s %d /* %s */" % (c_rule(r), r["number"], text) for r, text in zip(data["rules"], told)]


def c_slots(data):
    """The slots of the settings, by kinds in a row."""
    runs = []
    for k in data["kinds"]:
        if k["slot"] is not None and runs and runs[-1][-1]["kind"] == k["kind"] - 1:
            runs[-1].append(k)
        elif k["slot"] is not None:
            runs.append([k])

    def span(first, last):
        return str(first) if first == last else "%d %s %d" % (first, "and" if last == first + 1 else "to", last)

    texts = ["%s %s %s" % (span(r[0]["kind"], r[-1]["kind"]), "has" if len(r) == 1 else "have", span(r[0]["slot"], r[-1]["slot"])) for r in runs]
    return comment("The slots of the kinds: %s." % ", ".join(texts))


def c_sizes(data):
    return ["#define %s %d /* %s */" % (name, value, text) for name, value, text in sizes_told(data)]


def c_status(data):
    out = []
    for s in data["status"]:
        out += comment("%s: bits %s. %s" % (s["field"], s["bits"], s["says"]))
        out += ["#define %s %d /* %s */" % (c_code(s, name), code, text) for code, name, text in s["codes"]] + [""]
    return out[:-1]


def c_interrupts(data):
    return ["#define HB_IRQ_%s UINT32_C(0x%08X) /* %s */" % (name.upper(), 1 << bit, text) for bit, name, text in data["interrupts"]]


def c_named(data):
    """The tables by which tests/link/names.c holds each constant and each limit to the library."""
    out = ["/* Made from docs/commands.json by docs/make_reference.py: what the header says of kinds, codes and numbers. */",
           "static const struct {", "    uint64_t kind, number;", "    size_t len, count;", "} named_kinds[] = {"]
    out += ["    {%s, %d, %d, %d}," % (c_kind(k), k["kind"], k["length"], len(k["arguments"])) for k in data["kinds"]]
    out += ["};", "", "/* An argument that is a code or a yes or no, and all that the checked builder takes there; more, if the plain one takes one more. */",
            "static const struct {", "    uint64_t kind;", "    size_t argument, count, more;",
            "    uint64_t codes[%d];" % max(len(e["codes"]) for e in data["enums"]), "} named_codes[] = {"]
    for k in data["kinds"]:
        for n, a in enumerate(k["arguments"], 1):
            if a["takes"] == "number":
                continue
            names = ["0", "1"] if a["takes"] == "yes or no" else [c_code(e, name) for e in data["enums"] if e["name"] == a["takes"] for _, name in e["codes"]]
            more = len(names) - len(a.get("checked_codes", names))
            text = "{%s, %d, %d, %d, {%s}}," % (c_kind(k), n, len(names) - more, more, ", ".join(names))
            out += textwrap.wrap(text, LINE, initial_indent="    ", subsequent_indent="        ")
    out += ["};", "", "/* An argument that is a number, and the greatest that the checked builder takes there. */",
            "static const struct {", "    uint64_t kind;", "    size_t argument;", "    uint64_t most;", "} named_limits[] = {"]
    for k in data["kinds"]:
        out += ["    {%s, %d, %dULL}," % (c_kind(k), n, a["range"][1]) for n, a in enumerate(k["arguments"], 1) if a["takes"] == "number"]
    return out + ["};"]


# ---- the files

MADE = {
    "docs/REFERENCE.md": {"commands": md_commands, "arguments": md_arguments, "enums": md_enums, "status": md_status,
                          "interrupts": md_interrupts, "responses": md_responses, "LoraBw": md_lora_bw, "RxBw": md_rx_bw,
                          "refusals": md_refusals, "order": md_order, "calls": md_calls, "rules": md_rules, "symbols": md_symbols,
                          "forms": md_forms, "sizes": md_sizes},
    "include/hoardbutton.h": {"sizes": c_sizes, "refusals": c_refusals, "kinds": c_kinds, "codes": c_codes, "slots": c_slots, "status": c_status,
                              "interrupts": c_interrupts, "rules": c_rules},
    "tests/link/named.h": {None: c_named},
}


def filled(path, text, name, lines):
    """The text with these lines between the marks of that name, in whatever comments the marks stand; a document has empty lines there too."""
    start = re.search(r"^.*from commands\.json: %s(?= |$).*\n" % name, text, re.M)
    end = start and re.search(r"^.*\bend: %s(?= |$)" % name, text[start.end():], re.M)
    if not end:
        sys.exit("%s: there is no place for %s" % (path, name))
    gap = "\n" if path.endswith(".md") else ""
    return text[:start.end()] + gap + "\n".join(lines).replace("\0", " ") + "\n" + gap + text[start.end() + end.start():]


def made(data):
    """Each file as it has to be."""
    result = {}
    for path, parts in {**MADE, **make_rows.made(data)}.items():
        text = ""
        if None not in parts:
            with open(os.path.join(ROOT, path), encoding="utf8") as file:
                text = file.read()
        for name, make in parts.items():
            try:
                lines = make(data)
            except (AttributeError, LookupError, TypeError, ValueError) as wrong:
                sys.exit("docs/commands.json: %s: an entry that it is made from is not written as the others are (%s: %s)" % (
                    name or path, type(wrong).__name__, wrong))
            text = "\n".join(lines) + "\n" if name is None else filled(path, text, name, lines)
        result[path] = text
    return result


def main():
    for path, text in made(load()).items():
        full = os.path.join(ROOT, path)
        os.makedirs(os.path.dirname(full), exist_ok=True)
        with open(full, "w", encoding="utf8") as file:
            file.write(text)


if __name__ == "__main__":
    main()
