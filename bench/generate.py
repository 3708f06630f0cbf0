#!/usr/bin/env python3
"""generate.py OUT: writes what bench/run compares, from the builders' own signatures in crates/ and from docs/commands.json.

OUT/port/src/lib.rt   the port, exported to C: hb_KIND for each builder, hb_NAME for each reader
OUT/rust.rs           the Rust, exported likewise: rs_KIND, rs_NAME
OUT/decoder.rs        bench/decoder.rs with its arms; OUT/rows.rs the rows that bench/book.rs and bench/walk.rs have
OUT/driver.c          calls both on the same random arguments in one process and prints ratios

An enum arrives as its place in the enum, and a `match` makes its value, alike on both sides.
"""
import os
import re
import sys

import tables

WIDTH = {"u8": 8, "u16": 16, "u32": 32, "u64": 64, "bool": 1}


def read(crate):
    text = open(f"crates/{crate}/src/lib.rt", encoding="utf8").read()
    enums = {}
    for name, body in re.findall(r"pub enum (\w+) \{\n(.*?)\n\}", text, re.S):
        enums[name] = re.findall(r"(\w+) = \d+,", body)
    builders = []
    for kind, name, params, size in re.findall(r"// Kind (\d+)\..*?\npub fn (\w+)\((.*?)\) -> \[u8; (\d+)\]", text, re.S):
        params = [tuple(p.strip().split(": ")) for p in params.split(",") if p.strip()]
        builders.append((int(kind), crate, name, params, int(size)))
    return enums, builders


def snake(name):
    return re.sub(r"(?<=[a-z0-9])([A-Z])", r"_\1", name).lower()


def conversions(enums, path):
    """A function for each enum that gives the value at a place; it reads the same in both languages."""
    out = []
    for (crate, name), variants in enums.items():
        full = path(crate, name)
        arms = "".join(f"        {i} => {full}::{v},\n" for i, v in enumerate(variants[:-1]))
        out.append(f"fn to_{snake(name)}(i: u64) -> {full} {{\n    match i {{\n{arms}        _ => {full}::{variants[-1]},\n    }}\n}}\n")
    return out


def port(enums, builders):
    out = ["// Made by bench/generate.py: the port exported to C, for bench/run.\n#![tactic(auto)]\n"]
    out += conversions(enums, lambda crate, name: f"{crate}::{name}")
    for kind, crate, name, params, size in builders:
        head = "".join(f"{p}: u64, " for p, _ in params)
        args = []
        for p, t in params:
            if t == "bool":
                args.append(f"{p} == 1")
            elif t == "u64":
                args.append(p)
            elif t in WIDTH:
                args.append(f"({p} % {1 << WIDTH[t]}) as {t}")
            else:
                args.append(f"to_{snake(t)}({p})")
        out.append(f'#[unsafe(no_mangle)]\npub extern "C" fn hb_{kind}({head}out: &mut [u8; {size}]) {{\n    let cmd = {crate}::{name}({", ".join(args)});\n    *out = cmd;\n}}\n')
    out.append(open("bench/readers.rt.txt", encoding="utf8").read())
    return "\n".join(out)


def rust(data, enums, builders):
    names = {e["name"]: "%s::%s" % (e["file"], e["rust"]) for e in data["enums"]}
    out = [open("bench/shim.rs", encoding="utf8").read(), "use cmd::{%s, cmd_system};\n" % ", ".join(files(data))]
    out += conversions(enums, lambda crate, name: names[name])
    for kind, crate, name, params, size in builders:
        head = "".join(f"{p}: u64, " for p, _ in params)
        args = []
        for p, t in params:
            if p == "dio_num":
                args.append(f"unsafe {{ core::mem::transmute::<u8, cmd_system::DioNum>({p} as u8) }}")
            elif t == "bool":
                args.append(f"{p} == 1")
            elif t in WIDTH:
                args.append(f"{p} as {t}")
            else:
                args.append(f"to_{snake(t)}({p})")
        out.append(f'#[no_mangle]\npub extern "C" fn rs_{kind}({head}out: &mut [u8; {size}]) {{\n    *out = {crate}::{name}({", ".join(args)});\n}}\n')
    return "\n".join(out)


def driver(data, enums, builders):
    sizes = {name: len(variants) for (_, name), variants in enums.items()}
    calls, table = [], []
    for kind, crate, name, params, size in builders:
        n = len(params)
        types = "u64, " * n
        rows = []
        for p, t in params:
            if p == "dio_num":
                rows.append("{5, 7}")
            elif t in WIDTH:
                rows.append(f"{{0, {1 << WIDTH[t] if WIDTH[t] < 64 else 0}}}")
            else:
                rows.append(f"{{0, {sizes[t]}}}")
        for side in ("hb", "rs"):
            args = "".join(f"given[i][{j}], " for j in range(n))
            calls.append(f"void {side}_{kind}({types}u8 *);\nstatic void {side}_loop_{kind}(void) {{ for (int i = 0; i < SETS; i++) {side}_{kind}({args}out); }}\n")
        args = "{" + ", ".join(rows or ["{0, 0}"]) + "}"
        table.append(f'    {{"{kind} {name}", hb_loop_{kind}, rs_loop_{kind}, {n}, {args}, {size}}},\n')
    text = open("bench/driver.c", encoding="utf8").read()
    return text.replace("/* CALLS */\n", "".join(calls)).replace("/* TABLE */\n", "".join(table)).replace("/* ROWS */\n", tables.c_rows(data))


def files(data):
    """The files of commands, which the crates have their names of."""
    return ["cmd_" + name for name, _, _ in tables.commands.files(data)]


def main():
    out = sys.argv[1]
    data = tables.commands.load()
    enums, builders = {}, []
    for crate in files(data):
        e, b = read(crate)
        enums.update({(crate, name): variants for name, variants in e.items()})
        builders += b
    assert [b[0] for b in builders] == [k["kind"] for k in data["kinds"]], "a builder is missing"
    made = {"port/src/lib.rt": port(enums, builders), "rust.rs": rust(data, enums, builders), "driver.c": driver(data, enums, builders),
            "decoder.rs": tables.decoder(data), "rows.rs": tables.rust_rows(data)}
    os.makedirs(f"{out}/port/src", exist_ok=True)
    for name, text in made.items():
        with open(f"{out}/{name}", "w", encoding="utf8") as file:
            file.write(text)


main()
