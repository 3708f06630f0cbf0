#!/usr/bin/env python3
"""throughput.py OUT RUST: the program `dump` beside the dump in Rust, on a reel of 100 MB and on its first 10 MB.

The two run in turn, REPEATS times each (three times as often on the shorter reel), with their output to /dev/null and no shell around them:
as tests/run-rattle runs them, but called straight. A time is user and system time together, less that of a run on an empty reel, which is
the start of the program. Before that both write to files, which have to be equal.
Prints a table, and writes the ratios to OUT/figures-dump for the plot.
"""
import filecmp
import os
import platform
import random
import statistics
import subprocess
import sys

sys.path.insert(0, "tests")
from frames import frame, good

REPEATS = 5
PART = 10_000_000


def make_reels(small, large):
    """Ten parts of 10 MB, each of them frames of one pool in random order; nine frames of ten in the pool are good, and some of the rest."""
    r = random.Random(2021)
    pool = []
    for i in range(20_000):
        f = frame(r) if i % 10 == 0 else good(r)
        pool.append(bytes([len(f)]) + f)
    mean = sum(map(len, pool)) / len(pool)
    with open(large, "wb") as file:
        for part in range(10):
            file.write(b"".join(r.choices(pool, k=int(PART / mean))))
            if part == 0:
                file.flush()
                with open(large, "rb") as whole, open(small, "wb") as first:
                    first.write(whole.read())


def runner():
    """What stands before a program: the kit's loader with the kit's libraries, and `qemu-x86_64` where the machine is not x86-64."""
    guide = subprocess.run(["rt", "doc"], stdout=subprocess.PIPE, check=True, universal_newlines=True).stdout.strip()
    tools = os.path.join(os.path.dirname(guide), "toolchain")
    loader = [os.path.join(tools, "lib", "ld-linux-x86-64.so.2"), "--library-path", os.path.join(tools, "lib")]
    return ([] if platform.machine() == "x86_64" else ["qemu-x86_64"]) + loader


RUNNER = runner()


def seconds(program, reel, to=os.devnull):
    """User and system time of a run."""
    with open(to, "wb") as output:
        pid = subprocess.Popen(RUNNER + [program, reel], stdout=output).pid
        _, status, used = os.wait4(pid, 0)
    if status:
        sys.exit("%s ended with %d" % (program, status))
    return used.ru_utime + used.ru_stime


def same(programs, reel):
    texts = [reel + ".ours", reel + ".rust"]
    for program, text in zip(programs, texts):
        seconds(program, reel, text)
    if not filecmp.cmp(*texts, shallow=False):
        sys.exit("%s and %s differ" % tuple(texts))
    for text in texts:
        os.remove(text)


def main():
    out, rust = sys.argv[1:]
    programs = ["crates/dump/out/dump", rust]
    empty, small, large = [os.path.join(out, name) for name in ("reel-empty", "reel-10", "reel-100")]
    open(empty, "wb").close()
    make_reels(small, large)
    same(programs, small)
    same(programs, large)
    starts = [min(seconds(p, empty) for _ in range(REPEATS)) for p in programs]
    times = {small: [], large: []}
    for _ in range(REPEATS):
        for reel in (small, small, small, large):
            times[reel].append([seconds(p, reel) - s for p, s in zip(programs, starts)])
    rate = {}
    print("| reel | ratio | least | greatest | ours, s | Rust, s | ours, MB/s | Rust, MB/s |")
    print("|---|---|---|---|---|---|---|---|")
    for reel in (small, large):
        size = os.path.getsize(reel) / 1e6
        ratios = [ours / other for ours, other in times[reel]]
        ours, other = [min(side) for side in zip(*times[reel])]
        figures = (statistics.median(ratios), min(ratios), max(ratios), ours, other)
        rate[reel] = size / ours
        print("| %.1f MB | %.2f | %.2f | %.2f | %.2f | %.2f | %.0f | %.0f |" % ((size,) + figures + (size / ours, size / other)))
    print("\nA byte of the longer reel takes our dump %.2f of the time that a byte of the shorter one takes." % (rate[small] / rate[large]))
    with open(os.path.join(out, "figures-dump"), "w", encoding="utf8") as file:
        file.write("dump, a reel of 100 MB %.2f %.2f %.2f %.2f %.2f\n" % figures)


main()
