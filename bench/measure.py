#!/usr/bin/env python3
"""measure.py COUNTED PLUGIN TIMED CORPUS: runs the driver on each file of the folder CORPUS and prints a
table a call: x86-64 instructions of one call, the library's and the Rust's, their ratio, and the
ratio of the times. COUNTED runs under qemu with PLUGIN, TIMED by itself. bench/run makes all four.

Needs: python3 and qemu-x86_64.
Status: 0 all is measured; 2 wrong words, or a missing file or command; 3 a run failed."""
import os
import re
import subprocess
import sys

sys.dont_write_bytecode = True
sys.path.insert(0, os.path.join(os.path.dirname(os.path.abspath(__file__)), "..", "tools"))
import common

FEW = 200_000  # bytes from which a file is read fewer times


def instructions(asked, side, call, file):
    """One call: the difference of two runs, so that what happens once drops out. The emulated processor has no fast `rep stosb`: the C library's memset and
    memcpy would use it, and the emulator counts each byte of it as an instruction."""
    low, high = (2, 4) if os.path.getsize(file) > FEW or call == "entries" else (10, 30)

    def run(times):
        words = ["qemu-x86_64", "-cpu", "max,-erms", "-plugin", asked.plugin, asked.counted, side, call, str(times), file]
        told = re.search(rb"instructions (\d+)", subprocess.run(words, capture_output=True, check=True).stderr)
        if not told:
            raise common.Fault("%s counted nothing" % asked.plugin, 3)
        return int(told[1])

    return (run(high) - run(low)) / (high - low)


def times(asked, call, file):
    """Nanoseconds of one call on both sides, the least of seven runs of some 40 ms, taken in turn."""

    def run(side, n):
        return int(subprocess.run([asked.timed, side, call, str(n), file], capture_output=True, check=True).stdout)

    sides = ("riddoskam", "rust")
    n = {s: max(1, 40_000_000 // max(1, run(s, 3))) for s in sides}
    least = {s: min(run(s, n[s]) for _ in range(7)) for s in sides}
    return least["riddoskam"], least["rust"]


def line(points):
    """The line with the least squares of errors, each by its own size, through (bytes, instructions), and the largest error of a point."""
    weights = [1 / y**2 for _, y in points]
    n, sx, sy = sum(weights), sum(w * x for w, (x, _) in zip(weights, points)), sum(w * y for w, (_, y) in zip(weights, points))
    sxx, sxy = sum(w * x * x for w, (x, _) in zip(weights, points)), sum(w * x * y for w, (x, y) in zip(weights, points))
    slope = (n * sxy - sx * sy) / (n * sxx - sx * sx)
    start = (sy - slope * sx) / n
    return start, slope, max(abs(start + slope * x - y) / y for x, y in points)


def table(asked, title, call, names):
    print(f"\n{title}\n")
    points = []
    print("| file | bytes | instructions | a byte | the Rust's | ratio | time, ns | the Rust's | ratio |")
    print("|---|---|---|---|---|---|---|---|---|")
    for name in names:
        common.far(f"{title}: {name}")
        file = os.path.join(asked.corpus, name)
        size = os.path.getsize(file)
        ours, rust = instructions(asked, "riddoskam", call, file), instructions(asked, "rust", call, file)
        t, u = times(asked, call, file)
        print(f"| {name} | {size:,} | {ours:,.0f} | {ours / size:.1f} | {rust:,.0f} | {ours / rust:.2f} | {t:,} | {u:,} | {t / u:.2f} |", flush=True)
        if name.startswith("shelves"):
            points.append((size, ours))
    if len(points) > 2:
        start, slope, error = line(points)
        print(f"\nThe line through the files of shelves: {start:,.0f} and {slope:.2f} a byte; no file is off by more than {100 * error:.1f} %.", flush=True)


SHAPES = ["small", "deep", "text", "umlauts", "array"]
SIZES = ["shelves" + s for s in ("1K", "4K", "16K", "64K", "256K", "1M")]
PACKETS = ["shelves" + s + ".amfp" for s in ("1K", "16K", "256K")]


def main():
    words = common.Words(__doc__)
    for name in ("counted", "plugin", "timed", "corpus"):
        words.add_argument(name)
    asked = words.parse_args()
    common.need("qemu-x86_64", asked.counted, asked.timed)
    for path in (asked.plugin, asked.corpus):
        os.stat(path)
    table(asked, "Reading a whole file", "lso", [n + ".lso" for n in SHAPES + SIZES])
    table(asked, "Reading a value", "value", [n + ".amf" for n in SHAPES + SIZES[2:]])
    table(asked, "Writing a file", "write", [n + ".lso" for n in SHAPES + SIZES])
    table(asked, "Reading a whole packet", "packet", PACKETS)
    table(asked, "Reading one entry of a packet, against the Rust's reading of all", "entry", PACKETS)
    table(asked, "Reading every entry of a packet by its number, against the Rust's reading of all", "entries", PACKETS[:2])
    table(asked, "Reading every entry of a packet, by one cut and the span of each, against the Rust's reading of all", "spans", PACKETS)


if __name__ == "__main__":
    common.start(main)
