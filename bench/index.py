#!/usr/bin/env python3
"""index.py COUNTED PLUGIN WORST CORPUS: runs the program COUNTED (lookup.c) under qemu with PLUGIN on files of
the folder CORPUS, and prints what the key index costs, in tables. WORST (worst.c) makes an order that
the index's sort takes long for, and counts its comparisons. bench/index makes all four.

Needs: python3 and qemu-x86_64.
Status: 0 all is counted; 2 wrong words, or a missing file or command; 3 a run failed."""
import os
import random
import re
import subprocess
import sys

sys.dont_write_bytecode = True
sys.path.insert(0, os.path.join(os.path.dirname(os.path.abspath(__file__)), "..", "tools"))
import common
import corpus

KEYS = 100_000
PATHS = 16  # so many places of a file, evenly spread, are looked up


def run(asked, *words):
    """The instructions of a run, and what it printed. The emulated processor has no fast `rep stosb`: see measure.py."""
    words = ["qemu-x86_64", "-cpu", "max,-erms", "-plugin", asked.plugin, asked.counted, *map(str, words)]
    done = subprocess.run(words, capture_output=True, check=True)
    told = re.search(rb"instructions (\d+)", done.stderr)
    if not told:
        raise common.Fault("%s counted nothing" % asked.plugin, 3)
    return int(told[1]), int(done.stdout)


def once(asked, call, file, *more, times=1):
    """One call, the difference of two runs, so that what happens once drops out; and the number of keys."""
    (none, keys), (some, _) = run(asked, call, 0, file, *more), run(asked, call, times, file, *more)
    return (some - none) / times, keys


def making(asked):
    print("\nMaking the index of a file\n\n| file | bytes | keys | reading the file | making the index | a key | a byte |\n|---|---|---|---|---|---|---|")
    for name in corpus.LOOKED_UP:
        common.far(f"making the index of {name}")
        file = os.path.join(asked.corpus, name + ".lso")
        size = os.path.getsize(file)
        (read, keys), (made, _) = once(asked, "read", file), once(asked, "index", file)
        print(f"| {name}.lso | {size:,} | {keys:,} | {read:,.0f} | {made:,.0f} | {made / keys:,.0f} | {made / size:.1f} |", flush=True)


def looking_up(asked):
    print("\nLooking a value up\n\n| file | keys of the path | by the index | walking to the first pair | ratio | walking to the last | ratio |")
    print("|---|---|---|---|---|---|---|")
    for name, ways in corpus.LOOKED_UP.items():
        common.far(f"looking up in {name}")
        file, paths = os.path.join(asked.corpus, name + ".lso"), os.path.join(asked.corpus, name + ".paths")
        count = min(PATHS, len(ways))
        spread = [ways[(2 * i + 1) * len(ways) // (2 * count)] for i in range(count)]
        with open(paths, "w") as f:
            f.writelines("\t".join(way) + "\n" for way in spread)
        found, first, last = (once(asked, call, file, paths)[0] / count for call in ("find", "first", "last"))
        print(f"| {name}.lso | {len(ways[0])} | {found:,.0f} | {first:,.0f} | {first / found:,.0f} | {last:,.0f} | {last / found:,.0f} |", flush=True)


def bits_reversed(i):
    return int(f"{i:017b}"[::-1], 2)


def digits(rank):
    return "%06d" % rank


def alike(rank):
    return "aaa" + chr(rank >> 14) + chr(rank >> 7 & 127) + chr(rank & 127)


def orders(asked):
    """Names, the ranks of the keys in that order, and what makes a key of six bytes of a rank."""
    numbers = list(range(KEYS))
    yield "sorted", numbers, digits
    yield "reversed", numbers[::-1], digits
    yield "all equal", [0] * KEYS, digits
    yield "random", random.Random(1).sample(numbers, KEYS), digits
    yield "bits reversed", [bits_reversed(i) for i in numbers], digits
    done = subprocess.run([asked.worst, "make", str(KEYS)], capture_output=True, check=True)
    worst = list(map(int, done.stdout.split()))
    yield "the most comparisons found", worst, digits
    yield "the same, all with three bytes in common", worst, alike


def steps(asked, ranks):
    """The comparisons and the exchanges a key."""
    lines = "\n".join(map(str, ranks)).encode()
    return subprocess.run([asked.worst, "count", str(KEYS)], input=lines, capture_output=True, check=True).stdout.decode().split()


def sorting(asked):
    print(f"\nMaking the index of {KEYS:,} keys of six bytes in one object\n")
    print("| order | instructions | a key | comparisons a key | exchanges a key |\n|---|---|---|---|---|")
    file = os.path.join(asked.corpus, "order.amf")
    common.far("making orders of keys")
    for name, ranks, key in orders(asked):
        common.far(f"sorting keys: {name}")
        with open(file, "wb") as f:
            f.write(corpus.thing(*((key(r), b"\x05") for r in ranks)))
        made, keys = once(asked, "index", file)
        compared, exchanged = steps(asked, ranks)
        print(f"| {name} | {made:,.0f} | {made / keys:,.0f} | {compared} | {exchanged} |", flush=True)


def main():
    words = common.Words(__doc__)
    for name in ("counted", "plugin", "worst", "corpus"):
        words.add_argument(name)
    asked = words.parse_args()
    common.need("qemu-x86_64", asked.counted, asked.worst)
    for path in (asked.plugin, asked.corpus):
        os.stat(path)
    making(asked)
    looking_up(asked)
    sorting(asked)


if __name__ == "__main__":
    common.start(main)
