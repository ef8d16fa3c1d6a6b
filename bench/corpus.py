#!/usr/bin/env python3
"""corpus.py OUT: makes the files that the library and the Rust are measured on, always the same, in
the folder OUT. NAME.lso are files, NAME.amf values, NAME.amfp packets with exact lengths.

Needs: python3 alone.
Status: 0 made; 2 wrong words, or a folder that can't be written."""
import os
import struct
import sys

sys.dont_write_bytecode = True
sys.path.insert(0, os.path.join(os.path.dirname(os.path.abspath(__file__)), "..", "tools"))
import common


def text(s, width=2):
    b = s.encode()
    return len(b).to_bytes(width, "big") + b


def number(x):
    return b"\x00" + struct.pack(">d", x)


def string(s):
    return b"\x02" + text(s)


def pairs(items):
    return b"".join(text(k) + v for k, v in items) + b"\x00\x00\x09"


def thing(*items):
    return b"\x03" + pairs(items)


def array(values):
    return b"\x0a" + struct.pack(">I", len(values)) + b"".join(values)


def lso(name, items):
    body = text(name) + b"\x00\x00\x00\x00" + b"".join(text(k) + v + b"\x00" for k, v in items)
    return b"\x00\xbf" + struct.pack(">I", 10 + len(body)) + b"TCSO\x00\x04\x00\x00\x00\x00" + body


def shelf(i):
    return thing(
        ("code", string("%013d" % (4006381300000 + i))),
        ("name", string("Article number %d" % i)),
        ("cents", number(100 + i)),
        ("shown", b"\x01\x01"),
        ("updated", b"\x0b" + struct.pack(">d", 1.7e12 + i) + b"\x00\x00"),
    )


def shelves(n):
    return [("A-%05d" % i, shelf(i)) for i in range(n)]


SHELVES = 16  # of a store


def stores(n):
    """So many shelves, in stores: three levels of keys."""
    return [("S-%04d" % s, thing(*[("A-%05d" % i, shelf(i)) for i in range(s, min(s + SHELVES, n))])) for s in range(0, n, SHELVES)]


# The files on which the key index is measured, with the paths that can be looked up there: of one key, and of three.
LOOKED_UP = {"shelves" + name: [("A-%05d" % i,) for i in range(n)] for name, n in [("1K", 8), ("64K", 552), ("1M", 8832)]}
LOOKED_UP |= {"stores" + name: [("S-%04d" % (i - i % SHELVES), "A-%05d" % i, "cents") for i in range(n)] for name, n in [("1K", 8), ("64K", 552), ("1M", 8832)]}


def nest(levels):
    v = number(1)
    for i in range(levels):
        v = thing(("level", number(i)), ("next", v), ("name", string("nested %d" % i)))
    return v


def packet(messages):
    out = b"\x00\x00\x00\x00" + struct.pack(">H", len(messages))
    for target, value in messages:
        out += text(target) + text("/1") + struct.pack(">I", len(value)) + value
    return out


def main():
    words = common.Words(__doc__)
    words.add_argument("out")
    out = words.parse_args().out
    os.makedirs(out, exist_ok=True)

    def save(name, data):
        with open(os.path.join(out, name), "wb") as f:
            f.write(data)

    kinds = [
        ("number", number(12.5)),
        ("yes", b"\x01\x01"),
        ("word", string("a short text")),
        ("object", thing(("a", number(1)), ("b", string("two")))),
        ("null", b"\x05"),
        ("undefined", b"\x06"),
        ("ecma", b"\x08\x00\x00\x00\x02" + pairs([("0", number(0)), ("1", number(1))])),
        ("strict", array([number(1), string("x"), b"\x05"])),
        ("date", b"\x0b" + struct.pack(">d", 1.7e12) + b"\x00\x00"),
        ("xml", b"\x0f" + text("<a>some</a>", 4)),
        ("typed", b"\x10" + text("Price") + pairs([("cents", number(199))])),
        ("unsupported", b"\x0d"),
    ]
    ascii_text = "The quick brown fox jumps over the lazy dog. " * 180
    other_text = "Größe: süße Äpfel, 1 kg für 2,99 €. " * 180
    samples = {
        "small": kinds,
        "deep": [("tree%d" % i, nest(30)) for i in range(3)],
        "text": [("text%d" % i, string(ascii_text)) for i in range(4)],
        "umlauts": [("text%d" % i, string(other_text)) for i in range(4)],
        "array": [("numbers", array([number(i) for i in range(2000)]))],
    }
    for name, items in samples.items():
        save(name + ".lso", lso(name, items))
        save(name + ".amf", thing(*items))
    for name, n in [("1K", 8), ("4K", 34), ("16K", 138), ("64K", 552), ("256K", 2208), ("1M", 8832)]:
        save("shelves%s.lso" % name, lso("shelves", shelves(n)))
        save("shelves%s.amf" % name, thing(*shelves(n)))
    for name, n in [("1K", 8), ("64K", 552), ("1M", 8832)]:
        save("stores%s.lso" % name, lso("stores", stores(n)))
    for name, n in [("1K", 8), ("16K", 124), ("256K", 2000)]:
        save("shelves%s.amfp" % name, packet([("/shelf/A-%05d" % i, shelf(i)) for i in range(n)]))


if __name__ == "__main__":
    common.start(main)
