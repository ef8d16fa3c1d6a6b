"""What the tools that hold the library against the Rust share: how to ask either side, and the trees of one in the form of the other.

The Rust is asked through ORACLE, a program over it that reads a case a line (`value HEX`, `lso HEX`, `lsoi HEX`, `packet HEX`, `packeti HEX`, `wvalue TREE`,
`wlso NAME BODY`, `wpacket PACKET`) and prints what the Rust makes of it: `ok`, the bytes used, the tree and what the writer puts out for it; or `no` and the
error; or `panic`. Its trees:

    n:BITS b:0 b:1 s:TEXT o{PAIRS} t:TEXT{PAIRS} e:LENGTH[VALUES]{PAIRS} a[VALUES] z u x r:INDEX d:BITS:ZONE d:BITS:- m:TEXT
    a file: {PAIRS}; a packet: [NAME:FLAG:TREE,..][TARGET:RESPONSE:TREE,..]; PAIRS: TEXT=TREE,..; all texts and numbers in hex"""
import functools
import subprocess
import tempfile

from common import Fault, load, run


def replay(frames):
    """The lines that the program `replay` prints for the frames (see tools/frames)."""
    if not frames:
        return []
    # Files and no pipes: the program puts a line out in many small pieces, and every piece would wake the reader of a pipe.
    with tempfile.TemporaryFile() as fed, tempfile.TemporaryFile() as told:
        fed.write(b"".join(frames))
        fed.seek(0)
        run("replay", stdin=fed, stdout=told)
        told.seek(0)
        lines = told.read().decode().splitlines()
    if len(lines) != len(frames):
        raise Fault("the program replay printed %d lines for %d cases" % (len(lines), len(frames)), 1)
    return lines


def oracle(path, cases):
    """The lines that the oracle prints for the cases, each as its words."""
    if not cases:
        return []
    done = subprocess.run([path], input="\n".join(cases).encode() + b"\n", capture_output=True, check=True)
    lines = [line.split() for line in done.stdout.decode(errors="replace").splitlines()]
    if len(lines) != len(cases) or not all(line[:1] in (["ok"], ["no"], ["panic"]) for line in lines):
        raise Fault("%s: it does not answer as a program over the Rust does (tools/rust.py says how)" % path)
    return lines


def number_of(name, words, length):
    """The number of a refusal by the Rust, as the rule "Answers" has it: 2 or 3, as its error says. For readings that need not use the whole input."""
    why = " ".join(words[1:])
    if "UnsupportedType" in why or "MapRes" in why:
        return 3
    if "Eof" in why or "TooLarge" in why:
        return 2
    # A fixed row of bytes that isn't there: too short, or wrong. In a file the first has two bytes and the signature ten, all others have one.
    left = int(why[why.rindex("(") + 1 :].split()[0])
    assert "Tag" in why, why
    wanted = {length: 2, length - 6: 10}.get(left, 1) if name.startswith("lso") else 1
    return 2 if left < wanted else 3


def filled(row, room, byte):
    """A row and then a byte up to the room, in the shorthand of lists of cases."""
    rest = room - len(row)
    if rest > 4:
        return (row.hex() + "+" if row else "") + "%02x*%d" % (byte, rest)
    return (row + bytes([byte]) * rest).hex() or "-"


def reading_line(operation, b, row, answer, used=0, image=b""):
    """A line of a list (see tools/frames) for a reading of a row in a buffer of three times its length."""
    room = 3 * len(row)
    return "%02X %d %d %s - = %d %d %d %s" % (operation, room, b, row.hex() or "-", answer, used, len(image), filled(image, room, 0))


@functools.cache
def lists():
    return load("lists")


def refusal_line(operation, b, row, answer):
    """A line of a list for a reading that is refused. Where it is refused neither the Rust nor any other program tells: the place is that of tools/model.py."""
    return reading_line(operation, b, row, answer, int(lists().said(operation, 3 * len(row), b, row, b"").split()[1]))


def writing_line(operation, b, image, text, out, spare=3):
    """A line of a list for a writing into a buffer a little longer than what is put out."""
    room = len(out) + spare
    return "%02X %d %d %s %s = 0 %d %s" % (operation, room, b, image.hex() or "-", text.hex() or "-", len(out), filled(out, room, 0x5A))


class Image:
    """An image, as a tree in the oracle's notation."""

    def __init__(self, image, text):
        self.image, self.text, self.at = image, text, 0

    def take(self, n):
        self.at += n
        return self.image[self.at - n : self.at]

    def number(self, n):
        return int.from_bytes(self.take(n), "big")

    def named(self, width):
        place = self.number(3)
        return self.text[place : place + self.number(width)].hex()

    def pairs(self, more):
        out = []
        while more(self):
            kind = self.number(1)
            assert kind == 0x20, kind
            key = self.named(2)
            out.append(key + "=" + self.tree())
        return "{" + ",".join(out) + "}"

    def closed(self):
        out = self.pairs(lambda i: i.image[i.at] != 0x09)
        self.take(1)
        return out

    def tree(self):
        kind = self.number(1)
        if kind == 0x00:
            return "n:" + self.take(8).hex()
        if kind == 0x01:
            return "b:%d" % self.number(1)
        if kind == 0x02:
            return "s:" + self.named(3)
        if kind == 0x03:
            return "o" + self.closed()
        if kind == 0x05:
            return "z"
        if kind == 0x06:
            return "u"
        if kind == 0x07:
            return "r:" + self.take(2).hex()
        if kind == 0x08:
            return "e:" + self.take(4).hex() + "[]" + self.closed()
        if kind == 0x0A:
            return "a[" + ",".join([self.tree() for _ in range(self.number(4))]) + "]"
        if kind == 0x0B:
            bits, present, zone = self.take(8).hex(), self.number(1), self.take(2).hex()
            return "d:" + bits + ":" + (zone if present else "-")
        if kind == 0x0D:
            return "x"
        if kind == 0x0F:
            return "m:" + self.named(3)
        assert kind == 0x10, kind
        return "t:" + self.named(2) + self.closed()

    def file(self):
        assert self.number(1) == 0x33
        length, name = self.take(4).hex(), self.named(2)
        return length + " " + (name or "-") + " " + self.pairs(lambda i: i.at < len(i.image))

    def packet(self):
        assert self.number(1) == 0x30
        headers, messages = self.number(2), self.number(2)
        rows = []
        for _ in range(headers):
            assert self.number(1) == 0x31
            name, flag = self.named(2), self.number(1)
            rows.append("%s:%d:%s" % (name, flag, self.tree()))
        out = "[" + ",".join(rows) + "]"
        rows = []
        for _ in range(messages):
            assert self.number(1) == 0x32
            target, response = self.named(2), self.named(2)
            rows.append("%s:%s:%s" % (target, response, self.tree()))
        return out + "[" + ",".join(rows) + "]"

    def all(self, shape):
        out = shape(self)
        assert self.at == len(self.image), "records past the tree"
        return out


class Laid:
    """A tree that the Rust read, as an image. What is laid is the tree; of the input only the width of each text's length is looked at, and where the next
    value begins, for the places. A text that isn't at its place, or a marker that doesn't fit the tree, is an error."""

    def __init__(self, tree, data, at=0, base=0):
        self.tree, self.next, self.data, self.at, self.base, self.image = tree, 0, data, at, base, bytearray()

    def peek(self, word):
        return self.tree.startswith(word, self.next)

    def eat(self, word):
        assert self.peek(word), (self.tree[self.next :], word)
        self.next += len(word)

    def digits(self):
        start = self.next
        while self.next < len(self.tree) and self.tree[self.next] in "0123456789abcdef":
            self.next += 1
        return bytes.fromhex(self.tree[start : self.next])

    def skip(self, row):
        assert self.data[self.at : self.at + len(row)] == row, (self.at, row.hex())
        self.at += len(row)

    def text(self, width):
        """A text of the tree, behind a length of so many bytes in the input: its place and its length."""
        text = self.digits()
        self.skip(len(text).to_bytes(width, "big"))
        place = self.at + self.base
        self.skip(text)
        return place.to_bytes(3, "big"), len(text)

    def lay(self, *rows):
        for row in rows:
            self.image.extend(row)

    def named(self, kind):
        place, length = self.text(2)
        self.lay(bytes([kind]), place, length.to_bytes(2, "big"))

    def rows(self, close, one):
        """Lays the rows of a list, and says how many there were."""
        count = 0
        while not self.peek(close):
            one()
            count += 1
            if not self.peek(close):
                self.eat(",")
        self.eat(close)
        return count

    def pair(self):
        self.named(0x20)
        self.eat("=")
        self.value()

    def pairs(self):
        self.eat("{")
        self.rows("}", self.pair)
        self.at += 2 + int.from_bytes(self.data[self.at : self.at + 2], "big")
        self.skip(b"\x09")
        self.lay(b"\x09")

    def value(self):
        kind = self.tree[self.next]
        self.next += 1
        marker = self.data[self.at]
        self.at += 1
        allowed = {"n": (0,), "b": (1,), "s": (2, 12), "o": (3,), "z": (5,), "u": (6,), "r": (7,), "e": (8,), "a": (10,), "d": (11,), "m": (15,), "t": (16,)}
        assert marker in allowed[kind] if kind != "x" else marker == 13 or marker > 16, (kind, marker)
        if kind in "nbsrdmte":
            self.eat(":")
        if kind == "n":
            bits = self.digits()
            self.lay(b"\x00", bits)
            self.skip(bits)
        elif kind == "b":
            self.lay(b"\x01", bytes([self.peek("1")]))
            self.next += 1
            self.at += 1
        elif kind in "sm":
            place, length = self.text(2 if marker == 2 else 4)
            self.lay(b"\x02" if kind == "s" else b"\x0f", place, length.to_bytes(3, "big"))
        elif kind == "r":
            index = self.digits()
            self.lay(b"\x07", index)
            self.skip(index)
        elif kind == "d":
            bits = self.digits()
            self.eat(":")
            zone = self.digits()
            self.lay(b"\x0b", bits, b"\x01", zone)
            self.skip(bits + zone)
        elif kind == "o":
            self.lay(b"\x03")
            self.pairs()
        elif kind == "t":
            self.named(0x10)
            self.pairs()
        elif kind == "e":
            length = self.digits()
            self.eat("[]")
            self.lay(b"\x08", length)
            self.skip(length)
            self.pairs()
        elif kind == "a":
            self.eat("[")
            self.at += 4
            self.lay(b"\x0a", bytes(4))
            place = len(self.image)
            self.image[place - 4 : place] = self.rows("]", self.value).to_bytes(4, "big")
        else:
            self.lay({"z": b"\x05", "u": b"\x06", "x": b"\x0d"}[kind])

    def element(self):
        self.pair()
        self.skip(b"\0")

    def file(self):
        """The words LENGTH NAME BODY."""
        length = self.digits()
        self.eat(" ")
        if self.peek("-"):
            self.eat("-")
        self.skip(b"\0\xbf" + length)
        self.at += 10
        place, n = self.text(2)
        self.lay(b"\x33", length, place, n.to_bytes(2, "big"))
        self.at += 4
        self.eat(" {")
        self.rows("}", self.element)

    def header(self):
        self.named(0x31)
        self.eat(":")
        self.lay(bytes([self.peek("1")]))
        self.next += 1
        self.at += 5
        self.eat(":")
        self.value()

    def message(self):
        self.named(0x32)
        self.eat(":")
        place, n = self.text(2)
        self.lay(place, n.to_bytes(2, "big"))
        self.at += 4
        self.eat(":")
        self.value()

    def packet(self):
        self.at += 4
        self.lay(b"\x30", bytes(4))
        self.eat("[")
        self.image[1:3] = self.rows("]", self.header).to_bytes(2, "big")
        self.at += 2
        self.eat("[")
        self.image[3:5] = self.rows("]", self.message).to_bytes(2, "big")

    def all(self, shape):
        shape(self)
        assert self.next == len(self.tree), self.tree[self.next :]
        return bytes(self.image)
