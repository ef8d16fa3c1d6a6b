"""What lso_show has to say of a refused input, made anew in Python: the place, why and where, the bytes there. It shares no code with the program, and goes
another way: it reads an input from its front, by recursion, up to the first field that is refused, where the program is told the place by the library and
walks there.

of_file(data), of_packet(data) and of_values(data) give the lines that must stand last, or none where nothing is refused. of_entries(data) gives the lines of a
refused cut, and of a cut that is accepted those of each entry. guess(data) is the word that says what the input is taken for where none is given."""
import functools
import unicodedata

LEVELS, LONGEST, INNERMOST = 32, 40, 4
NO_VALUES = {4: "04 (movie clip)", 9: "09 (object end)", 14: "0E (record set)"}
HIDDEN = ("Cc", "Cf", "Co", "Cs", "Zl", "Zp")
# What Unicode calls default ignorable (DerivedCoreProperties.txt).
IGNORABLE = [(0xAD, 0xAD), (0x34F, 0x34F), (0x61C, 0x61C), (0x115F, 0x1160), (0x17B4, 0x17B5), (0x180B, 0x180F), (0x200B, 0x200F), (0x202A, 0x202E)]
IGNORABLE += [(0x2060, 0x206F), (0x3164, 0x3164), (0xFE00, 0xFE0F), (0xFEFF, 0xFEFF), (0xFFA0, 0xFFA0), (0xFFF0, 0xFFF8), (0x1BCA0, 0x1BCA3)]
IGNORABLE += [(0x1D173, 0x1D17A), (0xE0000, 0xE0FFF)]
# Format characters of Unicode 14 and 15, which an older Python takes for unassigned; the blank of Braille; and the planes from the noncharacters of plane 3 on.
OTHERS = [(0x890, 0x891), (0x13430, 0x1343F), (0x2800, 0x2800), (0x3FFFE, 0x10FFFF)]
ESCAPES = {"\t": "\\t", "\n": "\\n", "\r": "\\r", '"': '\\"', "\\": "\\\\"}


class Broke(Exception):
    def __init__(self, answer, place, why, where="", wrong=None):
        super().__init__(answer, place, why, where, wrong)
        self.answer, self.place, self.why, self.where, self.wrong = self.args


@functools.lru_cache(maxsize=None)
def hidden(c):
    """Whether a character is not seen, or can't be told from another. It goes by Python's own tables."""
    point, category = ord(c), unicodedata.category(c)
    if category in HIDDEN or category == "Zs" and c != " ":
        return True
    if point & 0xFFFE == 0xFFFE or 0xFDD0 <= point <= 0xFDEF:
        return True
    return any(first <= point <= last for first, last in IGNORABLE + OTHERS)


@functools.lru_cache(maxsize=None)
def escape(c):
    if c in ESCAPES or not hidden(c):
        return ESCAPES.get(c, c)
    digits = c.encode("utf-16-be").hex()
    return "".join("\\u" + digits[i : i + 4] for i in range(0, len(digits), 4))


def escaped(text):
    return "".join(map(escape, text))


def quoted(text):
    if len(text) <= LONGEST:
        return f'"{escaped(text.decode())}"'
    return f'"{escaped(text[:LONGEST].decode(errors="ignore"))}"..'


def amount(n, thing):
    return f"{n} {thing}" if n == 1 else f"{n} {thing}s"


def of(names, outer):
    """A way, from the innermost name to what holds them all."""
    names = names[::-1]
    told = names[:INNERMOST] + ([".."] if INNERMOST < len(names) else []) + ([outer] if outer else [])
    return "".join(" of " + name for name in told)


class Walk:
    def __init__(self, data, called, at=0):
        self.data, self.called, self.at, self.spans = data, called, at, []

    def left(self):
        return len(self.data) - self.at

    def take(self, size, name, where):
        if self.left() < size:
            due = f"ends in the middle of {name} ({size} bytes are due, {self.left()} {'is' if self.left() == 1 else 'are'} there)"
            raise Broke(2, self.at, f"{self.called} {due if self.left() else f'ends where {name} is due'}", where)
        self.at += size
        return self.data[self.at - size : self.at]

    def number(self, size, name, where):
        return int.from_bytes(self.take(size, name, where), "big")

    def text(self, size, where):
        n = self.number(size, "a text's length", where)
        place = self.at
        text = self.take(n, "a text", where)
        try:
            text.decode()
        except UnicodeDecodeError as why:
            raise Broke(3, place, "text is not UTF-8", where, place + why.start)
        return text

    def fixed(self, want, name, why, where=""):
        place = self.at
        if self.take(len(want), name, where) != want:
            raise Broke(3, place, why, where)

    def version(self, where, other):
        place = self.at
        version = self.number(1, "the version", where)
        if version == 3 and other:
            raise Broke(7, place, "the packet has version 3 (AMF3)")
        if version:
            raise Broke(3, place, f"the version is {version}{' (AMF3)' if version == 3 else ''}, and 0 (AMF0) is due", where)

    def value(self, names, outer):
        where = ", in the value" + of(names, outer) if names or outer else ""
        place = self.at
        marker = self.number(1, "a value's marker", where)
        if marker in NO_VALUES:
            raise Broke(3, place, NO_VALUES[marker] + " is no value's marker", where)
        if LEVELS <= len(names):
            raise Broke(5, place, "a value stands at depth 33", where)
        if marker in (2, 12, 15):
            self.text(2 if marker == 2 else 4, where)
        elif marker == 10:
            self.items(names, outer, where)
        elif marker == 16:
            self.text(2, ", in the class name" + of(names, outer))
        for size, name in {
            0: [(8, "a number")],
            1: [(1, "a boolean")],
            7: [(2, "a reference's index")],
            8: [(4, "an ECMA array's length")],
            11: [(8, "a date"), (2, "a date's zone")],
        }.get(marker, []):
            self.take(size, name, where)
        if marker in (3, 8, 16):
            self.pairs(names, outer)

    def items(self, names, outer, where):
        place = self.at
        count = self.number(4, "an array's count", where)
        if self.left() < count:
            raise Broke(2, place, f"an array counts {amount(count, 'value')}, with only {amount(self.left(), 'byte')} left", where)
        for i in range(count):
            self.value(names + [f"item {i}"], outer)

    def key(self, before, around):
        return quoted(self.text(2, (f", in the key behind {before}" if before else ", in the first key") + around))

    def pairs(self, names, outer):
        before = None
        while True:
            before = self.key(before, of(names, outer))
            if self.data[self.at : self.at + 1] == b"\x09":
                self.at += 1
                return
            self.value(names + [before], outer)

    def header(self):
        where = ", in the file's header"
        self.fixed(b"\0\xbf", "00 BF", "00 BF is due at a file's beginning")
        self.take(4, "the stored length", where)
        self.fixed(b"TCSO\0\4\0\0\0\0", "the signature", "the signature TCSO 00 04 00 00 00 00 is due", where)
        self.text(2, ", in the file's name")
        for _ in range(3):
            self.fixed(b"\0", "padding", "a zero is due (padding)", where)
        self.version(where, False)

    def element(self, before):
        key = self.key(before, "")
        self.value([], key)
        self.fixed(b"\0", "a zero", "a zero is due", ", behind the value of " + key)
        return key

    def packet(self, cut):
        self.fixed(b"\0", "a zero", "a zero is due at a packet's beginning")
        self.version("", True)
        for number in range(self.number(2, "the count of headers", "")):
            name = quoted(self.text(2, f", in the name of header {number}"))
            self.take(1, "a header's flag", f", in the flag of header {number} {name}")
            self.entry(f"header {number} {name}", cut)
        for number in range(self.number(2, "the count of messages", "")):
            name = f"message {number} to " + quoted(self.text(2, f", in the target of message {number}"))
            self.text(2, ", in the response of " + name)
            self.entry(name, cut)
        self.end()

    def entry(self, name, cut):
        place, where = self.at, ", in the length of " + name
        length = self.number(4, "an entry's length", where)
        start = self.at
        if not cut:
            self.value([], name)
        elif length == 0xFFFFFFFF:
            self.value([], name)
            self.spans.append((start, self.at))
        elif self.left() < length:
            raise Broke(2, place, f"an entry declares {amount(length, 'byte')}, with only {amount(self.left(), 'byte')} left", where)
        else:
            self.spans.append((self.at, self.at + length))
            self.at += length

    def end(self):
        if self.left():
            raise Broke(3, self.at, f"bytes left over: {self.left()}")


def byte(place):
    return f"byte {place} (0x{place:X})"


def line(data, start):
    row = data[start : start + 16]
    letters = "".join(chr(b) if 0x20 <= b < 0x7F else "." for b in row)
    return f"{start:06X}" + (f"  {row.hex(' ').upper():47}  {letters}" if row else "")


def lines(data, broke, answer, indent=0, before=""):
    """The lines of a refusal: two lines of hex where there are as many, the place in the middle of them if it can be."""
    start = broke.place // 16 * 16
    column = broke.place - start
    rows = [line(data, start), " " * (8 + 3 * column) + "^^"]
    following = start + 16 < len(data)
    if start and (column < 8 or not following):
        rows.insert(0, line(data, start - 16))
    elif following:
        rows.append(line(data, start + 16))
    said = [f"refused at {byte(broke.place)}: {before}{broke.why}{broke.where} (answer {answer})"] + ["  " + row for row in rows]
    if broke.wrong not in (None, broke.place):
        said.append(f"the text breaks at {byte(broke.wrong)}")
    return [" " * indent + row for row in said]


def broken(walk, *words):
    try:
        walk(*words)
    except Broke as broke:
        return broke
    return None


def of_file(data):
    walk = Walk(data, "the file")
    broke = broken(walk.header)
    if broke:
        return lines(data, broke, broke.answer)
    key = None
    while walk.left():
        start = walk.at
        try:
            key = walk.element(key)
        except Broke as broke:
            if broke.answer == 5:
                return lines(data, broke, 5)
            return lines(data, broke, 3) + [f"the first element not read begins at {byte(start)}; left over: {amount(len(data) - start, 'byte')}"]
    return []


def of_packet(data):
    broke = broken(Walk(data, "the packet").packet, False)
    return lines(data, broke, broke.answer) if broke else []


def of_values(data):
    """Values one behind the other. Of more than one each stands below a line of its own."""
    walk = Walk(data, "the input")
    while True:
        indent = 2 if walk.at else 0
        broke = broken(walk.value, [], None)
        if broke:
            return lines(data, broke, broke.answer, indent)
        if not walk.left():
            return []


def are_values(data):
    """Whether the input is values to its end, with markers that AMF0 has."""
    walk = Walk(data, "the input")
    while walk.left():
        if 0x11 < data[walk.at] or broken(walk.value, [], None):
            return False
    return True


def guess(data):
    """The word for what an input is taken for, or None."""
    form = {b"\0\xbf": "lso", b"\0\0": "packet", b"\0\3": "packet"}.get(data[:2], "value" if data and data[0] <= 0x11 else None)
    if form in ("lso", "packet") and (of_file if form == "lso" else of_packet)(data) and are_values(data):
        return "value"
    return form


def of_entries(data):
    walk = Walk(data, "the packet")
    broke = broken(walk.packet, True)
    return (lines(data, broke, broke.answer), []) if broke else ([], [of_entry(data, *span) for span in walk.spans])


def of_entry(data, start, end):
    walk = Walk(data[:end], "it", start)
    broke = broken(walk.value, [], None) or broken(walk.end)
    if not broke:
        return []
    return lines(data, broke, 5, 4) if broke.answer == 5 else lines(data, broke, 9, 4, "the entry is damaged: ")
