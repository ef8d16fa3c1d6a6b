"""The rules of docs/DEMANDS.md on readings, writings and the key index, written down once more in Python: plain and slow. It shares no code with the
library, but it has the same author, who read the rules in the same way: it finds slips, and no misreading.

read_value(input, room) gives (answer, used, made, image), the image as it stands after the call; where it is refused, `used` is the place of the refusal.
write_value(image, text, out) gives (answer, count, output), likewise; make_index(image, text, room) gives (answer, count, index), likewise. find(image, text,
index, path) and step(image, text, index, container, key) give a place of the image, or None. put_numbers(image, made, numbers) gives (answer, made, image)."""

LIMIT, LEVELS, IMAGE_LIMIT = 1048576, 32, 3145728


class Refused(Exception):
    """A refusal: its answer, and its place, where it is one of a reading."""

    def __init__(self, answer, place=0):
        super().__init__(answer, place)
        self.answer, self.place = answer, place


class Reading:
    """A place in an input, and an image that records are laid into. Places that are told count from `base` on."""

    def __init__(self, data, room, base=0):
        self.data, self.room, self.base, self.at, self.image = data, room, base, 0, b""

    def place(self):
        return self.at + self.base

    def take(self, n):
        """A field of n bytes. One that isn't whole is refused at the place where it begins."""
        if len(self.data) - self.at < n:
            raise Refused(2, self.place())
        self.at += n
        return self.data[self.at - n : self.at]

    def number(self, width):
        return int.from_bytes(self.take(width), "big")

    def text(self, width):
        n = self.number(width)
        place = self.place()
        try:
            self.take(n).decode("utf-8", "strict")
        except UnicodeDecodeError:
            raise Refused(3, place)
        return place, n

    def due(self, record, place):
        """A record is due; where it doesn't fit, `place` is what is named."""
        if self.room < len(self.image) + len(record):
            raise Refused(4, place)
        self.image += record


def big(n, width):
    return n.to_bytes(width, "big")


def value(r, depth):
    begun = r.place()
    marker = r.number(1)
    if marker in (4, 9, 14):
        raise Refused(3, begun)
    if depth > LEVELS:
        raise Refused(5, begun)
    if marker == 0:
        r.due(b"\0" + r.take(8), begun)
    elif marker == 1:
        r.due(b"\1" + (b"\1" if r.number(1) else b"\0"), begun)
    elif marker in (2, 12, 15):
        place, n = r.text(2 if marker == 2 else 4)
        r.due(bytes([15 if marker == 15 else 2]) + big(place, 3) + big(n, 3), begun)
    elif marker in (5, 6):
        r.due(bytes([marker]), begun)
    elif marker == 7:
        r.due(b"\7" + r.take(2), begun)
    elif marker == 11:
        time, zone = r.take(8), r.take(2)
        r.due(b"\x0b" + time + b"\1" + zone, begun)
    elif marker == 3:
        r.due(b"\3", begun)
        pairs(r, depth)
    elif marker == 8:
        r.due(b"\x08" + r.take(4), begun)
        pairs(r, depth)
    elif marker == 16:
        place, n = r.text(2)
        r.due(b"\x10" + big(place, 3) + big(n, 2), begun)
        pairs(r, depth)
    elif marker == 10:
        field = r.place()
        count = r.number(4)
        if count > len(r.data) - r.at:
            raise Refused(2, field)
        r.due(b"\x0a" + big(count, 4), begun)
        for _ in range(count):
            value(r, depth + 1)
    else:
        r.due(b"\x0d", begun)


def pairs(r, depth):
    while True:
        key = r.place()
        place, n = r.text(2)
        behind = r.place()
        if r.number(1) == 9:
            r.due(b"\x09", behind)
            return
        r.at -= 1
        r.due(b"\x20" + big(place, 3) + big(n, 2), key)
        value(r, depth + 1)


def refused(why, room):
    """What a refused reading comes to: answer, place, no image bytes, and zeros."""
    return why.answer, why.place, 0, bytes(room)


def outcome(data, room, read, whole=False):
    """What a reading comes to: answer, bytes used, image bytes, and the image."""
    r = Reading(data, room)
    try:
        if len(data) > LIMIT:
            raise Refused(1)
        read(r)
        if whole and r.at < len(data):
            raise Refused(3, r.place())
    except Refused as why:
        return refused(why, room)
    return 0, r.at, len(r.image), r.image + bytes(room - len(r.image))


def read_value(data, room):
    return outcome(data, room, lambda r: value(r, 1))


VALUES = (0, 1, 2, 3, 5, 6, 7, 8, 10, 11, 13, 15, 16)
BODIES = {0: 8, 1: 1, 2: 6, 15: 6, 3: 0, 5: 0, 6: 0, 9: 0, 13: 0, 7: 2, 8: 4, 10: 4, 11: 11, 16: 5, 32: 5}


class Writing:
    """A place in an image, and the bytes put out so far."""

    def __init__(self, image, text):
        self.image, self.text, self.at, self.out = image, text, 0, []

    def kind(self):
        return self.image[self.at] if self.at < len(self.image) else None

    def body(self):
        n = BODIES[self.image[self.at]]
        body = self.image[self.at + 1 : self.at + 1 + n]
        if len(body) < n:
            raise Refused(6)
        self.at += 1 + n
        return body

    def named(self, place, length):
        place, length = (int.from_bytes(b, "big") for b in (place, length))
        if place + length > len(self.text):
            raise Refused(6)
        text = self.text[place : place + length]
        try:
            text.decode("utf-8", "strict")
        except UnicodeDecodeError:
            raise Refused(6)
        return text

    def put(self, *rows):
        self.out.extend(rows)


def put_value(w, depth):
    kind = w.kind()
    if kind not in VALUES:
        raise Refused(6)
    if depth > LEVELS:
        raise Refused(5)
    body = w.body()
    if kind == 1 and body[0] > 1:
        raise Refused(6)
    if kind in (2, 15):
        text = w.named(body[:3], body[3:])
        short = kind == 2 and len(text) < 65536
        w.put(bytes([2 if short else 12 if kind == 2 else 15]), big(len(text), 2 if short else 4), text)
    elif kind == 16:
        text = w.named(body[:3], body[3:])
        w.put(b"\x10", big(len(text), 2), text)
    elif kind == 11:
        if body[8] > 1 or (body[8] == 0 and body[9:] != b"\0\0"):
            raise Refused(6)
        w.put(b"\x0b", body[:8], body[9:])
    else:
        w.put(bytes([kind]), body)
    if kind == 10:
        for _ in range(int.from_bytes(body, "big")):
            put_value(w, depth + 1)
    if kind == 8:
        index = 0
        while w.kind() in VALUES:
            key = str(index).encode()
            w.put(big(len(key), 2), key)
            put_value(w, depth + 1)
            index += 1
    if kind in (3, 8, 16):
        put_pairs(w, depth)


def put_pairs(w, depth):
    while True:
        kind = w.kind()
        if kind not in (9, 32):
            raise Refused(6)
        body = w.body()
        if kind == 9:
            w.put(b"\0\0\x09")
            return
        key = w.named(body[:3], body[3:])
        w.put(big(len(key), 2), key)
        put_value(w, depth + 1)


def written(image, text, out, write):
    """What a writing comes to: answer, count, and the output."""
    try:
        if len(text) > LIMIT or len(image) > IMAGE_LIMIT:
            raise Refused(1)
        w = Writing(image, text)
        write(w)
        if w.at < len(image):
            raise Refused(6)
        done = b"".join(w.out) if sum(map(len, w.out)) <= LIMIT else None
        if done is None:
            raise Refused(1)
        if len(done) > len(out):
            raise Refused(4)
    except Refused as why:
        return why.answer, 0, out
    return 0, len(done), done + out[len(done) :]


def write_value(image, text, out):
    return written(image, text, out, lambda w: put_value(w, 1))


HEADER = b"\x00\xbf"
SIGNATURE = b"TCSO\0\x04\0\0\0\0"


def fixed(r, want):
    field = r.place()
    if r.take(len(want)) != want:
        raise Refused(3, field)


def file(r):
    fixed(r, HEADER)
    length = r.take(4)
    fixed(r, SIGNATURE)
    place, n = r.text(2)
    for _ in range(4):
        fixed(r, b"\0")
    r.due(b"\x33" + length + big(place, 3) + big(n, 2), 0)
    while True:
        at, image, key = r.at, r.image, r.place()
        try:
            place, n = r.text(2)
            r.due(b"\x20" + big(place, 3) + big(n, 2), key)
            value(r, 1)
            fixed(r, b"\0")
        except Refused as why:
            if why.answer not in (2, 3):
                raise
            r.at, r.image = at, image
            return


def read_file(data, room, whole):
    return outcome(data, room, file, whole)


BODIES[51] = 9


def put_file(w):
    if w.kind() != 0x33:
        raise Refused(6)
    body = w.body()
    name = w.named(body[4:7], body[7:])
    while w.at < len(w.image):
        if w.kind() != 0x20:
            raise Refused(6)
        body = w.body()
        key = w.named(body[:3], body[3:])
        w.put(big(len(key), 2), key)
        put_value(w, 1)
        w.put(b"\0")
    length = 16 + len(name) + sum(map(len, w.out))
    w.out[:0] = [HEADER, big(length % 2**32, 4), SIGNATURE, big(len(name), 2), name, b"\0\0\0\0"]


def write_file(image, text, out):
    return written(image, text, out, put_file)


def head(r, kind):
    """An entry's fields before its value: its texts, its flag, and the place of the length that it declares and that length."""
    first = r.text(2)
    second, flag = (0, 0), 0
    if kind == 0x31:
        flag = int(r.number(1) != 0)
    else:
        second = r.text(2)
    return first, second, flag, (r.place(), r.number(4))


def opening(r):
    fixed(r, b"\0")
    field = r.place()
    version = r.number(1)
    if version:
        raise Refused(7 if version == 3 else 3, field)


def packet(r):
    opening(r)
    headers = r.number(2)
    r.due(b"\x30" + big(headers, 2) + b"\0\0", 0)
    entries(r, 0x31, headers)
    messages = r.number(2)
    r.image = r.image[:3] + big(messages, 2) + r.image[5:]
    entries(r, 0x32, messages)


def entries(r, kind, count):
    for _ in range(count):
        begun = r.place()
        first, second, flag, _ = head(r, kind)
        named = big(first[0], 3) + big(first[1], 2)
        r.due(bytes([kind]) + named + (bytes([flag]) if kind == 0x31 else big(second[0], 3) + big(second[1], 2)), begun)
        value(r, 1)


def read_packet(data, room, whole):
    return outcome(data, room, packet, whole)


UNKNOWN = 0xFFFFFFFF


class Measuring(Reading):
    """A reading that makes no records, so that it needs no room."""

    def __init__(self, data, at):
        super().__init__(data, 0)
        self.at = at

    def due(self, record, place):
        pass


def measure(data, at):
    """The length of the value at a place, which is read there."""
    r = Measuring(data, at)
    value(r, 1)
    return r.at - at


def cut(data):
    """The entries by declared lengths, or by measured ones where these are not known, each as (kind, flag, first, second, (place, length))."""
    if len(data) > LIMIT:
        raise Refused(1)
    r = Reading(data, 0)
    opening(r)
    found = []
    for kind in (0x31, 0x32):
        for _ in range(r.number(2)):
            first, second, flag, (field, length) = head(r, kind)
            if length == UNKNOWN:
                length = measure(data, r.at)
            if length > len(data) - r.at:
                raise Refused(2, field)
            found.append((kind, flag, first, second, (r.at, length)))
            r.take(length)
    if r.at < len(data):
        raise Refused(3, r.place())
    return found


NO_ENTRY = (0, 0, (0, 0), (0, 0), (0, 0))


def cut_list(data, room):
    try:
        found = cut(data)
        if len(found) > room:
            raise Refused(4)
    except Refused as why:
        return why.answer, why.place, 0, [NO_ENTRY] * room
    return 0, len(data), len(found), found + [NO_ENTRY] * (room - len(found))


def find_entry(data, number):
    found = cut(data)
    if number >= len(found):
        raise Refused(8)
    return found[number]


def nth(data, number):
    """Answer, place of the refusal, and the entry."""
    try:
        return 0, 0, find_entry(data, number)
    except Refused as why:
        return why.answer, why.place, NO_ENTRY


def read_span(data, place, length, room):
    """Reads the value of a part of a packet: what stands there alone, with places that count from the packet's start."""
    try:
        if len(data) > LIMIT:
            raise Refused(1)
        if place + length > len(data):
            raise Refused(8)
        r = Reading(data[place : place + length], room, place)
        value(r, 1)
        if r.at < length:
            raise Refused(3, r.place())
    except Refused as why:
        return refused(Refused({2: 9, 3: 9}.get(why.answer, why.answer), why.place), room)
    return 0, length, len(r.image), r.image + bytes(room - len(r.image))


def read_entry(data, number, room):
    try:
        _, _, _, _, (place, length) = find_entry(data, number)
    except Refused as why:
        return refused(why, room)
    return read_span(data, place, length, room)


BODIES.update({48: 4, 49: 6, 50: 10})


def put_packet(w, exact):
    if w.kind() != 0x30:
        raise Refused(6)
    counts = w.body()
    w.put(b"\0\0")
    for kind, count in ((0x31, counts[:2]), (0x32, counts[2:])):
        w.put(count)
        for _ in range(int.from_bytes(count, "big")):
            put_entry(w, kind, exact)


def write_packet(image, text, exact, out):
    return written(image, text, out, lambda w: put_packet(w, exact))


def put_entry(w, kind, exact):
    if w.kind() != kind:
        raise Refused(6)
    body = w.body()
    first = w.named(body[:3], body[3:5])
    w.put(big(len(first), 2), first)
    if kind == 0x31:
        if body[5] > 1:
            raise Refused(6)
        w.put(body[5:])
    else:
        second = w.named(body[5:8], body[8:])
        w.put(big(len(second), 2), second)
    rest, w.out = w.out, []
    put_value(w, 1)
    size = sum(map(len, w.out))
    w.out = rest + [big(size % 2**32, 4) if exact else b"\xff\xff\xff\xff"] + w.out


def inside(data, place, length):
    return place + length <= len(data)


def part(data, place, length):
    return data[place : place + length] if inside(data, place, length) else b""


# ---- the rule "Key index"


def walk_value(w, depth, found):
    """Goes over a value by the writer's rules, and puts nothing out. The keys that it meets are added to `found`, each as its container's place, its bytes,
    its place, its value's place and its value's depth."""
    place, kind = w.at, w.kind()
    if kind not in VALUES:
        raise Refused(6)
    if depth > LEVELS:
        raise Refused(5)
    body = w.body()
    if not right(kind, body):
        raise Refused(6)
    if kind in (2, 15, 16):
        w.named(body[:3], body[3:])
    if kind == 10:
        for _ in range(int.from_bytes(body, "big")):
            walk_value(w, depth + 1, found)
    if kind == 8:
        while w.kind() in VALUES:
            walk_value(w, depth + 1, found)
    if kind in (3, 8, 16):
        while w.kind() == 0x20:
            walk_pair(w, place, depth + 1, found)
        if w.kind() != 9:
            raise Refused(6)
        w.body()


def walk_pair(w, container, depth, found):
    place = w.at
    body = w.body()
    found.append((container, w.named(body[:3], body[3:]), place, w.at, depth))
    walk_value(w, depth, found)


def walk_file(w, found):
    body = w.body()
    w.named(body[4:7], body[7:])
    while w.at < len(w.image):
        if w.kind() != 0x20:
            raise Refused(6)
        walk_pair(w, 0, 1, found)


def make_index(image, text, room):
    """Answer, number of records, and the index as it stands after the call."""
    w, found = Writing(image, text), []
    try:
        if len(text) > LIMIT or len(image) > IMAGE_LIMIT:
            raise Refused(1)
        if w.kind() == 0x33:
            walk_file(w, found)
        else:
            walk_value(w, 1, found)
        if w.at < len(image):
            raise Refused(6)
        if 13 * len(found) > room:
            raise Refused(4)
    except Refused as why:
        return why.answer, 0, bytes(room)
    # By container, then by the key's bytes, then by place; Python compares rows of bytes as the request says.
    rows = [big(depth, 1) + big(container, 4) + big(key, 4) + big(place, 4) for container, _, key, place, depth in sorted(found)]
    return 0, len(found), b"".join(rows) + bytes(room - 13 * len(found))


def right(kind, body):
    """Whether a whole body is one that its kind can have: booleans and flags are 00 or 01, and an absent zone is 0."""
    if kind == 1:
        return body[0] <= 1
    if kind == 11:
        return body[8] == 1 or body[8:] == b"\0\0\0"
    return kind != 0x31 or body[5] <= 1


def record_at(image, place):
    """The whole and right record that stands at a place: its kind, its body and where it ends; or None. Its texts are not looked at."""
    if place >= len(image) or image[place] not in BODIES:
        return None
    kind, end = image[place], place + 1 + BODIES[image[place]]
    body = image[place + 1 : end]
    return (kind, body, end) if end <= len(image) and right(kind, body) else None


# The fields of a kind, each by its bytes; a kind that has none is not here.
WIDTHS = {0: (8,), 1: (1,), 2: (3, 3), 15: (3, 3), 7: (2,), 8: (4,), 10: (4,), 11: (8, 1, 2), 16: (3, 2), 32: (3, 2)}
WIDTHS.update({48: (2, 2), 49: (3, 2, 1), 50: (3, 2, 3, 2), 51: (4, 3, 2)})


def told(kind, *fields):
    """The bytes of the record that five numbers tell, its kind and its fields, with 0 for a field that it has not; or None."""
    widths = WIDTHS.get(kind, ())
    if kind not in BODIES or any(fields[len(widths) :]) or any(n >> 8 * width for n, width in zip(fields, widths)):
        return None
    body = b"".join(big(n, width) for n, width in zip(fields, widths))
    return big(kind, 1) + body if right(kind, body) else None


def put_numbers(image, made, numbers):
    """What laying the record that numbers tell behind the made bytes of an image comes to: answer, bytes made, and the image."""
    record = told(*numbers)
    if record is None:
        return 6, made, image
    end = made + len(record)
    return (0, end, image[:made] + record + image[end:]) if end <= len(image) else (4, made, image)


def key_at(image, text, place):
    """The bytes of the key whose record stands at a place, and where that record ends; or None."""
    kind, body, end = record_at(image, place) or (None, b"", 0)
    start, length = int.from_bytes(body[:3], "big"), int.from_bytes(body[3:], "big")
    return (text[start : start + length], end) if kind == 0x20 and start + length <= len(text) else None


def step(image, text, index, container, key):
    """The place of the value that a container has under a key, as the index says, or None."""
    kind, _, _ = record_at(image, container) or (None, b"", 0)
    if kind not in (3, 8, 16) and not (kind == 0x33 and container == 0):
        return None

    def fields(number):
        row = index[13 * number : 13 * number + 13]
        return row[0], *(int.from_bytes(row[i : i + 4], "big") for i in (1, 5, 9))

    def after(number):
        depth, at, key_place, _ = fields(number)
        named, _ = key_at(image, text, key_place) or (b"", 0)
        return depth == 0 or at > container or (at == container and named > key)

    low, high = 0, len(index) // 13
    while low < high:
        mid = (low + high) // 2
        if after(mid):
            high = mid
        else:
            low = mid + 1
    if low == 0:
        return None
    _, at, key_place, place = fields(low - 1)
    kind, _, _ = record_at(image, place) or (None, b"", 0)
    return place if at == container and key_at(image, text, key_place) == (key, place) and kind in VALUES else None


def find(image, text, index, path):
    """The place of the value that a path leads to, or None. A path is a row of keys, each behind its length in two bytes."""
    kind, _, _ = record_at(image, 0) or (None, b"", 0)
    if kind != 0x33 and kind not in VALUES:
        return None
    place = 0
    while path:
        length = int.from_bytes(path[:2], "big")
        if len(path) < 2 + length:
            return None
        place = step(image, text, index, place, path[2 : 2 + length])
        if place is None:
            return None
        path = path[2 + length :]
    return place
