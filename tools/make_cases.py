#!/usr/bin/env python3
"""Makes the data of the crate `cases`: questions to the crates `column` and `utf8`, each with its answer.

    python3 tools/make_cases.py

writes crates/cases/data/cases.txt (single calls) and crates/cases/data/digests.txt (digests of the answers to all
strings of at most two bytes). The same files come out each time.

The answers come from a model of its own, below. It is written from the rules of docs/COLUMNS.md and not from the code
of the crates, and Python's own strict UTF-8 decoder judges text. It needs Python's standard library alone.
"""

from pathlib import Path

DATA = Path(__file__).resolve().parent.parent / "crates" / "cases" / "data"

# The model

WIDTHS = (1, 8, 16, 32, 64)
ROOM, SHORT, BAD = "room", "short", "bad"
LAST_LAYER = 65535
LONGEST_FORM = 10


class Refusal(Exception):
    """A column's refusal: its cause, and the layer that found it."""

    def __init__(self, cause, layer):
        super().__init__(cause, layer)
        self.cause = cause
        self.layer = layer


def flat_put(width, value):
    return value.to_bytes(1 if width == 1 else width // 8, "little")


def flat_take(width, data):
    """The value that the bytes begin with, and its size. A string tells why there is none."""
    size = 1 if width == 1 else width // 8
    if len(data) < size:
        return SHORT, 0
    value = int.from_bytes(data[:size], "little")
    if width == 1 and value > 1:
        return BAD, 0
    return value, size


def short_put(_width, value):
    groups = [value & 127]
    value >>= 7
    while value:
        groups.append(value & 127)
        value >>= 7
    return bytes([group | 128 for group in groups[:-1]] + groups[-1:])


def short_take(width, data):
    """The same for the short kind: a form is judged when it is whole."""
    value = 0
    for place, byte in enumerate(data[:LONGEST_FORM]):
        value |= (byte & 127) << (7 * place)
        if byte < 128:
            return (value, place + 1) if value < 1 << width else (BAD, 0)
    return (SHORT, 0) if len(data) < LONGEST_FORM else (BAD, 0)


PUT = {"flat": flat_put, "short": short_put}
TAKE = {"flat": flat_take, "short": short_take}


def image(kind, width, values):
    """The bytes of values that the width admits."""
    head, _, lower = kind.partition("/")
    if head == "steps":
        return image(lower, width, differences(width, values))
    return b"".join(PUT[head](width, value) for value in values)


def differences(width, values):
    return [(value - last) % (1 << width) for last, value in zip([0] + values, values)]


def sums(width, steps):
    values, last = [], 0
    for step in steps:
        last = (last + step) % (1 << width)
        values.append(last)
    return values


def write(kind, layer, width, values, output, place):
    """Puts the values' image at a place of the output, a bytearray, and gives its length."""
    if width not in WIDTHS or any(value >= 1 << width for value in values):
        raise Refusal(BAD, layer)
    head, _, lower = kind.partition("/")
    if head == "steps":
        return write(lower, min(layer + 1, LAST_LAYER), width, differences(width, values), output, place)
    data = image(kind, width, values)
    if place + len(data) > len(output):
        raise Refusal(ROOM, layer)
    output[place:place + len(data)] = data
    return len(data)


def read(kind, layer, width, count, data, place):
    """The values at a place of the bytes, and how many bytes they took."""
    if width not in WIDTHS:
        raise Refusal(BAD, layer)
    head, _, lower = kind.partition("/")
    if head == "steps":
        steps, used = read(lower, min(layer + 1, LAST_LAYER), width, count, data, place)
        return sums(width, steps), used
    if place > len(data):
        raise Refusal(SHORT, layer)
    take, at, values = TAKE[head], place, []
    for _ in range(count):
        value, size = take(width, data[at:])
        if value in (SHORT, BAD):
            raise Refusal(value, layer)
        values.append(value)
        at += size
    return values, at - place


def well_formed(data):
    try:
        data.decode("utf-8")
    except UnicodeDecodeError:
        return False
    return True


# Digests: 64-bit FNV-1a

FNV_START = 0xCBF29CE484222325
FNV_PRIME = 0x100000001B3
MASK = (1 << 64) - 1
CODES = {ROOM: 1, SHORT: 2, BAD: 3}


def digest(data):
    state = FNV_START
    for byte in data:
        state = (state ^ byte) * FNV_PRIME & MASK
    return f"{state:016x}"


def number(value):
    return value.to_bytes(8, "little")


def read_record(kind, width, count, data):
    """What a digest takes of one read: 0, the bytes used and the values; or the cause's code, and the layer."""
    try:
        values, used = read(kind, 0, width, count, data, 0)
    except Refusal as refusal:
        return bytes([CODES[refusal.cause]]) + number(refusal.layer)
    return b"\0" + number(used) + b"".join(map(number, values))


EDGES = bytes.fromhex("00 7f 80 8f 90 9f a0 bf c0 c1 c2 df e0 e1 ec ed ee ef f0 f1 f3 f4 f5 ff")


def string_sets():
    """Each set of strings, by its name: all of at most one byte, and for each first byte all of two."""
    yield "few", [b""] + [bytes([only]) for only in range(256)]
    for first in range(256):
        yield f"pairs {first:02x}", [bytes([first, second]) for second in range(256)]


def edge_sets():
    """For each edge byte, the strings of three and of four edge bytes that begin with it."""
    for first in EDGES:
        strings = []
        for second in EDGES:
            for third in EDGES:
                start = bytes([first, second, third])
                strings.append(start)
                strings.extend(start + bytes([fourth]) for fourth in EDGES)
        yield f"edges {first:02x}", strings


# Lines

KINDS = ("flat", "short", "steps/flat", "steps/short", "steps/steps/flat", "steps/steps/short")
UNLISTED = (0, 2, 7, 63, 65, 128, 4294967295)
LAYERS = (0, 1, 65534, 65535)
FILL = 0xA5
FAR = (1 << 64) - 1


def listed(items):
    return ",".join(map(str, items)) or "-"


def hexed(data):
    return data.hex() or "-"


def write_line(kind, layer, width, values, room, place):
    question = f"write {kind} {layer} {width} {listed(values)} {room} {place}"
    output = bytearray([FILL]) * room
    try:
        used = write(kind, layer, width, values, output, place)
    except Refusal as refusal:
        return f"{question} = {refusal.cause} {refusal.layer} {hexed(output[:place])}"
    return f"{question} = ok {used} {hexed(output)}"


def read_line(kind, layer, width, count, data, place):
    question = f"read {kind} {layer} {width} {count} {hexed(data)} {place}"
    try:
        values, used = read(kind, layer, width, count, data, place)
    except Refusal as refusal:
        return f"{question} = {refusal.cause} {refusal.layer}"
    return f"{question} = ok {used} {listed(values)}"


def text_line(data):
    return f"text {hexed(data)} = {'yes' if well_formed(data) else 'no'}"


# Cases

def value_lists(width):
    """Lists that the width admits, of no value to five."""
    top = (1 << width) - 1
    lists = [[], [0], [1], [top], [0, top], [top, 0, 1], [1, 1, 0, 0, 1]]
    edges = (2, 127, 128, 255, 256, 16383, 16384, 65535, 65536, (1 << 32) - 1, 1 << 32, 1 << 63, top - 1)
    inner = [edge for edge in edges if 1 < edge < top]
    for start in range(0, len(inner), 4):
        lists.append(inner[start:start + 4])
    if inner:
        lists.append([inner[-1], inner[0], top, 0, inner[len(inner) // 2]])
    return lists


def refused_lists(width):
    """Lists with a value that the width does not admit: the first, the last or one within."""
    if width == 64:
        return []
    over = 1 << width
    return [[over], [0, over], [1, over, 0], [over + 1, 0, 0, 0, 0], [0, 1, 0, 1, FAR]]


def layouts(size):
    """An output's length, and a place in it: full, with bytes around, and one byte short.

    An empty image goes to the end and past it.
    """
    yield size, 0
    yield size + 1, 1
    yield size + 4, 2
    if size:
        yield size - 1, 0
        yield size + 1, 2
    else:
        yield 3, 3
        yield 3, 4
        yield 2, FAR


class Layers:
    """The layers of LAYERS in turn, each fifth one passed over so that no layout meets one layer alone."""

    def __init__(self):
        self.turn = 0

    def next(self):
        self.turn += 2 if self.turn % 5 == 4 else 1
        return LAYERS[self.turn % len(LAYERS)]


def write_lines(kind):
    layers = Layers()
    for width in WIDTHS:
        for values in value_lists(width):
            for room, place in layouts(len(image(kind, width, values))):
                yield write_line(kind, layers.next(), width, values, room, place)
        for values in refused_lists(width):
            for room, place in ((64, 0), (0, 0), (1, 2)):
                yield write_line(kind, layers.next(), width, values, room, place)
        for room, place in ((0, 0), (3, 3), (3, 4), (2, FAR), (2, FAR - 1)):
            yield write_line(kind, layers.next(), width, [1], room, place)
        for layer in LAYERS:
            yield write_line(kind, layer, width, [1, 0], 17, 0)
            yield write_line(kind, layer, width, [1, 0], 2, 1)
    for width in UNLISTED:
        for values, room, place in (([], 0, 0), ([0], 9, 1), ([1, 0], 0, 1), ([FAR], 20, 0)):
            yield write_line(kind, layers.next(), width, values, room, place)


def image_reads(kind, width, layers):
    """Good images with bytes after them and before them, and each truncation of the last."""
    lists = value_lists(width)
    for values in lists:
        data = image(kind, width, values)
        yield read_line(kind, layers.next(), width, len(values), data, 0)
        yield read_line(kind, layers.next(), width, len(values), b"\xff\x80" + data + b"\x80\xff\x02", 2)
        yield read_line(kind, layers.next(), width, len(values) + 1, data, 0)
    data = image(kind, width, lists[-1])
    for size in range(len(data)):
        yield read_line(kind, layers.next(), width, len(lists[-1]), data[:size], 0)


def damaged_reads(kind, width, layers):
    """An image with one byte changed, at each of its places."""
    values = [(1 << width) - 1, 0, 1]
    data = image(kind, width, values)
    for place in range(len(data)):
        for byte in (0x02, 0xFF):
            changed = data[:place] + bytes([byte]) + data[place + 1:]
            yield read_line(kind, layers.next(), width, len(values), changed, 0)


def place_reads(kind, width, layers):
    """Reads at the end of the bytes, past it, and of a second value at fault."""
    for data in (b"", b"\x01", b"\x01\x00\x01"):
        for place in (len(data), len(data) + 1, FAR):
            for count in (0, 1):
                yield read_line(kind, layers.next(), width, count, data, place)
    for data in (b"\x02", b"\x01\x02", b"\x02\x80", b"\x80", b"\x00\x80", b"\x81\x00\x02"):
        yield read_line(kind, layers.next(), width, 2, data, 0)


def padded(value, size):
    """The form of a value in so many bytes, or of its low groups if it needs more."""
    groups = [(value >> 7 * place) & 127 for place in range(size)]
    return bytes([group | 128 for group in groups[:-1]] + groups[-1:])


def form_reads(kind, width, layers):
    """Padded forms of 1 to 12 bytes, forms with each tenth byte, and longer ones."""
    top = (1 << width) - 1
    for value in (0, 1, top, top + 1):
        for size in range(len(short_put(64, value)), 13):
            yield read_line(kind, layers.next(), width, 1, padded(value, size) + b"\x00", 0)
    for start in (b"\x80", b"\xff"):
        for tenth in (0, 1, 2, 3, 127, 128, 129):
            form = start * 9 + bytes([tenth])
            yield read_line(kind, layers.next(), width, 1, form, 0)
            yield read_line(kind, layers.next(), width, 2, b"\x01" + form + b"\x00", 0)
        for size in range(1, 13):
            yield read_line(kind, layers.next(), width, 1, start * size, 0)
    yield read_line(kind, layers.next(), width, 2, b"\x80" * 10 + b"\x00\x00", 0)
    yield read_line(kind, layers.next(), width, 2, b"\x81\x80\x00" + b"\x80" * 9 + b"\x00\x07", 0)


def read_lines(kind):
    layers = Layers()
    for width in WIDTHS:
        yield from image_reads(kind, width, layers)
        yield from damaged_reads(kind, width, layers)
        yield from place_reads(kind, width, layers)
        if kind.endswith("short"):
            yield from form_reads(kind, width, layers)
        for layer in LAYERS:
            yield read_line(kind, layer, width, 1, b"\x00" * 9, 0)
            yield read_line(kind, layer, width, 3, b"\x01", 0)
            yield read_line(kind, layer, width, 1, b"\xff" * 12, 0)
    for width in UNLISTED:
        for count, data, place in ((0, b"", 0), (1, b"\x00" * 9, 1), (1, b"", 1), (2, b"\x02\x80", FAR)):
            yield read_line(kind, layers.next(), width, count, data, place)


def text_lines():
    """Each edge of the table of well-formed sequences, cut short, with text around it, and next to its like."""
    scalars = (0, 0x7F, 0x80, 0x7FF, 0x800, 0xFFF, 0x1000, 0xCFFF, 0xD000, 0xD7FF, 0xE000, 0xFFFD, 0xFFFF)
    for scalar in scalars + (0x10000, 0x3FFFF, 0x40000, 0xFFFFF, 0x100000, 0x10FFFF):
        data = chr(scalar).encode("utf-8")
        yield text_line(data)
        yield text_line(b"a" + data + b"z")
        yield text_line(data + data)
        for size in range(1, len(data)):
            yield text_line(data[:size])
            yield text_line(data[:size] + b"z")
            yield text_line(data[:size] + b"\xc0" + data[size + 1:])
            yield text_line(data[size:])
    for data in ("c080", "c1bf", "e08080", "e09fbf", "eda080", "edbfbf", "f0808080", "f08fbfbf", "f4908080"):
        yield text_line(bytes.fromhex(data))
    for data in ("f5808080", "f8888080", "fc8480808080", "80", "bf", "fe", "ff", "efbbbf", "e282ac20f09f98802e"):
        yield text_line(bytes.fromhex(data))


# Files

CASES_HEAD = f"""\
# Single calls, with their answers. Made by tools/make_cases.py: do not edit.
#
# A line is a comment, the title of the group that it opens, or QUESTION = ANSWER:
#
#   write KIND LAYER WIDTH VALUES ROOM PLACE = ok LENGTH OUTPUT     accepted, with the whole output
#   write KIND LAYER WIDTH VALUES ROOM PLACE = CAUSE LAYER FRONT    refused, with the output's bytes before the place
#   read KIND LAYER WIDTH COUNT INPUT PLACE = ok USED VALUES
#   read KIND LAYER WIDTH COUNT INPUT PLACE = CAUSE LAYER
#   text INPUT = yes                                                or no
#
# An output is ROOM bytes, each {FILL:02x} before the write. A CAUSE is room, short or bad.
# Bytes are in hexadecimal, and values in decimal with commas between; '-' stands for none.
"""

DIGESTS_HEAD = f"""\
# Digests of the answers for whole sets of strings. Made by tools/make_cases.py: do not edit.
#
# A line is a comment, the title of the group that it opens, or QUESTION = ANSWER:
#
#   reads KIND WIDTH COUNT SET = DIGEST     each string of the set is read at layer 0 and place 0
#   texts SET = DIGEST                      each string of the set is judged as text
#
# A SET, in this order:
#   few         the empty string, then those of one byte, 00 to ff
#   pairs XX    the strings of two bytes that begin with XX, by the second byte, 00 to ff
#   edges XX    for each b and each c: XX b c, then for each d XX b c d, where b, c and d go through the edge bytes
#               {EDGES.hex(' ')}
#
# A DIGEST is 64-bit FNV-1a, in hexadecimal, over one record for each string. A number is 8 bytes, low byte first.
#   an accepted read     the byte 0, the number of bytes used, and each value as a number
#   a refused read       the byte 1 for room, 2 for short or 3 for bad, and the layer as a number
#   text                 the byte 1 where it is well-formed, else 0
"""


def group(title, lines):
    """A title, and its lines, each of them once."""
    yield f"group {title}"
    yield from dict.fromkeys(lines)


def case_file():
    for kind in KINDS:
        yield from group(f"write {kind}", write_lines(kind))
    for kind in KINDS:
        yield from group(f"read {kind}", read_lines(kind))
    yield from group("text", text_lines())


def reads_lines(kind):
    sets = list(string_sets())
    for width in WIDTHS:
        for count in range(4):
            for name, strings in sets:
                records = b"".join(read_record(kind, width, count, data) for data in strings)
                yield f"reads {kind} {width} {count} {name} = {digest(records)}"


def texts_lines(sets):
    for name, strings in sets:
        yield f"texts {name} = {digest(bytes(well_formed(data) for data in strings))}"


def digest_file():
    for kind in KINDS[:4]:
        yield from group(f"reads {kind}, strings of at most two bytes", reads_lines(kind))
    yield from group("texts of at most two bytes", texts_lines(string_sets()))
    yield from group("texts of three and four edge bytes", texts_lines(edge_sets()))


def save(name, head, lines):
    text = head + "".join(line + "\n" for line in lines)
    (DATA / name).write_text(text, encoding="ascii")


def main():
    DATA.mkdir(parents=True, exist_ok=True)
    save("cases.txt", CASES_HEAD, case_file())
    save("digests.txt", DIGESTS_HEAD, digest_file())


if __name__ == "__main__":
    main()
