#!/usr/bin/env python3
"""The cases of the program answers that are not the Rust's, and what it has to answer, worked out by tools/model.py.

    tools/cases.py          writes them into crates/answers/stdin and stdout, behind the recorded ones (tools/differ --sample)
    tools/cases.py --check  says whether these files hold what it would write

tools/oracle/README.md has the kinds. `rt ci` then runs the proved program on that stdin and compares. It takes about half a minute.
"""
import itertools
import random
import struct
import sys
from pathlib import Path

import model
from model import SYMBOL, TYPE, Refused, is_accepted, write_attribute, write_refactor

ANSWERS = Path(__file__).resolve().parent.parent / "crates" / "answers"
MODES = (False, True)
CASES = []  # (line, answer)


def hexed(b):
    return bytes(b).hex().upper() or "-"


def number(x):
    return struct.pack("<I", x)


def told(records):
    """Of more than twelve the first six and the last six."""
    return records if len(records) <= 12 else records[:6] + records[-6:]


def answered(work):
    """What was worked out, in words, or the refusal."""
    try:
        return ["ok", *work()]
    except Refused as why:
        return ["no", *why.figures]


def case(kind, arguments, words):
    line = " ".join([kind, *map(hexed, arguments)])
    CASES.append((line, " ".join([kind, *map(str, words)])))


# Text: nothing lent, which says what is needed; then a byte less, exactly that, and three more.

DECODE, ENCODE = 0, 1


def text(way, source):
    """The bytes to write, or the figures of the fault."""
    try:
        return (model.decode(source) if way == DECODE else model.encode(source)), None
    except Refused as why:
        return None, why.figures


def runs(way, source):
    """Bytes lent, number, two figures, and the buffer after, for each buffer that tells something."""
    good, fault = text(way, source)
    if fault:
        return [(lent, *fault, b"\xee" * lent) for lent in (0, 12)]
    needed = len(good)
    some = [0, needed - 1, needed, needed + 3] if needed else [0, 12]
    return [(n, 6, needed, n, b"\xee" * n) if n < needed else (n, 0, needed, 0, good + b"\xee" * (n - needed)) for n in some]


class Tally:
    PRIME = 4_294_967_291

    def __init__(self):
        self.done = self.small = self.not_utf8 = self.no_byte = self.sum = 0

    def add(self, way, sources):
        for source in sources:
            for lent, number, expected, got, left in runs(way, source):
                if number == 0:
                    self.done += 1
                elif number == 6:
                    self.small += 1
                elif got == 1:
                    self.not_utf8 += 1
                else:
                    self.no_byte += 1
                total = self.sum
                for x in (lent, number, expected, got, *left):
                    total = (total * 16_777_619 + x) % self.PRIME
                self.sum = total
        return [self.done, self.small, self.not_utf8, self.no_byte, self.sum]


def shown(way, source):
    words = []
    for *figures, left in runs(way, source):
        words += [*figures, hexed(left)]
    case("T", [bytes([way]), source], words)


def product(way, *sets):
    sources = (bytes(reversed(x)) for x in itertools.product(*reversed(sets)))
    case("P", [bytes([way]), *map(bytes, sets)], Tally().add(way, sources))


def fronts(way, source):
    case("G", [bytes([way]), source], Tally().add(way, (source[:n] for n in range(len(source) + 1))))


def spelt(p):
    """The encoder's pattern for any number, surrogates and what is above 10FFFF too."""
    if p < 0x80:
        return bytes([p])
    if p < 0x800:
        return bytes([0xC0 + p // 64, 0x80 + p % 64])
    if p < 0x10000:
        return bytes([0xE0 + p // 4096, 0x80 + p // 64 % 64, 0x80 + p % 64])
    return bytes([0xF0 + p // 262144, 0x80 + p // 4096 % 64, 0x80 + p // 64 % 64, 0x80 + p % 64])


def character(r):
    """Most have a byte; one in 24 has none, is a surrogate or above 10FFFF, or begins nothing."""
    kind = below(r, 24)
    if kind < 12:
        return spelt(0x20 + below(r, 95))
    if kind < 18:
        return spelt(0xA0 + below(r, 96))
    if kind < 23:
        return spelt(r_choice(r, model.POINTS))
    return r_choice(r, [spelt(0x3042), spelt(0xD800 + below(r, 0x800)), spelt(0x110000 + below(r, 0x100)), bytes([0x80 + below(r, 0x80)])])


def below(r, n):
    return int(r.random() * n)


def r_choice(r, of):
    return of[below(r, len(of))]


def text_cases():
    every, more = range(256), range(0x80, 0xC0)
    near = [0x00, 0x41, 0x7F, 0x80, 0x8F, 0x90, 0x9F, 0xA0, 0xBF, 0xC0, 0xFF]
    edges = [1, 0x80, 0xA0, 0x100, 0x800, 0xD800, 0xE000, 0x10000, 0x110000] + model.POINTS
    for source in [b"", *(bytes([b]) for b in every), bytes(every)]:
        shown(DECODE, source)
    for source in [b"", *(spelt(p + d) for p in edges for d in (-1, 0, 1)), b"".join(model.TEXT_OF)]:
        shown(ENCODE, source)
    for way in DECODE, ENCODE:
        for mark in b"\xef\xbb\xbfA", b"\xfe\xffA", b"\xff\xfeA":
            shown(way, mark)
        product(way, every)
        product(way, every, every)
    # Every point of three bytes and of four, with surrogates, overlong ones and those above 10FFFF; then what is near to them.
    product(ENCODE, range(0xE0, 0xF0), more, more)
    product(ENCODE, range(0xF0, 0xF5), more, more, more)
    product(ENCODE, range(0xE0, 0xF0), every, near)
    product(ENCODE, every, near, near)
    product(ENCODE, range(0xF0, 0xF6), every, near, near)
    product(ENCODE, every, near, near, near)
    r = random.Random(1)
    for _ in range(1000):
        fronts(ENCODE, b"".join(character(r) for _ in range(16)))
        fronts(DECODE, bytes(r_choice(r, [0x20 + below(r, 95), below(r, 256)]) for _ in range(below(r, 41))))


# Symbols, written, and walked in whole uploads.

BLOCK = write_attribute(b"ZoomEnd", b"0.9") + write_attribute(b"u", b"\xb0")
CHAIN = write_refactor(0x01000001, b"A") + write_refactor(0x10, b"")


def write_case(numbers, strings, guid=None, count=0, block=b"", records=0, chain=b""):
    packed = struct.pack("<7I", *numbers)
    arguments = [packed[:18] + packed[20:22] + packed[24:], *strings, guid or b"", number(count), block, number(records), chain]

    def work():
        written = model.write_symbol(numbers, strings, guid, count, block, records, chain)
        return len(written), hexed(written)

    words = answered(work)
    case("S", arguments, words)
    return bytes.fromhex(words[2]) if words[0] == "ok" else b""


def rig_symbol(i):
    """Symbols of four kinds in turn: bare, with a GUID, with attributes, with all of them and a chain; each grown by up to five bytes."""
    kind = i % 4
    flags = [0, 0x0008, 0x1000, 0x9008][kind]
    numbers = [0x4020, i, 8, 5, flags, i % 256 * 256 + (i + 85) % 256, 4 if flags & 0x8000 else 0]
    strings = [b"Ax%03d" % i, b"LREAL", b"zoom" if kind == 2 else b""]
    guid = bytes([i % 200]) * 16 if flags & 0x0008 else None
    attributes = (2, BLOCK) if flags & 0x1000 else (0, b"")
    chain = (2, CHAIN) if flags & 0x8000 else (0, b"")
    entry = write_case(numbers, strings, guid, *attributes, *chain)
    extra = i % 6
    return number(len(entry) + extra) + entry[4:] + b"\xee" * extra


def refused_symbols():
    """Each refusal of the writer, and what only just passes."""
    plain, names = [1, 2, 3, 4, 0, 5, 0], [b"N", b"T", b"C"]
    flagged = [1, 2, 3, 4, 0x9008, 5, 4]
    write_case(plain, names, None, 65_536, b"")
    for count, block in (1, b""), (0, BLOCK), (1, BLOCK), (3, BLOCK), (2, BLOCK[:-1]), (2, BLOCK[:-1] + b"\1"), (2, BLOCK + b"\0"), (2, BLOCK):
        write_case([1, 2, 3, 4, 0x1000, 5, 0], names, None, count, block)
        write_case(plain, names, None, count, block)
    good = write_refactor(0x01000001, b"A")
    for records, chain in (1, CHAIN), (2, CHAIN), (3, CHAIN), (2, good + good), (1, good), (1, write_refactor(2, b"")), (1, b""), (0, good), (2, CHAIN[:-1] + b"\1"):
        write_case([1, 2, 3, 4, 0x8000, 5, 4], names, None, 0, b"", records, chain)
        write_case([1, 2, 3, 4, 0x8000, 5, 0], names, None, 0, b"", records, chain)
    for flags in 0x9008, 0x1008, 0x9000, 0x8008, 0x6FF7:
        for guid in None, bytes(range(16)):
            write_case([1, 2, 3, 4, flags, 5, 4], names, guid, 2, BLOCK, 2, CHAIN)
    write_case(flagged, [b"", b"", b""], bytes(16), 0, b"", 2, CHAIN)
    write_case([0xFFFFFFFF] * 4 + [0xFFFF, 0xFFFF, 0xFFFFFFFF], names, bytes(range(16)), 2, BLOCK, 2, CHAIN)


def guid_word(guid):
    return "-" if guid is None else hexed(guid)


def attribute_words(shown):
    return [len(shown), *(hexed(s) for record in told(shown) for s in record)]


def symbol_words(record):
    numbers, strings, guid, shown, extended, records, unread = record
    words = ["ok", *numbers, *map(hexed, strings), guid_word(guid), *attribute_words(shown)]
    words += ["-" if extended is None else extended, len(records)]
    for count, follows, name in told(records):
        words += [count, follows, hexed(name)]
    return words + [unread]


def walked(upload, checked):
    words, at = [], 0
    while True:
        answer, end = model.step(upload, at, SYMBOL, checked)
        words += ["at", at]
        if answer is None:
            words += ["end", end]
            break
        words += symbol_words(answer) if is_accepted(answer) else ["no", *answer.figures]
        words.append(end)
        if end == at:
            break
        at = end
    case("v", [bytes([checked]), upload], words)


def cut(upload, checked):
    words = []
    for length in range(len(upload) + 1):
        answers = [answer for _, _, answer in model.pieces(upload[:length], SYMBOL, checked)]
        refusals = [answer for answer in answers if not is_accepted(answer)]
        words += [len(answers) - len(refusals), len(refusals)]
        if refusals:
            words += ["no", *refusals[-1].figures]
    case("k", [bytes([checked]), upload], words)


def slot_words(written, lent):
    return list(written) + ["-"] * (lent - len(written))


def indexed(upload, lent, header=SYMBOL, checked=False):
    """The starts that were written."""
    try:
        starts = model.index(upload, lent, header, checked)
        words = ["ok", len(starts)]
    except Refused as why:
        starts, words = [], ["no", *why.figures]
    case("x", [bytes([header == TYPE]), bytes([checked]), number(lent), upload], words + slot_words(starts, lent))
    return starts


def salvaged(upload, bytes_lent, slots_lent, header=SYMBOL, checked=False):
    try:
        kept, runs = model.salvage(upload, bytes_lent, slots_lent, header, checked)
        words = ["ok", len(kept), len(runs)]
    except Refused as why:
        kept, runs, words = b"", [], ["no", *why.figures]
    words += [hexed(kept + b"\xee" * (bytes_lent - len(kept))), *slot_words(runs, slots_lent)]
    case("g", [bytes([header == TYPE]), bytes([checked]), number(bytes_lent), number(slots_lent), upload], words)


def found(upload, slots, names, checked=False):
    words = []
    for name in names:
        words += answered(lambda: [model.find(upload, name, checked)])
        words += answered(lambda: [model.find_indexed(upload, slots, name, checked)])
    case("n", [bytes([checked]), upload, b"".join(map(number, slots)), *names], words)


def letters(n):
    """A name in both cases of a letter, and with two signs that differ as these cases do."""
    return [b"%c%02d" % (letter, n) for letter in b"vV{["]


def named_entry(i):
    """Of the 40 entries of 40 bytes 17 numbers stand twice, each time with another letter; every fifth has a name that would leave
    it, and the last claims a byte too many."""
    claim, name_length = 41 if i == 39 else 40, 200 if i % 5 == 0 else 3
    head = struct.pack("<5I2H3H", claim, 0, 0, 0, 0, 0, 0, name_length, 0, 0)
    return (head + letters(i % 23)[i % 4]).ljust(40, b"\0")


def named_uploads():
    upload = b"".join(map(named_entry, range(40)))
    names = [name for n in range(23) for name in letters(n)] + [b"w00", b""]
    indexed(upload, 8)
    found(upload, [0] * 8, names)
    starts = indexed(upload, 40)
    found(upload, starts, names)
    found(upload, [*reversed(starts), 1600, 1599, 0xFFFFFFFF, 20], names)
    unended = upload[:40] + upload[40:73] + b"\1" + upload[74:]
    for checked in MODES:
        found(unended, indexed(unended, 40, SYMBOL, checked), names, checked)
    closed = upload[:840] + b"\0" + upload[841:]
    indexed(closed, 40)
    found(closed, starts, names)
    for length in 0, 32, 33, 65, 66, model.LIMIT, model.LIMIT + 1:
        case("m", [number(length)], answered(lambda: [model.room(length)]))
    smallest = struct.pack("<I29x", 33) * 48 + b"\xff" * 16
    for lent in 48, 47:
        assert model.room(len(smallest)) == 48
        indexed(smallest, lent)


def damaged(r, upload):
    """One to three bytes changed, mostly of an entry's length, flags or strings' lengths."""
    data = bytearray(upload)
    for _ in range(1 + below(r, 3)):
        data[below(r, len(data))] = r_choice(r, [0, 1, 0xFF, below(r, 256)])
    return bytes(data)


def upload_cases():
    entries = [rig_symbol(i) for i in range(120)]
    refused_symbols()
    rig = b"".join(entries)
    cut(rig, True)
    for checked in MODES:
        walked(rig, checked)
    named_uploads()
    r = random.Random(2)
    few = b"".join(entries[:6])
    for n in range(30):
        upload = few if n == 0 else damaged(r, few)
        for checked in MODES:
            walked(upload, checked)
            indexed(upload, 6, SYMBOL, checked)
            salvaged(upload, len(upload), 18, SYMBOL, checked)
    cut(damaged(r, few), False)
    kept, runs = model.salvage(upload, len(upload), 18)
    for bytes_less, slots_less in (0, 0), (1, 0), (0, 1), (1, 1):
        if len(kept) >= bytes_less and len(runs) >= slots_less:
            salvaged(upload, len(kept) - bytes_less, len(runs) - slots_less)


# Data types.


def type_entry(name, arrays=(), items=(), flags=2, offset=0, size=4, guid=b"", mask=b"", methods=b"", attributes=b"", more=b""):
    strings = [name, b"INT", b"f\xfcr"]
    tail = b"".join(struct.pack("<II", *a) for a in arrays) + b"".join(items) + guid + mask + methods + attributes + more
    body = b"".join(s + b"\0" for s in strings) + tail
    head = struct.pack("<8I", TYPE + len(body), 1, 0x01020304, 0x05060708, size, offset, 65, flags)
    return head + struct.pack("<5H", *map(len, strings), len(arrays), len(items)) + body


def whole_type():
    """Members at three depths, array records, GUID, copy mask, methods and attributes."""
    attributes = struct.pack("<H", 2) + BLOCK
    points = [type_entry(b"x", offset=2), type_entry(b"y", [(1, 2)], offset=3, flags=0x1002, attributes=attributes)]
    curve = type_entry(b"c", [(0xFFFFFFFE, 8)], points, offset=8, flags=0x82, guid=bytes(range(16)))
    methods = struct.pack("<HI", 1, 6) + b"ab"
    return type_entry(b"ST", [(0, 2), (5, 6)], [curve, type_entry(b"z", offset=100)], 0x1A81, 0, 5, bytes(16), b"\xff" * 5, methods, attributes, b"more")


def nested(levels):
    inner = []
    for level in range(levels):
        inner = [type_entry(b"n", [], inner, offset=level)]
    return inner[0]


def type_words(record):
    numbers, strings, guid, shown, arrays, items, members = record
    words = [*numbers, *map(hexed, strings), guid_word(guid), *attribute_words(shown), len(arrays)]
    words += [x for array in arrays for x in array] + [items, len(members)]
    for length, offset, path in members:
        words += [length, "/".join(map(str, [offset, *path]))]
    return words


def typed(data, checked):
    case("d", [bytes([checked]), data], answered(lambda: type_words(model.direct(data, TYPE, checked))))


def members_listed(data, checked, less=0):
    """In as many slots as are needed, or fewer."""
    try:
        members = model.direct(data, TYPE, checked)[-1]
        slots = [x for _, offset, path in members for x in (path[-1], len(path) + 1, offset)]
        lent = max(len(slots) - less, 0)
        refusal = Refused(6, len(slots), lent) if lent < len(slots) else None
    except Refused as why:
        slots, lent, refusal = [], 3, why
    words = ["no", *refusal.figures] if refusal else ["ok", len(slots)]
    case("l", [bytes([checked]), number(lent), data], words + slot_words([] if refusal else slots, lent))


def type_cases():
    whole = whole_type()
    r = random.Random(3)
    trees = [whole, whole[:-1], whole + b"\0", whole[:41], type_entry(b"", size=0), *(nested(n) for n in (15, 16, 17, 18))]
    for data in trees + [damaged(r, whole) for _ in range(80)]:
        for checked in MODES:
            typed(data, checked)
        members_listed(data, True)
    members_listed(whole, False, 1)
    members_listed(whole, False, -1)
    upload = whole + type_entry(b"T", flags=1) + nested(3)
    for n in range(20):
        some = upload if n == 0 else damaged(r, upload)
        for checked in MODES:
            indexed(some, 3, TYPE, checked)
            salvaged(some, len(some), 12, TYPE, checked)


def main():
    text_cases()
    upload_cases()
    type_cases()
    ours = {line[0] for line, _ in CASES}
    files = [ANSWERS / name for name in ("stdin", "stdout")]
    held = [path.read_text().splitlines() for path in files]
    recorded = [pair for pair in zip(*held) if pair[0][:1] not in ours]
    for path, lines in zip(files, zip(*recorded, *CASES)):
        content = "".join(line + "\n" for line in lines)
        if "--check" not in sys.argv:
            path.write_text(content)
        elif path.read_text() != content:
            sys.exit(f"cases.py: {path} is not what it would write")


main()
