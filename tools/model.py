"""The format by the text of docs/FORMAT.md and the layouts of TcAdsDef.h: readers, walk, index, finding, salvage, room, writer, text.

tools/cases.py and tools/list_frames.py take from it what the proved programs have to print. It shares nothing with the crates.
"""
import struct

LIMIT = 16_777_216
SYMBOL, TYPE = 30, 42  # a header's length says which kind of entry is read


class Refused(Exception):
    """A refusal: its number and two figures."""

    def __init__(self, *figures):
        super().__init__(*figures)
        self.figures = figures


def number(e, at, size=4):
    return int.from_bytes(e[at : at + size], "little")


# Records and entries, read. In the checked mode an end byte that is not 0 refuses with 16.


def end_bytes(e, at, lengths, checked):
    """The strings from a place on, and the place behind their end bytes. They fit."""
    strings = []
    for length in lengths:
        strings.append(e[at : at + length])
        at += length + 1
        if checked and e[at - 1]:
            raise Refused(16, at - 1, e[at - 1])
    return strings, at


def attribute(e, at, checked):
    """An attribute (name, value), and the place behind it."""
    left = len(e) - at
    if left < 4:
        raise Refused(2, 4, left)
    lengths = e[at], e[at + 1]
    if left < 4 + sum(lengths):
        raise Refused(1, 4 + sum(lengths), left)
    return end_bytes(e, at + 2, lengths, checked)


def attributes(e, at, checked, is_silent):
    """Those behind a count, up to the entry's end; one that is refused ends them silently, or refuses the entry."""
    count, at, shown = number(e, at, 2), at + 2, []
    while len(shown) < count:
        try:
            record, at = attribute(e, at, checked)
        except Refused as why:
            if is_silent and why.figures[0] != 16:
                break
            raise
        shown.append(tuple(record))
        if at == len(e):
            break
    return shown, at


def refactor(e, at, checked):
    """A refactor record (count, whether another follows, name), and the place behind it."""
    left = len(e) - at
    if left < 7:
        raise Refused(2, 7, left)
    packed, length = struct.unpack_from("<IH", e, at)
    if left < 7 + length:
        raise Refused(2, 7 + length, left)
    (name,), end = end_bytes(e, at + 6, (length,), checked)
    return (packed & 0x01111111, packed >> 24 & 1, name), end


def chain(e, at, checked):
    """The records up to the first that none follows, and the place behind; dropped whole where one is refused."""
    records, start = [], at
    try:
        while not records or records[-1][1]:
            record, at = refactor(e, at, checked)
            records.append(record)
    except Refused as why:
        if why.figures[0] == 16:
            raise
        return [], start
    return records, at


def front(e, header, checked):
    """The three strings of an entry, whose lengths stand behind 24 or 32, and the place behind them."""
    if len(e) < header:
        raise Refused(2, header, len(e))
    lengths = struct.unpack_from("<3H", e, 24 if header == SYMBOL else 32)
    needed = header + 3 + sum(lengths)
    if len(e) < needed:
        raise Refused(3, needed, len(e))
    return end_bytes(e, header, lengths, checked)


def symbol(e, checked):
    """Length, group, offset, size, type id, flags, high; strings; GUID, attributes, extended flags, chain; unread bytes."""
    strings, at = front(e, SYMBOL, checked)
    numbers = struct.unpack_from("<5I2H", e, 0)
    flags, guid, shown, extended, records = numbers[5], None, [], None, []
    if flags & 0x0008 and len(e) - at >= 16:
        guid, at = e[at : at + 16], at + 16
    if flags & 0x1000 and len(e) - at >= 2:
        shown, at = attributes(e, at, checked, True)
    if flags & 0x8000 and len(e) - at >= 4:
        extended, at = number(e, at), at + 4
        if extended & 0x0004 and len(e) > at:
            records, at = chain(e, at, checked)
    return numbers, strings, guid, shown, extended, records, len(e) - at


def skip(e, at, count):
    """So many lengths, each of which moves the place by itself, while one is there."""
    for _ in range(count):
        if len(e) - at < 4:
            break
        at += number(e, at)
    return at


def sub_item(e, at):
    """The own bytes of the sub-item at a place of its parent."""
    left = len(e) - at
    if left < 4:
        raise Refused(2, 4, left)
    claim = number(e, at)
    if claim > left:
        raise Refused(3, claim, left)
    if claim < TYPE:
        raise Refused(4, TYPE, claim)
    return e[at : at + claim]


def data_type(e, checked, depth=1):
    """Length, version, hashes, size, offset, type id, flags; strings, GUID, attributes; arrays; number of sub-items; members, each
    its length, its offset and its path, counted from this entry."""
    strings, at = front(e, TYPE, checked)
    numbers = struct.unpack_from("<8I", e, 0)
    size, flags = numbers[4], numbers[7]
    dimensions, items = struct.unpack_from("<2H", e, 38)
    if len(e) - at < 8 * dimensions:
        raise Refused(3, at + 8 * dimensions, len(e))
    arrays = [struct.unpack_from("<2I", e, at + 8 * k) for k in range(dimensions)]
    at += 8 * dimensions
    members = []
    for _ in range(items):
        if depth == 16:
            raise Refused(15, 16, 17)
        own = sub_item(e, at)
        inner = data_type(own, checked, depth + 1)[-1]
        offset = number(own, 20)
        members.append((len(own), offset, [at]))
        members += [(length, offset + more, [at] + [at + place for place in path]) for length, more, path in inner]
        at += len(own)
    guid, shown = None, []
    if flags & 0x80 and len(e) - at >= 16:
        guid, at = e[at : at + 16], at + 16
    if flags & 0x200:
        at = min(at + size, len(e))
    if flags & 0x800 and len(e) - at >= 2:
        at = skip(e, at + 2, number(e, at, 2))
    if flags & 0x1000 and len(e) - at >= 2:
        shown, at = attributes(e, at, checked, False)
    return numbers, strings, guid, shown, arrays, items, members


READERS = {SYMBOL: symbol, TYPE: data_type}


def direct(data, header, checked):
    """An entry at the start of some bytes, by itself."""
    if len(data) < header:
        raise Refused(2, header, len(data))
    claim = number(data, 0)
    if claim > len(data):
        raise Refused(3, claim, len(data))
    if claim < header:
        raise Refused(4, header, claim)
    return READERS[header](data[:claim], checked)


# Whole uploads.


def step(data, at, header=SYMBOL, checked=False):
    """What a step at a place gives: nothing at the end, else a record or a refusal; and the place after."""
    if at >= len(data):
        return None, at
    if len(data) - at < 4:
        return Refused(2, at + 4, len(data)), len(data)
    claim = number(data, at)
    if claim > len(data) - at:
        return Refused(3, claim, len(data) - at), len(data)
    try:
        return READERS[header](data[at : at + claim], checked), at + claim
    except Refused as why:
        return why, at + claim


def pieces(data, header=SYMBOL, checked=False):
    """Start, end and answer of each piece: a claim of 0 is refused with 10 and takes all that is left."""
    at = 0
    while at < len(data):
        answer, end = step(data, at, header, checked)
        if end == at:
            answer, end = Refused(10, 1, 0), len(data)
        yield at, end, answer
        at = end


def is_accepted(answer):
    return not isinstance(answer, Refused)


def index(data, lent, header=SYMBOL, checked=False):
    """The starts of the accepted entries."""
    starts = []
    for start, _, answer in pieces(data, header, checked):
        if is_accepted(answer):
            starts.append(start)
        elif answer.figures[0] == 10:
            raise answer
    if lent < len(starts):
        raise Refused(6, len(starts), lent)
    return starts


def same_name(record, name):
    return record[1][0].lower() == name.lower()  # of bytes, which changes A to Z alone


def find(data, name, checked=False):
    for start, _, answer in pieces(data, SYMBOL, checked):
        if is_accepted(answer):
            if same_name(answer, name):
                return start
        elif answer.figures[0] == 10:
            raise answer
    raise Refused(13, 0, 0)


def find_indexed(data, slots, name, checked=False):
    for slot in slots:
        answer, _ = step(data, slot, SYMBOL, checked)
        if answer is not None and is_accepted(answer) and same_name(answer, name):
            return slot
    raise Refused(13, 0, 0)


def room(length):
    """The ends of entries of 33 bytes one after another, as many as there are within the length."""
    if length > LIMIT:
        raise Refused(5, LIMIT, length)
    return len(range(33, length + 1, 33))


def salvage(data, bytes_lent, slots_lent, header=SYMBOL, checked=False):
    """The accepted entries, and start, length and number of every other piece."""
    kept, runs = b"", []
    for start, end, answer in pieces(data, header, checked):
        if is_accepted(answer):
            kept += data[start:end]
        else:
            runs += [start, end - start, answer.figures[0]]
    if bytes_lent < len(kept):
        raise Refused(6, len(kept), bytes_lent)
    if slots_lent < len(runs):
        raise Refused(6, len(runs), slots_lent)
    return kept, runs


# Written.


def write_attribute(name, value):
    return bytes([len(name), len(value)]) + name + b"\0" + value + b"\0"


def write_refactor(packed, name):
    return struct.pack("<IH", packed, len(name)) + name + b"\0"


def check_block(block, count, read, is_good):
    """A block is exactly its count of good records."""
    at = good = 0
    try:
        while good < count:
            record, end = read(block, at, True)
            if not is_good(record, number(block, at), good):
                break
            at, good = end, good + 1
    except Refused:
        pass
    if good < count or at < len(block):
        raise Refused(9, count, good)


def write_symbol(numbers, strings, guid, count, block, records, records_block):
    """NUMBERS are group, offset, size, type id, flags, high and extended flags."""
    for length in [*map(len, strings), count]:
        if length > 65_535:
            raise Refused(7, 65_535, length)
    check_block(block, count, attribute, lambda record, packed, k: True)
    check_block(records_block, records, refactor, lambda record, packed, k: packed == record[0] and record[1] == (k + 1 < records))
    flags, extended = numbers[4], numbers[6]
    agree = (
        bool(flags & 0x0008) == (guid is not None),
        bool(flags & 0x1000) or not block,
        bool(flags & 0x8000) or extended == 0,
        bool(extended & 0x0004) == (records > 0),
    )
    if False in agree:
        raise Refused(8, agree.index(False) + 1, 0)
    body = struct.pack("<IIIIHH", *numbers[:6]) + struct.pack("<3H", *map(len, strings)) + b"".join(s + b"\0" for s in strings)
    body += guid or b""
    if flags & 0x1000:
        body += struct.pack("<H", count) + block
    if flags & 0x8000:
        body += struct.pack("<I", extended)
    body += records_block
    return struct.pack("<I", 4 + len(body)) + body


# Text.

POINTS = [
    0x20AC, 0x0081, 0x201A, 0x0192, 0x201E, 0x2026, 0x2020, 0x2021, 0x02C6, 0x2030, 0x0160, 0x2039, 0x0152, 0x008D, 0x017D, 0x008F,
    0x0090, 0x2018, 0x2019, 0x201C, 0x201D, 0x2022, 0x2013, 0x2014, 0x02DC, 0x2122, 0x0161, 0x203A, 0x0153, 0x009D, 0x017E, 0x0178,
]
POINT_OF = [POINTS[b - 0x80] if 0x80 <= b < 0xA0 else b for b in range(256)]
BYTE_OF = {chr(p): b for b, p in enumerate(POINT_OF)}
TEXT_OF = [chr(p).encode() for p in POINT_OF]
assert len(BYTE_OF) == 256


def decode(source):
    return b"".join(TEXT_OF[b] for b in source)


def utf8_fault(source):
    """Where the first sequence that the Encoding Standard's UTF-8 decoder refuses begins, or None."""
    at, n = 0, len(source)
    while at < n:
        first, lower, upper = source[at], 0x80, 0xBF
        if first < 0x80:
            needed = 0
        elif 0xC2 <= first <= 0xDF:
            needed = 1
        elif 0xE0 <= first <= 0xEF:
            needed = 2
            lower = 0xA0 if first == 0xE0 else lower
            upper = 0x9F if first == 0xED else upper
        elif 0xF0 <= first <= 0xF4:
            needed = 3
            lower = 0x90 if first == 0xF0 else lower
            upper = 0x8F if first == 0xF4 else upper
        else:
            return at
        for k in range(1, needed + 1):
            if at + k >= n or not lower <= source[at + k] <= upper:
                return at
            lower, upper = 0x80, 0xBF
        at += 1 + needed
    return None


def encode(source):
    fault = utf8_fault(source)
    try:
        text = source.decode()
        assert fault is None
    except UnicodeDecodeError as why:
        assert fault == why.start
        text = source[:fault].decode()
    out, place = bytearray(), 0
    for c in text:
        if c not in BYTE_OF:
            raise Refused(11, place, 2)
        out.append(BYTE_OF[c])
        place += len(c.encode())
    if fault is not None:
        raise Refused(11, fault, 1)
    return bytes(out)
