#!/usr/bin/env python3
"""Odd frames for the listing, and what docs/FORMAT.md says is printed of them.

    tools/list_frames.py          writes crates/list/stdin and crates/list/stdout
    tools/list_frames.py --check  says whether these files are what it would write
    tools/list_frames.py FILE     prints the listing of a file of hexadecimal lines

`rt ci` then runs the proved program on that stdin and compares. Entries are read by tools/model.py.
"""
import struct
import sys
from pathlib import Path

import model
from model import write_attribute as attribute, write_refactor as refactor

HEADER = b"line at len group offset size type flags unread attrs refs name typename high\n"
MOST = 16384


# What it says of a walk, a line and the input.


def shown(field):
    if isinstance(field, int):
        return b"%d" % field
    return field.hex().upper().encode() or b"-"


def text(*fields):
    return b" ".join(shown(f) if not isinstance(f, str) else f.encode() for f in fields) + b"\n"


def entry_text(number, start, record):
    (length, group, offset, size, kind, flags, high), (name, type_name, _), _, attributes, _, chain, unread = record
    return text(number, start, length, group, offset, size, kind, flags, unread, len(attributes), len(chain), name, type_name, high)


def frame_text(number, frame):
    out = b""
    for start, _, answer in model.pieces(frame):
        if model.is_accepted(answer):
            out += entry_text(number, start, answer)
        else:
            out += text(number, start, "refused", *answer.figures)
    return out


def line_text(number, line):
    digits = b"0123456789abcdefABCDEF"
    if len(line) % 2 or len(line) > 2 * MOST or any(c not in digits for c in line):
        return text(number, 0, "refused", 12, 0, 0)
    return frame_text(number, bytes.fromhex(line.decode()))


def listing(data):
    lines = data.split(b"\n")
    return HEADER + b"".join(line_text(i + 1, line) for i, line in enumerate(lines))


# The odd frames.


def entry(name=b"Z", kind=b"INT", comment=b"", flags=0, tail=b"", claim=None, numbers=(0x4020, 8, 2, 2), lengths=None, high=0):
    lengths = lengths or (len(name), len(kind), len(comment))
    body = name + b"\0" + kind + b"\0" + comment + b"\0" + tail
    claim = 30 + len(body) if claim is None else claim
    return struct.pack("<IIIIIHHHHH", claim, *numbers, flags, high, *lengths) + body


def claims(n):
    return struct.pack("<I", n)


def filled(size):
    """Entries of exactly so many bytes: as many whole ones as fit, the last with a longer comment."""
    out = b""
    while size - len(out) > 2000:
        out += entry(name=b"N%d" % len(out), comment=b"c" * 900)
    rest = size - len(out)
    return out + entry(name=b"", kind=b"", comment=b"x" * (rest - 33))


def odd_lines():
    good = entry()
    hexed = lambda b: b.hex().upper().encode()
    guid = bytes(range(16))
    attrs = attribute(b"ZoomCurveEnd", b"0.9375") + attribute(b"u", b"\xb0")
    yield hexed(good)
    yield b""  # an empty line counts and prints nothing
    yield hexed(good).lower()
    yield hexed(good).swapcase()
    yield hexed(good)[:-1]  # an odd digit count
    yield b"0"
    yield hexed(good) + b"\r"  # CR is another character
    yield hexed(good) + b"\r0"  # also where the count is even
    yield b"\r"
    for c in b"/:@G`g \t\0\x80\xff":  # the neighbours of the digits, and others
        yield hexed(good)[:4] + bytes([c]) + hexed(good)[5:]
    # the walk's own refusals: 2 at the end, 3, and nothing after them
    yield hexed(good + b"\x25\0\0")
    yield hexed(b"\x01")
    yield hexed(b"\x01\x02\x03")
    yield hexed(good + claims(5))
    yield hexed(claims(0xFFFFFFFF) + good)
    # claims of 1 to 29 move by that much, and the walk goes on
    yield hexed(b"".join(claims(n) + b"\0" * (n - 4) for n in range(4, 30)) + good)
    yield hexed(b"\x01\0\0\0" * 3)
    for n in (1, 2, 3):
        yield hexed(claims(n) + good)
    # a zero claim ends its line, whatever follows
    yield hexed(good + claims(0) + good)
    yield hexed(claims(0))
    yield hexed(good)
    # 3 for strings: the shortest header, and lengths beyond the claim
    yield hexed(struct.pack("<I", 30) + b"\0" * 26)
    yield hexed(entry(lengths=(65535, 65535, 65535)) + good)
    yield hexed(entry(claim=36) + good)
    # names: none, one with a line end and an end byte in it, one above 0x7F
    yield hexed(entry(name=b"", kind=b""))
    yield hexed(entry(name=b"A\nB\0C", kind=b"", comment=b"f\xfcr"))
    yield hexed(entry(name=b"\xe4\xff", kind=b"\x80"))
    # sections: each alone, all, skipped where they do not fit
    yield hexed(entry(flags=0x0008, tail=guid) + entry(flags=0x0008, tail=guid[:15]))
    yield hexed(entry(flags=0x1000, tail=b"\2\0" + attrs) + entry(flags=0x1000, tail=b"\1") + entry(flags=0x1000))
    yield hexed(entry(flags=0x1000, tail=b"\3\0" + attrs) + entry(flags=0x1000, tail=b"\3\0" + attrs + b"\1\1u\0\xb0"))
    yield hexed(entry(flags=0x1000, tail=b"\xff\xff") + entry(flags=0x1000, tail=b"\0\0" + attrs))
    yield hexed(entry(flags=0x8000, tail=b"\4\0\0\0" + refactor(0x01000001, b"A") + refactor(2, b"")))
    yield hexed(entry(flags=0x8000, tail=b"\4\0\0\0" + refactor(0x01000001, b"A") + b"\2\0\0\0\5\0A\0"))
    yield hexed(entry(flags=0x8000, tail=b"\4\0\0\0") + entry(flags=0x8000, tail=b"\4\0\0") + entry(flags=0x8000, tail=b"\3\0\0\0" + refactor(0, b"A")))
    yield hexed(entry(flags=0x9008, tail=guid + b"\2\0" + attrs + b"\4\0\0\0" + refactor(0x01000000, b"Old") + refactor(0, b"Older") + b"rest"))
    yield hexed(entry(flags=0xFFFF, high=0xFFFF, numbers=(0xFFFFFFFF, 0xFFFFFFFF, 0xFFFFFFFF, 0xFFFFFFFF), tail=guid + b"\0\0" + b"\xff\xff\xff\xff"))
    yield hexed(entry(tail=b"unread"))
    # bytes 22 and 23: each alone, both, what would flag every section two bytes before, a name and a type that are empty
    yield hexed(b"".join(entry(high=h) for h in (1, 255, 256, 0x0102, 0xFF00, 0x8000, 0xFFFF)))
    yield hexed(entry(high=0x9008, tail=guid) + entry(flags=0x0008, high=0x1000, tail=guid) + entry(name=b"", kind=b"", high=4660))
    yield hexed(entry(high=0x0102, claim=36) + entry(high=0x0201))
    # end bytes that are not 0, of each string, of an attribute and of a chain's record: `list` is of the present mode
    for end in (31, 35, 36):
        yield hexed(good[:end] + b"\x58" + good[end + 1 :])
    yield hexed(entry(flags=0x1000, tail=b"\2\0" + attrs[:-1] + b"\1"))
    yield hexed(entry(flags=0x8000, tail=b"\4\0\0\0" + refactor(2, b"A")[:-1] + b"\xff"))
    # the largest frame, one byte more, and a line of many times that
    yield hexed(filled(MOST))
    yield hexed(filled(MOST + 1))
    yield hexed(filled(MOST)) + b"0"
    yield hexed(entry(name=b"N" * 16347, kind=b"K"))
    yield b"00" * 40000
    yield hexed(good)
    # so many refused steps that their text has no room in one piece
    yield hexed(claims(4) * (MOST // 4))
    yield hexed(entry(name=b"last"))  # no LF at the end


def main():
    if len(sys.argv) == 2 and sys.argv[1] != "--check":
        sys.stdout.buffer.write(listing(Path(sys.argv[1]).read_bytes()))
        return
    data = b"\n".join(odd_lines())
    folder = Path(__file__).resolve().parent.parent / "crates" / "list"
    for name, content in (("stdin", data), ("stdout", listing(data))):
        if "--check" in sys.argv:
            if (folder / name).read_bytes() != content:
                sys.exit(f"list_frames.py: {folder / name} is not what it would write")
        else:
            (folder / name).write_bytes(content)


if __name__ == "__main__":
    main()
