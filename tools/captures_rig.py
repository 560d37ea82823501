#!/usr/bin/env python3
"""Uploads, and what docs/FORMAT.md says is listed of them whole and of their lines.

    tools/captures_rig.py          writes crates/captures_rig/stdin and crates/captures_rig/stdout
    tools/captures_rig.py --check  says whether these files are what it would write

`rt ci` then runs the proved program on that stdin and compares: it splits each upload, which is a line there, lists the
upload and then the lines. The lines are made by the text of docs/FORMAT.md, and listed by list_frames.py. Each row of the
lines is held to the row of the whole: only what "Captures" names may differ.
"""
import struct
import sys
from pathlib import Path

import list_frames as frames

ROOT = Path(__file__).resolve().parent.parent


def pieces(upload):
    """Whole entries, and then all that is left."""
    at = 0
    while at < len(upload):
        left = len(upload) - at
        claim = struct.unpack_from("<I", upload, at)[0] if left >= 4 else 0
        size = claim if 0 < claim <= left else left
        yield at, upload[at : at + size]
        at += size


def split(upload):
    return b"".join(piece.hex().upper().encode() + b"\n" for _, piece in pieces(upload))


def rows(text):
    return [row.split(b" ") for row in text[len(frames.HEADER) :].splitlines()]


def hold(upload, whole, alone):
    """Each row of the lines is the row of the whole but for line and start; of fewer than 4 bytes 2 has other figures."""
    parts = list(pieces(upload))
    whole, alone = rows(whole), rows(alone)
    assert len(whole) == len(alone) == len(parts)
    for number, ((start, piece), a, b) in enumerate(zip(parts, whole, alone), 1):
        assert a[:2] == [b"1", b"%d" % start] and b[:2] == [b"%d" % number, b"0"], (a, b)
        if len(piece) >= 4:
            assert a[2:] == b[2:], (a, b)
        else:
            assert b[2:] == [b"refused", b"2", b"4", b"%d" % len(piece)], b
            tail = [b"refused", b"2", b"%d" % (start + 4), b"%d" % len(upload)]
            assert a[2:] in (tail, [b"refused", b"2", b"30", b"%d" % len(piece)]), a


def uploads():
    """The odd frames that are uploads, and the sample's end, cut."""
    digits = set(b"0123456789abcdefABCDEF")
    for line in frames.odd_lines():
        if len(line) % 2 == 0 and len(line) <= 2 * frames.MOST and set(line) <= digits:
            yield bytes.fromhex(line.decode())
    rig = bytes.fromhex((ROOT / "samples/rig.hex").read_text())[: frames.MOST]
    for cut in range(1, 40):
        yield rig[:-cut]


def main():
    data, listed = [], b""
    for upload in uploads():
        whole, alone = frames.listing(upload.hex().encode()), frames.listing(split(upload))
        hold(upload, whole, alone)
        data.append(upload.hex().encode())
        listed += whole + alone
    folder = ROOT / "crates/captures_rig"
    for name, content in (("stdin", b"\n".join(data)), ("stdout", listed)):
        if "--check" in sys.argv:
            if (folder / name).read_bytes() != content:
                sys.exit(f"captures_rig.py: {folder / name} is not what it would write")
        else:
            (folder / name).write_bytes(content)


if __name__ == "__main__":
    main()
