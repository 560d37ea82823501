#!/usr/bin/env python3
"""A sample upload: the symbols of a camera rig, a pedestal, a jib and a box lens.

    tools/rig_sample.py        writes samples/rig.bin, and samples/rig.hex, the same as one hexadecimal line

The entries are those that a controller would send: GUIDs beside structured types, attributes, extended flags, the former
names of renamed symbols, comments in German. Members lie in their structure, where samples/types.bin has them
(tools/types_sample.py). Some have a high, bytes 22 and 23, that is not 0: of two unlike bytes, so that
exchanging them shows, and of bits that among the flags would mean a GUID and attributes.
"""
import struct
import uuid
from pathlib import Path

TYPES = {"BOOL": (33, 1), "INT": (2, 2), "UINT": (18, 2), "DINT": (3, 4), "REAL": (4, 4), "LREAL": (5, 8), "STRING(31)": (30, 32)}
STRUCT = 65
GUID, ATTRIBUTES, EXTENDED = 0x0008, 0x1000, 0x8000
REFACTOR = 0x0004


def text(s):
    return s.encode("cp1252")


def attribute(name, value):
    name, value = text(name), text(value)
    return bytes([len(name), len(value)]) + name + b"\0" + value + b"\0"


def chain(names):
    """Former names, each but the last followed by another."""
    out = b""
    for i, name in enumerate(names):
        packed = 0x01000000 if i + 1 < len(names) else 0
        out += struct.pack("<IH", packed, len(name)) + text(name) + b"\0"
    return out


def entry(offset, name, kind, comment="", size=None, place=None, attributes=(), former=(), high=0):
    type_id, length = TYPES.get(kind, (STRUCT, size))
    flags, tail = 0, b""
    if type_id == STRUCT:
        flags |= GUID
        tail += uuid.uuid5(uuid.NAMESPACE_OID, kind).bytes_le
    if attributes:
        flags |= ATTRIBUTES
        tail += struct.pack("<H", len(attributes)) + b"".join(attribute(n, v) for n, v in attributes)
    if former:
        flags |= EXTENDED
        tail += struct.pack("<I", REFACTOR) + chain(former)
    name, kind, comment = text(name), text(kind), text(comment)
    body = name + b"\0" + kind + b"\0" + comment + b"\0" + tail
    head = struct.pack("<IIIIIHH", 30 + len(body), 0x4040, offset, length, type_id, flags, high)
    return head + struct.pack("<HHH", len(name), len(kind), len(comment)) + body, length


def members(owner, names):
    """The members of a structure, which follow one another in it, a number at a multiple of its own length."""
    place = 0
    for name, kind, comment, more in names:
        length = TYPES[kind][1] if kind in TYPES else more["size"]
        align = 1 if kind.startswith("STRING") else 4 if kind not in TYPES else length
        place = (place + align - 1) // align * align
        yield f"{owner}.{name}", kind, comment, dict(more, place=place)
        place += length


def symbols():
    lens = [("ZoomCurveStart", "0.0625"), ("ZoomCurveEnd", "0.9375"), ("LensTable", "27x6.5")]
    yield "MAIN.stPedestal", "ST_Pedestal", "Säule", dict(size=64)
    yield from members("MAIN.stPedestal", [
        *((axis, "LREAL", "", {}) for axis in ("fHeight", "fHeightSpeed", "fDriveX", "fDriveY", "fSteer")),
        ("nBalance", "INT", "Druck für den Ausgleich", dict(attributes=[("unit", "kPa")])),
        ("bBrake", "BOOL", "", dict(former=["bPark"])),
    ])
    yield "MAIN.stJib", "ST_Jib", "Kranarm", dict(size=96, attributes=[("Reach", "7.2"), ("unit", "m")])
    axes = [[(axis, "LREAL", "", dict(attributes=[("unit", "°")])), (f"{axis}Speed", "LREAL", "", {})]
            for axis in ("fSwing", "fBoom", "fPan", "fTilt", "fRoll")]
    yield from members("MAIN.stJib", [
        *(one for pair in axes for one in pair),
        ("nCounterweight", "UINT", "Gegengewicht über dem Lager", dict(former=["nWeight", "nBallast"], high=0x00FF)),
        ("bTrackLock", "BOOL", "", dict(high=0x8000)),
    ])
    yield "MAIN.stLens", "ST_BoxLens", "Kastenobjektiv, geprüft", dict(size=848, attributes=lens, former=["stOptic"], high=0x0102)
    drives = [[(axis, "REAL", "", {}), (f"{axis}Raw", "DINT", "", dict(attributes=[("encoder", "1")]))] for axis in ("fZoom", "fFocus", "fIris")]
    yield from members("MAIN.stLens", [
        *(one for pair in drives for one in pair),
        ("aTable", "ARRAY [0..31] OF ST_LensPoint", "Stützpunkte", dict(size=512, attributes=lens[:2])),
        ("bExtender", "BOOL", "", dict(former=["bDoubler"])),
        ("sSerial", "STRING(31)", "", dict(high=0x1008)),
    ])
    yield "MAIN.nState", "DINT", "", {}


def main():
    out, start, behind = b"", 0x5000, 0x5000
    for name, kind, comment, more in symbols():
        start = start if "place" in more else behind
        data, length = entry(start + more.get("place", 0), name, kind, comment, **more)
        out, behind = out + data, behind if "place" in more else start + length
    assert len(out) <= 16384
    folder = Path(__file__).resolve().parent.parent / "samples"
    folder.mkdir(exist_ok=True)
    (folder / "rig.bin").write_bytes(out)
    (folder / "rig.hex").write_bytes(out.hex().upper().encode() + b"\n")


main()
