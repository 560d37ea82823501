#!/usr/bin/env python3
"""A sample upload of data types: those of a box lens and of its table, and of the rig whose symbols samples/rig.bin has.

    tools/types_sample.py      writes samples/types.bin, and samples/types.hex, the same as one hexadecimal line

A structure's members stand in its entry as sub-items, and a member that is a structure has its own in it again: so the lens
table tells every number of the curve with its offset. Arrays begin at 0, above it and below it. The end of the zoom curve has
the attribute that the renderer asks for. One entry has a copy mask, one methods, and one bytes that no reader knows. Of the lens
panel two members are bits, and one each static, a property and a reference, whose own members lie where it leads. The
rig's structures (tools/rig_sample.py) name the types of their members and do not hold these members' members, as most
controllers send it, so a path leads from type to type by name.
"""
import struct
import uuid
import zlib
from pathlib import Path

TYPES = {"BOOL": (33, 1), "INT": (2, 2), "DINT": (3, 4), "REAL": (4, 4), "LREAL": (5, 8), "UINT": (18, 2), "STRING(31)": (30, 32),
         "BIT": (33, 1)}
STRUCT = 65
DATA_TYPE, DATA_ITEM = 0x0001, 0x0002
REFERENCE_TO, BIT_VALUES, PROP_ITEM, STATIC = 0x0004, 0x0020, 0x0040, 0x20000
GUID, COPY_MASK, METHODS, ATTRIBUTES = 0x0080, 0x0200, 0x0800, 0x1000


def text(s):
    return s.encode("cp1252")


def attribute(name, value):
    name, value = text(name), text(value)
    return bytes([len(name), len(value)]) + name + b"\0" + value + b"\0"


def entry(name, kind="", comment="", offset=0, size=None, arrays=(), items=(), attributes=(), guid=False, mask=False, methods=(),
          flags=DATA_ITEM, more=b""):
    type_id, length = TYPES.get(kind, (STRUCT, 0))
    for _, elements in arrays:
        length *= elements
    length = length if size is None else size
    tail = b"".join(struct.pack("<iI", *bounds) for bounds in arrays) + b"".join(items)
    if guid:
        flags |= GUID
        tail += uuid.uuid5(uuid.NAMESPACE_OID, name).bytes_le
    if mask:
        flags |= COPY_MASK
        tail += b"\xFF" * length
    if methods:
        flags |= METHODS
        tail += struct.pack("<H", len(methods)) + b"".join(struct.pack("<I", 4 + len(m)) + m for m in methods)
    if attributes:
        flags |= ATTRIBUTES
        tail += struct.pack("<H", len(attributes)) + b"".join(attribute(n, v) for n, v in attributes)
    name, kind, comment = text(name), text(kind), text(comment)
    body = name + b"\0" + kind + b"\0" + comment + b"\0" + tail + more
    hashes = zlib.crc32(name), zlib.crc32(kind)
    head = struct.pack("<IIIIIIII", 42 + len(body), 1, *hashes, length, offset, type_id, flags)
    return head + struct.pack("<HHHHH", len(name), len(kind), len(comment), len(arrays), len(items)) + body


def whole(name, **more):
    return entry(name, flags=DATA_TYPE, **more)


UNIT = ("unit", "mm")


def point():
    names = ("fZoom", "fFocus", "fIris", "fFieldOfView")
    return [entry(name, "REAL", offset=4 * number) for number, name in enumerate(names)]


def curve(end):
    """Eight bytes and eight points of 16 each, the first two of them before the curve's start."""
    return [
        entry("fStart", "REAL", "Anfang der Kurve", 0, attributes=[UNIT]),
        entry("fEnd", "REAL", "Ende der Kurve, geprüft", 4, attributes=[("ZoomCurveEnd", end), UNIT]),
        entry("aPoints", "ARRAY [-2..5] OF ST_LensPoint", "Stützpunkte", 8, 128, arrays=[(-2, 8)], items=point()),
    ]


def table():
    return [
        entry("sSerial", "STRING(31)", "", 0),
        entry("nCurves", "INT", "", 32),
        entry("stZoom", "ST_LensCurve", "Zoom", 36, 136, items=curve("0.9375"), attributes=[("Axis", "Zoom")]),
        entry("stFocus", "ST_LensCurve", "Schärfe", 172, 136, items=curve("0.875"), attributes=[("Axis", "Focus"), ("Former", "stSharp")]),
        entry("aShading", "LREAL", "", 312, arrays=[(-1, 3), (1, 4)]),
        entry("bExtender", "BOOL", "", 408, attributes=[("Factor", "2×")]),
    ]


def panel():
    """Bits 64 and 65 are the lowest of byte 8; of the others only the reference has a place, which is not that of its members."""
    return [
        entry("bZoomLock", "BIT", "", 64, flags=DATA_ITEM | BIT_VALUES),
        entry("bFocusLock", "BIT", "", 65, flags=DATA_ITEM | BIT_VALUES),
        entry("refPoint", "REFERENCE TO ST_LensPoint", "", 16, 8, items=point(), flags=DATA_ITEM | REFERENCE_TO),
        entry("nPanels", "DINT", "", 0, flags=DATA_ITEM | STATIC),
        entry("fTilt", "REAL", "", 0, flags=DATA_ITEM | PROP_ITEM),
    ]


def pedestal():
    axes = ("fHeight", "fHeightSpeed", "fDriveX", "fDriveY", "fSteer")
    return [
        *(entry(axis, "LREAL", offset=8 * number) for number, axis in enumerate(axes)),
        entry("nBalance", "INT", "Druck für den Ausgleich", 40, attributes=[("unit", "kPa")]),
        entry("bBrake", "BOOL", "", 42),
    ]


def jib():
    axes = [name for axis in ("fSwing", "fBoom", "fPan", "fTilt", "fRoll") for name in (axis, f"{axis}Speed")]
    return [
        *(entry(axis, "LREAL", offset=8 * number) for number, axis in enumerate(axes)),
        entry("nCounterweight", "UINT", "Gegengewicht über dem Lager", 80),
        entry("bTrackLock", "BOOL", "", 82),
    ]


def lens():
    drives = [(axis + raw, kind) for axis in ("fZoom", "fFocus", "fIris") for raw, kind in (("", "REAL"), ("Raw", "DINT"))]
    return [
        *(entry(name, kind, offset=4 * number) for number, (name, kind) in enumerate(drives)),
        entry("aTable", "ARRAY [0..31] OF ST_LensPoint", "Stützpunkte", 24, 512),
        entry("bExtender", "BOOL", "", 536),
        entry("sSerial", "STRING(31)", "", 537),
        entry("stZoom", "ST_LensCurve", "Zoom", 572, 136, attributes=[("Axis", "Zoom")]),
        entry("stFocus", "ST_LensCurve", "Schärfe", 708, 136, attributes=[("Axis", "Focus")]),
    ]


def types():
    yield whole("ST_LensPoint", size=16, items=point(), guid=True)
    yield whole("ST_LensCurve", size=136, items=curve("1"), guid=True)
    yield whole("ST_LensTable", comment="Kastenobjektiv", size=416, items=table(), guid=True, attributes=[("LensTable", "27x6.5")])
    yield entry("T_Degree", "LREAL", "Winkel in °", flags=DATA_TYPE)
    yield entry("ARRAY [-2..5] OF INT", "INT", arrays=[(-2, 8)], flags=DATA_TYPE, mask=True)
    yield whole("FB_LensDrive", size=24, items=[entry("bBusy", "BOOL", "", 16)], methods=[b"Home", b"Park\0"], guid=True,
                attributes=[("hide", "")], more=b"\x01\x02\x03")
    yield whole("FB_LensPanel", size=24, items=panel())
    yield entry("ARRAY [0..31] OF ST_LensPoint", "ST_LensPoint", size=512, arrays=[(0, 32)], flags=DATA_TYPE)
    yield whole("ST_Pedestal", size=64, items=pedestal(), guid=True)
    yield whole("ST_Jib", size=96, items=jib(), guid=True)
    yield whole("ST_BoxLens", comment="Kastenobjektiv, geprüft", size=848, items=lens(), guid=True)


def main():
    out = b"".join(types())
    folder = Path(__file__).resolve().parent.parent / "samples"
    folder.mkdir(exist_ok=True)
    (folder / "types.bin").write_bytes(out)
    (folder / "types.hex").write_bytes(out.hex().upper().encode() + b"\n")


main()
