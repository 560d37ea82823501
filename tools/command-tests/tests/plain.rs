//! Whether an upload is in plain form, and of one that is not what departs first.

mod common;

use common::{Session, grown, repository, symbol};

/// An entry of these flags, with these bytes where its sections begin.
fn tailed(name: &[u8], flags: u16, tail: &[u8]) -> Vec<u8> {
    let mut entry = symbol(name, b"LREAL", 0, &[]);
    entry[20..22].copy_from_slice(&flags.to_le_bytes());
    entry.extend(tail);
    let length = (entry.len() as u32).to_le_bytes();
    entry[..4].copy_from_slice(&length);
    entry
}

/// The same entry with another byte at a place.
fn with_byte(mut entry: Vec<u8>, place: usize, byte: u8) -> Vec<u8> {
    entry[place] = byte;
    entry
}

#[test]
fn plain_uploads() {
    let mut session = Session::new(repository());
    session.run(&["plain", "samples/rig.bin"]);
    session.run(&["plain", "samples/rig.hex"]);
    session.run_on(&["plain", "-"], b"");
    session.run_on(
        &["plain", "-"],
        &symbol(b"MAIN.n", b"INT", 4, &[(b"u", b"v")]),
    );
    session.hold("plain.txt");
}

/// Behind two plain entries one that departs, and another behind it, which is not told. Its name says how it departs.
#[test]
fn each_departure() {
    const GUID: u16 = 8;
    const ATTRIBUTES: u16 = 0x1000;
    const EXTENDED: u16 = 0x8000;
    let attributes: &[(&[u8], &[u8])] = &[(b"unit", b"mm"), (b"scale", b"1000")];
    let with_two = |name: &[u8]| symbol(name, b"LREAL", 0, attributes);
    let bare = |name: &[u8]| symbol(name, b"LREAL", 0, &[]);
    let cases = [
        grown(bare(b"unread"), 5),
        grown(bare(b"unread.carried"), 211),
        tailed(b"no.guid", GUID, b"fifteen bytes.."),
        tailed(b"no.count", ATTRIBUTES, b"\x01"),
        tailed(b"no.extended.flags", EXTENDED, b"\x02\0\0"),
        tailed(b"no.chain", EXTENDED, b"\x04\0\0\0"),
        tailed(b"chain.refused", EXTENDED, b"\x04\0\0\0\0\0\0\0\xFF\xFF\0"),
        tailed(b"count.none.shown", ATTRIBUTES, b"\x01\x02"),
        with_byte(with_two(b"count.of.two"), 30 + 12 + 1 + 5 + 1 + 1, 7),
        with_byte(with_two(b"name.end"), 30 + 8, 0x41),
        with_byte(with_two(b"type.end"), 30 + 8 + 1 + 5, 0x0A),
        with_byte(with_two(b"comment.end"), 30 + 11 + 1 + 5 + 1, 0xFF),
        with_byte(
            with_two(b"attribute.end"),
            30 + 13 + 1 + 5 + 1 + 1 + 2 + 2 + 4,
            0x20,
        ),
        with_byte(bare(b"\x1Bcontrol"), 30 + 8, 1),
        tailed(b"chain.end", EXTENDED, b"\x04\0\0\0\0\0\0\0\x01\0n\x80"),
    ];
    let before = [bare(b"MAIN.first"), with_two(b"MAIN.second")].concat();
    let behind = grown(bare(b"MAIN.behind"), 1);
    let mut session = Session::new(repository());
    for case in cases {
        let upload = [before.as_slice(), &case, &behind].concat();
        session.run_on(&["plain", "-"], &upload);
    }
    session.hold("plain-departures.txt");
}

/// The walk's own refusals, and that of the option that looks at end bytes.
#[test]
fn unread_pieces() {
    let first = symbol(b"MAIN.first", b"LREAL", 0, &[]);
    let no_header = [29; 29];
    let mut session = Session::new(repository());
    for (claim, behind) in [(0, &b"more"[..]), (29, &no_header[4..]), (255, b"more")] {
        let claim = u32::to_le_bytes(claim);
        let upload = [first.as_slice(), &claim, behind].concat();
        session.run_on(&["plain", "-"], &upload);
    }
    let cut = [first.as_slice(), b"\x1D\0\0"].concat();
    session.run_on(&["plain", "-"], &cut);
    session.run_on(&["plain", "-", "--checked"], &first);
    session.hold("plain-unread.txt");
}
