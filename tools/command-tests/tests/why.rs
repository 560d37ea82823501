//! Why the sections of a symbol are there or not.

mod common;

use common::{Session, fed, grown, program, repository, symbol};

/// A symbol of these flags, with these bytes where its sections begin.
fn tailed(name: &[u8], flags: u16, tail: &[u8]) -> Vec<u8> {
    let mut entry = symbol(name, b"LREAL", 0, &[]);
    entry[20..22].copy_from_slice(&flags.to_le_bytes());
    entry.extend(tail);
    let length = (entry.len() as u32).to_le_bytes();
    entry[..4].copy_from_slice(&length);
    entry
}

/// The sample has symbols of all sections, of some and of none; nothing is missing.
#[test]
fn the_sample() {
    let mut session = Session::new(repository());
    for file in ["samples/rig.bin", "samples/rig.hex"] {
        session.run(&["why", file, "MAIN.stLens"]);
    }
    for name in ["main.STPEDESTAL.bbrake", "MAIN.nState"] {
        session.run(&["why", "samples/rig.bin", name]);
    }
    session.hold("why.txt");
}

#[test]
fn each_reason() {
    const ATTRIBUTES: u16 = 0x1000;
    const EXTENDED: u16 = 0x8000;
    let cases: [(&[u8], u16, &[u8]); 14] = [
        (b"guid.short", 8, b"fifteen bytes.."),
        (b"count.none", ATTRIBUTES, b""),
        (b"count.one", ATTRIBUTES, b"\x05"),
        (b"announced.0", ATTRIBUTES, b"\0\0"),
        (b"ends.behind.count", ATTRIBUTES, b"\x05\0"),
        (b"owed", ATTRIBUTES, b"\xE8\x03\x01\x01u\0v\0"),
        (b"refused.2", ATTRIBUTES, b"\x05\0\x01\x01u\0v\0\0\0\0"),
        (
            b"refused.1",
            ATTRIBUTES,
            b"\x05\0\x01\x01u\0v\0\xFF\xFFlonger",
        ),
        (b"extended.short", EXTENDED, b"\x04\0\0"),
        (b"chain.unflagged", EXTENDED, b"\x02\0\0\0"),
        (b"chain.none", EXTENDED, b"\x04\0\0\0"),
        (
            b"chain.refused",
            EXTENDED,
            b"\x04\0\0\0\0\0\0\x01\0\0\0\0\0\0\0\x02\0n\0",
        ),
        (
            b"chain.two",
            EXTENDED,
            b"\x04\0\0\0\0\0\0\x01\0\0\0\0\0\0\0\0\0\0",
        ),
        // The extended flags are looked for where the attribute is refused.
        (b"both", ATTRIBUTES | EXTENDED, b"\x01\0\x04\0\0\0"),
    ];
    let upload: Vec<u8> = cases
        .iter()
        .flat_map(|(name, flags, tail)| tailed(name, *flags, tail))
        .collect();
    let mut session = Session::new(repository());
    for (name, _, _) in cases {
        session.run_on(&["why", "-", std::str::from_utf8(name).unwrap()], &upload);
    }
    session.hold("why-each.txt");
}

/// `show` says why behind `none`, and below attributes of which a later one is refused or some are owed.
#[test]
fn as_it_is_shown() {
    const ATTRIBUTES: u16 = 0x1000;
    const EXTENDED: u16 = 0x8000;
    const UNFLAGGED: &str = "none: not flagged";
    const NO_FLAGS: &str = "none: there are no extended flags";
    const CHAIN: &str = "0x00000004, REFACTOR_INFO";
    // The bytes from place 44 on, and what is told of them.
    let attributes: [(&[u8], &str); 6] = [
        (b"\x05", "none: flagged, but 1 byte is left at place 44"),
        (b"\0\0", "none: their count is 0"),
        (
            b"\x05\0",
            "none: record 0 is refused at place 46, refusal 2, too short: 4 bytes needed, 0 there",
        ),
        (
            b"\x05\0\x01\x01u\0v\0\xFF\xFFlonger",
            "u = v\n              no more: record 1 is refused at place 52, refusal 1, unexpected length: 514 bytes needed, 8 there",
        ),
        (
            b"\xE8\x03\x01\x01u\0v\0",
            "u = v\n              no more: 1000 announced, and the entry ends before 999 of them",
        ),
        (b"\x01\0\x01\x01u\0v\0", "u = v"),
    ];
    for (tail, told) in attributes {
        shown(ATTRIBUTES, tail, [UNFLAGGED, UNFLAGGED, told, NO_FLAGS]);
    }
    let chains: [(&[u8], &str, &str); 4] = [
        (
            b"\x04\0\0",
            "none: flagged, but 3 bytes are left at place 44",
            NO_FLAGS,
        ),
        (b"\0\0\0\0", "0x00000000, none", UNFLAGGED),
        (
            b"\x04\0\0\0",
            CHAIN,
            "none: flagged, but 0 bytes are left at place 48",
        ),
        (
            b"\x04\0\0\0\0\0\0\x01\0\0\0\0\0\0\0\x02\0n\0",
            CHAIN,
            "none: record 1 is refused at place 55, refusal 2, too short: 9 bytes needed, 8 there",
        ),
    ];
    for (tail, flags, told) in chains {
        shown(EXTENDED, tail, [flags, UNFLAGGED, UNFLAGGED, told]);
    }
    let short = "none: flagged, but 15 bytes are left at place 44";
    shown(
        8,
        b"fifteen bytes..",
        [UNFLAGGED, short, UNFLAGGED, NO_FLAGS],
    );
}

/// Holds what `show` tells of extended flags, GUID, attributes and former names, in both modes. Sections begin at place 44.
fn shown(flags: u16, tail: &[u8], told: [&str; 4]) {
    let [extended, guid, attributes, former_names] = told;
    let facts = format!(
        "\nextended      {extended}\nGUID          {guid}\nattributes    {attributes}\nformer names  {former_names}\nunread  "
    );
    let entry = tailed(b"MAIN.a", flags, tail);
    for mode in [
        &["show", "-", "MAIN.a"][..],
        &["show", "--checked", "-", "MAIN.a"],
    ] {
        let output = fed(program(&repository(), mode), &entry);
        let text = String::from_utf8(output.stdout).expect("it prints UTF-8");
        assert!(text.contains(&facts), "not there:{facts}\nbut:\n{text}");
    }
}

/// Unread bytes are no section; what is refused, or not there, is not explained.
#[test]
fn what_is_not_explained() {
    let entry = grown(symbol(b"MAIN.a", b"LREAL", 0, &[(b"unit", b"mm")]), 5);
    let mut cut = symbol(b"MAIN.b\x07", b"LREAL", 8, &[]);
    cut[36] = 1;
    let upload = [entry, cut].concat();
    let mut session = Session::new(repository());
    session.run_on(&["why", "-", "MAIN.a"], &upload);
    session.run_on(&["why", "--checked", "-", "MAIN.a"], &upload);
    session.run_on(&["why", "-", "MAIN.c"], &upload);
    session.run_on(&["why", "-", "MAIN.a", "more"], &upload);
    session.run_on(&["why", "-"], &upload);
    session.run_on(&["why", "--json", "-", "MAIN.a"], &upload);
    session.hold("why-not.txt");
}
