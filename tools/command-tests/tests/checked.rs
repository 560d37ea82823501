//! `--checked`: entries whose strings do not end in a byte of 0 are refused.

mod common;

use common::{Session, fed, program, repository, sample, symbol};

/// The sample with one byte of an entry made a letter, as where a gateway cut a string without its end byte.
fn cut_at(place: usize) -> Vec<u8> {
    let mut upload = sample();
    assert_eq!(upload[place], 0, "an end byte");
    upload[place] = b'X';
    upload
}

/// Where the lens starts, and the end bytes of its name, of its first attribute's value and of its former name.
const LENS: usize = 1455;
const NAME: usize = LENS + 30 + "MAIN.stLens".len();

fn every_command(session: &mut Session, upload: &[u8], name: &str) {
    for checked in [&[][..], &["--checked"]] {
        for words in [
            &["check", "-"][..],
            &["find", "-", name],
            &["find", "-", name, "ZoomCurveEnd"],
        ] {
            session.run_on(&[words, checked].concat(), upload);
        }
    }
    let shown = session.run_on(&["show", "--checked", "-", name], upload);
    assert!(
        shown.stdout.is_empty(),
        "a script must not take a message for an answer"
    );
}

#[test]
fn a_name_that_was_cut() {
    let mut session = Session::new(repository());
    every_command(&mut session, &cut_at(NAME), "MAIN.stLens");
    session.hold("checked-name.txt");
}

/// The last byte of the lens is its former name's end byte, and its value's stands before the next attribute.
#[test]
fn strings_of_an_attribute_and_of_a_former_name() {
    let upload = sample();
    let length = u32::from_le_bytes(*upload[LENS..].first_chunk().unwrap()) as usize;
    let value = upload[LENS..]
        .windows(7)
        .position(|part| part == b"0.9375\0");
    let mut session = Session::new(repository());
    for place in [LENS + value.unwrap() + 6, LENS + length - 1] {
        every_command(&mut session, &cut_at(place), "main.STLENS");
    }
    session.hold("checked-records.txt");
}

/// A refused entry stands in its place in the table and in the lines of JSON; all others are as without the word.
#[test]
fn the_table_and_the_lines_of_json() {
    let entries = [
        symbol(b"MAIN.a", b"LREAL", 0, &[(b"unit", b"mm")]),
        symbol(b"MAIN.b", b"LREAL", 8, &[(b"unit", b"mm")]),
        symbol(b"MAIN.c", b"LREAL", 16, &[]),
    ];
    let mut upload = entries.concat();
    let end = entries[0].len() + entries[1].len() - 1;
    upload[end] = 0xC4;
    let mut session = Session::new(repository());
    for words in [&["list", "-"][..], &["list", "--json", "-"]] {
        session.run_on(words, &upload);
        session.run_on(&[words, &["--checked"]].concat(), &upload);
    }
    session.hold("checked-list.txt");
}

/// Of two symbols of one name the one that is whole is found.
#[test]
fn the_next_of_two() {
    let mut first = symbol(b"MAIN.a", b"LREAL", 0, &[(b"End", b"1")]);
    first[36] = 0xFF;
    let second = symbol(b"MAIN.A", b"REAL", 8, &[(b"End", b"2")]);
    let upload = [first, second].concat();
    let mut session = Session::new(repository());
    for checked in [&[][..], &["--checked"]] {
        session.run_on(&[&["find", "-", "MAIN.a"], checked].concat(), &upload);
        session.run_on(
            &[&["find", "-", "MAIN.a", "End"], checked].concat(),
            &upload,
        );
    }
    session.run_on(&["show", "--checked", "-", "MAIN.a"], &upload);
    session.hold("checked-two.txt");
}

/// On a sound upload nothing depends on the word but that it is said.
#[test]
fn a_sound_upload() {
    let name = "MAIN.stLens";
    for words in [
        &["check", "samples/rig.bin"][..],
        &["find", "samples/rig.hex", name],
        &["find", "samples/rig.bin", name, "ZoomCurveEnd"],
        &["show", "samples/rig.bin", name],
        &["list", "samples/rig.bin"],
        &["list", "--json", "samples/rig.hex"],
        &["find", "samples/rig.bin", "MAIN.stLenz"],
    ] {
        let plain = fed(program(&repository(), words), b"");
        let words = [words, &["--checked"]].concat();
        let checked = fed(program(&repository(), &words), b"");
        assert_eq!(checked.status, plain.status);
        for (said, before) in [
            (checked.stdout, plain.stdout),
            (checked.stderr, plain.stderr),
        ] {
            let before = String::from_utf8(before).unwrap();
            let before = before.replacen("2,352 bytes)", "2,352 bytes, checked)", 1);
            assert_eq!(String::from_utf8(said).unwrap(), before);
        }
    }
}
