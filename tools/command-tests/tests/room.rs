//! `room`, which reads no upload.

mod common;

use std::ffi::OsStr;
use std::fs::{File, OpenOptions};
use std::io::Seek;
use std::os::unix::ffi::OsStrExt;

use common::{Session, fed, program, repository, sample};

/// Entries of 33 bytes, the least that is accepted, taken away as often as they are there.
fn entries_in(mut length: usize) -> usize {
    let mut entries = 0;
    while length >= 33 {
        length -= 33;
        entries += 1;
    }
    entries
}

/// The number alone on a line, and nothing on standard error.
#[test]
fn the_room_of_a_length() {
    let mut session = Session::new(repository());
    let largest = 16_777_216;
    let few = [0, 1, 32, 33, 34, 65, 66, 1_400_000, sample().len()];
    for length in few.into_iter().chain([largest - 17, largest - 16, largest]) {
        let output = session.run(&["room", &length.to_string()]);
        let printed = String::from_utf8(output.stdout).unwrap();
        assert_eq!(printed, format!("{}\n", entries_in(length)));
        assert!(output.stderr.is_empty());
    }
    session.hold("room.txt");
}

/// A script may pad its numbers: they stay decimal, and how many zeros there are says nothing.
#[test]
fn zeros_before_a_length() {
    let mut session = Session::new(repository());
    let many = format!("{:060}", 330);
    for (length, slots) in [
        ("00", "0\n"),
        ("0033", "1\n"),
        ("0100", "3\n"),
        (&many, "10\n"),
    ] {
        let output = session.run(&["room", length]);
        assert_eq!(output.stdout, slots.as_bytes());
    }
    session.hold("room-zeros.txt");
}

/// Up to the largest length that has 64 bits; cut to 32, most of these would have a room.
#[test]
fn a_length_above_the_limit() {
    let mut session = Session::new(repository());
    for length in [
        "16777217",
        "16777218",
        "4294967295",
        "4294967296",
        "4294967329",
        "9223372036854775808",
        "18446744073709551615",
        "0000018446744073709551615",
    ] {
        let output = session.run(&["room", length]);
        assert!(output.stdout.is_empty());
        assert_eq!(output.status.code(), Some(1));
    }
    session.hold("room-refused.txt");
}

#[test]
fn no_length() {
    let mut session = Session::new(repository());
    for words in [
        &["room"][..],
        &["room", ""],
        &["room", " 33"],
        &["room", "33 "],
        &["room", "3 3"],
        &["room", "33\n"],
        &["room", "+33"],
        &["room", "-33"],
        &["room", "--", "-33"],
        &["room", "33.0"],
        &["room", "1,400,000"],
        &["room", "1_400_000"],
        &["room", "0x21"],
        &["room", "1e6"],
        &["room", "\u{663}\u{663}"],
        &["room", "-"],
        &["room", "samples/rig.bin"],
        &["room", "18446744073709551616"],
        &["room", "99999999999999999999999999"],
        &["room", "33", "66"],
        &["room", "33", ""],
        &["room", "samples/rig.bin", "33"],
        &["room", "--checked", "33"],
        &["room", "33", "--binary"],
        &["room", "--hex", "33"],
        &["room", "--json", "33"],
        &["room", "--checked", "--hex"],
        &["room", "--length", "33"],
    ] {
        let output = session.run(words);
        assert!(output.stdout.is_empty(), "{words:?}");
        assert_eq!(output.status.code(), Some(2), "{words:?}");
    }
    let mut command = program(&repository(), &["room"]);
    command.arg(OsStr::from_bytes(b"3\xB3"));
    session.note(&["room", "3(B3)"], &fed(command, b""));
    session.hold("room-usage.txt");
}

/// Standard input stays where it was: its place is shared with the program.
#[test]
fn nothing_is_read() {
    let mut input = File::open(repository().join("samples/rig.bin")).unwrap();
    let mut command = program(&repository(), &["room", "33"]);
    let output = command.stdin(input.try_clone().unwrap()).output().unwrap();
    assert_eq!(output.stdout, b"1\n");
    assert_eq!(input.stream_position().unwrap(), 0);
}

#[test]
fn a_room_that_cannot_be_printed() {
    let full = OpenOptions::new().write(true).open("/dev/full").unwrap();
    let mut command = program(&repository(), &["room", "33"]);
    let mut session = Session::new(repository());
    session.note(&["room", "33"], &command.stdout(full).output().unwrap());
    session.hold("room-full.txt");
}
