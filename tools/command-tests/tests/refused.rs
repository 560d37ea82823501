//! Uploads with entries that are refused, grown or odd.

mod common;

use common::{Session, grown, repository, sample, symbol, with_high};

fn short(claim: u32) -> Vec<u8> {
    let mut entry = vec![0xEE; claim.max(4) as usize];
    entry[..4].copy_from_slice(&claim.to_le_bytes());
    entry
}

fn all(expected: &str, upload: &[u8]) {
    let mut session = Session::new(repository());
    session.run_on(&["list", "-"], upload);
    session.run_on(&["list", "--json", "-"], upload);
    session.run_on(&["check", "-"], upload);
    session.hold(expected);
}

/// A claim below the header, strings beyond the entry, a claim beyond the data: each in its place, and none has a high.
#[test]
fn refused_entries_in_their_place() {
    let mut long = with_high(symbol(b"MAIN.b", b"LREAL", 8, &[]), 0x0506);
    long[24] = 200;
    let mut last = symbol(b"MAIN.d", b"LREAL", 24, &[]);
    last.pop();
    let entries = [
        symbol(b"MAIN.a", b"LREAL", 0, &[]),
        short(29),
        long,
        with_high(symbol(b"MAIN.c", b"LREAL", 16, &[]), 0x0304),
        last,
    ];
    all("refused.txt", &entries.concat());
}

#[test]
fn a_zero_length_ends_the_walk() {
    let first = symbol(b"MAIN.a", b"LREAL", 0, &[]);
    let after = symbol(b"MAIN.b", b"LREAL", 8, &[]);
    let upload = [first, short(0), after].concat();
    all("zero.txt", &upload);
    let mut session = Session::new(repository());
    session.run_on(&["find", "-", "MAIN.a"], &upload);
    session.run_on(&["find", "-", "MAIN.b"], &upload);
    session.hold("zero-find.txt");
}

#[test]
fn a_cut_upload() {
    let upload = sample();
    let mut session = Session::new(repository());
    for cut in [1, 3, 4, 30, 79, 80, 2000, 2351] {
        session.run_on(&["check", "-"], &upload[..cut]);
    }
    session.hold("cut.txt");
}

/// The unread bytes of an entry, counted and seen.
#[test]
fn unread_bytes() {
    let entry = symbol(b"MAIN.a", b"LREAL", 0, &[(b"unit", b"mm")]);
    let upload = [grown(entry, 21), symbol(b"MAIN.b", b"LREAL", 8, &[])].concat();
    let mut session = Session::new(repository());
    session.run_on(&["show", "-", "MAIN.a"], &upload);
    session.run_on(&["list", "-"], &upload);
    session.run_on(&["check", "-"], &upload);
    session.hold("unread.txt");
}

/// A count of attributes whose second record is refused: the count and the good record show, and the rest is unread.
#[test]
fn an_attribute_that_is_refused() {
    let two: [(&[u8], &[u8]); 2] = [(b"unit", b"mm"), (b"x", b"1")];
    let mut entry = symbol(b"MAIN.a", b"LREAL", 0, &two);
    let second = entry.len() - 6;
    entry[second] = 9;
    let mut none = symbol(b"MAIN.b", b"LREAL", 8, &two[1..]);
    let first = none.len() - 6;
    none[first] = 9;
    let upload = [entry, none].concat();
    let mut session = Session::new(repository());
    session.run_on(&["show", "-", "MAIN.a"], &upload);
    session.run_on(&["show", "-", "MAIN.b"], &upload);
    session.hold("attribute-refused.txt");
}

/// Of two attributes of one name the first is meant, and of two symbols likewise.
#[test]
fn the_first_of_two() {
    let first: [(&[u8], &[u8]); 3] = [(b"unit", b"mm"), (b"End", b"1"), (b"End", b"2")];
    let second: [(&[u8], &[u8]); 1] = [(b"End", b"3")];
    let entries = [
        symbol(b"MAIN.a", b"LREAL", 0, &first),
        symbol(b"MAIN.a", b"REAL", 8, &second),
    ];
    let mut session = Session::new(repository());
    session.run_on(&["find", "-", "MAIN.a"], &entries.concat());
    let output = session.run_on(&["find", "-", "MAIN.a", "End"], &entries.concat());
    assert_eq!(output.stdout, b"1\n");
    session.hold("two.txt");
}

/// Also where the names differ in case alone, and the later one is what was typed.
#[test]
fn the_first_of_two_cases() {
    let entries = [
        symbol(b"MAIN.a", b"LREAL", 0, &[(b"End", b"1")]),
        symbol(b"MAIN.A", b"REAL", 8, &[(b"End", b"2"), (b"END", b"3")]),
    ];
    let upload = entries.concat();
    let mut session = Session::new(repository());
    for name in ["MAIN.a", "MAIN.A", "main.A"] {
        session.run_on(&["find", "-", name], &upload);
    }
    session.run_on(&["find", "-", "MAIN.A", "End"], &upload);
    session.run_on(&["find", "-", "MAIN.A", "END"], &upload);
    session.run_on(&["show", "-", "MAIN.A"], &upload);
    session.hold("two-cases.txt");
}

/// The case of A to Z is all that may differ. Who typed another case of an accented letter is told what there is.
#[test]
fn accented_letters_in_another_case() {
    let small = symbol(b"MAIN.f\xFCr", b"LREAL", 0, &[]);
    let capital = symbol(b"MAIN.F\xDCR", b"REAL", 8, &[]);
    let other = symbol(b"MAIN.\x8A\x9F\xD7", b"INT", 16, &[]);
    let mut session = Session::new(repository());
    let alone = [&capital[..], &other].concat();
    for name in ["main.fÜr", "MAIN.FüR", "MAIN.FUR", "MAIN.šÿ×", "MAIN.šÿ÷"] {
        session.run_on(&["find", "-", name], &alone);
    }
    let both = [&small[..], &capital].concat();
    for name in ["MAIN.FüR", "main.fÜr"] {
        session.run_on(&["find", "-", name], &both);
    }
    session.run_on(&["show", "-", "MAIN.fÜR"], &both);
    session.hold("accents.txt");
}

/// Columns stay in line beside umlauts, a euro and controls, which must not reach a terminal, and a number that is wider
/// than its heading.
#[test]
fn widths_of_names() {
    let entries = [
        symbol(b"MAIN.H\xF6he", b"LREAL", 0, &[(b"W\xE4hrung", b"\x80")]),
        symbol(b"MAIN.\x1B[31m\x00\x9D", b"T", 8, &[]),
        with_high(symbol(b"", b"", 16, &[]), 0xFFFE),
        symbol(b"MAIN.\"\\", b"LREAL", 24, &[]),
    ];
    let upload = entries.concat();
    all("widths.txt", &upload);
    let mut session = Session::new(repository());
    session.run_on(&["find", "-", "MAIN.Höhe", "Währung"], &upload);
    session.run_on(&["find", "-", ""], &upload);
    session.hold("widths-find.txt");
}

/// Each byte of the lens entry made 0, 255 and one more, in both modes: the program answers or refuses, and the picture
/// has every byte of the entry once.
#[test]
fn any_byte_may_be_wrong() {
    any_byte(&["show", "-", "MAIN.stLens"]);
    any_byte(&["show", "--checked", "-", "MAIN.stLens"]);
}

fn any_byte(words: &[&str]) {
    let upload = sample();
    for place in 1455..1633 {
        for byte in [0, 255, upload[place].wrapping_add(1)] {
            let mut upload = upload.clone();
            upload[place] = byte;
            let command = common::program(&repository(), words);
            let output = common::fed(command, &upload);
            let status = output.status.code();
            assert!(matches!(status, Some(0 | 1)), "{place} {byte}: {output:?}");
            if status == Some(0) {
                let text = String::from_utf8(output.stdout).unwrap();
                assert_eq!(drawn(&text), told(&text), "{place} {byte}");
            }
        }
    }
}

/// How long the entry is said to be.
fn told(text: &str) -> usize {
    let rest = text.split("at 1455, ").nth(1).unwrap();
    let length = rest.split(' ').next().unwrap();
    length.replace(',', "").parse().unwrap()
}

/// How many bytes the picture shows: the words of two digits in the columns of its rows.
fn drawn(text: &str) -> usize {
    let picture = text.rsplit("\n\n").next().unwrap();
    let bytes = picture.lines().map(|line| {
        let columns: String = line.chars().skip(8).take(49).collect();
        columns
            .split([' ', '|'])
            .filter(|word| word.len() == 2)
            .count()
    });
    bytes.sum()
}
