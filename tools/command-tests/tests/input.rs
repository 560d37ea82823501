//! Inputs of every form, and those that are none.

mod common;

use std::fs::{self, Permissions};
use std::os::unix::fs::PermissionsExt;
use std::os::unix::process::CommandExt;
use std::path::Path;

use common::{PROGRAM, Session, fed, folder, grown, hexadecimal, program, sample, symbol};

const LIMIT: usize = 16_777_216;

/// Lines of 32 digits, with some line end.
fn wrapped(end: &str) -> String {
    let digits = hexadecimal(&sample());
    let lines = digits
        .as_bytes()
        .chunks(32)
        .map(|line| String::from_utf8_lossy(line) + end);
    lines.collect()
}

fn spaced() -> String {
    let bytes: Vec<String> = sample().iter().map(|byte| format!("{byte:02X}")).collect();
    let rows = bytes.chunks(16).map(|row| row.join(" "));
    rows.collect::<Vec<_>>().join("\t\n\n ")
}

#[test]
fn hexadecimal_text_of_every_layout() {
    let folder = folder("layout");
    let digits = hexadecimal(&sample());
    let mixed = digits.replace('a', "A").replace('c', "C");
    let files = [
        ("lower.hex", digits.clone()),
        ("mixed.hex", mixed),
        ("crlf.hex", wrapped("\r\n")),
        ("cr.hex", wrapped("\r")),
        ("wrapped.hex", wrapped("\n")),
        ("spaces.hex", spaced()),
        (
            "split.hex",
            digits.chars().flat_map(|digit| [digit, ' ']).collect(),
        ),
        ("marked.hex", format!("\u{FEFF}{digits}")),
        ("late.hex", format!("\n\n\n\n\r\n  {digits}")),
    ];
    let mut session = Session::new(folder.clone());
    for (name, text) in files {
        fs::write(folder.join(name), text).unwrap();
        let output = session.run(&["check", name]);
        assert_eq!(output.status.code(), Some(0), "{name}");
    }
    fs::remove_dir_all(folder).unwrap();
    session.hold("layout.txt");
}

#[test]
fn standard_input() {
    let mut session = Session::new(common::repository());
    session.run_on(&["check", "-"], &sample());
    session.run_on(&["check", "-"], hexadecimal(&sample()).as_bytes());
    session.run_on(&["find", "-", "MAIN.stLens", "ZoomCurveEnd"], &sample());
    session.hold("stdin.txt");
}

#[test]
fn text_that_is_no_hexadecimal() {
    let mut session = Session::new(common::repository());
    session.run_on(&["check", "-"], b"250");
    session.run_on(&["check", "-"], b"2500 0000\n2040 00G0\n");
    session.run_on(&["check", "-"], b"2500000020\x80");
    session.run_on(&["list", "-"], b"a letter, by mistake");
    session.run_on(&["find", "-", "MAIN.stLens"], b"0");
    session.hold("no-hexadecimal.txt");
}

#[test]
fn a_form_that_is_told() {
    let mut session = Session::new(common::repository());
    session.run(&["check", "--hex", "samples/rig.bin"]);
    session.run(&["check", "--binary", "samples/rig.hex"]);
    session.run(&["check", "--binary", "samples/rig.bin"]);
    session.run(&["check", "--hex", "--binary", "samples/rig.bin"]);
    session.hold("told.txt");
}

#[test]
fn nothing_at_all() {
    let mut session = Session::new(common::repository());
    for words in [
        &["check", "-"][..],
        &["list", "-"],
        &["list", "--json", "-"],
        &["find", "-", "MAIN"],
    ] {
        session.run(words);
    }
    session.run_on(&["check", "-"], b" \r\n\t");
    session.hold("empty.txt");
}

/// One symbol, grown to the limit and past it, in both forms.
#[test]
fn the_limit() {
    let entry = symbol(b"MAIN.a", b"LREAL", 0, &[]);
    let full = grown(entry.clone(), LIMIT - entry.len());
    let above = grown(entry.clone(), LIMIT + 1 - entry.len());
    let mut session = Session::new(common::repository());
    for upload in [full, above] {
        session.run_on(&["check", "-"], &upload);
        session.run_on(&["check", "-"], hexadecimal(&upload).as_bytes());
    }
    session.hold("limit.txt");
}

#[test]
fn files_that_can_not_be_read() {
    let folder = folder("unreadable");
    let mut session = Session::new(folder.clone());
    for command in ["check", "list"] {
        session.run(&[command, "missing.bin"]);
        session.run(&[command, "."]);
    }
    let words = ["check", "closed.bin"];
    let closed = without_permission(&folder, &words);
    session.note(&words, &closed);
    fs::remove_dir_all(folder).unwrap();
    session.hold("unreadable.txt");
}

/// Root may read everything, so the program is run as nobody where the test runs as root; its file is copied to where
/// nobody may look.
fn without_permission(folder: &Path, words: &[&str]) -> std::process::Output {
    let (copy, closed) = (folder.join("vindaskot"), folder.join("closed.bin"));
    fs::copy(PROGRAM, &copy).unwrap();
    fs::write(&closed, sample()).unwrap();
    fs::set_permissions(folder, Permissions::from_mode(0o755)).unwrap();
    fs::set_permissions(&closed, Permissions::from_mode(0o000)).unwrap();
    if fs::read(&closed).is_err() {
        return fed(program(folder, words), b"");
    }
    let mut command = std::process::Command::new(copy);
    command
        .current_dir(folder)
        .args(words)
        .uid(65534)
        .gid(65534);
    fed(command, b"")
}
