//! The arguments, the output and its end.

mod common;

use std::ffi::OsStr;
use std::fs::OpenOptions;
use std::io::Read;
use std::os::fd::OwnedFd;
use std::os::unix::ffi::OsStrExt;
use std::os::unix::net::UnixStream;
use std::process::{Command, Stdio};

use common::{PROGRAM, Session, fed, program, repository};

#[test]
fn help_and_version() {
    let mut session = Session::new(repository());
    for words in [&["--help"][..], &["list", "-h"], &["--version"], &["-V"]] {
        session.run(words);
    }
    session.hold("help.txt");
}

#[test]
fn usage() {
    let mut session = Session::new(repository());
    for words in [
        &[][..],
        &["look"],
        &["find"],
        &["find", "samples/rig.bin"],
        &["show", "samples/rig.bin"],
        &["check", "samples/rig.bin", "samples/rig.hex"],
        &["find", "samples/rig.bin", "a", "b", "c"],
        &["check", "--json", "samples/rig.bin"],
        &["check", "--colour", "samples/rig.bin"],
        &["check", "-x", "samples/rig.bin"],
        &["plain", "-hex", "samples/rig.bin"],
        &["-Vx"],
        &["plain", "--help=no", "samples/rig.bin"],
        &["check", "--hex=yes", "samples/rig.bin"],
        &["check", "--checked=yes", "samples/rig.bin"],
        &["salvage"],
        &["salvage", "samples/rig.bin"],
        &["salvage", "samples/rig.bin", "a", "b"],
        &["salvage", "--json", "samples/rig.bin", "a"],
        &["compare"],
        &["compare", "samples/rig.bin"],
        &["compare", "-", "-"],
        &["compare", "samples/rig.bin", "samples/rig.hex", "a"],
        &["type"],
        &["type", "samples/types.bin", "a", "b"],
        &["type", "--all", "samples/types.bin"],
    ] {
        let output = session.run(words);
        assert!(output.stdout.is_empty());
    }
    session.hold("usage.txt");
}

/// After -- a word that begins with a dash is a name.
#[test]
fn dashes() {
    let mut session = Session::new(repository());
    session.run(&["find", "samples/rig.bin", "--", "--help"]);
    session.hold("dashes.txt");
}

#[test]
fn a_name_that_is_not_utf_8() {
    let words = ["find", "samples/rig.bin", "MAIN.H(F6)he"];
    let mut command = program(&repository(), &words[..2]);
    command.arg(OsStr::from_bytes(b"MAIN.H\xF6he"));
    let output = fed(command, b"");
    let mut session = Session::new(repository());
    session.note(&words, &output);
    session.hold("not-utf-8.txt");
}

/// Of a list with refused entries too: the text of the sample, taken as binary, is one.
#[test]
fn a_closed_pipe_ends_quietly() {
    ends_quietly(&["show", "samples/rig.bin", "MAIN.stLens"]);
    ends_quietly(&["list", "--binary", "samples/rig.hex"]);
    ends_quietly(&["compare", "--binary", "samples/rig.bin", "samples/rig.hex"]);
    ends_quietly(&["type", "samples/types.bin"]);
    ends_quietly(&["type", "--json", "--binary", "samples/types.hex"]);
}

fn ends_quietly(words: &[&str]) {
    let mut command = program(&repository(), words);
    // A pair of sockets is refused as a pipe is, and here its reader is gone before the program begins.
    let (reader, writer) = UnixStream::pair().unwrap();
    drop(reader);
    command.stdout(OwnedFd::from(writer)).stderr(Stdio::piped());
    let mut child = command.spawn().unwrap();
    let mut said = String::new();
    child
        .stderr
        .take()
        .unwrap()
        .read_to_string(&mut said)
        .unwrap();
    assert_eq!((child.wait().unwrap().code(), said.as_str()), (Some(0), ""));
}

#[test]
fn a_full_disk_is_an_error() {
    let mut session = Session::new(repository());
    for words in [
        &["--help"][..],
        &["find", "samples/rig.bin", "MAIN.stLens", "ZoomCurveEnd"],
        &["show", "samples/rig.bin", "MAIN.stLens"],
        &["list", "samples/rig.bin"],
        &["list", "--json", "samples/rig.bin"],
        &["check", "samples/rig.bin"],
        &["compare", "samples/rig.bin", "samples/rig.hex"],
    ] {
        let full = OpenOptions::new().write(true).open("/dev/full").unwrap();
        let mut command = program(&repository(), words);
        let output = command.stdout(full).output().unwrap();
        session.note(words, &output);
    }
    session.hold("full.txt");
}

/// What the program prints to a terminal, which script(1) makes.
fn on_a_terminal(no_color: Option<&str>) -> String {
    let line = format!("{PROGRAM} show samples/rig.bin MAIN.stLens");
    let mut command = Command::new("script");
    command
        .args(["-qec", &line, "/dev/null"])
        .current_dir(repository());
    command.env("TERM", "xterm").env_remove("NO_COLOR");
    command.envs(no_color.map(|value| ("NO_COLOR", value)));
    let output = command
        .stdin(Stdio::null())
        .output()
        .expect("script(1) of util-linux is there");
    String::from_utf8(output.stdout).unwrap().replace('\r', "")
}

#[test]
fn colour_is_for_a_terminal() {
    let words = ["show", "samples/rig.bin", "MAIN.stLens"];
    let plain = fed(program(&repository(), &words), b"");
    let plain = String::from_utf8(plain.stdout).unwrap();
    assert!(!plain.contains('\x1b'));
    assert_eq!(on_a_terminal(Some("1")), plain);
    let coloured = on_a_terminal(None);
    assert!(
        coloured.contains("\x1b[33m40 40 00 00\x1b[0m"),
        "{coloured}"
    );
    assert!(coloured.contains("\x1b[33mgroup\x1b[0m"), "{coloured}");
    assert_eq!(
        on_a_terminal(Some("")),
        coloured,
        "an empty NO_COLOR says nothing"
    );
}
