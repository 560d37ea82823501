//! Every subcommand on the sample upload, in both forms.

mod common;

use common::{Session, fed, program, repository, sample};

const FORMS: [&str; 2] = ["samples/rig.bin", "samples/rig.hex"];

fn both(expected: &str, words: &[&str], after: &[&str]) {
    let mut session = Session::new(repository());
    let printed = FORMS.map(|file| {
        let words = [words, &[file], after].concat();
        let output = session.run(&words);
        let text = String::from_utf8(output.stdout).unwrap();
        text.lines()
            .filter(|line| !line.starts_with("samples/"))
            .collect::<Vec<_>>()
            .join("\n")
    });
    assert_eq!(printed[0], printed[1], "both forms are the same upload");
    session.hold(expected);
}

#[test]
fn an_attribute() {
    both(
        "find-attribute.txt",
        &["find"],
        &["MAIN.stLens", "ZoomCurveEnd"],
    );
}

#[test]
fn a_symbol() {
    both("find.txt", &["find"], &["MAIN.stLens.aTable"]);
}

#[test]
fn everything_of_a_symbol() {
    both("show.txt", &["show"], &["MAIN.stLens"]);
}

/// Whatever case a name is typed in, what is printed is the upload's own.
#[test]
fn names_in_any_case() {
    let mut session = Session::new(repository());
    session.run(&["find", "samples/rig.bin", "MAIN.STLENS"]);
    session.run(&["find", "samples/rig.hex", "main.stlens.atable"]);
    session.run(&["find", "samples/rig.bin", "mAiN.StLeNs", "ZoomCurveEnd"]);
    let typed = session.run(&["show", "samples/rig.bin", "MAIN.STLENS"]);
    session.hold("any-case.txt");
    let mut sent = Session::new(repository());
    let sent = sent.run(&["show", "samples/rig.bin", "MAIN.stLens"]);
    assert_eq!(typed.stdout, sent.stdout);
}

#[test]
fn a_table() {
    both("list.txt", &["list"], &[]);
}

fn printed(words: &[&str]) -> String {
    let output = fed(program(&repository(), words), b"");
    String::from_utf8(output.stdout).unwrap()
}

/// The last column is what stands in the entry at 22, the low byte first.
#[test]
fn high_in_the_table() {
    let upload = sample();
    let table = printed(&["list", "samples/rig.bin"]);
    let mut rows = table.lines().skip(1);
    let headings = rows.next().unwrap();
    assert_eq!(headings.split_whitespace().last(), Some("high"));
    let mut sent = Vec::new();
    for row in rows {
        let place = row.split_whitespace().next().unwrap();
        let entry = &upload[place.parse().unwrap()..];
        let high = u16::from(entry[22]) + 256 * u16::from(entry[23]);
        assert!(row.ends_with(&format!(" {high}")), "{row}");
        sent.push(high);
    }
    assert_eq!(sent.len(), 32);
    sent.retain(|high| *high != 0);
    assert_eq!(sent, [0x00FF, 0x8000, 0x0102, 0x1008]);
}

#[test]
fn high_after_the_flags() {
    for (name, flags, high) in [
        ("MAIN.stJib.nCounterweight", "0x8000, ", "0x00FF"),
        ("MAIN.stJib.bTrackLock", "0x0000, ", "0x8000"),
        ("MAIN.stLens", "0x9008, ", "0x0102"),
        ("MAIN.stLens.sSerial", "0x0000, ", "0x1008"),
        ("MAIN.nState", "0x0000, ", "0x0000"),
    ] {
        let shown = printed(&["show", "samples/rig.bin", name]);
        let mut lines = shown
            .lines()
            .skip_while(|line| !line.starts_with("flags  "));
        assert!(lines.next().unwrap().contains(flags), "{name}");
        assert_eq!(lines.next().unwrap(), format!("high          {high}"));
    }
}

#[test]
fn lines_of_json() {
    both("json.txt", &["list", "--json"], &[]);
}

#[test]
fn a_check() {
    both("check.txt", &["check"], &[]);
}

#[test]
fn names_that_are_not_there() {
    let mut session = Session::new(repository());
    for words in [
        &["find", "samples/rig.bin", "MAIN.stLenz"][..],
        &["find", "samples/rig.bin", "MAIN.stLens", "zoomcurveend"],
        &["find", "samples/rig.bin", "main.stlens", "ZOOMCURVEEND"],
        &["find", "samples/rig.bin", "MAIN.stLens", "ZoomCurve"],
        &["find", "samples/rig.bin", "MAIN.nState", "unit"],
        &["find", "samples/rig.bin", "MAIN.Ωmega"],
        &["show", "samples/rig.hex", "MAIN"],
    ] {
        let output = session.run(words);
        assert!(
            output.stdout.is_empty(),
            "a script must not take a message for an answer"
        );
    }
    session.hold("not-there.txt");
}

/// The degree sign is a byte in the upload and two in UTF-8, on the way out and on the way in.
#[test]
fn text_is_utf_8() {
    let mut session = Session::new(repository());
    let output = session.run(&["find", "samples/rig.bin", "MAIN.stJib.fSwing", "unit"]);
    assert_eq!(output.stdout, "°\n".as_bytes());
    session.hold("degree.txt");
}
