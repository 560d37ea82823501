//! A rig of 9,000 symbols.

mod common;

use common::{Session, repository, symbol, with_high};

const SYMBOLS: usize = 9000;

fn name(number: usize) -> String {
    format!(
        "MAIN.stRig.aCamera[{:03}].stLens.fAxis{:02}",
        number / 100,
        number % 100
    )
}

/// Each symbol tells its own number in an attribute and in its high.
fn rig() -> Vec<u8> {
    let entry = |number: usize| {
        let (name, value) = (name(number), number.to_string());
        let own: (&[u8], &[u8]) = (b"Number", value.as_bytes());
        let attributes = [(&b"unit"[..], &b"mm"[..]), own];
        let entry = symbol(name.as_bytes(), b"LREAL", 8 * number as u32, &attributes);
        with_high(entry, number as u16)
    };
    (0..SYMBOLS).flat_map(entry).collect()
}

#[test]
fn check_and_find() {
    let upload = rig();
    let mut session = Session::new(repository());
    session.run_on(&["check", "-"], &upload);
    for number in [0, 4321, SYMBOLS - 1] {
        let name = name(number);
        session.run_on(&["find", "-", &name], &upload);
        let output = session.run_on(&["find", "-", &name, "Number"], &upload);
        assert_eq!(output.stdout, format!("{number}\n").as_bytes());
    }
    session.run_on(&["show", "-", &name(SYMBOLS - 1)], &upload);
    session.run_on(&["find", "-", &name(SYMBOLS)], &upload);
    session.hold("rig.txt");
}

/// Every line of the table, made here from what the rig was made of.
#[test]
fn the_table() {
    let upload = rig();
    let output = common::fed(common::program(&repository(), &["list", "-"]), &upload);
    let text = String::from_utf8(output.stdout).unwrap();
    let lines: Vec<&str> = text.lines().collect();
    assert_eq!((output.status.code(), lines.len()), (Some(0), SYMBOLS + 2));
    let mut place = 0;
    for (number, line) in lines[2..].iter().enumerate() {
        let offset = format!("0x{:X}", 8 * number);
        let expected = format!(
            "{place:>6}  {}  LREAL     8  0x4040  {offset:>7}      2       0  {number:>4}",
            name(number)
        );
        assert_eq!(*line, expected);
        let entry = &upload[place..][..4];
        place += u32::from_le_bytes(entry.try_into().unwrap()) as usize;
    }
    assert_eq!(place, upload.len());
}

#[test]
fn the_lines_of_json() {
    let upload = rig();
    let output = common::fed(
        common::program(&repository(), &["list", "--json", "-"]),
        &upload,
    );
    let text = String::from_utf8(output.stdout).unwrap();
    assert_eq!(text.lines().count(), SYMBOLS);
    for (number, line) in text.lines().enumerate() {
        assert!(line.contains(&format!("\"name\":\"{}\"", name(number))));
        assert!(line.contains(&format!("{{\"name\":\"Number\",\"value\":\"{number}\"}}")));
        assert!(line.contains(&format!("\"flags\":4096,\"high\":{number},")));
    }
}
