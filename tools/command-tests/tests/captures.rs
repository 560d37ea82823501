//! `captures`, which reads no entry: lines of an upload and back.

mod common;

use std::fs;

use common::{Session, fed, folder, program, repository, sample};

/// The pieces of an upload in capitals, a line each.
fn lines(upload: &[u8]) -> String {
    let (mut text, mut left) = (String::new(), upload);
    while !left.is_empty() {
        let claim = left
            .first_chunk()
            .map_or(0, |claim| u32::from_le_bytes(*claim) as usize);
        let (piece, behind) = match claim {
            1.. if claim <= left.len() => left.split_at(claim),
            _ => (left, &[][..]),
        };
        text.extend(piece.iter().map(|byte| format!("{byte:02X}")));
        text.push('\n');
        left = behind;
    }
    text
}

fn hexadecimal(upload: &[u8]) -> String {
    upload.iter().map(|byte| format!("{byte:02x}")).collect()
}

#[test]
fn there_and_back() {
    let upload = sample();
    let there = fed(program(&repository(), &["captures", "split", "-"]), &upload);
    assert_eq!(there.status.code(), Some(0));
    assert_eq!(
        String::from_utf8(there.stdout.clone()).unwrap(),
        lines(&upload)
    );
    let back = fed(
        program(&repository(), &["captures", "join", "-"]),
        &there.stdout,
    );
    assert_eq!((back.status.code(), &back.stdout), (Some(0), &upload));
    // Hexadecimal text is one upload, whatever its lines.
    let text = hexadecimal(&upload);
    let (front, end) = text.split_at(1000);
    let two = format!("{front}\n{end}\n");
    let there = fed(
        program(&repository(), &["captures", "split", "-"]),
        two.as_bytes(),
    );
    assert_eq!(String::from_utf8(there.stdout).unwrap(), lines(&upload));
}

#[test]
fn each_line_an_upload() {
    let upload = sample();
    let cut = &upload[..upload.len() - 3];
    let zero = [&[0; 4][..], &upload[..300]].concat();
    let old = [&upload[..], cut, &[], &zero].map(hexadecimal).join("\n");
    let expected: String = [&upload[..], cut, &[], &zero].map(lines).concat();
    let made = fed(
        program(&repository(), &["captures", "each", "-"]),
        old.as_bytes(),
    );
    assert_eq!(made.status.code(), Some(0));
    assert_eq!(String::from_utf8(made.stdout).unwrap(), expected);
}

#[test]
fn the_largest_upload() {
    let mut upload = sample();
    upload.resize(16_777_216, 0);
    let folder = folder("captures");
    fs::write(folder.join("largest.bin"), &upload).unwrap();
    let there = fed(program(&folder, &["captures", "split", "largest.bin"]), b"");
    assert_eq!(there.status.code(), Some(0));
    assert!(there.stdout == lines(&upload).as_bytes());
    fs::write(folder.join("largest.lines"), &there.stdout).unwrap();
    let back = fed(
        program(&folder, &["captures", "join", "largest.lines"]),
        b"",
    );
    assert!(back.status.code() == Some(0) && back.stdout == upload);
    let more = fed(
        program(&folder, &["captures", "join", "-"]),
        &[&there.stdout[..], b"00"].concat(),
    );
    assert_eq!((more.status.code(), more.stdout.len()), (Some(1), 0));
    fs::remove_dir_all(folder).unwrap();
}

/// What is refused, and what can't be asked.
#[test]
fn refusals() {
    let mut session = Session::new(repository());
    session.run_on(&["captures", "split", "-"], b"");
    session.run_on(&["captures", "join", "-"], b"");
    session.run_on(&["captures", "each", "-"], b"");
    for text in ["\n\n", "05000000AB\n0", "05\r\n", "0g"] {
        session.run_on(&["captures", "join", "-"], text.as_bytes());
        session.run_on(&["captures", "each", "-"], text.as_bytes());
    }
    session.run_on(&["captures", "split", "-"], b"0500000");
    session.run(&["captures"]);
    session.run(&["captures", "turn", "-"]);
    session.run(&["captures", "join"]);
    session.run(&["captures", "join", "not-there"]);
    session.run(&["captures", "join", "--hex", "-"]);
    session.run(&["captures", "split", "--checked", "-"]);
    session.run(&["captures", "split", "--json", "-"]);
    session.hold("captures.txt");
}
