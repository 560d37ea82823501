//! `branch` and `list --sorted`, held to a sort and a filter of what `list --json` writes.

mod common;

use common::{Session, fed, program, repository, sample, symbol};

/// What a subcommand writes of an upload that it is fed, and its status.
fn written(words: &[&str], upload: &[u8]) -> (Vec<String>, Option<i32>) {
    let output = fed(program(&repository(), words), upload);
    let text = String::from_utf8(output.stdout).expect("it prints UTF-8");
    (
        text.lines().map(str::to_string).collect(),
        output.status.code(),
    )
}

/// The name in a line of JSON, with A to Z as a to z: none of a refused entry.
fn name_in(line: &str) -> Option<String> {
    let (_, from_name) = line.split_once("\"name\":\"")?;
    let (name, _) = from_name.split_once("\",\"type\":")?;
    Some(name.to_ascii_lowercase())
}

/// The lines of accepted entries in the order of their names and, where these are the same, of the upload; and the others.
fn sorted(lines: &[String]) -> (Vec<String>, Vec<String>) {
    let accepted = lines.iter().filter(|line| name_in(line).is_some());
    let mut accepted: Vec<_> = accepted.cloned().collect();
    accepted.sort_by_key(|line| name_in(line));
    let refused = lines.iter().filter(|line| name_in(line).is_none());
    (accepted, refused.cloned().collect())
}

/// The rig, with names of every kind behind it, the same in another case, and refused entries.
fn uploads() -> Vec<Vec<u8>> {
    let mut names = sample();
    for name in [
        "main.stlens",
        "MAIN.stLens.",
        "MAIN.stLent",
        "A",
        "",
        "gvl.a",
    ] {
        names.extend(symbol(name.as_bytes(), b"REAL", 7, &[]));
    }
    let mut damaged = names.clone();
    damaged.extend([31, 0, 0, 0].iter().chain(&[0xFF; 27]));
    damaged.extend(symbol(b"MAIN.aLast", b"INT", 9, &[]));
    vec![sample(), names, damaged]
}

#[test]
fn a_branch_is_what_begins_so_in_order() {
    for upload in uploads() {
        for mode in [&["-"][..], &["--checked", "-"][..]] {
            let list = [&["list", "--json"][..], mode].concat();
            let (all, _) = written(&list, &upload);
            let (accepted, _) = sorted(&all);
            for text in [
                "",
                "MAIN.",
                "main.STlens",
                "MAIN.stLens.",
                "a",
                "gvl",
                "none such",
            ] {
                let asked = [&["branch", "--json"][..], mode, &[text][..]].concat();
                let begins = |line: &&String| {
                    let name = name_in(line).unwrap_or_default();
                    name.starts_with(&text.to_ascii_lowercase())
                };
                let expected: Vec<_> = accepted.iter().filter(begins).cloned().collect();
                let status = if expected.is_empty() { 1 } else { 0 };
                assert_eq!(written(&asked, &upload), (expected.clone(), Some(status)));
                let table = [&["branch"][..], mode, &[text][..]].concat();
                let (rows, _) = written(&table, &upload);
                let headed = if expected.is_empty() { 0 } else { 2 };
                assert_eq!(rows.len(), expected.len() + headed, "{text}");
            }
        }
    }
}

#[test]
fn a_sorted_list_has_all_that_a_list_has() {
    for upload in uploads() {
        let (all, status) = written(&["list", "--json", "-"], &upload);
        let (accepted, refused) = sorted(&all);
        let expected = [accepted, refused].concat();
        assert_eq!(
            written(&["list", "--sorted", "--json", "-"], &upload),
            (expected, status)
        );
        let (mut rows, _) = written(&["list", "-"], &upload);
        let (mut ordered, _) = written(&["list", "--sorted", "-"], &upload);
        rows.sort();
        ordered.sort();
        assert_eq!(ordered, rows);
    }
}

#[test]
fn a_zero_length_has_no_order() {
    let mut upload = sample();
    upload.extend([0; 4]);
    for words in [&["branch", "-", "MAIN"][..], &["list", "--sorted", "-"]] {
        let (lines, status) = written(words, &upload);
        assert_eq!((lines.len(), status), (0, Some(1)), "{words:?}");
    }
}

/// Entries in no order: a name that stands twice, once more in another case, and begins others; one with accents, which have
/// no case here; no name; and two that are refused, one between the others and one at the end.
fn few() -> Vec<u8> {
    let mut upload = Vec::new();
    for name in ["MAIN.stLens", "GVL.b", "main.stlens"] {
        upload.extend(symbol(name.as_bytes(), b"REAL", 7, &[]));
    }
    upload.extend([31, 0, 0, 0].iter().chain(&[0xFF; 27]));
    for name in [
        "MAIN.stLens",
        "",
        "Main.stLens.fZoom",
        "MAIN.stLen",
        "gvl.A",
    ] {
        upload.extend(symbol(name.as_bytes(), b"INT", 9, &[]));
    }
    upload.extend(symbol(b"MAIN.\xC4hre", b"INT", 9, &[]));
    upload.extend(symbol(b"MAIN.\xE4hre", b"INT", 9, &[]));
    upload.extend([40, 0, 0, 0, 0]);
    upload
}

/// An upload of which the walk stays at a length of 0 behind an entry.
fn stood() -> Vec<u8> {
    let mut upload = symbol(b"MAIN.a", b"INT", 9, &[]);
    upload.extend([0; 4]);
    upload
}

#[test]
fn a_branch_in_words() {
    let mut session = Session::new(repository());
    session.run(&["branch", "samples/rig.bin", "MAIN.stLens"]);
    session.run(&["branch", "samples/rig.hex", "main.STLENS.a", "--json"]);
    for text in [
        "main.ST",
        "MAIN.stLens",
        "gvl.",
        "MAIN.Ä",
        "MAIN.ä",
        "",
        "MAIN.stLensX",
        "MAIN.Ω",
    ] {
        session.run_on(&["branch", "-", text], &few());
    }
    for text in ["mAiN.sTlEnS", ""] {
        session.run_on(&["branch", "--json", "-", text], &few());
    }
    session.run_on(&["branch", "--json", "-", "main.stlensx"], &few());
    session.run_on(&["branch", "-", ""], b"");
    session.run_on(&["branch", "-", "MAIN."], &stood());
    session.hold("branch.txt");
}

#[test]
fn a_sorted_list_in_words() {
    let mut session = Session::new(repository());
    session.run(&["list", "--sorted", "samples/rig.bin"]);
    session.run_on(&["list", "--sorted", "-"], &few());
    session.run_on(&["list", "--sorted", "--json", "-"], &few());
    session.run_on(&["list", "--sorted", "--json", "-"], b"");
    session.run_on(&["list", "--sorted", "-"], &stood());
    session.run_on(&["list", "--sorted", "--json", "-"], &stood());
    session.hold("list-sorted.txt");
}
