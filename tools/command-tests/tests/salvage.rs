//! `salvage`: what is kept, what is dropped, and the file that is written.

mod common;

use std::fs::{self, OpenOptions, Permissions};
use std::io::{BufRead, BufReader, Read, Write};
use std::os::fd::OwnedFd;
use std::os::unix::fs::{PermissionsExt, symlink};
use std::os::unix::net::UnixStream;
use std::os::unix::process::{CommandExt, ExitStatusExt};
use std::path::{Path, PathBuf};
use std::process::{Command, Output, Stdio};
use std::thread;
use std::time::Duration;

use common::{PROGRAM, Session, fed, folder, grown, hexadecimal, program, sample, symbol};

const LIMIT: usize = 16_777_216;

/// An entry that claims so many bytes, and has them.
fn short(claim: u32) -> Vec<u8> {
    let mut entry = vec![0xEE; claim.max(4) as usize];
    entry[..4].copy_from_slice(&claim.to_le_bytes());
    entry
}

/// A symbol whose name is longer than its entry.
fn long(name: &[u8]) -> Vec<u8> {
    let mut entry = symbol(name, b"LREAL", 8, &[]);
    entry[24] = 200;
    entry
}

/// A symbol whose name has no end byte of 0.
fn cut(name: &[u8]) -> Vec<u8> {
    let mut entry = symbol(name, b"LREAL", 8, &[]);
    entry[30 + name.len()] = b'X';
    entry
}

/// A folder of a test's own, in which the program is run.
struct Desk {
    folder: PathBuf,
    session: Session,
}

impl Desk {
    fn new(name: &str) -> Self {
        let folder = folder(&format!("salvage-{name}"));
        let session = Session::new(folder.clone());
        Self { folder, session }
    }

    fn put(&self, name: &str, bytes: &[u8]) {
        fs::write(self.folder.join(name), bytes).unwrap();
    }

    fn get(&self, name: &str) -> Vec<u8> {
        fs::read(self.folder.join(name)).unwrap()
    }

    /// What is in the folder: nothing else is left there, by whatever name.
    fn names(&self) -> Vec<String> {
        let entries = fs::read_dir(&self.folder).unwrap();
        let names = entries.map(|entry| entry.unwrap().file_name().into_string().unwrap());
        let mut names: Vec<_> = names.collect();
        names.sort();
        names
    }

    /// Where a refusal leaves the folder as it was.
    fn refused(&mut self, words: &[&str], status: i32) {
        let before = self.names();
        let output = self.session.run(words);
        assert_eq!(output.status.code(), Some(status), "{words:?}");
        assert!(
            output.stdout.is_empty(),
            "a script must not take a message for an answer"
        );
        assert_eq!(self.names(), before, "{words:?}");
    }

    fn hold(self, expected: &str) {
        fs::remove_dir_all(&self.folder).unwrap();
        self.session.hold(expected);
    }
}

/// Each kind of damage that the walk goes on behind, side by side too, and a cut at the end.
#[test]
fn kept_and_dropped() {
    let kept = [
        symbol(b"MAIN.a", b"LREAL", 0, &[(b"unit", b"mm")]),
        grown(symbol(b"MAIN.c", b"LREAL", 16, &[]), 7),
        symbol(b"MAIN.e", b"LREAL", 32, &[]),
    ];
    let last = symbol(b"MAIN.f", b"LREAL", 40, &[]);
    let damaged = [
        &kept[0][..],
        &short(29),
        &long(b"MAIN.b"),
        &kept[1],
        &short(4),
        &kept[2],
        &last[..last.len() - 1],
    ]
    .concat();
    let mut desk = Desk::new("kept");
    desk.put("damaged.bin", &damaged);
    let output = desk.session.run(&["salvage", "damaged.bin", "kept.bin"]);
    assert_eq!(output.status.code(), Some(1));
    assert_eq!(desk.get("kept.bin"), kept.concat());
    assert_eq!(desk.get("damaged.bin"), damaged);
    assert_eq!(desk.names(), ["damaged.bin", "kept.bin"]);
    desk.session.run(&["check", "kept.bin"]);
    let again = desk.session.run(&["salvage", "kept.bin", "again.bin"]);
    assert_eq!(again.status.code(), Some(0));
    assert_eq!(desk.get("again.bin"), kept.concat());
    desk.hold("salvage.txt");
}

/// From standard input, from hexadecimal text and by a form that is told: what is written is binary.
#[test]
fn every_form_of_input() {
    let damaged = [sample(), short(29)].concat();
    let digits = hexadecimal(&damaged);
    let mut desk = Desk::new("forms");
    desk.put("damaged.hex", digits.as_bytes());
    desk.put("damaged.bin", &damaged);
    for (words, input) in [
        (&["salvage", "damaged.hex", "one.bin"][..], &b""[..]),
        (&["salvage", "-", "two.bin"], digits.as_bytes()),
        (&["salvage", "-", "three.bin"], &damaged),
        (
            &["salvage", "--binary", "damaged.bin", "./four.bin"],
            &b""[..],
        ),
    ] {
        desk.session.run_on(words, input);
    }
    for name in ["one.bin", "two.bin", "three.bin", "four.bin"] {
        assert_eq!(desk.get(name), sample(), "{name}");
    }
    desk.hold("salvage-forms.txt");
}

#[test]
fn nothing_is_dropped() {
    let mut desk = Desk::new("sound");
    desk.put("rig.bin", &sample());
    for words in [
        &["salvage", "rig.bin", "same.bin"][..],
        &["salvage", "--checked", "rig.bin", "checked.bin"],
        &["salvage", "-", "empty.bin"],
    ] {
        let output = desk.session.run(words);
        assert_eq!(output.status.code(), Some(0));
    }
    assert_eq!(desk.get("same.bin"), sample());
    assert_eq!(desk.get("checked.bin"), sample());
    assert_eq!(desk.get("empty.bin"), b"");
    desk.hold("salvage-sound.txt");
}

/// All from a length of 0 on is dropped, and where nothing is kept the file is empty.
#[test]
fn a_zero_length() {
    let sound = symbol(b"MAIN.a", b"LREAL", 0, &[]);
    let mut desk = Desk::new("zero");
    for (name, parts) in [
        ("middle.bin", [&sound[..], &short(0), &sound]),
        ("first.bin", [&short(0)[..], &sound, &sound]),
        ("last.bin", [&sound[..], &sound, &short(0)]),
        ("few.bin", [&sound[..], &sound, &[33, 0, 0]]),
    ] {
        desk.put(name, &parts.concat());
        let kept = format!("kept-{name}");
        desk.session.run(&["salvage", name, &kept]);
    }
    assert_eq!(desk.get("kept-middle.bin"), sound);
    assert_eq!(desk.get("kept-first.bin"), b"");
    assert_eq!(desk.get("kept-last.bin"), [&sound[..], &sound].concat());
    assert_eq!(desk.get("kept-few.bin"), [&sound[..], &sound].concat());
    desk.hold("salvage-zero.txt");
}

#[test]
fn the_checked_mode() {
    let sound = symbol(b"MAIN.a", b"LREAL", 0, &[]);
    let damaged = [&sound[..], &cut(b"MAIN.b"), &short(10), &sound].concat();
    let mut desk = Desk::new("checked");
    desk.put("damaged.bin", &damaged);
    for words in [
        &["salvage", "damaged.bin", "present.bin"][..],
        &["check", "--checked", "present.bin"],
        &["salvage", "--checked", "damaged.bin", "checked.bin"],
        &["check", "--checked", "checked.bin"],
    ] {
        desk.session.run(words);
    }
    let present = [&sound[..], &cut(b"MAIN.b"), &sound].concat();
    assert_eq!(desk.get("present.bin"), present);
    assert_eq!(desk.get("checked.bin"), [&sound[..], &sound].concat());
    desk.hold("salvage-checked.txt");
}

/// The file that is read, by each of its names, and whatever else is there: all of it stays as it was.
#[test]
fn nothing_is_written_over() {
    let damaged = [sample(), short(29)].concat();
    let mut desk = Desk::new("over");
    desk.put("damaged.bin", &damaged);
    desk.put("other.bin", b"of somebody else");
    desk.put("empty.bin", b"");
    let at = |name: &str| desk.folder.join(name);
    fs::hard_link(at("damaged.bin"), at("hard.bin")).unwrap();
    symlink("damaged.bin", at("soft.bin")).unwrap();
    symlink("nowhere.bin", at("dangling.bin")).unwrap();
    fs::create_dir(at("folder")).unwrap();
    for out in [
        "damaged.bin",
        "./damaged.bin",
        "folder/../damaged.bin",
        "hard.bin",
        "soft.bin",
        "other.bin",
        "empty.bin",
        "dangling.bin",
        "folder",
    ] {
        desk.refused(&["salvage", "damaged.bin", out], 2);
    }
    desk.refused(&["salvage", "soft.bin", "damaged.bin"], 2);
    desk.refused(&["salvage", "hard.bin", "soft.bin"], 2);
    desk.refused(&["salvage", "-", "other.bin"], 2);
    for name in ["damaged.bin", "hard.bin", "soft.bin"] {
        assert_eq!(desk.get(name), damaged);
    }
    assert_eq!(desk.get("other.bin"), b"of somebody else");
    assert_eq!(desk.get("empty.bin"), b"");
    desk.hold("salvage-over.txt");
}

/// A file that appears under the name while the input is read. More was taken than a pipe holds, so it is being read.
#[test]
fn a_name_that_is_taken_meanwhile() {
    let upload: Vec<u8> = (0..100).flat_map(|_| sample()).collect();
    let desk = Desk::new("meanwhile");
    let mut command = program(&desk.folder, &["salvage", "-", "out.bin"]);
    command.stdin(Stdio::piped()).stdout(Stdio::piped());
    let mut child = command.stderr(Stdio::piped()).spawn().unwrap();
    let mut input = child.stdin.take().unwrap();
    input.write_all(&upload[..200_000]).unwrap();
    desk.put("out.bin", b"meanwhile");
    input.write_all(&upload[200_000..]).unwrap();
    drop(input);
    let output = child.wait_with_output().unwrap();
    assert_eq!(output.status.code(), Some(2));
    assert!(output.stdout.is_empty());
    assert_eq!(desk.get("out.bin"), b"meanwhile");
    assert_eq!(desk.names(), ["out.bin"]);
    let said = String::from_utf8(output.stderr).unwrap();
    assert!(said.contains("out.bin is not written: it is there already"));
    fs::remove_dir_all(&desk.folder).unwrap();
}

/// What a killed run of the same process number left is another's: the next name is taken, and it stays.
#[test]
fn a_file_that_was_left_behind() {
    let desk = Desk::new("left");
    desk.put("rig.bin", &sample());
    let mut command = Command::new("sh");
    let script = "echo left >.vindaskot-$$-0 && exec \"$0\" salvage rig.bin out.bin";
    command
        .args(["-c", script, PROGRAM])
        .current_dir(&desk.folder);
    let output = command.output().unwrap();
    assert_eq!(output.status.code(), Some(0));
    assert_eq!(desk.get("out.bin"), sample());
    let names = desk.names();
    assert_eq!(names.len(), 3, "{names:?}");
    assert_eq!(desk.get(&names[0]), b"left\n");
    // Where all names are taken, that is said.
    let script = "for n in $(seq 0 99); do echo left >.vindaskot-$$-$n; done; exec \"$0\" salvage rig.bin more.bin";
    let mut command = Command::new("sh");
    command
        .args(["-c", script, PROGRAM])
        .current_dir(&desk.folder);
    let output = command.output().unwrap();
    assert_eq!(output.status.code(), Some(2));
    let said = String::from_utf8(output.stderr).unwrap();
    assert!(
        said.contains("more.bin can't be written: killed runs"),
        "{said}"
    );
    assert_eq!(desk.names().len(), 103);
    fs::remove_dir_all(&desk.folder).unwrap();
}

/// A run that is killed while it writes, after each of some numbers of bytes, none and all but one among them: the name is
/// not there, and what is left behind has another. The system kills it, at the first byte above what a file may have.
#[test]
fn a_run_that_is_killed() {
    const KIB: usize = 64;
    let upload = grown(symbol(b"MAIN.a", b"LREAL", 0, &[]), 1024 * KIB + 1 - 44);
    assert_eq!(upload.len(), 1024 * KIB + 1);
    let desk = Desk::new("killed");
    desk.put("rig.bin", &upload);
    for limit in [0, 1, KIB / 4, KIB / 2, KIB - 1, KIB] {
        let mut command = Command::new("env");
        let script = "ulimit -c 0 && ulimit -f \"$1\" && exec \"$0\" salvage rig.bin out.bin";
        command.args(["--default-signal=XFSZ", "bash", "-c", script, PROGRAM]);
        command.arg(limit.to_string()).current_dir(&desk.folder);
        let output = fed(command, b"");
        const XFSZ: i32 = 25;
        assert_eq!(output.status.signal(), Some(XFSZ), "{limit}: {output:?}");
        let names = desk.names();
        assert_eq!((names.len(), &names[1][..]), (2, "rig.bin"), "{names:?}");
        assert!(names[0].starts_with(".vindaskot-"), "{names:?}");
        assert_eq!(desk.get(&names[0]), upload[..1024 * limit]);
        fs::remove_file(desk.folder.join(&names[0])).unwrap();
    }
    fs::remove_dir_all(&desk.folder).unwrap();
}

/// No folder, no permission, no room, no such name: nothing is left behind.
#[test]
fn what_can_not_be_written() {
    let mut desk = Desk::new("unwritable");
    desk.put("rig.bin", &sample());
    desk.refused(&["salvage", "rig.bin", "missing/out.bin"], 2);
    desk.refused(&["salvage", "rig.bin", "rig.bin/out.bin"], 2);
    desk.refused(&["salvage", "rig.bin", "out/"], 2);
    desk.refused(&["salvage", "rig.bin", "-"], 2);
    desk.refused(&["salvage", "rig.bin", &"o".repeat(256)], 2);
    let words = ["salvage", "rig.bin", "closed/out.bin"];
    let closed = without_permission(&desk.folder, &words);
    desk.session.note(&words, &closed);
    assert_eq!(desk.names(), ["closed", "rig.bin"]);
    let inside = fs::read_dir(desk.folder.join("closed")).unwrap();
    assert_eq!(inside.count(), 0);
    let words = ["salvage", "rig.bin", "out.bin"];
    let full = without_room(&desk.folder, &words);
    desk.session.note(&words, &full);
    assert_eq!(desk.names(), ["closed", "rig.bin"]);
    desk.hold("salvage-unwritable.txt");
}

/// Root may write everywhere, so the program is run as nobody where the test runs as root; it is copied to where nobody
/// may look.
fn without_permission(folder: &Path, words: &[&str]) -> Output {
    let closed = folder.join("closed");
    fs::create_dir(&closed).unwrap();
    fs::set_permissions(folder, Permissions::from_mode(0o755)).unwrap();
    fs::set_permissions(&closed, Permissions::from_mode(0o555)).unwrap();
    let probe = closed.join("probe");
    if fs::write(&probe, b"").is_err() {
        return fed(program(folder, words), b"");
    }
    fs::remove_file(probe).unwrap();
    let copy = folder.join("vindaskot");
    fs::copy(PROGRAM, &copy).unwrap();
    let mut command = Command::new(&copy);
    command.current_dir(folder).args(words);
    let output = fed_as_nobody(command);
    fs::remove_file(copy).unwrap();
    output
}

fn fed_as_nobody(mut command: Command) -> Output {
    command.uid(65534).gid(65534);
    fed(command, b"")
}

/// Where a file may have 1,024 bytes, and a longer one is an error and no signal: the sample has more.
fn without_room(folder: &Path, words: &[&str]) -> Output {
    let mut command = Command::new("bash");
    let script = "trap '' XFSZ && ulimit -f 1 && exec \"$0\" \"$@\"";
    command.args(["-c", script, PROGRAM]).args(words);
    command.current_dir(folder);
    fed(command, b"")
}

/// An input that is refused as a whole makes no file.
#[test]
fn input_that_is_refused() {
    let mut desk = Desk::new("refused");
    desk.put("odd.hex", b"2500 0");
    desk.put("above.bin", &vec![0; LIMIT + 1]);
    desk.refused(&["salvage", "odd.hex", "out.bin"], 1);
    desk.refused(&["salvage", "above.bin", "out.bin"], 1);
    desk.refused(&["salvage", "missing.bin", "out.bin"], 2);
    desk.refused(&["salvage", ".", "out.bin"], 2);
    desk.hold("salvage-refused.txt");
}

/// The file is there although its table can't be printed, and the status says that something was wrong.
#[test]
fn a_table_that_can_not_be_printed() {
    let mut desk = Desk::new("full");
    desk.put("damaged.bin", &[sample(), short(29)].concat());
    let words = ["salvage", "damaged.bin", "out.bin"];
    let full = OpenOptions::new().write(true).open("/dev/full").unwrap();
    let output = program(&desk.folder, &words).stdout(full).output().unwrap();
    desk.session.note(&words, &output);
    assert_eq!(output.status.code(), Some(2));
    assert_eq!(desk.get("out.bin"), sample());
    desk.hold("salvage-full.txt");
}

/// The status and the message are about the file, so they are the same where nobody reads the table: one that has gone
/// before the program begins, and one that goes when it has read a line of a table that no pipe holds. Of an upload that
/// is kept whole the status is 0 there, too.
#[test]
fn a_table_that_nobody_reads() {
    let desk = Desk::new("unread");
    desk.put("few.bin", &[sample(), short(29)].concat());
    desk.put("many.bin", &short(4).repeat(50_000));
    desk.put("sound.bin", &sample());
    let kept = [sample(), vec![], sample()];
    let dropped = [
        Some("1 run, 29 bytes"),
        Some("50,000 runs, 200,000 bytes"),
        None,
    ];
    for (number, name) in ["few.bin", "many.bin", "sound.bin"].iter().enumerate() {
        for first_line in [false, true] {
            let out = format!("out-{first_line}-{name}");
            let (status, said) = read_by(first_line, &desk.folder, &["salvage", name, &out]);
            assert_eq!(desk.get(&out), kept[number]);
            let expected = dropped[number].map_or(String::new(), |dropped| {
                let length = grouped(fs::metadata(desk.folder.join(name)).unwrap().len());
                format!("vindaskot: {name} (binary, {length} bytes): dropped: {dropped}; the rest is in {out}.\n")
            });
            let what = (status, said.as_str());
            assert_eq!(
                what,
                (Some(i32::from(dropped[number].is_some())), &expected[..])
            );
        }
    }
    fs::remove_dir_all(&desk.folder).unwrap();
}

/// The status and what is said on standard error, where the first line of standard output is read, or nothing.
fn read_by(first_line: bool, folder: &Path, words: &[&str]) -> (Option<i32>, String) {
    let (reader, writer) = UnixStream::pair().unwrap();
    let reader = first_line.then(move || BufReader::new(reader));
    let mut command = program(folder, words);
    command.stdout(OwnedFd::from(writer)).stderr(Stdio::piped());
    let mut child = command.spawn().unwrap();
    // It holds an end of the pair for as long as it lives.
    drop(command);
    if let Some(mut reader) = reader {
        let mut line = String::new();
        reader.read_line(&mut line).unwrap();
        assert!(line.contains(" (binary, "), "{line}");
        // By then the program waits for room, and is told that its connection was reset.
        thread::sleep(Duration::from_millis(100));
    }
    let mut stderr = child.stderr.take().unwrap();
    let mut said = String::new();
    stderr.read_to_string(&mut said).unwrap();
    (child.wait().unwrap().code(), said)
}

fn grouped(number: u64) -> String {
    match number {
        0..1000 => number.to_string(),
        _ => format!("{},{:03}", number / 1000, number % 1000),
    }
}

/// Thousands of runs, some side by side and of each number: no line is left out, and each is made here.
#[test]
fn thousands_of_runs() {
    let sound = symbol(b"MAIN.a", b"LREAL", 0, &[]);
    let (mut damaged, mut kept) = (Vec::new(), Vec::new());
    let mut lines = vec![" place  length  why".to_string()];
    let mut drop = |damaged: &mut Vec<u8>, piece: &[u8], why: String| {
        let (place, length) = (damaged.len(), piece.len());
        lines.push(format!("{place:>6}  {length:>6}  refusal {why}"));
        damaged.extend(piece);
    };
    for number in 0..4000 {
        let claim = 4 + number % 26;
        let short = short(claim);
        let why = format!("2, too short: 30 bytes needed, {claim} there");
        drop(&mut damaged, &short, why);
        let why = "3, entry length mismatch: 238 bytes claimed or needed, 44 there";
        drop(&mut damaged, &long(b"MAIN.b"), why.into());
        if number % 3 == 0 {
            damaged.extend(&sound);
            kept.extend(&sound);
            let why = "16, end byte: byte 36 of the entry is 0x58 and not 0";
            drop(&mut damaged, &cut(b"MAIN.c"), why.into());
        }
    }
    let why = "10, zero entry length: 1 byte at least, 0 claimed, so no later entry is reached";
    drop(&mut damaged, &[&short(0)[..], &sound].concat(), why.into());
    let desk = Desk::new("thousands");
    desk.put("damaged.bin", &damaged);
    let words = ["salvage", "--checked", "damaged.bin", "kept.bin"];
    let output = fed(program(&desk.folder, &words), b"");
    assert_eq!(output.status.code(), Some(1));
    assert_eq!(desk.get("kept.bin"), kept);
    let text = String::from_utf8(output.stdout).unwrap();
    let printed: Vec<&str> = text.lines().collect();
    let last = 2 + 9335;
    assert_eq!(printed.len(), last + 1);
    assert_eq!(printed[1..last], lines);
    assert_eq!(
        printed[last],
        "kept: 1,334 entries, 58,696 bytes, in kept.bin; dropped: 9,335 runs, 300,700 bytes"
    );
    fs::remove_dir_all(&desk.folder).unwrap();
}

/// A rig of 9,000 symbols, one in a hundred of them damaged: every line is made here from what was done to it.
#[test]
fn one_in_a_hundred() {
    let (mut damaged, mut kept) = (Vec::new(), Vec::new());
    let mut lines = vec![" place  length  why".to_string()];
    for number in 0..9000 {
        let name = format!("MAIN.stRig.aCamera[{number:04}].fZoom");
        let mut entry = symbol(name.as_bytes(), b"LREAL", 8 * number, &[(b"unit", b"mm")]);
        if number % 100 == 37 {
            entry[27] = 1;
            let (place, length) = (damaged.len(), entry.len());
            lines.push(format!(
                "{place:>6}  {length:>6}  refusal 3, entry length mismatch: {} bytes claimed or needed, {length} there",
                256 + 33 + name.len() + 5
            ));
        } else {
            kept.extend(&entry);
        }
        damaged.extend(entry);
    }
    let desk = Desk::new("rig");
    desk.put("damaged.bin", &damaged);
    let words = ["salvage", "damaged.bin", "kept.bin"];
    let output = fed(program(&desk.folder, &words), b"");
    assert_eq!(output.status.code(), Some(1));
    assert_eq!(desk.get("kept.bin"), kept);
    let text = String::from_utf8(output.stdout).unwrap();
    let printed: Vec<&str> = text.lines().collect();
    assert_eq!(printed.len(), 93);
    assert_eq!(printed[1..92], lines);
    let last = printed[92];
    assert!(last.starts_with("kept: 8,910 entries, "), "{last}");
    assert!(last.contains(" in kept.bin; dropped: 90 runs, "), "{last}");
    fs::remove_dir_all(&desk.folder).unwrap();
}
