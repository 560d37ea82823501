//! Two uploads beside each other.

mod common;

use std::fs;

use common::{Session, fed, folder, grown, hexadecimal, program, repository, sample, symbol};
use vindaskot::{
    AdsAttribute, AdsRefactorInfo, AdsSymbol2Flags, AdsSymbolFlags, AdsSymbolInfoIterator,
    AttributeWriter, IndexGroup, IndexOffset, RefactorWriter, SymbolNumbers, SymbolParts,
};

/// A symbol with every section.
struct Lens {
    name: &'static [u8],
    type_name: &'static [u8],
    comment: &'static [u8],
    guid: Option<[u8; 16]>,
    attributes: Vec<[&'static [u8]; 2]>,
    extended: u32,
    former: Vec<&'static [u8]>,
}

fn lens() -> Lens {
    Lens {
        name: b"MAIN.stLens",
        type_name: b"ST_BoxLens",
        comment: b"gepr\xFCft",
        guid: Some(std::array::from_fn(|i| i as u8)),
        attributes: vec![[b"ZoomCurveEnd", b"0.9375"], [b"LensTable", b"27x6.5"]],
        extended: 4,
        former: vec![b"stOptic", b"stGlass"],
    }
}

fn flags(lens: &Lens) -> AdsSymbolFlags {
    let guid = lens.guid.map_or(0, |_| 0x0008);
    AdsSymbolFlags(0x8000 | 0x1000 | guid)
}

fn written(change: impl FnOnce(&mut Lens)) -> Vec<u8> {
    let mut lens = lens();
    change(&mut lens);
    let (mut room, mut more) = ([0; 500], [0; 500]);
    let mut attributes = AttributeWriter::new(&mut room);
    for [name, value] in &lens.attributes {
        attributes.push(&AdsAttribute::new(name, value)).unwrap();
    }
    let mut chain = RefactorWriter::new(&mut more);
    for (number, name) in lens.former.iter().enumerate() {
        let has_next = number + 1 < lens.former.len();
        let info = AdsRefactorInfo::new(0, Some(name));
        chain.push(&info, has_next).unwrap();
    }
    let numbers = SymbolNumbers {
        index_group: IndexGroup(0x4040),
        index_offset: IndexOffset(0x50A0),
        size: 848,
        data_type_id: 65,
        flags: flags(&lens),
        high: 0x0102,
        extended_flags: AdsSymbol2Flags(lens.extended),
    };
    let parts = SymbolParts {
        guid: lens.guid,
        name: lens.name,
        type_name: lens.type_name,
        comment: lens.comment,
        attributes: attributes.into_block(),
        refactor_infos: chain.into_block(),
    };
    numbers.to_vec(&parts).unwrap()
}

/// The same entry with another byte at a place.
fn with(mut entry: Vec<u8>, at: usize, byte: u8) -> Vec<u8> {
    assert_ne!(entry[at], byte);
    entry[at] = byte;
    entry
}

/// Where some bytes stand in an entry.
fn at(entry: &[u8], part: &[u8]) -> usize {
    let mut parts = entry.windows(part.len());
    parts.position(|one| one == part).unwrap()
}

/// Holds what is said of A beside each of the others, as a table and in JSON.
fn hold(expected: &str, a: &[u8], others: &[Vec<u8>], words: &[&str]) {
    let folder = folder("compare");
    fs::write(folder.join("a.bin"), a).unwrap();
    let mut session = Session::new(folder.clone());
    for other in others {
        session.run_on(&[&["compare", "a.bin", "-"], words].concat(), other);
        let words = [&["compare", "--json", "a.bin", "-"], words].concat();
        session.run_on(&words, other);
    }
    fs::remove_dir_all(folder).unwrap();
    session.hold(expected);
}

#[test]
fn alike() {
    let mut session = Session::new(repository());
    session.run(&["compare", "samples/rig.bin", "samples/rig.hex"]);
    session.run(&["compare", "--json", "samples/rig.hex", "samples/rig.bin"]);
    session.run_on(&["compare", "-", "samples/rig.bin"], &sample());
    let text = hexadecimal(&sample());
    session.run_on(&["compare", "samples/rig.bin", "-"], text.as_bytes());
    session.run(&["compare", "--checked", "samples/rig.bin", "samples/rig.bin"]);
    session.run(&["compare", "/dev/null", "-"]);
    // Both have the same refused entry.
    session.run(&["compare", "--binary", "samples/rig.hex", "samples/rig.hex"]);
    session.hold("compare-alike.txt");
}

/// Each number of the header, each string, each section and what is left unread, changed by itself.
#[test]
fn every_part() {
    let entry = written(|_| ());
    let numbers = [4, 8, 12, 16, 20, 22].map(|place| with(entry.clone(), place, 0xA1));
    let others = [
        written(|lens| lens.name = b"main.stLENS"),
        written(|lens| lens.type_name = b"ST_LensBox"),
        written(|lens| lens.comment = b""),
        written(|lens| lens.guid = Some([0xEE; 16])),
        written(|lens| lens.guid = None),
        written(|lens| lens.attributes[0][1] = b"0.95"),
        written(|lens| lens.attributes[1] = [b"Table", b"27x6.5\x1B"]),
        written(|lens| {
            lens.attributes.remove(0);
        }),
        written(|lens| lens.attributes.push([b"unit", b""])),
        written(|lens| lens.extended = 0x25),
        written(|lens| lens.former[1] = b""),
        written(|lens| lens.former.truncate(1)),
        grown(entry.clone(), 3),
    ];
    hold(
        "compare-parts.txt",
        &entry,
        &[&numbers[..], &others].concat(),
        &[],
    );
}

/// Bytes that no part tells: end bytes, a refactor record's bits outside its count, what is left unread, the number of
/// attributes where one of them is refused.
#[test]
fn bytes_that_are_not_told() {
    let entry = written(|_| ());
    let end = at(&entry, b"MAIN.stLens") + 11;
    let value = at(&entry, b"0.9375") + 6;
    let count = at(&entry, b"\x02\x00\x0C\x06");
    let chain = at(&entry, b"stOptic") - 6;
    let mut odd = with(with(entry.clone(), end, b'X'), value, b'Y');
    odd[chain] = 0x80;
    let counted = |number| with(with(entry.clone(), value + 1, 0xFF), count, number);
    let unread = [0xA5, 0xA6].map(|byte| {
        let entry = grown(entry.clone(), 300);
        let last = entry.len() - 1;
        with(entry, last, byte)
    });
    let a = [&entry[..], &counted(3), &unread[0]].concat();
    let b = [&odd[..], &counted(4), &unread[1]].concat();
    hold("compare-bytes.txt", &a, &[b], &[]);
}

fn short(claim: u8) -> Vec<u8> {
    let mut entry = vec![0xEE; claim.into()];
    entry[..4].copy_from_slice(&[claim, 0, 0, 0]);
    entry
}

/// An entry that is refused in one of them, and in both: for other reasons, and for the same reason with other bytes.
#[test]
fn refused_entries() {
    let named = |name| symbol(name, b"LREAL", 0, &[]);
    let long = |name, byte| with(named(name), 25, byte);
    let a = [
        named(b"MAIN.a"),
        long(b"MAIN.b", 0xFF),
        long(b"MAIN.c", 0xFF),
        long(b"MAIN.d", 0xFF),
        short(29),
    ];
    let b = [
        long(b"MAIN.a", 0xFF),
        named(b"MAIN.b"),
        long(b"MAIN.c", 0xFE),
        with(long(b"MAIN.d", 0xFF), 40, 0xEE),
        with(short(29), 28, 0),
    ];
    hold("compare-refused.txt", &a.concat(), &[b.concat()], &[]);
}

/// What is left from a length of 0 on is one piece, whatever its bytes are.
#[test]
fn lengths_of_zero() {
    let sound = symbol(b"MAIN.a", b"LREAL", 0, &[]);
    let stopped = |left: usize| [&sound[..], &vec![0; left]].concat();
    let others = [
        stopped(9),
        with(stopped(8), 50, 1),
        sound.repeat(2),
        sound.clone(),
    ];
    hold("compare-zero.txt", &stopped(8), &others, &[]);
}

/// Entries of the sample, each as its own bytes.
fn entries() -> Vec<Vec<u8>> {
    let upload = sample();
    let walk = AdsSymbolInfoIterator::new(&upload);
    walk.map(|entry| entry.unwrap().as_bytes().to_vec())
        .collect()
}

/// An entry that has grown, one that is gone, a new one, one that stands elsewhere, and two that have changed places.
#[test]
fn entries_elsewhere() {
    let new = || symbol(b"MAIN.nExtra", b"DINT", 0x5400, &[]);
    let changed = |change: fn(&mut Vec<Vec<u8>>, Vec<u8>)| {
        let mut entries = entries();
        change(&mut entries, new());
        entries.concat()
    };
    let others = [
        changed(|entries, _| entries[21] = grown(entries[21].clone(), 5)),
        changed(|entries, _| {
            entries.remove(21);
        }),
        changed(|entries, new| entries.insert(0, new)),
        changed(|entries, new| entries.push(new)),
        changed(|entries, new| entries[30] = new),
        changed(|entries, _| entries[4..].rotate_left(1)),
        changed(|entries, _| entries.swap(2, 3)),
        changed(|entries, new| {
            entries[20] = grown(entries[20].clone(), 1);
            entries.remove(25);
            entries.insert(28, new);
        }),
    ];
    hold("compare-elsewhere.txt", &sample(), &others, &[]);
}

/// A length that was damaged: what follows is no longer reached, or is reached again further on.
#[test]
fn damaged_lengths() {
    let upload = sample();
    let others = [
        upload[..2000].to_vec(),
        with(upload.clone(), 1457, 0xFF),
        with(upload.clone(), 1455, 0),
        with(upload.clone(), 1455, 178 + 54),
        with(upload.clone(), 1455, 29),
        Vec::new(),
    ];
    hold("compare-lengths.txt", &upload, &others, &[]);
}

/// Behind what has moved an entry whose name is lost is still the one that stands behind the same.
#[test]
fn damage_behind_what_moved() {
    let mut entries = entries();
    entries.insert(3, symbol(b"MAIN.nExtra", b"DINT", 0x5400, &[]));
    entries[10][25] = 0xFF;
    entries[20][35] = b'_';
    hold("compare-behind.txt", &sample(), &[entries.concat()], &[]);
}

/// Of several of one name, in whatever case, the first is the first.
#[test]
fn names_that_come_twice() {
    let one = |name, offset| symbol(name, b"LREAL", offset, &[]);
    let a = [one(b"MAIN.a", 0), one(b"MAIN.A", 8), one(b"MAIN.b", 16)].concat();
    let new = one(b"MAIN.nExtra", 24);
    let b = [
        new.clone(),
        one(b"MAIN.a", 0),
        one(b"main.a", 8),
        one(b"MAIN.b", 16),
    ]
    .concat();
    let c = [new, one(b"MAIN.a", 8), one(b"MAIN.b", 16)].concat();
    hold("compare-twice.txt", &a, &[b, c], &[]);
}

#[test]
fn checked() {
    let upload = sample();
    let end = 1455 + 30 + "MAIN.stLens".len();
    hold(
        "compare-checked.txt",
        &upload,
        &[with(upload.clone(), end, b'X')],
        &["--checked"],
    );
}

/// Columns stay in line beside umlauts and controls, and one long name moves nothing but the rest of its own lines.
#[test]
fn widths() {
    let named = |offset| {
        let names = [&b"MAIN.H\xF6he"[..], b"MAIN.\x1B[31m", &[b'x'; 90], b""];
        names
            .map(|name| symbol(name, b"LREAL", offset, &[]))
            .concat()
    };
    hold("compare-widths.txt", &named(0), &[named(0x1_0000)], &[]);
}

#[test]
fn files() {
    let folder = folder("compare-files");
    fs::write(folder.join("a.bin"), sample()).unwrap();
    fs::write(folder.join("odd.hex"), "250").unwrap();
    let mut session = Session::new(folder.clone());
    for words in [
        ["compare", "a.bin", "missing.bin"],
        ["compare", "missing.bin", "a.bin"],
        ["compare", ".", "missing.bin"],
        ["compare", "a.bin", "odd.hex"],
        ["compare", "odd.hex", "a.bin"],
    ] {
        let output = session.run(&words);
        assert!(output.stdout.is_empty());
    }
    session.run(&["compare", "--hex", "a.bin", "odd.hex"]);
    fs::remove_dir_all(folder).unwrap();
    session.hold("compare-files.txt");
}

/// The numbers of the last line: entries in A and in B, alike, different, only in A, only in B, at other places.
fn counted(words: &[&str], b: &[u8]) -> (Option<i32>, Vec<usize>) {
    let output = fed(program(&repository(), words), b);
    let text = String::from_utf8(output.stdout).unwrap();
    let last = text.lines().last().unwrap();
    let numbers = last.split([' ', ',']).filter_map(|word| word.parse().ok());
    (output.status.code(), numbers.collect())
}

/// Each byte of each entry of the sample changed, but for its length: that entry alone is told, and nothing has moved.
#[test]
fn one_bad_entry() {
    let upload = sample();
    let mut inside = Vec::new();
    for (start, entry) in AdsSymbolInfoIterator::new(&upload).with_starts() {
        inside.extend(start + 4..start + entry.unwrap().as_bytes().len());
    }
    assert_eq!(inside.len(), upload.len() - 32 * 4);
    for (number, place) in inside.into_iter().enumerate() {
        let other = with(
            upload.clone(),
            place,
            upload[place] ^ [0x01, 0xFF][number % 2],
        );
        let words = ["compare", "samples/rig.bin", "-", "--checked"];
        let words = &words[..3 + number / 2 % 2];
        let (status, numbers) = counted(words, &other);
        assert_eq!(status, Some(1));
        assert_eq!(numbers, [32, 32, 31, 1, 0, 0, 0], "{place}");
    }
}

/// Numbers that are the same in every run.
struct Random(u32);

impl Random {
    fn below(&mut self, end: usize) -> usize {
        self.0 = self.0.wrapping_mul(1_664_525).wrapping_add(1_013_904_223);
        (self.0 >> 8) as usize % end
    }

    /// Up to six entries of few names and lengths, one in four of them refused.
    fn upload(&mut self) -> Vec<u8> {
        let names: [&[u8]; 5] = [b"MAIN.a", b"MAIN.b", b"MAIN.B", b"MAIN.cc", b"MAIN.dd"];
        let entry = |r: &mut Self| {
            let mut entry = symbol(names[r.below(5)], b"LREAL", r.below(2) as u32, &[]);
            entry[25] = u8::from(r.below(4) == 0);
            entry
        };
        (0..self.below(7)).flat_map(|_| entry(self)).collect()
    }
}

/// Uploads with entries that come, go, move and are damaged: each entry is counted once, whichever is A, and the status is
/// 0 exactly where the bytes are the same.
#[test]
fn each_entry_once() {
    let folder = folder("compare-once");
    let paths = ["a.bin", "b.bin"].map(|name| folder.join(name));
    let [a, b] = paths.each_ref().map(|path| path.to_str().unwrap());
    let mut r = Random(213);
    for _ in 0..300 {
        let uploads = [r.upload(), r.upload()];
        for (path, upload) in paths.iter().zip(&uploads) {
            fs::write(path, upload).unwrap();
        }
        let (status, numbers) = counted(&["compare", a, b], b"");
        assert_eq!(status, Some(i32::from(uploads[0] != uploads[1])));
        let [in_a, in_b, alike, different, only_a, only_b, moved] = numbers[..] else {
            panic!("{numbers:?}");
        };
        let walked = uploads.map(|upload| AdsSymbolInfoIterator::new(&upload).count());
        assert_eq!([in_a, in_b], walked);
        let both = alike + different;
        assert_eq!([in_a, in_b], [both + only_a, both + only_b]);
        assert!(moved <= both);
        let (_, mirrored) = counted(&["compare", b, a], b"");
        assert_eq!(
            mirrored,
            [in_b, in_a, alike, different, only_b, only_a, moved]
        );
    }
    fs::remove_dir_all(folder).unwrap();
}
