//! The functions that answer with a `Vec` or a `String`, against those that write into a lent buffer.

mod common;

use std::cell::Cell;

use common::plain::{PlainField, PlainSymbol};
use common::tree::Tree;
use common::{Random, refusal, rig, types};
use vindaskot::index::{starts_to_vec, starts_to_vec_in};
use vindaskot::text::{decode_to_string, encode_to_vec};
use vindaskot::{
    AdsAttribute, AdsFieldInfo, AdsRefactorInfo, AdsSymbolInfo, DataType, DataTypeIterator, Index,
    LIMIT, MEMBER_SLOTS, Mode, ROOM_MOST, Run, Salvaged, SymbolParts, salvage_in, salvage_to_vec,
    salvage_to_vec_in,
};

#[test]
fn entries() {
    let mut r = Random(11);
    for _ in 0..300 {
        let bytes = PlainSymbol::random(&mut r).bytes();
        let info = AdsSymbolInfo::try_from_slice(&bytes).unwrap();
        assert_eq!(info.numbers().to_vec(&info.parts()), Ok(bytes.clone()));
        let bytes = PlainField::random(&mut r).bytes();
        let info = AdsFieldInfo::try_from_slice(&bytes).unwrap();
        assert_eq!(info.numbers().to_vec(&info.parts()), Ok(bytes.clone()));
    }
    let upload = rig();
    let info = AdsSymbolInfo::try_from_slice(&upload).unwrap();
    let without = SymbolParts {
        guid: None,
        ..info.parts()
    };
    assert_eq!(info.numbers().to_vec(&without), Err(refusal(8, 1, 0)));
}

#[test]
fn records() {
    let attribute = AdsAttribute::new(b"unit", b"\xB0");
    assert_eq!(attribute.to_vec(), Ok(b"\x04\x01unit\0\xB0\0".to_vec()));
    let former = [Some(&b"a"[..]), None].map(|name| AdsRefactorInfo::new(1, name));
    let first = b"\x01\0\0\x01\x01\0a\0";
    assert_eq!(former[0].to_vec_with_next(true), Ok(first.to_vec()));
    let entries = [b"\x02\0", &first[..], b"\x01\0\0\0\0\0\0"].concat();
    assert_eq!(AdsRefactorInfo::entries_to_vec(&former), Ok(entries));
    assert_eq!(AdsRefactorInfo::entries_to_vec(&[]), Ok(vec![0, 0]));
    // A count that has the follower bit says that another follows, also at the end.
    let endless = [AdsRefactorInfo::new(0x0100_0000, None)];
    let refused = AdsRefactorInfo::entries_to_vec(&endless);
    assert_eq!(refused, Err(refusal(9, 1, 0)));
}

#[test]
fn texts() {
    assert_eq!(decode_to_string(b"gepr\xFCft \x80").unwrap(), "geprüft €");
    assert_eq!(decode_to_string(b"").unwrap(), "");
    assert_eq!(encode_to_vec("geprüft €"), Ok(b"gepr\xFCft \x80".to_vec()));
    assert_eq!(encode_to_vec(b"ab\xFF"), Err(refusal(11, 2, 1)));
    assert_eq!(encode_to_vec("ab\u{3A9}"), Err(refusal(11, 2, 2)));
}

/// What gives another text each time that it is asked.
struct Changing<'a> {
    asked: Cell<usize>,
    texts: [&'a str; 2],
}

impl AsRef<[u8]> for Changing<'_> {
    fn as_ref(&self) -> &[u8] {
        let asked = self.asked.get();
        self.asked.set(asked + 1);
        self.texts[asked.min(1)].as_bytes()
    }
}

#[test]
fn a_text_that_changes_is_encoded_as_it_was_first() {
    for texts in [["geprüft", "ab"], ["ab", "geprüft"]] {
        let asked = Cell::new(0);
        let first = encode_to_vec(texts[0]);
        assert_eq!(encode_to_vec(Changing { asked, texts }), first);
    }
}

#[test]
fn starts() {
    let upload = rig();
    let starts = starts_to_vec(&upload).unwrap();
    let mut slots = [0; 40];
    let index = Index::build(&upload, &mut slots).unwrap();
    assert_eq!(index, Index::over(&starts));
    assert_eq!(starts_to_vec(&[]), Ok(vec![]));
    assert_eq!(starts_to_vec(&[0; 9]), Err(refusal(10, 1, 0)));
}

#[test]
fn starts_in_a_mode() {
    let mut upload = rig();
    let starts = starts_to_vec(&upload).unwrap();
    // The second symbol's name has no end byte of 0.
    let second = starts[1] as usize;
    let name = AdsSymbolInfo::try_from_slice(&upload[second..]).unwrap();
    let end = second + 30 + name.name().len();
    upload[end] = b'X';
    assert_eq!(starts_to_vec(&upload).as_ref(), Ok(&starts));
    let present = starts_to_vec_in(&upload, Mode::Present);
    assert_eq!(present.as_ref(), Ok(&starts));
    let checked = starts_to_vec_in(&upload, Mode::Checked).unwrap();
    assert_eq!(checked, [&starts[..1], &starts[2..]].concat());
    let zero = starts_to_vec_in(&[0; 9], Mode::Checked);
    assert_eq!(zero, Err(refusal(10, 1, 0)));
}

/// Entries of 33 bytes, which need all of the room that is set aside, and bytes that need none of it.
#[test]
fn starts_of_full_uploads() {
    let mut entry = [0; 33];
    entry[0] = 33;
    for (entries, behind) in [(0, 32), (1, 0), (2, 1), (300, 32), (ROOM_MOST, 16)] {
        let mut upload = entry.repeat(entries);
        upload.resize(33 * entries + behind, 0xFF);
        let starts: Vec<_> = (0..entries as u32).map(|number| 33 * number).collect();
        assert!(starts_to_vec(&upload).as_ref() == Ok(&starts), "{entries}");
        let checked = starts_to_vec_in(&upload, Mode::Checked);
        assert!(checked == Ok(starts), "{entries}");
    }
    // Room for two, and none is accepted.
    assert_eq!(starts_to_vec(&[0xFF; 70]), Ok(vec![]));
    assert_eq!(starts_to_vec_in(&[0xFF; 70], Mode::Checked), Ok(vec![]));
    let large = vec![0; LIMIT + 1];
    let why = refusal(5, LIMIT, LIMIT + 1);
    assert_eq!(starts_to_vec(&large), Err(why));
    assert_eq!(starts_to_vec_in(&large, Mode::Checked), Err(why));
}

/// The rig with one byte in fifty changed: what the lent form says of it.
#[test]
fn salvaged() {
    let mut r = Random(31);
    for _ in 0..300 {
        let mut data = rig();
        for _ in 0..data.len() / 50 {
            let at = r.below(data.len());
            data[at] = r.next() as u8;
        }
        data.truncate(r.below(data.len()));
        for mode in [Mode::Present, Mode::Checked] {
            let (mut out, mut slots) = (vec![0; data.len()], vec![0; data.len() + 3]);
            let lent = salvage_in(&data, &mut out, &mut slots, mode).unwrap();
            let owned = Salvaged {
                upload: lent.upload().to_vec(),
                runs: lent.runs().collect(),
            };
            assert_eq!(salvage_to_vec_in(&data, mode).as_ref(), Ok(&owned));
            if mode == Mode::Present {
                assert_eq!(salvage_to_vec(&data), Ok(owned));
            }
        }
    }
}

#[test]
fn salvaged_whole_or_not_at_all() {
    let upload = rig();
    let runs = vec![];
    let whole = Salvaged { upload, runs };
    assert_eq!(salvage_to_vec(&whole.upload), Ok(whole.clone()));
    let checked = salvage_to_vec_in(&whole.upload, Mode::Checked);
    assert_eq!(checked, Ok(whole));
    assert_eq!(salvage_to_vec(&[]), Ok(Salvaged::default()));
    let run = Run {
        start: 0,
        length: 9,
        number: 10,
    };
    let none = Salvaged {
        upload: vec![],
        runs: vec![run],
    };
    assert_eq!(salvage_to_vec(&[0; 9]), Ok(none));
    let why = refusal(5, LIMIT, LIMIT + 1);
    let large = vec![0; LIMIT + 1];
    assert_eq!(salvage_to_vec(&large), Err(why));
    assert_eq!(salvage_to_vec_in(&large, Mode::Checked), Err(why));
}

/// Uploads as long as there may be: an entry that is all of it, and one with a run behind it. What follows the header is
/// unread, each byte by its place.
#[test]
fn salvaged_at_the_limit() {
    for (claim, runs) in [(LIMIT, vec![]), (LIMIT - 5, vec![last(5)])] {
        let mut data = vec![0; LIMIT];
        for (at, byte) in data.iter_mut().enumerate().skip(33) {
            *byte = (at % 251) as u8;
        }
        data[..4].copy_from_slice(&(claim as u32).to_le_bytes());
        data[claim..].fill(0);
        let upload = data[..claim].to_vec();
        let salvaged = Salvaged { upload, runs };
        let checked = salvage_to_vec_in(&data, Mode::Checked);
        // An assertion about equality would print all of it.
        assert!(salvage_to_vec(&data).as_ref() == Ok(&salvaged), "{claim}");
        assert!(checked == Ok(salvaged), "{claim}");
    }
}

/// The last bytes of an upload at the limit, which are zeros.
fn last(length: usize) -> Run {
    Run {
        start: LIMIT - length,
        length,
        number: 10,
    }
}

#[test]
fn members() {
    let mut r = Random(37);
    for _ in 0..500 {
        let bytes = Tree::random(&mut r, &mut 20, 15).bytes();
        let root = DataType::try_from_slice(&bytes).unwrap();
        let mut slots = vec![0; MEMBER_SLOTS * root.member_count()];
        let lent: Vec<_> = root.members(&mut slots).unwrap().collect();
        assert_eq!(root.members_to_vec().as_ref(), Ok(&lent));
        assert_eq!(root.members_to_vec_in(Mode::Present).as_ref(), Ok(&lent));
        assert_eq!(root.members_to_vec_in(Mode::Checked), Ok(lent));
    }
}

/// A member whose name was cut: the checked mode refuses the whole, also where the present one has read it.
#[test]
fn members_in_a_mode() {
    let mut upload = types();
    let items: Vec<_> = DataTypeIterator::new(&upload).with_starts().collect();
    let (start, table) = items[2];
    let last = table.unwrap().member(19).unwrap();
    let end = start + last.place() + 42 + last.data_type().name().len();
    upload[end] = b'X';
    let table = DataType::try_from_slice(&upload[start..]).unwrap();
    assert_eq!(table.members_to_vec().unwrap().len(), 20);
    let why = refusal(16, 42 + b"bExtender".len(), usize::from(b'X'));
    assert_eq!(table.members_to_vec_in(Mode::Checked), Err(why));
}
