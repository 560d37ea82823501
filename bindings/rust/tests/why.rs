//! Why sections are there or not: by name, and at random against a model of its own.

mod common;

use common::damage::{damaged, set_claim};
use common::plain::PlainSymbol;
use common::{Random, ends, refusal, rig};
use vindaskot::{AdsSymbolInfo, AdsSymbolInfoIterator, Mode, Reason, Reasons, Refusal};

const GUID: u16 = 0x0008;
const ATTRIBUTES: u16 = 0x1000;
const EXTENDED: u16 = 0x8000;

/// An entry without strings, of these flags, with these bytes behind its strings' end bytes.
fn entry(flags: u16, tail: &[u8]) -> Vec<u8> {
    let mut bytes = PlainSymbol::default().bytes();
    bytes[20..22].copy_from_slice(&flags.to_le_bytes());
    bytes.extend(tail);
    let claim = bytes.len() as u32;
    set_claim(&mut bytes, claim);
    bytes
}

/// What the bytes of an entry say, after docs/FORMAT.md, "Why".
struct Model<'a> {
    bytes: &'a [u8],
    at: usize,
}

impl Model<'_> {
    fn left(&self) -> usize {
        self.bytes.len() - self.at
    }

    fn number(&self, at: usize, width: usize) -> usize {
        let bytes = self.bytes[at..at + width].iter().rev();
        bytes.fold(0, |number, byte| number << 8 | usize::from(*byte))
    }

    /// Why a section of at least so many bytes does not begin here, if it does not.
    fn absent(&self, flagged: bool, least: usize) -> Option<Reason> {
        if !flagged {
            return Some(Reason::NotFlagged);
        }
        (self.left() < least).then_some(Reason::NoRoom {
            place: self.at,
            left: self.left(),
        })
    }

    fn fixed(&mut self, flagged: bool, size: usize) -> Reason {
        let place = self.at;
        self.absent(flagged, size).unwrap_or_else(|| {
            self.at += size;
            Reason::Whole { place, count: 1 }
        })
    }

    /// How long the record here is, by its least, its strings' lengths and what stands beside them.
    fn record(
        &self,
        least: usize,
        strings: impl Fn() -> usize,
        cut: u32,
    ) -> Result<usize, Refusal> {
        let left = self.left();
        if left < least {
            return Err(refusal(2, least, left));
        }
        let size = least + strings();
        if left < size {
            return Err(refusal(cut, size, left));
        }
        Ok(size)
    }

    fn attributes(&mut self, flagged: bool) -> Reason {
        if let Some(reason) = self.absent(flagged, 2) {
            return reason;
        }
        let place = self.at;
        let announced = self.number(place, 2);
        self.at += 2;
        for record in 0..announced {
            if record > 0 && self.left() == 0 {
                let owed = announced - record;
                return Reason::Owed { announced, owed };
            }
            let strings = || self.number(self.at, 1) + self.number(self.at + 1, 1);
            match self.record(4, strings, 1) {
                Ok(size) => self.at += size,
                Err(why) => {
                    let place = self.at;
                    return Reason::Refused { record, place, why };
                }
            }
        }
        Reason::Whole {
            place,
            count: announced,
        }
    }

    fn chain(&mut self, word: Option<usize>) -> Reason {
        let Some(word) = word else {
            return Reason::NoExtendedFlags;
        };
        if let Some(reason) = self.absent(word & 4 != 0, 1) {
            return reason;
        }
        let place = self.at;
        for record in 0.. {
            let strings = || self.number(self.at + 4, 2);
            match self.record(7, strings, 2) {
                Err(why) => {
                    let place = self.at;
                    return Reason::Refused { record, place, why };
                }
                Ok(_) if self.bytes[self.at + 3] & 1 == 0 => {
                    let count = record + 1;
                    return Reason::Whole { place, count };
                }
                Ok(size) => self.at += size,
            }
        }
        unreachable!("a chain ends with its bytes")
    }
}

/// Of an entry that the reader accepts.
fn model(bytes: &[u8]) -> Reasons {
    let mut model = Model { bytes, at: 33 };
    model.at += [24, 26, 28]
        .map(|at| model.number(at, 2))
        .iter()
        .sum::<usize>();
    let flags = model.number(20, 2) as u16;
    let guid = model.fixed(flags & GUID != 0, 16);
    let attributes = model.attributes(flags & ATTRIBUTES != 0);
    let at = model.at;
    let extended_flags = model.fixed(flags & EXTENDED != 0, 4);
    let word = extended_flags.is_whole().then(|| model.number(at, 4));
    Reasons {
        guid,
        attributes,
        extended_flags,
        refactor_infos: model.chain(word),
    }
}

/// How many are shown of a list that a refused record ends, and of one that it drops.
fn shown(reason: Reason, dropped: bool) -> usize {
    match reason {
        Reason::Whole { count, .. } => count,
        Reason::Refused { record, .. } if !dropped => record,
        Reason::Owed { announced, owed } => announced - owed,
        _ => 0,
    }
}

/// The entry at the start of `data`: which reasons it has, if it is accepted.
fn ask(data: &[u8]) -> Option<Reasons> {
    let told = Reasons::try_from_slice(data);
    let info = match AdsSymbolInfo::try_from_slice(data) {
        Ok(info) => info,
        Err(why) => {
            assert_eq!(told, Err(why));
            return None;
        }
    };
    let reasons = told.unwrap();
    assert_eq!(reasons, model(info.as_bytes()));
    assert_eq!(info.reasons(), Ok(reasons));
    assert_eq!(shown(reasons.attributes, false), info.attributes().len());
    assert_eq!(
        shown(reasons.refactor_infos, true),
        info.refactor_infos().len()
    );
    assert_eq!(reasons.guid.is_whole(), info.guid().is_some());
    assert_eq!(
        reasons.extended_flags.is_whole(),
        info.extended_flags().is_some()
    );
    if let Ok(checked) = AdsSymbolInfo::try_from_slice_in(data, Mode::Checked) {
        assert_eq!(ends::of_symbol(info.as_bytes()), None);
        assert_eq!(checked.reasons(), Ok(reasons));
    }
    Some(reasons)
}

#[test]
fn each_reason_by_name() {
    use Reason::*;
    let whole = |place, count| Whole { place, count };
    let no_room = |place, left| NoRoom { place, left };
    let refused = |record, place, number, expected, got| Refused {
        record,
        place,
        why: refusal(number, expected, got),
    };
    let none = [NotFlagged, NotFlagged, NotFlagged, NoExtendedFlags];
    let attributes = |reason| [NotFlagged, reason, NotFlagged, NoExtendedFlags];
    let chain = |reason| [NotFlagged, NotFlagged, whole(33, 1), reason];
    let cases: [(u16, &[u8], [Reason; 4]); 20] = [
        (0, b"\x01\0\x01\x01u\0v\0", none),
        (GUID, &[7; 15], [no_room(33, 15), none[1], none[2], none[3]]),
        (GUID, &[7; 16], [whole(33, 1), none[1], none[2], none[3]]),
        (ATTRIBUTES, b"", attributes(no_room(33, 0))),
        (ATTRIBUTES, b"\x05", attributes(no_room(33, 1))),
        (ATTRIBUTES, b"\0\0", attributes(whole(33, 0))),
        (ATTRIBUTES, b"\x05\0", attributes(refused(0, 35, 2, 4, 0))),
        (
            ATTRIBUTES,
            b"\x01\0\x01\x01u\0v\0",
            attributes(whole(33, 1)),
        ),
        (
            ATTRIBUTES,
            b"\x05\x01\x01\x01u\0v\0",
            attributes(Owed {
                announced: 261,
                owed: 260,
            }),
        ),
        (
            ATTRIBUTES,
            b"\x05\0\x01\x01u\0v\0\0\0\0",
            attributes(refused(1, 41, 2, 4, 3)),
        ),
        (
            ATTRIBUTES,
            b"\x05\0\x01\x01u\0v\0\x02\x01\0\0\0\0",
            attributes(refused(1, 41, 1, 7, 6)),
        ),
        (
            GUID | ATTRIBUTES,
            b"\x01\0\0\0\0\0",
            [no_room(33, 6), whole(33, 1), none[2], none[3]],
        ),
        (
            EXTENDED,
            b"\x04\0\0",
            [none[0], none[1], no_room(33, 3), NoExtendedFlags],
        ),
        (EXTENDED, b"\xFB\xFF\xFF\xFF\0", chain(NotFlagged)),
        (EXTENDED, b"\x04\0\0\0", chain(no_room(37, 0))),
        (EXTENDED, b"\x04\0\0\0\0\0", chain(refused(0, 37, 2, 7, 2))),
        (
            EXTENDED,
            b"\x04\0\0\0\0\0\0\0\x01\0n\0",
            chain(whole(37, 1)),
        ),
        (
            EXTENDED,
            b"\x04\0\0\0\0\0\0\x01\0\0\0\0\0\0\0\0\0\0",
            chain(whole(37, 2)),
        ),
        (
            EXTENDED,
            b"\x04\0\0\0\0\0\0\x01\0\0\0\0\0\0\0\x02\0n\0",
            chain(refused(1, 44, 2, 9, 8)),
        ),
        (
            ATTRIBUTES | EXTENDED,
            b"\x01\0\x04\0\0\0",
            [
                none[0],
                refused(0, 35, 1, 8, 4),
                whole(35, 1),
                no_room(39, 0),
            ],
        ),
    ];
    for (flags, tail, [guid, attributes, extended_flags, refactor_infos]) in cases {
        let expected = Reasons {
            guid,
            attributes,
            extended_flags,
            refactor_infos,
        };
        let mut data = entry(flags, tail);
        assert_eq!(ask(&data), Some(expected), "{flags:04X} {tail:?}");
        // What stands behind the entry is not looked at.
        data.extend([1; 40]);
        assert_eq!(ask(&data), Some(expected), "{flags:04X} {tail:?} and more");
    }
}

#[test]
fn reasons_in_words() {
    let words = [
        (Reason::NotFlagged, "its flag is not set"),
        (
            Reason::NoExtendedFlags,
            "there are no extended flags, which would flag it",
        ),
        (
            Reason::NoRoom { place: 33, left: 1 },
            "it is flagged, and the entry has only 1 byte left at place 33, where it would begin",
        ),
        (
            Reason::Whole {
                place: 33,
                count: 0,
            },
            "it begins at place 33 and is whole, with 0 items",
        ),
        (
            Reason::Refused {
                record: 1,
                place: 41,
                why: refusal(1, 7, 6),
            },
            "its record 1, at place 41, is refused: refusal 1, unexpected length: 7 needed, 6 present",
        ),
        (
            Reason::Owed {
                announced: 261,
                owed: 260,
            },
            "the entry ends before 260 records of the 261 announced",
        ),
    ];
    for (reason, told) in words {
        assert_eq!(reason.to_string(), told);
    }
}

#[test]
fn what_is_refused_is_what_reading_refuses() {
    for len in 0..40 {
        for claim in 0..40 {
            let mut data = vec![0; len];
            if len >= 4 {
                set_claim(&mut data, claim);
            }
            ask(&data);
        }
    }
}

#[test]
fn the_sample_is_explained() {
    let upload = rig();
    let mut all = AdsSymbolInfoIterator::new(&upload);
    let mut start = all.position();
    while let Some(item) = all.next() {
        let reasons = ask(&upload[start..]);
        assert_eq!(reasons.is_some(), item.is_ok());
        start = all.position();
    }
}

/// Few bytes of few kinds lead counts, lengths and bits to each other.
fn tail(r: &mut Random) -> Vec<u8> {
    const OFTEN: [u8; 10] = [0, 0, 0, 1, 1, 2, 3, 4, 5, 0xFF];
    let len = r.below(41);
    let byte = |_| match r.below(12) {
        0 => r.next() as u8,
        _ => OFTEN[r.below(OFTEN.len())],
    };
    (0..len).map(byte).collect()
}

#[test]
fn at_random() {
    let mut r = Random(207);
    let mut seen = [0; 6];
    for _ in 0..40_000 {
        let flags = [(4, GUID), (2, ATTRIBUTES), (2, EXTENDED)];
        let flags = flags.map(|(one_in, flag)| if r.below(one_in) == 0 { flag } else { 0 });
        let reasons = ask(&entry(flags.iter().sum(), &tail(&mut r))).unwrap();
        for reason in [reasons.attributes, reasons.refactor_infos] {
            let kind = match reason {
                Reason::NotFlagged => 0,
                Reason::NoExtendedFlags => 1,
                Reason::NoRoom { .. } => 2,
                Reason::Whole { .. } => 3,
                Reason::Refused { .. } => 4,
                Reason::Owed { .. } => 5,
            };
            seen[kind] += 1;
        }
    }
    assert!(seen.iter().all(|count| *count > 100), "{seen:?}");
    for _ in 0..300 {
        let upload = damaged(&mut r);
        for start in 0..upload.len() {
            ask(&upload[start..]);
        }
    }
}
