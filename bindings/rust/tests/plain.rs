//! Plain form: random plain uploads, each byte of them changed in turn, held to a model of its own.

mod common;

use common::plain::PlainSymbol;
use common::{Random, refusal, rig};
use vindaskot::{AdsSymbolInfo, AdsSymbolInfoIterator, LIMIT, Mode, Refusal, check_plain};

const GUID: u16 = 0x0008;
const ATTRIBUTES: u16 = 0x1000;
const EXTENDED: u16 = 0x8000;
const CHAIN: u32 = 0x0004;
const MASK: u32 = 0x0111_1111;
const FOLLOWER: u32 = 0x0100_0000;

fn two(bytes: &[u8], at: usize) -> usize {
    u16::from_le_bytes([bytes[at], bytes[at + 1]]).into()
}

fn four(bytes: &[u8], at: usize) -> u32 {
    u32::from_le_bytes(bytes[at..at + 4].try_into().unwrap())
}

/// The bytes of the attributes that are shown from a place on, and whether each is good; `None` where no more is.
fn attribute(entry: &[u8], at: usize) -> Option<(usize, bool)> {
    let [name, value, ..] = entry[at..] else {
        return None;
    };
    let (name, value) = (at + 2 + usize::from(name), usize::from(value));
    let end = name + 1 + value;
    (end < entry.len()).then(|| (end + 1, entry[name] == 0 && entry[end] == 0))
}

/// The chain at a place: where it ends, how many records it has, and whether each is good.
fn chain(entry: &[u8], mut at: usize) -> Option<(usize, usize, bool)> {
    let (mut count, mut good) = (0, true);
    loop {
        if entry.len() - at < 7 {
            return None;
        }
        let packed = four(entry, at);
        let end = at + 6 + two(entry, at + 4);
        if end >= entry.len() {
            return None;
        }
        good &= packed & !MASK == 0 && entry[end] == 0;
        at = end + 1;
        count += 1;
        if packed & FOLLOWER == 0 {
            return Some((at, count, good));
        }
    }
}

/// What is written of an entry whose strings are there; `None` where the writer refuses it.
fn written(entry: &[u8]) -> Option<Vec<u8>> {
    let mut out = entry[..30].to_vec();
    let flags = two(entry, 20) as u16;
    let mut at = 30;
    for length in [24, 26, 28] {
        let end = at + two(entry, length);
        out.extend_from_slice(&entry[at..end]);
        out.push(0);
        at = end + 1;
    }
    let mut good = true;
    if flags & GUID != 0 {
        good = entry.len() - at >= 16;
        if good {
            out.extend_from_slice(&entry[at..at + 16]);
            at += 16;
        }
    }
    if flags & ATTRIBUTES != 0 {
        let announced = if entry.len() - at < 2 {
            0
        } else {
            at += 2;
            two(entry, at - 2)
        };
        let (start, mut count) = (at, 0u16);
        while usize::from(count) < announced {
            let Some((next, is_good)) = attribute(entry, at) else {
                break;
            };
            (at, count) = (next, count + 1);
            good &= is_good;
        }
        out.extend_from_slice(&count.to_le_bytes());
        out.extend_from_slice(&entry[start..at]);
    }
    let mut extended = 0;
    if flags & EXTENDED != 0 {
        if entry.len() - at >= 4 {
            extended = four(entry, at);
            at += 4;
        }
        out.extend_from_slice(&extended.to_le_bytes());
    }
    if extended & CHAIN != 0 {
        let (end, _, is_good) = chain(entry, at)?;
        out.extend_from_slice(&entry[at..end]);
        good &= is_good;
    }
    let length = out.len() as u32;
    out[..4].copy_from_slice(&length.to_le_bytes());
    (good && out.len() <= LIMIT).then_some(out)
}

fn model(upload: &[u8]) -> Result<(), Refusal> {
    let mut at = 0;
    while at < upload.len() {
        let left = upload.len() - at;
        if left < 4 {
            return Err(refusal(2, at + 4, upload.len()));
        }
        let claim = four(upload, at) as usize;
        if claim > left {
            return Err(refusal(3, claim, left));
        }
        if claim == 0 {
            return Err(refusal(10, 1, 0));
        }
        if claim < 30 {
            return Err(refusal(2, 30, claim));
        }
        let entry = &upload[at..at + claim];
        let needed = 33 + two(entry, 24) + two(entry, 26) + two(entry, 28);
        if needed > claim {
            return Err(refusal(3, needed, claim));
        }
        let written = written(entry).ok_or(refusal(19, at, 0))?;
        if written != entry {
            let same = |(a, b): &(&u8, &u8)| a == b;
            let place = written.iter().zip(entry).take_while(same).count();
            return Err(refusal(19, at + place, 0));
        }
        at += claim;
    }
    Ok(())
}

#[test]
fn what_is_written_is_plain() {
    let mut r = Random(210);
    for _ in 0..300 {
        let count = r.below(5);
        let upload: Vec<u8> = (0..count)
            .flat_map(|_| PlainSymbol::random(&mut r).bytes())
            .collect();
        assert_eq!(check_plain(&upload), Ok(()));
        assert_eq!(model(&upload), Ok(()));
        let present = AdsSymbolInfoIterator::new(&upload).flatten().count();
        let checked = AdsSymbolInfoIterator::new_in(&upload, Mode::Checked);
        assert_eq!([present, checked.flatten().count()], [count; 2]);
    }
}

/// Each byte as another, one bit off, 0 and 255.
#[test]
fn each_byte_changed_in_turn() {
    let mut r = Random(211);
    let mut refused = 0;
    for _ in 0..60 {
        let count = 1 + r.below(3);
        let mut upload: Vec<u8> = (0..count)
            .flat_map(|_| PlainSymbol::random(&mut r).bytes())
            .collect();
        for at in 0..upload.len() {
            let was = upload[at];
            let other = r.next() as u8;
            for byte in [other, was ^ (1 << r.below(8)), 0, 255] {
                upload[at] = byte;
                let expected = model(&upload);
                assert_eq!(check_plain(&upload), expected, "{upload:02X?} at {at}");
                refused += usize::from(expected.is_err());
            }
            upload[at] = was;
        }
    }
    assert!(refused > 1000);
}

/// Cut anywhere, and grown by bytes that the claim takes in.
#[test]
fn cut_and_grown() {
    let mut r = Random(212);
    for _ in 0..200 {
        let upload = PlainSymbol::random(&mut r).bytes();
        for cut in 0..upload.len() {
            assert_eq!(check_plain(&upload[..cut]), model(&upload[..cut]));
        }
        let extra = r.bytes(300);
        let mut grown = [&upload[..], &extra].concat();
        let claim = grown.len() as u32;
        grown[..4].copy_from_slice(&claim.to_le_bytes());
        assert_eq!(check_plain(&grown), model(&grown));
    }
}

/// An entry that is plain is what is written of what was read.
#[test]
fn plain_is_written_again_the_same() {
    let mut r = Random(213);
    for _ in 0..2000 {
        let mut entry = PlainSymbol::random(&mut r).bytes();
        let at = r.below(entry.len());
        entry[at] = r.next() as u8;
        let again = AdsSymbolInfo::try_from_slice(&entry)
            .is_ok_and(|info| info.numbers().to_vec(&info.parts()) == Ok(entry.clone()));
        assert_eq!(check_plain(&entry).is_ok(), again, "{entry:02X?}");
    }
}

#[test]
fn the_rig_is_plain() {
    let mut upload = rig();
    assert_eq!(check_plain(&upload), Ok(()));
    // The lens table's entry: an end byte of its name, and one of its first attribute, which the writer refuses.
    for (at, place) in [(1455 + 41, 1455 + 41), (1455 + 111, 1455)] {
        let was = upload[at];
        assert_eq!(was, 0);
        upload[at] = b'X';
        assert_eq!(check_plain(&upload), Err(refusal(19, place, 0)));
        upload[at] = was;
    }
}

/// The limit, an empty upload, and unread bytes told by the entry length.
#[test]
fn edges() {
    assert_eq!(check_plain(&[]), Ok(()));
    let above = vec![0; LIMIT + 1];
    assert_eq!(check_plain(&above), Err(refusal(5, LIMIT, LIMIT + 1)));
    assert_eq!(check_plain(&above[..LIMIT]), Err(refusal(10, 1, 0)));
    let plain = PlainSymbol::named(b"MAIN.fZoom").bytes();
    for (extra, place) in [(1, 0), (255, 0), (256, 1), (65536, 2)] {
        let mut grown = plain.clone();
        grown.resize(plain.len() + extra, 0);
        let claim = grown.len() as u32;
        grown[..4].copy_from_slice(&claim.to_le_bytes());
        let upload = [&plain[..], &grown].concat();
        let expected = Err(refusal(19, plain.len() + place, 0));
        assert_eq!(check_plain(&upload), expected);
    }
}
