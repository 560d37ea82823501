//! Text: the table of docs/FORMAT.md both ways, and what encoding refuses.

mod common;

use common::{Random, refusal};
use vindaskot::text::{decode, encode};

/// The code points of bytes 80 to 9F. All other bytes are their own code points.
const TABLE: [u32; 32] = [
    0x20AC, 0x0081, 0x201A, 0x0192, 0x201E, 0x2026, 0x2020, 0x2021, 0x02C6, 0x2030, 0x0160, 0x2039,
    0x0152, 0x008D, 0x017D, 0x008F, 0x0090, 0x2018, 0x2019, 0x201C, 0x201D, 0x2022, 0x2013, 0x2014,
    0x02DC, 0x2122, 0x0161, 0x203A, 0x0153, 0x009D, 0x017E, 0x0178,
];

fn character(byte: u8) -> char {
    let point = match byte {
        0x80..=0x9F => TABLE[usize::from(byte) - 0x80],
        _ => u32::from(byte),
    };
    char::from_u32(point).unwrap()
}

/// The text decoded, with all that a lent buffer has to show on the way.
fn decoded(src: &[u8]) -> String {
    let expected: String = src.iter().map(|byte| character(*byte)).collect();
    let mut out = vec![0xA5; expected.len() + 2];
    assert_eq!(decode(src, &mut out), Ok(&expected[..]));
    assert_eq!(out[expected.len()..], [0xA5; 2]);
    expected
}

#[test]
fn every_byte_by_the_table_and_back() {
    for byte in 0..=255 {
        let text = decoded(&[byte]);
        assert_eq!(encode(&text, &mut [0; 4]), Ok(&[byte][..]));
    }
    let all: Vec<u8> = (0..=255).collect();
    let text = decoded(&all);
    let mut out = [0xA5; 258];
    assert_eq!(encode(&text, &mut out), Ok(&all[..]));
    assert_eq!(out[256..], [0xA5; 2]);
}

#[test]
fn random_texts_there_and_back() {
    let mut r = Random(8);
    for _ in 0..2000 {
        let bytes = r.bytes(60);
        let text = decoded(&bytes);
        let mut out = [0; 60];
        assert_eq!(encode(&text, &mut out), Ok(&bytes[..]));
    }
}

#[test]
fn too_little_room_is_refused_without_a_change() {
    let mut out = [0xA5; 4];
    assert_eq!(decode(b"\x80\xE4", &mut out), Err(refusal(6, 5, 4)));
    assert_eq!(encode("\u{20AC}abcd", &mut out), Err(refusal(6, 5, 4)));
    assert_eq!(out, [0xA5; 4]);
    assert_eq!(decode(b"", &mut []), Ok(""));
    assert_eq!(encode("", &mut []), Ok(&[][..]));
}

#[test]
fn faults_are_refused_at_their_place_before_the_room_is_looked_at() {
    let cases: [(&[u8], usize, usize); 9] = [
        ("\u{100}".as_bytes(), 0, 2),
        ("a\u{20AC}\u{4E00}b\u{4E01}".as_bytes(), 4, 2),
        ("ab\u{1F3A5}".as_bytes(), 2, 2),
        ("\u{FEFF}a".as_bytes(), 0, 2),
        ("\u{80}".as_bytes(), 0, 2),
        (b"abc\xFF", 3, 1),
        (b"\xE2\x82", 0, 1),
        (b"x\xC0\x80", 1, 1),
        (b"\xC3\xA4\xED\xA0\x80", 2, 1),
    ];
    for (src, place, kind) in cases {
        let mut out = [0xA5; 20];
        assert_eq!(
            encode(src, &mut out),
            Err(refusal(11, place, kind)),
            "{src:02X?}"
        );
        assert_eq!(out, [0xA5; 20]);
        assert_eq!(encode(src, &mut []), Err(refusal(11, place, kind)));
    }
}
