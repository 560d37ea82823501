//! Captures: an upload as lines and back, against a model of its own.

mod common;

use common::{Random, refusal, rig};
use vindaskot::captures::{join, split};

/// The pieces of an upload: whole entries, and then all that is left.
fn pieces(upload: &[u8]) -> Vec<&[u8]> {
    let mut pieces = Vec::new();
    let mut left = upload;
    while !left.is_empty() {
        let claim = left
            .first_chunk()
            .map_or(0, |claim| u32::from_le_bytes(*claim) as usize);
        let size = if (1..=left.len()).contains(&claim) {
            claim
        } else {
            left.len()
        };
        let (piece, behind) = left.split_at(size);
        pieces.push(piece);
        left = behind;
    }
    pieces
}

fn line(piece: &[u8]) -> String {
    piece.iter().map(|byte| format!("{byte:02X}")).collect()
}

fn lines(upload: &[u8]) -> String {
    pieces(upload)
        .into_iter()
        .map(|piece| line(piece) + "\n")
        .collect()
}

/// What lines of text spell, if all of them do.
fn spelt(text: &[u8]) -> Option<Vec<u8>> {
    let mut bytes = Vec::new();
    for line in text.split(|byte| *byte == b'\n') {
        if line.len() % 2 == 1 || !line.iter().all(u8::is_ascii_hexdigit) {
            return None;
        }
        bytes.extend(common::hex(std::str::from_utf8(line).unwrap()));
    }
    Some(bytes)
}

/// The lines of an upload and the upload of the lines, with all that the lent buffers have to show on the way.
fn there_and_back(upload: &[u8]) {
    let expected = lines(upload);
    let mut text = vec![0xA5; expected.len() + 2];
    assert_eq!(split(upload, &mut text), Ok(&expected[..]));
    assert_eq!(text[expected.len()..], [0xA5; 2]);
    let mut bytes = vec![0xA5; upload.len() + 2];
    assert_eq!(join(&expected, &mut bytes), Ok(upload));
    assert_eq!(bytes[upload.len()..], [0xA5; 2]);
    if let Some(lent) = expected.len().checked_sub(1) {
        let mut text = vec![0xA5; lent];
        assert_eq!(split(upload, &mut text), Err(refusal(6, lent + 1, lent)));
        assert!(text.iter().all(|byte| *byte == 0xA5));
        let lent = upload.len() - 1;
        let mut bytes = vec![0xA5; lent];
        assert_eq!(join(&expected, &mut bytes), Err(refusal(6, lent + 1, lent)));
        assert!(bytes.iter().all(|byte| *byte == 0xA5));
    }
}

/// An upload of entries whose claims are their lengths, some cut, some of which claim nothing.
fn upload(r: &mut Random) -> Vec<u8> {
    let mut bytes = Vec::new();
    for _ in 0..r.below(6) {
        let mut own = r.bytes(70);
        let claim = match r.below(12) {
            0 => 0,
            1 => 1 + r.below(3),
            2 => r.below(120),
            _ => own.len() + 4,
        };
        bytes.extend((claim as u32).to_le_bytes());
        bytes.append(&mut own);
    }
    bytes.truncate(bytes.len().saturating_sub(r.below(3) * r.below(8)));
    bytes
}

#[test]
fn the_rig_and_every_cut_of_its_end() {
    let rig = rig();
    there_and_back(&rig);
    for cut in 1..200 {
        there_and_back(&rig[..rig.len() - cut]);
    }
}

#[test]
fn random_uploads_there_and_back() {
    let mut r = Random(208);
    for _ in 0..20_000 {
        there_and_back(&upload(&mut r));
    }
    for _ in 0..2000 {
        there_and_back(&r.bytes(40));
    }
}

#[test]
fn what_a_piece_is() {
    let told = |upload: &[u8], expected: &str| {
        assert_eq!(lines(upload), expected);
        there_and_back(upload);
    };
    told(b"", "");
    told(b"\x05", "05\n");
    told(b"\x05\0\0\0\xAB", "05000000AB\n");
    told(b"\x05\0\0\0\xAB\x06\0\0", "05000000AB\n060000\n");
    told(b"\0\0\0\0\x05\0\0\0\xAB", "0000000005000000AB\n");
    told(b"\x03\0\0\0\0\0", "030000\n000000\n");
    told(b"\x1D\0\0\0\x01", "1D00000001\n");
}

#[test]
fn lines_of_entries_come_back_as_they_were() {
    let mut r = Random(209);
    for _ in 0..2000 {
        let mut text = String::new();
        for _ in 0..1 + r.below(5) {
            let own = r.bytes(50);
            let length = (own.len() as u32 + 4).to_le_bytes();
            text += &(line(&length) + &line(&own) + "\n");
        }
        let ended = text.clone();
        if r.coin() {
            text.pop();
        }
        let mut bytes = vec![0; text.len()];
        let upload = join(&text, &mut bytes).unwrap();
        let mut again = vec![0; ended.len()];
        assert_eq!(split(upload, &mut again), Ok(&ended[..]));
    }
}

#[test]
fn random_texts() {
    let mut r = Random(210);
    let digits = b"0123456789abcdefABCDEF";
    let others = b"0a\r gG/:@`\0\x80";
    let (mut good, mut bad) = (0, 0);
    for _ in 0..100_000 {
        let mut text = Vec::new();
        for _ in 0..r.below(8) {
            match r.below(16) {
                0..=3 => text.push(b'\n'),
                4 => text.push(others[r.below(others.len())]),
                _ => text.extend([digits[r.below(22)], digits[r.below(22)]]),
            }
        }
        let mut bytes = [0xA5; 32];
        match spelt(&text) {
            Some(expected) => {
                assert_eq!(join(&text, &mut bytes), Ok(&expected[..]), "{text:?}");
                assert!(bytes[expected.len()..].iter().all(|byte| *byte == 0xA5));
                good += 1;
            }
            None => {
                assert_eq!(join(&text, &mut bytes), Err(refusal(12, 0, 0)), "{text:?}");
                assert_eq!(bytes, [0xA5; 32]);
                bad += 1;
            }
        }
    }
    assert!(good > 20_000 && bad > 10_000, "{good} {bad}");
}

#[test]
fn refusals_in_their_order() {
    const LIMIT: usize = vindaskot::LIMIT;
    let above = vec![1; LIMIT + 1];
    assert_eq!(split(&above, &mut []), Err(refusal(5, LIMIT, LIMIT + 1)));
    assert_eq!(
        split(&above[1..], &mut []),
        Err(refusal(6, 2 * LIMIT + 1, 0))
    );
    let mut text = vec![b'0'; 2 * LIMIT + 2];
    assert_eq!(join(&text, &mut []), Err(refusal(5, LIMIT, LIMIT + 1)));
    assert_eq!(join(&text[2..], &mut []), Err(refusal(6, LIMIT, 0)));
    text[2 * LIMIT + 1] = b'\r';
    assert_eq!(join(&text, &mut []), Err(refusal(12, 0, 0)));
    assert_eq!(join("00\n0", &mut []), Err(refusal(12, 0, 0)));
    // No limit is set to a text: lines of no bytes may be many.
    let mut text = vec![b'\n'; 3 * LIMIT];
    text.extend(b"aF");
    assert_eq!(join(&text, &mut [0; 1]), Ok(&[0xAF][..]));
}

#[test]
fn the_largest_upload() {
    let mut r = Random(211);
    let mut upload = Vec::new();
    while upload.len() < vindaskot::LIMIT - 100 {
        let own = r.bytes(90);
        upload.extend((own.len() as u32 + 4).to_le_bytes());
        upload.extend(own);
    }
    upload.resize(vindaskot::LIMIT, 0);
    there_and_back(&upload);
}
