//! Uploads with damaged entries.

use super::Random;
use super::plain::PlainSymbol;

pub fn set_claim(entry: &mut [u8], claim: u32) {
    entry[..4].copy_from_slice(&claim.to_le_bytes());
}

/// An entry, one time in three damaged: its claim, a length, an end byte, its end, any bits.
fn piece(r: &mut Random) -> Vec<u8> {
    let mut entry = PlainSymbol::random(r).bytes();
    let length = entry.len() as u32;
    match r.below(18) {
        0 => {
            let small = r.below(34) as u32;
            let claims = [
                0,
                small,
                length - 1,
                length + 1,
                length + 300,
                u32::MAX,
                r.word(),
            ];
            set_claim(&mut entry, claims[r.below(claims.len())]);
        }
        1 | 2 => entry[24 + r.below(6)] = 0xFF,
        3 => {
            let end = 30 + usize::from(entry[24]) + 256 * usize::from(entry[25]);
            entry[end] = 1 + r.below(255) as u8;
        }
        4 => {
            entry.truncate(4 + r.below(entry.len() - 4));
            let length = entry.len() as u32;
            set_claim(&mut entry, length);
        }
        5 => {
            let at = r.below(entry.len());
            entry[at] ^= 1 << r.below(8);
        }
        _ => {}
    }
    entry
}

/// An upload of such entries, one time in two cut, or with a few bytes or zeros behind it.
pub fn damaged(r: &mut Random) -> Vec<u8> {
    let mut upload: Vec<u8> = (0..r.below(14)).flat_map(|_| piece(r)).collect();
    match r.below(6) {
        0 => upload.truncate(r.below(upload.len() + 1)),
        1 => upload.extend(r.bytes(5)),
        2 => upload.extend(vec![0; r.below(40)]),
        _ => {}
    }
    upload
}
