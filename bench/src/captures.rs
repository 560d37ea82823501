//! The rig as lines of hexadecimal, one an entry, and back, beside plain loops over a table.
use crate::c;
use crate::clock::{plain, race, wrong};
use crate::report::Report;
use crate::rig::Rig;
use std::hint::black_box;

const DIGITS: &[u8; 16] = b"0123456789ABCDEF";

/// The value of each digit, of either case, and 255 of what is none.
const VALUES: [u8; 256] = {
    let mut values = [255; 256];
    let mut value = 0;
    while value < 16 {
        values[DIGITS[value] as usize] = value as u8;
        values[DIGITS[value].to_ascii_lowercase() as usize] = value as u8;
        value += 1;
    }
    values
};

/// Where the entry ends that begins at a place; what is cut ends with the upload.
fn end(upload: &[u8], at: usize) -> usize {
    let left = &upload[at..];
    let claim = left
        .first_chunk()
        .map_or(0, |claim| u32::from_le_bytes(*claim) as usize);
    if (1..=left.len()).contains(&claim) {
        at + claim
    } else {
        upload.len()
    }
}

/// As the archive does, it measures before it writes.
fn split(upload: &[u8], text: &mut [u8]) -> Option<usize> {
    let (mut needed, mut at) = (2 * upload.len(), 0);
    while at < upload.len() {
        (needed, at) = (needed + 1, end(upload, at));
    }
    let (mut rest, mut at) = (text.get_mut(..needed)?, 0);
    while at < upload.len() {
        let piece = &upload[at..end(upload, at)];
        let (line, behind) = rest.split_at_mut(2 * piece.len() + 1);
        for (pair, byte) in line.chunks_exact_mut(2).zip(piece) {
            pair.copy_from_slice(&[
                DIGITS[usize::from(byte >> 4)],
                DIGITS[usize::from(byte & 15)],
            ]);
        }
        line[2 * piece.len()] = b'\n';
        (rest, at) = (behind, at + piece.len());
    }
    Some(needed)
}

fn join(text: &[u8], out: &mut [u8]) -> Option<usize> {
    let lines = || text.split(|c| *c == b'\n');
    let mut needed = 0;
    for line in lines() {
        let worst = line
            .iter()
            .fold(0, |worst, c| worst | VALUES[usize::from(*c)]);
        if line.len() % 2 == 1 || worst > 15 {
            return None;
        }
        needed += line.len() / 2;
    }
    let pairs = lines().flat_map(|line| line.chunks_exact(2));
    for (byte, pair) in out.get_mut(..needed)?.iter_mut().zip(pairs) {
        *byte = VALUES[usize::from(pair[0])] * 16 + VALUES[usize::from(pair[1])];
    }
    Some(needed)
}

pub fn rows(report: &mut Report, rig: &Rig) {
    let upload = rig.upload.as_slice();
    let mut text = vec![0; 3 * upload.len()];
    let mut plain_text = text.clone();
    let length = c::split_lines(upload, &mut text);
    if split(upload, &mut plain_text) != Some(length) || text != plain_text {
        wrong("split makes other lines than the plain loop");
    }
    text.truncate(length);
    let mut back = vec![0; upload.len()];
    if c::join_lines(&text, &mut back) != upload.len() || back != upload {
        wrong("what was split and is joined is another upload");
    }
    if join(&text, &mut back) != Some(upload.len()) || back != upload {
        wrong("the plain loop joins another upload");
    }
    report.heading(
        "captures, a line an entry (the Rust: plain loops)",
        "ns a byte of the upload",
    );
    let (mut ours, mut theirs) = (vec![0; length], vec![0; length]);
    let times = race(
        report.allowed,
        "captures: split",
        vec![
            plain(|| c::split_lines(black_box(upload), black_box(&mut ours)) as u64),
            plain(|| split(black_box(upload), black_box(&mut theirs)).unwrap() as u64),
        ],
    );
    report.row("split", upload.len(), times[0], times[1]);
    let (mut ours, mut theirs) = (vec![0; upload.len()], vec![0; upload.len()]);
    let times = race(
        report.allowed,
        "captures: join",
        vec![
            plain(|| c::join_lines(black_box(&text), black_box(&mut ours)) as u64),
            plain(|| join(black_box(&text), black_box(&mut theirs)).unwrap() as u64),
        ],
    );
    report.row("join", upload.len(), times[0], times[1]);
}
