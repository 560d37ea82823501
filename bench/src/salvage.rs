//! Salvage of a rig of which one entry in a hundred is damaged.
use crate::c::{self, Told};
use crate::clock::{plain, race, wrong};
use crate::report::Report;
use crate::rig::Rig;
use crate::sys;
use std::hint::black_box;

/// An upload with refused entries, and what has to be made of it.
struct Damaged {
    upload: Vec<u8>,
    kept: Vec<u8>,
    runs: Vec<u32>,
}

impl Damaged {
    /// The high byte of a string's length is made the largest, of name, type and comment by turns: the entry is refused
    /// with 3, and the walk goes on behind it.
    fn of(rig: &Rig) -> Self {
        let upload = rig.upload.clone();
        let (kept, runs) = (Vec::new(), Vec::new());
        let mut made = Self { upload, kept, runs };
        let starts = rig.starts.iter().copied();
        let ends = starts.clone().skip(1).chain([rig.upload.len()]);
        for (number, (start, end)) in starts.zip(ends).enumerate() {
            if number % 100 == 37 {
                made.upload[start + 25 + 2 * (number / 100 % 3)] = 0xFF;
                made.runs.extend([start, end - start, 3].map(|n| n as u32));
            } else {
                made.kept.extend(&rig.upload[start..end]);
            }
        }
        made
    }

    fn room(&self) -> (Vec<u8>, Vec<u32>) {
        (vec![0; self.kept.len()], vec![0; self.runs.len()])
    }

    /// What is timed does this, in both modes.
    fn check(&self) {
        for checked in [None, Some(false), Some(true)] {
            let (mut out, mut runs) = self.room();
            let written = c::salvage(checked, &self.upload, &mut out, &mut runs);
            if written != [self.kept.len(), self.runs.len()]
                || (&out, &runs) != (&self.kept, &self.runs)
            {
                wrong("salvage keeps other entries, or drops other runs");
            }
        }
    }

    /// Bytes kept and slots of what is dropped: what both sides can tell.
    fn sum(&self) -> u64 {
        (self.kept.len() + self.runs.len()) as u64
    }
}

/// A walk that goes past what is refused: of the other entries the lengths, and the slots of a run for each.
fn walked(step: impl Fn(&mut usize, &mut Told<{ sys::SYMBOL_SLOTS }>) -> u32) -> u64 {
    let mut told = Told::new();
    let (mut cursor, mut sum) = (0, 0);
    loop {
        match step(&mut cursor, &mut told) {
            sys::DONE => sum += told.slots[sys::SYMBOL_LENGTH],
            sys::FINISHED => return sum,
            _ => sum += sys::RUN_SLOTS as u64,
        }
    }
}

fn salvaged(checked: Option<bool>, upload: &[u8], room: &mut (Vec<u8>, Vec<u32>)) -> u64 {
    let (out, runs) = room;
    let [bytes, slots] = c::salvage(checked, black_box(upload), out, runs);
    black_box((out, runs));
    (bytes + slots) as u64
}

pub fn rows(report: &mut Report, rig: &Rig) {
    let damaged = Damaged::of(rig);
    damaged.check();
    let (upload, sum) = (damaged.upload.as_slice(), damaged.sum());
    report.heading("salvage, one entry in a hundred damaged", "ns an entry");
    let rows = [
        ("salvage (the walk in place of the Rust)", 0, 1),
        (
            "  the same (a copy of the bytes in place of the Rust)",
            0,
            2,
        ),
        (
            "  in the checked mode (the checked walk in place of the Rust)",
            3,
            4,
        ),
    ];
    let (mut room, mut checked_room) = (damaged.room(), damaged.room());
    let mut copy = vec![0; upload.len()];
    let runs = vec![
        plain(move || salvaged(None, upload, &mut room)),
        plain(|| walked(|cursor, told| c::symbol_step(c::SYMBOL_STEP, upload, cursor, told))),
        plain(move || {
            copy.copy_from_slice(black_box(upload));
            black_box(&copy);
            sum
        }),
        plain(move || salvaged(Some(true), upload, &mut checked_room)),
        plain(|| walked(|cursor, told| c::symbol_step_in(true, upload, cursor, told))),
    ];
    let times = race(report.allowed * 2, rows[0].0, runs);
    for (row, ours, theirs) in rows {
        report.row(row, rig.symbols.len(), times[ours], times[theirs]);
    }
}
