//! The same work on uploads of 1, 4 and 16 MB: the time an entry takes stays, where the work grows as the upload does.
use crate::c;
use crate::clock::{Contender, plain, race};
use crate::find::{collect, collecting, index, linear, stepped};
use crate::report::Report;
use crate::rig::Rig;
use crate::verify;
use crate::walk;
use std::hint::black_box;

const SIZES: [usize; 3] = [1 << 20, 4 << 20, 16 << 20];

struct Line {
    what: &'static str,
    /// Nanoseconds.
    byte: f64,
    /// Time over that of the bare loop.
    over_bare: f64,
}

/// What the memory itself costs: from length to length, each known only when the one before it is there.
fn bare(upload: &[u8]) -> u64 {
    let (mut at, mut steps) = (0, 0);
    while at < upload.len() {
        at += u32::from_le_bytes(upload[at..at + 4].try_into().unwrap()) as usize;
        steps += 1;
    }
    steps
}

/// Vindaskot takes turns with the bare loop, whose own result is another. The Rust runs apart: its records would push the upload
/// out of the cache, and that is no growth of Vindaskot's work.
fn timed<'a>(
    report: &Report,
    what: &'static str,
    rig: &'a Rig,
    mut ours: Contender<'a>,
    theirs: Contender,
) -> Line {
    let (upload, entries) = (rig.upload.as_slice(), rig.symbols.len());
    let sum = ours().sum;
    let floor = plain(move || {
        black_box(bare(black_box(upload)));
        sum
    });
    let times = race(report.allowed / 2, what, vec![ours, floor]);
    let theirs = race(report.allowed / 2, what, vec![theirs])[0];
    let label = format!("{what}, {} bytes, {entries} symbols", upload.len());
    report.row(&label, entries, times[0], theirs);
    Line {
        what,
        byte: times[0].least * 1e9 / upload.len() as f64,
        over_bare: times[0].least / times[1].least,
    }
}

fn walking(report: &Report, rig: &Rig) -> [Line; 2] {
    let upload = rig.upload.as_slice();
    let ours = plain(|| c::walk(black_box(upload)) as u64);
    let theirs = plain(|| bare(black_box(upload)));
    let lengths = timed(report, "bounded walk (a bare loop)", rig, ours, theirs);
    let ours = plain(|| walk::ours(upload));
    let theirs = plain(|| walk::theirs(upload));
    [lengths, timed(report, "walk", rig, ours, theirs)]
}

fn finding(report: &Report, rig: &Rig) -> [Line; 3] {
    let upload = rig.upload.as_slice();
    let mut room = vec![0; rig.symbols.len()];
    index(upload, &mut room);
    let slots = room.clone();
    let ours = plain(move || index(upload, &mut room));
    let indexed = timed(report, "index", rig, ours, collecting(upload));
    let kept = collect(upload);
    let last = &rig.symbols[rig.symbols.len() - 1].name;
    let name = std::str::from_utf8(last).unwrap();
    let ours = plain(|| c::find_indexed(c::FIND_INDEXED, upload, &slots, black_box(last)) as u64);
    let theirs = plain(|| linear(&kept, black_box(name)) as u64);
    let found = timed(report, "find the last, index", rig, ours, theirs);
    let ours = plain(|| c::find(c::FIND, upload, black_box(last)) as u64);
    let theirs = plain(|| stepped(upload, black_box(name)) as u64);
    let sought = timed(report, "find the last, no index", rig, ours, theirs);
    [indexed, found, sought]
}

/// The figures of three sizes, one after another.
fn listed(lines: [&Line; 3], digits: usize, figure: impl Fn(&Line) -> f64) -> String {
    lines.map(|l| format!("{:.digits$}", figure(l))).join(", ")
}

pub fn rows(report: &mut Report, seed: u64) {
    report.heading("growth", "ns an entry");
    let mut sizes: Vec<Vec<Line>> = Vec::new();
    for size in SIZES {
        let rig = Rig::new(seed, usize::MAX, size);
        verify::check(&rig);
        let mut lines = Vec::from(walking(report, &rig));
        lines.extend(finding(report, &rig));
        sizes.push(lines);
    }
    for ((one, four), sixteen) in sizes[0].iter().zip(&sizes[1]).zip(&sizes[2]) {
        let what = one.what;
        let bytes = listed([one, four, sixteen], 3, |l| l.byte);
        let over = listed([one, four, sixteen], 2, |l| l.over_bare);
        report.say(&format!(
            "{what:<27}{bytes} ns a byte; {over} times a bare loop"
        ));
        let factor = sixteen.over_bare / four.over_bare;
        report.goals.growth.push((what.into(), factor));
    }
}
