//! The index, and finding every name.
use crate::AdsSymbolInfo;
use crate::c;
use crate::clock::{Contender, Pass, Times, plain, race, wrong};
use crate::dice::Dice;
use crate::report::Report;
use crate::rig::Rig;
use crate::symbol_info::utils::parse_next_entry;
use std::collections::HashMap;
use std::hint::black_box;

/// Names asked in a pass.
const PART: usize = 60;

/// The rows of finding, and which of `Ways::runs` each compares.
const ROWS: [(&str, usize, Option<usize>); 6] = [
    (
        "find each name (the Rust: the Vec from its start)",
        0,
        Some(1),
    ),
    ("  the same (the Rust: a HashMap, made before)", 0, Some(2)),
    (
        "  in capitals (the Rust: the Vec, eq_ignore_ascii_case)",
        3,
        Some(4),
    ),
    ("  without an index", 5, None),
    ("  the first row (BEFORE in place of the Rust)", 0, Some(6)),
    (
        "  without an index (BEFORE in place of the Rust)",
        5,
        Some(7),
    ),
];

/// What a Rust user keeps of an upload to find in it later. The iterator does not tell where an entry starts, so this is its own
/// step.
pub type Kept = Vec<(usize, AdsSymbolInfo)>;

pub fn collect(upload: &[u8]) -> Kept {
    let mut kept = Vec::new();
    let mut cursor = 0;
    loop {
        let start = cursor;
        match parse_next_entry(black_box(upload), &mut cursor) {
            Some(Ok(record)) => kept.push((start, record)),
            None => return kept,
            Some(Err(e)) => wrong(&format!("the Rust's walk: {e}")),
        }
    }
}

pub fn index(upload: &[u8], slots: &mut [u32]) -> u64 {
    let n = c::index_build(black_box(upload), slots);
    slots[..n].iter().map(|at| *at as u64).sum()
}

/// The collected records are handed out, so that freeing them is not timed.
pub fn collecting<'a>(upload: &'a [u8]) -> Contender<'a> {
    Box::new(move || {
        let kept = collect(upload);
        Pass::leaving(kept.iter().map(|(at, _)| *at as u64).sum(), kept)
    })
}

/// The starts in the order of the folded names, as a Rust user has them: the records, their names folded once, and a sort.
pub fn collecting_names<'a>(upload: &'a [u8]) -> Contender<'a> {
    Box::new(move || {
        let kept = collect(upload);
        let fold =
            |(at, record): &(usize, AdsSymbolInfo)| (record.name().to_ascii_lowercase(), *at);
        let mut keys: Vec<_> = kept.iter().map(fold).collect();
        keys.sort_by(|a, b| a.0.cmp(&b.0).then(a.1.cmp(&b.1)));
        Pass::leaving(keys.iter().map(|(_, at)| *at as u64).sum(), (kept, keys))
    })
}

/// Where the first record of a name starts, with nothing kept: the Rust's own step, up to that record.
pub fn stepped(upload: &[u8], name: &str) -> usize {
    let mut cursor = 0;
    loop {
        let start = cursor;
        match parse_next_entry(black_box(upload), &mut cursor) {
            Some(Ok(record)) if record.name() == name => return start,
            Some(Ok(_)) => {}
            _ => wrong("the Rust's walk finds no such name"),
        }
    }
}

pub fn linear(kept: &Kept, name: &str) -> usize {
    start_of(kept, |own| own == name)
}

/// The same in any case of A to Z, which the Rust leaves to its caller.
fn in_any_case(kept: &Kept, name: &str) -> usize {
    start_of(kept, |own| own.eq_ignore_ascii_case(name))
}

fn start_of(kept: &Kept, is: impl Fn(&str) -> bool) -> usize {
    match kept.iter().find(|(_, r)| is(r.name())) {
        Some((at, _)) => *at,
        None => wrong("the Rust finds no such name"),
    }
}

/// A name of the rig as the upload has it, and as an operator types it.
struct Asked<'a> {
    name: &'a str,
    typed: String,
}

/// Every name of the rig, once, in an order that is not the upload's.
fn asked(seed: u64, rig: &Rig) -> Vec<Asked<'_>> {
    let names = rig
        .symbols
        .iter()
        .map(|s| std::str::from_utf8(&s.name).unwrap());
    let mut names: Vec<Asked> = names
        .map(|name| Asked {
            name,
            typed: name.to_ascii_uppercase(),
        })
        .collect();
    Dice::new(seed).shuffle(&mut names);
    names
}

fn sum_of<'a>(names: &'a [Asked<'a>], find: impl Fn(&'a Asked<'a>) -> usize) -> u64 {
    names.iter().map(|name| find(black_box(name)) as u64).sum()
}

/// Everything that is kept of an upload to find names in it.
struct Ways<'a> {
    upload: &'a [u8],
    slots: &'a [u32],
    kept: &'a Kept,
    map: HashMap<&'a str, usize>,
}

impl Ways<'_> {
    fn indexed<'a>(
        &'a self,
        by: c::FindIndexed,
        names: &'a [Asked<'a>],
        typed: bool,
    ) -> Contender<'a> {
        plain(move || {
            sum_of(names, |n| {
                let asked = if typed { &n.typed } else { n.name };
                c::find_indexed(by, self.upload, self.slots, asked.as_bytes())
            })
        })
    }

    fn walked<'a>(&'a self, by: c::Find, names: &'a [Asked<'a>]) -> Contender<'a> {
        plain(move || sum_of(names, |n| c::find(by, self.upload, n.name.as_bytes())))
    }

    /// Each way to find some names, in the order of the rows; the last are an earlier archive's, where one is linked.
    fn runs<'a>(&'a self, names: &'a [Asked<'a>]) -> Vec<Contender<'a>> {
        let kept = self.kept;
        vec![
            self.indexed(c::FIND_INDEXED, names, false),
            plain(move || sum_of(names, |n| linear(kept, n.name))),
            plain(move || sum_of(names, |n| self.map[n.name])),
            self.indexed(c::FIND_INDEXED, names, true),
            plain(move || sum_of(names, |n| in_any_case(kept, &n.typed))),
            self.walked(c::FIND, names),
            #[cfg(before)]
            self.indexed(c::before::find_indexed, names, false),
            #[cfg(before)]
            self.walked(c::before::find, names),
        ]
    }
}

fn indexing(report: &Report, rig: &Rig, slots: &mut [u32]) -> [f64; 2] {
    let upload = rig.upload.as_slice();
    let what = "index (the Rust: records in a Vec)";
    let runs = vec![plain(|| index(upload, slots)), collecting(upload)];
    let times = race(report.allowed, what, runs);
    report.row(what, rig.symbols.len(), times[0], times[1]);
    [times[0].least, times[1].least]
}

/// An index into fresh slots, as many as are told. They are handed out, so that freeing them is not timed.
fn into_fresh<'a>(upload: &'a [u8], slots: impl Fn(&[u8]) -> usize + 'a) -> Contender<'a> {
    Box::new(move || {
        let mut slots = vec![0; slots(black_box(upload))];
        Pass::leaving(index(upload, &mut slots), slots)
    })
}

/// A race apart: what the Rust's records leave of the caches would count against the first of the two alone.
fn setting_aside(report: &Report, rig: &Rig) {
    let upload = rig.upload.as_slice();
    let what = "  into its room (a refused call first in place of the Rust)";
    let runs = vec![
        into_fresh(upload, |upload| c::room(upload.len())),
        into_fresh(upload, c::index_needs),
    ];
    let times = race(report.allowed, what, runs);
    report.row(what, rig.symbols.len(), times[0], times[1]);
}

/// All names by all ways. A pass asks a part of them only, so that it is over before another program takes the core.
fn finding(report: &Report, seed: u64, rig: &Rig, slots: &[u32]) -> Vec<Times> {
    let upload = rig.upload.as_slice();
    let kept = &collect(upload);
    let map = kept.iter().map(|(at, r)| (r.name(), *at)).collect();
    let ways = Ways {
        upload,
        slots,
        kept,
        map,
    };
    let names = asked(seed, rig);
    let parts = names.chunks(PART);
    let allowed = report.allowed * 8 / parts.len() as u32;
    let mut all = vec![Times::default(); ways.runs(&[]).len()];
    for part in parts {
        for (sum, times) in all
            .iter_mut()
            .zip(race(allowed, "find each name", ways.runs(part)))
        {
            sum.least += times.least;
            sum.median += times.median;
        }
    }
    all
}

pub fn rows(report: &mut Report, seed: u64, what: &str, rig: &Rig) {
    report.heading(what, "ns an entry, ns a find");
    let mut slots = vec![0; rig.symbols.len()];
    let indexed = indexing(report, rig, &mut slots);
    setting_aside(report, rig);
    let times = finding(report, seed, rig, &slots);
    let finds = rig.symbols.len();
    for (row, ours, theirs) in ROWS {
        match theirs.map(|n| times.get(n)) {
            None => report.alone(row, finds, times[ours]),
            Some(Some(theirs)) => {
                report.row(row, finds, times[ours], *theirs);
            }
            Some(None) => {}
        }
    }
    let (ours, theirs) = (indexed[0] + times[0].least, indexed[1] + times[1].least);
    report.goals.index_and_finds.push((what.into(), ours));
    report.say(&format!(
        "index and {finds} finds together: {ours:.3} s, the Rust {theirs:.3} s"
    ));
}
