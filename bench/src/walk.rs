//! The walk, every entry read: numbers and places alone, and with all text as UTF-8.
use crate::AdsSymbolInfo;
use crate::c::{self, Told};
use crate::clock::{plain, race, wrong};
use crate::report::Report;
use crate::rig::Rig;
use crate::symbol_info::AdsSymbolInfoIterator;
use crate::sys;
use std::hint::black_box;

/// Of each entry: what both sides can tell of it without text. An unread byte, which the Rust does not tell, would show as a
/// difference, since written entries have none.
pub fn ours(upload: &[u8]) -> u64 {
    by_call(c::SYMBOL_STEP, upload)
}

fn by_call<const N: usize>(by: c::SymbolStep<N>, upload: &[u8]) -> u64 {
    stepped(
        |cursor, told| c::symbol_step(by, upload, cursor, told),
        Told::new(),
    )
}

/// The same by the call that takes a mode.
fn in_mode(checked: bool, upload: &[u8]) -> u64 {
    stepped(
        |cursor, told| c::symbol_step_in(checked, upload, cursor, told),
        Told::new(),
    )
}

fn stepped<const N: usize>(
    step: impl Fn(&mut usize, &mut Told<N>) -> u32,
    mut told: Told<N>,
) -> u64 {
    let (mut cursor, mut sum) = (0, 0);
    loop {
        match step(&mut cursor, &mut told) {
            sys::DONE => sum += ours_sum(&told),
            sys::FINISHED => return sum,
            status => wrong(&format!("a step is refused with {status}")),
        }
    }
}

/// Where an earlier archive has no slot for `high`, what comes after that stands a slot before.
fn ours_sum<const N: usize>(told: &Told<N>) -> u64 {
    let after_high = |slot: usize| told.slots[slot + N - sys::SYMBOL_SLOTS];
    told.slots[sys::SYMBOL_INDEX_GROUP]
        + told.slots[sys::SYMBOL_INDEX_OFFSET]
        + told.slots[sys::SYMBOL_SIZE]
        + told.slots[sys::SYMBOL_DATA_TYPE_ID]
        + told.slots[sys::SYMBOL_FLAGS]
        + after_high(sys::SYMBOL_NAME_LEN)
        + after_high(sys::SYMBOL_TYPE_NAME_LEN)
        + (after_high(sys::SYMBOL_COMMENT_LEN) != 0) as u64
        + after_high(sys::SYMBOL_HAS_GUID)
        + told.guid[0] as u64
        + after_high(sys::SYMBOL_ATTRIBUTE_COUNT)
        + after_high(sys::SYMBOL_EXTENDED_FLAGS)
        + after_high(sys::SYMBOL_REFACTOR_COUNT)
        + after_high(sys::SYMBOL_UNREAD)
}

pub fn theirs(upload: &[u8]) -> u64 {
    let mut sum = 0;
    for record in AdsSymbolInfoIterator::new(black_box(upload)) {
        match black_box(&record) {
            Ok(r) => sum += theirs_sum(r),
            Err(e) => wrong(&format!("the Rust's walk: {e}")),
        }
    }
    sum
}

fn theirs_sum(r: &AdsSymbolInfo) -> u64 {
    r.name().len() as u64
        + r.type_name().len() as u64
        + !r.comment().is_empty() as u64
        + r.index_group().as_u32() as u64
        + r.index_offset().as_u32() as u64
        + r.size() as u64
        + u32::from(r.data_type_id()) as u64
        + r.flags().as_raw() as u64
        + r.guid().is_some() as u64
        + r.guid().map_or(0, |g| g.as_bytes()[0]) as u64
        + r.attributes().len() as u64
        + r.extended_flags().map_or(0, |f| f.as_raw()) as u64
        + r.refactor_infos().len() as u64
}

/// The same walk, with every string of every entry decoded into a lent buffer, where the Rust has it as a `String`. The sum is
/// that of the lengths in UTF-8.
fn ours_text(upload: &[u8], out: &mut [u8]) -> u64 {
    let mut told = Told::<{ sys::SYMBOL_SLOTS }>::new();
    let (mut cursor, mut sum) = (0, 0);
    loop {
        let entry = &upload[cursor..];
        match c::symbol_step(c::SYMBOL_STEP, upload, &mut cursor, &mut told) {
            sys::DONE => sum += ours_text_of(entry, &told, out),
            sys::FINISHED => return sum,
            status => wrong(&format!("a step is refused with {status}")),
        }
    }
}

/// The length in UTF-8 of the bytes that two slots tell, which are decoded.
fn decoded(bytes: &[u8], slots: &[u64], [place, len]: [usize; 2], out: &mut [u8]) -> u64 {
    let n = c::TEXT.decode(&bytes[slots[place] as usize..][..slots[len] as usize], out);
    black_box(&out);
    n as u64
}

/// The same of so many attributes from a place on.
pub fn attributes_text(entry: &[u8], first: usize, count: usize, out: &mut [u8]) -> u64 {
    const NAME: [usize; 2] = [sys::ATTRIBUTE_NAME_AT, sys::ATTRIBUTE_NAME_LEN];
    const VALUE: [usize; 2] = [sys::ATTRIBUTE_VALUE_AT, sys::ATTRIBUTE_VALUE_LEN];
    let mut record = Told::<{ sys::ATTRIBUTE_SLOTS }>::new();
    let mut left = &entry[first..];
    let mut sum = 0;
    for _ in 0..count {
        c::attribute_read(left, &mut record);
        sum += decoded(left, &record.slots, NAME, out) + decoded(left, &record.slots, VALUE, out);
        left = &left[record.number(sys::ATTRIBUTE_NEXT_AT)..];
    }
    sum
}

/// The same of an entry's strings.
pub fn strings_text(entry: &[u8], slots: &[u64], strings: [[usize; 2]; 3], out: &mut [u8]) -> u64 {
    let each = strings.iter();
    each.map(|string| decoded(entry, slots, *string, out)).sum()
}

fn ours_text_of(entry: &[u8], told: &Told<{ sys::SYMBOL_SLOTS }>, out: &mut [u8]) -> u64 {
    const STRINGS: [[usize; 2]; 3] = [
        [sys::SYMBOL_NAME_AT, sys::SYMBOL_NAME_LEN],
        [sys::SYMBOL_TYPE_NAME_AT, sys::SYMBOL_TYPE_NAME_LEN],
        [sys::SYMBOL_COMMENT_AT, sys::SYMBOL_COMMENT_LEN],
    ];
    const FORMER: [usize; 2] = [sys::REFACTOR_NAME_AT, sys::REFACTOR_NAME_LEN];
    let attributes = told.number(sys::SYMBOL_ATTRIBUTES_AT);
    let count = told.number(sys::SYMBOL_ATTRIBUTE_COUNT);
    let mut sum = strings_text(entry, &told.slots, STRINGS, out);
    sum += attributes_text(entry, attributes, count, out);
    let mut record = Told::<{ sys::REFACTOR_SLOTS }>::new();
    let mut left = &entry[told.number(sys::SYMBOL_REFACTORS_AT)..];
    for _ in 0..told.slots[sys::SYMBOL_REFACTOR_COUNT] {
        c::refactor_read(left, &mut record);
        sum += decoded(left, &record.slots, FORMER, out);
        left = &left[record.number(sys::REFACTOR_NEXT_AT)..];
    }
    sum
}

fn theirs_text(upload: &[u8]) -> u64 {
    let mut sum = 0;
    for record in AdsSymbolInfoIterator::new(black_box(upload)) {
        let Ok(r) = black_box(&record) else {
            wrong("the Rust's walk refused an entry");
        };
        sum += r.name().len() + r.type_name().len() + r.comment().len();
        for a in r.attributes() {
            sum += a.name().len() + a.value().len();
        }
        for f in r.refactor_infos() {
            sum += f.name().map_or(0, str::len);
        }
    }
    sum as u64
}

/// The checked mode, and the present one by the call that takes a mode, beside the present one by the call that takes none:
/// three contenders of one race.
fn modes(report: &Report, upload: &[u8], entries: usize) {
    let checked = "walk, checked mode (the present mode in place of the Rust)";
    let argument = "  the present mode by the same call (as above)";
    let runs = vec![
        plain(|| ours(upload)),
        plain(|| in_mode(true, upload)),
        plain(|| in_mode(false, upload)),
    ];
    let times = race(report.allowed, checked, runs);
    report.row(checked, entries, times[1], times[0]);
    report.row(argument, entries, times[2], times[0]);
}

/// Plain form, beside the walk: the rig was written, so it is plain, and a pass that finds it so ends in the walk's sum.
fn plain_form(report: &Report, upload: &[u8], entries: usize) {
    let what = "plain form (the walk, text left as bytes, in place of the Rust)";
    let sum = ours(upload);
    let held = || {
        c::plain(black_box(upload));
        sum
    };
    let runs = vec![plain(held), plain(|| ours(upload))];
    let times = race(report.allowed, what, runs);
    report.row(what, entries, times[0], times[1]);
}

pub fn rows(report: &mut Report, rig: &Rig) {
    let (upload, entries) = (rig.upload.as_slice(), rig.symbols.len());
    report.heading("walking", "ns an entry");
    let what = "walk, text left as bytes (the Rust: Strings)";
    let runs = vec![plain(|| ours(upload)), plain(|| theirs(upload))];
    let times = race(report.allowed, what, runs);
    report.goals.walk = report.row(what, entries, times[0], times[1]);
    #[cfg(before)]
    {
        let before = plain(|| by_call(c::before::symbol_step, upload));
        let times = race(report.allowed, what, vec![plain(|| ours(upload)), before]);
        report.before("the same", entries, &times);
    }
    modes(report, upload, entries);
    plain_form(report, upload, entries);
    let what = "walk, all text as UTF-8 on both sides";
    let mut out = vec![0; 4096];
    let runs = vec![
        plain(|| ours_text(upload, &mut out)),
        plain(|| theirs_text(upload)),
    ];
    let times = race(report.allowed, what, runs);
    report.row(what, entries, times[0], times[1]);
    let what = "bounded walk, lengths alone";
    let runs = vec![plain(|| c::walk(black_box(upload)) as u64)];
    let times = race(report.allowed, what, runs);
    report.alone(what, entries, times[0]);
}
