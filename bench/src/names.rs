//! The name index: built, searched by halving, and asked for a branch.
use crate::c;
use crate::clock::{plain, race};
use crate::dice::Dice;
use crate::find::{collect, collecting_names, index};
use crate::report::Report;
use crate::rig::Rig;
use std::collections::HashMap;
use std::hint::black_box;

fn built(upload: &[u8], slots: &mut [u32]) -> u64 {
    let n = c::name_index_build(black_box(upload), slots);
    slots[..n].iter().map(|at| *at as u64).sum()
}

/// Every name once, in an order that is not the upload's.
fn asked(seed: u64, rig: &Rig) -> Vec<&str> {
    let names = rig.symbols.iter();
    let mut names: Vec<_> = names
        .map(|s| std::str::from_utf8(&s.name).unwrap())
        .collect();
    Dice::new(seed).shuffle(&mut names);
    names
}

fn building(report: &Report, rig: &Rig, slots: &mut [u32]) {
    let upload = rig.upload.as_slice();
    let what = "name index (the Rust: folded names in a Vec, sort_by)";
    let runs = vec![plain(|| built(upload, slots)), collecting_names(upload)];
    let times = race(report.allowed, what, runs);
    report.row(what, rig.symbols.len(), times[0], times[1]);
}

fn finding(report: &Report, seed: u64, rig: &Rig, slots: &[u32]) {
    let upload = rig.upload.as_slice();
    let names = asked(seed, rig);
    let kept = collect(upload);
    let map: HashMap<Vec<u8>, usize> = kept
        .iter()
        .map(|(at, r)| (r.name().as_bytes().to_ascii_lowercase(), *at))
        .collect();
    let mut plain_slots = vec![0; rig.symbols.len()];
    index(upload, &mut plain_slots);
    let sum = |find: &dyn Fn(&str) -> usize| -> u64 {
        names.iter().map(|name| find(black_box(name)) as u64).sum()
    };
    let what = "  find each name by halving (the Rust: a HashMap of folded names)";
    let runs = vec![
        plain(|| sum(&|name| c::find_ordered(upload, slots, name.as_bytes()))),
        plain(|| sum(&|name| map[&name.as_bytes().to_ascii_lowercase()])),
    ];
    let times = race(report.allowed, what, runs);
    report.row(what, names.len(), times[0], times[1]);
    let what = "  the same (the index of before in place of the Rust)";
    let few = &names[..names.len().min(300)];
    let sum = |find: &dyn Fn(&str) -> usize| -> u64 {
        few.iter().map(|name| find(black_box(name)) as u64).sum()
    };
    let runs = vec![
        plain(|| sum(&|name| c::find_ordered(upload, slots, name.as_bytes()))),
        plain(|| {
            sum(&|name| c::find_indexed(c::FIND_INDEXED, upload, &plain_slots, name.as_bytes()))
        }),
    ];
    let times = race(report.allowed, what, runs);
    report.row(what, few.len(), times[0], times[1]);
}

/// Index, order and every name, as a channel change asks for them.
fn together(report: &Report, seed: u64, rig: &Rig, slots: &mut [u32]) {
    let upload = rig.upload.as_slice();
    let names = asked(seed, rig);
    let what = "  name index and each name, an upload (the Rust: the map, made)";
    let runs = vec![
        plain(|| {
            let n = c::name_index_build(black_box(upload), slots);
            let find = |name: &&str| c::find_ordered(upload, &slots[..n], name.as_bytes()) as u64;
            names.iter().map(find).sum()
        }),
        plain(|| {
            let kept = collect(upload);
            let map: HashMap<Vec<u8>, usize> = kept
                .iter()
                .map(|(at, r)| (r.name().as_bytes().to_ascii_lowercase(), *at))
                .collect();
            let find = |name: &&str| map[&name.as_bytes().to_ascii_lowercase()] as u64;
            names.iter().map(find).sum()
        }),
    ];
    let times = race(report.allowed, what, runs);
    report.row(what, 1, times[0], times[1]);
}

pub fn rows(report: &mut Report, seed: u64, what: &str, rig: &Rig) {
    report.heading(what, "ns an entry, ns a find, ns an upload");
    let mut slots = vec![0; rig.symbols.len()];
    building(report, rig, &mut slots);
    finding(report, seed, rig, &slots);
    together(report, seed, rig, &mut slots);
}
