//! Name indexes of the largest uploads, with names that are chosen against a sort: alike, long alike at their fronts, in order,
//! in the reverse order, up and down again. Each is built within a time that leaves room for a slow machine and none for a
//! number of comparisons that grows with the square of the entries.

use std::time::{Duration, Instant};
use vindaskot::{AdsSymbolInfo, LIMIT, Mode, NameIndex, room};

/// A hundred times what building takes; comparing each entry with each takes minutes.
const MOST: Duration = Duration::from_secs(20);

/// An entry that has a name and nothing else: its length stands at 0, the name's at 24, the name at 30, and three end bytes.
fn entry(name: &[u8]) -> Vec<u8> {
    let mut entry = vec![0; 33 + name.len()];
    let length = entry.len() as u32;
    entry[..4].copy_from_slice(&length.to_le_bytes());
    entry[24..26].copy_from_slice(&(name.len() as u16).to_le_bytes());
    entry[30..30 + name.len()].copy_from_slice(name);
    entry
}

/// As many entries of names of so many bytes as there is room for.
fn most(length: usize) -> usize {
    LIMIT / (33 + length)
}

/// A name of a number: digits behind a front.
fn numbered(front: &[u8], number: usize) -> Vec<u8> {
    [front, format!("{number:06}").as_bytes()].concat()
}

/// Builds the index of an upload of these names, holds it to Rust's own sort, and asks for the branch of all of them.
fn hold(what: &str, names: Vec<Vec<u8>>) {
    let mut upload = Vec::new();
    let mut ordered = Vec::new();
    for name in &names {
        ordered.push((name.to_ascii_lowercase(), upload.len() as u32));
        upload.extend(entry(name));
    }
    ordered.sort();
    let mut slots = vec![0; room(upload.len()).unwrap()];
    let begun = Instant::now();
    let index = NameIndex::<AdsSymbolInfo>::build(&upload, Mode::Present, &mut slots).unwrap();
    let taken = begun.elapsed();
    assert!(
        taken < MOST,
        "{what}: {} entries took {taken:?}",
        names.len()
    );
    assert!(index.starts().iter().eq(ordered.iter().map(|(_, at)| at)));
    let begun = Instant::now();
    for (name, _) in [
        &ordered[0],
        &ordered[ordered.len() / 2],
        &ordered[ordered.len() - 1],
    ] {
        let first = ordered.iter().find(|(own, _)| own == name).unwrap().1;
        assert_eq!(index.find(name), Ok(first as usize));
    }
    assert_eq!(index.branch_len(b""), Ok(names.len()));
    assert!(begun.elapsed() < MOST, "{what}: finding");
}

/// The numbers from 0 on in the orders that have misled sorts.
fn orders(count: usize) -> [(&'static str, Vec<usize>); 5] {
    let half = count / 2;
    [
        ("in order", (0..count).collect()),
        ("reversed", (0..count).rev().collect()),
        (
            "up and down",
            (0..half).chain((0..count - half).rev()).collect(),
        ),
        (
            "down and up",
            (0..half).rev().chain(0..count - half).collect(),
        ),
        ("few", (0..count).map(|number| number % 3).collect()),
    ]
}

#[test]
fn names_that_are_all_alike() {
    hold("no names", vec![Vec::new(); most(0)]);
    hold("one long name", vec![vec![b'a'; 1000]; most(1000)]);
    let cases = (0..most(1000)).map(|i| vec![[b'a', b'A'][i % 2]; 1000]);
    hold("one long name in two cases", cases.collect());
}

#[test]
fn short_names_in_orders_against_a_sort() {
    for (what, numbers) in orders(most(6)) {
        hold(
            what,
            numbers
                .iter()
                .map(|number| numbered(b"", *number))
                .collect(),
        );
    }
}

#[test]
fn long_names_that_begin_alike() {
    let front = [b'x'; 1000];
    for (what, numbers) in orders(most(1006)) {
        hold(
            what,
            numbers
                .iter()
                .map(|number| numbered(&front, *number))
                .collect(),
        );
    }
}

/// Each name begins with all that are before it, so no two differ before the shorter ends.
#[test]
fn names_that_begin_with_one_another() {
    let count = 5_700;
    for (what, numbers) in orders(count) {
        hold(
            what,
            numbers.iter().map(|number| vec![b'y'; *number]).collect(),
        );
    }
}
