//! Name indexes, finding by halving and branches, against Rust's own sort and a plain filter.

mod common;

use common::plain::PlainSymbol;
use common::{Random, refusal, rig, types};
use vindaskot::{
    AdsSymbolInfo, AdsSymbolInfoIterator, DataType, DataTypeIterator, LIMIT, Mode, NameIndex,
    Named, Refusal, branch_of, room,
};

const MODES: [Mode; 2] = [Mode::Present, Mode::Checked];

/// Names that are one in several cases, that begin with one another, and that differ in a mark as letters differ in case.
const NAMES: [&[u8]; 12] = [
    b"MAIN.stLens",
    b"main.STLENS",
    b"MAIN.stLens.fZoom",
    b"Main.stLens.fIris",
    b"MAIN.stLen",
    b"MAIN.stLent",
    b"MAIN.stLens@",
    b"MAIN.stLens`",
    b"MAIN.st\xC4",
    b"MAIN.st\xE4",
    b"",
    b"GVL.a",
];

/// The starts of the accepted entries with their folded names, in the order of the upload.
fn accepted(upload: &[u8], mode: Mode) -> Vec<(usize, Vec<u8>)> {
    let items = AdsSymbolInfoIterator::new_in(upload, mode).with_starts();
    items
        .filter_map(|(start, item)| Some((start, item.ok()?.name().to_ascii_lowercase())))
        .collect()
}

fn accepted_types(upload: &[u8], mode: Mode) -> Vec<(usize, Vec<u8>)> {
    let items = DataTypeIterator::new_in(upload, mode).with_starts();
    items
        .filter_map(|(start, item)| Some((start, item.ok()?.name().to_ascii_lowercase())))
        .collect()
}

fn starts_of(entries: &[(usize, Vec<u8>)]) -> Vec<u32> {
    entries.iter().map(|(start, _)| *start as u32).collect()
}

/// Those of some starts at which an entry starts whose name begins with a text.
fn plain_branch(entries: &[(usize, Vec<u8>)], starts: &[u32], text: &[u8]) -> Vec<u32> {
    let text = text.to_ascii_lowercase();
    let begins = |start: u32| {
        let found = entries.iter().find(|(own, _)| *own as u32 == start);
        found.is_some_and(|(_, name)| name.starts_with(&text))
    };
    starts.iter().copied().filter(|s| begins(*s)).collect()
}

/// Holds a name index to the entries that a walk accepts.
fn hold<E: Named>(upload: &[u8], mode: Mode, accepted: Vec<(usize, Vec<u8>)>, names: &[&[u8]]) {
    let mut ordered = accepted.clone();
    ordered.sort_by(|(x, a), (y, b)| a.cmp(b).then(x.cmp(y)));
    let count = ordered.len();
    let mut slots = vec![u32::MAX; count + 2];
    let index = NameIndex::<E>::build(upload, mode, &mut slots).unwrap();
    assert_eq!(index.starts(), starts_of(&ordered));
    assert_eq!((index.len(), index.is_empty()), (count, count == 0));
    assert!(
        index
            .iter()
            .map(|start| start as u32)
            .eq(starts_of(&ordered))
    );
    for name in names {
        let folded = name.to_ascii_lowercase();
        let first = accepted.iter().find(|(_, own)| *own == folded);
        let expected = first.map(|(start, _)| *start).ok_or(refusal(13, 0, 0));
        assert_eq!(index.find(name), expected);
        for text in [name, &name[..name.len() / 2]] {
            let expected = plain_branch(&accepted, index.starts(), text);
            assert_eq!(index.branch_len(text), Ok(expected.len()));
            #[cfg(feature = "alloc")]
            assert_eq!(index.branch_to_vec(text).unwrap(), expected);
            let mut out = vec![0xA5A5_A5A5; expected.len() + 1];
            assert_eq!(index.branch(text, &mut out).unwrap(), expected);
            assert_eq!(out[expected.len()], 0xA5A5_A5A5);
            if let Some(fewer) = expected.len().checked_sub(1) {
                let mut out = vec![7; fewer];
                let refused: Result<&[u32], Refusal> = Err(refusal(6, fewer + 1, fewer));
                assert_eq!(index.branch(text, &mut out), refused);
                assert_eq!(out, vec![7; fewer]);
            }
            // The other way round, one of them twice, and one that starts nothing.
            let mut other: Vec<_> = index.starts().iter().rev().copied().collect();
            other.extend(index.starts().first());
            other.push(u32::MAX);
            let expected = plain_branch(&accepted, &other, text);
            let mut out = vec![0; expected.len()];
            let found = branch_of::<E>(upload, mode, &other, text, &mut out);
            assert_eq!(found.unwrap(), expected);
        }
    }
    if let Some(fewer) = count.checked_sub(1) {
        let mut slots = vec![7; fewer];
        let refused = NameIndex::<E>::build(upload, mode, &mut slots);
        assert_eq!(refused.err(), Some(refusal(6, count, fewer)));
        assert_eq!(slots, vec![7; fewer]);
    }
}

#[test]
fn a_name_index_equals_a_sort() {
    let mut r = Random(47);
    for _ in 0..400 {
        let mut upload = Vec::new();
        for _ in 0..r.below(14) {
            let mut symbol = PlainSymbol::random(&mut r);
            symbol.common.name = NAMES[r.below(NAMES.len())].to_vec();
            let mut bytes = symbol.bytes();
            match r.below(6) {
                0 => bytes[25] = 0xFF,
                1 => bytes[30 + symbol.common.name.len()] = 1,
                _ => {}
            }
            upload.extend(bytes);
        }
        for mode in MODES {
            hold::<AdsSymbolInfo>(&upload, mode, accepted(&upload, mode), &NAMES);
        }
    }
}

#[test]
fn the_samples_have_name_indexes() {
    let (rig, types) = (rig(), types());
    for mode in MODES {
        let symbols = accepted(&rig, mode);
        let names: Vec<_> = symbols.iter().map(|(_, name)| &name[..]).collect();
        hold::<AdsSymbolInfo>(&rig, mode, symbols.clone(), &names);
        let entries = accepted_types(&types, mode);
        let names: Vec<_> = entries.iter().map(|(_, name)| &name[..]).collect();
        hold::<DataType>(&types, mode, entries.clone(), &names);
    }
}

#[test]
fn uploads_are_refused_by_5_and_10() {
    let mut zero = rig();
    zero.extend([0; 4]);
    let above = vec![0xFF; LIMIT + 1];
    for mode in MODES {
        let mut slots = vec![7; room(zero.len()).unwrap()];
        let before = slots.clone();
        let built = NameIndex::<AdsSymbolInfo>::build(&zero, mode, &mut slots);
        assert_eq!(built.err(), Some(refusal(10, 1, 0)));
        assert_eq!(slots, before);
        let built = NameIndex::<AdsSymbolInfo>::build(&above, mode, &mut slots);
        assert_eq!(built.err(), Some(refusal(5, LIMIT, LIMIT + 1)));
        let index = NameIndex::<AdsSymbolInfo>::over(&above, mode, &before);
        assert_eq!(index.find(b""), Err(refusal(5, LIMIT, LIMIT + 1)));
        assert_eq!(index.branch_len(b""), Err(refusal(5, LIMIT, LIMIT + 1)));
    }
}

/// Ten thousand names of one kind that is chosen against a sort: they stand in order, the other way round, or are one name.
#[test]
fn names_that_are_chosen_against_a_sort_take_no_longer() {
    let number = |at: usize| format!("MAIN.aAxes[{at:05}].fPosition");
    let ways: [fn(usize) -> usize; 3] = [|at| at, |at| 9_999 - at, |_| 0];
    for way in ways {
        let mut upload = Vec::new();
        for at in 0..10_000 {
            let mut symbol = PlainSymbol::random(&mut Random(1));
            symbol.common.name = number(way(at)).into_bytes();
            upload.extend(symbol.bytes());
        }
        let entries = accepted(&upload, Mode::Present);
        let mut slots = vec![0; entries.len()];
        let index = NameIndex::<AdsSymbolInfo>::build(&upload, Mode::Present, &mut slots).unwrap();
        let mut ordered = entries;
        ordered.sort_by(|(x, a), (y, b)| a.cmp(b).then(x.cmp(y)));
        assert_eq!(index.starts(), starts_of(&ordered));
        assert_eq!(index.find(number(0).as_bytes()), Ok(ordered[0].0));
    }
}
