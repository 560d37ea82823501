//! An index that holds its upload, over lent slots and over its own.

mod common;

use common::{refusal, rig, types};
use vindaskot::text::Text;
use vindaskot::{
    AdsSymbolInfo, AdsSymbolInfoIterator, DataType, DataTypeIterator, HeldIndex, Index, Mode,
    NameIndex, SymbolIndex, TypeIndex,
};

#[test]
fn what_is_found_is_the_symbol() {
    let upload = rig();
    let index = SymbolIndex::new(upload.clone()).unwrap();
    for symbol in AdsSymbolInfoIterator::new(&upload) {
        let symbol = symbol.unwrap();
        assert_eq!(index.find(symbol.name()).unwrap(), symbol);
        assert_eq!(
            index.find(symbol.name().to_ascii_uppercase()).unwrap(),
            symbol
        );
    }
    assert_eq!(index.find("MAIN.stLen"), Err(refusal(13, 0, 0)));
    let end = index.find("main.stlens").unwrap();
    let end = end.attribute_named("ZoomCurveEnd").unwrap();
    assert_eq!(Text(end.value()).to_string(), "0.9375");
}

#[test]
fn all_are_given_in_the_order_of_their_names() {
    let upload = rig();
    let index = SymbolIndex::new(&upload).unwrap();
    let names: Vec<_> = index.iter().map(|symbol| symbol.name()).collect();
    assert_eq!(index.len(), AdsSymbolInfoIterator::new(&upload).count());
    assert_eq!(index.iter().len(), index.len());
    assert!(names.is_sorted_by_key(|name| name.to_ascii_lowercase()));
    let back: Vec<_> = index.iter().rev().map(|symbol| symbol.name()).collect();
    assert!(names.iter().rev().eq(&back));
    assert_eq!((&index).into_iter().count(), names.len());
    let again: Vec<_> = index.clone().iter().map(|symbol| symbol.size()).collect();
    assert_eq!(again.len(), names.len());
}

#[test]
fn a_branch_is_given_as_symbols() {
    let upload = rig();
    let index = SymbolIndex::new(&upload).unwrap();
    let mut room = vec![0; index.len()];
    let names: Vec<_> = (index.branch("main.STpedestal", &mut room).unwrap())
        .map(|symbol| symbol.name().to_vec())
        .collect();
    let wanted = index.iter().map(|symbol| symbol.name().to_vec());
    let wanted: Vec<_> = wanted
        .filter(|name| name.to_ascii_lowercase().starts_with(b"main.stpedestal"))
        .collect();
    assert!(!wanted.is_empty());
    assert_eq!(names, wanted);
    let few = index.branch("", &mut []).unwrap_err();
    assert_eq!(few, refusal(6, index.len(), 0));
}

#[test]
fn starts_may_be_lent() {
    let upload = rig();
    let own = SymbolIndex::new(&upload).unwrap();
    let mut slots = vec![0; own.len() + 3];
    let lent = HeldIndex::<AdsSymbolInfo, _, _>::build(&upload[..], Mode::Present, &mut slots[..])
        .unwrap();
    assert_eq!(lent.starts(), own.starts());
    assert_eq!(lent.data(), &upload[..]);
    assert!(lent.iter().eq(own.iter()));
    assert_eq!(lent.name_index().len(), own.len());
    let short = HeldIndex::<AdsSymbolInfo, _, _>::build(&upload[..], Mode::Present, [0; 2]);
    assert_eq!(short.unwrap_err(), refusal(6, own.len(), 2));
}

#[test]
fn types_are_found_too() {
    let upload = types();
    let index = TypeIndex::new(&upload).unwrap();
    for entry in DataTypeIterator::new(&upload) {
        let entry = entry.unwrap();
        assert_eq!(index.find(entry.name()).unwrap(), entry);
    }
    assert_eq!(index.find("ST_Nowhere"), Err(refusal(13, 0, 0)));
    let first: Option<DataType> = index.iter().next();
    assert!(first.is_some());
}

#[test]
fn an_empty_upload_and_one_that_stops() {
    let empty = SymbolIndex::new(Vec::new()).unwrap();
    assert!(empty.is_empty() && empty.iter().next().is_none());
    assert_eq!(empty.find(""), Err(refusal(13, 0, 0)));
    assert_eq!(SymbolIndex::new([0; 4]).unwrap_err(), refusal(10, 1, 0));
}

#[test]
fn in_the_checked_mode_a_cut_name_is_not_there() {
    let mut upload = rig();
    let lens = SymbolIndex::new(&upload).unwrap();
    let start = lens.name_index().find("MAIN.stLens").unwrap();
    upload[start + 41] = b'x';
    let all = SymbolIndex::new(&upload).unwrap();
    let checked = SymbolIndex::new_in(&upload, Mode::Checked).unwrap();
    assert_eq!(all.len(), checked.len() + 1);
    assert!(all.find("MAIN.stLens").is_ok());
    assert_eq!(checked.find("MAIN.stLens"), Err(refusal(13, 0, 0)));
}

#[test]
fn the_indexes_over_slots_are_gone_through() {
    let upload = rig();
    let mut slots = vec![0; 99];
    let index = Index::build(&upload, &mut slots).unwrap();
    let starts: Vec<usize> = index.into_iter().collect();
    assert_eq!((starts.len(), index.is_empty()), (index.len(), false));
    assert!(index.iter().rev().eq(starts.iter().rev().copied()));
    let mut slots = vec![0; 99];
    let named = NameIndex::<AdsSymbolInfo>::build(&upload, Mode::Present, &mut slots).unwrap();
    let mut by_name: Vec<usize> = (&named).into_iter().collect();
    assert_eq!(named.iter().len(), starts.len());
    by_name.sort_unstable();
    assert_eq!(by_name, starts);
}
