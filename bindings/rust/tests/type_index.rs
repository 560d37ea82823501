//! Finding data types by name, without an index and through one, against a plain search over the walk.

mod common;

use common::plain::PlainField;
use common::{Random, refusal, types};
use vindaskot::type_index::type_slots_needed;
use vindaskot::{DataTypeIndex, DataTypeIterator, LIMIT, Mode, find_data_type};

const MODES: [Mode; 2] = [Mode::Present, Mode::Checked];

/// Names that are one in several cases, that begin with one another, and that differ in a mark as letters differ in case.
const NAMES: [&[u8]; 8] = [
    b"ST_Lens",
    b"st_lens",
    b"ST_LENS",
    b"ST_Len",
    b"ST_Lens@",
    b"ST_Lens`",
    b"ST_\xC4",
    b"",
];

/// The starts of the accepted data types with their names, in the order of the upload.
fn accepted(upload: &[u8], mode: Mode) -> Vec<(usize, &[u8])> {
    let items = DataTypeIterator::new_in(upload, mode).with_starts();
    items
        .filter_map(|(start, item)| Some((start, item.ok()?.name())))
        .collect()
}

/// Holds both ways of finding to the entries that a walk accepts.
fn hold(upload: &[u8], names: &[&[u8]]) {
    for mode in MODES {
        let accepted = accepted(upload, mode);
        let mut slots = vec![u32::MAX; accepted.len() + 1];
        let index = DataTypeIndex::build(upload, &mut slots, mode).unwrap();
        let starts: Vec<_> = accepted.iter().map(|(start, _)| *start as u32).collect();
        assert_eq!(index.starts(), starts);
        assert_eq!(type_slots_needed(upload, mode), Ok(starts.len()));
        #[cfg(feature = "alloc")]
        assert_eq!(
            vindaskot::type_index::type_starts_to_vec(upload, mode).unwrap(),
            starts
        );
        let backwards: Vec<_> = starts.iter().rev().copied().collect();
        for name in names {
            let has = |(_, own): &&(usize, &[u8])| own.eq_ignore_ascii_case(name);
            let told = |found: Option<&(usize, &[u8])>| {
                found.map(|(start, _)| *start).ok_or(refusal(13, 0, 0))
            };
            let first = told(accepted.iter().find(has));
            assert_eq!(find_data_type(upload, name, mode), first);
            assert_eq!(index.find(upload, name, mode), first);
            let last = told(accepted.iter().rev().find(has));
            let found = DataTypeIndex::over(&backwards).find(upload, name, mode);
            assert_eq!(found, last);
        }
        assert_eq!(slots[starts.len()], u32::MAX);
    }
}

#[test]
fn finding_equals_a_plain_search() {
    let mut r = Random(61);
    for _ in 0..400 {
        let mut upload = Vec::new();
        for _ in 0..r.below(12) {
            let mut field = PlainField::random(&mut r);
            field.common.name = NAMES[r.below(NAMES.len())].to_vec();
            let mut bytes = field.bytes();
            match r.below(6) {
                0 => bytes[33] = 0xFF,
                1 => bytes[42 + field.common.name.len()] = 1,
                _ => {}
            }
            upload.extend(bytes);
        }
        hold(&upload, &NAMES);
    }
}

#[test]
fn every_data_type_of_the_sample_is_found() {
    let upload = types();
    let own: Vec<_> = accepted(&upload, Mode::Present);
    let names: Vec<_> = own.iter().map(|(_, name)| *name).collect();
    let capitals: Vec<_> = names.iter().map(|name| name.to_ascii_uppercase()).collect();
    assert!(!names.is_empty());
    hold(&upload, &names);
    hold(
        &upload,
        &capitals.iter().map(|name| &name[..]).collect::<Vec<_>>(),
    );
    hold(&upload, &[b"ST_LensTabl", b"sSerial"]);
}

#[test]
fn a_zero_claim_refuses_what_is_not_found_before_it() {
    let mut upload = types();
    let (start, name) = accepted(&upload, Mode::Present)[0];
    let name = name.to_vec();
    upload.extend([0; 4]);
    for mode in MODES {
        assert_eq!(find_data_type(&upload, &name, mode), Ok(start));
        let found = find_data_type(&upload, b"no such type", mode);
        assert_eq!(found, Err(refusal(10, 1, 0)));
        let mut slots = [7; 200];
        let built = DataTypeIndex::build(&upload, &mut slots, mode);
        assert_eq!(built, Err(refusal(10, 1, 0)));
        assert_eq!(slots, [7; 200]);
        let starts = [start as u32];
        let found = DataTypeIndex::over(&starts).find(&upload, b"no such type", mode);
        assert_eq!(found, Err(refusal(13, 0, 0)));
    }
}

#[test]
fn an_upload_above_the_limit_is_refused_by_5() {
    let above = vec![0xFF; LIMIT + 1];
    for mode in MODES {
        let refused = refusal(5, LIMIT, LIMIT + 1);
        assert_eq!(find_data_type(&above, b"", mode), Err(refused));
        assert_eq!(
            DataTypeIndex::over(&[0]).find(&above, b"", mode),
            Err(refused)
        );
        assert_eq!(DataTypeIndex::build(&above, &mut [0], mode), Err(refused));
    }
}

#[test]
fn too_few_slots_are_refused_by_6_and_left_as_they_were() {
    let upload = types();
    for mode in MODES {
        let needed = type_slots_needed(&upload, mode).unwrap();
        let mut slots = vec![7; needed - 1];
        let built = DataTypeIndex::build(&upload, &mut slots, mode);
        assert_eq!(built, Err(refusal(6, needed, needed - 1)));
        assert!(slots.iter().all(|slot| *slot == 7));
    }
}
