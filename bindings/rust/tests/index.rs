//! The index and finding, against a plain search over the walk.

mod common;

use common::plain::PlainSymbol;
use common::{Random, refusal, rig};
use vindaskot::index::{slots_needed, slots_needed_in};
use vindaskot::{AdsSymbolInfo, AdsSymbolInfoIterator, Index, LIMIT, Mode, ROOM_MOST, Refusal};
use vindaskot::{WalkEnd, find, room, walk};

const MODES: [Mode; 2] = [Mode::Present, Mode::Checked];

/// The starts and names of the accepted symbols.
fn accepted(upload: &[u8]) -> Vec<(usize, &[u8])> {
    let items = AdsSymbolInfoIterator::new(upload).with_starts();
    items
        .filter_map(|(start, item)| Some((start, item.ok()?.name())))
        .collect()
}

/// The first of them that has a name. Rust's own comparison is the rule: A to Z equal a to z, and no other byte is
/// changed.
fn first<'a>(
    accepted: impl IntoIterator<Item = (usize, &'a [u8])>,
    name: &[u8],
) -> Result<usize, Refusal> {
    let mut accepted = accepted.into_iter();
    let found = accepted.find(|(_, own)| own.eq_ignore_ascii_case(name));
    found.map(|(start, _)| start).ok_or(refusal(13, 0, 0))
}

/// Names that are one name in several cases, or nearly so: an accent or a mark differs as the cases of a letter do.
/// Some are longer than the blocks in which names are compared.
fn names() -> Vec<Vec<u8>> {
    let marks: [&[u8]; 6] = [b"\xC4", b"\xE4", b"@", b"`", b"[", b"{"];
    let mut names = Vec::new();
    for tail in [&b""[..], b".stLens.fZoom[12]"] {
        for mark in marks {
            let name = [&b"Rig"[..], mark, tail].concat();
            names.extend([name.to_ascii_uppercase(), name.to_ascii_lowercase(), name]);
        }
    }
    names
}

/// Symbols whose names are often the same, some of them refused.
fn upload(r: &mut Random, names: &[Vec<u8>]) -> Vec<u8> {
    let mut upload = Vec::new();
    for _ in 0..r.below(12) {
        let mut symbol = PlainSymbol::random(r);
        symbol.common.name = names[r.below(names.len())].clone();
        let mut bytes = symbol.bytes();
        if r.below(4) == 0 {
            bytes[25] = 0xFF;
        }
        upload.extend(bytes);
    }
    upload
}

#[test]
fn finding_equals_a_plain_search() {
    let mut r = Random(9);
    let names = names();
    for _ in 0..500 {
        let upload = upload(&mut r, &names);
        let mut slots = [u32::MAX; 16];
        let index = Index::build(&upload, &mut slots).unwrap();
        let accepted = accepted(&upload);
        let starts: Vec<_> = accepted.iter().map(|(s, _)| *s as u32).collect();
        assert_eq!(index.starts(), starts);
        let backwards: Vec<_> = starts.iter().rev().copied().collect();
        for name in &names {
            let expected = first(accepted.iter().copied(), name);
            assert_eq!(index.find(&upload, name), expected);
            assert_eq!(find(&upload, name), expected);
            let expected = first(accepted.iter().rev().copied(), name);
            assert_eq!(Index::over(&backwards).find(&upload, name), expected);
        }
        let used = starts.len();
        assert!(slots[used..].iter().all(|slot| *slot == u32::MAX));
    }
}

#[test]
fn every_symbol_of_the_rig_is_found_where_it_starts() {
    let upload = rig();
    let mut slots = vec![0; slots_needed(&upload).unwrap()];
    let index = Index::build(&upload, &mut slots).unwrap();
    assert_eq!(index.starts().len(), 32);
    for (start, name) in accepted(&upload) {
        assert_eq!(index.find(&upload, name), Ok(start));
        assert_eq!(find(&upload, name), Ok(start));
        let info = AdsSymbolInfo::try_from_slice(&upload[start..]).unwrap();
        assert_eq!(info.name(), name);
    }
    assert_eq!(find(&upload, b"MAIN.stLen"), Err(refusal(13, 0, 0)));
}

/// What `find` answers, and that an index over the whole upload answers the same.
fn alike(upload: &[u8], name: &[u8]) -> Result<usize, Refusal> {
    let mut slots = [0; 40];
    let index = Index::build(upload, &mut slots).unwrap();
    let found = find(upload, name);
    assert_eq!(index.find(upload, name), found);
    found
}

#[test]
fn the_rig_is_found_in_any_case_and_shown_as_sent() {
    let upload = rig();
    for (start, name) in accepted(&upload) {
        for asked in [name.to_ascii_uppercase(), name.to_ascii_lowercase()] {
            assert_eq!(alike(&upload, &asked), Ok(start));
        }
    }
    let start = alike(&upload, b"MAIN.STLENS").unwrap();
    let info = AdsSymbolInfo::try_from_slice(&upload[start..]).unwrap();
    assert_eq!(info.name(), b"MAIN.stLens");
    let end = info.attribute_named(b"ZoomCurveEnd").unwrap();
    assert_eq!(end.value(), b"0.9375");
    assert_eq!(
        info.attribute_named(b"ZOOMCURVEEND"),
        Err(refusal(13, 0, 0))
    );
}

#[test]
fn of_names_that_differ_in_case_alone_the_first_is_found() {
    let names: [&[u8]; 3] = [b"Main.stLens", b"MAIN.STLENS", b"main.stlens"];
    let entries = names.map(|name| PlainSymbol::named(name).bytes());
    let length = entries[0].len();
    let upload = entries.concat();
    let backwards = [2, 1, 0].map(|number| (number * length) as u32);
    for name in names {
        assert_eq!(alike(&upload, name), Ok(0));
        let index = Index::over(&backwards);
        assert_eq!(index.find(&upload, name), Ok(2 * length));
    }
}

/// Every pair of bytes, alone and at the end of a name of 17.
#[test]
fn a_byte_that_is_no_letter_equals_only_itself() {
    for before in [&b""[..], b"MAIN.stJib.fTilt"] {
        for own in 0..=255 {
            let name = [before, &[own]].concat();
            let upload = PlainSymbol::named(&name).bytes();
            for asked in 0..=255_u8 {
                let name = [&before.to_ascii_uppercase()[..], &[asked]].concat();
                let expected = if asked.eq_ignore_ascii_case(&own) {
                    Ok(0)
                } else {
                    Err(refusal(13, 0, 0))
                };
                assert_eq!(alike(&upload, &name), expected, "{own:02X} {asked:02X}");
            }
        }
    }
}

#[test]
fn too_few_slots_are_refused_without_a_change() {
    let upload = rig();
    let mut slots = [7; 31];
    assert_eq!(Index::build(&upload, &mut slots), Err(refusal(6, 32, 31)));
    assert_eq!(slots, [7; 31]);
    assert_eq!(slots_needed(&[]), Ok(0));
}

#[test]
fn a_zero_claim_stops_building_and_finding() {
    let first = PlainSymbol::named(b"first").bytes();
    let after = PlainSymbol::named(b"after").bytes();
    let upload = [&first[..], &[0; 4], &after].concat();
    let mut slots = [7; 4];
    assert_eq!(Index::build(&upload, &mut slots), Err(refusal(10, 1, 0)));
    assert_eq!(slots, [7; 4]);
    assert_eq!(slots_needed(&upload), Err(refusal(10, 1, 0)));
    let after = first.len() + 4;
    let starts = [0, after as u32];
    let index = Index::over(&starts);
    for name in [b"first", b"FIRST"] {
        assert_eq!(find(&upload, name), Ok(0));
        assert_eq!(index.find(&upload, name), Ok(0));
    }
    for name in [b"after", b"AFTER"] {
        assert_eq!(find(&upload, name), Err(refusal(10, 1, 0)));
        assert_eq!(index.find(&upload, name), Ok(after));
    }
}

#[test]
fn slots_that_start_no_symbol_are_passed_over() {
    let upload = rig();
    let last = find(&upload, b"MAIN.nState").unwrap();
    let starts = [
        u32::MAX,
        1,
        upload.len() as u32,
        last as u32,
        last as u32 + 1,
    ];
    let index = Index::over(&starts);
    assert_eq!(index.find(&upload, b"MAIN.nState"), Ok(last));
    assert_eq!(index.find(&upload, b"MAIN.stLens"), Err(refusal(13, 0, 0)));
}

/// Byte by byte, an entry more with every 33rd: nothing is divided.
#[test]
fn the_room_of_a_length_is_an_entry_for_every_33_bytes() {
    let (mut entries, mut behind) = (0, 0);
    for length in 0..=LIMIT {
        assert_eq!(room(length), Ok(entries), "{length}");
        behind += 1;
        if behind == 33 {
            (entries, behind) = (entries + 1, 0);
        }
    }
    assert_eq!(entries, ROOM_MOST);
}

#[test]
fn a_length_above_the_limit_has_no_room() {
    let powers = (25..64).map(|bit| 1_usize << bit);
    let near = powers.flat_map(|power| power - 40..=power + 40);
    let cut = (32..64).flat_map(|bit| [33, 1_400_000, LIMIT].map(|low| (1 << bit) + low));
    let above = (LIMIT + 1..LIMIT + 40).chain(near).chain(cut);
    for length in above.chain(usize::MAX - 40..=usize::MAX) {
        assert_eq!(room(length), Err(refusal(5, LIMIT, length)), "{length}");
    }
}

/// Entries of 33 bytes, the least that is accepted, and behind them bytes of one kind.
fn full(entries: usize, behind: usize, of: u8) -> Vec<u8> {
    let mut entry = [0; 33];
    entry[0] = 33;
    let mut upload = entry.repeat(entries);
    upload.resize(33 * entries + behind, of);
    upload
}

/// What an index of so many slots has.
fn starts_in(upload: &[u8], slots: usize, mode: Mode) -> Result<Vec<u32>, Refusal> {
    let mut slots = vec![u32::MAX; slots];
    Index::build_in(upload, &mut slots, mode).map(|index| index.starts().to_vec())
}

/// Bytes of FF are refused once, and the index needs all of its room: one slot less is refused, without a change.
#[test]
fn entries_of_33_bytes_need_all_of_their_room() {
    for entries in 0..100 {
        for behind in 0..33 {
            let upload = full(entries, behind, 0xFF);
            assert_eq!(room(upload.len()), Ok(entries));
            let starts: Vec<_> = (0..entries as u32).map(|number| 33 * number).collect();
            for mode in MODES {
                assert_eq!(starts_in(&upload, entries, mode).as_ref(), Ok(&starts));
                assert_eq!(slots_needed_in(&upload, mode), Ok(entries));
                let Some(fewer) = entries.checked_sub(1) else {
                    continue;
                };
                let mut slots = vec![7; fewer];
                let short = Index::build_in(&upload, &mut slots, mode);
                assert_eq!(short, Err(refusal(6, entries, fewer)));
                assert!(slots.iter().all(|slot| *slot == 7));
            }
            let walked = walk(&upload, 0, upload.len());
            let steps = entries + usize::from(behind > 0);
            assert_eq!((walked.end, walked.steps), (WalkEnd::Finished, steps));
        }
    }
}

/// Entries of which some are refused, in both modes or in the checked one alone, or longer than 33 bytes, and often bytes
/// behind the last: too few for an entry, or a claim of zero.
fn narrow(r: &mut Random) -> Vec<u8> {
    let mut upload = Vec::new();
    for _ in 0..r.below(30) {
        let mut entry = full(1, 0, 0);
        match r.below(12) {
            0 => entry.truncate(4 + r.below(29)),
            1 => entry[30 + r.below(3)] = 0xFF,
            2 => entry.resize(34 + r.below(9), 1),
            _ => {}
        }
        entry[0] = entry.len() as u8;
        upload.extend(entry);
    }
    match r.below(4) {
        0 => upload.extend(&[0xFF; 32][..r.below(33)]),
        1 => upload.extend(&[0; 40][..r.below(41)]),
        _ => {}
    }
    upload
}

/// An index that is lent its upload's room is what it is with more slots, and a walk has a step for each byte.
fn hold_room(upload: &[u8], mode: Mode) -> Result<usize, Refusal> {
    let slots = room(upload.len()).unwrap();
    let starts = starts_in(upload, slots, mode);
    assert_eq!(starts, starts_in(upload, slots + 9, mode));
    let walked = walk(upload, 0, upload.len());
    assert_ne!(walked.end, WalkEnd::OutOfSteps);
    starts.map(|starts| slots - starts.len())
}

#[test]
fn an_index_that_is_lent_its_room_is_never_refused_for_too_few_slots() {
    let mut r = Random(206);
    let names = names();
    let (mut full, mut spare, mut stopped) = (0, 0, 0);
    for _ in 0..2000 {
        for upload in [narrow(&mut r), upload(&mut r, &names)] {
            for mode in MODES {
                match hold_room(&upload, mode) {
                    Ok(0) => full += 1,
                    Ok(_) => spare += 1,
                    Err(why) => {
                        assert_eq!(why, refusal(10, 1, 0));
                        stopped += 1;
                    }
                }
            }
        }
    }
    assert!(full > 500 && spare > 500 && stopped > 500);
}

#[test]
fn the_largest_upload_needs_the_most_room() {
    let behind = LIMIT - 33 * ROOM_MOST;
    let mut slots = vec![0; ROOM_MOST];
    let right = |starts: &[u32]| {
        starts
            .iter()
            .copied()
            .eq((0..LIMIT as u32 - 32).step_by(33))
    };
    for mode in MODES {
        let upload = full(ROOM_MOST, behind, 0xFF);
        let index = Index::build_in(&upload, &mut slots, mode).unwrap();
        assert!(right(index.starts()), "{mode:?}");
        let fewer = Index::build_in(&upload, &mut slots[1..], mode);
        assert_eq!(fewer, Err(refusal(6, ROOM_MOST, ROOM_MOST - 1)));
        let upload = full(ROOM_MOST, behind, 0);
        let zero = Index::build_in(&upload, &mut slots, mode);
        assert_eq!(zero, Err(refusal(10, 1, 0)));
        let upload = full(ROOM_MOST, behind + 1, 0xFF);
        let above = Index::build_in(&upload, &mut slots, mode);
        assert_eq!(above, Err(refusal(5, LIMIT, LIMIT + 1)));
    }
}
