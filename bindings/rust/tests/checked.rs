//! The checked mode: against a model of its own, and beside the present mode, on the rig's sample and at random.

mod common;

use common::ends;
use common::plain::{PlainField, PlainSymbol};
use common::{Random, refusal, rig};
use vindaskot::index::{slots_needed, slots_needed_in};
use vindaskot::{
    AdsAttribute, AdsFieldInfo, AdsFieldInfoIterator, AdsRefactorInfo, AdsSymbolInfo,
    AdsSymbolInfoIterator, Index, Mode, Refusal, RefusalKind, field, find, find_in, symbol, walk,
};

const MODES: [Mode; 2] = [Mode::Present, Mode::Checked];

/// What a mode answers, where the present one gives `present` and an end byte may be wrong.
fn answer<T>(
    mode: Mode,
    present: Result<T, Refusal>,
    wrong: Option<(usize, u8)>,
) -> Result<T, Refusal> {
    match wrong {
        Some((place, byte)) if mode == Mode::Checked => Err(refusal(16, place, usize::from(byte))),
        _ => present,
    }
}

/// The end byte that a reader meets in what a claim at the start of `data` says is an entry.
fn in_entry(
    data: &[u8],
    of: fn(&[u8]) -> Option<(usize, u8)>,
    header: usize,
) -> Option<(usize, u8)> {
    let claim = u32::from_le_bytes(*data.first_chunk()?) as usize;
    let entry = data.get(..claim).filter(|_| claim >= header)?;
    of(entry)
}

/// All that the symbol at the start of `data` can be asked for; whether an end byte of it is wrong.
fn ask_symbol(data: &[u8]) -> bool {
    let wrong = in_entry(data, ends::of_symbol, 30);
    let present = AdsSymbolInfo::try_from_slice(data);
    for mode in MODES {
        let expected = answer(mode, present, wrong);
        assert_eq!(AdsSymbolInfo::try_from_slice_in(data, mode), expected);
        let Ok(info) = present else { continue };
        for number in 0..info.attributes().len() + 2 {
            let expected = answer(mode, info.attribute(number), wrong);
            assert_eq!(info.attribute_in(number, mode), expected);
        }
        for name in info
            .attributes()
            .map(|one| one.name())
            .chain([&b"none"[..]])
        {
            let expected = answer(mode, info.attribute_named(name), wrong);
            assert_eq!(info.attribute_named_in(name, mode), expected);
        }
        for number in 0..info.refactor_infos().len() + 2 {
            let expected = answer(mode, info.refactor_info(number), wrong);
            assert_eq!(info.refactor_info_in(number, mode), expected);
        }
    }
    wrong.is_some()
}

/// The same of a field.
fn ask_field(data: &[u8]) -> bool {
    let wrong = in_entry(data, ends::of_field, 42);
    let present = AdsFieldInfo::try_from_slice(data);
    for mode in MODES {
        let expected = answer(mode, present, wrong);
        assert_eq!(AdsFieldInfo::try_from_slice_in(data, mode), expected);
        let Ok(info) = present else { continue };
        for number in 0..info.attributes().len() + 2 {
            let expected = answer(mode, info.attribute(number), wrong);
            assert_eq!(info.attribute_in(number, mode), expected);
        }
        for name in info
            .attributes()
            .map(|one| one.name())
            .chain([&b"none"[..]])
        {
            let expected = answer(mode, info.attribute_named(name), wrong);
            assert_eq!(info.attribute_named_in(name, mode), expected);
        }
    }
    wrong.is_some()
}

/// The same of records by themselves: how many of the three readings meet a wrong end byte.
fn ask_records(data: &[u8]) -> usize {
    let wrong = [ends::of_attribute, ends::of_refactor, ends::of_chain].map(|of| of(data));
    let chain = AdsRefactorInfo::parse_chain(data).map(|(infos, next)| (infos.len(), next));
    for mode in MODES {
        let expected = answer(mode, AdsAttribute::try_from_slice(data), wrong[0]);
        assert_eq!(AdsAttribute::try_from_slice_in(data, mode), expected);
        let expected = answer(mode, AdsRefactorInfo::try_from_slice(data), wrong[1]);
        assert_eq!(AdsRefactorInfo::try_from_slice_in(data, mode), expected);
        let told = AdsRefactorInfo::parse_chain_in(data, mode);
        let told = told.map(|(infos, next)| (infos.len(), next));
        assert_eq!(told, answer(mode, chain, wrong[2]));
        for number in 0..chain.map_or(1, |(count, _)| count + 2) {
            let expected = answer(mode, AdsRefactorInfo::chain_record(data, number), wrong[2]);
            assert_eq!(
                AdsRefactorInfo::chain_record_in(data, number, mode),
                expected
            );
        }
    }
    wrong.iter().flatten().count()
}

/// Both walks of an upload: the checked one goes where the present one goes, each entry as it is read by itself.
fn walk_both(data: &[u8]) {
    let mut present = AdsSymbolInfoIterator::new(data);
    let mut checked = AdsSymbolInfoIterator::new_in(data, Mode::Checked);
    let mut cursor = 0;
    loop {
        let start = present.position();
        assert_eq!((checked.position(), cursor), (start, start));
        let (item, told) = (present.next(), checked.next());
        let wrong = in_entry(&data[start.min(data.len())..], ends::of_symbol, 30);
        let expected = item.map(|item| answer(Mode::Checked, item, wrong));
        assert_eq!(told, expected);
        let Some(item) = item else { break };
        let mut at_present = cursor;
        let step = symbol::parse_next_entry_in(data, &mut at_present, Mode::Present);
        assert_eq!(step, Some(item));
        assert_eq!(
            symbol::parse_next_entry_in(data, &mut cursor, Mode::Checked),
            told
        );
        assert_eq!(cursor, at_present);
    }
    assert_eq!(present.position(), checked.position());
    let present = AdsSymbolInfoIterator::new_in(data, Mode::Present);
    assert_eq!(present, AdsSymbolInfoIterator::new(data));
}

fn walk_both_fields(data: &[u8]) {
    let mut present = AdsFieldInfoIterator::new(data);
    let mut checked = AdsFieldInfoIterator::new_in(data, Mode::Checked);
    let mut cursor = 0;
    loop {
        let start = present.position();
        assert_eq!((checked.position(), cursor), (start, start));
        let (item, told) = (present.next(), checked.next());
        let wrong = in_entry(&data[start.min(data.len())..], ends::of_field, 42);
        assert_eq!(told, item.map(|item| answer(Mode::Checked, item, wrong)));
        let Some(item) = item else { break };
        let mut at_present = cursor;
        let step = field::parse_next_entry_in(data, &mut at_present, Mode::Present);
        assert_eq!(step, Some(item));
        assert_eq!(
            field::parse_next_entry_in(data, &mut cursor, Mode::Checked),
            told
        );
        assert_eq!(cursor, at_present);
    }
}

/// The place of the name's end byte of the lens, and that byte made a letter: half a name, as a gateway cuts it.
fn cut_lens() -> (Vec<u8>, usize) {
    let mut upload = rig();
    let lens = find(&upload, b"MAIN.stLens").unwrap();
    upload[lens + 30 + b"MAIN.stLens".len()] = b'X';
    (upload, lens)
}

#[test]
fn a_cut_name_is_refused_and_passed_over() {
    let (upload, lens) = cut_lens();
    let why = refusal(16, 30 + b"MAIN.stLens".len(), usize::from(b'X'));
    let read = AdsSymbolInfo::try_from_slice_in(&upload[lens..], Mode::Checked);
    assert_eq!(read, Err(why));
    assert!(why.is(RefusalKind::EndByte));
    assert_eq!(find(&upload, b"MAIN.stLens"), Ok(lens));
    let asked = find_in(&upload, b"MAIN.stLens", Mode::Checked);
    assert_eq!(asked, Err(refusal(13, 0, 0)));
    assert_eq!(slots_needed(&upload), Ok(32));
    assert_eq!(slots_needed_in(&upload, Mode::Checked), Ok(31));
    let items = AdsSymbolInfoIterator::new_in(&upload, Mode::Checked).with_starts();
    let refused: Vec<_> = items.filter(|(_, item)| item.is_err()).collect();
    assert_eq!(refused, [(lens, Err(why))]);
    // The bounded walk looks at lengths alone.
    assert_eq!(walk(&upload, 0, usize::MAX), walk(&rig(), 0, usize::MAX));
}

#[test]
fn the_rig_is_the_same_in_both_modes() {
    let upload = rig();
    let present = AdsSymbolInfoIterator::new(&upload);
    let checked = AdsSymbolInfoIterator::new_in(&upload, Mode::Checked);
    assert!(present.eq(checked));
    walk_both(&upload);
    assert_eq!(Mode::default(), Mode::Present);
}

/// Every byte of the rig made 0, 1 and 255, its lengths too.
#[test]
fn any_byte_of_the_rig_may_be_wrong() {
    let mut upload = rig();
    let starts: Vec<_> = AdsSymbolInfoIterator::new(&rig())
        .with_starts()
        .map(|(start, _)| start)
        .chain([upload.len()])
        .collect();
    let mut refused = 0;
    for pair in starts.windows(2) {
        for place in pair[0]..pair[1] {
            let right = upload[place];
            for byte in [0, 1, 255] {
                upload[place] = byte;
                refused += usize::from(ask_symbol(&upload[pair[0]..pair[1]]));
            }
            upload[place] = right;
        }
    }
    // Three strings of each of 32 symbols, at least.
    assert!(refused >= 2 * 3 * 32, "{refused}");
}

/// Damage that leaves much to be read: bytes set, often one behind the header that was 0 as end bytes are, and an end cut
/// off.
fn damage(r: &mut Random, entry: &mut Vec<u8>, header: usize) {
    let zeros: Vec<_> = (header..entry.len()).filter(|at| entry[*at] == 0).collect();
    for _ in 0..r.below(3) {
        let any = r.below(entry.len());
        let at = if zeros.is_empty() || r.below(4) == 0 {
            any
        } else {
            zeros[r.below(zeros.len())]
        };
        entry[at] = [1, 128, 255, r.next() as u8][r.below(4)];
    }
    if r.below(3) == 0 {
        entry.truncate(entry.len() - r.below(20));
        let length = entry.len() as u32;
        entry[..4].copy_from_slice(&length.to_le_bytes());
    }
}

#[test]
fn symbols_and_fields_at_random() {
    let mut r = Random(21);
    let (mut symbols, mut fields, mut records) = (0, 0, 0);
    for _ in 0..20_000 {
        let mut entry = PlainSymbol::random(&mut r).bytes();
        damage(&mut r, &mut entry, 30);
        symbols += usize::from(ask_symbol(&entry));
        let mut entry = PlainField::random(&mut r).bytes();
        damage(&mut r, &mut entry, 42);
        fields += usize::from(ask_field(&entry));
        let symbol = PlainSymbol::random(&mut r);
        for mut block in [symbol.common.attribute_bytes(), symbol.chain_bytes()] {
            if !block.is_empty() {
                let at = r.below(block.len());
                block[at] = r.next() as u8;
            }
            records += ask_records(&block);
        }
    }
    let met = [symbols, fields, records];
    assert!(met.iter().all(|met| *met > 2000), "{met:?}");
}

/// Sub-items and methods of a field, arrays and a copy mask are skipped, whatever stands there.
#[test]
fn what_a_field_skips_is_not_looked_at() {
    let mut r = Random(22);
    let mut accepted = 0;
    for _ in 0..2000 {
        let field = PlainField::random(&mut r);
        let mut entry = field.bytes();
        let [name, type_name, comment] = [
            &field.common.name,
            &field.common.type_name,
            &field.common.comment,
        ];
        let after = 45 + name.len() + type_name.len() + comment.len();
        let mut item = PlainField::default().bytes();
        item[42] = 1;
        entry.splice(after..after, [&[7; 8][..], &item, &item].concat());
        entry[38] = 1;
        entry[40] = 2;
        let length = entry.len() as u32;
        entry[..4].copy_from_slice(&length.to_le_bytes());
        assert!(!ask_field(&entry));
        assert!(AdsFieldInfo::try_from_slice_in(&item, Mode::Checked).is_err());
        let read = AdsFieldInfo::try_from_slice_in(&entry, Mode::Checked);
        accepted += usize::from(read.is_ok());
    }
    assert_eq!(accepted, 2000);
}

/// Entries of few names, in several cases, some of them with a wrong end byte, one or two refused otherwise.
fn upload(r: &mut Random, names: &[&[u8]]) -> Vec<u8> {
    let mut upload = Vec::new();
    for _ in 0..r.below(10) {
        let mut symbol = PlainSymbol::random(r);
        symbol.common.name = names[r.below(names.len())].to_vec();
        let mut entry = symbol.bytes();
        if r.coin() {
            damage(r, &mut entry, 30);
        }
        upload.extend(entry);
    }
    upload
}

/// The starts and names of the symbols that a mode accepts.
fn accepted(upload: &[u8], mode: Mode) -> Vec<(usize, &[u8])> {
    let items = AdsSymbolInfoIterator::new_in(upload, mode).with_starts();
    items
        .filter_map(|(start, item)| Some((start, item.ok()?.name())))
        .collect()
}

#[test]
fn index_and_finding_take_what_the_mode_accepts() {
    let names: [&[u8]; 4] = [b"Rig.stLens", b"RIG.STLENS", b"rig.fZoom", b""];
    let mut r = Random(23);
    let mut passed = 0;
    for _ in 0..3000 {
        let upload = upload(&mut r, &names);
        walk_both(&upload);
        walk_both_fields(&upload);
        let mut slots = [[0; 16]; 2];
        let [first, second] = &mut slots;
        let Ok(present) = Index::build(&upload, first) else {
            // Damage to a length may make it zero, in both modes.
            let why = Index::build_in(&upload, second, Mode::Checked);
            assert_eq!(why, Err(refusal(10, 1, 0)));
            continue;
        };
        let checked = Index::build_in(&upload, second, Mode::Checked).unwrap();
        for (mode, index) in [(Mode::Present, present), (Mode::Checked, checked)] {
            let all = accepted(&upload, mode);
            let starts: Vec<_> = all.iter().map(|(start, _)| *start as u32).collect();
            assert_eq!(index.starts(), starts);
            assert_eq!(slots_needed_in(&upload, mode), Ok(starts.len()));
            for name in names {
                let mut of_name = all.iter().filter(|(_, own)| own.eq_ignore_ascii_case(name));
                let expected = of_name.next().map(|(start, _)| *start);
                let expected = expected.ok_or(refusal(13, 0, 0));
                assert_eq!(find_in(&upload, name, mode), expected);
                assert_eq!(index.find_in(&upload, name, mode), expected);
                // An index of the present mode has all starts of the checked one.
                assert_eq!(present.find_in(&upload, name, mode), expected);
                passed += usize::from(expected != find(&upload, name));
            }
        }
    }
    assert!(passed > 500, "{passed}");
}

#[test]
fn too_few_slots_are_refused_in_both_modes_without_a_change() {
    let (upload, _) = cut_lens();
    let mut slots = [7; 30];
    for (mode, needed) in [(Mode::Present, 32), (Mode::Checked, 31)] {
        let why = Index::build_in(&upload, &mut slots, mode);
        assert_eq!(why, Err(refusal(6, needed, 30)));
    }
    assert_eq!(slots, [7; 30]);
}

/// Our writers end every string with 0.
#[test]
fn what_is_written_is_read_in_both_modes() {
    let mut r = Random(24);
    for _ in 0..500 {
        let symbol = PlainSymbol::random(&mut r);
        let bytes = symbol.write();
        let info = AdsSymbolInfo::try_from_slice_in(&bytes, Mode::Checked).unwrap();
        symbol.assert_told_by(&info, 0);
        let field = PlainField::random(&mut r);
        let bytes = field.write();
        field.assert_told_by(&AdsFieldInfo::try_from_slice_in(&bytes, Mode::Checked).unwrap());
    }
}

/// In a chain the place counts from the first byte given, and the record that is met first decides.
#[test]
fn a_chain_by_itself() {
    let mut chain = b"\x01\0\0\x01\x01\0a\0\x01\0\0\x01\x01\0b\0\x01\0\0\0\x01\0c\0".to_vec();
    chain[15] = 200;
    let why = refusal(16, 15, 200);
    let read = |chain: &[u8]| {
        let told = AdsRefactorInfo::parse_chain_in(chain, Mode::Checked);
        told.map(|(infos, next)| (infos.len(), next))
    };
    assert_eq!(read(&chain), Err(why));
    assert_eq!(read(&chain[..20]), Err(why), "the third is short");
    assert_eq!(read(&chain[..15]), Err(refusal(2, 8, 7)), "the second is");
    for number in [0, 1, 2, 3] {
        let record = AdsRefactorInfo::chain_record_in(&chain, number, Mode::Checked);
        assert_eq!(record, Err(why));
    }
    chain[15] = 0;
    assert_eq!(read(&chain), Ok((3, 24)));
}
