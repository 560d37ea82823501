//! The iterators and the bounded walk: on the rig's sample, on random uploads, cut anywhere, and at a zero claim.

mod common;

use common::plain::{PlainField, PlainSymbol};
use common::{Random, refusal, rig};
use vindaskot::{
    AdsFieldInfo, AdsFieldInfoIterator, AdsSymbolInfo, AdsSymbolInfoIterator, Refusal, WalkEnd,
    Walked, field, symbol, walk,
};

/// Where the entries of an upload start, by their claims alone, and its end.
fn bounds(upload: &[u8]) -> Vec<usize> {
    let mut bounds = vec![0];
    while let Some(claim) = upload[bounds[bounds.len() - 1]..].first_chunk() {
        bounds.push(bounds[bounds.len() - 1] + u32::from_le_bytes(*claim) as usize);
    }
    bounds
}

/// The refusal of an upload of fit entries that is cut to `cut` bytes, in the entry from `start` on.
fn cut_refusal(upload: &[u8], start: usize, cut: usize) -> Refusal {
    if cut - start < 4 {
        return refusal(2, start + 4, cut);
    }
    let claim = upload[start..].first_chunk().unwrap();
    refusal(3, u32::from_le_bytes(*claim) as usize, cut - start)
}

#[test]
fn the_rig_iterated_equals_the_rig_stepped() {
    let upload = rig();
    let bounds = bounds(&upload);
    let mut cursor = 0;
    let mut iterator = AdsSymbolInfoIterator::new(&upload);
    for pair in bounds.windows(2) {
        assert_eq!((iterator.position(), cursor), (pair[0], pair[0]));
        let item = iterator.next();
        assert_eq!(item, symbol::parse_next_entry(&upload, &mut cursor));
        let info = item.unwrap().unwrap();
        assert_eq!(info.as_bytes(), &upload[pair[0]..pair[1]]);
        assert_eq!(AdsSymbolInfo::try_from_slice(&upload[pair[0]..]), Ok(info));
        assert_eq!(info.unread(), 0);
    }
    assert_eq!(bounds.len(), 33);
    assert_eq!(iterator.next(), None);
    assert_eq!(symbol::parse_next_entry(&upload, &mut cursor), None);
    assert_eq!(iterator.position(), upload.len());
}

#[test]
fn the_rig_names_its_axes_and_its_lens() {
    let upload = rig();
    let symbols: Vec<_> = AdsSymbolInfoIterator::new(&upload)
        .map(Result::unwrap)
        .collect();
    assert_eq!(symbols[0].name(), b"MAIN.stPedestal");
    assert_eq!(symbols[0].comment(), b"S\xE4ule");
    let lens = symbols.iter().find(|s| s.name() == b"MAIN.stLens").unwrap();
    assert_eq!((lens.type_name(), lens.size()), (&b"ST_BoxLens"[..], 848));
    assert!(lens.guid().is_some());
    let attributes: Vec<_> = lens.attributes().map(|a| (a.name(), a.value())).collect();
    let expected: [(&[u8], &[u8]); 3] = [
        (b"ZoomCurveStart", b"0.0625"),
        (b"ZoomCurveEnd", b"0.9375"),
        (b"LensTable", b"27x6.5"),
    ];
    assert_eq!(attributes, expected);
    let former: Vec<_> = lens.refactor_infos().map(|info| info.name()).collect();
    assert_eq!(former, [Some(&b"stOptic"[..])]);
}

#[test]
fn the_rig_tells_high_as_it_was_sent() {
    let upload = rig();
    let symbols = AdsSymbolInfoIterator::new(&upload).map(Result::unwrap);
    let sent = symbols.filter(|s| s.high() != 0);
    let sent: Vec<_> = sent.map(|s| (s.name(), s.high())).collect();
    let expected: [(&[u8], u16); 4] = [
        (b"MAIN.stJib.nCounterweight", 0x00FF),
        (b"MAIN.stJib.bTrackLock", 0x8000),
        (b"MAIN.stLens", 0x0102),
        (b"MAIN.stLens.sSerial", 0x1008),
    ];
    assert_eq!(sent, expected);
}

#[test]
fn starts_are_those_of_the_claims() {
    let mut upload = rig();
    let bounds = bounds(&upload);
    // The second entry's name length no longer fits: refused, and passed over by its claim.
    upload[bounds[1] + 25] = 0xFF;
    let items: Vec<_> = AdsSymbolInfoIterator::new(&upload).with_starts().collect();
    let starts: Vec<_> = items.iter().map(|(start, _)| *start).collect();
    assert_eq!(starts, bounds[..bounds.len() - 1]);
    let refused: Vec<_> = items.iter().filter(|(_, item)| item.is_err()).collect();
    assert_eq!(refused.len(), 1);
    assert_eq!(refused[0].0, bounds[1]);
}

#[test]
fn starts_of_fields_are_those_of_the_claims() {
    let mut r = Random(13);
    let plain: Vec<_> = (0..12).map(|_| PlainField::random(&mut r)).collect();
    let mut upload: Vec<u8> = plain.iter().flat_map(PlainField::write).collect();
    let bounds = bounds(&upload);
    upload[bounds[1] + 33] = 0xFF;
    let items: Vec<_> = AdsFieldInfoIterator::new(&upload).with_starts().collect();
    let starts: Vec<_> = items.iter().map(|(start, _)| *start).collect();
    assert_eq!(starts, bounds[..bounds.len() - 1]);
    for (i, (start, item)) in items.iter().enumerate() {
        let read = AdsFieldInfo::try_from_slice(&upload[*start..]);
        assert_eq!(item, &read);
        assert_eq!(item.is_err(), i == 1);
    }
}

#[test]
fn a_cut_upload_of_symbols_gives_the_entries_before_then_one_refusal() {
    let mut r = Random(3);
    let plain: Vec<_> = (0..12).map(|_| PlainSymbol::random(&mut r)).collect();
    let upload: Vec<u8> = plain.iter().flat_map(PlainSymbol::write).collect();
    let bounds = bounds(&upload);
    for cut in 0..=upload.len() {
        let whole = bounds.iter().filter(|bound| **bound <= cut).count() - 1;
        let mut items = AdsSymbolInfoIterator::new(&upload[..cut]);
        for symbol in &plain[..whole] {
            symbol.assert_told_by(&items.next().unwrap().unwrap(), 0);
        }
        let start = bounds[whole];
        let last = (start < cut).then(|| Err(cut_refusal(&upload, start, cut)));
        assert_eq!([items.next(), items.next()], [last, None], "cut to {cut}");
        assert_eq!(items.position(), cut);
    }
}

#[test]
fn a_cut_upload_of_fields_gives_the_entries_before_then_one_refusal() {
    let mut r = Random(4);
    let plain: Vec<_> = (0..12).map(|_| PlainField::random(&mut r)).collect();
    let upload: Vec<u8> = plain.iter().flat_map(PlainField::write).collect();
    let bounds = bounds(&upload);
    for cut in 0..=upload.len() {
        let whole = bounds.iter().filter(|bound| **bound <= cut).count() - 1;
        let mut items = AdsFieldInfoIterator::new(&upload[..cut]);
        let mut cursor = 0;
        for field in &plain[..whole] {
            let item = items.next();
            assert_eq!(item, field::parse_next_entry(&upload[..cut], &mut cursor));
            field.assert_told_by(&item.unwrap().unwrap());
        }
        let start = bounds[whole];
        let last = (start < cut).then(|| Err(cut_refusal(&upload, start, cut)));
        assert_eq!([items.next(), items.next()], [last, None], "cut to {cut}");
        assert_eq!(items.position(), cut);
    }
}

#[test]
fn a_zero_claim_is_refused_once_and_ends_the_iterator() {
    let before = PlainSymbol::named(b"before").bytes();
    let after = PlainSymbol::named(b"after").bytes();
    let upload = [&before[..], &[0; 4], &after].concat();
    let mut items = AdsSymbolInfoIterator::new(&upload);
    assert_eq!(items.next().unwrap().unwrap().name(), b"before");
    assert_eq!(items.next(), Some(Err(refusal(2, 30, 0))));
    assert_eq!([items.next(), items.next()], [None, None]);
    assert_eq!(items.position(), before.len());

    let mut fields = AdsFieldInfoIterator::new(&[0; 60]).with_starts();
    assert_eq!(fields.next(), Some((0, Err(refusal(2, 42, 0)))));
    assert_eq!([fields.next(), fields.next()], [None, None]);
}

#[test]
fn the_bounded_walk_counts_the_steps() {
    let upload = rig();
    let bounds = bounds(&upload);
    let last = bounds.len() - 1;
    for allowed in 0..=last + 2 {
        let steps = allowed.min(last);
        let end = if steps == last {
            WalkEnd::Finished
        } else {
            WalkEnd::OutOfSteps
        };
        let cursor = bounds[steps];
        assert_eq!(walk(&upload, 0, allowed), Walked { end, steps, cursor });
    }
    let rest = walk(&upload, bounds[30], 100);
    assert_eq!((rest.steps, rest.cursor), (last - 30, upload.len()));
}

#[test]
fn the_bounded_walk_stops_at_a_zero_claim() {
    let before = PlainSymbol::named(b"before").bytes();
    let upload = [&before[..], &[0; 40]].concat();
    let stopped = Walked {
        end: WalkEnd::Refused(refusal(10, 1, 0)),
        steps: 2,
        cursor: before.len(),
    };
    assert_eq!(walk(&upload, 0, 2), stopped);
    assert_eq!(walk(&upload, 0, usize::MAX), stopped);
    assert_eq!(walk(&upload, 0, 1).end, WalkEnd::OutOfSteps);
    let past = walk(&upload, usize::MAX, 5);
    assert_eq!(
        (past.end, past.steps, past.cursor),
        (WalkEnd::Finished, 0, usize::MAX)
    );
}
