//! Attributes asked for by name: which of them is found, and when none is.

mod common;

use common::plain::{PlainField, PlainSymbol};
use common::{Random, refusal, written};
use vindaskot::{
    AdsAttribute, AdsFieldInfo, AdsSymbolFlags, AdsSymbolInfo, AdsTypeFlags, FieldNumbers,
    FieldParts, Refusal,
};

type Named = Vec<(Vec<u8>, Vec<u8>)>;

fn symbol_of(attributes: Named) -> Vec<u8> {
    let mut plain = PlainSymbol::named(b"n");
    plain.numbers.flags = AdsSymbolFlags::ATTRIBUTES;
    plain.common.attributes = attributes;
    plain.bytes()
}

fn field_of(attributes: Named) -> Vec<u8> {
    let mut plain = PlainField::default();
    plain.numbers.flags = AdsTypeFlags::ATTRIBUTES;
    plain.common.attributes = attributes;
    plain.bytes()
}

/// Names with values that tell them apart.
fn numbered(names: &[&[u8]]) -> Named {
    let number = |(i, name): (usize, &&[u8])| (name.to_vec(), i.to_string().into_bytes());
    names.iter().enumerate().map(number).collect()
}

/// What a search over the numbered questions finds.
fn searched<'a>(
    name: &[u8],
    numbered: impl Fn(usize) -> Result<AdsAttribute<'a>, Refusal>,
) -> Result<AdsAttribute<'a>, Refusal> {
    let mut shown = (0..).map_while(|number| numbered(number).ok());
    let first = shown.find(|one| one.name() == name);
    first.ok_or(refusal(13, 0, 0))
}

/// Names asked, each with the number of the attribute that it finds.
const QUESTIONS: [(&[u8], Option<usize>); 17] = [
    (b"unit", Some(0)),
    (b"", Some(1)),
    (b"ZoomCurve", Some(3)),
    (b"ZoomCurveEnd", Some(4)),
    (b"Zoom", Some(5)),
    // Cut short, longer, of another case, other in the first, the last and another byte.
    (b"uni", None),
    (b"units", None),
    (b"Unit", None),
    (b"UNIT", None),
    (b"knit", None),
    (b"unis", None),
    (b"uait", None),
    (b"ZoomCurveEne", None),
    (b"Z", None),
    // With its end byte; a value; what nothing has.
    (b"unit\0", None),
    (b"2", None),
    (b"other", None),
];

const NAMES: [&[u8]; 7] = [
    b"unit",
    b"",
    b"unit",
    b"ZoomCurve",
    b"ZoomCurveEnd",
    b"Zoom",
    b"",
];

#[test]
fn the_first_of_that_name_byte_for_byte() {
    let (symbol, field) = (symbol_of(numbered(&NAMES)), field_of(numbered(&NAMES)));
    let symbol = AdsSymbolInfo::try_from_slice(&symbol).unwrap();
    let field = AdsFieldInfo::try_from_slice(&field).unwrap();
    for (name, number) in QUESTIONS {
        let value = number.map(|number| number.to_string().into_bytes());
        let want = match &value {
            Some(value) => Ok(AdsAttribute::new(name, value)),
            None => Err(refusal(13, 0, 0)),
        };
        assert_eq!(symbol.attribute_named(name), want, "{name:?}");
        assert_eq!(field.attribute_named(name), want, "{name:?}");
    }
}

#[test]
fn an_entry_without_attributes_has_none_of_any_name() {
    let symbol = PlainSymbol::named(b"n").bytes();
    let symbol = AdsSymbolInfo::try_from_slice(&symbol).unwrap();
    let field = written(|out| FieldNumbers::default().write(&FieldParts::default(), out));
    let field = AdsFieldInfo::try_from_slice(&field).unwrap();
    for name in [&b""[..], b"n"] {
        assert_eq!(symbol.attribute_named(name), Err(refusal(13, 0, 0)));
        assert_eq!(field.attribute_named(name), Err(refusal(13, 0, 0)));
    }
}

/// The first attribute is found by its name, `shown`, and nothing by another name.
fn assert_only_shown(symbol: &[u8], field: &[u8], other: &[u8]) {
    let symbol = AdsSymbolInfo::try_from_slice(symbol).unwrap();
    let field = AdsFieldInfo::try_from_slice(field).unwrap();
    let shown = Ok(AdsAttribute::new(b"shown", b"0"));
    assert_eq!(symbol.attribute_named(b"shown"), shown);
    assert_eq!(field.attribute_named(b"shown"), shown);
    assert_eq!(symbol.attribute_named(other), Err(refusal(13, 0, 0)));
    assert_eq!(field.attribute_named(other), Err(refusal(13, 0, 0)));
}

#[test]
fn a_record_past_the_count_is_not_found() {
    let attributes = numbered(&[b"shown", b"past"]);
    let mut entries = [symbol_of(attributes.clone()), field_of(attributes)];
    for entry in &mut entries {
        let count = entry.len() - (2 + 10 + 9);
        assert_eq!(entry[count..][..2], [2, 0]);
        entry[count] = 1;
    }
    assert_only_shown(&entries[0], &entries[1], b"past");
}

#[test]
fn a_record_behind_the_entry_is_not_found() {
    let attributes = numbered(&[b"shown"]);
    let mut entries = [symbol_of(attributes.clone()), field_of(attributes)];
    for entry in &mut entries {
        entry.extend(b"\x06\x01behind\x001\x00");
    }
    assert_only_shown(&entries[0], &entries[1], b"behind");
}

#[test]
fn a_record_behind_a_refused_one_is_not_found() {
    let mut symbol = symbol_of(numbered(&[b"shown", b"bad", b"past"]));
    // The second claims a name that does not fit; a field would be refused.
    let second = symbol.len() - (8 + 9);
    assert_eq!(symbol[second], 3);
    symbol[second] = 200;
    let info = AdsSymbolInfo::try_from_slice(&symbol).unwrap();
    let shown = info.attribute_named(b"shown");
    assert_eq!(shown, Ok(AdsAttribute::new(b"shown", b"0")));
    assert_eq!(info.attribute_named(b"bad"), Err(refusal(13, 0, 0)));
    assert_eq!(info.attribute_named(b"past"), Err(refusal(13, 0, 0)));
}

#[test]
fn the_whole_length_of_a_name_counts() {
    let long = vec![b'n'; 65_791];
    let names = [&long[..255], &long[..4]];
    let (symbol, field) = (symbol_of(numbered(&names)), field_of(numbered(&names)));
    let symbol = AdsSymbolInfo::try_from_slice(&symbol).unwrap();
    let field = AdsFieldInfo::try_from_slice(&field).unwrap();
    for (length, value) in [(255, b"0"), (4, b"1")] {
        let name = &long[..length];
        let want = Ok(AdsAttribute::new(name, value));
        assert_eq!(symbol.attribute_named(name), want);
        assert_eq!(field.attribute_named(name), want);
    }
    // Some of these have a length that is 4 or 255 in its last byte, or in its last two.
    for length in [3, 5, 254, 256, 260, 511, 65_540, 65_791] {
        let name = &long[..length];
        assert_eq!(symbol.attribute_named(name), Err(refusal(13, 0, 0)));
        assert_eq!(field.attribute_named(name), Err(refusal(13, 0, 0)));
    }
}

/// Up to two letters, of either case: often alike, often the start of another.
fn short_name(r: &mut Random) -> Vec<u8> {
    (0..r.below(3)).map(|_| b"aAb"[r.below(3)]).collect()
}

fn short_names(r: &mut Random) -> Named {
    (0..r.below(7))
        .map(|_| (short_name(r), r.bytes(4)))
        .collect()
}

/// How often a name was found, found although another comes later, and not found.
#[derive(Default)]
struct Met {
    found: usize,
    alike: usize,
    none: usize,
}

impl Met {
    fn count(&mut self, attributes: &Named, name: &[u8]) {
        match attributes.iter().filter(|(one, _)| one == name).count() {
            0 => self.none += 1,
            1 => self.found += 1,
            _ => self.alike += 1,
        }
    }

    /// Some names asked: each answer is what a search over the numbers finds.
    fn ask<'a>(
        &mut self,
        r: &mut Random,
        attributes: &Named,
        numbered: impl Fn(usize) -> Result<AdsAttribute<'a>, Refusal>,
        named: impl Fn(&[u8]) -> Result<AdsAttribute<'a>, Refusal>,
    ) {
        for _ in 0..4 {
            let name = short_name(r);
            self.count(attributes, &name);
            assert_eq!(named(&name), searched(&name, &numbered));
        }
    }

    fn assert_each_often(&self) {
        assert!(self.found > 1000 && self.alike > 1000 && self.none > 1000);
    }
}

#[test]
fn a_symbols_names_find_what_its_numbers_show() {
    let mut r = Random(16);
    let mut met = Met::default();
    for _ in 0..3000 {
        let mut plain = PlainSymbol::random(&mut r);
        plain.numbers.flags.0 |= AdsSymbolFlags::ATTRIBUTES.0;
        plain.common.attributes = short_names(&mut r);
        let bytes = plain.bytes();
        let info = AdsSymbolInfo::try_from_slice(&bytes).unwrap();
        plain.assert_told_by(&info, 0);
        met.ask(
            &mut r,
            &plain.common.attributes,
            |number| info.attribute(number),
            |name| info.attribute_named(name),
        );
    }
    met.assert_each_often();
}

#[test]
fn a_fields_names_find_what_its_numbers_show() {
    let mut r = Random(17);
    let mut met = Met::default();
    for _ in 0..3000 {
        let mut plain = PlainField::random(&mut r);
        plain.numbers.flags.0 |= AdsTypeFlags::ATTRIBUTES.0;
        plain.common.attributes = short_names(&mut r);
        let bytes = plain.bytes();
        let info = AdsFieldInfo::try_from_slice(&bytes).unwrap();
        plain.assert_told_by(&info);
        met.ask(
            &mut r,
            &plain.common.attributes,
            |number| info.attribute(number),
            |name| info.attribute_named(name),
        );
    }
    met.assert_each_often();
}
