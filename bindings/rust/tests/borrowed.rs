//! What comes back as bytes is a part of the caller's data, at the right place, and outlives the reading.

mod common;

use common::plain::PlainField;
use common::{Random, place, rig};
use vindaskot::{AdsAttribute, AdsFieldInfo, AdsSymbolInfo, AdsSymbolInfoIterator, find};

/// An attribute by a name that stands elsewhere and is gone when the attribute is looked at.
fn by_name<'a>(symbol: &AdsSymbolInfo<'a>, name: &[u8]) -> AdsAttribute<'a> {
    let elsewhere = name.to_vec();
    symbol.attribute_named(&elsewhere).unwrap()
}

#[test]
fn parts_of_the_lens_stand_in_the_upload() {
    let upload = rig();
    let start = find(&upload, b"MAIN.stLens").unwrap();
    let lens = AdsSymbolInfo::try_from_slice(&upload[start..]).unwrap();
    assert_eq!(place(&upload, lens.as_bytes()), start);
    assert_eq!(place(&upload, lens.name()), start + 30);
    let type_name = start + 30 + lens.name().len() + 1;
    assert_eq!(place(&upload, lens.type_name()), type_name);
    let comment = type_name + lens.type_name().len() + 1;
    assert_eq!(place(&upload, lens.comment()), comment);
    // A GUID and a 2-byte count stand before the first attribute.
    let mut at = comment + lens.comment().len() + 1 + 16 + 2;
    assert_eq!(place(&upload, lens.attribute_block().bytes), at);
    for (number, attribute) in lens.attributes().enumerate() {
        assert_eq!(place(&upload, attribute.name()), at + 2);
        let value = at + 3 + attribute.name().len();
        assert_eq!(place(&upload, attribute.value()), value);
        let asked = lens.attribute(number).unwrap();
        assert_eq!(place(&upload, asked.name()), at + 2);
        assert_eq!(place(&upload, asked.value()), value);
        let named = by_name(&lens, attribute.name());
        assert_eq!(place(&upload, named.name()), at + 2);
        assert_eq!(place(&upload, named.value()), value);
        at = value + attribute.value().len() + 1;
    }
    let chain = at + 4;
    assert_eq!(place(&upload, lens.refactor_block().bytes), chain);
    let former = lens.refactor_infos().next().unwrap();
    assert_eq!(place(&upload, former.name().unwrap()), chain + 6);
    let asked = lens.refactor_info(0).unwrap();
    assert_eq!(place(&upload, asked.name().unwrap()), chain + 6);
}

#[test]
fn walked_symbols_stand_where_they_start() {
    let upload = rig();
    let names: Vec<_> = AdsSymbolInfoIterator::new(&upload)
        .with_starts()
        .map(|(start, item)| (start, item.unwrap().name()))
        .collect();
    assert_eq!(names.len(), 32);
    for (start, name) in names {
        assert_eq!(place(&upload, name), start + 30);
    }
}

#[test]
fn parts_of_a_field_stand_in_it() {
    let mut r = Random(10);
    for _ in 0..300 {
        let bytes = PlainField::random(&mut r).bytes();
        let field = AdsFieldInfo::try_from_slice(&bytes).unwrap();
        assert_eq!(place(&bytes, field.as_bytes()), 0);
        assert_eq!(place(&bytes, field.name()), 42);
        let type_name = 43 + field.name().len();
        assert_eq!(place(&bytes, field.type_name()), type_name);
        let comment = type_name + field.type_name().len() + 1;
        assert_eq!(place(&bytes, field.comment()), comment);
        for (number, attribute) in field.attributes().enumerate() {
            let asked = field.attribute(number).unwrap();
            assert_eq!(place(&bytes, asked.name()), place(&bytes, attribute.name()));
            assert_eq!(
                place(&bytes, asked.value()),
                place(&bytes, attribute.value())
            );
            let elsewhere = attribute.name().to_vec();
            let named = field.attribute_named(&elsewhere).unwrap();
            let first = field.attributes().find(|one| one.name() == elsewhere);
            let first = first.unwrap();
            assert_eq!(place(&bytes, named.name()), place(&bytes, first.name()));
            assert_eq!(place(&bytes, named.value()), place(&bytes, first.value()));
        }
    }
}
