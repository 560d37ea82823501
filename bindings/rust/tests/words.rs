//! What is shown of values: by `{:?}`, in hexadecimal digits, and in the archive's words; and how flags are put together.

mod common;

use common::{refusal, rig};
use vindaskot::refusal::TEXT_MOST;
use vindaskot::text::{Text, decode_to_string};
use vindaskot::{
    AdsAttribute, AdsSymbol2Flags, AdsSymbolFlags, AdsSymbolInfo, AdsTypeFlags, IndexGroup,
    IndexOffset, find,
};

#[test]
fn a_refusal_names_its_kind_and_figures() {
    let told = format!("{:?}", refusal(2, 30, 29));
    assert_eq!(told, "Refusal { kind: TooShort, expected: 30, got: 29 }");
    let told = format!("{:?}", refusal(99, 1, 2));
    assert_eq!(told, "Refusal { number: 99, expected: 1, got: 2 }");
}

#[test]
fn a_refusal_has_the_words_of_the_archive() {
    let mut out = [0xFF; TEXT_MOST];
    let why = refusal(6, 37, 0);
    assert_eq!(
        why.text(&mut out),
        Ok("output too small: 37 needed, 0 lent")
    );
    assert_eq!(out[35], 0xFF);
    assert_eq!(why.text(&mut out[..34]), Err(refusal(6, 35, 34)));
    let largest = refusal(9, usize::MAX, usize::MAX);
    assert!(largest.text(&mut out).is_ok());
    assert_eq!(refusal(25, 1, 2).text(&mut out), Err(refusal(14, 24, 25)));
}

#[test]
fn a_symbol_is_shown_as_text() {
    let upload = rig();
    let start = find(&upload, "MAIN.stLens").unwrap();
    let lens = AdsSymbolInfo::try_from_slice(&upload[start..]).unwrap();
    let told = format!("{lens:?}");
    for part in [
        "AdsSymbolInfo { name: \"MAIN.stLens\", type_name: \"ST_BoxLens\"",
        "comment: \"Kastenobjektiv, geprüft\"",
        "flags: AdsSymbolFlags(0x9008: TYPE_GUID | ATTRIBUTES | EXTENDED_FLAGS)",
        "AdsAttribute { name: \"ZoomCurveEnd\", value: \"0.9375\" }",
        "name: Some(\"stOptic\")",
    ] {
        assert!(told.contains(part), "{part} in {told}");
    }
}

#[test]
fn text_is_shown_as_it_is_decoded() {
    let all: Vec<u8> = (0..=255).collect();
    assert_eq!(Text(&all).to_string(), decode_to_string(&all).unwrap());
    let told = format!("{:?}", AdsAttribute::new(b"a\"b", b"\x80\n"));
    assert_eq!(told, r#"AdsAttribute { name: "a\"b", value: "€\n" }"#);
}

#[test]
fn addresses_are_numbers_both_ways() {
    assert_eq!(u32::from(IndexGroup::from(0x4040)), 0x4040);
    assert_eq!(u32::from(IndexOffset::from(0x511E)), 0x511E);
    assert_eq!(format!("{:#06X}", IndexGroup(0x4040)), "0x4040");
    assert_eq!(format!("{:x}", IndexOffset(0x511E)), "511e");
}

#[test]
fn flags_are_put_together_and_taken_apart() {
    let flags = AdsSymbolFlags::TYPE_GUID | AdsSymbolFlags::ATTRIBUTES;
    assert_eq!((flags.as_raw(), u16::from(flags)), (0x1008, 0x1008));
    assert_eq!(flags & AdsSymbolFlags::STATIC, AdsSymbolFlags::default());
    assert!((flags & AdsSymbolFlags::STATIC).is_empty());
    assert_eq!(
        flags - AdsSymbolFlags::TYPE_GUID,
        AdsSymbolFlags::ATTRIBUTES
    );
    assert_eq!(
        flags ^ AdsSymbolFlags::ATTRIBUTES,
        AdsSymbolFlags::TYPE_GUID
    );
    assert_eq!((!flags).as_raw(), 0xEFF7);
    assert!(flags.intersects(!AdsSymbolFlags::TYPE_GUID));
    let mut word = AdsTypeFlags::from(0x20);
    word |= AdsTypeFlags::STATIC;
    assert_eq!(
        format!("{word:#x} {word:X} {word:b}"),
        "0x20020 20020 100000000000100000"
    );
    word &= AdsTypeFlags::BIT_VALUES;
    word ^= AdsTypeFlags::PROP_ITEM;
    word -= AdsTypeFlags::BIT_VALUES;
    assert_eq!(format!("{word:?}"), "AdsTypeFlags(0x40: PROP_ITEM)");
    assert_eq!(format!("{:?}", AdsSymbol2Flags(0)), "AdsSymbol2Flags(0x0)");
}
