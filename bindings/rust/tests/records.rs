//! Attributes, refactor records and flag words by themselves; records asked for by number; lists that end early.

mod common;

use common::plain::{PlainField, PlainSymbol};
use common::{Random, refusal, written};
use vindaskot::{
    AdsAttribute, AdsFieldInfo, AdsRefactorInfo, AdsSymbol2Flags, AdsSymbolFlags, AdsSymbolInfo,
    AdsTypeFlags, AttributeWriter, Block, FieldNumbers, FieldParts, IndexGroup, IndexOffset,
    RefactorWriter,
};

#[test]
fn an_attribute_there_and_back() {
    let mut r = Random(6);
    for _ in 0..2000 {
        let (name, value) = (r.bytes(255), r.bytes(255));
        let attribute = AdsAttribute::new(&name, &value);
        let bytes = written(|out| attribute.write(out));
        let lengths = [name.len() as u8, value.len() as u8];
        assert_eq!(bytes, [&lengths[..], &name, &[0], &value, &[0]].concat());
        assert_eq!(attribute.wire_size(), Ok(bytes.len()));
        assert_eq!(AdsAttribute::try_from_slice(&bytes), Ok(attribute));
        assert_eq!(AdsAttribute::try_from(&bytes[..]), Ok(attribute));
    }
}

#[test]
fn an_attribute_that_is_too_long_or_too_short_is_refused() {
    let long = [b'x'; 300];
    let name = AdsAttribute::new(&long[..256], &long);
    let value = AdsAttribute::new(b"n", &long);
    assert_eq!(name.wire_size(), Err(refusal(7, 255, 256)));
    assert_eq!(value.write(&mut [0; 400]), Err(refusal(7, 255, 300)));
    assert_eq!(AdsAttribute::try_from_slice(&[0; 3]), Err(refusal(2, 4, 3)));
    assert_eq!(
        AdsAttribute::try_from_slice(&[2, 9, 0, 0]),
        Err(refusal(1, 15, 4))
    );
}

#[test]
fn an_attribute_writer_keeps_what_it_has_where_a_push_is_refused() {
    let mut out = [0xA5; 14];
    let mut writer = AttributeWriter::new(&mut out);
    let one = AdsAttribute::new(b"unit", b"kPa");
    writer.push(&one).unwrap();
    assert_eq!(writer.push(&one), Err(refusal(6, 11, 3)));
    let long = [b'x'; 300];
    let too_long = AdsAttribute::new(&long, b"");
    assert_eq!(writer.push(&too_long), Err(refusal(7, 255, 300)));
    let block = writer.into_block();
    let bytes = b"\x04\x03unit\0kPa\0";
    assert_eq!(block, Block { count: 1, bytes });
    assert_eq!(out[11..], [0xA5; 3]);
}

#[test]
fn a_chain_there_and_back() {
    let mut out = [0; 100];
    let mut writer = RefactorWriter::new(&mut out);
    let names: [Option<&[u8]>; 3] = [Some(b"nWeight"), None, Some(b"nBallast")];
    for (i, name) in names.into_iter().enumerate() {
        let info = AdsRefactorInfo::new(0x11 + i as u32, name);
        writer.push(&info, i < 2).unwrap();
    }
    let block = writer.into_block();
    let (infos, taken) = AdsRefactorInfo::parse_chain(block.bytes).unwrap();
    assert_eq!((infos.len(), taken), (3, block.bytes.len()));
    let read: Vec<_> = infos.collect();
    let shown: Vec<_> = read.iter().map(|info| info.name()).collect();
    assert_eq!(shown, names);
    let counts: Vec<_> = read.iter().map(|info| info.refactor_count()).collect();
    // Packed numbers keep the bits of 0x01111111.
    assert_eq!(counts, [0x0100_0011, 0x0100_0010, 0x11]);
    for (number, info) in read.iter().enumerate() {
        assert_eq!(
            AdsRefactorInfo::chain_record(block.bytes, number),
            Ok(*info)
        );
    }
    let past = AdsRefactorInfo::chain_record(block.bytes, 3);
    assert_eq!(past, Err(refusal(14, 3, 3)));
    let cut = AdsRefactorInfo::parse_chain(&block.bytes[..taken - 1]);
    assert_eq!(cut.unwrap_err(), refusal(2, 15, 14));

    let entries = written(|out| AdsRefactorInfo::write_entries(block, out));
    assert_eq!(entries, [&[3, 0], block.bytes].concat());
    let less = Block { count: 2, ..block };
    let refused = AdsRefactorInfo::write_entries(less, &mut [0; 100]);
    assert_eq!(refused, Err(refusal(9, 2, 1)));
}

#[test]
fn a_refactor_record_that_is_too_long_or_too_short_is_refused() {
    let long = vec![b'x'; 65_536];
    let info = AdsRefactorInfo::new(0, Some(&long));
    assert_eq!(info.wire_size(), Err(refusal(7, 65_535, 65_536)));
    assert_eq!(AdsRefactorInfo::new(0, Some(b"abc")).wire_size(), Ok(10));
    assert_eq!(
        AdsRefactorInfo::try_from(&[0; 6][..]),
        Err(refusal(2, 7, 6))
    );
    let short = AdsRefactorInfo::try_from_slice(&[0, 0, 0, 0, 9, 0, 0]);
    assert_eq!(short, Err(refusal(2, 16, 7)));
}

/// A list of `count` items tells at every step how many are left, and gives that many.
fn assert_counted<T>(mut list: impl ExactSizeIterator<Item = T>, count: usize) {
    for left in (1..=count).rev() {
        assert_eq!(list.size_hint(), (left, Some(left)));
        assert!(list.next().is_some());
    }
    assert_eq!(list.size_hint(), (0, Some(0)));
    assert!(list.next().is_none());
}

#[test]
fn lists_tell_how_many_are_left() {
    let mut r = Random(14);
    for _ in 0..200 {
        let plain = PlainSymbol::random(&mut r);
        let bytes = plain.bytes();
        let info = AdsSymbolInfo::try_from_slice(&bytes).unwrap();
        assert_counted(info.attributes(), plain.common.attributes.len());
        assert_counted(info.refactor_infos(), plain.refactors.len());
        let plain = PlainField::random(&mut r);
        let bytes = plain.bytes();
        let info = AdsFieldInfo::try_from_slice(&bytes).unwrap();
        assert_counted(info.attributes(), plain.common.attributes.len());
    }
}

#[test]
fn numbers_that_are_not_there_are_refused() {
    let mut r = Random(7);
    for _ in 0..200 {
        let plain = PlainSymbol::random(&mut r);
        let bytes = plain.bytes();
        let info = AdsSymbolInfo::try_from_slice(&bytes).unwrap();
        let (count, links) = (plain.common.attributes.len(), plain.refactors.len());
        let past = r.below(3);
        let attribute = info.attribute(count + past);
        assert_eq!(attribute, Err(refusal(14, count, count + past)));
        let link = info.refactor_info(links + past);
        assert_eq!(link, Err(refusal(14, links, links + past)));
    }
    let numbers = FieldNumbers::default();
    let bytes = written(|out| numbers.write(&FieldParts::default(), out));
    let info = AdsFieldInfo::try_from_slice(&bytes).unwrap();
    assert_eq!(info.attribute(0), Err(refusal(14, 0, 0)));
}

#[test]
fn a_refused_attribute_ends_a_symbols_list_and_refuses_a_field() {
    let mut plain = PlainSymbol::named(b"n");
    plain.numbers.flags = AdsSymbolFlags::ATTRIBUTES;
    plain.common.attributes = vec![(b"a".to_vec(), b"b".to_vec()); 3];
    let mut bytes = plain.bytes();
    // The second attribute claims a name that does not fit.
    let second = bytes.len() - 12;
    bytes[second] = 200;
    let info = AdsSymbolInfo::try_from_slice(&bytes).unwrap();
    let shown: Vec<_> = info.attributes().collect();
    assert_eq!(shown, [AdsAttribute::new(b"a", b"b")]);
    assert_eq!(info.unread(), 12);
    assert_eq!(info.attribute_block().bytes, [1, 1, b'a', 0, b'b', 0]);
    assert_eq!(info.attribute(1), Err(refusal(14, 1, 1)));

    let numbers = FieldNumbers {
        flags: AdsTypeFlags::ATTRIBUTES,
        ..Default::default()
    };
    let block = [2, 0, 1, 1, b'a', 0, b'b', 0];
    let mut field = written(|out| numbers.write(&FieldParts::default(), out));
    field.truncate(field.len() - 2);
    field.extend(block);
    field.extend([200, 1, 0, 0]);
    field[0] = field.len() as u8;
    let refused = AdsFieldInfo::try_from_slice(&field);
    assert_eq!(refused, Err(refusal(1, 205, 4)));
}

/// The bits that mean a GUID, attributes and extended flags mean it among the flags, and nothing in `high`.
#[test]
fn sections_are_told_by_the_flags_alone() {
    let mut plain = PlainSymbol::named(b"n");
    plain.numbers.high = 0x9008;
    let mut bytes = plain.bytes();
    bytes.extend([0; 40]);
    bytes[0] = bytes.len() as u8;
    let info = AdsSymbolInfo::try_from_slice(&bytes).unwrap();
    plain.assert_told_by(&info, 40);

    bytes[20..24].rotate_left(2);
    let info = AdsSymbolInfo::try_from_slice(&bytes).unwrap();
    assert_eq!((info.flags().as_raw(), info.high()), (0x9008, 0));
    assert_eq!(info.guid(), Some([0; 16]));
    assert_eq!(info.extended_flags(), Some(AdsSymbol2Flags(0)));
    assert_eq!(info.unread(), 40 - 16 - 2 - 4);
}

#[test]
fn an_absent_list_has_no_records() {
    let numbers = FieldNumbers {
        flags: AdsTypeFlags::ATTRIBUTES,
        ..Default::default()
    };
    let mut field = written(|out| numbers.write(&FieldParts::default(), out));
    // One sub-item that claims far more than there is: no attributes are there, and their place is told at the entry's end.
    field[40] = 1;
    field.truncate(45);
    field.extend([0xFF; 4]);
    field[0] = 49;
    let info = AdsFieldInfo::try_from_slice(&field).unwrap();
    assert_eq!(info.attributes().next(), None);
    assert_eq!(info.attribute_block(), Block::default());
}

#[test]
fn addresses_keep_their_numbers() {
    for number in [0, 1, 0x4020, u32::MAX] {
        assert_eq!(IndexGroup::new(number).as_u32(), number);
        assert_eq!(IndexOffset::new(number).as_u32(), number);
    }
}

#[test]
fn flag_words() {
    let flags = AdsSymbolFlags::try_from_slice(&[0x08, 0x93]).unwrap();
    assert_eq!(flags, AdsSymbolFlags::new(0x9308));
    assert!(flags.contains(AdsSymbolFlags::ATTRIBUTES));
    assert!(!AdsSymbolFlags::ATTRIBUTES.contains(flags));
    let refused = AdsSymbolFlags::try_from_slice(&[0; 3]);
    assert_eq!(refused, Err(refusal(1, 2, 3)));

    let flags = AdsSymbol2Flags::try_from_slice(&[4, 3, 2, 1]).unwrap();
    assert_eq!(flags, AdsSymbol2Flags::new(0x0102_0304));
    assert!(flags.contains(AdsSymbol2Flags::REFACTOR_INFO));
    assert!(!AdsSymbol2Flags::REFACTOR_INFO.contains(flags));
    let refused = AdsSymbol2Flags::try_from_slice(&[]);
    assert_eq!(refused, Err(refusal(1, 4, 0)));

    let flags = AdsTypeFlags::try_from_slice(&[0x80, 0x1A, 0, 0xF0]).unwrap();
    assert_eq!(flags, AdsTypeFlags::new(0xF000_1A80));
    assert!(flags.contains(AdsTypeFlags::METHOD_INFOS));
    assert!(!AdsTypeFlags::METHOD_INFOS.contains(flags));
    let refused = AdsTypeFlags::try_from_slice(&[0; 5]);
    assert_eq!(refused, Err(refusal(1, 4, 5)));
}

#[test]
fn flags_that_decide_sections() {
    assert_eq!(AdsSymbolFlags::TYPE_GUID.as_raw(), 0x0008);
    assert_eq!(AdsSymbolFlags::ATTRIBUTES.as_raw(), 0x1000);
    assert_eq!(AdsSymbolFlags::EXTENDED_FLAGS.as_raw(), 0x8000);
    assert_eq!(AdsSymbol2Flags::REFACTOR_INFO.as_raw(), 0x0004);
    assert_eq!(AdsTypeFlags::TYPE_GUID.as_raw(), 0x0080);
    assert_eq!(AdsTypeFlags::COPY_MASK.as_raw(), 0x0200);
    assert_eq!(AdsTypeFlags::METHOD_INFOS.as_raw(), 0x0800);
    assert_eq!(AdsTypeFlags::ATTRIBUTES.as_raw(), 0x1000);
}
