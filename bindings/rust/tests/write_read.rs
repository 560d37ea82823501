//! Entries written, compared with bytes laid out by hand, read back, and written again; and what writers refuse.

mod common;

use common::plain::{PlainField, PlainSymbol};
use common::{Random, refusal, rig, written};
use vindaskot::{
    AdsFieldInfo, AdsSymbol2Flags, AdsSymbolFlags, AdsSymbolInfo, AdsSymbolInfoIterator,
    AdsTypeFlags, Block, FieldNumbers, FieldParts, Refusal, SymbolNumbers, SymbolParts,
};

const ATTRIBUTE: &[u8] = &[1, 1, b'u', 0, 0xB0, 0];
const LINK: &[u8] = &[1, 0, 0, 0, 1, 0, b'A', 0];

/// A refused write, which has to leave the room that it was lent as it was.
fn refused(write: impl Fn(&mut [u8]) -> Result<usize, Refusal>) -> Refusal {
    let mut out = [0xA5; 200];
    let why = write(&mut out).unwrap_err();
    assert_eq!(out, [0xA5; 200]);
    why
}

fn symbol_flags(flags: u16, extended: u32) -> SymbolNumbers {
    SymbolNumbers {
        flags: AdsSymbolFlags(flags),
        extended_flags: AdsSymbol2Flags(extended),
        ..Default::default()
    }
}

fn field_flags(flags: u32, size: u32) -> FieldNumbers {
    FieldNumbers {
        flags: AdsTypeFlags(flags),
        size,
        ..Default::default()
    }
}

#[test]
fn symbols_there_and_back() {
    let mut r = Random(1);
    for _ in 0..3000 {
        let plain = PlainSymbol::random(&mut r);
        let bytes = plain.write();
        assert_eq!(bytes, plain.bytes());
        let info = AdsSymbolInfo::try_from_slice(&bytes).unwrap();
        plain.assert_told_by(&info, 0);
        assert_eq!(AdsSymbolInfo::try_from(&bytes[..]), Ok(info));
        assert_eq!(info.as_bytes(), bytes);
        assert_eq!(info.numbers(), plain.numbers);
        let parts = info.parts();
        assert_eq!(parts.attributes.bytes, plain.common.attribute_bytes());
        assert_eq!(parts.refactor_infos.bytes, plain.chain_bytes());
        assert_eq!(written(|out| info.numbers().write(&parts, out)), bytes);
        assert_eq!(info.numbers().wire_size(&parts), Ok(bytes.len()));
    }
}

#[test]
fn the_rig_written_again_is_the_rig() {
    let upload = rig();
    let symbols = AdsSymbolInfoIterator::new(&upload).map(Result::unwrap);
    let again = symbols.map(|s| written(|out| s.numbers().write(&s.parts(), out)));
    assert_eq!(again.collect::<Vec<_>>().concat(), upload);
}

/// Each of its values stands at 22, low byte first, changes no other byte, and comes back.
#[test]
fn high_there_and_back() {
    let bare = symbol_flags(0x0625, 0);
    let parts = SymbolParts {
        name: b"MAIN.stLens",
        type_name: b"ST_BoxLens",
        ..Default::default()
    };
    let mut expected = written(|out| bare.write(&parts, out));
    assert_eq!(expected[20..24], [0x25, 0x06, 0, 0]);
    for high in 0..=u16::MAX {
        let numbers = SymbolNumbers { high, ..bare };
        expected[22] = (high % 256) as u8;
        expected[23] = (high / 256) as u8;
        let bytes = written(|out| numbers.write(&parts, out));
        assert_eq!(bytes, expected);
        let info = AdsSymbolInfo::try_from_slice(&bytes).unwrap();
        assert_eq!((info.high(), info.flags()), (high, bare.flags));
        assert_eq!((info.numbers(), info.parts()), (numbers, parts));
        assert_eq!(info.unread(), 0);
    }
}

#[test]
fn fields_there_and_back() {
    let mut r = Random(2);
    for _ in 0..3000 {
        let plain = PlainField::random(&mut r);
        let bytes = plain.write();
        assert_eq!(bytes, plain.bytes());
        let info = AdsFieldInfo::try_from_slice(&bytes).unwrap();
        plain.assert_told_by(&info);
        assert_eq!(AdsFieldInfo::try_from(&bytes[..]), Ok(info));
        assert_eq!(info.as_bytes(), bytes);
        assert_eq!(info.numbers(), plain.numbers);
        let parts = info.parts();
        assert_eq!(parts.attributes.bytes, plain.common.attribute_bytes());
        assert_eq!(written(|out| info.numbers().write(&parts, out)), bytes);
        assert_eq!(info.numbers().wire_size(&parts), Ok(bytes.len()));
    }
}

/// An entry that claims some more bytes of its own, and then bytes that are not part of it.
fn grown(entry: &[u8], more: &[u8]) -> Vec<u8> {
    let length = entry.len() + more.len();
    let claim = (length as u32).to_le_bytes();
    [&claim, &entry[4..], more, &[0xEE; 20]].concat()
}

#[test]
fn a_grown_symbol_tells_the_same_record_and_what_is_unread() {
    let mut r = Random(5);
    for _ in 0..500 {
        let plain = PlainSymbol::random(&mut r);
        let more = r.bytes(9);
        let bytes = grown(&plain.bytes(), &more);
        let info = AdsSymbolInfo::try_from_slice(&bytes).unwrap();
        plain.assert_told_by(&info, more.len());
        assert_eq!(info.as_bytes(), &bytes[..bytes.len() - 20]);
    }
}

#[test]
fn a_grown_field_tells_the_same_record() {
    let mut r = Random(12);
    for _ in 0..500 {
        let plain = PlainField::random(&mut r);
        let bytes = grown(&plain.bytes(), &r.bytes(9));
        let info = AdsFieldInfo::try_from_slice(&bytes).unwrap();
        plain.assert_told_by(&info);
        assert_eq!(info.as_bytes(), &bytes[..bytes.len() - 20]);
    }
}

#[test]
fn sections_that_disagree_with_the_flags_are_refused() {
    let bare = SymbolParts::default();
    let guid = SymbolParts {
        guid: Some([7; 16]),
        ..bare
    };
    let attributes = SymbolParts {
        attributes: Block {
            count: 1,
            bytes: ATTRIBUTE,
        },
        ..bare
    };
    let chain = SymbolParts {
        refactor_infos: Block {
            count: 1,
            bytes: LINK,
        },
        ..bare
    };
    let cases = [
        (symbol_flags(0x0008, 0), bare, 1),
        (symbol_flags(0, 0), guid, 1),
        (symbol_flags(0, 0), attributes, 2),
        (symbol_flags(0, 1), bare, 3),
        (symbol_flags(0x8000, 4), bare, 4),
        (symbol_flags(0x8000, 0), chain, 4),
    ];
    for (numbers, parts, section) in cases {
        let why = refused(|out| numbers.write(&parts, out));
        assert_eq!(why, refusal(8, section, 0));
        assert_eq!(numbers.wire_size(&parts), Err(refusal(8, section, 0)));
    }
}

#[test]
fn too_long_strings_are_refused_in_order() {
    let long = vec![b'x'; 65_540];
    let plain = SymbolNumbers::default();
    for (name, type_name, comment) in [(65_536, 65_540, 0), (3, 65_537, 65_538), (0, 0, 65_539)] {
        let actual = [name, type_name, comment]
            .into_iter()
            .find(|len| *len > 65_535);
        let symbol = SymbolParts {
            name: &long[..name],
            type_name: &long[..type_name],
            comment: &long[..comment],
            ..Default::default()
        };
        let field = FieldParts {
            name: &long[..name],
            type_name: &long[..type_name],
            comment: &long[..comment],
            ..Default::default()
        };
        let expected = refusal(7, 65_535, actual.unwrap());
        assert_eq!(refused(|out| plain.write(&symbol, out)), expected);
        let numbers = FieldNumbers::default();
        assert_eq!(refused(|out| numbers.write(&field, out)), expected);
    }
}

#[test]
fn blocks_that_are_not_their_count_of_good_records_are_refused() {
    let two = [ATTRIBUTE, ATTRIBUTE].concat();
    for (count, bytes, good) in [(1, &two[..], 1), (3, &two, 2), (2, &two[..11], 1)] {
        let block = Block { count, bytes };
        let symbol = SymbolParts {
            attributes: block,
            ..Default::default()
        };
        let field = FieldParts {
            attributes: block,
            ..Default::default()
        };
        let expected = refusal(9, count, good);
        let numbers = symbol_flags(0x1000, 0);
        assert_eq!(refused(|out| numbers.write(&symbol, out)), expected);
        let numbers = field_flags(0x1000, 0);
        assert_eq!(refused(|out| numbers.write(&field, out)), expected);
    }
    // A chain whose last record says that another follows.
    let endless = [1, 0, 0, 1, 1, 0, b'A', 0];
    let parts = SymbolParts {
        refactor_infos: Block {
            count: 1,
            bytes: &endless,
        },
        ..Default::default()
    };
    let numbers = symbol_flags(0x8000, 4);
    assert_eq!(refused(|out| numbers.write(&parts, out)), refusal(9, 1, 0));
}

#[test]
fn a_field_follows_its_flags() {
    let parts = FieldParts {
        guid: Some([7; 16]),
        attributes: Block {
            count: 9,
            bytes: ATTRIBUTE,
        },
        ..Default::default()
    };
    // Unflagged: neither is written, and the block's count is not looked at.
    let bare = written(|out| field_flags(0, 0).write(&parts, out));
    assert_eq!(bare.len(), 45);
    // A flagged GUID that is not given is zeros, and so is a flagged copy mask.
    let none = FieldParts::default();
    let sections = written(|out| field_flags(0x0280, 5).write(&none, out));
    assert_eq!(&sections[45..], [0; 21]);
    let info = AdsFieldInfo::try_from_slice(&sections).unwrap();
    assert_eq!(info.guid(), Some([0; 16]));
    let large = field_flags(0x0200, 16_777_172);
    assert_eq!(
        large.wire_size(&none),
        Err(refusal(5, 16_777_216, 16_777_217))
    );
}
