//! Addresses by paths, held to what the records of the symbols and of the data types say.

mod common;

use common::{place, refusal, rig, types};
use vindaskot::{
    AdsSymbolInfoIterator, Binder, DataType, IndexOffset, Mode, NameIndex, Source, bind,
};

fn binder() -> Binder<Vec<u8>, Vec<u8>> {
    Binder::new(rig(), types()).unwrap()
}

#[test]
fn a_symbol_by_itself_is_its_own_address() {
    let (symbols, binder) = (rig(), binder());
    for symbol in AdsSymbolInfoIterator::new(&symbols) {
        let symbol = symbol.unwrap();
        let address = binder.bind(symbol.name().to_ascii_lowercase()).unwrap();
        assert_eq!(address.group, symbol.index_group());
        assert_eq!(address.offset, symbol.index_offset());
        assert_eq!((address.bit, address.size_in_bits), (0, false));
        assert_eq!(address.size, symbol.size());
        assert_eq!(address.type_name, symbol.type_name());
        assert!(matches!(address.source, Source::Symbol(_)));
    }
}

#[test]
fn members_lie_where_their_data_types_say() {
    let (symbols, binder) = (rig(), binder());
    let mut held = 0;
    for symbol in AdsSymbolInfoIterator::new(&symbols) {
        let symbol = symbol.unwrap();
        let Ok(data_type) = binder.types().find(symbol.type_name()) else {
            continue;
        };
        held += hold_members(&binder, symbol.name(), symbol.index_offset(), &data_type);
    }
    assert!(held > 0);
}

/// The direct members of a symbol's data type, where they are in bytes and have an offset.
fn hold_members(
    binder: &Binder<Vec<u8>, Vec<u8>>,
    name: &[u8],
    start: IndexOffset,
    data_type: &DataType<'_>,
) -> usize {
    let mut held = 0;
    for member in data_type.members_to_vec().unwrap() {
        let record = member.read().unwrap();
        let marks = 0x4 | 0x20 | 0x40 | 0x20000;
        if member.depth() != 2 || record.flags().0 & marks != 0 {
            continue;
        }
        let path = [name, b".", record.name()].concat();
        let address = binder.bind(&path).unwrap();
        let offset = IndexOffset(start.0 + record.offset());
        assert_eq!(address.offset, offset, "{}", path.escape_ascii());
        assert_eq!(address.size, record.size());
        assert_eq!(address.type_name, record.type_name());
        held += 1;
    }
    held
}

#[test]
fn elements_and_their_members() {
    let binder = binder();
    let array = binder.bind("MAIN.stLens.aTable").unwrap();
    let first = binder.bind("MAIN.stLens.aTable[0]").unwrap();
    let later = binder.bind("MAIN.stLens.aTable[3]").unwrap();
    assert_eq!(first.offset, array.offset);
    assert_eq!(later.offset.0, first.offset.0 + 3 * first.size);
    assert_eq!(array.size, 32 * first.size);
    let zoom = binder.bind("main.STLENS.atable[3].FZOOM").unwrap();
    assert_eq!((zoom.offset, zoom.size), (later.offset, 4));
    assert_eq!(zoom.type_name, b"REAL");
    let types = binder.types().data();
    let Source::DataType(at) = zoom.source else {
        panic!("a member is of a data type");
    };
    let record = DataType::try_from_slice(&types[at..]).unwrap();
    assert_eq!(record.name(), b"fZoom");
    assert_eq!(
        place(types, record.type_name()),
        place(types, zoom.type_name)
    );
}

#[test]
fn refused_paths() {
    let binder = binder();
    for (path, expected) in [
        ("NoSuchSymbol", refusal(13, 0, 0)),
        ("MAIN.stLens.nope", refusal(13, 12, 1)),
        ("MAIN.stLens.stZoom.fEnd.none", refusal(13, 24, 2)),
        ("MAIN.stLens.aTable[99]", refusal(14, 32, 19)),
        ("MAIN.stLens..fEnd", refusal(20, 12, 0)),
        ("MAIN.stLens.aTable.fZoom", refusal(21, 19, 1)),
        ("MAIN.stLens.aTable[3,1]", refusal(21, 21, 0)),
    ] {
        assert_eq!(binder.bind(path), Err(expected), "{path}");
    }
}

#[test]
fn through_slots_that_are_lent() {
    let (symbols, types, binder) = (rig(), types(), binder());
    let (mut symbol_slots, mut type_slots) = ([0; 999], [0; 999]);
    let symbols = NameIndex::build(&symbols, Mode::Present, &mut symbol_slots).unwrap();
    let types = NameIndex::build(&types, Mode::Present, &mut type_slots).unwrap();
    let path = "MAIN.stLens.stZoom.fEnd";
    assert_eq!(bind(symbols, types, path), binder.bind(path));
    let none = NameIndex::over(symbols.data(), symbols.mode(), &[]);
    assert_eq!(bind(none, types, path), Err(refusal(13, 0, 0)));
}

/// A symbol, by the bytes of "Symbol entries".
fn symbol(name: &[u8], type_name: &[u8], offset: u32, size: u32) -> Vec<u8> {
    let len = (33 + name.len() + type_name.len()) as u32;
    let numbers = [len, 0x4040, offset, size, 0, 0].map(u32::to_le_bytes);
    let lens = [name.len() as u16, type_name.len() as u16, 0].map(u16::to_le_bytes);
    [
        &numbers.concat(),
        &lens.concat(),
        name,
        &[0],
        type_name,
        &[0, 0],
    ]
    .concat()
}

/// A data type, or a member of one, by the bytes of "Field entries".
fn entry(
    name: &[u8],
    type_name: &[u8],
    [size, offset, flags]: [u32; 3],
    members: &[Vec<u8>],
) -> Vec<u8> {
    let len = (45 + name.len() + type_name.len() + members.concat().len()) as u32;
    let numbers = [len, 0, 0, 0, size, offset, 0, flags].map(u32::to_le_bytes);
    let counts = [name.len(), type_name.len(), 0, 0, members.len()];
    let counts = counts.map(|n| (n as u16).to_le_bytes());
    let strings = [name, &[0], type_name, &[0, 0]].concat();
    [numbers.concat(), counts.concat(), strings, members.concat()].concat()
}

#[test]
fn a_pointer_has_an_address_and_nothing_below_it() {
    let symbols = [
        symbol(b"M.pLens", b"POINTER TO ST", 1000, 8),
        symbol(b"M.stLens", b"ST", 2000, 40),
    ];
    let members = [
        entry(b"fEnd", b"REAL", [4, 24, 0], &[]),
        entry(b"pNext", b"ST", [8, 28, 0x0080_0000], &[]),
        entry(b"iNext", b"none", [4, 36, 0x0080_0400], &[]),
    ];
    let types = [
        entry(b"POINTER TO ST", b"ST", [8, 0, 0x0080_0001], &[]),
        entry(b"ST", b"", [40, 0, 1], &members),
    ];
    let binder = Binder::new(symbols.concat(), types.concat()).unwrap();
    for (path, offset, size) in [
        ("M.pLens", 1000, 8),
        ("M.stLens.fEnd", 2024, 4),
        ("M.stLens.pNext", 2028, 8),
        ("M.stLens.iNext", 2036, 4),
    ] {
        let address = binder.bind(path).unwrap();
        assert_eq!((address.offset.0, address.size), (offset, size), "{path}");
    }
    for (path, expected) in [
        ("M.pLens.fEnd", refusal(22, 8, 0x0080_0000)),
        ("M.pLens[0]", refusal(22, 8, 0x0080_0000)),
        ("M.stLens.pNext.fEnd", refusal(22, 15, 0x0080_0000)),
        ("M.stLens.iNext.fEnd", refusal(22, 15, 0x400)),
        ("M.pLens..", refusal(20, 8, 0)),
    ] {
        assert_eq!(binder.bind(path), Err(expected), "{path}");
    }
}
