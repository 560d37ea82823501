//! Whole data types: trees that were laid out by hand, refusals at every depth, random and damaged trees against a model of
//! its own, in both modes.

mod common;

use common::plain::PlainField;
use common::tree::{self, Told, Tree};
use common::{Random, place, refusal, types};
use vindaskot::data_type::{parse_next_entry, parse_next_entry_in};
use vindaskot::{
    AdsAttribute, AdsFieldInfo, AdsFieldInfoIterator, AdsTypeFlags, ArrayInfo, DataType,
    DataTypeIterator, FieldNumbers, LIMIT, MEMBER_SLOTS, Member, MemberPlace, Mode, Refusal,
    RefusalKind,
};

const MODES: [Mode; 2] = [Mode::Present, Mode::Checked];

fn is_checked(mode: Mode) -> bool {
    mode == Mode::Checked
}

/// What stands in slots that were lent and not written.
const UNTOUCHED: u64 = 0xA5A5_A5A5_A5A5_A5A5;

// ---- All that can be asked, against the model

/// That a record is what the model tells, each string and value where it stands in the root's data.
fn assert_record(data: &[u8], told: &Told, record: &DataType<'_>) {
    let start = told.place();
    assert_eq!(place(data, record.as_bytes()), start);
    assert_eq!(record.as_bytes().len(), told.length);
    let own = record.as_bytes();
    let numbers = FieldNumbers {
        version: record.version(),
        hash_value: record.hash_value(),
        type_hash_value: record.type_hash_value(),
        size: record.size(),
        offset: record.offset(),
        type_id: record.type_id(),
        flags: record.flags(),
    };
    assert_eq!(numbers, told.numbers);
    assert_eq!(record.numbers(), told.numbers);
    let strings = [record.name(), record.type_name(), record.comment()];
    for (string, range) in strings.iter().zip(&told.strings) {
        assert_eq!(place(own, string), range.start);
        assert_eq!(string.len(), range.len());
    }
    assert_eq!(record.guid(), told.guid);
    assert_eq!(record.sub_item_count(), told.sub_items);
    assert_eq!(record.member_count(), told.members);
    let arrays: Vec<_> = record.arrays().map(bounds).collect();
    assert_eq!(arrays, told.arrays);
    assert_eq!(record.attributes().len(), told.attributes.len());
    for (attribute, ranges) in record.attributes().zip(&told.attributes) {
        assert_attribute(own, ranges, &attribute);
    }
}

fn bounds(record: ArrayInfo) -> (i32, u32) {
    (record.lower_bound, record.elements)
}

fn assert_attribute(own: &[u8], ranges: &[std::ops::Range<usize>; 2], told: &AdsAttribute<'_>) {
    for (string, range) in [told.name(), told.value()].iter().zip(ranges) {
        assert_eq!(place(own, string), range.start);
        assert_eq!(string.len(), range.len());
    }
}

/// Arrays and attributes of an entry that is read in a mode, by number and by name.
fn ask_lists(told: &Told, record: &DataType<'_>, mode: Mode) {
    let own = record.as_bytes();
    let count = told.arrays.len();
    for (number, expected) in told.arrays.iter().enumerate() {
        assert_eq!(record.array_in(number, mode).map(bounds), Ok(*expected));
    }
    for number in [count, count + 1, usize::MAX] {
        let why = Err(refusal(14, count, number));
        assert_eq!(record.array_in(number, mode), why);
    }
    let count = told.attributes.len();
    for (number, ranges) in told.attributes.iter().enumerate() {
        assert_attribute(own, ranges, &record.attribute_in(number, mode).unwrap());
        let name = own[ranges[0].clone()].to_vec();
        let first = told
            .attributes
            .iter()
            .find(|one| own[one[0].clone()] == name);
        let named = record.attribute_named_in(&name, mode).unwrap();
        assert_attribute(own, first.unwrap(), &named);
    }
    for number in [count, usize::MAX] {
        let why = Err(refusal(14, count, number));
        assert_eq!(record.attribute_in(number, mode), why);
    }
    let none = record.attribute_named_in(b"no such attribute", mode);
    assert_eq!(none, Err(refusal(13, 0, 0)));
}

/// The members of a root that is read in a mode, by number and in one pass, each read at its place once more.
fn ask_members(data: &[u8], told: &[Told], root: &DataType<'_>, mode: Mode) {
    let members = &told[1..];
    // More than are needed: room for another member.
    let mut slots = vec![UNTOUCHED; MEMBER_SLOTS * members.len() + 4];
    let passed = root.members_in(&mut slots, mode).unwrap();
    assert_eq!(passed.len(), members.len());
    for (number, (told, passed)) in members.iter().zip(passed).enumerate() {
        let member = root.member_in(number, mode).unwrap();
        assert_record(data, told, &member.data_type());
        assert_eq!(member.path(), told.path);
        let asked = (member.place(), member.depth(), member.offset_from_start());
        assert_eq!(asked, (told.place(), told.depth(), told.offset_from_start));
        assert_eq!(member.offset(), told.numbers.offset);
        assert_eq!(asked, seen(&passed));
        let read = passed.read_in(mode).unwrap();
        assert_eq!(read, member.data_type());
        ask_lists(told, &read, mode);
    }
    for number in [members.len(), members.len() + 1, usize::MAX] {
        let why = Err(refusal(14, members.len(), number));
        assert_eq!(root.member_in(number, mode), why);
    }
    assert_eq!(slots[MEMBER_SLOTS * members.len()..], [UNTOUCHED; 4]);
    // One slot too few, and none: refused, and nothing is written.
    slots.fill(UNTOUCHED);
    let needed = MEMBER_SLOTS * members.len();
    for lent in [0, needed.saturating_sub(1)] {
        let expected = if lent < needed {
            Err(refusal(6, needed, lent))
        } else {
            Ok(0)
        };
        let passed = root.members_in(&mut slots[..lent], mode);
        assert_eq!(passed.map(|members| members.len()), expected);
        assert!(slots.iter().all(|slot| *slot == UNTOUCHED));
    }
}

fn seen(member: &MemberPlace<'_>) -> (usize, usize, u64) {
    (member.place(), member.depth(), member.offset_from_start())
}

/// Everything of the entry at the start of `data`, in both modes, against the model; its refusal in the checked mode, or 0.
fn ask(data: &[u8]) -> u32 {
    let mut number = 0;
    for mode in MODES {
        let expected = tree::read(data, is_checked(mode));
        let read = DataType::try_from_slice_in(data, mode);
        if mode == Mode::Present {
            assert_eq!(DataType::try_from_slice(data), read);
            assert_eq!(DataType::try_from(data), read);
        }
        match (&expected, &read) {
            (Ok(told), Ok(root)) => {
                assert_record(data, &told[0], root);
                ask_lists(&told[0], root, mode);
                ask_members(data, told, root, mode);
                assert_field(data, root, mode);
            }
            (Err(why), Err(told)) => {
                assert_eq!(told, why);
                number = why.number;
            }
            _ => panic!("{mode:?}: expected {expected:?}, read {read:?}"),
        }
    }
    // What the present mode has read, asked again in the checked one, is refused first of all.
    if let (Ok(root), Err(why)) = (DataType::try_from_slice(data), tree::read(data, true)) {
        let checked = Mode::Checked;
        let mut slots = [UNTOUCHED; 9];
        assert_eq!(root.array_in(usize::MAX, checked), Err(why));
        assert_eq!(root.attribute_in(usize::MAX, checked), Err(why));
        assert_eq!(root.attribute_named_in(b"", checked), Err(why));
        assert_eq!(root.member_in(usize::MAX, checked), Err(why));
        assert_eq!(root.members_in(&mut slots, checked).unwrap_err(), why);
        assert_eq!(slots, [UNTOUCHED; 9]);
    }
    number
}

/// The field reader, which skips sub-items, tells the same of every entry that is accepted here.
fn assert_field(data: &[u8], root: &DataType<'_>, mode: Mode) {
    let field = AdsFieldInfo::try_from_slice_in(data, mode).unwrap();
    assert_eq!(field.numbers(), root.numbers());
    assert_eq!(field.as_bytes(), root.as_bytes());
    let strings = [field.name(), field.type_name(), field.comment()];
    assert_eq!(strings, [root.name(), root.type_name(), root.comment()]);
    assert_eq!(field.guid(), root.guid());
    assert!(field.attributes().eq(root.attributes()));
}

// ---- Trees as they were laid out

/// What a tree was made of is what it tells, and nothing of this is the model's.
fn assert_tree(tree: &Tree, record: &DataType<'_>) {
    let numbers = FieldNumbers {
        flags: tree.flags(),
        ..tree.numbers
    };
    assert_eq!(record.numbers(), numbers);
    assert_eq!(record.as_bytes(), tree.bytes());
    assert_eq!(record.name(), tree.name);
    assert_eq!(record.type_name(), tree.type_name);
    assert_eq!(record.comment(), tree.comment);
    assert_eq!(record.guid(), tree.guid);
    assert!(record.arrays().map(bounds).eq(tree.arrays.iter().copied()));
    let attributes = tree.attributes.as_deref().unwrap_or_default();
    let shown = record.attributes();
    assert!(shown.eq(attributes.iter().map(|(n, v)| AdsAttribute::new(n, v))));
    assert_eq!(record.sub_item_count(), tree.sub_items.len());
    assert_eq!(record.member_count(), tree.all().len() - 1);
}

#[test]
fn trees_tell_what_they_were_made_of() {
    let mut r = Random(31);
    let mut deepest = 0;
    for _ in 0..2000 {
        let tree = Tree::random(&mut r, &mut 20, 15);
        let bytes = tree.bytes();
        let all = tree.all();
        for mode in MODES {
            let root = DataType::try_from_slice_in(&bytes, mode).unwrap();
            assert_tree(&tree, &root);
            let mut slots = vec![0; MEMBER_SLOTS * root.member_count()];
            let passed = root.members_in(&mut slots, mode).unwrap();
            for (number, (passed, (item, depth, start))) in passed.zip(&all[1..]).enumerate() {
                let member = root.member_in(number, mode).unwrap();
                assert_tree(item, &member.data_type());
                assert_eq!(passed.read(), Ok(member.data_type()));
                assert_eq!(member.depth(), *depth);
                assert_eq!(member.offset_from_start(), *start);
                assert_eq!(seen(&passed), (member.place(), *depth, *start));
                deepest = deepest.max(*depth);
            }
        }
    }
    assert_eq!(deepest, 16);
}

/// Without a mode, it is the present one.
#[test]
fn calls_without_a_mode_are_of_the_present_one() {
    let mut upload = types();
    let table = starts(&upload)[2];
    let shading = DataType::try_from_slice(&upload[table..])
        .unwrap()
        .member(18);
    let shading = table + shading.unwrap().place();
    // The end bytes of the table's name and of a member's: only the checked mode minds.
    upload[table + 42 + b"ST_LensTable".len()] = b'X';
    upload[shading + 42 + b"aShading".len()] = b'Y';
    let data = &upload[table..];
    let why = refusal(16, 54, usize::from(b'X'));
    assert_eq!(DataType::try_from_slice_in(data, Mode::Checked), Err(why));
    let root = DataType::try_from_slice(data).unwrap();
    let present = Mode::Present;
    assert_eq!(DataType::try_from_slice_in(data, present), Ok(root));
    assert_eq!(root.attribute(0), root.attribute_in(0, present));
    let name = b"LensTable";
    let named = root.attribute_named(name);
    assert_eq!(named, root.attribute_named_in(name, present));
    assert_eq!(named.unwrap().value(), b"27x6.5");
    let shading = root.member(18).unwrap();
    assert_eq!(root.member_in(18, present), Ok(shading));
    let shading = shading.data_type();
    assert_eq!(shading.name(), b"aShading");
    assert_eq!(shading.array(1).map(bounds), Ok((1, 4)));
    assert_eq!(shading.array(1), shading.array_in(1, present));
    let mut slots = [[0; MEMBER_SLOTS * 20]; 2];
    let [first, second] = &mut slots;
    let members = root.members(first).unwrap();
    assert!(
        members
            .clone()
            .eq(root.members_in(second, present).unwrap())
    );
    let passed = members.clone().nth(18).unwrap();
    assert_eq!(passed.read(), Ok(shading));
    assert_eq!(passed.read_in(present), Ok(shading));
    let why = refusal(16, 50, usize::from(b'Y'));
    assert_eq!(passed.read_in(Mode::Checked), Err(why));
    assert_eq!(shading.array_in(1, Mode::Checked), Err(why));
    let mut cursor = table;
    assert_eq!(parse_next_entry(&upload, &mut cursor), Some(Ok(root)));
    let mut again = table;
    let step = parse_next_entry_in(&upload, &mut again, present);
    assert_eq!((step, again), (Some(Ok(root)), cursor));
    let items = DataTypeIterator::new(&upload);
    assert_eq!(items, DataTypeIterator::new_in(&upload, present));
}

// ---- The sample

fn starts(upload: &[u8]) -> Vec<usize> {
    let items = DataTypeIterator::new(upload).with_starts();
    items.map(|(start, _)| start).collect()
}

/// A member a line: depth, offset from the start, own offset, size, name and arrays, as the sample's script has them.
const LENS_TABLE: &str = "\
2 0 0 32 sSerial []
2 32 32 2 nCurves []
2 36 36 136 stZoom []
3 36 0 4 fStart []
3 40 4 4 fEnd []
3 44 8 128 aPoints [(-2, 8)]
4 44 0 4 fZoom []
4 48 4 4 fFocus []
4 52 8 4 fIris []
4 56 12 4 fFieldOfView []
2 172 172 136 stFocus []
3 172 0 4 fStart []
3 176 4 4 fEnd []
3 180 8 128 aPoints [(-2, 8)]
4 180 0 4 fZoom []
4 184 4 4 fFocus []
4 188 8 4 fIris []
4 192 12 4 fFieldOfView []
2 312 312 96 aShading [(-1, 3), (1, 4)]
2 408 408 1 bExtender []";

#[test]
fn the_lens_table() {
    let upload = types();
    let mut items = DataTypeIterator::new_in(&upload, Mode::Checked);
    let table = items.nth(2).unwrap().unwrap();
    assert_eq!(table.name(), b"ST_LensTable");
    assert_eq!((table.sub_item_count(), table.member_count()), (6, 20));
    let mut slots = [0; MEMBER_SLOTS * 20];
    let lines = table.members(&mut slots).unwrap().map(|member| {
        let record = member.read().unwrap();
        let arrays: Vec<_> = record.arrays().map(bounds).collect();
        format!(
            "{} {} {} {} {} {arrays:?}",
            member.depth(),
            member.offset_from_start(),
            record.offset(),
            record.size(),
            String::from_utf8_lossy(record.name()),
        )
    });
    assert!(lines.eq(LENS_TABLE.lines()));
    // What the renderer asks for: where the zoom curve ends, and which bytes of the table say where it is.
    let end = table.member(4).unwrap();
    let asked = end.data_type().attribute_named(b"ZoomCurveEnd").unwrap();
    assert_eq!(asked.value(), b"0.9375");
    assert_eq!((end.offset(), end.offset_from_start()), (4, 40));
    assert_eq!(end.path().len(), end.depth() - 1);
    assert_eq!(table.member(20), Err(refusal(14, 20, 20)));
}

/// A member a line: offset from the start, size, name, and which of the four flags it has, as the sample's script has them.
const LENS_PANEL: &str = "\
64 1 bZoomLock [false, true, false, false]
65 1 bFocusLock [false, true, false, false]
16 8 refPoint [true, false, false, false]
16 4 fZoom [false, false, false, false]
20 4 fFocus [false, false, false, false]
24 4 fIris [false, false, false, false]
28 4 fFieldOfView [false, false, false, false]
0 4 nPanels [false, false, false, true]
0 4 fTilt [false, false, true, false]";

/// What an offset counts, or whether it is a place, its flags say; it is told as sent.
#[test]
fn the_lens_panel() {
    let upload = types();
    let panel = DataTypeIterator::new(&upload).nth(6).unwrap().unwrap();
    assert_eq!(panel.name(), b"FB_LensPanel");
    let marks = [
        AdsTypeFlags::REFERENCE_TO,
        AdsTypeFlags::BIT_VALUES,
        AdsTypeFlags::PROP_ITEM,
        AdsTypeFlags::STATIC,
    ];
    assert_eq!(marks.map(AdsTypeFlags::as_raw), [0x4, 0x20, 0x40, 0x20000]);
    let mut slots = [0; MEMBER_SLOTS * 9];
    let lines = panel.members(&mut slots).unwrap().map(|member| {
        let record = member.read().unwrap();
        format!(
            "{} {} {} {:?}",
            member.offset_from_start(),
            record.size(),
            String::from_utf8_lossy(record.name()),
            marks.map(|mark| record.flags().contains(mark)),
        )
    });
    assert!(lines.eq(LENS_PANEL.lines()));
}

/// Every byte of the sample made 0, 1, 255 and one more, its lengths and counts too.
#[test]
fn any_byte_of_the_sample_may_be_wrong() {
    let mut upload = types();
    let mut ends = starts(&upload);
    ends.push(upload.len());
    let mut refused = 0;
    for pair in ends.windows(2) {
        for at in pair[0]..pair[1] {
            let right = upload[at];
            for byte in [0, 1, 255, right.wrapping_add(1)] {
                upload[at] = byte;
                refused += usize::from(ask(&upload[pair[0]..pair[1]]) != 0);
            }
            upload[at] = right;
        }
    }
    assert!(refused > 2000, "{refused}");
}

#[test]
fn cut_anywhere() {
    let upload = types();
    let starts = starts(&upload);
    let table = &upload[starts[2]..starts[3]];
    for length in 0..=table.len() {
        ask(&table[..length]);
        // The claim cut as well, so that the entry is what is short.
        let mut cut = table[..length].to_vec();
        if let Some(claim) = cut.first_chunk_mut() {
            *claim = (length as u32).to_le_bytes();
        }
        ask(&cut);
    }
}

// ---- Depth

/// Entries that stand in each other, the innermost of these bytes at that depth.
fn nested(depth: usize, inner: Vec<u8>) -> Vec<u8> {
    let parent = Tree::named(b"p");
    (1..depth).fold(inner, |item, _| parent.bytes_with(&[item]))
}

#[test]
fn sixteen_deep_is_read_and_seventeen_is_not() {
    let leaf = Tree::named(b"leaf").bytes();
    for depth in 1..=16 {
        let entry = nested(depth, leaf.clone());
        assert_eq!(ask(&entry), 0);
        let root = DataType::try_from_slice(&entry).unwrap();
        assert_eq!(root.member_count(), depth - 1);
        if depth > 1 {
            let last = root.member(depth - 2).unwrap();
            assert_eq!(last.data_type().name(), b"leaf");
            assert_eq!(last.depth(), depth);
            // A parent has 46 bytes before its sub-item.
            let path: Vec<_> = (1..depth).map(|number| 46 * number).collect();
            assert_eq!(last.path(), path);
        }
    }
    let why = refusal(15, 16, 17);
    assert!(why.is(RefusalKind::TooDeep));
    for depth in 17..=20 {
        let entry = nested(depth, leaf.clone());
        assert_eq!(DataType::try_from_slice(&entry), Err(why));
        ask(&entry);
    }
}

/// Whatever stands deeper, or nothing at all: 15 is met before a byte of it is.
#[test]
fn what_stands_at_depth_seventeen_is_not_looked_at() {
    let leaf = Tree::named(b"leaf");
    let mut short = vec![0; 60];
    short[0] = 61;
    let items = [vec![], vec![0xFF; 3], vec![0; 4], short, vec![0xFF; 50]];
    for item in items {
        let entry = nested(16, leaf.bytes_with(&[item]));
        assert_eq!(ask(&entry), 15);
        let read = DataType::try_from_slice(&entry);
        assert_eq!(read, Err(refusal(15, 16, 17)));
    }
    // Beside a sub-item at depth 16, in an entry at depth 15 of two: the second is too deep only below itself.
    let deep = leaf.bytes_with(&[vec![]]);
    for items in [[leaf.bytes(), deep.clone()], [deep, leaf.bytes()]] {
        let entry = nested(15, leaf.bytes_with(&items));
        let read = DataType::try_from_slice(&entry);
        assert_eq!(read, Err(refusal(15, 16, 17)));
    }
}

/// The sum of the offsets has 64 bits: fifteen times the most that an entry can say.
#[test]
fn offsets_beyond_32_bits() {
    let most = Tree {
        numbers: FieldNumbers {
            offset: u32::MAX,
            ..FieldNumbers::default()
        },
        ..Tree::default()
    };
    let entry = (1..16).fold(most.bytes(), |item, _| most.bytes_with(&[item]));
    assert_eq!(ask(&entry), 0);
    let root = DataType::try_from_slice(&entry).unwrap();
    let mut slots = [0; 45];
    let members = root.members(&mut slots).unwrap();
    for (number, passed) in members.enumerate() {
        // The root's own offset is not among them.
        let sum = (number as u64 + 1) * u64::from(u32::MAX);
        let member = root.member(number).unwrap();
        assert_eq!(member.offset(), u32::MAX);
        assert_eq!(member.offset_from_start(), sum);
        assert_eq!(passed.offset_from_start(), sum);
    }
}

// ---- Refusals

/// An entry of a claim and zeros: of three empty strings where it is 45 bytes or more.
fn claiming(claim: u32, length: usize) -> Vec<u8> {
    let mut entry = vec![0; length];
    entry[..4].copy_from_slice(&claim.to_le_bytes());
    entry
}

/// An entry with one byte changed.
fn with(mut entry: Vec<u8>, at: usize, byte: u8) -> Vec<u8> {
    entry[at] = byte;
    entry
}

/// An entry whose attributes are these bytes, with the count before them.
fn with_attributes(count: u8, records: &[u8]) -> Vec<u8> {
    let tree = Tree {
        attributes: Some(vec![]),
        more: records.to_vec(),
        ..Tree::default()
    };
    with(tree.bytes(), 45, count)
}

/// An entry with one sub-item of these bytes.
fn around(item: Vec<u8>) -> Vec<u8> {
    Tree::default().bytes_with(&[item])
}

/// Faulty entries with why they are refused, worked out by hand: in both modes or in the checked one alone, and whether the
/// fault is met at a sub-item, which at depth 16 is too deep first.
fn faults() -> Vec<(Vec<u8>, Refusal, bool, bool)> {
    let named = || Tree::named(b"name").bytes();
    let array = || {
        let arrays = vec![(0, 1)];
        let tree = Tree {
            arrays,
            ..Tree::default()
        };
        tree.bytes()
    };
    let shortened = |mut entry: Vec<u8>| {
        entry.pop();
        let claim = entry.len() as u8;
        with(entry, 0, claim)
    };
    let (always, checked) = (false, true);
    let (own, item) = (false, true);
    vec![
        // Strings that leave the entry by a byte, end bytes, array records that leave it by a byte and by 65,534 records.
        (shortened(named()), refusal(3, 49, 48), always, own),
        (claiming(42, 42), refusal(3, 45, 42), always, own),
        (claiming(44, 44), refusal(3, 45, 44), always, own),
        (with(named(), 46, 9), refusal(16, 46, 9), checked, own),
        (with(named(), 47, 9), refusal(16, 47, 9), checked, own),
        (with(named(), 48, 255), refusal(16, 48, 255), checked, own),
        (shortened(array()), refusal(3, 53, 52), always, own),
        (
            with(with(array(), 38, 255), 39, 255),
            refusal(3, 45 + 8 * 65_535, 53),
            always,
            own,
        ),
        // Sub-items: none there, cut below their claim, a claim that leaves the parent by a byte, one below the header.
        (around(vec![]), refusal(2, 4, 0), always, item),
        (around(vec![45, 0, 0]), refusal(2, 4, 3), always, item),
        (around(claiming(46, 45)), refusal(3, 46, 45), always, item),
        (
            around(claiming(u32::MAX, 45)),
            refusal(3, u32::MAX as usize, 45),
            always,
            item,
        ),
        // Both of these: that it leaves the parent is met first.
        (around(claiming(41, 40)), refusal(3, 41, 40), always, item),
        (around(claiming(5, 4)), refusal(3, 5, 4), always, item),
        (around(claiming(41, 45)), refusal(4, 42, 41), always, item),
        (around(claiming(0, 4)), refusal(4, 42, 0), always, item),
        (around(claiming(42, 50)), refusal(3, 45, 42), always, item),
        // A second one, where the count says so.
        (
            with(around(claiming(45, 45)), 40, 2),
            refusal(2, 4, 0),
            always,
            item,
        ),
        // Attributes: under four bytes, under the whole, end bytes of the name and of the value; and none after the count.
        (with_attributes(1, b""), refusal(2, 4, 0), always, own),
        (with_attributes(1, b"\0\0\0"), refusal(2, 4, 3), always, own),
        (
            with_attributes(1, b"\x01\x01a\0b"),
            refusal(1, 6, 5),
            always,
            own,
        ),
        (
            with_attributes(2, b"\0\0\0\0\x01\0a"),
            refusal(2, 4, 3),
            always,
            own,
        ),
        (
            with_attributes(1, b"\x01\x01a\x02b\0"),
            refusal(16, 50, 2),
            checked,
            own,
        ),
        (
            with_attributes(1, b"\x01\x01a\0b\x03"),
            refusal(16, 52, 3),
            checked,
            own,
        ),
    ]
}

/// At each depth, beside sound entries and before faulty ones: what is met first decides, and its figures count from the
/// faulty entry's own start.
#[test]
fn each_refusal_at_each_depth() {
    let sound = Tree::named(b"sound").bytes();
    let later = [
        claiming(41, 41),
        claiming(43, 43),
        with(Tree::named(b"x").bytes(), 0, 200),
        vec![0xFF; 60],
    ];
    for depth in 1..=16 {
        for (fault, why, only_checked, at_item) in faults() {
            let why = if at_item && depth == 16 {
                refusal(15, 16, 17)
            } else {
                why
            };
            let mut all = vec![nested(depth, fault.clone())];
            if depth > 1 {
                let parent = Tree::named(b"parent");
                let beside = parent.bytes_with(&[sound.clone(), fault.clone(), sound.clone()]);
                all.push(nested(depth - 1, beside));
            }
            for entry in &all {
                for mode in MODES {
                    let refused = is_checked(mode) || !only_checked;
                    let read = DataType::try_from_slice_in(entry, mode);
                    let expected = if refused { Err(why) } else { Ok(()) };
                    assert_eq!(read.map(|_| ()), expected, "{depth} {mode:?}");
                }
                ask(entry);
            }
            if depth > 1 {
                for item in &later {
                    let parent = with_attributes(9, b"");
                    let length = parent.len() + fault.len() + item.len();
                    let mut entry = [&parent[..45], &fault, item, &parent[45..]].concat();
                    entry[..4].copy_from_slice(&(length as u32).to_le_bytes());
                    entry[40] = 2;
                    let entry = nested(depth - 1, entry);
                    let read = DataType::try_from_slice_in(&entry, Mode::Checked);
                    assert_eq!(read, Err(why), "{depth}");
                    ask(&entry);
                }
            }
        }
    }
}

/// Of faults in one entry the one that is met first: strings, end bytes, array records, sub-items, attributes.
#[test]
fn the_first_fault_decides() {
    let mut entry = Tree {
        name: b"name".to_vec(),
        arrays: vec![(1, 2)],
        attributes: Some(vec![(b"a".to_vec(), b"b".to_vec())]),
        ..Tree::default()
    }
    .bytes_with(&[claiming(41, 41)]);
    let expected = |entry: &[u8], present: Refusal, checked: Refusal| {
        ask(entry);
        for (mode, why) in [(Mode::Present, present), (Mode::Checked, checked)] {
            assert_eq!(DataType::try_from_slice_in(entry, mode), Err(why));
        }
    };
    let length = entry.len();
    // The sub-item before the attribute.
    entry[length - 1] = 7;
    expected(&entry, refusal(4, 42, 41), refusal(4, 42, 41));
    // The array records before the sub-item.
    entry[39] = 1;
    let arrays = refusal(3, 49 + 8 * 257, length);
    expected(&entry, arrays, arrays);
    // The end byte before the array records, in the checked mode.
    entry[48] = 6;
    expected(&entry, arrays, refusal(16, 48, 6));
    entry[46] = 5;
    expected(&entry, arrays, refusal(16, 46, 5));
    // The strings before their end bytes.
    entry[33] = 2;
    let strings = refusal(3, 49 + 512, length);
    expected(&entry, strings, strings);
}

/// The checks of the root before its own bytes are read.
#[test]
fn the_root_is_read_directly() {
    let entry = Tree::named(b"name").bytes();
    for length in 0..42 {
        let read = DataType::try_from_slice(&entry[..length]);
        assert_eq!(read, Err(refusal(2, 42, length)));
    }
    for length in 42..entry.len() {
        let read = DataType::try_from_slice(&entry[..length]);
        assert_eq!(read, Err(refusal(3, entry.len(), length)));
    }
    for claim in 0..42 {
        let entry = with(entry.clone(), 0, claim as u8);
        let read = DataType::try_from_slice(&entry);
        assert_eq!(read, Err(refusal(4, 42, claim)));
    }
    let large = claiming(45, LIMIT + 1);
    let why = refusal(5, LIMIT, LIMIT + 1);
    for mode in MODES {
        assert_eq!(DataType::try_from_slice_in(&large, mode), Err(why));
        let read = DataType::try_from_slice_in(&large[..LIMIT], mode);
        assert_eq!(read.unwrap().as_bytes().len(), 45);
    }
}

// ---- Counts

#[test]
fn arrays_to_the_most_that_can_be_counted() {
    let mut r = Random(32);
    for count in [0, 1, 2, 255, 256, 65_534, 65_535] {
        let arrays: Vec<_> = (0..count).map(|_| (r.word() as i32, r.word())).collect();
        let tree = Tree {
            arrays: arrays.clone(),
            ..Tree::default()
        };
        let bytes = around(tree.bytes());
        let root = DataType::try_from_slice(&bytes).unwrap();
        let member = root.member(0).unwrap().data_type();
        assert_eq!(member.arrays().len(), count);
        assert!(member.arrays().map(bounds).eq(arrays.iter().copied()));
        assert!(
            member
                .arrays()
                .rev()
                .map(bounds)
                .eq(arrays.iter().copied().rev())
        );
        for (number, expected) in arrays.iter().enumerate() {
            assert_eq!(member.array(number).map(bounds), Ok(*expected));
        }
        let why = Err(refusal(14, count, count));
        assert_eq!(member.array(count), why);
        assert_eq!(root.arrays().len(), 0);
    }
}

/// IEC arrays may begin below 0; a lower bound has 32 bits and a sign.
#[test]
fn bounds_below_zero() {
    let arrays = vec![
        (-2, 8),
        (i32::MIN, u32::MAX),
        (i32::MAX, u32::MAX),
        (-1, 0),
        (0, 1),
    ];
    let tree = Tree {
        arrays: arrays.clone(),
        ..Tree::default()
    };
    let bytes = tree.bytes();
    let root = DataType::try_from_slice(&bytes).unwrap();
    let upper = [5, i64::from(i32::MAX) - 1, 0x1_7FFF_FFFD, -2, 0];
    for (number, (expected, upper)) in arrays.into_iter().zip(upper).enumerate() {
        let record = root.array(number).unwrap();
        assert_eq!(bounds(record), expected);
        assert_eq!(record.upper_bound(), upper);
        assert_eq!(root.arrays().nth(number), Some(record));
    }
}

/// As many sub-items as can be counted, of 45 bytes, the least that is accepted: in an entry by itself and in one of two.
#[test]
fn sub_items_to_the_most_that_can_be_counted() {
    let count = 65_535;
    let items: Vec<_> = (0..count as u32)
        .map(|number| {
            let mut item = claiming(45, 45);
            item[20..24].copy_from_slice(&(number * 3).to_le_bytes());
            item
        })
        .collect();
    let entry = Tree::default().bytes_with(&items);
    let two = Tree::default().bytes_with(&[entry.clone(), entry.clone()]);
    for mode in MODES {
        let root = DataType::try_from_slice_in(&entry, mode).unwrap();
        assert_eq!((root.sub_item_count(), root.member_count()), (count, count));
        let mut slots = vec![0; MEMBER_SLOTS * count];
        let members = root.members_in(&mut slots, mode).unwrap();
        for (number, member) in members.enumerate() {
            let expected = (45 + 45 * number, 2, 3 * number as u64);
            assert_eq!(seen(&member), expected);
        }
        for number in [0, 1, 30_000, count - 1] {
            let member = root.member_in(number, mode).unwrap();
            assert_eq!(member.path(), [45 + 45 * number]);
            assert_eq!(member.offset_from_start(), 3 * number as u64);
        }
        let root = DataType::try_from_slice_in(&two, mode).unwrap();
        assert_eq!(root.sub_item_count(), 2);
        assert_eq!(root.member_count(), 2 * (count + 1));
        let last = root.member_in(2 * count + 1, mode).unwrap();
        assert_eq!(last.path(), [45 + entry.len(), two.len() - 45]);
    }
    // One more than there are.
    let mut short = entry.clone();
    short.truncate(entry.len() - 45);
    let claim = short.len() as u32;
    short[..4].copy_from_slice(&claim.to_le_bytes());
    let read = DataType::try_from_slice(&short);
    assert_eq!(read, Err(refusal(2, 4, 0)));
}

// ---- Sections

/// Methods are skipped by their lengths and may lead past the end, and then there are no attributes. What stands behind the
/// attributes is not read.
#[test]
fn what_is_skipped() {
    let base = Tree {
        methods: Some(vec![b"Home".to_vec()]),
        attributes: Some(vec![(b"a".to_vec(), b"b".to_vec())]),
        more: vec![0xFF; 9],
        ..Tree::default()
    };
    let sound = base.bytes();
    for entry in [sound.clone(), nested(16, sound.clone())] {
        assert_eq!(ask(&entry), 0);
    }
    let read = DataType::try_from_slice(&sound).unwrap();
    assert_eq!(read.attributes().len(), 1);
    // The first method's length, behind the header, three end bytes and the count of methods.
    for length in [0, 5, 200, u32::MAX] {
        let mut entry = sound.clone();
        entry[47..51].copy_from_slice(&length.to_le_bytes());
        ask(&entry);
        ask(&nested(16, entry));
    }
    let past = with(sound, 47, 200);
    let read = DataType::try_from_slice(&past).unwrap();
    assert_eq!(read.attributes().len(), 0);
    // A mask ends with the entry, and a GUID that does not fit is none.
    let flags = |word: u32, size: u32| {
        let mut entry = claiming(60, 60);
        entry[28..32].copy_from_slice(&word.to_le_bytes());
        entry[16..20].copy_from_slice(&size.to_le_bytes());
        entry
    };
    for (word, size) in [
        (tree::GUID, 0),
        (tree::COPY_MASK | tree::ATTRIBUTES, u32::MAX),
        (tree::COPY_MASK | tree::ATTRIBUTES, 13),
        (tree::COPY_MASK | tree::ATTRIBUTES, 14),
        (tree::GUID | tree::ATTRIBUTES, 0),
    ] {
        assert_eq!(ask(&flags(word, size)), 0, "{word:X} {size}");
    }
}

// ---- Iterators

#[test]
fn members_from_both_ends() {
    let upload = types();
    let table = DataTypeIterator::new(&upload).nth(2).unwrap().unwrap();
    let mut slots = [0; MEMBER_SLOTS * 20];
    let members = table.members(&mut slots).unwrap();
    let all: Vec<_> = members.clone().collect();
    assert_eq!(all.len(), 20);
    let back: Vec<_> = members.clone().rev().collect();
    assert!(back.iter().rev().eq(&all));
    let mut both = members.clone();
    for number in 0..10 {
        assert_eq!(both.len(), 20 - 2 * number);
        assert_eq!(both.size_hint(), (both.len(), Some(both.len())));
        assert_eq!(both.next(), Some(all[number]));
        assert_eq!(both.next_back(), Some(all[19 - number]));
    }
    for _ in 0..2 {
        assert_eq!((both.next(), both.next_back()), (None, None));
        assert_eq!(both.len(), 0);
    }
    let shown = format!("{members:?}");
    assert!(shown.starts_with("[MemberPlace { place: "), "{shown}");
    assert_eq!(shown.matches("depth: ").count(), 20);
    assert!(!shown.contains("root"), "{shown}");
}

#[test]
fn arrays_from_both_ends() {
    let arrays = vec![(1, 2), (3, 4), (-5, 6)];
    let tree = Tree {
        arrays,
        ..Tree::default()
    };
    let bytes = tree.bytes();
    let root = DataType::try_from_slice(&bytes).unwrap();
    let mut both = root.arrays();
    assert_eq!((both.len(), both.size_hint()), (3, (3, Some(3))));
    assert_eq!(both.next().map(bounds), Some((1, 2)));
    assert_eq!(both.next_back().map(bounds), Some((-5, 6)));
    assert_eq!(both.len(), 1);
    assert_eq!(both.next_back().map(bounds), Some((3, 4)));
    for _ in 0..2 {
        assert_eq!((both.next(), both.next_back()), (None, None));
    }
}

/// What a root, a member and the pass give outlives them: it is the upload's.
#[test]
fn what_is_told_outlives_the_reading() {
    fn end_of_the_curve(upload: &[u8]) -> (&[u8], DataType<'_>, Vec<MemberPlace<'_>>) {
        let table = DataTypeIterator::new(upload).nth(2).unwrap().unwrap();
        let member: Member<'_> = table.member(4).unwrap();
        let name = b"ZoomCurveEnd".to_vec();
        let value = member.data_type().attribute_named(&name).unwrap().value();
        let mut slots = [0; MEMBER_SLOTS * 20];
        let members = table.members(&mut slots).unwrap().collect();
        (value, member.data_type(), members)
    }
    let upload = types();
    let (value, end, members) = end_of_the_curve(&upload);
    let table = starts(&upload)[2];
    assert_eq!(value, b"0.9375");
    assert_eq!(place(&upload, end.as_bytes()), table + members[4].place());
    assert!(place(&upload, value) > place(&upload, end.name()));
    assert_eq!(members[4].read(), Ok(end));
}

// ---- At random

/// Damage that leaves much to be read: a length or a count of some entry one off, an end byte, any byte, or an end cut off.
fn damage(r: &mut Random, entry: &mut Vec<u8>) {
    let all = tree::read(entry, false).unwrap();
    for _ in 0..1 + r.below(2) {
        let one = &all[r.below(all.len())];
        let start = one.place();
        let at = match r.below(8) {
            0 => start,
            1 | 2 => start + [32, 34, 36, 38, 40][r.below(5)],
            3 | 4 => start + one.strings[r.below(3)].end,
            5 => match one.attributes.last() {
                Some(strings) => start + strings[r.below(2)].end,
                None => start + 28 + r.below(4),
            },
            6 => start + one.length - 1,
            _ => r.below(entry.len()),
        };
        let change = [1, 255, 2, r.next() as u8][r.below(4)];
        entry[at] = entry[at].wrapping_add(change);
        if at == start && r.coin() {
            entry[at..at + 2].copy_from_slice(&[r.below(46) as u8, 0]);
        }
    }
    if r.below(6) == 0 {
        entry.truncate(entry.len() - r.below(20).min(entry.len() - 4));
        let length = entry.len() as u32;
        entry[..4].copy_from_slice(&length.to_le_bytes());
    }
}

#[test]
fn damaged_trees_at_random() {
    let mut r = Random(33);
    let mut met = [0; 17];
    for _ in 0..30_000 {
        let deep = [3, 3, 15, 15, 16][r.below(5)];
        let tree = Tree::random(&mut r, &mut 18, deep);
        let mut entry = tree.bytes();
        if tree.all().iter().all(|(_, depth, _)| *depth <= 16) && r.below(5) > 0 {
            damage(&mut r, &mut entry);
        }
        met[ask(&entry) as usize] += 1;
    }
    // 5 and those of other calls are not met here; each of the others is, and so are accepted trees.
    let few: Vec<_> = [0, 1, 2, 3, 4, 15, 16]
        .into_iter()
        .filter(|number| met[*number] < 300)
        .collect();
    assert!(few.is_empty(), "{met:?}");
}

#[test]
fn bytes_at_random() {
    let mut r = Random(34);
    for _ in 0..20_000 {
        let length = r.below(200);
        let mut data: Vec<u8> = (0..length)
            .map(|_| [0, 0, 0, 1, 45, r.next() as u8][r.below(6)])
            .collect();
        if data.len() >= 42 && r.below(8) > 0 {
            let claim = (data.len() - r.below(3)) as u32;
            data[..4].copy_from_slice(&claim.to_le_bytes());
            // Few and short, so that more than the strings is read.
            for half in data[32..42].chunks_exact_mut(2) {
                half.copy_from_slice(&[r.below(3) as u8, 0]);
            }
        }
        ask(&data);
    }
}

// ---- The walk

/// The walk over any upload in both modes, against the model and beside the field walker, which goes the same way.
fn walk_both(upload: &[u8]) -> usize {
    let mut refused = 0;
    for mode in MODES {
        let mut items = DataTypeIterator::new_in(upload, mode);
        let mut fields = AdsFieldInfoIterator::new_in(upload, mode);
        let mut at = 0;
        loop {
            let mut cursor = at;
            let stepped = parse_next_entry_in(upload, &mut cursor, mode);
            assert_eq!((items.position(), fields.position()), (at, at));
            let (item, field) = (items.next(), fields.next());
            assert_eq!(item, stepped);
            assert_eq!(item.is_some(), field.is_some());
            let Some((expected, next)) = tree::step(upload, at, is_checked(mode)) else {
                assert_eq!(item, None);
                break;
            };
            assert_eq!(cursor, next);
            match (expected, item.unwrap()) {
                (Ok(told), Ok(root)) => {
                    let data = &upload[at..];
                    assert_record(data, &told[0], &root);
                    assert_eq!(DataType::try_from_slice_in(data, mode), Ok(root));
                }
                (expected, item) => {
                    assert_eq!(item.map(|_| ()), expected.map(|_| ()));
                    refused += 1;
                }
            }
            if next == at {
                // A zero claim: the step would be the same for ever, and the iterator has ended.
                assert_eq!((items.next(), items.position()), (None, at));
                break;
            }
            at = next;
        }
        assert_eq!(items.next(), None);
    }
    refused
}

#[test]
fn the_walk_over_the_sample() {
    let upload = types();
    assert_eq!(walk_both(&upload), 0);
    let names: Vec<_> = DataTypeIterator::new(&upload)
        .with_starts()
        .map(|(start, item)| (start, item.unwrap()))
        .collect();
    assert_eq!(names.len(), 11);
    for (start, item) in names {
        assert_eq!(place(&upload, item.name()), start + 42);
    }
}

#[test]
fn steps_that_are_refused() {
    let entry = Tree::named(b"name").bytes();
    let step = |upload: &[u8], at: usize| {
        walk_both(upload);
        let mut cursor = at;
        let item = parse_next_entry(upload, &mut cursor).unwrap();
        (item.map(|_| ()), cursor)
    };
    for claim in 1..42 {
        let upload = [&claiming(claim as u32, 42)[..claim.max(4)], &entry].concat();
        assert_eq!(step(&upload, 0), (Err(refusal(2, 42, claim)), claim));
    }
    let zero = [&entry[..], &[0; 50]].concat();
    let length = entry.len();
    assert_eq!(step(&zero, length), (Err(refusal(2, 42, 0)), length));
    for short in 1..4 {
        let upload = [&entry[..], &[9; 3][..short]].concat();
        let why = refusal(2, length + 4, length + short);
        assert_eq!(step(&upload, length), (Err(why), length + short));
    }
    let beyond = [&entry[..], &claiming(51, 50)].concat();
    let end = length + 50;
    assert_eq!(step(&beyond, length), (Err(refusal(3, 51, 50)), end));
    for at in [length, length + 1, usize::MAX] {
        let mut cursor = at;
        assert_eq!(parse_next_entry(&entry, &mut cursor), None);
        assert_eq!(cursor, at);
    }
}

/// A refused data type is passed by its length, whatever is wrong deep in it, and the next is read.
#[test]
fn uploads_at_random() {
    let mut r = Random(35);
    let mut refused = 0;
    for _ in 0..3000 {
        let mut upload = Vec::new();
        for _ in 0..r.below(5) {
            let mut entry = Tree::random(&mut r, &mut 8, 15).bytes();
            if r.coin() {
                damage(&mut r, &mut entry);
            }
            upload.extend(entry);
        }
        if r.below(4) == 0 {
            upload.extend(r.bytes(6));
        }
        refused += walk_both(&upload);
    }
    assert!(refused > 3000, "{refused}");
}

/// Over fit field records this reader's walk tells the same fields, no array record and no member.
#[test]
fn fit_fields_are_data_types_without_members() {
    let mut r = Random(36);
    for _ in 0..300 {
        let fields: Vec<_> = (0..r.below(6))
            .map(|_| PlainField::random(&mut r))
            .collect();
        let upload: Vec<u8> = fields.iter().flat_map(PlainField::write).collect();
        assert_eq!(walk_both(&upload), 0);
        for mode in MODES {
            let items: Vec<_> = DataTypeIterator::new_in(&upload, mode).collect();
            assert_eq!(items.len(), fields.len());
            for (item, field) in items.iter().zip(&fields) {
                let item = item.unwrap();
                field.assert_told_by(&AdsFieldInfo::try_from_slice(item.as_bytes()).unwrap());
                assert_field(item.as_bytes(), &item, mode);
                assert_eq!((item.arrays().len(), item.member_count()), (0, 0));
                assert_eq!(item.member_in(0, mode), Err(refusal(14, 0, 0)));
                assert_eq!(item.members_in(&mut [], mode).unwrap().len(), 0);
            }
        }
    }
}
