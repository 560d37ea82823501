//! Data type entries: trees laid out by hand, and what reading any bytes must tell, worked out after docs/FORMAT.md.

use std::ops::Range;

use super::{Random, refusal};
use vindaskot::{AdsTypeFlags, FieldNumbers, Refusal};

pub const GUID: u32 = 0x0080;
pub const COPY_MASK: u32 = 0x0200;
pub const METHODS: u32 = 0x0800;
pub const ATTRIBUTES: u32 = 0x1000;
const SECTIONS: u32 = GUID | COPY_MASK | METHODS | ATTRIBUTES;

/// The most that reading takes.
const LIMIT: usize = 16_777_216;
const DEEPEST: usize = 16;

/// A data type entry with the members that stand in it. Its flags are those given and those of the sections that it has.
#[derive(Clone, Default)]
pub struct Tree {
    pub numbers: FieldNumbers,
    pub name: Vec<u8>,
    pub type_name: Vec<u8>,
    pub comment: Vec<u8>,
    pub arrays: Vec<(i32, u32)>,
    pub sub_items: Vec<Tree>,
    pub guid: Option<[u8; 16]>,
    pub mask: bool,
    pub methods: Option<Vec<Vec<u8>>>,
    pub attributes: Option<Vec<(Vec<u8>, Vec<u8>)>>,
    /// What stands behind the attributes, where they are there.
    pub more: Vec<u8>,
}

impl Tree {
    pub fn named(name: &[u8]) -> Self {
        Self {
            name: name.to_vec(),
            ..Self::default()
        }
    }

    /// An entry of any content, with up to `most` entries in it, to `deep` below it.
    pub fn random(r: &mut Random, most: &mut usize, deep: usize) -> Self {
        let attributes = r.coin().then(|| {
            let count = r.below(3);
            (0..count).map(|_| (r.bytes(6), r.bytes(6))).collect()
        });
        let methods = (r.below(4) == 0).then(|| {
            let count = r.below(3);
            (0..count).map(|_| r.bytes(9)).collect()
        });
        let mask = r.below(4) == 0;
        let mut tree = Self {
            numbers: FieldNumbers {
                version: r.word(),
                hash_value: r.word(),
                type_hash_value: r.word(),
                size: if mask { r.below(20) as u32 } else { r.word() },
                offset: r.word(),
                type_id: r.word(),
                flags: AdsTypeFlags(r.word() & !SECTIONS),
            },
            name: r.bytes(12),
            type_name: r.bytes(12),
            comment: r.bytes(6),
            arrays: (0..[0, 0, 1, 2][r.below(4)])
                .map(|_| (r.word() as i32, r.word()))
                .collect(),
            guid: r.coin().then(|| std::array::from_fn(|_| r.next() as u8)),
            mask,
            methods,
            more: if attributes.is_some() {
                r.bytes(5)
            } else {
                Vec::new()
            },
            attributes,
            ..Self::default()
        };
        // Often one and no more, so that some trees are deep.
        let wanted = if deep == 0 {
            0
        } else {
            [1, 1, 2, 4][r.below(4)]
        };
        for _ in 0..wanted {
            if *most == 0 {
                break;
            }
            *most -= 1;
            tree.sub_items.push(Self::random(r, most, deep - 1));
        }
        tree
    }

    /// The flags as the entry has them.
    pub fn flags(&self) -> AdsTypeFlags {
        let sections = [
            (self.guid.is_some(), GUID),
            (self.mask, COPY_MASK),
            (self.methods.is_some(), METHODS),
            (self.attributes.is_some(), ATTRIBUTES),
        ];
        let there = sections.iter().filter(|(there, _)| *there);
        AdsTypeFlags(self.numbers.flags.0 | there.map(|(_, bit)| bit).sum::<u32>())
    }

    /// The entry as docs/FORMAT.md lays it out.
    pub fn bytes(&self) -> Vec<u8> {
        let items: Vec<_> = self.sub_items.iter().map(Self::bytes).collect();
        self.bytes_with(&items)
    }

    /// The same with other bytes for its sub-items, sound or not.
    pub fn bytes_with(&self, items: &[Vec<u8>]) -> Vec<u8> {
        let n = &self.numbers;
        let words = [
            n.version,
            n.hash_value,
            n.type_hash_value,
            n.size,
            n.offset,
            n.type_id,
            self.flags().0,
        ];
        let strings = [&self.name, &self.type_name, &self.comment];
        let lengths = strings.map(Vec::len);
        let counts = [self.arrays.len(), items.len()];
        let halves = lengths.iter().chain(&counts).map(|number| *number as u16);
        let mut rest: Vec<u8> = words.iter().flat_map(|word| word.to_le_bytes()).collect();
        rest.extend(halves.flat_map(u16::to_le_bytes));
        for string in strings {
            rest.extend(string);
            rest.push(0);
        }
        for (lower, elements) in &self.arrays {
            rest.extend(lower.to_le_bytes());
            rest.extend(elements.to_le_bytes());
        }
        rest.extend(items.iter().flatten());
        rest.extend(self.guid.iter().flatten());
        if self.mask {
            rest.extend(vec![0x77; n.size as usize]);
        }
        if let Some(methods) = &self.methods {
            rest.extend((methods.len() as u16).to_le_bytes());
            for method in methods {
                rest.extend((method.len() as u32 + 4).to_le_bytes());
                rest.extend(method);
            }
        }
        if let Some(attributes) = &self.attributes {
            rest.extend((attributes.len() as u16).to_le_bytes());
            for (name, value) in attributes {
                rest.extend([name.len() as u8, value.len() as u8]);
                rest.extend([name, &[0][..], value, &[0]].concat());
            }
        }
        rest.extend(&self.more);
        [&(rest.len() as u32 + 4).to_le_bytes()[..], &rest].concat()
    }

    /// The tree itself and all members in it, each with its depth and its offset from the start: parents first.
    pub fn all(&self) -> Vec<(&Tree, usize, u64)> {
        let mut all = vec![(self, 1, 0)];
        self.add_below(1, 0, &mut all);
        all
    }

    fn add_below<'t>(&'t self, depth: usize, start: u64, all: &mut Vec<(&'t Tree, usize, u64)>) {
        for item in &self.sub_items {
            let start = start + u64::from(item.numbers.offset);
            all.push((item, depth + 1, start));
            item.add_below(depth + 1, start, all);
        }
    }
}

/// What is told of an entry: the root, or one of its members.
#[derive(Debug, Clone, PartialEq)]
pub struct Told {
    /// Where the entries on the way to it start in the root, itself the last; none for the root.
    pub path: Vec<usize>,
    pub offset_from_start: u64,
    pub length: usize,
    pub numbers: FieldNumbers,
    /// Name, type and comment, from the entry's own start.
    pub strings: [Range<usize>; 3],
    pub guid: Option<[u8; 16]>,
    /// Names and values likewise.
    pub attributes: Vec<[Range<usize>; 2]>,
    pub arrays: Vec<(i32, u32)>,
    pub sub_items: usize,
    pub members: usize,
}

impl Told {
    /// Where it starts in the root.
    pub fn place(&self) -> usize {
        self.path.last().copied().unwrap_or(0)
    }

    pub fn depth(&self) -> usize {
        self.path.len() + 1
    }
}

fn number(bytes: &[u8], at: usize, width: usize) -> usize {
    let digits = bytes[at..at + width].iter().rev();
    digits.fold(0, |number, byte| number << 8 | usize::from(*byte))
}

/// One entry that is being read.
struct Reading<'a> {
    /// Its own bytes, as many as it claims.
    own: &'a [u8],
    at: usize,
    checked: bool,
}

impl Reading<'_> {
    /// Bytes from the place on to the entry's end. Methods may lead past it.
    fn left(&self) -> usize {
        self.own.len().saturating_sub(self.at)
    }

    fn take(&mut self, width: usize) -> usize {
        let number = number(self.own, self.at, width);
        self.at += width;
        number
    }

    /// A string that is there, with its end byte.
    fn string(&mut self, length: usize) -> Range<usize> {
        let string = self.at..self.at + length;
        self.at = string.end + 1;
        string
    }

    /// Behind the length checks of that same string group.
    fn ends(&self, strings: &[Range<usize>]) -> Result<(), Refusal> {
        let ends = strings
            .iter()
            .map(|string| (string.end, self.own[string.end]));
        match ends.into_iter().find(|(_, byte)| *byte != 0) {
            Some((place, byte)) if self.checked => Err(refusal(16, place, usize::from(byte))),
            _ => Ok(()),
        }
    }

    fn attribute(&mut self) -> Result<[Range<usize>; 2], Refusal> {
        let left = self.left();
        if left < 4 {
            return Err(refusal(2, 4, left));
        }
        let lengths = [self.take(1), self.take(1)];
        let whole = 4 + lengths[0] + lengths[1];
        if left < whole {
            return Err(refusal(1, whole, left));
        }
        let strings = lengths.map(|length| self.string(length));
        self.ends(&strings)?;
        Ok(strings)
    }
}

/// The reading of the entry at the start of `data`: the root, then its members by their numbers.
pub fn read(data: &[u8], checked: bool) -> Result<Vec<Told>, Refusal> {
    if data.len() > LIMIT {
        return Err(refusal(5, LIMIT, data.len()));
    }
    if data.len() < 42 {
        return Err(refusal(2, 42, data.len()));
    }
    let claim = number(data, 0, 4);
    if claim > data.len() {
        return Err(refusal(3, claim, data.len()));
    }
    if claim < 42 {
        return Err(refusal(4, 42, claim));
    }
    let mut all = Vec::new();
    entry(&data[..claim], checked, &[], 0, &mut all)?;
    Ok(all)
}

fn entry(
    own: &[u8],
    checked: bool,
    path: &[usize],
    offset_from_start: u64,
    all: &mut Vec<Told>,
) -> Result<(), Refusal> {
    let words: [u32; 8] = std::array::from_fn(|i| number(own, 4 * i, 4) as u32);
    let [
        _,
        version,
        hash_value,
        type_hash_value,
        size,
        offset,
        type_id,
        flags,
    ] = words;
    let [name, type_name, comment, arrays, sub_items] =
        std::array::from_fn(|i| number(own, 32 + 2 * i, 2));
    let strings_end = 45 + name + type_name + comment;
    if strings_end > own.len() {
        return Err(refusal(3, strings_end, own.len()));
    }
    let mut reading = Reading {
        own,
        at: 42,
        checked,
    };
    let strings = [name, type_name, comment].map(|length| reading.string(length));
    reading.ends(&strings)?;
    let arrays_end = strings_end + 8 * arrays;
    if arrays_end > own.len() {
        return Err(refusal(3, arrays_end, own.len()));
    }
    let arrays = (0..arrays).map(|_| {
        let lower = reading.take(4) as u32 as i32;
        (lower, reading.take(4) as u32)
    });
    let told = Told {
        path: path.to_vec(),
        offset_from_start,
        length: own.len(),
        numbers: FieldNumbers {
            version,
            hash_value,
            type_hash_value,
            size,
            offset,
            type_id,
            flags: AdsTypeFlags(flags),
        },
        strings,
        guid: None,
        attributes: Vec::new(),
        arrays: arrays.collect(),
        sub_items,
        members: 0,
    };
    let this = all.len();
    let place = told.place();
    all.push(told);
    for _ in 0..sub_items {
        if path.len() + 1 == DEEPEST {
            return Err(refusal(15, DEEPEST, DEEPEST + 1));
        }
        let left = reading.left();
        if left < 4 {
            return Err(refusal(2, 4, left));
        }
        let claim = number(own, reading.at, 4);
        if claim > left {
            return Err(refusal(3, claim, left));
        }
        if claim < 42 {
            return Err(refusal(4, 42, claim));
        }
        let item = &own[reading.at..][..claim];
        let below = [path, &[place + reading.at]].concat();
        let start = offset_from_start + number(item, 20, 4) as u64;
        entry(item, checked, &below, start, all)?;
        reading.at += claim;
    }
    all[this].members = all.len() - this - 1;
    if flags & GUID != 0 && reading.left() >= 16 {
        all[this].guid = own[reading.at..][..16].try_into().ok();
        reading.at += 16;
    }
    if flags & COPY_MASK != 0 {
        reading.at = own.len().min(reading.at + size as usize);
    }
    if flags & METHODS != 0 && reading.left() >= 2 {
        for _ in 0..reading.take(2) {
            if reading.left() < 4 {
                break;
            }
            reading.at += number(own, reading.at, 4);
        }
    }
    if flags & ATTRIBUTES != 0 && reading.left() >= 2 {
        for _ in 0..reading.take(2) {
            let strings = reading.attribute()?;
            all[this].attributes.push(strings);
            if reading.left() == 0 {
                break;
            }
        }
    }
    Ok(())
}

/// A step of the walk: what it gives at the cursor, and where it leads; nothing at the end.
pub fn step(data: &[u8], at: usize, checked: bool) -> Option<(Result<Vec<Told>, Refusal>, usize)> {
    let left = data.len().checked_sub(at).filter(|left| *left > 0)?;
    if left < 4 {
        return Some((Err(refusal(2, at + 4, data.len())), data.len()));
    }
    let claim = number(data, at, 4);
    if claim > left {
        return Some((Err(refusal(3, claim, left)), data.len()));
    }
    let told = match claim {
        0..42 => Err(refusal(2, 42, claim)),
        _ => read(&data[at..][..claim], checked),
    };
    Some((told, at + claim))
}
