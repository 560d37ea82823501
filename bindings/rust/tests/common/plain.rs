//! Records with their bytes laid out by hand, after docs/FORMAT.md: what the crate's answers are compared with.

use super::{Random, written};
use vindaskot::{
    AdsAttribute, AdsFieldInfo, AdsRefactorInfo, AdsSymbol2Flags, AdsSymbolFlags, AdsSymbolInfo,
    AdsTypeFlags, AttributeWriter, Block, FieldNumbers, FieldParts, IndexGroup, IndexOffset,
    RefactorWriter, Refusal, SymbolNumbers, SymbolParts,
};

const FOLLOWER: u32 = 0x0100_0000;

/// The strings and the sections that symbols and fields have alike.
#[derive(Clone, Default)]
pub struct Common {
    pub guid: Option<[u8; 16]>,
    pub name: Vec<u8>,
    pub type_name: Vec<u8>,
    pub comment: Vec<u8>,
    pub attributes: Vec<(Vec<u8>, Vec<u8>)>,
}

impl Common {
    fn random(r: &mut Random, guid: bool, attributes: bool) -> Self {
        let long = if r.below(20) == 0 { 400 } else { 20 };
        let count = if attributes { r.below(4) } else { 0 };
        Self {
            guid: guid.then(|| std::array::from_fn(|_| r.next() as u8)),
            name: r.bytes(long),
            type_name: r.bytes(long),
            comment: r.bytes(long),
            attributes: (0..count)
                .map(|_| (r.bytes(long.min(255)), r.bytes(12)))
                .collect(),
        }
    }

    fn lengths(&self) -> Vec<u8> {
        let strings = [&self.name, &self.type_name, &self.comment];
        let length = |string: &&Vec<u8>| (string.len() as u16).to_le_bytes();
        strings.iter().flat_map(length).collect()
    }

    fn strings(&self) -> Vec<u8> {
        [&self.name[..], &self.type_name, &self.comment, &[]].join(&0)
    }

    pub fn attribute_bytes(&self) -> Vec<u8> {
        let record = |(name, value): &(Vec<u8>, Vec<u8>)| {
            let lengths = [name.len() as u8, value.len() as u8];
            [&lengths[..], name, &[0], value, &[0]].concat()
        };
        self.attributes.iter().flat_map(record).collect()
    }

    /// The attributes through the crate's writer, in a buffer of just their size.
    fn attribute_block<'o>(&self, out: &'o mut Vec<u8>) -> Block<'o> {
        *out = vec![0; self.attribute_bytes().len()];
        let mut writer = AttributeWriter::new(out);
        for (name, value) in &self.attributes {
            writer.push(&AdsAttribute::new(name, value)).unwrap();
        }
        writer.into_block()
    }

    fn assert_attributes<'a>(&self, shown: impl Iterator<Item = AdsAttribute<'a>>) {
        let shown: Vec<_> = shown
            .map(|a| (a.name().to_vec(), a.value().to_vec()))
            .collect();
        assert_eq!(shown, self.attributes);
    }

    /// Each attribute, asked for by its name, is the first of that name.
    fn assert_named<'a>(&self, asked: impl Fn(&[u8]) -> Result<AdsAttribute<'a>, Refusal>) {
        for (name, _) in &self.attributes {
            let first = self.attributes.iter().find(|(one, _)| one == name);
            let (_, value) = first.unwrap();
            assert_eq!(asked(name), Ok(AdsAttribute::new(name, value)));
        }
    }
}

/// A symbol that the writer accepts.
#[derive(Clone, Default)]
pub struct PlainSymbol {
    pub numbers: SymbolNumbers,
    pub common: Common,
    /// Counts, without the follower bit, and names.
    pub refactors: Vec<(u32, Vec<u8>)>,
}

impl PlainSymbol {
    pub fn random(r: &mut Random) -> Self {
        let (guid, attributes, extended) = (r.coin(), r.coin(), r.coin());
        let links = if extended { r.below(4) } else { 0 };
        let sections = [(guid, 0x0008), (attributes, 0x1000), (extended, 0x8000)];
        let flagged = sections.iter().filter(|(here, _)| *here);
        let flags = r.word() as u16 & !0x9008 | flagged.map(|(_, bit)| bit).sum::<u16>();
        let chain = if links > 0 { 4 } else { 0 };
        let word = r.word();
        Self {
            numbers: SymbolNumbers {
                index_group: IndexGroup(r.word()),
                index_offset: IndexOffset(r.word()),
                size: r.word(),
                data_type_id: r.word(),
                flags: AdsSymbolFlags(flags),
                high: r.word() as u16,
                extended_flags: AdsSymbol2Flags(if extended { word & !4 | chain } else { 0 }),
            },
            common: Common::random(r, guid, attributes),
            refactors: (0..links)
                .map(|_| (r.word() & 0x0011_1111, r.bytes(20)))
                .collect(),
        }
    }

    pub fn named(name: &[u8]) -> Self {
        let mut symbol = Self::default();
        symbol.common.name = name.to_vec();
        symbol
    }

    /// The count that each record shows.
    fn counts(&self) -> impl Iterator<Item = u32> {
        let last = self.refactors.len().saturating_sub(1);
        let counts = self.refactors.iter().enumerate();
        counts.map(move |(i, (count, _))| if i < last { count | FOLLOWER } else { *count })
    }

    pub fn chain_bytes(&self) -> Vec<u8> {
        let records = self.counts().zip(&self.refactors);
        let record = |(packed, (_, name)): (u32, &(u32, Vec<u8>))| {
            let length = (name.len() as u16).to_le_bytes();
            [&packed.to_le_bytes()[..], &length, name, &[0]].concat()
        };
        records.flat_map(record).collect()
    }

    /// The entry as docs/FORMAT.md lays it out.
    pub fn bytes(&self) -> Vec<u8> {
        let n = &self.numbers;
        let words = [n.index_group.0, n.index_offset.0, n.size, n.data_type_id];
        let mut rest: Vec<u8> = words.iter().flat_map(|word| word.to_le_bytes()).collect();
        rest.extend(n.flags.0.to_le_bytes());
        rest.extend(n.high.to_le_bytes());
        rest.extend(self.common.lengths());
        rest.extend(self.common.strings());
        rest.extend(self.common.guid.iter().flatten());
        if n.flags.0 & 0x1000 != 0 {
            rest.extend((self.common.attributes.len() as u16).to_le_bytes());
            rest.extend(self.common.attribute_bytes());
        }
        if n.flags.0 & 0x8000 != 0 {
            rest.extend(n.extended_flags.0.to_le_bytes());
            rest.extend(self.chain_bytes());
        }
        [&(rest.len() as u32 + 4).to_le_bytes()[..], &rest].concat()
    }

    /// The entry as the crate writes it.
    pub fn write(&self) -> Vec<u8> {
        let mut attributes = Vec::new();
        let mut chain = vec![0; self.chain_bytes().len()];
        let mut writer = RefactorWriter::new(&mut chain);
        for (i, (count, name)) in self.refactors.iter().enumerate() {
            let info = AdsRefactorInfo::new(*count, Some(name));
            writer.push(&info, i + 1 < self.refactors.len()).unwrap();
        }
        let parts = SymbolParts {
            guid: self.common.guid,
            name: &self.common.name,
            type_name: &self.common.type_name,
            comment: &self.common.comment,
            attributes: self.common.attribute_block(&mut attributes),
            refactor_infos: writer.into_block(),
        };
        written(|out| self.numbers.write(&parts, out))
    }

    /// Everything that can be asked of the entry answers this record.
    pub fn assert_told_by(&self, info: &AdsSymbolInfo<'_>, unread: usize) {
        let n = &self.numbers;
        assert_eq!(info.index_group(), n.index_group);
        assert_eq!(info.index_offset(), n.index_offset);
        assert_eq!(info.size(), n.size);
        assert_eq!(info.data_type_id(), n.data_type_id);
        assert_eq!(info.flags(), n.flags);
        assert_eq!(info.high(), n.high);
        let extended = n.flags.0 & 0x8000 != 0;
        assert_eq!(info.extended_flags(), extended.then_some(n.extended_flags));
        assert_eq!(info.name(), self.common.name);
        assert_eq!(info.type_name(), self.common.type_name);
        assert_eq!(info.comment(), self.common.comment);
        assert_eq!(info.guid(), self.common.guid);
        assert_eq!(info.unread(), unread);
        self.common.assert_attributes(info.attributes());
        let count = self.common.attributes.len();
        self.common
            .assert_attributes((0..count).map(|n| info.attribute(n).unwrap()));
        self.common.assert_named(|name| info.attribute_named(name));
        self.assert_chain(info.refactor_infos());
        let links = self.refactors.len();
        self.assert_chain((0..links).map(|n| info.refactor_info(n).unwrap()));
    }

    fn assert_chain<'a>(&self, shown: impl Iterator<Item = AdsRefactorInfo<'a>>) {
        let shown: Vec<_> = shown.collect();
        assert_eq!(shown.len(), self.refactors.len());
        for (i, ((info, count), (_, name))) in shown
            .iter()
            .zip(self.counts())
            .zip(&self.refactors)
            .enumerate()
        {
            assert_eq!(info.refactor_count(), count);
            assert_eq!(info.next_refactor_info(), i + 1 < shown.len());
            assert_eq!(info.name(), (!name.is_empty()).then_some(&name[..]));
        }
    }
}

/// A field that the writer accepts and that is fit.
#[derive(Clone, Default)]
pub struct PlainField {
    pub numbers: FieldNumbers,
    pub common: Common,
}

impl PlainField {
    pub fn random(r: &mut Random) -> Self {
        let flags = AdsTypeFlags(r.word() & !0x0800);
        let mask = flags.0 & 0x0200 != 0;
        let common = Common::random(r, flags.0 & 0x0080 != 0, flags.0 & 0x1000 != 0);
        Self {
            numbers: FieldNumbers {
                version: r.word(),
                hash_value: r.word(),
                type_hash_value: r.word(),
                size: if mask { r.below(40) as u32 } else { r.word() },
                offset: r.word(),
                type_id: r.word(),
                flags,
            },
            common,
        }
    }

    /// The entry as docs/FORMAT.md lays it out.
    pub fn bytes(&self) -> Vec<u8> {
        let n = &self.numbers;
        let hashes = [n.version, n.hash_value, n.type_hash_value];
        let words = [n.size, n.offset, n.type_id, n.flags.0];
        let words = hashes.iter().chain(&words);
        let mut rest: Vec<u8> = words.flat_map(|word| word.to_le_bytes()).collect();
        rest.extend(self.common.lengths());
        rest.extend([0; 4]);
        rest.extend(self.common.strings());
        rest.extend(self.common.guid.iter().flatten());
        if n.flags.0 & 0x0200 != 0 {
            rest.extend(vec![0; n.size as usize]);
        }
        if n.flags.0 & 0x1000 != 0 {
            rest.extend((self.common.attributes.len() as u16).to_le_bytes());
            rest.extend(self.common.attribute_bytes());
        }
        [&(rest.len() as u32 + 4).to_le_bytes()[..], &rest].concat()
    }

    /// The entry as the crate writes it.
    pub fn write(&self) -> Vec<u8> {
        let mut attributes = Vec::new();
        let parts = FieldParts {
            guid: self.common.guid,
            name: &self.common.name,
            type_name: &self.common.type_name,
            comment: &self.common.comment,
            attributes: self.common.attribute_block(&mut attributes),
        };
        written(|out| self.numbers.write(&parts, out))
    }

    /// Everything that can be asked of the entry answers this record.
    pub fn assert_told_by(&self, info: &AdsFieldInfo<'_>) {
        let n = &self.numbers;
        assert_eq!(info.version(), n.version);
        assert_eq!(info.hash_value(), n.hash_value);
        assert_eq!(info.type_hash_value(), n.type_hash_value);
        assert_eq!(info.size(), n.size);
        assert_eq!(info.offset(), n.offset);
        assert_eq!(info.data_type(), n.type_id);
        assert_eq!(info.flags(), n.flags);
        assert_eq!(info.name(), self.common.name);
        assert_eq!(info.type_name(), self.common.type_name);
        assert_eq!(info.comment(), self.common.comment);
        assert_eq!(info.guid(), self.common.guid);
        self.common.assert_attributes(info.attributes());
        let count = self.common.attributes.len();
        self.common
            .assert_attributes((0..count).map(|n| info.attribute(n).unwrap()));
        self.common.assert_named(|name| info.attribute_named(name));
    }
}
