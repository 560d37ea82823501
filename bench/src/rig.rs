//! The input: symbols such as the controller of a studio's camera rigs uploads, from a seed, written by the library.
use crate::c;
use crate::dice::Dice;

const GUID: u16 = 0x0008;
const ATTRIBUTES: u16 = 0x1000;
const EXTENDED: u16 = 0x8000;
const REFACTOR: u32 = 0x0004;
const FIELD_GUID: u32 = 0x0080;
const FIELD_ATTRIBUTES: u32 = 0x1000;
pub const STRUCTURE: u32 = 65;

/// A rig's devices, each with the type of its structure.
pub const DEVICES: [(&str, &str); 8] = [
    ("stPedestal", "ST_Pedestal"),
    ("stJib", "ST_Jib"),
    ("stLens", "ST_BoxLens"),
    ("stHead", "ST_RemoteHead"),
    ("stTracking", "ST_Tracking"),
    ("stTally", "ST_Tally"),
    ("stPrompter", "ST_Prompter"),
    ("stSafety", "ST_SafetyChain"),
];

const MEMBERS: [&str; 15] = [
    "fPosition",
    "fPositionRaw",
    "fSpeed",
    "fSpeedLimit",
    "fAcceleration",
    "fTargetPosition",
    "nState",
    "nErrorId",
    "nEncoderCounts",
    "bEnabled",
    "bBrakeReleased",
    "bLimitSwitchUpper",
    "bLimitSwitchLower",
    "sSerialNumber",
    "aCurve",
];

/// Type name, type id, size.
const SCALARS: [(&str, u32, u32); 8] = [
    ("BOOL", 33, 1),
    ("INT", 2, 2),
    ("UINT", 18, 2),
    ("DINT", 3, 4),
    ("UDINT", 19, 4),
    ("REAL", 4, 4),
    ("LREAL", 5, 8),
    ("STRING(31)", 30, 32),
];

/// Half of them with letters that take two bytes in UTF-8, as a German studio writes them.
const COMMENTS: [&str; 10] = [
    "Höhe der Säule über dem Boden, in Millimetern",
    "geprüft nach dem Umbau, Wert für die Übergabe",
    "Druck für den Gewichtsausgleich",
    "Stützpunkte der Kennlinie, aufsteigend nach Öffnung",
    "Größte zulässige Geschwindigkeit beim Zurückfahren",
    "set by the operator's panel, read back once a frame",
    "raw encoder value before the lens table is applied",
    "true while the axis is held by its brake",
    "last fault, cleared by a reset of the head",
    "position in the studio's own coordinates",
];

const NOTES: [(&str, &str); 8] = [
    ("unit", "mm"),
    ("unit", "deg"),
    ("ZoomCurveEnd", "0.9375"),
    ("OPC.UA.DA", "1"),
    ("OPC.UA.DA.Access", "3"),
    ("TcHmiSymbol.AddSymbol", ""),
    ("displaymode", "hex"),
    ("encoder_resolution", "0.0000152587890625"),
];

const FORMER: [&str; 5] = ["fPos", "nStatus", "stOptic", "bPark", "nBallast"];

pub struct Symbol {
    pub group: u32,
    pub offset: u32,
    pub size: u32,
    pub type_id: u32,
    pub flags: u16,
    pub high: u16,
    pub extended: u32,
    /// 16 bytes, or none.
    pub guid: Vec<u8>,
    pub name: Vec<u8>,
    pub type_name: Vec<u8>,
    pub comment: Vec<u8>,
    pub attributes: Vec<(Vec<u8>, Vec<u8>)>,
    /// The attributes, written.
    pub block: Vec<u8>,
    /// Counts and names of refactor records.
    pub former: Vec<(u32, Vec<u8>)>,
    /// The refactor records, written.
    pub chain: Vec<u8>,
}

impl Symbol {
    /// The flags of a field with the same sections.
    pub fn field_flags(&self) -> u32 {
        let guid = if self.guid.is_empty() { 0 } else { FIELD_GUID };
        let attributes = if self.attributes.is_empty() {
            0
        } else {
            FIELD_ATTRIBUTES
        };
        guid | attributes
    }
}

/// Windows-1252 of a text all of whose letters are below U+0100 and so are their own bytes.
fn bytes_of(text: &str) -> Vec<u8> {
    text.chars().map(|c| u8::try_from(c).unwrap()).collect()
}

/// Name, type name, type id and size of the symbol of a number: a rig's devices, each followed by its members.
fn named(number: usize, dice: &mut Dice) -> (String, String, u32, u32) {
    let each = MEMBERS.len() + 1;
    let (camera, rest) = (
        number / (DEVICES.len() * each),
        number % (DEVICES.len() * each),
    );
    let (device, structure) = DEVICES[rest / each];
    let above = format!("MAIN.stRig.aCamera[{camera:03}].{device}");
    if rest.is_multiple_of(each) {
        return (above, structure.into(), STRUCTURE, 256);
    }
    let member = MEMBERS[rest % each - 1];
    let name = format!("{above}.{member}");
    if member.starts_with('a') {
        return (
            name,
            format!("ARRAY [0..31] OF {structure}Point"),
            STRUCTURE,
            512,
        );
    }
    let (type_name, type_id, size) = SCALARS[dice.below(SCALARS.len())];
    (name, type_name.into(), type_id, size)
}

fn block_of(attributes: &[(Vec<u8>, Vec<u8>)]) -> Vec<u8> {
    let mut out = [0; 515];
    let mut block = Vec::new();
    for (name, value) in attributes {
        let n = c::attribute_write(name, value, &mut out);
        block.extend_from_slice(&out[..n]);
    }
    block
}

fn chain_of(former: &[(u32, Vec<u8>)]) -> Vec<u8> {
    let mut out = [0; 300];
    let mut chain = Vec::new();
    for (i, (count, name)) in former.iter().enumerate() {
        let n = c::refactor_write(*count, i + 1 < former.len(), name, &mut out);
        chain.extend_from_slice(&out[..n]);
    }
    chain
}

fn attributes(dice: &mut Dice) -> Vec<(Vec<u8>, Vec<u8>)> {
    let notes = if dice.percent(60) {
        1 + dice.below(4)
    } else {
        0
    };
    (0..notes)
        .map(|_| NOTES[dice.below(NOTES.len())])
        .map(|(name, value)| (bytes_of(name), bytes_of(value)))
        .collect()
}

fn former_names(dice: &mut Dice) -> Vec<(u32, Vec<u8>)> {
    let names = if dice.percent(2) {
        1 + dice.below(3)
    } else {
        0
    };
    (0..names)
        .map(|i| (i as u32 % 2, bytes_of(dice.one(&FORMER))))
        .collect()
}

/// Of ten symbols one has a high that is not 0, of dice of its own: all else is as it would be without.
fn high(number: usize) -> u16 {
    if number % 10 == 3 {
        Dice::new(number as u64).roll() as u16 | 1
    } else {
        0
    }
}

/// GUIDs stand beside structures; of a hundred symbols 75 have a comment, 60 attributes and 2 former names.
fn symbol(number: usize, offset: u32, dice: &mut Dice) -> Symbol {
    let (name, type_name, type_id, size) = named(number, dice);
    let sixteen = if type_id == STRUCTURE { 16 } else { 0 };
    let guid: Vec<u8> = (0..sixteen).map(|_| dice.roll() as u8).collect();
    let comment = if dice.percent(75) {
        dice.one(&COMMENTS)
    } else {
        ""
    };
    let attributes = attributes(dice);
    let former = former_names(dice);
    let flag = |here: bool, bit: u16| if here { bit } else { 0 };
    let renamed = !former.is_empty();
    Symbol {
        group: 0x4040,
        offset,
        size,
        type_id,
        flags: flag(!guid.is_empty(), GUID)
            | flag(!attributes.is_empty(), ATTRIBUTES)
            | flag(renamed, EXTENDED),
        high: high(number),
        extended: if renamed { REFACTOR } else { 0 },
        guid,
        name: name.into_bytes(),
        type_name: type_name.into_bytes(),
        comment: bytes_of(comment),
        block: block_of(&attributes),
        attributes,
        chain: chain_of(&former),
        former,
    }
}

/// Symbols, all of different names, and their upload.
pub struct Rig {
    pub symbols: Vec<Symbol>,
    pub upload: Vec<u8>,
    pub starts: Vec<usize>,
}

impl Rig {
    /// At most so many symbols in at most so many bytes.
    pub fn new(seed: u64, symbols: usize, bytes: usize) -> Self {
        let mut dice = Dice::new(seed);
        let mut offset = 0x5000;
        let all = (0..symbols).map(|number| {
            let s = symbol(number, offset, &mut dice);
            offset += s.size;
            s
        });
        Self::of(all, bytes)
    }

    /// The same symbols without sections, as a sheet holds them.
    pub fn bare(seed: u64, symbols: usize) -> Self {
        let mut all = Self::new(seed, symbols, usize::MAX).symbols;
        for s in &mut all {
            s.flags &= !(GUID | ATTRIBUTES | EXTENDED);
            s.extended = 0;
            s.guid.clear();
            s.attributes.clear();
            s.block.clear();
            s.former.clear();
            s.chain.clear();
        }
        Self::of(all.into_iter(), usize::MAX)
    }

    /// The hardest names for a search: all of one length, and alike but for the digits near their end.
    pub fn alike(seed: u64, symbols: usize) -> Self {
        Self::named(seed, symbols, |n| {
            format!("MAIN.stRig.stLens.aCurve[{n:05}].fZoom")
        })
    }

    /// The hardest for a search that begins at the end.
    pub fn ends_alike(seed: u64, symbols: usize) -> Self {
        Self::named(seed, symbols, |n| {
            format!("AX{n:05}.stLens.aCurve.stPoint.fPositionRaw")
        })
    }

    fn named(seed: u64, symbols: usize, name: impl Fn(usize) -> String) -> Self {
        let mut dice = Dice::new(seed);
        let all = (0..symbols).map(|number| {
            let mut s = symbol(number, 4 * number as u32, &mut dice);
            s.name = name(number).into_bytes();
            s
        });
        Self::of(all, usize::MAX)
    }

    fn of(all: impl Iterator<Item = Symbol>, bytes: usize) -> Self {
        let mut rig = Self {
            symbols: Vec::new(),
            upload: Vec::new(),
            starts: Vec::new(),
        };
        let mut out = [0; 4096];
        for s in all {
            let n = c::symbol_write(&s, &mut out);
            if bytes < rig.upload.len() + n {
                break;
            }
            rig.starts.push(rig.upload.len());
            rig.upload.extend_from_slice(&out[..n]);
            rig.symbols.push(s);
        }
        rig
    }
}
