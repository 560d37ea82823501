//! Binding: from paths to addresses, through the name indexes of both uploads.
use crate::c;
use crate::clock::{plain, race, wrong};
use crate::dice::Dice;
use crate::report::Report;
use crate::rig::{DEVICES, Rig, STRUCTURE, Symbol};
use crate::sys;
use std::hint::black_box;

/// As many data types as a controller's upload has, each of so many members.
const TYPES: usize = 600;
const PATHS: usize = 9000;

/// Of one type, the last two aside: the next type as a structure, and an array of points.
const MEMBERS: [&str; 24] = [
    "fActual",
    "fDemand",
    "fGain",
    "fOffsetMeasured",
    "nCounter",
    "nStep",
    "fCurrent",
    "fTorque",
    "nVersion",
    "fTemperature",
    "fTravelUpper",
    "fTravelLower",
    "nCycle",
    "fDamping",
    "fFilter",
    "nChannel",
    "fReference",
    "fResidual",
    "nSequence",
    "fLimitUpper",
    "fLimitLower",
    "nReserve",
    "stInner",
    "aPoints",
];
const INNER: usize = 22;
const POINTS: usize = 23;
const POINTS_TYPE: &str = "ARRAY [-2..5] OF ST_LensPoint";
const POINT: [&str; 4] = ["fZoom", "fFocus", "fIris", "fFieldOfView"];

/// A data type, or a member of one.
#[derive(Default)]
struct Entry<'a> {
    name: &'a str,
    type_name: &'a str,
    comment: &'a [u8],
    offset: u32,
    size: u32,
    /// A lower bound, and a number of elements.
    array: Option<(i32, u32)>,
    items: Vec<Vec<u8>>,
}

impl Entry<'_> {
    fn bytes(&self) -> Vec<u8> {
        let mut behind = Vec::new();
        for text in [
            self.name.as_bytes(),
            self.type_name.as_bytes(),
            self.comment,
        ] {
            behind.extend_from_slice(text);
            behind.push(0);
        }
        if let Some((lower, elements)) = self.array {
            behind.extend_from_slice(&lower.to_le_bytes());
            behind.extend_from_slice(&elements.to_le_bytes());
        }
        behind.extend(self.items.concat());
        let length = 42 + behind.len() as u32;
        let numbers = [length, 1, 0, 0, self.size, self.offset, STRUCTURE, 2];
        let counts = [
            self.name.len(),
            self.type_name.len(),
            self.comment.len(),
            self.array.is_some().into(),
            self.items.len(),
        ];
        let mut entry: Vec<u8> = numbers.iter().flat_map(|n| n.to_le_bytes()).collect();
        entry.extend(counts.iter().flat_map(|n| (*n as u16).to_le_bytes()));
        entry.extend(behind);
        entry
    }
}

/// The first types are those of the rig's devices.
fn type_name(number: usize) -> String {
    let families = [
        "ST_Drive",
        "FB_Axis",
        "ST_Motion",
        "FB_Safety",
        "ST_Display",
    ];
    match DEVICES.get(number) {
        Some((_, name)) => name.to_string(),
        None => format!("{}Unit{number:03}", families[number % families.len()]),
    }
}

/// The type of a type's inner structure.
fn inner(number: usize) -> usize {
    (number + DEVICES.len()) % TYPES
}

/// A member of the type of a number: 4 bytes each, but for the inner structure and the points.
fn member(rig: &Rig, number: usize, which: usize) -> Vec<u8> {
    let comment = &rig.symbols[(number * MEMBERS.len() + which) % rig.symbols.len()].comment;
    let structure = type_name(inner(number));
    let (type_name, size) = match which {
        INNER => (structure.as_str(), 256),
        POINTS => (POINTS_TYPE, 128),
        _ if MEMBERS[which].starts_with('f') => ("REAL", 4),
        _ => ("UDINT", 4),
    };
    let entry = Entry {
        name: MEMBERS[which],
        type_name,
        comment,
        offset: offset(which),
        size,
        ..Entry::default()
    };
    entry.bytes()
}

fn offset(which: usize) -> u32 {
    match which {
        POINTS => 128,
        which => 4 * which as u32,
    }
}

/// Points, their array, and the structures, which name the types of their members and do not hold those members' members, as most
/// controllers send it.
fn types(rig: &Rig) -> Vec<u8> {
    let point = |i: usize| {
        let entry = Entry {
            name: POINT[i],
            type_name: "REAL",
            offset: 4 * i as u32,
            size: 4,
            ..Entry::default()
        };
        entry.bytes()
    };
    let points = Entry {
        name: "ST_LensPoint",
        size: 16,
        items: (0..POINT.len()).map(point).collect(),
        ..Entry::default()
    };
    let array = Entry {
        name: POINTS_TYPE,
        type_name: "ST_LensPoint",
        size: 128,
        array: Some((-2, 8)),
        ..Entry::default()
    };
    let mut upload = [points.bytes(), array.bytes()].concat();
    for number in 0..TYPES {
        let entry = Entry {
            name: &type_name(number),
            size: 256,
            items: (0..MEMBERS.len()).map(|i| member(rig, number, i)).collect(),
            ..Entry::default()
        };
        upload.extend(entry.bytes());
    }
    upload
}

/// A path, the names that lead along it, and what its address must be.
struct Asked {
    path: Vec<u8>,
    symbol: Vec<u8>,
    types: Vec<String>,
    offset: u64,
    type_name: &'static str,
}

/// A path below a symbol of a device: into its type, into one that this has inside, two down, or into an array of points.
fn asked(symbol: &Symbol, device: usize, number: usize) -> Asked {
    let which = number % INNER;
    let down = number % 3;
    let mut path = String::from_utf8(symbol.name.clone()).unwrap();
    let mut types = vec![type_name(device)];
    let mut offset_there = u64::from(symbol.offset);
    let mut at = device;
    for _ in 0..down {
        path.push_str(".stInner");
        at = inner(at);
        types.push(type_name(at));
        offset_there += u64::from(offset(INNER));
    }
    let mut told = if MEMBERS[which].starts_with('f') {
        "REAL"
    } else {
        "UDINT"
    };
    if number.is_multiple_of(4) {
        let (element, axis) = (number % 8, number % POINT.len());
        path.push_str(&format!(".aPoints[{}].{}", element as i32 - 2, POINT[axis]));
        types.extend([POINTS_TYPE.to_string(), "ST_LensPoint".to_string()]);
        offset_there += u64::from(offset(POINTS)) + 16 * element as u64 + 4 * axis as u64;
        told = "REAL";
    } else {
        path.push('.');
        path.push_str(MEMBERS[which]);
        offset_there += u64::from(offset(which));
    }
    Asked {
        path: path.into_bytes(),
        symbol: symbol.name.clone(),
        types,
        offset: offset_there,
        type_name: told,
    }
}

/// So many paths below the rig's devices, in an order that is not the upload's.
fn paths(seed: u64, rig: &Rig) -> Vec<Asked> {
    let device_of = |symbol: &Symbol| {
        let mut devices = DEVICES.iter();
        devices.position(|(_, name)| name.as_bytes() == symbol.type_name)
    };
    let devices: Vec<_> = rig
        .symbols
        .iter()
        .filter_map(|symbol| Some((symbol, device_of(symbol)?)))
        .collect();
    let mut paths: Vec<_> = (0..PATHS)
        .map(|i| {
            let (symbol, device) = devices[i % devices.len()];
            asked(symbol, device, i)
        })
        .collect();
    Dice::new(seed).shuffle(&mut paths);
    paths
}

/// Both uploads with the slots of their name indexes.
struct Controller<'a> {
    symbols: &'a [u8],
    symbol_slots: Vec<u32>,
    types: Vec<u8>,
    type_slots: Vec<u32>,
}

impl<'a> Controller<'a> {
    fn new(rig: &'a Rig) -> Self {
        let types = types(rig);
        let mut one = Self {
            symbols: &rig.upload,
            symbol_slots: vec![0; rig.symbols.len()],
            types,
            type_slots: vec![0; TYPES + 2],
        };
        one.order();
        one
    }

    fn order(&mut self) -> u64 {
        let symbols = c::name_index_build(black_box(self.symbols), &mut self.symbol_slots);
        let types = c::type_name_index_build(black_box(&self.types), &mut self.type_slots);
        (symbols + types) as u64
    }

    fn bind(&self, path: &[u8], slots: &mut [u64; sys::ADDRESS_SLOTS]) {
        let symbols = c::Ordered(self.symbols, &self.symbol_slots);
        let types = c::Ordered(&self.types, &self.type_slots);
        c::bind(symbols, types, black_box(path), slots);
    }

    /// Each address is the sum of the offsets that were written, with the size and the type of what the path names.
    fn check(&self, paths: &[Asked]) {
        let mut slots = [0; sys::ADDRESS_SLOTS];
        for asked in paths {
            self.bind(&asked.path, &mut slots);
            let at = (slots[sys::ADDRESS_ENTRY_AT] + slots[sys::ADDRESS_TYPE_NAME_AT]) as usize;
            let told = &self.types[at..at + slots[sys::ADDRESS_TYPE_NAME_LEN] as usize];
            let numbers = [0x4040, asked.offset, 0, 4, 0, 1];
            if slots[..numbers.len()] != numbers || told != asked.type_name.as_bytes() {
                wrong("a path is bound to another address");
            }
        }
    }

    fn sum(&self, paths: &[Asked]) -> u64 {
        let mut slots = [0; sys::ADDRESS_SLOTS];
        let mut sum = 0;
        for asked in paths {
            self.bind(&asked.path, &mut slots);
            sum += slots[sys::ADDRESS_OFFSET];
        }
        sum
    }

    /// The names that lead along the paths, each found by halving, and nothing else.
    fn finds(&self, paths: &[Asked]) -> u64 {
        let mut sum = 0;
        for asked in paths {
            black_box(c::find_ordered(
                self.symbols,
                &self.symbol_slots,
                &asked.symbol,
            ));
            for name in &asked.types {
                let found = c::type_find_ordered(&self.types, &self.type_slots, name.as_bytes());
                black_box(found);
            }
            sum += asked.offset;
        }
        sum
    }
}

/// The symbols' own names: nothing is asked of the types.
fn own_names(report: &Report, seed: u64, rig: &Rig, controller: &Controller) {
    let mut names: Vec<&[u8]> = rig.symbols.iter().map(|s| s.name.as_slice()).collect();
    Dice::new(seed).shuffle(&mut names);
    let mut slots = [0; sys::ADDRESS_SLOTS];
    let what = "bind own names (finds by halving in place of the Rust)";
    let runs = vec![
        plain(|| {
            let mut sum = 0;
            for name in &names {
                controller.bind(name, &mut slots);
                sum += slots[sys::ADDRESS_ENTRY_AT];
            }
            sum
        }),
        plain(|| {
            let find = |name| c::find_ordered(controller.symbols, &controller.symbol_slots, name);
            names.iter().map(|name| find(black_box(name)) as u64).sum()
        }),
    ];
    let times = race(report.allowed, what, runs);
    report.row(what, names.len(), times[0], times[1]);
}

pub fn rows(report: &mut Report, seed: u64, rig: &Rig) {
    report.heading(
        "binding, through both name indexes",
        "ns a path, ns an entry",
    );
    let mut controller = Controller::new(rig);
    let paths = paths(seed, rig);
    controller.check(&paths);
    own_names(report, seed, rig, &controller);
    let what = "bind through the types (the finds alone in place of the Rust)";
    let runs = vec![
        plain(|| controller.sum(&paths)),
        plain(|| controller.finds(&paths)),
    ];
    let times = race(report.allowed, what, runs);
    report.row(what, paths.len(), times[0], times[1]);
    report.say(&format!(
        "{} paths against {} and {} bytes, {} types: {:.1} ms",
        paths.len(),
        controller.symbols.len(),
        controller.types.len(),
        controller.type_slots.len(),
        times[0].least * 1e3
    ));
    report.goals.bound.push((what.into(), times[0].least));
    let what = "both name indexes";
    let entries = controller.symbol_slots.len() + controller.type_slots.len();
    let times = race(report.allowed, what, vec![plain(|| controller.order())]);
    report.alone(what, entries, times[0]);
}
