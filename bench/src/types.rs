//! Whole data types: a structure of 1,000 members, and the same members as fields that stand by themselves.
use crate::AdsFieldInfo;
use crate::c::{self, Told};
use crate::clock::{plain, race, wrong};
use crate::report::Report;
use crate::rig::{Rig, Symbol};
use crate::sys;
use crate::write::{ours_sum, theirs_sum};
use std::hint::black_box;

const MEMBERS: usize = 1000;
/// Of a rig's symbols, a device and its members, and the devices of a camera.
const DEVICE: usize = 16;
const DEVICES: usize = 8;
const SLOTS: usize = MEMBERS * sys::MEMBER_SLOTS;

/// A member by itself, as the field writer writes it: its name is the last part of the symbol's.
fn alone(symbol: &Symbol, name: Option<&[u8]>) -> Vec<u8> {
    let last = symbol.name.rsplit(|byte| *byte == b'.').next().unwrap();
    let strings = [name.unwrap_or(last), &symbol.type_name, &symbol.comment];
    let mut out = [0; 4096];
    let n = c::field_write(symbol, strings, &symbol.block, &mut out);
    out[..n].to_vec()
}

fn number(bytes: &[u8], at: usize) -> usize {
    u16::from_le_bytes([bytes[at], bytes[at + 1]]).into()
}

/// An entry with sub-items, which stand behind its strings.
fn above(alone: &[u8], items: &[Vec<u8>]) -> Vec<u8> {
    let strings = 45 + number(alone, 32) + number(alone, 34) + number(alone, 36);
    let inside = items.concat();
    let mut entry = [&alone[..strings], &inside, &alone[strings..]].concat();
    let length = u32::try_from(entry.len()).unwrap();
    entry[..4].copy_from_slice(&length.to_le_bytes());
    entry[40..42].copy_from_slice(&u16::try_from(items.len()).unwrap().to_le_bytes());
    entry
}

/// The structure, and its members by themselves in the order of their numbers: cameras, their devices and the members of
/// these, as many as come to 1,000.
struct Structure {
    bytes: Vec<u8>,
    alone: Vec<Vec<u8>>,
}

impl Structure {
    fn new(rig: &Rig) -> Self {
        let (mut cameras, mut members) = (Vec::new(), Vec::new());
        for (i, symbols) in rig.symbols.chunks(DEVICES * DEVICE).enumerate() {
            let left = MEMBERS - members.len();
            if left < 1 + DEVICE {
                break;
            }
            let camera = alone(&symbols[0], Some(format!("aCamera[{i:03}]").as_bytes()));
            members.push(camera.clone());
            let devices = symbols.chunks(DEVICE).take((left - 1) / DEVICE);
            let device = |device: &[Symbol]| {
                let entries: Vec<_> = device.iter().map(|symbol| alone(symbol, None)).collect();
                members.extend_from_slice(&entries);
                above(&entries[0], &entries[1..])
            };
            let devices: Vec<_> = devices.map(device).collect();
            cameras.push(above(&camera, &devices));
        }
        let root = alone(&rig.symbols[0], Some(b"ST_Rig"));
        Self {
            bytes: above(&root, &cameras),
            alone: members,
        }
    }

    /// Each member stands where it is listed, with the numbers and strings that it has by itself, and the Rust reads it so.
    fn check(&self) {
        let mut slots = [0; SLOTS];
        let mut told = Told::<{ sys::TYPE_SLOTS }>::new();
        c::type_read(&self.bytes, &mut told);
        let members = told.number(sys::TYPE_MEMBER_COUNT);
        if members != MEMBERS
            || self.alone.len() != MEMBERS
            || c::type_members(&self.bytes, &mut slots) != SLOTS
        {
            wrong("a structure of 1,000 members has another number of them");
        }
        let mut offsets = [0; 17];
        for (listed, alone) in slots.chunks(sys::MEMBER_SLOTS).zip(&self.alone) {
            let place = listed[sys::MEMBER_PLACE] as usize;
            let depth = listed[sys::MEMBER_DEPTH] as usize;
            let strings = 45 + number(alone, 32) + number(alone, 34) + number(alone, 36);
            let offset = u32::from_le_bytes(alone[20..24].try_into().unwrap());
            offsets[depth] = offsets[depth - 1] + u64::from(offset);
            // The length and the number of sub-items are others where there are any.
            if self.bytes[place + 4..place + 40] != alone[4..40]
                || self.bytes[place + 42..place + strings] != alone[42..strings]
                || listed[sys::MEMBER_OFFSET] != offsets[depth]
            {
                wrong("a member is listed at another place or with another offset");
            }
        }
        let offsets = slots.chunks(sys::MEMBER_SLOTS);
        if self.by_number() != offsets.map(|listed| listed[sys::MEMBER_OFFSET]).sum() {
            wrong("members by number have other offsets than those listed");
        }
        if self.ours(&mut slots) != self.theirs() {
            wrong("the members of a structure are read as others than by themselves");
        }
    }

    /// All members listed, and each of them read at its place.
    fn ours(&self, slots: &mut [u64; SLOTS]) -> u64 {
        c::type_members(black_box(&self.bytes), slots);
        let mut told = Told::<{ sys::FIELD_SLOTS }>::new();
        let mut sum = 0;
        for listed in slots.chunks(sys::MEMBER_SLOTS) {
            c::field_read(&self.bytes[listed[sys::MEMBER_PLACE] as usize..], &mut told);
            sum += ours_sum(&told);
        }
        sum
    }

    /// Each member by its number: every call goes through the tree anew.
    fn by_number(&self) -> u64 {
        let mut told = Told::<{ sys::TYPE_SLOTS }>::new();
        let mut path = [0; sys::PATH_SLOTS];
        let mut sum = 0;
        for number in 0..MEMBERS {
            c::type_member(black_box(&self.bytes), number, &mut told, &mut path);
            sum += path[sys::PATH_OFFSET];
        }
        sum
    }

    fn theirs(&self) -> u64 {
        let mut sum = 0;
        for alone in &self.alone {
            let Ok((record, _)) = black_box(AdsFieldInfo::try_from_slice(black_box(alone))) else {
                wrong("the Rust refuses a member by itself");
            };
            sum += theirs_sum(&record);
        }
        sum
    }

    /// The Rust's reading with the members counted alone, as the structure's own record has them.
    fn theirs_counted(&self) -> u64 {
        let mut count = 0;
        for alone in &self.alone {
            let read = black_box(AdsFieldInfo::try_from_slice(black_box(alone)));
            count += read.is_ok() as u64;
        }
        count
    }
}

fn read(bytes: &[u8], checked: bool) -> u64 {
    let mut told = Told::<{ sys::TYPE_SLOTS }>::new();
    c::type_read_in(checked, black_box(bytes), &mut told);
    told.slots[sys::TYPE_MEMBER_COUNT]
}

pub fn rows(report: &mut Report, rig: &Rig) {
    report.heading("a data type of 1,000 members", "ns a member");
    let structure = Structure::new(rig);
    structure.check();
    let (mut slots, mut others) = ([0; SLOTS], [0; SLOTS]);
    let listed = |slots: &mut [u64; SLOTS]| {
        let written = c::type_members(black_box(&structure.bytes), black_box(slots));
        (written / sys::MEMBER_SLOTS) as u64
    };
    let runs = vec![
        plain(|| read(&structure.bytes, false)),
        plain(|| structure.theirs_counted()),
        plain(|| listed(&mut slots)),
        plain(|| read(&structure.bytes, true)),
    ];
    let times = race(report.allowed, "a data type, read", runs);
    let what = "read the whole tree (the Rust: its members as fields)";
    report.row(what, MEMBERS, times[0], times[1]);
    let what = "  the same, checked mode";
    report.row(what, MEMBERS, times[3], times[1]);
    let what = "list all members: place, depth, offset from the start";
    report.row(what, MEMBERS, times[2], times[1]);
    let what = "list all members, and read each as a field";
    let runs = vec![
        plain(|| structure.ours(&mut others)),
        plain(|| structure.theirs()),
    ];
    let times = race(report.allowed, what, runs);
    report.row(what, MEMBERS, times[0], times[1]);
    let what = "each member by its number";
    let times = race(report.allowed, what, vec![plain(|| structure.by_number())]);
    report.alone(what, MEMBERS, times[0]);
}
