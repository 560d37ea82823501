//! Writing entries and records, and reading fields.
use crate::c::{self, Told};
use crate::clock::{plain, race, wrong};
use crate::report::Report;
use crate::rig::{Rig, Symbol};
use crate::sys;
use crate::verify::text;
use crate::walk::{attributes_text, strings_text};
use crate::{AdsAttribute, AdsFieldInfo, AdsRefactorInfo};
use std::hint::black_box;

/// A field, as each side keeps it.
struct Field<'a> {
    symbol: &'a Symbol,
    strings: [String; 3],
    attributes: Vec<[String; 2]>,
    bytes: Vec<u8>,
    record: AdsFieldInfo,
}

/// The fields of a rig, written by the library and parsed by the Rust, which has no other way to make one. Both write the same.
fn fields<'a>(rig: &'a Rig) -> Vec<Field<'a>> {
    let mut out = [0; 4096];
    let field = |symbol: &'a Symbol| {
        let strings = [&symbol.name[..], &symbol.type_name, &symbol.comment];
        let n = c::field_write(symbol, strings, &symbol.block, &mut out);
        let bytes = out[..n].to_vec();
        let record = match AdsFieldInfo::try_from_slice(&bytes) {
            Ok((record, _)) if record.to_vec() == bytes => record,
            _ => wrong("a field that was written is not the Rust's"),
        };
        let attributes = symbol.attributes.iter();
        Field {
            symbol,
            strings: strings.map(text),
            attributes: attributes.map(|(n, v)| [text(n), text(v)]).collect(),
            bytes,
            record,
        }
    };
    rig.symbols.iter().map(field).collect()
}

fn field_from_bytes(f: &Field, out: &mut [u8]) -> usize {
    let s = f.symbol;
    c::field_write(s, [&s.name, &s.type_name, &s.comment], &s.block, out)
}

/// Texts encoded, each in a room of its own.
fn encoded<'r, const N: usize>(
    texts: &[String; N],
    rooms: &'r mut [[u8; 1024]; N],
) -> [&'r [u8]; N] {
    let mut pairs = texts.iter().zip(rooms);
    std::array::from_fn(|_| {
        let (text, room) = pairs.next().unwrap();
        let n = c::TEXT.encode(text.as_bytes(), room);
        &room[..n]
    })
}

/// Room for what a field is put together from.
struct Rooms {
    strings: [[u8; 1024]; 3],
    attribute: [[u8; 1024]; 2],
    block: [u8; 4096],
}

/// The same from UTF-8 and single attributes, as the Rust has them: all text is encoded, the block is put together.
fn field_from_text(f: &Field, rooms: &mut Rooms, out: &mut [u8]) -> usize {
    let mut at = 0;
    for attribute in &f.attributes {
        let [name, value] = encoded(attribute, &mut rooms.attribute);
        at += c::attribute_write(name, value, &mut rooms.block[at..]);
    }
    let strings = encoded(&f.strings, &mut rooms.strings);
    c::field_write(f.symbol, strings, &rooms.block[..at], out)
}

fn field_write_rows(report: &mut Report, fields: &[Field]) {
    let (mut out, mut other) = ([0; 4096], [0; 4096]);
    let mut rooms = Rooms {
        strings: [[0; 1024]; 3],
        attribute: [[0; 1024]; 2],
        block: [0; 4096],
    };
    for f in fields {
        let n = field_from_text(f, &mut rooms, &mut out);
        if out[..n] != f.bytes[..] {
            wrong("a field that was written from text is not the Rust's");
        }
    }
    let what = "write a field";
    let sum = |write: &mut dyn FnMut(&Field) -> usize| fields.iter().map(|f| write(f) as u64).sum();
    let runs = vec![
        plain(|| sum(&mut |f| field_from_bytes(black_box(f), &mut out))),
        plain(|| sum(&mut |f| black_box(black_box(f).record.to_vec()).len())),
        plain(|| sum(&mut |f| field_from_text(black_box(f), &mut rooms, &mut other))),
    ];
    let times = race(report.allowed, what, runs);
    report.row(what, fields.len(), times[0], times[1]);
    report.row(
        "  the same, from UTF-8 and single attributes",
        fields.len(),
        times[2],
        times[1],
    );
}

/// What is summed of a field's record, by both sides.
pub fn ours_sum(told: &Told<{ sys::FIELD_SLOTS }>) -> u64 {
    const SUMMED: [usize; 8] = [
        sys::FIELD_SIZE,
        sys::FIELD_OFFSET,
        sys::FIELD_TYPE_ID,
        sys::FIELD_FLAGS,
        sys::FIELD_NAME_LEN,
        sys::FIELD_TYPE_NAME_LEN,
        sys::FIELD_HAS_GUID,
        sys::FIELD_ATTRIBUTE_COUNT,
    ];
    let sum = SUMMED.iter().map(|slot| told.slots[*slot]).sum::<u64>();
    sum + (told.slots[sys::FIELD_COMMENT_LEN] != 0) as u64 + told.guid[0] as u64
}

pub fn theirs_sum(r: &AdsFieldInfo) -> u64 {
    let mut sum = r.size() as u64 + r.offset() as u64 + u32::from(r.data_type()) as u64;
    sum += r.flags().as_raw() as u64 + r.name().len() as u64 + r.type_name().len() as u64;
    sum += r.guid().is_some() as u64 + r.attributes().len() as u64;
    sum + !r.comment().is_empty() as u64 + r.guid().map_or(0, |g| g.as_bytes()[0]) as u64
}

fn ours_read(fields: &[Field]) -> u64 {
    let mut told = Told::<{ sys::FIELD_SLOTS }>::new();
    let mut sum = 0;
    for f in fields {
        c::field_read(black_box(&f.bytes), &mut told);
        sum += ours_sum(&told);
    }
    sum
}

fn theirs_read(fields: &[Field]) -> u64 {
    let mut sum = 0;
    for f in fields {
        let Ok((r, _)) = black_box(AdsFieldInfo::try_from_slice(black_box(&f.bytes))) else {
            wrong("the Rust refuses a field");
        };
        sum += theirs_sum(&r);
    }
    sum
}

/// Every string of every field decoded, where the Rust has it as a `String`. The sum is that of the lengths in UTF-8.
fn ours_read_text(fields: &[Field], out: &mut [u8]) -> u64 {
    const STRINGS: [[usize; 2]; 3] = [
        [sys::FIELD_NAME_AT, sys::FIELD_NAME_LEN],
        [sys::FIELD_TYPE_NAME_AT, sys::FIELD_TYPE_NAME_LEN],
        [sys::FIELD_COMMENT_AT, sys::FIELD_COMMENT_LEN],
    ];
    let mut told = Told::<{ sys::FIELD_SLOTS }>::new();
    let mut sum = 0;
    for f in fields {
        c::field_read(black_box(&f.bytes), &mut told);
        let attributes = told.number(sys::FIELD_ATTRIBUTES_AT);
        let count = told.number(sys::FIELD_ATTRIBUTE_COUNT);
        sum += strings_text(&f.bytes, &told.slots, STRINGS, out);
        sum += attributes_text(&f.bytes, attributes, count, out);
    }
    sum
}

fn theirs_read_text(fields: &[Field]) -> u64 {
    let mut sum = 0;
    for f in fields {
        let Ok((r, _)) = black_box(AdsFieldInfo::try_from_slice(black_box(&f.bytes))) else {
            wrong("the Rust refuses a field");
        };
        sum += r.name().len() + r.type_name().len() + r.comment().len();
        for a in r.attributes() {
            sum += a.name().len() + a.value().len();
        }
    }
    sum as u64
}

fn attribute_row(report: &mut Report, rig: &Rig) {
    let ours: Vec<_> = rig.symbols.iter().flat_map(|s| &s.attributes).collect();
    let theirs: Vec<_> = ours
        .iter()
        .map(|(n, v)| AdsAttribute::new(text(n), text(v)))
        .collect();
    let mut out = [0; 515];
    for ((name, value), a) in ours.iter().zip(&theirs) {
        let n = c::attribute_write(name, value, &mut out);
        if out[..n] != a.to_vec()[..] {
            wrong("an attribute that was written is not the Rust's");
        }
    }
    let what = "write an attribute";
    let runs = vec![
        plain(|| {
            ours.iter()
                .map(|(n, v)| c::attribute_write(n, v, black_box(&mut out)) as u64)
                .sum()
        }),
        plain(|| {
            theirs
                .iter()
                .map(|a| black_box(black_box(a).to_vec()).len() as u64)
                .sum()
        }),
    ];
    let times = race(report.allowed, what, runs);
    report.row(what, ours.len(), times[0], times[1]);
}

/// Former names are few in a rig, so each symbol's name stands for one.
fn refactor_row(report: &mut Report, rig: &Rig) {
    let ours: Vec<_> = rig.symbols.iter().map(|s| &s.name).collect();
    let theirs: Vec<_> = ours
        .iter()
        .map(|n| AdsRefactorInfo::new(1, text(n)))
        .collect();
    let mut out = [0; 1024];
    for (name, r) in ours.iter().zip(&theirs) {
        let n = c::refactor_write(1, true, name, &mut out);
        if out[..n] != r.to_vec_with_next(true)[..] {
            wrong("a refactor record that was written is not the Rust's");
        }
    }
    let what = "write a refactor record";
    let theirs_one =
        |r: &AdsRefactorInfo| black_box(black_box(r).to_vec_with_next(true)).len() as u64;
    let runs = vec![
        plain(|| {
            ours.iter()
                .map(|n| c::refactor_write(1, true, n, black_box(&mut out)) as u64)
                .sum()
        }),
        plain(|| theirs.iter().map(theirs_one).sum()),
    ];
    let times = race(report.allowed, what, runs);
    report.row(what, ours.len(), times[0], times[1]);
}

fn symbol_rows(report: &mut Report, rig: &Rig) {
    let written = |write: fn(&Symbol, &mut [u8]) -> usize| {
        let mut out = [0; 4096];
        plain(move || {
            let each = rig.symbols.iter();
            each.map(|s| write(black_box(s), &mut out) as u64).sum()
        })
    };
    let runs = vec![
        written(c::symbol_write),
        #[cfg(before)]
        written(c::before::symbol_write),
    ];
    let what = "write a symbol";
    let times = race(report.allowed, what, runs);
    report.alone(what, rig.symbols.len(), times[0]);
    report.before("the same", rig.symbols.len(), &times);
}

pub fn rows(report: &mut Report, rig: &Rig) {
    report.heading("writing, and reading fields", "ns an entry or record");
    let fields = fields(rig);
    let mut out = [0; 4096];
    symbol_rows(report, rig);
    field_write_rows(report, &fields);
    attribute_row(report, rig);
    refactor_row(report, rig);
    let what = "read a field, text left as bytes (the Rust: Strings)";
    let runs = vec![plain(|| ours_read(&fields)), plain(|| theirs_read(&fields))];
    let times = race(report.allowed, what, runs);
    report.row(what, fields.len(), times[0], times[1]);
    let what = "read a field, all text as UTF-8 on both sides";
    let runs = vec![
        plain(|| ours_read_text(&fields, &mut out)),
        plain(|| theirs_read_text(&fields)),
    ];
    let times = race(report.allowed, what, runs);
    report.row(what, fields.len(), times[0], times[1]);
}
