//! The rig without sections as a sheet, and back, beside the crate csv.
use crate::c;
use crate::clock::{plain, race, wrong};
use crate::report::Report;
use crate::rig::Rig;
use crate::symbol_info::AdsSymbolInfoIterator;
use std::hint::black_box;

const HEADER: [&str; 9] = [
    "group", "offset", "size", "type id", "flags", "high", "name", "type", "comment",
];

/// A row: four numbers of 32 bits, two of 16, and name, type name and comment.
type Row<'a> = (u32, u32, u32, u32, u16, u16, &'a str, &'a str, &'a str);

/// The strings of a row.
type Strings = [String; 3];

fn two(bytes: &[u8], at: usize) -> u16 {
    u16::from_le_bytes([bytes[at], bytes[at + 1]])
}

fn four(bytes: &[u8], at: usize) -> u32 {
    u32::from_le_bytes(bytes[at..at + 4].try_into().unwrap())
}

fn sheet_writer(sheet: Vec<u8>) -> csv::Writer<Vec<u8>> {
    let mut writer = csv::WriterBuilder::new()
        .has_headers(false)
        .terminator(csv::Terminator::CRLF)
        .from_writer(sheet);
    writer.write_record(HEADER).unwrap();
    writer
}

/// The sheet by the crate csv, of what the supplied Rust reads. It does not tell `high`, which is taken from the entry.
fn written(upload: &[u8], sheet: Vec<u8>) -> Vec<u8> {
    let mut writer = sheet_writer(sheet);
    let mut at = 0;
    for record in AdsSymbolInfoIterator::new(upload) {
        let Ok(r) = record else {
            wrong("the Rust refuses an entry of a sheet");
        };
        let row: Row = (
            r.index_group().as_u32(),
            r.index_offset().as_u32(),
            r.size(),
            r.data_type_id().into(),
            r.flags().as_raw(),
            two(upload, at + 22),
            r.name(),
            r.type_name(),
            r.comment(),
        );
        writer.serialize(row).unwrap();
        at += four(upload, at) as usize;
    }
    writer.into_inner().unwrap()
}

/// The sheet by the crate csv alone, of rows that were made before.
fn written_of(rows: &[(Vec<u8>, Strings)], sheet: Vec<u8>) -> Vec<u8> {
    let mut writer = sheet_writer(sheet);
    for (entry, [name, type_name, comment]) in rows {
        let numbers = [4, 8, 12, 16].map(|at| four(entry, at));
        let [group, offset, size, type_id] = numbers;
        let (flags, high) = (two(entry, 20), two(entry, 22));
        let row: Row = (
            group, offset, size, type_id, flags, high, name, type_name, comment,
        );
        writer.serialize(row).unwrap();
    }
    writer.into_inner().unwrap()
}

fn put_row(row: Row, upload: &mut Vec<u8>) {
    let (group, offset, size, type_id, flags, high, name, type_name, comment) = row;
    let strings = [name, type_name, comment].map(|text| encoding_rs::WINDOWS_1252.encode(text).0);
    let long: usize = strings.iter().map(|string| string.len()).sum();
    for number in [33 + long as u32, group, offset, size, type_id] {
        upload.extend_from_slice(&number.to_le_bytes());
    }
    for number in [flags, high] {
        upload.extend_from_slice(&number.to_le_bytes());
    }
    for string in &strings {
        upload.extend_from_slice(&(string.len() as u16).to_le_bytes());
    }
    for string in &strings {
        upload.extend_from_slice(string);
        upload.push(0);
    }
}

/// The upload of a sheet that the crate csv reads.
fn read(sheet: &[u8], mut upload: Vec<u8>) -> Vec<u8> {
    let mut reader = csv::Reader::from_reader(sheet);
    let mut record = csv::StringRecord::new();
    if reader.headers().unwrap() != HEADER.as_slice() {
        wrong("the crate csv reads another header");
    }
    while reader.read_record(&mut record).unwrap() {
        put_row(record.deserialize(None).unwrap(), &mut upload);
    }
    upload
}

/// The cells of a sheet, read by the crate csv: how many bytes they have.
fn cells(sheet: &[u8]) -> u64 {
    let mut reader = csv::Reader::from_reader(sheet);
    let mut record = csv::ByteRecord::new();
    let mut sum = 0;
    while reader.read_byte_record(&mut record).unwrap() {
        sum += record.as_slice().len() as u64;
    }
    sum
}

/// Each entry's own bytes, and its strings as the supplied Rust tells them.
fn rows_of(upload: &[u8]) -> Vec<(Vec<u8>, Strings)> {
    let mut at = 0;
    AdsSymbolInfoIterator::new(upload)
        .map(|record| {
            let Ok(r) = record else {
                wrong("the Rust refuses an entry of a sheet");
            };
            let entry = upload[at..][..four(upload, at) as usize].to_vec();
            at += entry.len();
            let strings = [r.name(), r.type_name(), r.comment()].map(String::from);
            (entry, strings)
        })
        .collect()
}

fn exports(report: &mut Report, rig: &Rig, sheet: &[u8]) {
    let (upload, items) = (rig.upload.as_slice(), rig.symbols.len());
    let rows = rows_of(upload);
    let mut ours = vec![0; sheet.len()];
    let (mut walked, mut alone) = (
        Vec::with_capacity(2 * sheet.len()),
        Vec::with_capacity(2 * sheet.len()),
    );
    let times = race(
        report.allowed,
        "sheets: export",
        vec![
            plain(|| c::sheet_export(black_box(upload), black_box(&mut ours)) as u64),
            plain(|| {
                walked.clear();
                walked = written(black_box(upload), std::mem::take(&mut walked));
                walked.len() as u64
            }),
            plain(|| {
                alone.clear();
                alone = written_of(black_box(&rows), std::mem::take(&mut alone));
                alone.len() as u64
            }),
        ],
    );
    let ratio = report.row(
        "export (the Rust's walk and csv)",
        items,
        times[0],
        times[1],
    );
    report.goals.sheets.push(("export".into(), ratio));
    report.row(
        "  the same (csv alone, from Strings made before)",
        items,
        times[0],
        times[2],
    );
}

fn imports(report: &mut Report, rig: &Rig, sheet: &[u8]) {
    let (upload, items) = (rig.upload.as_slice(), rig.symbols.len());
    let mut ours = vec![0; upload.len()];
    let mut theirs = Vec::with_capacity(2 * upload.len());
    let times = race(
        report.allowed,
        "sheets: import",
        vec![
            plain(|| c::sheet_import(black_box(sheet), black_box(&mut ours)) as u64),
            plain(|| {
                theirs.clear();
                theirs = read(black_box(sheet), std::mem::take(&mut theirs));
                theirs.len() as u64
            }),
        ],
    );
    let ratio = report.row(
        "import (csv, encoding_rs and a plain loop)",
        items,
        times[0],
        times[1],
    );
    report.goals.sheets.push(("import".into(), ratio));
    let reading = race(
        report.allowed,
        "sheets: cells",
        vec![plain(|| cells(black_box(sheet)))],
    );
    report.row(
        "  the same (csv alone: cells read, and no more)",
        items,
        times[0],
        reading[0],
    );
}

pub fn rows(report: &mut Report, rig: &Rig) {
    let upload = rig.upload.as_slice();
    let mut sheet = vec![0; 4 * upload.len()];
    let length = c::sheet_export(upload, &mut sheet);
    sheet.truncate(length);
    let mut back = vec![0; upload.len()];
    if c::sheet_import(&sheet, &mut back) != upload.len() || back != upload {
        wrong("a sheet comes back as another upload");
    }
    if written(upload, Vec::new()) != sheet || written_of(&rows_of(upload), Vec::new()) != sheet {
        wrong("the crate csv writes another sheet");
    }
    if read(&sheet, Vec::new()) != upload {
        wrong("the crate csv reads another upload");
    }
    report.heading("sheets, beside the crate csv", "ns a row");
    exports(report, rig, &sheet);
    imports(report, rig, &sheet);
}
