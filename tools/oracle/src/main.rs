//! Answers case lines with the supplied Rust. README.md has the lines' format.
#![allow(dead_code, unused_imports)]
mod ads;
pub use ads::index_group::IndexGroup;
pub use ads::index_offset::IndexOffset;
pub use ads::symbol::*;

use ads::error::{AdsSymbolInfoError, AdsTypeInfoError};
use encoding_rs::{EncoderResult, WINDOWS_1252};
use std::fmt::Write as _;
use std::io::{BufRead, Write as _};
use std::panic::{AssertUnwindSafe, catch_unwind};

/// What is listed of many records: the first and the last so many.
const SHOWN: usize = 6;

type Refused = (u32, usize, usize);

fn of_type(e: AdsTypeInfoError) -> Refused {
    match e {
        AdsTypeInfoError::UnexpectedLength { expected, got } => (1, expected, got),
        AdsTypeInfoError::TooShort { expected, got } => (2, expected, got),
        AdsTypeInfoError::EntryLengthMismatch { expected, got } => (3, expected, got),
        other => panic!("{other:?}"),
    }
}

fn of_symbol(e: AdsSymbolInfoError) -> Refused {
    match e {
        AdsSymbolInfoError::UnexpectedLength { expected, got } => (1, expected, got),
        AdsSymbolInfoError::TooShort { expected, got } => (2, expected, got),
        AdsSymbolInfoError::EntryLengthMismatch { expected, got } => (3, expected, got),
        other => panic!("{other:?}"),
    }
}

struct Said(String);

impl Said {
    fn word(&mut self, w: &str) {
        self.0.push(' ');
        self.0.push_str(w);
    }
    fn number(&mut self, n: impl TryInto<u64>) {
        write!(self.0, " {}", n.try_into().ok().unwrap()).unwrap();
    }
    fn hex(&mut self, bytes: &[u8]) {
        self.0.push(' ');
        if bytes.is_empty() {
            self.0.push('-');
        }
        for b in bytes {
            const DIGITS: &[u8; 16] = b"0123456789ABCDEF";
            self.0.push(DIGITS[(b / 16) as usize] as char);
            self.0.push(DIGITS[(b % 16) as usize] as char);
        }
    }
    /// A decoded string as the Windows-1252 bytes that it came from.
    fn string(&mut self, s: &str) {
        self.hex(&WINDOWS_1252.encode(s).0);
    }
    fn refused(&mut self, (number, expected, got): Refused) {
        self.word("no");
        self.number(number);
        self.number(expected);
        self.number(got);
    }
    fn wrote(&mut self, bytes: &[u8]) {
        self.word("ok");
        self.number(bytes.len());
        self.hex(bytes);
    }
    fn guid(&mut self, guid: Option<&Guid>) {
        self.hex(guid.map_or(&[], |g| g.as_bytes()));
    }
    fn attributes(&mut self, all: &[AdsAttribute]) {
        self.number(all.len());
        for (i, a) in all.iter().enumerate() {
            if i < SHOWN || all.len() <= i + SHOWN {
                self.string(a.name());
                self.string(a.value());
            }
        }
    }
    fn refactors(&mut self, all: &[AdsRefactorInfo]) {
        self.number(all.len());
        for (i, r) in all.iter().enumerate() {
            if i < SHOWN || all.len() <= i + SHOWN {
                self.refactor(r);
            }
        }
    }
    fn refactor(&mut self, r: &AdsRefactorInfo) {
        self.number(r.refactor_count());
        self.number(r.next_refactor_info() as u32);
        self.string(r.name().unwrap_or(""));
    }
    fn symbol(&mut self, r: &AdsSymbolInfo, entry: &[u8]) {
        self.word("ok");
        self.number(entry.len());
        self.number(r.index_group().as_u32());
        self.number(r.index_offset().as_u32());
        self.number(r.size());
        self.number(u32::from(r.data_type_id()));
        self.number(r.flags().as_raw());
        // The oracle's own: the Rust does not read them.
        self.number(u16::from_le_bytes([entry[22], entry[23]]));
        self.string(r.name());
        self.string(r.type_name());
        self.string(r.comment());
        self.guid(r.guid());
        self.attributes(r.attributes());
        match r.extended_flags() {
            Some(flags) => self.number(flags.as_raw()),
            None => self.word("-"),
        }
        self.refactors(r.refactor_infos());
        self.number(unread(r));
    }
    fn field(&mut self, r: &AdsFieldInfo, length: usize) {
        self.word("ok");
        self.number(length);
        self.number(r.version());
        self.number(r.hash_value());
        self.number(r.type_hash_value());
        self.number(r.size());
        self.number(r.offset());
        self.number(u32::from(r.data_type()));
        self.number(r.flags().as_raw());
        self.string(r.name());
        self.string(r.type_name());
        self.string(r.comment());
        self.guid(r.guid());
        self.attributes(r.attributes());
    }
}

/// The data with others for bytes 22 and 23 of the entry at a place. The Rust tells nothing of these two: every answer is the same with them.
fn others(d: &[u8], start: usize) -> Vec<u8> {
    let mut others = d.to_vec();
    others.iter_mut().skip(start.saturating_add(22)).take(2).for_each(|b| *b = !*b);
    others
}

/// `reserved` has no accessor: it is the last field of the derived Debug text.
fn unread(r: &AdsSymbolInfo) -> usize {
    struct Tail([u8; 40]);
    impl std::fmt::Write for Tail {
        fn write_str(&mut self, s: &str) -> std::fmt::Result {
            let b = s.as_bytes();
            let n = b.len().min(40);
            self.0.copy_within(n.., 0);
            self.0[40 - n..].copy_from_slice(&b[b.len() - n..]);
            Ok(())
        }
    }
    let mut tail = Tail([b' '; 40]);
    write!(tail, "{r:?}").unwrap();
    let text = String::from_utf8_lossy(&tail.0).into_owned();
    let at = text.rfind("reserved: ").unwrap() + 10;
    text[at..].trim_end_matches([' ', '}']).parse().unwrap()
}

fn bits(tests: &[bool]) -> u64 {
    tests.iter().rev().fold(0, |n, b| n * 2 + *b as u64)
}

fn flags(out: &mut Said, d: &[u8]) {
    match AdsSymbolFlags::try_from(d) {
        Ok(f) => {
            out.word("ok");
            out.number(f.as_raw());
            out.hex(&f.to_bytes());
            out.number(bits(&[
                f.is_persistent(),
                f.is_bit_value(),
                f.is_reference_to(),
                f.has_type_guid(),
                f.is_tcom_interface_ptr(),
                f.is_read_only(),
                f.is_itf_method_access(),
                f.is_method_deref(),
                f.has_attributes(),
                f.is_static(),
                f.is_init_on_reset(),
                f.has_extended_flags(),
            ]));
            out.number(f.context_mask());
        }
        Err(e) => out.refused(of_symbol(e)),
    }
    match AdsSymbol2Flags::try_from(d) {
        Ok(f) => {
            out.word("ok");
            out.number(f.as_raw());
            out.hex(&f.to_bytes());
            out.number(bits(&[
                f.is_plc_pointer_type(),
                f.is_redundancy_ignore(),
                f.has_refactor_info(),
                f.is_online_change_ptr_ref_type(),
                f.is_variant_type(),
            ]));
        }
        Err(e) => out.refused(of_symbol(e)),
    }
    match AdsTypeFlags::try_from(d) {
        Ok(f) => {
            out.word("ok");
            out.number(f.as_raw());
            out.hex(&f.to_bytes());
            out.number(bits(&[
                f.is_data_type(),
                f.is_data_item(),
                f.is_reference_to(),
                f.is_bit_values(),
                f.is_prop_item(),
                f.has_type_guid(),
                f.is_persistent(),
                f.has_copy_mask(),
                f.has_method_infos(),
                f.has_attributes(),
                f.has_enum_infos(),
                f.is_static(),
                f.is_any_size_array(),
                f.is_plc_pointer_type(),
                f.has_refactor_info(),
                f.hide_sub_items(),
                f.is_variant(),
                f.has_extended_enum_infos(),
                f.has_extended_flags(),
                f.has_software_protection_levels(),
            ]));
        }
        Err(e) => out.refused(of_type(e)),
    }
}

fn attribute(out: &mut Said, d: &[u8]) {
    match AdsAttribute::try_from_slice(d) {
        Ok(a) => {
            out.word("ok");
            out.number(a.wire_size());
            out.string(a.name());
            out.string(a.value());
        }
        Err(e) => out.refused(of_type(e)),
    }
}

fn refactor(out: &mut Said, d: &[u8], sized: bool) {
    match AdsRefactorInfo::try_from_slice(d) {
        Ok((r, consumed)) => {
            out.word("ok");
            out.number(if sized { r.wire_size() } else { consumed });
            out.refactor(&r);
        }
        Err(e) => out.refused(of_type(e)),
    }
}

fn chain(out: &mut Said, d: &[u8]) {
    match AdsRefactorInfo::parse_chain(d) {
        Ok((all, consumed)) => {
            out.word("ok");
            out.number(consumed);
            out.refactors(&all);
        }
        Err(e) => out.refused(of_type(e)),
    }
}

fn symbol(out: &mut Said, d: &[u8]) {
    let read = AdsSymbolInfo::try_from_slice(d);
    assert_eq!(AdsSymbolInfo::try_from_slice(&others(d, 0)), read);
    match read {
        Ok((r, length)) => out.symbol(&r, &d[..length]),
        Err(e) => out.refused(of_symbol(e)),
    }
}

fn field(out: &mut Said, d: &[u8]) {
    match AdsFieldInfo::try_from_slice(d) {
        Ok((r, length)) => out.field(&r, length),
        Err(e) => out.refused(of_type(e)),
    }
}

/// Every step from a cursor on. A step that stays would be made for ever, so it is the last.
fn walk(out: &mut Said, d: &[u8], from: usize) {
    let mut cursor = from;
    loop {
        let start = cursor;
        let step = symbol_info::utils::parse_next_entry(d, &mut cursor);
        let mut again = start;
        assert_eq!(symbol_info::utils::parse_next_entry(&others(d, start), &mut again), step);
        assert_eq!(again, cursor);
        out.word("at");
        out.number(start);
        match &step {
            None => out.word("end"),
            Some(Ok(r)) => out.symbol(r, &d[start..cursor]),
            Some(Err(e)) => out.refused(of_symbol(e.clone())),
        }
        out.number(cursor);
        if step.is_none() || cursor == start {
            return;
        }
    }
}

/// At most so many steps: how it ended, steps made, cursor.
fn bounded(out: &mut Said, d: &[u8], from: usize, allowed: usize) {
    let mut cursor = from;
    let mut steps = 0;
    let mut zero = false;
    while steps < allowed && cursor < d.len() && !zero {
        let start = cursor;
        symbol_info::utils::parse_next_entry(d, &mut cursor).unwrap().ok();
        steps += 1;
        zero = cursor == start;
    }
    if zero {
        out.refused((10, 1, 0));
    } else if d.len() <= cursor {
        out.word("end");
    } else {
        out.word("out");
    }
    out.number(steps);
    out.number(cursor);
}

fn text_of(d: &[u8]) -> String {
    WINDOWS_1252.decode_without_bom_handling(d).0.into_owned()
}

/// The records of a block, as the Rust's own readers find them.
fn refactors_in(count: usize, block: &[u8]) -> Vec<AdsRefactorInfo> {
    let mut at = 0;
    let mut all = Vec::new();
    for _ in 0..count {
        let (r, n) = AdsRefactorInfo::try_from_slice(&block[at..]).unwrap();
        at += n;
        all.push(r);
    }
    all
}

fn attributes_in(count: usize, block: &[u8]) -> Vec<AdsAttribute> {
    let mut at = 0;
    let mut all = Vec::new();
    for _ in 0..count {
        let a = AdsAttribute::try_from_slice(&block[at..]).unwrap();
        at += a.wire_size();
        all.push(a);
    }
    all
}

/// A record that need not come from bytes: the Rust has no constructor, so it is made by serde.
fn field_of(args: &[Vec<u8>]) -> AdsFieldInfo {
    let n = |i: usize| number(&args[0][i * 4..i * 4 + 4]) as u32;
    let all = attributes_in(number(&args[5]), &args[6]);
    let guid: Option<[u8; 16]> = args[4].as_slice().try_into().ok();
    serde_json::from_value(serde_json::json!({
        "version": n(0),
        "hash_value": n(1),
        "type_hash_value": n(2),
        "size": n(3),
        "offset": n(4),
        "type_id": AdsTypeId::from(n(5)),
        "flags": n(6),
        "name": text_of(&args[1]),
        "type_name": text_of(&args[2]),
        "comment": text_of(&args[3]),
        "guid": guid.map(Guid::new),
        "attributes": all,
    }))
    .unwrap()
}

fn encode(out: &mut Said, d: &[u8]) {
    let (good, valid) = match std::str::from_utf8(d) {
        Ok(s) => (s, true),
        Err(e) => (std::str::from_utf8(&d[..e.valid_up_to()]).unwrap(), false),
    };
    let mut encoder = WINDOWS_1252.new_encoder();
    let mut bytes = vec![0u8; d.len() + 16];
    let (result, read, written) =
        encoder.encode_from_utf8_without_replacement(good, &mut bytes, true);
    match result {
        EncoderResult::Unmappable(c) => out.refused((11, read - c.len_utf8(), 2)),
        EncoderResult::InputEmpty if valid => out.wrote(&bytes[..written]),
        EncoderResult::InputEmpty => out.refused((11, good.len(), 1)),
        EncoderResult::OutputFull => unreachable!(),
    }
    if valid {
        let (whole, _, errors) = WINDOWS_1252.encode(good);
        assert_eq!(errors, matches!(result, EncoderResult::Unmappable(_)));
        assert!(errors || *whole == bytes[..written]);
    }
}

fn number(d: &[u8]) -> usize {
    d.iter().take(4).rev().fold(0, |n, b| n * 256 + *b as usize)
}

fn bytes_of(word: &str) -> Vec<u8> {
    if word == "-" {
        return Vec::new();
    }
    let value = |c: u8| (c as char).to_digit(16).unwrap() as u8;
    word.as_bytes().chunks(2).map(|p| value(p[0]) * 16 + value(p[1])).collect()
}

fn answer(line: &str) -> Said {
    let mut words = line.split(' ');
    let kind = words.next().unwrap();
    let a: Vec<Vec<u8>> = words.map(bytes_of).collect();
    let mut out = Said(kind.to_string());
    match kind {
        "f" => flags(&mut out, &a[0]),
        "a" => attribute(&mut out, &a[0]),
        "A" => out.wrote(&AdsAttribute::new(text_of(&a[0]), text_of(&a[1])).to_vec()),
        "r" => refactor(&mut out, &a[0], false),
        "z" => refactor(&mut out, &a[0], true),
        "R" => out.wrote(
            &AdsRefactorInfo::new(number(&a[0]) as u32, Some(text_of(&a[2])).filter(|s| !s.is_empty()))
                .to_vec_with_next(a[1] == [1]),
        ),
        "c" => chain(&mut out, &a[0]),
        "C" => out.wrote(&AdsRefactorInfo::entries_to_vec(&refactors_in(number(&a[0]), &a[1]))),
        "s" => symbol(&mut out, &a[0]),
        "w" => walk(&mut out, &a[1], number(&a[0])),
        "b" => bounded(&mut out, &a[2], number(&a[0]), number(&a[1])),
        "i" => field(&mut out, &a[0]),
        "I" => out.wrote(&field_of(&a).to_vec()),
        "t" => out.wrote(text_of(&a[0]).as_bytes()),
        "u" => encode(&mut out, &a[0]),
        _ => panic!("kind {kind}"),
    }
    out
}

fn main() {
    std::panic::set_hook(Box::new(|_| {}));
    let out = std::io::stdout();
    let mut out = std::io::BufWriter::with_capacity(1 << 20, out.lock());
    for line in std::io::stdin().lock().lines() {
        let line = line.unwrap();
        let said = catch_unwind(AssertUnwindSafe(|| answer(&line).0));
        let said = said.unwrap_or_else(|_| format!("{} panic", &line[..1]));
        writeln!(out, "{said}").unwrap();
    }
}
