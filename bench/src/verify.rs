//! Before anything is timed: every entry that was written is walked back, by both sides, and equals the symbol it came from.
use crate::c::{self, Told};
use crate::clock::wrong;
use crate::rig::{Rig, Symbol};
use crate::symbol_info::AdsSymbolInfoIterator;
use crate::sys;
use crate::{AdsSymbolInfo, AdsTypeId};
use encoding_rs::WINDOWS_1252;

pub fn text(bytes: &[u8]) -> String {
    WINDOWS_1252
        .decode_without_bom_handling(bytes)
        .0
        .into_owned()
}

fn same<T: PartialEq>(ours: &T, wanted: &T, what: &str, name: &[u8]) {
    if ours != wanted {
        wrong(&format!("{what} of {}", text(name)));
    }
}

/// The part that a pair of slots tells.
fn part<'a, const N: usize>(bytes: &'a [u8], told: &Told<N>, place: usize) -> &'a [u8] {
    &bytes[told.number(place)..][..told.number(place + 1)]
}

fn check_numbers(s: &Symbol, told: &Told<{ sys::SYMBOL_SLOTS }>) {
    let numbers = [
        (sys::SYMBOL_INDEX_GROUP, s.group as usize),
        (sys::SYMBOL_INDEX_OFFSET, s.offset as usize),
        (sys::SYMBOL_SIZE, s.size as usize),
        (sys::SYMBOL_DATA_TYPE_ID, s.type_id as usize),
        (sys::SYMBOL_FLAGS, s.flags as usize),
        (sys::SYMBOL_HIGH, s.high as usize),
        (sys::SYMBOL_HAS_GUID, s.guid.len() / 16),
        (sys::SYMBOL_EXTENDED_FLAGS, s.extended as usize),
        (sys::SYMBOL_ATTRIBUTE_COUNT, s.attributes.len()),
        (sys::SYMBOL_REFACTOR_COUNT, s.former.len()),
        (sys::SYMBOL_UNREAD, 0),
    ];
    for (place, wanted) in numbers {
        same(
            &told.number(place),
            &wanted,
            &format!("slot {place}"),
            &s.name,
        );
    }
}

fn check_records(s: &Symbol, entry: &[u8], told: &Told<{ sys::SYMBOL_SLOTS }>) {
    let mut record = Told::<{ sys::ATTRIBUTE_SLOTS }>::new();
    let mut left = &entry[told.number(sys::SYMBOL_ATTRIBUTES_AT)..];
    for (name, value) in &s.attributes {
        c::attribute_read(left, &mut record);
        let strings = (part(left, &record, 0), part(left, &record, 2));
        same(&strings, &(&name[..], &value[..]), "attribute", &s.name);
        left = &left[record.number(4)..];
    }
    let mut left = &entry[told.number(sys::SYMBOL_REFACTORS_AT)..];
    for (_, name) in &s.former {
        c::refactor_read(left, &mut record);
        same(
            &part(left, &record, 2),
            &&name[..],
            "refactor record",
            &s.name,
        );
        left = &left[record.number(4)..];
    }
}

fn check_ours(s: &Symbol, entry: &[u8], told: &Told<{ sys::SYMBOL_SLOTS }>) {
    check_numbers(s, told);
    // The Rust does not tell these bytes.
    same(
        &&entry[22..24],
        &&s.high.to_le_bytes()[..],
        "bytes 22 and 23",
        &s.name,
    );
    same(
        &part(entry, told, sys::SYMBOL_NAME_AT),
        &&s.name[..],
        "name",
        &s.name,
    );
    same(
        &part(entry, told, sys::SYMBOL_TYPE_NAME_AT),
        &&s.type_name[..],
        "type name",
        &s.name,
    );
    same(
        &part(entry, told, sys::SYMBOL_COMMENT_AT),
        &&s.comment[..],
        "comment",
        &s.name,
    );
    same(&&told.guid[..s.guid.len()], &&s.guid[..], "GUID", &s.name);
    check_records(s, entry, told);
}

fn check_their_strings(s: &Symbol, r: &AdsSymbolInfo) {
    let mut pairs = vec![
        (r.name(), &s.name),
        (r.type_name(), &s.type_name),
        (r.comment(), &s.comment),
    ];
    for (a, (name, value)) in r.attributes().iter().zip(&s.attributes) {
        pairs.push((a.name(), name));
        pairs.push((a.value(), value));
    }
    for (f, (_, name)) in r.refactor_infos().iter().zip(&s.former) {
        pairs.push((f.name().unwrap_or(""), name));
    }
    for (theirs, wanted) in pairs {
        same(
            &theirs,
            &text(wanted).as_str(),
            "the Rust's string",
            &s.name,
        );
    }
}

/// `reserved`, the Rust's unread count, has no accessor: it stands last in the derived Debug text.
fn check_theirs(s: &Symbol, r: &AdsSymbolInfo) {
    check_their_strings(s, r);
    let numbers = (
        r.index_offset().as_u32(),
        r.size(),
        r.data_type_id(),
        r.flags().as_raw(),
    );
    let wanted = (s.offset, s.size, AdsTypeId::from(s.type_id), s.flags);
    same(&numbers, &wanted, "the Rust's numbers", &s.name);
    let counts = (r.attributes().len(), r.refactor_infos().len());
    same(
        &counts,
        &(s.attributes.len(), s.former.len()),
        "the Rust's counts",
        &s.name,
    );
    let guid = r.guid().map_or(&[][..], |g| g.as_bytes());
    same(&guid, &&s.guid[..], "the Rust's GUID", &s.name);
    let unread = format!("{r:?}");
    same(
        &unread.ends_with("reserved: 0 }"),
        &true,
        "the Rust's unread count",
        &s.name,
    );
}

/// The call that takes a mode tells of a written entry what the other tells, in both modes, and goes as far.
fn check_modes(s: &Symbol, upload: &[u8], start: usize, told: &Told<{ sys::SYMBOL_SLOTS }>) {
    for checked in [false, true] {
        let mut own = Told::<{ sys::SYMBOL_SLOTS }>::new();
        let mut cursor = start;
        let status = c::symbol_step_in(checked, upload, &mut cursor, &mut own);
        same(&status, &sys::DONE, "status in a mode", &s.name);
        same(&own.slots, &told.slots, "slots in a mode", &s.name);
        same(
            &(cursor - start),
            &own.number(sys::SYMBOL_LENGTH),
            "cursor in a mode",
            &s.name,
        );
        let guid = &own.guid[..s.guid.len()];
        same(&guid, &&s.guid[..], "GUID in a mode", &s.name);
    }
}

pub fn check(rig: &Rig) {
    let mut theirs = AdsSymbolInfoIterator::new(&rig.upload);
    let mut told = Told::<{ sys::SYMBOL_SLOTS }>::new();
    let mut cursor = 0;
    for (s, start) in rig.symbols.iter().zip(&rig.starts) {
        same(&cursor, start, "start", &s.name);
        let status = c::symbol_step(c::SYMBOL_STEP, &rig.upload, &mut cursor, &mut told);
        same(&status, &sys::DONE, "status", &s.name);
        check_ours(s, &rig.upload[*start..cursor], &told);
        check_modes(s, &rig.upload, *start, &told);
        match theirs.next() {
            Some(Ok(record)) => check_theirs(s, &record),
            other => wrong(&format!("the Rust's walk: {other:?}")),
        }
    }
    let status = c::symbol_step(c::SYMBOL_STEP, &rig.upload, &mut cursor, &mut told);
    if status != sys::FINISHED || theirs.next().is_some() {
        wrong("the walk does not end after the last symbol");
    }
}
