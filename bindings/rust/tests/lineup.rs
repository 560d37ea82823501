//! The line-up table (crates/lineup) and the listed example, through the crate.

mod common;

use common::{hex, refusal};
use vindaskot::{
    AdsAttribute, AdsFieldInfo, AdsRefactorInfo, AdsSymbolInfo, AdsSymbolInfoIterator, IndexGroup,
    IndexOffset, Refusal, symbol,
};

/// The listed example: an entry of 37 bytes, then three of which no entry can be.
const LISTED: &str =
    "2500000020400000080000000200000002000000000000000100030000005A00494E540000250000";

/// What one step from the start of some bytes gives where it is refused, and the cursor after it.
fn refused_step(data: &[u8]) -> (Refusal, usize) {
    let mut cursor = 0;
    let step = symbol::parse_next_entry(data, &mut cursor);
    (step.unwrap().unwrap_err(), cursor)
}

/// So many zero bytes that claim so much.
fn claiming(claim: u8, len: usize) -> Vec<u8> {
    let mut bytes = vec![0; len];
    bytes[0] = claim;
    bytes
}

#[test]
fn l1_empty_data_is_finished() {
    let mut cursor = 0;
    assert_eq!(symbol::parse_next_entry(&[], &mut cursor), None);
    assert_eq!(cursor, 0);
}

#[test]
fn l2_to_l4_walked() {
    assert_eq!(refused_step(&[0]), (refusal(2, 4, 1), 1));
    assert_eq!(refused_step(&claiming(0, 30)), (refusal(2, 30, 0), 0));
    assert_eq!(refused_step(&claiming(29, 29)), (refusal(2, 30, 29), 29));
}

#[test]
fn l5_l6_l12_direct() {
    let short = claiming(29, 30);
    let bare = claiming(30, 30);
    let field = claiming(41, 42);
    assert_eq!(
        AdsSymbolInfo::try_from_slice(&short),
        Err(refusal(4, 30, 29))
    );
    assert_eq!(
        AdsSymbolInfo::try_from_slice(&bare),
        Err(refusal(3, 33, 30))
    );
    assert_eq!(
        AdsFieldInfo::try_from_slice(&field),
        Err(refusal(4, 42, 41))
    );
}

#[test]
fn l7_the_entry_of_37_bytes() {
    let bytes = hex(LISTED);
    let info = AdsSymbolInfo::try_from_slice(&bytes).unwrap();
    assert_eq!(info.as_bytes(), &bytes[..37]);
    assert_eq!(info.index_group(), IndexGroup(16416));
    assert_eq!(info.index_offset(), IndexOffset(8));
    assert_eq!((info.size(), info.data_type_id()), (2, 2));
    assert_eq!((info.flags().as_raw(), info.high()), (0, 0));
    assert_eq!(info.extended_flags(), None);
    assert_eq!(info.name(), b"Z");
    assert_eq!(info.type_name(), b"INT");
    assert_eq!(info.comment(), b"");
    assert_eq!(info.guid(), None);
    assert_eq!(info.attributes().len(), 0);
    assert_eq!(info.refactor_infos().len(), 0);
    assert_eq!(info.unread(), 0);
}

#[test]
fn the_listed_example_walked() {
    let bytes = hex(LISTED);
    let mut walk = AdsSymbolInfoIterator::new(&bytes).with_starts();
    let (start, first) = walk.next().unwrap();
    assert_eq!((start, first.unwrap().name()), (0, &b"Z"[..]));
    assert_eq!(walk.next(), Some((37, Err(refusal(2, 41, 40)))));
    assert_eq!(walk.next(), None);
}

#[test]
fn l8_l9_attributes() {
    let bytes = [1, 1, 0x75, 0, 0xB0, 0];
    let attribute = AdsAttribute::try_from_slice(&bytes).unwrap();
    assert_eq!(
        (attribute.name(), attribute.value()),
        (&b"u"[..], &[0xB0][..])
    );
    assert_eq!(attribute.wire_size(), Ok(6));
    let cut = AdsAttribute::try_from_slice(&bytes[..5]);
    assert_eq!(cut, Err(refusal(1, 6, 5)));
}

#[test]
fn l10_l11_refactor_records() {
    let bytes = [1, 0, 0, 1, 1, 0, 0x41, 0];
    let (info, taken) = AdsRefactorInfo::try_from_slice(&bytes).unwrap();
    assert_eq!(info.refactor_count(), 0x0100_0001);
    assert!(info.next_refactor_info());
    assert_eq!(info.name(), Some(&b"A"[..]));
    assert_eq!(taken, 8);

    let (info, taken) = AdsRefactorInfo::try_from_slice(&[2, 0, 0, 0, 0, 0, 0]).unwrap();
    assert_eq!(
        (info.refactor_count(), info.next_refactor_info()),
        (0, false)
    );
    assert_eq!((info.name(), taken), (None, 7));
}
