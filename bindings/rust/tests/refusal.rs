//! Refusals in words, by kind, and at the limit.

mod common;

use common::refusal;
use vindaskot::index::{slots_needed, slots_needed_in};
use vindaskot::text::{decode, encode};
use vindaskot::{
    AdsAttribute, AdsFieldInfo, AdsRefactorInfo, AdsSymbol2Flags, AdsSymbolFlags, AdsSymbolInfo,
    AdsSymbolInfoIterator, AdsTypeFlags, DataType, DataTypeIterator, Index, LIMIT, Mode,
    RefusalKind, WalkEnd, find, find_in, salvage, salvage_in, walk,
};

/// A refusal a line: number, figures, and how they are told.
const TOLD: &str = "\
1 6 5 unexpected length: 6 needed, 5 present
2 30 29 too short: 30 needed, 29 present
3 33 30 entry length mismatch: 33 claimed or needed, 30 available
4 42 41 claim below the header: 42 in the header, 41 claimed
5 16777216 16777217 too large: 16777216 at most, 16777217 given
6 37 0 output too small: 37 needed, 0 lent
7 255 256 string or count too long: 255 at most, 256 given
8 1 0 symbol flags and sections disagree: section 1, GUID
8 2 0 symbol flags and sections disagree: section 2, attributes
8 3 0 symbol flags and sections disagree: section 3, extended flags
8 4 0 symbol flags and sections disagree: section 4, refactor records
9 2 1 block is not its count of good records: 2 counted, 1 good at its start
10 1 0 zero entry length: 1 at least, 0 claimed
11 4 1 text: not UTF-8 at byte 4
11 7 2 text: a character that Windows-1252 lacks at byte 7
12 0 0 bad hexadecimal line
13 0 0 name not found
14 3 9 no such number: 3 there, 9 asked
15 16 17 data type entries nest too deep: 16 deep at most, 17 deep met
16 41 88 end byte is not 0: 88 at byte 41
17 3 1 not for a sheet: entry 3, its GUID is flagged
17 3 2 not for a sheet: entry 3, its attributes are flagged
17 3 3 not for a sheet: entry 3, its extended flags are flagged
17 3 5 not for a sheet: entry 3, it has unread bytes, or an end byte that is not 0
18 2 5 bad sheet: row 2, column 5
19 1455 0 not in plain form: byte 1455 departs
20 7 0 no path of a variable: fault at byte 7
13 12 1 name not found: no member at byte 12 of the path
13 12 2 name not found: no data type at byte 12 of the path
21 14 1 wrong dimensions: subscripts at byte 14, 1 dimensions there
22 5 2 no offset: below a symbol of a bit at byte 5
22 6 4 no offset: a reference at byte 6
22 7 64 no offset: a property at byte 7
22 8 131072 no offset: a static member at byte 8
22 9 1024 no offset: below an interface pointer at byte 9
22 10 8388608 no offset: below a pointer at byte 10
23 4294967295 4294967296 index offset too large: 4294967295 at most, 4294967296 here
24 9 16 too many aliases: more than 16 in a row at byte 9
25 1 2 expected 1, got 2
99 1 2 expected 1, got 2";

#[test]
fn words_and_figures() {
    for line in TOLD.lines() {
        let mut parts = line.splitn(4, ' ');
        let number = parts.next().unwrap();
        let [expected, got] = [(); 2].map(|()| parts.next().unwrap().parse().unwrap());
        let told = refusal(number.parse().unwrap(), expected, got).to_string();
        assert_eq!(told, format!("refusal {number}, {}", parts.next().unwrap()));
    }
}

#[test]
fn kinds_by_number() {
    for number in 1..=24 {
        let why = refusal(number, 0, 0);
        let kind = why.kind().unwrap();
        assert_eq!(kind.number(), number);
        assert!(why.is(kind));
    }
    assert_eq!(refusal(2, 0, 0).kind(), Some(RefusalKind::TooShort));
    assert_eq!(refusal(13, 0, 0).kind(), Some(RefusalKind::NameNotFound));
    assert_eq!(refusal(15, 0, 0).kind(), Some(RefusalKind::TooDeep));
    assert_eq!(refusal(16, 0, 0).kind(), Some(RefusalKind::EndByte));
    assert_eq!(refusal(19, 0, 0).kind(), Some(RefusalKind::NotPlain));
    assert_eq!(refusal(24, 0, 0).kind(), Some(RefusalKind::TooManyAliases));
    for number in [0, 25] {
        assert_eq!(refusal(number, 0, 0).kind(), None);
    }
}

#[test]
fn a_refusal_is_an_error() {
    fn read(data: &[u8]) -> Result<(), Box<dyn std::error::Error>> {
        AdsSymbolInfo::try_from_slice(data)?;
        Ok(())
    }
    let why = read(&[]).unwrap_err();
    assert_eq!(
        why.to_string(),
        "refusal 2, too short: 30 needed, 0 present"
    );
}

#[test]
fn input_above_the_limit_is_refused_first() {
    let large = vec![0; LIMIT + 1];
    let why = refusal(5, LIMIT, LIMIT + 1);
    assert_eq!(AdsSymbolInfo::try_from_slice(&large), Err(why));
    assert_eq!(AdsFieldInfo::try_from_slice(&large), Err(why));
    assert_eq!(DataType::try_from_slice(&large), Err(why));
    assert_eq!(AdsAttribute::try_from_slice(&large), Err(why));
    assert_eq!(AdsRefactorInfo::try_from_slice(&large), Err(why));
    assert_eq!(AdsRefactorInfo::parse_chain(&large).unwrap_err(), why);
    assert_eq!(AdsSymbolFlags::try_from_slice(&large), Err(why));
    assert_eq!(AdsSymbol2Flags::try_from_slice(&large), Err(why));
    assert_eq!(AdsTypeFlags::try_from_slice(&large), Err(why));
    assert_eq!(slots_needed(&large), Err(why));
    assert_eq!(find(&large, b""), Err(why));
    assert_eq!(Index::over(&[0]).find(&large, b""), Err(why));
    assert_eq!(decode(&large, &mut []), Err(why));
    assert_eq!(encode(&large, &mut []), Err(why));
    assert_eq!(salvage(&large, &mut [], &mut []), Err(why));
    let checked = Mode::Checked;
    assert_eq!(AdsSymbolInfo::try_from_slice_in(&large, checked), Err(why));
    assert_eq!(AdsFieldInfo::try_from_slice_in(&large, checked), Err(why));
    assert_eq!(DataType::try_from_slice_in(&large, checked), Err(why));
    assert_eq!(AdsAttribute::try_from_slice_in(&large, checked), Err(why));
    assert_eq!(slots_needed_in(&large, checked), Err(why));
    assert_eq!(find_in(&large, b"", checked), Err(why));
    assert_eq!(salvage_in(&large, &mut [], &mut [], checked), Err(why));
    for mode in [Mode::Present, checked] {
        let mut items = DataTypeIterator::new_in(&large, mode);
        assert_eq!([items.next(), items.next()], [Some(Err(why)), None]);
        assert_eq!(items.position(), LIMIT + 1);
    }
    let mut items = AdsSymbolInfoIterator::new_in(&large, checked);
    assert_eq!([items.next(), items.next()], [Some(Err(why)), None]);
    let mut items = AdsSymbolInfoIterator::new(&large);
    assert_eq!([items.next(), items.next()], [Some(Err(why)), None]);
    let walked = walk(&large, 0, 3);
    assert_eq!((walked.end, walked.steps), (WalkEnd::Finished, 1));
    assert_eq!((walked.cursor, items.position()), (LIMIT + 1, LIMIT + 1));
}
