//! Salvage, against a walk of its own over the bytes, after docs/FORMAT.md, "Walking" and "Salvage".

mod common;

use common::damage::{damaged, set_claim};
use common::plain::PlainSymbol;
use common::{Random, ends, refusal, rig};
use vindaskot::{
    AdsSymbolInfoIterator, LIMIT, Mode, RefusalKind, Run, Salvage, salvage, salvage_in,
};

const MODES: [Mode; 2] = [Mode::Present, Mode::Checked];

/// The number with which an entry of these bytes is refused, if it is.
fn refused_with(entry: &[u8], mode: Mode) -> Option<u32> {
    if entry.len() < 30 {
        return Some(2);
    }
    let lengths = [24, 26, 28].map(|at| usize::from(entry[at]) + 256 * usize::from(entry[at + 1]));
    if entry.len() < 33 + lengths.iter().sum::<usize>() {
        return Some(3);
    }
    let wrong = mode == Mode::Checked && ends::of_symbol(entry).is_some();
    wrong.then_some(16)
}

/// What is kept and what is dropped.
fn expected(data: &[u8], mode: Mode) -> (Vec<u8>, Vec<Run>) {
    let (mut kept, mut runs) = (Vec::new(), Vec::new());
    let mut start = 0;
    while start < data.len() {
        let left = &data[start..];
        let claim = left.first_chunk().map(|claim| u32::from_le_bytes(*claim));
        let (length, number) = match claim.map(|claim| claim as usize) {
            None => (left.len(), Some(2)),
            Some(0) => (left.len(), Some(10)),
            Some(claim) if claim > left.len() => (left.len(), Some(3)),
            Some(claim) => (claim, refused_with(&left[..claim], mode)),
        };
        match number {
            None => kept.extend(&left[..length]),
            Some(number) => runs.push(Run {
                start,
                length,
                number,
            }),
        }
        start += length;
    }
    (kept, runs)
}

const BYTE: u8 = 0xA5;
const SLOT: u32 = 0xA5A5_A5A5;

/// Buffers of so many bytes and slots, whose contents are known.
fn room(bytes: usize, slots: usize) -> (Vec<u8>, Vec<u32>) {
    (vec![BYTE; bytes], vec![SLOT; slots])
}

/// Too little of either is refused, bytes first, and changes nothing.
fn assert_refused(data: &[u8], mode: Mode, bytes: usize, slots: usize) {
    let less = bytes.saturating_sub(1);
    let fewer = slots.saturating_sub(1);
    for (lent_bytes, lent_slots) in [(less, fewer), (less, slots), (bytes, fewer), (0, 0)] {
        let (mut out, mut runs) = room(lent_bytes, lent_slots);
        let why = if lent_bytes < bytes {
            refusal(6, bytes, lent_bytes)
        } else if lent_slots < slots {
            refusal(6, slots, lent_slots)
        } else {
            continue;
        };
        assert_eq!(salvage_in(data, &mut out, &mut runs, mode), Err(why));
        assert_eq!((out, runs), room(lent_bytes, lent_slots));
    }
}

/// What was kept is walked without a refusal, and kept again as it is.
fn assert_again(kept: &[u8], mode: Mode) {
    let mut walk = AdsSymbolInfoIterator::new_in(kept, mode);
    assert!(walk.all(|entry| entry.is_ok()));
    let mut out = vec![BYTE; kept.len()];
    let again = salvage_in(kept, &mut out, &mut [], mode).unwrap();
    assert_eq!((again.upload(), again.runs().len()), (kept, 0));
}

/// The kept entries and the runs, put together again, are the damaged upload.
fn assert_whole(data: &[u8], salvaged: &Salvage<'_, '_>) {
    let mut kept = salvaged.upload();
    let mut whole: Vec<u8> = Vec::new();
    for run in salvaged.runs() {
        let before;
        (before, kept) = kept.split_at(run.start - whole.len());
        whole.extend(before);
        assert!(run.length > 0);
        whole.extend(&data[run.range()]);
    }
    whole.extend(kept);
    assert_eq!(whole, data);
}

/// Holds a salvage in a mode to what is expected; how many runs there were.
fn hold_in(data: &[u8], mode: Mode) -> Vec<Run> {
    let (kept, dropped) = expected(data, mode);
    let (bytes, slots) = (kept.len(), 3 * dropped.len());
    assert_refused(data, mode, bytes, slots);
    for more in [0, 5] {
        let (mut out, mut runs) = room(bytes + more, slots + more);
        let salvaged = salvage_in(data, &mut out, &mut runs, mode).unwrap();
        assert_eq!(salvaged.upload(), kept);
        assert_eq!(salvaged.runs().collect::<Vec<_>>(), dropped);
        assert_whole(data, &salvaged);
        if mode == Mode::Present {
            let (mut out, mut runs) = room(bytes, slots);
            assert_eq!(salvage(data, &mut out, &mut runs), Ok(salvaged));
        }
        assert_eq!(
            (out.split_off(bytes), runs.split_off(slots)),
            room(more, more)
        );
    }
    assert_again(&kept, mode);
    dropped
}

fn hold(data: &[u8]) -> Vec<Run> {
    MODES.map(|mode| hold_in(data, mode)).concat()
}

#[test]
fn damaged_uploads() {
    let mut r = Random(203);
    let mut met = [0; 17];
    let (mut whole, mut side_by_side) = (0, 0);
    for _ in 0..3000 {
        let data = damaged(&mut r);
        let runs = hold(&data);
        whole += usize::from(runs.is_empty());
        let pairs = runs.windows(2);
        side_by_side += pairs
            .filter(|two| two[0].range().end == two[1].start)
            .count();
        for run in runs {
            met[run.number as usize] += 1;
        }
    }
    // Each kind of damage was there, many times.
    for number in [2, 3, 10, 16] {
        assert!(met[number] > 100, "{met:?}");
    }
    assert!(whole > 100 && side_by_side > 100, "{whole} {side_by_side}");
}

#[test]
fn every_cut_of_the_rig() {
    let upload = rig();
    assert_eq!(hold(&upload), []);
    let starts: Vec<usize> = AdsSymbolInfoIterator::new(&upload)
        .with_starts()
        .map(|(start, _)| start)
        .collect();
    for cut in 0..upload.len() {
        let runs = hold_in(&upload[..cut], Mode::Checked);
        let start = *starts.iter().rfind(|start| **start <= cut).unwrap();
        let length = cut - start;
        let number = if length < 4 { 2 } else { 3 };
        let run = Run {
            start,
            length,
            number,
        };
        assert_eq!(runs, &[run][usize::from(length == 0)..]);
    }
}

/// Each byte of the rig changed to each of some others.
#[test]
fn every_byte_of_the_rig() {
    let mut upload = rig();
    for at in 0..upload.len() {
        for other in [0, 1, 29, 0xFF] {
            let sound = std::mem::replace(&mut upload[at], other);
            for mode in MODES {
                let (kept, dropped) = expected(&upload, mode);
                let mut out = vec![BYTE; upload.len()];
                let mut runs = vec![SLOT; 3 * dropped.len()];
                let salvaged = salvage_in(&upload, &mut out, &mut runs, mode).unwrap();
                assert_eq!(salvaged.upload(), kept);
                assert!(salvaged.runs().eq(dropped));
            }
            upload[at] = sound;
        }
    }
}

#[test]
fn refused_steps_side_by_side_are_runs_of_their_own() {
    let sound = PlainSymbol::named(b"MAIN.fZoom").bytes();
    let mut short = vec![0; 29];
    set_claim(&mut short, 29);
    let mut long = sound.clone();
    long[24] = 200;
    let first = [&short[..], &short, &sound, &long, &short].concat();
    let zero = [&first[..], &[0; 4], &sound].concat();
    let numbers = |runs: Vec<Run>| -> Vec<(usize, u32)> {
        runs.iter().map(|run| (run.length, run.number)).collect()
    };
    let n = sound.len();
    let dropped = [(29, 2), (29, 2), (n, 3), (29, 2)];
    assert_eq!(numbers(hold_in(&first, Mode::Present)), dropped);
    let stopped = [&dropped[..], &[(4 + n, 10)]].concat();
    assert_eq!(numbers(hold_in(&zero, Mode::Present)), stopped);
}

#[test]
fn a_wrong_end_byte_is_dropped_in_the_checked_mode_alone() {
    let sound = PlainSymbol::named(b"MAIN.fZoom").bytes();
    let mut wrong = sound.clone();
    wrong[40] = b'X';
    let data = [&sound[..], &wrong, &wrong, &sound].concat();
    assert_eq!(hold_in(&data, Mode::Present), []);
    let n = sound.len();
    let number = 16;
    let run = |start| Run {
        start,
        length: n,
        number,
    };
    assert_eq!(hold_in(&data, Mode::Checked), [run(n), run(2 * n)]);
}

#[test]
fn nothing_and_the_limit() {
    assert_eq!(hold(&[]), []);
    let mut zeros = vec![0; LIMIT];
    let mut runs = [SLOT; 4];
    let run = |length, number| Run {
        start: 0,
        length,
        number,
    };
    for mode in MODES {
        let salvaged = salvage_in(&zeros, &mut [], &mut runs, mode).unwrap();
        assert!(salvaged.runs().eq([run(LIMIT, 10)]));
        assert_eq!(runs[3], SLOT);
    }
    zeros.push(0);
    let why = refusal(5, LIMIT, LIMIT + 1);
    let (mut out, mut runs) = room(2, 2);
    assert_eq!(salvage(&zeros, &mut out, &mut runs), Err(why));
    for mode in MODES {
        assert_eq!(salvage_in(&zeros, &mut out, &mut runs, mode), Err(why));
        assert_eq!(salvage_in(&zeros, &mut [], &mut [], mode), Err(why));
    }
    assert_eq!((out, runs), room(2, 2));
}

#[test]
fn runs_in_words() {
    let (mut out, mut slots) = ([0; 40], [0; 9]);
    let data = [4, 0, 0, 0, 30, 0, 0, 0];
    let salvaged = salvage(&data, &mut out, &mut slots).unwrap();
    let mut runs = salvaged.runs();
    assert_eq!((runs.len(), runs.size_hint()), (2, (2, Some(2))));
    let first = runs.next().unwrap();
    assert_eq!(
        (first.range(), first.kind()),
        (0..4, Some(RefusalKind::TooShort))
    );
    let told = "Run { start: 4, length: 4, number: 3 }";
    assert_eq!(format!("{runs:?}"), format!("[{told}]"));
    let second = runs.next().unwrap();
    assert_eq!(second.kind(), Some(RefusalKind::EntryLengthMismatch));
    assert_eq!((runs.next(), runs.next(), runs.len()), (None, None, 0));
    assert_eq!(
        format!("{salvaged:?}"),
        format!("Salvage {{ upload: [], runs: [{first:?}, {told}] }}")
    );
}

/// Of real runs under each number that there is, and of every other kind of number.
#[test]
fn kinds_of_runs() {
    let sound = PlainSymbol::named(b"MAIN.fZoom").bytes();
    let mut wrong = sound.clone();
    wrong[40] = b'X';
    let mut long = sound.clone();
    long[24] = 200;
    let data = [&[4, 0, 0, 0], &long[..], &sound, &wrong, &[0; 9]].concat();
    let runs = hold_in(&data, Mode::Checked);
    let met: Vec<_> = runs.iter().map(|run| (run.number, run.kind())).collect();
    use RefusalKind as K;
    let expected = [
        (2, Some(K::TooShort)),
        (3, Some(K::EntryLengthMismatch)),
        (16, Some(K::EndByte)),
        (10, Some(K::ZeroEntryLength)),
    ];
    assert_eq!(met, expected);
    // No run has another number, but anyone can make one.
    for (number, kind) in [
        (0, None),
        (1, Some(K::UnexpectedLength)),
        (5, Some(K::TooLarge)),
        (15, Some(K::TooDeep)),
        (25, None),
        (u32::MAX, None),
    ] {
        assert_eq!(Run { number, ..runs[0] }.kind(), kind, "{number}");
    }
}
