//! Windows-1252 to UTF-8 and back, beside encoding_rs.
use crate::c;
use crate::clock::{Contender, Times, plain, race, wrong};
use crate::dice::Dice;
use crate::report::Report;
use crate::verify::text;
use encoding_rs::{DecoderResult, EncoderResult, WINDOWS_1252};
use std::cell::RefCell;
use std::hint::black_box;

/// Bytes of the long texts.
const LONG: usize = 65536;
/// How many names.
const NAMES: usize = 5000;
/// The encoder by itself, for text that is known to be UTF-8.
const UNCHECKED: &str = "UTF-8 not checked, lent";
/// This archive and, where BEFORE names one, an earlier one.
const ARCHIVES: &[c::Text] = &[
    c::TEXT,
    #[cfg(before)]
    c::before::TEXT,
];

/// The lent buffer. All contenders write to the same one, so that none has a better place in memory.
type Room = RefCell<Vec<u8>>;

/// The goal that a kind of text is for.
enum Goal {
    AllBytes,
    Names,
    Neither,
}

/// Texts that are converted one call each.
struct Texts {
    what: &'static str,
    goal: Goal,
    windows: Vec<Vec<u8>>,
    utf8: Vec<String>,
}

impl Texts {
    fn new(what: &'static str, goal: Goal, windows: Vec<Vec<u8>>) -> Self {
        let utf8 = windows.iter().map(|w| text(w)).collect();
        Self {
            what,
            goal,
            windows,
            utf8,
        }
    }

    /// What a time is divided by: the bytes of one text, or the names.
    fn items(&self) -> usize {
        match self.windows.as_slice() {
            [one] => one.len(),
            names => names.len(),
        }
    }
}

fn letters(dice: &mut Dice, n: usize) -> Vec<u8> {
    const LETTERS: &[u8] = b"abcdefghijklmnopqrstuvwxyzABCDEFGHIJKLMNOPQRSTUVWXYZ0123456789_.";
    (0..n).map(|_| LETTERS[dice.below(LETTERS.len())]).collect()
}

const UMLAUTS: [u8; 7] = [0xE4, 0xF6, 0xFC, 0xC4, 0xD6, 0xDC, 0xDF];
/// Of the bytes 80 to 9F: signs whose text takes three bytes, and letters whose text takes two.
const SIGNS: [u8; 7] = [0x80, 0x84, 0x93, 0x96, 0x99, 0x8A, 0x9C];

/// A name of at least so many bytes, one to three of them drawn from a few.
fn with_some(of: &[u8], least: usize, spread: usize, dice: &mut Dice) -> Vec<u8> {
    let n = least + dice.below(spread);
    let mut name = letters(dice, n);
    for _ in 0..1 + dice.below(3) {
        name[dice.below(n)] = of[dice.below(of.len())];
    }
    name
}

fn inputs(dice: &mut Dice) -> [Texts; 7] {
    let in_order: Vec<u8> = (0..LONG).map(|i| i as u8).collect();
    let mut shuffled = in_order.clone();
    dice.shuffle(&mut shuffled);
    // A letter in front: `decode` takes EF BB BF, FE FF or FF FE there for a byte order mark.
    shuffled.insert(0, b'A');
    shuffled.pop();
    let ascii = letters(dice, LONG);
    let ascii_names = (0..NAMES).map(|_| letters(dice, 18)).collect();
    let mut names = |of, least, spread| {
        (0..NAMES)
            .map(|_| with_some(of, least, spread, dice))
            .collect()
    };
    let umlaut_names = names(&UMLAUTS, 18, 13);
    let sign_names = names(&SIGNS, 18, 13);
    let short_names = names(&UMLAUTS, 1, 12);
    [
        Texts::new("ASCII", Goal::Neither, vec![ascii]),
        Texts::new("all 256 bytes in order", Goal::AllBytes, vec![in_order]),
        Texts::new("all 256 bytes shuffled", Goal::AllBytes, vec![shuffled]),
        Texts::new("ASCII names of 18 bytes", Goal::Names, ascii_names),
        Texts::new("umlaut names of 18 to 30 bytes", Goal::Names, umlaut_names),
        Texts::new("sign names of 18 to 30 bytes", Goal::Neither, sign_names),
        Texts::new("umlaut names of 1 to 12 bytes", Goal::Neither, short_names),
    ]
}

/// encoding_rs into a lent buffer, with no byte order mark looked for: what vindaskot_decode does.
fn decode_lent(src: &[u8], out: &mut [u8]) -> usize {
    let mut decoder = WINDOWS_1252.new_decoder_without_bom_handling();
    match decoder.decode_to_utf8_without_replacement(src, out, true) {
        (DecoderResult::InputEmpty, _, written) => written,
        other => wrong(&format!("encoding_rs: {other:?}")),
    }
}

/// The call of the supplied Rust, which looks for a byte order mark. ASCII is lent on and not copied; all else is allocated.
fn decode_cow(src: &[u8]) -> usize {
    black_box(WINDOWS_1252.decode(src)).0.len()
}

/// The call of the supplied Rust.
fn encode_cow(src: &str) -> usize {
    black_box(WINDOWS_1252.encode(src)).0.len()
}

/// encoding_rs into a lent buffer.
fn encode_lent(src: &str, out: &mut [u8]) -> usize {
    let mut encoder = WINDOWS_1252.new_encoder();
    match encoder.encode_from_utf8_without_replacement(src, out, true) {
        (EncoderResult::InputEmpty, _, written) => written,
        other => wrong(&format!("encoding_rs: {other:?}")),
    }
}

/// The same from bytes that have yet to be seen to be UTF-8: what vindaskot_encode does.
fn encode_checked(src: &[u8], out: &mut [u8]) -> usize {
    match std::str::from_utf8(src) {
        Ok(s) => encode_lent(s, out),
        Err(e) => wrong(&format!("not UTF-8: {e}")),
    }
}

/// The sum of what each call wrote.
fn all<T: AsRef<U>, U: ?Sized>(texts: &[T], mut convert: impl FnMut(&U) -> usize) -> u64 {
    texts
        .iter()
        .map(|t| black_box(convert(black_box(t.as_ref()))) as u64)
        .sum()
}

/// Whether a call writes just this over zeros.
fn writes(wanted: &[u8], out: &mut [u8], call: impl Fn(&mut [u8]) -> usize) -> bool {
    out.iter_mut().take(wanted.len()).for_each(|b| *b = 0);
    let n = call(out);
    out.get(..n) == Some(wanted)
}

/// What an archive writes, every byte of it, and the length that it tells where nothing is lent, beside encoding_rs.
fn check(by: &c::Text, t: &Texts, out: &mut [u8]) {
    for (w, u) in t.windows.iter().zip(&t.utf8) {
        let u = u.as_bytes();
        let decodes = |out: &mut [u8]| writes(u, out, |out| by.decode(w, out));
        let calls = [
            ("decode", decodes(out)),
            ("decode, just enough lent", decodes(&mut out[..u.len()])),
            ("decode, the length", by.decode_needs(w) == u.len()),
            ("encode", writes(w, out, |out| by.encode(u, out))),
        ];
        if let Some((call, _)) = calls.iter().find(|(_, right)| !right) {
            wrong(&format!("{call}, {}", t.what));
        }
    }
}

/// A contender an archive.
fn archives<'a>(run: impl Fn(&'static c::Text) -> Contender<'a>) -> Vec<Contender<'a>> {
    ARCHIVES.iter().map(run).collect()
}

/// Every text converted into the whole of the room.
fn into<'a, T: AsRef<U>, U: ?Sized>(
    room: &'a Room,
    texts: &'a [T],
    convert: impl Fn(&U, &mut [u8]) -> usize + 'a,
) -> Contender<'a> {
    plain(move || {
        let out = &mut room.borrow_mut()[..];
        all(texts, |s| convert(s, out))
    })
}

fn decoding(report: &Report, t: &Texts, room: &Room) -> Vec<Times> {
    let ours = |by: &'static c::Text| into(room, &t.windows, |s: &[u8], out| by.decode(s, out));
    let mut runs = archives(ours);
    runs.push(into(room, &t.windows, decode_lent));
    runs.push(plain(|| all(&t.windows, decode_cow)));
    race(report.allowed, t.what, runs)
}

fn encoding(report: &Report, t: &Texts, room: &Room) -> Vec<Times> {
    let ours = |by: &'static c::Text| into(room, &t.utf8, |s: &[u8], out| by.encode(s, out));
    let mut runs = archives(ours);
    runs.push(into(room, &t.utf8, encode_checked));
    runs.push(into(room, &t.utf8, encode_lent));
    runs.push(plain(|| all(&t.utf8, encode_cow)));
    race(report.allowed, t.what, runs)
}

/// Every text decoded where no byte more is lent than it takes.
fn just_enough<'a>(by: &'static c::Text, t: &'a Texts, room: &'a Room) -> Contender<'a> {
    plain(move || {
        let out = &mut room.borrow_mut()[..];
        let mut lengths = t.utf8.iter().map(String::len);
        all(&t.windows, |s: &[u8]| {
            by.decode(s, &mut out[..lengths.next().unwrap()])
        })
    })
}

/// Rows of which encoding_rs has no counterpart.
fn alone(report: &Report, t: &Texts, what: &str, runs: Vec<Contender>) {
    let what = format!("decode {}: {what}", t.what);
    let times = race(report.allowed, &what, runs);
    report.alone(&what, t.items(), times[0]);
    report.before("the same", t.items(), &times);
}

/// A row a counterpart. The first is the fair one, by which a goal is judged.
fn rows_of(report: &mut Report, t: &Texts, way: &str, others: &[&str], times: &[Times]) {
    let (archives, theirs) = times.split_at(ARCHIVES.len());
    for (i, other) in others.iter().enumerate() {
        let what = format!("{way} {}: {other}", t.what);
        let ratio = report.row(&what, t.items(), archives[0], theirs[i]);
        match t.goal {
            Goal::AllBytes if i == 0 => report.goals.all_bytes.push((what, ratio)),
            Goal::Names if i == 0 => report.goals.names.push((what, ratio)),
            _ if *other == UNCHECKED => report.goals.unchecked.push((what, ratio)),
            _ => {}
        }
    }
    report.before("the first row", t.items(), archives);
}

pub fn rows(report: &mut Report, seed: u64) {
    let room = RefCell::new(vec![0; LONG * 3 + 64]);
    let unit = "ns a Windows-1252 byte, ns a name";
    report.heading("text, beside encoding_rs", unit);
    for t in inputs(&mut Dice::new(seed)) {
        for by in ARCHIVES {
            check(by, &t, &mut room.borrow_mut());
        }
        let times = decoding(report, &t, &room);
        rows_of(report, &t, "decode", &["lent", "Cow"], &times);
        let runs = archives(|by| just_enough(by, &t, &room));
        alone(report, &t, "just enough lent", runs);
        let runs = archives(|by| plain(|| all(&t.windows, |s: &[u8]| by.decode_needs(s))));
        alone(report, &t, "the length alone", runs);
        let times = encoding(report, &t, &room);
        let others = ["UTF-8 checked, lent", UNCHECKED, "Cow"];
        rows_of(report, &t, "encode", &others, &times);
    }
}
