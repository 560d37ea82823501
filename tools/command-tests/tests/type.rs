//! `type`: data types as trees.

mod common;

use std::ffi::OsStr;
use std::fs;
use std::os::unix::ffi::OsStrExt;

use common::{Session, fed, hexadecimal, program, repository};

const FORMS: [&str; 2] = ["samples/types.bin", "samples/types.hex"];

fn sample() -> Vec<u8> {
    fs::read(repository().join(FORMS[0])).unwrap()
}

/// Where the lens table starts in the sample, and in it the first entry of its zoom curve.
const TABLE: usize = 882;
const CURVE: usize = 1070;

/// An entry as docs/FORMAT.md lays it out, with these entries in it.
#[derive(Default)]
struct Entry<'a> {
    name: &'a [u8],
    type_name: &'a [u8],
    offset: u32,
    size: u32,
    flags: u32,
    arrays: &'a [(i32, u32)],
    attributes: &'a [(&'a [u8], &'a [u8])],
}

impl Entry<'_> {
    fn around(&self, items: &[Vec<u8>]) -> Vec<u8> {
        let attributes = !self.attributes.is_empty();
        let flags = self.flags | if attributes { 0x1000 } else { 0 };
        let words = [1, 0, 0, self.size, self.offset, 65, flags];
        let lengths = [self.name.len(), self.type_name.len(), 0];
        let counts = [self.arrays.len(), items.len()];
        let halves = lengths.iter().chain(&counts);
        let mut rest: Vec<u8> = words.iter().flat_map(|word| word.to_le_bytes()).collect();
        rest.extend(halves.flat_map(|half| (*half as u16).to_le_bytes()));
        rest.extend([self.name, b"\0", self.type_name, b"\0\0"].concat());
        for (lower, elements) in self.arrays {
            rest.extend([lower.to_le_bytes(), elements.to_le_bytes()].concat());
        }
        rest.extend(items.concat());
        if attributes {
            rest.extend((self.attributes.len() as u16).to_le_bytes());
        }
        for (name, value) in self.attributes {
            rest.extend([name.len() as u8, value.len() as u8]);
            rest.extend([name, &b"\0"[..], value, b"\0"].concat());
        }
        [&(rest.len() as u32 + 4).to_le_bytes()[..], &rest].concat()
    }
}

fn named(name: &[u8]) -> Entry<'_> {
    Entry {
        name,
        ..Entry::default()
    }
}

fn claiming(claim: u32, length: usize) -> Vec<u8> {
    let mut entry = vec![0xEE; length];
    entry[..4].copy_from_slice(&claim.to_le_bytes());
    entry
}

#[test]
fn all_types_of_the_sample() {
    let mut session = Session::new(repository());
    let printed = FORMS.map(|file| {
        let output = session.run(&["type", file]);
        let text = String::from_utf8(output.stdout).unwrap();
        text.split_once('\n').unwrap().1.to_string()
    });
    assert_eq!(printed[0], printed[1], "both forms are the same upload");
    session.run(&["type", "--json", FORMS[0]]);
    session.hold("type.txt");
}

/// The first of a name, in any case of A to Z, from a file and from standard input.
#[test]
fn a_type_by_its_name() {
    let mut session = Session::new(repository());
    session.run(&["type", FORMS[0], "ST_LensTable"]);
    session.run(&["type", FORMS[1], "ARRAY [-2..5] of int"]);
    session.run(&["type", "--json", FORMS[0], "T_DEGREE"]);
    let upload = sample();
    let hexadecimal = hexadecimal(&upload);
    for input in [&upload[..], hexadecimal.as_bytes()] {
        session.run_on(&["type", "-", "st_lenspoint"], input);
    }
    session.hold("type-name.txt");
}

/// Of two whose names differ in case alone the first is meant, also where a later one is what was typed.
#[test]
fn the_first_of_two() {
    let first = Entry {
        size: 1,
        ..named(b"ST_A")
    };
    let second = Entry {
        size: 2,
        ..named(b"st_a")
    };
    let upload = [first.around(&[]), second.around(&[])].concat();
    let mut session = Session::new(repository());
    for name in ["ST_A", "st_a"] {
        session.run_on(&["type", "-", name], &upload);
    }
    session.hold("type-two.txt");
}

#[test]
fn a_name_that_is_not_there() {
    let mut session = Session::new(repository());
    // A member's name is no data type's.
    for name in ["ST_LensTabl", "fEnd", "", "\u{3A9}"] {
        let output = session.run(&["type", FORMS[0], name]);
        assert!(output.stdout.is_empty());
    }
    let accented = named(b"ST_F\xFCr").around(&[]);
    session.run_on(&["type", "-", "st_für"], &accented);
    session.run_on(&["type", "-", "ST_FÜR"], &accented);
    session.run_on(&["type", "-", "ST_A"], b"");
    session.run_on(&["type", "-"], b"");
    session.run_on(&["type", "--json", "-"], b"");
    let mut command = program(&repository(), &["type", FORMS[0]]);
    command.arg(OsStr::from_bytes(b"ST_F\xFCr"));
    session.note(&["type", FORMS[0], "ST_F(FC)r"], &fed(command, b""));
    session.hold("type-none.txt");
}

/// Each in its place, by the number of what was met first; the next is printed, and one that is asked for is told why.
#[test]
fn refused_types_in_their_place() {
    let deep = (0..16).fold(named(b"leaf").around(&[]), |item, number| {
        let name = format!("ST_Deep{}", 15 - number);
        named(name.as_bytes()).around(&[item])
    });
    let mut long = named(b"ST_Strings").around(&[]);
    long[32] = 200;
    let mut array = Entry {
        arrays: &[(0, 1)],
        ..named(b"ST_Array")
    }
    .around(&[]);
    array[38] = 2;
    let attribute = Entry {
        attributes: &[(b"a", b"b")],
        ..named(b"ST_Attribute")
    };
    let mut attribute = attribute.around(&[]);
    let value = attribute.len() - 5;
    attribute[value] = 9;
    let mut last = named(b"ST_Cut").around(&[]);
    last.pop();
    let entries = [
        named(b"ST_First").around(&[]),
        deep,
        claiming(41, 41),
        long,
        array,
        named(b"ST_Leaves").around(&[claiming(61, 60)]),
        named(b"ST_Few").around(&[vec![0; 3]]),
        named(b"ST_Claim").around(&[claiming(41, 60)]),
        attribute,
        named(b"ST_After").around(&[named(b"fMember").around(&[])]),
        last,
    ];
    let upload = entries.concat();
    let mut session = Session::new(repository());
    for words in [&["type", "-"][..], &["type", "--json", "-"]] {
        let output = session.run_on(words, &upload);
        assert_eq!(output.status.code(), Some(1));
    }
    for name in [
        "st_after",
        "ST_deep0",
        "ST_Deep1",
        "ST_Leaves",
        "ST_Few",
        "ST_Claim",
        "ST_Array",
        "ST_Strings",
        "ST_Cut",
    ] {
        session.run_on(&["type", "-", name], &upload);
    }
    session.hold("type-refused.txt");
}

#[test]
fn a_zero_length_ends_the_walk() {
    let entries = [
        named(b"ST_First").around(&[]),
        claiming(0, 4),
        named(b"ST_After").around(&[]),
    ];
    let upload = entries.concat();
    let mut session = Session::new(repository());
    for words in [
        &["type", "-"][..],
        &["type", "--json", "-"],
        &["type", "-", "ST_First"],
        &["type", "-", "ST_After"],
    ] {
        session.run_on(words, &upload);
    }
    session.hold("type-zero.txt");
}

/// A member whose name was cut without its end byte: with --checked the data type is refused, and the next of its name is
/// the one that is meant.
#[test]
fn a_member_that_was_cut() {
    let mut upload = sample();
    let end = CURVE + 42 + "stZoom".len();
    assert_eq!(upload[end], 0);
    upload[end] = b'X';
    let mut session = Session::new(repository());
    for checked in [&[][..], &["--checked"]] {
        session.run_on(&[&["type", "-", "ST_LensTable"], checked].concat(), &upload);
    }
    let output = session.run_on(&["type", "--checked", "-"], &upload);
    let text = String::from_utf8(output.stdout).unwrap();
    assert!(
        text.lines()
            .any(|line| line.starts_with("  882  refusal 16, "))
    );
    upload.extend(named(b"ST_LENSTABLE").around(&[]));
    session.run_on(&["type", "--checked", "-", "ST_LensTable"], &upload);
    session.hold("type-checked.txt");
    // A sound upload is the same in both modes.
    let plain = fed(program(&repository(), &["type", FORMS[0]]), b"");
    let checked = fed(
        program(&repository(), &["type", "--checked", FORMS[0]]),
        b"",
    );
    let plain = String::from_utf8(plain.stdout).unwrap();
    let plain = plain.replacen("5,574 bytes)", "5,574 bytes, checked)", 1);
    assert_eq!(String::from_utf8(checked.stdout).unwrap(), plain);
}

/// As deep as it may be, offsets beyond 32 bits, bounds at their ends, many dimensions, text that needs care.
#[test]
fn odd_ones() {
    let far = |name: &'static [u8]| Entry {
        offset: u32::MAX,
        size: u32::MAX,
        ..named(name)
    };
    let deep = (1..16).fold(far(b"leaf").around(&[]), |item, _| {
        far(b"m").around(&[item])
    });
    let arrays = [
        (i32::MIN, u32::MAX),
        (i32::MAX, u32::MAX),
        (-1, 0),
        (0, 1),
        (-7, 3),
    ];
    let array = Entry {
        type_name: b"ARRAY \"OF\" \\",
        arrays: &arrays,
        attributes: &[
            (b"W\xE4hrung", b"\x80 \"1\""),
            (b"", b""),
            (b"\x1B[31m", b"\n"),
        ],
        ..named(b"ST_H\xF6he\x00\x9D")
    };
    let upload = [deep, array.around(&[]), Entry::default().around(&[])].concat();
    let mut session = Session::new(repository());
    session.run_on(&["type", "-"], &upload);
    session.run_on(&["type", "--json", "-"], &upload);
    session.run_on(&["type", "-", ""], &upload);
    session.hold("type-odd.txt");
}

/// Each of the four flags on a member, two levels of members in it, one of them an array, and no flag on what stands behind
/// it; all of them at once; on the root; and every other flag, which marks nothing.
#[test]
fn marked_by_flags() {
    let marks = [0x20, 0x2_0000, 0x4, 0x40];
    let leaf = |flags: u32| Entry {
        offset: 1,
        flags,
        ..named(b"leaf")
    };
    let array = Entry {
        offset: 10,
        arrays: &[(0, 3)],
        ..named(b"aInner")
    };
    let member = |flags: u32| {
        let inner = array.around(&[leaf(0).around(&[]), leaf(0x20).around(&[])]);
        let one = Entry {
            offset: 100,
            flags,
            ..named(b"member")
        };
        one.around(&[inner, leaf(0).around(&[])])
    };
    let mut members: Vec<_> = marks.map(member).into();
    let all = marks.iter().sum::<u32>();
    // Sections stand on 0x80, 0x200, 0x800 and 0x1000: with bytes for none of them they are left out.
    members.extend([member(all), member(!all & !0x1A80), leaf(0).around(&[])]);
    let root = |flags: u32| Entry {
        flags,
        ..named(b"ST_Root")
    };
    let upload = [
        root(0).around(&members),
        root(0x2_0000).around(&[leaf(0).around(&[])]),
    ];
    let mut session = Session::new(repository());
    session.run_on(&["type", "-"], &upload.concat());
    session.run_on(&["type", "--json", "-"], &upload.concat());
    session.hold("type-marks.txt");
}

// ---- JSON, read again

/// The names of a value's objects in the order in which they begin, each with how deep it stands in `members` and its
/// offset from the start. Ends in a panic where the text is no JSON.
struct Json<'t> {
    rest: &'t str,
    found: Vec<(usize, String, String)>,
}

impl Json<'_> {
    fn take(&mut self, text: &str) -> bool {
        match self.rest.strip_prefix(text) {
            Some(rest) => self.rest = rest,
            None => return false,
        }
        true
    }

    fn need(&mut self, text: &str) {
        assert!(self.take(text), "{text} before {}", self.rest);
    }

    fn string(&mut self) -> String {
        self.need("\"");
        let mut out = String::new();
        loop {
            let c = self.rest.chars().next().unwrap();
            self.rest = &self.rest[c.len_utf8()..];
            match c {
                '"' => return out,
                '\\' if self.take("u") => {
                    let (digits, rest) = self.rest.split_at(4);
                    self.rest = rest;
                    let code = u32::from_str_radix(digits, 16).unwrap();
                    out.push(char::from_u32(code).unwrap());
                }
                '\\' => {
                    let (escaped, rest) = self.rest.split_at(1);
                    assert!(["\"", "\\"].contains(&escaped));
                    (self.rest, out) = (rest, out + escaped);
                }
                c => {
                    assert!(!c.is_control());
                    out.push(c);
                }
            }
        }
    }

    /// Any value; what it is where it is no list.
    fn value(&mut self, depth: usize) -> String {
        match self.rest.chars().next().unwrap() {
            '{' => {
                self.object(depth);
                String::new()
            }
            '[' => {
                self.need("[");
                while !self.take("]") {
                    self.value(depth);
                    assert!(self.take(",") ^ self.rest.starts_with(']'));
                }
                String::new()
            }
            '"' => self.string(),
            _ => {
                let end = self.rest.find([',', '}', ']']).unwrap();
                let (word, rest) = self.rest.split_at(end);
                self.rest = rest;
                assert!(word == "null" || word.parse::<i64>().is_ok(), "{word}");
                word.to_string()
            }
        }
    }

    fn object(&mut self, depth: usize) {
        self.need("{");
        let this = self.found.len();
        let (mut name, mut offset) = (None, None);
        while !self.take("}") {
            let key = self.string();
            self.need(":");
            let value = self.value(depth + usize::from(key == "members"));
            match &*key {
                "name" => name = Some(value),
                "offset_from_start" => {
                    offset = Some(());
                    let name = name.clone().unwrap();
                    self.found.insert(this, (depth, name, value));
                }
                _ => {}
            }
            assert!(self.take(",") ^ self.rest.starts_with('}'));
        }
        // Attributes and array records have no offset.
        assert!(offset.is_some() || self.found.len() == this);
    }
}

fn read_json(line: &str) -> Vec<(usize, String, String)> {
    let mut json = Json {
        rest: line,
        found: Vec::new(),
    };
    json.value(1);
    assert_eq!(json.rest, "");
    json.found
}

fn text_of(words: &[&str], upload: &[u8]) -> String {
    let output = fed(program(&repository(), words), upload);
    assert_eq!(output.status.code(), Some(0), "{words:?}");
    String::from_utf8(output.stdout).unwrap()
}

/// The lines of the table and the objects of JSON are the same tree.
#[test]
fn the_tree_of_json_is_that_of_the_table() {
    let upload = sample();
    let json = text_of(&["type", "--json", "-"], &upload);
    let found: Vec<_> = json.lines().flat_map(read_json).collect();
    let table = text_of(&["type", "-"], &upload);
    let lines: Vec<_> = table.lines().skip(2).collect();
    let column = table.lines().nth(1).unwrap().find("from start").unwrap();
    assert_eq!((json.lines().count(), found.len()), (11, 82));
    assert_eq!(lines.len(), found.len());
    for (line, (depth, name, offset)) in lines.iter().zip(&found) {
        let indent = " ".repeat(2 * (depth - 1));
        assert!(line[7..].starts_with(&format!("{indent}{name} ")), "{line}");
        let from_start = line.chars().skip(column).take(10).collect::<String>();
        assert_eq!(from_start.trim(), offset, "{line}");
    }
}

/// Members in members in a large type: every line of the table, made here from what the type was made of.
#[test]
fn a_large_type() {
    let (curves, points) = (200, 99);
    let names: Vec<_> = (0..points)
        .map(|number| format!("fPoint{number:02}"))
        .collect();
    let member = |number: usize| Entry {
        type_name: b"LREAL",
        offset: 8 * number as u32,
        size: 8,
        ..named(names[number].as_bytes())
    };
    let inner: Vec<_> = (0..points)
        .map(|number| member(number).around(&[]))
        .collect();
    let items: Vec<_> = (0..curves)
        .map(|number| {
            let name = format!("stCurve{number:03}");
            Entry {
                offset: 792 * number as u32,
                size: 792,
                ..named(name.as_bytes())
            }
            .around(&inner)
        })
        .collect();
    let upload = named(b"ST_Large").around(&items);
    let text = text_of(&["type", "-"], &upload);
    let mut lines = text.lines().skip(2);
    let row = |place: usize, name: String, kind: &str, offset: usize, start: usize, size: usize| {
        format!("{place:>7}  {name:<12}  {kind:<5}  {offset:>6}  {start:>10}  {size:>4}")
    };
    let first = row(0, "ST_Large".into(), "", 0, 0, 0);
    assert_eq!(lines.next(), Some(&*first));
    let mut place = 45 + "ST_Large".len();
    for (curve, item) in items.iter().enumerate() {
        let name = format!("  stCurve{curve:03}");
        let expected = row(place, name, "", 792 * curve, 792 * curve, 792);
        assert_eq!(lines.next(), Some(&*expected));
        let mut inside = place + 45 + "stCurve000".len();
        for (point, item) in inner.iter().enumerate() {
            let name = format!("    {}", names[point]);
            let start = 792 * curve + 8 * point;
            let expected = row(inside, name, "LREAL", 8 * point, start, 8);
            assert_eq!(lines.next(), Some(&*expected));
            inside += item.len();
        }
        place += item.len();
        assert_eq!(inside, place);
    }
    assert_eq!(lines.next(), None);
    assert_eq!(place, upload.len());
    let json = text_of(&["type", "--json", "-", "st_large"], &upload);
    assert_eq!(json.lines().count(), 1);
    assert_eq!(read_json(json.trim_end()).len(), 1 + curves * (1 + points));
}

/// Each byte of the table's zoom curve made 0, 255 and one more, in both modes: the program answers or refuses, and what it
/// answers is a tree.
#[test]
fn any_byte_may_be_wrong() {
    let upload = sample();
    let table = &upload[TABLE..2470];
    let (mut accepted, mut refused) = (0, 0);
    for place in CURVE - TABLE..1430 - TABLE {
        for byte in [0, 255, table[place].wrapping_add(1)] {
            let mut upload = table.to_vec();
            upload[place] = byte;
            let mode: &[&str] = if byte == 0 { &[] } else { &["--checked"] };
            let words = [&["type", "--json", "-"], mode].concat();
            let output = fed(program(&repository(), &words), &upload);
            match output.status.code() {
                Some(0) => {
                    let text = String::from_utf8(output.stdout).unwrap();
                    assert!(!read_json(text.trim_end()).is_empty());
                    accepted += 1;
                }
                Some(1) => refused += 1,
                _ => panic!("{place} {byte}: {output:?}"),
            }
        }
    }
    assert!(accepted > 300 && refused > 100, "{accepted} {refused}");
}
