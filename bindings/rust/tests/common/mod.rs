//! What the tests share.
#![allow(dead_code, reason = "each test program uses a part of it")]

pub mod damage;
pub mod ends;
pub mod plain;
pub mod tree;

use vindaskot::Refusal;

/// Numbers that are the same in every run: splitmix64.
pub struct Random(pub u64);

impl Random {
    pub fn next(&mut self) -> u64 {
        self.0 = self.0.wrapping_add(0x9E37_79B9_7F4A_7C15);
        let mut z = self.0;
        z = (z ^ (z >> 30)).wrapping_mul(0xBF58_476D_1CE4_E5B9);
        z = (z ^ (z >> 27)).wrapping_mul(0x94D0_49BB_1331_11EB);
        z ^ (z >> 31)
    }

    /// A number below `end`.
    pub fn below(&mut self, end: usize) -> usize {
        (self.next() % end as u64) as usize
    }

    pub fn coin(&mut self) -> bool {
        self.below(2) == 1
    }

    pub fn word(&mut self) -> u32 {
        self.next() as u32
    }

    /// Up to `most` bytes of any kind, often none.
    pub fn bytes(&mut self, most: usize) -> Vec<u8> {
        let len = if self.below(5) == 0 {
            0
        } else {
            self.below(most + 1)
        };
        (0..len).map(|_| self.next() as u8).collect()
    }
}

pub fn refusal(number: u32, expected: usize, got: usize) -> Refusal {
    Refusal {
        number,
        expected,
        got,
    }
}

pub fn hex(line: &str) -> Vec<u8> {
    let pairs = line.as_bytes().chunks(2);
    let byte = |pair| u8::from_str_radix(std::str::from_utf8(pair).unwrap(), 16).unwrap();
    pairs.map(byte).collect()
}

/// A file of the repository, by its path from this crate.
pub fn file(path: &str) -> String {
    let path = format!("{}/{path}", env!("CARGO_MANIFEST_DIR"));
    std::fs::read_to_string(&path).unwrap_or_else(|why| panic!("{path}: {why}"))
}

/// The sample upload of the rig.
pub fn rig() -> Vec<u8> {
    hex(file("../../samples/rig.hex").trim_end())
}

/// The sample upload of data types.
pub fn types() -> Vec<u8> {
    hex(file("../../samples/types.hex").trim_end())
}

/// Where a part stands in some data, by its pointer.
pub fn place(data: &[u8], part: &[u8]) -> usize {
    let data_range = data.as_ptr_range();
    let part_range = part.as_ptr_range();
    assert!(data_range.start <= part_range.start && part_range.end <= data_range.end);
    part_range.start as usize - data_range.start as usize
}

/// What a writer writes. On the way: it asks for its room by refusal 6, is refused one byte less than that without a
/// change, and changes nothing after what it wrote.
pub fn written(write: impl Fn(&mut [u8]) -> Result<usize, Refusal>) -> Vec<u8> {
    let asked = write(&mut []).expect_err("nothing fits into no room");
    assert_eq!((asked.number, asked.got), (6, 0));
    let needed = asked.expected;
    let mut out = vec![0xA5; needed + 3];
    let short = write(&mut out[..needed - 1]);
    assert_eq!(short, Err(refusal(6, needed, needed - 1)));
    assert!(out.iter().all(|byte| *byte == 0xA5));
    assert_eq!(write(&mut out), Ok(needed));
    assert_eq!(out.split_off(needed), [0xA5; 3]);
    out
}
