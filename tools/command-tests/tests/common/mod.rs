//! What the tests share: the program is run, and what it printed is held to a file.
#![allow(dead_code, reason = "each test program uses a part of it")]

use std::fs;
use std::io::Write;
use std::path::{Path, PathBuf};
use std::process::{Command, Output, Stdio};

use vindaskot::{AdsAttribute, AdsSymbolFlags, AttributeWriter};
use vindaskot::{IndexGroup, IndexOffset, SymbolNumbers, SymbolParts};

/// The program, which `tools/vindaskot --build` makes; or the one that VINDASKOT_PROGRAM names when the tests are compiled.
pub const PROGRAM: &str = match option_env!("VINDASKOT_PROGRAM") {
    Some(named) => named,
    None => concat!(
        env!("CARGO_MANIFEST_DIR"),
        "/../../target/command/vindaskot"
    ),
};

pub fn repository() -> PathBuf {
    Path::new(env!("CARGO_MANIFEST_DIR")).join("../..")
}

/// A folder of a test's own, empty at first, which others may read. A run that failed leaves its folder, and a later one may
/// have its process number: so the first name that is free is taken.
pub fn folder(name: &str) -> PathBuf {
    let own = format!("vindaskot-{}-{name}", std::process::id());
    let mut folders = (0..1000).map(|number| std::env::temp_dir().join(format!("{own}-{number}")));
    folders
        .find(|folder| fs::create_dir(folder).is_ok())
        .expect("the folder for temporary files can be written")
}

/// The program with nothing of the caller's environment that it heeds.
pub fn program(folder: &Path, words: &[&str]) -> Command {
    let mut command = Command::new(PROGRAM);
    command
        .current_dir(folder)
        .args(words)
        .env_remove("NO_COLOR");
    command
}

pub fn fed(mut command: Command, input: &[u8]) -> Output {
    command
        .stdin(Stdio::piped())
        .stdout(Stdio::piped())
        .stderr(Stdio::piped());
    let mut child = command.spawn().expect("the program can be run");
    // It may end before it has read everything, as above the limit.
    let _ = child.stdin.take().unwrap().write_all(input);
    child.wait_with_output().unwrap()
}

/// Commands that were run in a folder, each with what it printed and its status.
pub struct Session {
    folder: PathBuf,
    text: String,
}

impl Session {
    pub fn new(folder: PathBuf) -> Self {
        let text = String::new();
        Self { folder, text }
    }

    pub fn run(&mut self, words: &[&str]) -> Output {
        self.run_on(words, b"")
    }

    pub fn run_on(&mut self, words: &[&str], input: &[u8]) -> Output {
        let output = fed(program(&self.folder, words), input);
        self.note(words, &output);
        output
    }

    pub fn note(&mut self, words: &[&str], output: &Output) {
        let text = |bytes: &[u8]| String::from_utf8(bytes.to_vec()).expect("it prints UTF-8");
        self.text += &format!("$ vindaskot {}\n", words.join(" "));
        self.text += &text(&output.stdout);
        for line in text(&output.stderr).lines() {
            self.text += &format!("stderr: {line}\n");
        }
        self.text += &format!(
            "status {}\n\n",
            output.status.code().expect("it ends by itself")
        );
    }

    /// Holds all of it to a file of tests/expected, which BLESS=1 writes anew.
    pub fn hold(self, name: &str) {
        let manifest = Path::new(env!("CARGO_MANIFEST_DIR"));
        let path = manifest.join("tests/expected").join(name);
        if std::env::var_os("BLESS").is_some() {
            fs::write(&path, &self.text).unwrap();
        }
        let expected = fs::read_to_string(&path).unwrap_or_default();
        if self.text != expected {
            let mut lines = self.text.lines().zip(expected.lines());
            let differs = lines.find(|(got, expected)| got != expected);
            panic!(
                "{name}: got {differs:?} (got, expected)\nall:\n{}",
                self.text
            );
        }
    }
}

/// A symbol of a name and a type, with some attributes.
pub fn symbol(
    name: &[u8],
    type_name: &[u8],
    offset: u32,
    attributes: &[(&[u8], &[u8])],
) -> Vec<u8> {
    let mut room = [0; 2000];
    let mut block = AttributeWriter::new(&mut room);
    for (name, value) in attributes {
        block.push(&AdsAttribute::new(name, value)).unwrap();
    }
    let flags = if attributes.is_empty() {
        AdsSymbolFlags::default()
    } else {
        AdsSymbolFlags::ATTRIBUTES
    };
    let numbers = SymbolNumbers {
        index_group: IndexGroup(0x4040),
        index_offset: IndexOffset(offset),
        size: 8,
        data_type_id: 5,
        flags,
        ..Default::default()
    };
    let parts = SymbolParts {
        name,
        type_name,
        attributes: block.into_block(),
        ..Default::default()
    };
    numbers.to_vec(&parts).unwrap()
}

/// The same entry with that high: bytes 22 and 23, the low one first.
pub fn with_high(mut entry: Vec<u8>, high: u16) -> Vec<u8> {
    entry[22] = (high % 256) as u8;
    entry[23] = (high / 256) as u8;
    entry
}

/// The same entry with bytes after its last section.
pub fn grown(mut entry: Vec<u8>, more: usize) -> Vec<u8> {
    entry.extend((0..more).map(|byte| byte as u8));
    let length = entry.len() as u32;
    entry[..4].copy_from_slice(&length.to_le_bytes());
    entry
}

pub fn sample() -> Vec<u8> {
    fs::read(repository().join("samples/rig.bin")).unwrap()
}

pub fn hexadecimal(bytes: &[u8]) -> String {
    bytes.iter().map(|byte| format!("{byte:02x}")).collect()
}
