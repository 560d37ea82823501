//! Times the archive beside the supplied Rust and encoding_rs, on the same input, in one run. bench/README.md says what is
//! compared.
mod ads;
mod bind;
mod c;
mod captures;
mod clock;
mod dice;
mod find;
mod growth;
mod names;
mod report;
mod rig;
mod salvage;
mod sheets;
/// The declarations of the Rust crate, which tools/bench puts beside this folder.
#[allow(dead_code)]
#[path = "../bindings/rust/src/sys.rs"]
mod sys;
mod text;
mod types;
mod verify;
mod walk;
mod write;

// The supplied files name these at the crate's top.
pub use ads::index_group::IndexGroup;
pub use ads::index_offset::IndexOffset;
pub use ads::symbol::*;

use report::Report;
use rig::Rig;
use std::time::Duration;

const SYMBOLS: usize = 9000;
const LIMIT: usize = 16_777_216;

fn usage() -> ! {
    eprintln!("usage: tools/bench [--seed N] [--quick]");
    std::process::exit(2)
}

/// The seed, and whether a rough figure is enough.
fn arguments() -> (u64, bool) {
    let (mut seed, mut quick) = (1, false);
    let mut words = std::env::args().skip(1);
    while let Some(word) = words.next() {
        match word.as_str() {
            "--seed" => {
                seed = words
                    .next()
                    .and_then(|n| n.parse().ok())
                    .unwrap_or_else(|| usage())
            }
            "--quick" => quick = true,
            _ => usage(),
        }
    }
    (seed, quick)
}

fn machine() -> String {
    let info = std::fs::read_to_string("/proc/cpuinfo").unwrap_or_default();
    let model = info
        .lines()
        .find_map(|l| l.strip_prefix("model name")?.split(": ").nth(1));
    format!(
        "{}, {}",
        std::env::consts::ARCH,
        model.unwrap_or("model not told")
    )
}

fn main() {
    let (seed, quick) = arguments();
    let mut report = Report::new(Duration::from_millis(if quick { 50 } else { 1000 }));
    let rig = Rig::new(seed, SYMBOLS, LIMIT);
    let alike = Rig::alike(seed, SYMBOLS);
    verify::check(&rig);
    let ends_alike = Rig::ends_alike(seed, SYMBOLS);
    verify::check(&alike);
    verify::check(&ends_alike);
    println!("machine: {}; seed {seed}", machine());
    println!(
        "input: {} symbols, {} bytes, walked back equal",
        rig.symbols.len(),
        rig.upload.len()
    );
    println!(
        "ratio: the Rust's time / Vindaskot's, so above 1 Vindaskot is faster; least times, and medians beside them"
    );
    walk::rows(&mut report, &rig);
    find::rows(&mut report, seed, "index and finding", &rig);
    find::rows(&mut report, seed, "index and finding, names alike", &alike);
    let what = "index and finding, names that end alike";
    find::rows(&mut report, seed, what, &ends_alike);
    names::rows(&mut report, seed, "name index", &rig);
    names::rows(&mut report, seed, "name index, names alike", &alike);
    bind::rows(&mut report, seed, &rig);
    salvage::rows(&mut report, &rig);
    captures::rows(&mut report, &rig);
    sheets::rows(&mut report, &Rig::bare(seed, SYMBOLS));
    text::rows(&mut report, seed);
    write::rows(&mut report, &rig);
    types::rows(&mut report, &rig);
    growth::rows(&mut report, seed);
    report.goals.print();
}
