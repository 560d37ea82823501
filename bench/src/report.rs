//! The table and the goals.
use crate::clock::Times;
use std::time::Duration;

/// Rows and a figure of each.
pub type Figures = Vec<(String, f64)>;

/// What the goals are judged by. A ratio is the Rust's time over Vindaskot's.
#[derive(Default)]
pub struct Goals {
    /// Ratio.
    pub walk: f64,
    /// Ratios, beside the fair counterpart.
    pub all_bytes: Figures,
    pub names: Figures,
    /// Ratios, beside an encoder that takes its text for UTF-8 without a look.
    pub unchecked: Figures,
    /// Ratios, beside the crate csv.
    pub sheets: Figures,
    /// Seconds.
    pub index_and_finds: Figures,
    /// Seconds for 9,000 paths.
    pub bound: Figures,
    /// Time over a bare loop's at 16 MB, over the same at 4 MB.
    pub growth: Figures,
}

fn least(figures: &Figures) -> &(String, f64) {
    figures.iter().min_by(|a, b| a.1.total_cmp(&b.1)).unwrap()
}

fn most(figures: &Figures) -> &(String, f64) {
    figures.iter().max_by(|a, b| a.1.total_cmp(&b.1)).unwrap()
}

fn goal(met: bool, what: &str, how: String) {
    let word = if met { "met" } else { "missed" };
    println!("goal {word}: {what} ({how})");
}

impl Goals {
    pub fn print(&self) {
        println!();
        let what = "walk, text left as bytes, at least 5 times as fast as the Rust's";
        goal(5.0 <= self.walk, what, format!("{:.1}", self.walk));
        let what = "text no slower than encoding_rs on all bytes";
        let (row, ratio) = least(&self.all_bytes);
        goal(1.0 <= *ratio, what, format!("least {ratio:.2}, {row}"));
        let what = "at most twice its time on names";
        let (row, ratio) = least(&self.names);
        goal(0.5 <= *ratio, what, format!("least {ratio:.2}, {row}"));
        let (row, ratio) = least(&self.unchecked);
        println!(
            "no goal: beside an encoder that does not check its text (least {ratio:.2}, {row})"
        );
        let what = "sheets at least level with the crate csv and what it leaves to be done";
        let (row, ratio) = least(&self.sheets);
        goal(1.0 <= *ratio, what, format!("least {ratio:.2}, {row}"));
        let what = "index and 9,000 finds far inside four seconds";
        let (row, seconds) = most(&self.index_and_finds);
        goal(*seconds <= 1.0, what, format!("most {seconds:.3} s, {row}"));
        let what = "9,000 paths bound inside a frame of 20 ms";
        let (row, seconds) = most(&self.bound);
        goal(
            *seconds <= 0.020,
            what,
            format!("{:.1} ms, {row}", seconds * 1e3),
        );
        let what = "growth linear";
        let (row, factor) = most(&self.growth);
        goal(
            *factor <= 2.0,
            what,
            format!("16 MB beside 4 MB: most {factor:.2}, {row}"),
        );
    }
}

pub struct Report {
    /// Time for a race.
    pub allowed: Duration,
    pub goals: Goals,
}

impl Report {
    pub fn new(allowed: Duration) -> Self {
        Self {
            allowed,
            goals: Goals::default(),
        }
    }

    pub fn say(&self, line: &str) {
        println!("{line}");
    }

    pub fn heading(&self, what: &str, unit: &str) {
        let title = format!("{what} ({unit})");
        println!(
            "\n{title:<62} {:>10} {:>10} {:>7} {:>9}",
            "Vindaskot", "the Rust", "ratio", "(medians)"
        );
    }

    /// Prints a row and gives its ratio, that of the least times.
    pub fn row(&self, what: &str, items: usize, ours: Times, theirs: Times) -> f64 {
        let ratio = theirs.least / ours.least;
        let medians = theirs.median / ours.median;
        let (ours, theirs) = (each(ours, items), each(theirs, items));
        println!("{what:<62} {ours:>10} {theirs:>10} {ratio:>7.2} {medians:>9.2}");
        ratio
    }

    /// The row of an earlier archive's same call, where one is linked: its times come behind this archive's.
    pub fn before(&self, row: &str, items: usize, archives: &[Times]) {
        if let [ours, before] = archives {
            let what = format!("  {row} (BEFORE in place of the Rust)");
            self.row(&what, items, *ours, *before);
        }
    }

    /// A row of which the Rust has no counterpart.
    pub fn alone(&self, what: &str, items: usize, ours: Times) {
        println!(
            "{what:<62} {:>10} {:>10} {:>7} {:>9}",
            each(ours, items),
            "-",
            "-",
            "-"
        );
    }
}

/// Nanoseconds an item, to three figures or to the whole.
fn each(t: Times, items: usize) -> String {
    let ns = t.least * 1e9 / items as f64;
    match ns {
        ..1.0 => format!("{ns:.3}"),
        ..10.0 => format!("{ns:.2}"),
        ..100.0 => format!("{ns:.1}"),
        _ => format!("{ns:.0}"),
    }
}
