//! Damage inside an entry touches no other: two uploads that differ there alone, held beside each other.

mod common;

use common::damage::damaged;
use common::{Random, rig};
use vindaskot::symbol::parse_next_entry_in;
use vindaskot::{
    AdsAttribute, AdsRefactorInfo, AdsSymbolInfo, AdsSymbolInfoIterator, Block, Index, Mode,
    Refusal, RefusalKind, Run, find_in, room, salvage_in, walk,
};

const MODES: [Mode; 2] = [Mode::Present, Mode::Checked];

type Entry<'a> = Result<AdsSymbolInfo<'a>, Refusal>;

/// A step of the walk, with everything that the crate tells of its entry.
#[derive(Debug, PartialEq)]
struct Step<'a> {
    start: usize,
    cursor: usize,
    entry: Entry<'a>,
    /// As a direct read of the entry answers.
    read: Entry<'a>,
    attributes: Vec<AdsAttribute<'a>>,
    former_names: Vec<AdsRefactorInfo<'a>>,
    blocks: Option<[Block<'a>; 2]>,
}

impl<'a> Step<'a> {
    fn new(data: &'a [u8], start: usize, cursor: usize, entry: Entry<'a>, mode: Mode) -> Self {
        let symbol = entry.ok();
        let attributes = symbol.iter().flat_map(|one| one.attributes());
        let former_names = symbol.iter().flat_map(|one| one.refactor_infos());
        Self {
            start,
            cursor,
            entry,
            read: AdsSymbolInfo::try_from_slice_in(&data[start..], mode),
            attributes: attributes.collect(),
            former_names: former_names.collect(),
            blocks: symbol.map(|one| [one.attribute_block(), one.refactor_block()]),
        }
    }

    fn name(&self) -> Option<&'a [u8]> {
        self.entry.ok().map(|symbol| symbol.name())
    }

    /// The bytes of its entry that a change may touch, behind its length, if it is whole.
    fn inside(&self, data: &[u8]) -> std::ops::Range<usize> {
        let claim = data[self.start..].first_chunk();
        let claim = claim.map_or(0, |claim| u32::from_le_bytes(*claim) as usize);
        if claim == self.cursor - self.start {
            self.start + 4..self.cursor
        } else {
            0..0
        }
    }
}

/// The steps of a walk to its end; one that stays where it is is the last.
fn steps(data: &[u8], mode: Mode) -> Vec<Step<'_>> {
    let mut cursor = 0;
    let mut all = Vec::new();
    loop {
        let start = cursor;
        let Some(entry) = parse_next_entry_in(data, &mut cursor, mode) else {
            return all;
        };
        all.push(Step::new(data, start, cursor, entry, mode));
        if cursor == start {
            return all;
        }
    }
}

/// Two versions of an upload, their steps, and the starts of the entries inside which they differ.
struct Versions<'a> {
    data: [&'a [u8]; 2],
    steps: [Vec<Step<'a>>; 2],
    changed: &'a [usize],
    mode: Mode,
}

impl<'a> Versions<'a> {
    fn new(data: [&'a [u8]; 2], changed: &'a [usize], mode: Mode) -> Self {
        Self {
            data,
            steps: data.map(|data| steps(data, mode)),
            changed,
            mode,
        }
    }

    fn is_other(&self, start: usize) -> bool {
        !self.changed.contains(&start)
    }

    /// The accepted versions of the changed entries, by their names.
    fn changed_names(&self) -> Vec<&'a [u8]> {
        let steps = self.steps.iter().flatten();
        let changed = steps.filter(|step| !self.is_other(step.start));
        changed.filter_map(Step::name).collect()
    }

    fn assert_steps(&self) {
        let [before, after] = &self.steps;
        assert_eq!(before.len(), after.len());
        for (one, other) in before.iter().zip(after) {
            assert_eq!((one.start, one.cursor), (other.start, other.cursor));
            if self.is_other(one.start) {
                assert_eq!(one, other);
            }
            let [walked, again] = self.data.map(|data| walk(data, one.start, usize::MAX));
            assert_eq!(walked, again);
        }
    }

    /// What was kept and what was dropped, but for the changed entries.
    fn salvaged(&self, number: usize) -> (Vec<(usize, Vec<u8>)>, Vec<Run>) {
        let data = self.data[number];
        let steps = &self.steps[number];
        let (mut out, mut runs) = (vec![0; data.len()], vec![0; 3 * steps.len()]);
        let salvaged = salvage_in(data, &mut out, &mut runs, self.mode).unwrap();
        let accepted = steps.iter().filter(|step| step.entry.is_ok());
        let mut kept = Vec::new();
        let mut entries = AdsSymbolInfoIterator::new_in(salvaged.upload(), self.mode);
        for step in accepted {
            let entry = entries.next().unwrap().unwrap();
            kept.push((step.start, entry.as_bytes().to_vec()));
        }
        assert_eq!(entries.next(), None);
        kept.retain(|(start, _)| self.is_other(*start));
        let dropped = salvaged.runs().filter(|run| self.is_other(run.start));
        (kept, dropped.collect())
    }

    fn assert_salvaged(&self) {
        assert_eq!(self.salvaged(0), self.salvaged(1));
    }

    /// The starts that an index has, or its refusal.
    fn index(&self, number: usize) -> Result<Vec<u32>, Refusal> {
        let data = self.data[number];
        let mut slots = vec![0; room(data.len()).unwrap()];
        let index = Index::build_in(data, &mut slots, self.mode)?;
        Ok(index.starts().to_vec())
    }

    /// Names that no version of a changed entry has are found alike; how many were found.
    fn assert_found(&self) -> usize {
        let changed = self.changed_names();
        let is_free = |name: &[u8]| !changed.iter().any(|one| one.eq_ignore_ascii_case(name));
        let indexes = [0, 1].map(|number| self.index(number));
        let names = self.steps.iter().flatten().filter_map(Step::name);
        let mut found = 0;
        for name in names
            .chain([&b"MAIN.nNobody"[..]])
            .filter(|name| is_free(name))
        {
            let name = name.to_ascii_uppercase();
            let [one, other] = self.data.map(|data| find_in(data, &name, self.mode));
            assert_eq!(one, other);
            found += usize::from(one.is_ok());
            if let [Ok(before), Ok(after)] = &indexes {
                self.assert_found_through([before, after], &name, one);
            }
        }
        found
    }

    /// Through its own index and through that of the other.
    fn assert_found_through(
        &self,
        indexes: [&[u32]; 2],
        name: &[u8],
        expected: Result<usize, Refusal>,
    ) {
        for data in self.data {
            for starts in indexes {
                let found = Index::over(starts).find_in(data, name, self.mode);
                assert_eq!(found, expected);
            }
        }
    }

    fn assert_indexed(&self) {
        let [before, after] = [0, 1].map(|number| {
            self.index(number).map(|mut starts| {
                starts.retain(|start| self.is_other(*start as usize));
                starts
            })
        });
        assert_eq!(before, after);
    }
}

/// What was met, so that none of it is tried of nothing.
#[derive(Debug, Default)]
struct Met {
    /// Changed entries by whether they were accepted before and after.
    changed: [[usize; 2]; 2],
    /// Under these numbers changed entries were refused.
    refused: [usize; 17],
    found: usize,
    stopped: usize,
}

impl Met {
    fn hold(&mut self, data: [&[u8]; 2], changed: &[usize]) {
        for mode in MODES {
            let versions = Versions::new(data, changed, mode);
            versions.assert_steps();
            versions.assert_salvaged();
            versions.assert_indexed();
            self.found += versions.assert_found();
            self.note(&versions);
        }
    }

    fn note(&mut self, versions: &Versions<'_>) {
        let [before, after] = &versions.steps;
        for (one, other) in before.iter().zip(after) {
            if versions.is_other(one.start) {
                continue;
            }
            let [was, is] = [one, other].map(|step| usize::from(step.entry.is_ok()));
            self.changed[was][is] += 1;
            for why in [&one.entry, &other.entry]
                .into_iter()
                .flat_map(|entry| entry.err())
            {
                self.refused[why.number as usize] += 1;
            }
        }
        let stops = versions.index(0);
        self.stopped += usize::from(stops.is_err_and(|why| why.is(RefusalKind::ZeroEntryLength)));
    }
}

/// Each byte of each entry of the rig but the first four, with its last bit and with all bits changed.
#[test]
fn every_byte_of_the_rig() {
    let sound = rig();
    let mut met = Met::default();
    let mut tried = 0;
    for step in steps(&sound, Mode::Present) {
        for at in step.inside(&sound) {
            for change in [0x01, 0xFF] {
                let mut other = sound.clone();
                other[at] ^= change;
                met.hold([&sound, &other], &[step.start]);
                tried += 1;
            }
        }
    }
    assert_eq!(tried, 2 * (sound.len() - 32 * 4));
    let [refused, accepted] = met.changed;
    assert_eq!(refused, [0, 0]);
    assert_eq!(accepted.iter().sum::<usize>(), 2 * tried);
    assert!(met.refused[3] > 100 && met.refused[16] > 100, "{met:?}");
    assert!(met.found > 30 * 2 * tried, "{met:?}");
}

/// The same upload with some bytes changed inside one to three whole entries, and the starts of these.
fn changed(data: &[u8], r: &mut Random) -> (Vec<u8>, Vec<usize>) {
    let steps = steps(data, Mode::Present);
    let inside = steps.iter().map(|step| (step.start, step.inside(data)));
    let whole: Vec<_> = inside.filter(|(_, inside)| !inside.is_empty()).collect();
    let mut other = data.to_vec();
    let mut starts = Vec::new();
    for _ in 0..whole.len().min(1 + r.below(3)) {
        let (start, inside) = &whole[r.below(whole.len())];
        for _ in 0..1 + r.below(4) {
            let at = inside.start + r.below(inside.len());
            other[at] = if r.coin() { r.word() as u8 } else { 0xFF };
        }
        starts.push(*start);
    }
    starts.sort_unstable();
    starts.dedup();
    (other, starts)
}

/// Of uploads whose other entries may be damaged too, one to three entries changed inside, for better or worse.
#[test]
fn damaged_uploads() {
    let mut r = Random(213);
    let mut met = Met::default();
    let mut several = 0;
    for _ in 0..4000 {
        let data = damaged(&mut r);
        let (other, starts) = changed(&data, &mut r);
        several += usize::from(starts.len() > 1);
        let versions = if r.coin() {
            [&data, &other]
        } else {
            [&other, &data]
        };
        met.hold(versions.map(Vec::as_slice), &starts);
    }
    assert!(
        met.changed.iter().flatten().all(|met| *met > 300),
        "{met:?}"
    );
    for number in [2, 3, 16] {
        assert!(met.refused[number] > 100, "{met:?}");
    }
    assert!(
        met.found > 1000 && met.stopped > 100 && several > 1000,
        "{met:?} {several}"
    );
}
