//! Records one after another.

use crate::refusal::Refusal;

/// Records one after another, and how many: what a writer of entries takes for their attributes or refactor records.
#[derive(Debug, Clone, Copy, Default, PartialEq, Eq, Hash)]
pub struct Block<'a> {
    /// How many records.
    pub count: usize,
    /// Their bytes.
    pub bytes: &'a [u8],
}

/// A lent buffer that records are written into, one after another.
#[derive(Debug)]
pub(crate) struct Filling<'o> {
    out: &'o mut [u8],
    used: usize,
    count: usize,
}

impl<'o> Filling<'o> {
    pub(crate) fn new(out: &'o mut [u8]) -> Self {
        Self {
            out,
            used: 0,
            count: 0,
        }
    }

    /// Has a record written into the room that is left. A refused one changes nothing.
    pub(crate) fn push(
        &mut self,
        write: impl FnOnce(&mut [u8]) -> Result<usize, Refusal>,
    ) -> Result<(), Refusal> {
        self.used += write(&mut self.out[self.used..])?;
        self.count += 1;
        Ok(())
    }

    pub(crate) fn into_block(self) -> Block<'o> {
        Block {
            count: self.count,
            bytes: &self.out[..self.used],
        }
    }
}
