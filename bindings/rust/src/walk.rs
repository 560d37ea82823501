//! The walk over an upload: what the iterators share, and the bounded walk.

use crate::refusal::Refusal;
use crate::sys;
use crate::told::refused;

/// An upload, the cursor of its walk, and whether a step has failed to move it.
#[derive(Debug, Clone, PartialEq, Eq, Hash)]
pub(crate) struct Steps<'a> {
    data: &'a [u8],
    cursor: usize,
    stuck: bool,
}

impl<'a> Steps<'a> {
    pub(crate) fn new(data: &'a [u8]) -> Self {
        Self {
            data,
            cursor: 0,
            stuck: false,
        }
    }

    pub(crate) fn position(&self) -> usize {
        self.cursor
    }

    /// One step. A step that gives something and stays where it is has met a zero claim: it would be the same for
    /// ever, so it is the last.
    pub(crate) fn next<T>(
        &mut self,
        step: impl FnOnce(&'a [u8], &mut usize) -> Option<Result<T, Refusal>>,
    ) -> Option<Result<T, Refusal>> {
        if self.stuck {
            return None;
        }
        let start = self.cursor;
        let item = step(self.data, &mut self.cursor)?;
        self.stuck = self.cursor == start;
        Some(item)
    }
}

/// How a bounded walk ended.
#[derive(Debug, Clone, Copy, PartialEq, Eq, Hash)]
pub enum WalkEnd {
    /// At the end of the upload.
    Finished,
    /// It has used its steps and is not at the end.
    OutOfSteps,
    /// Refusal [`ZeroEntryLength`](crate::RefusalKind::ZeroEntryLength): a zero entry length, that step counted.
    Refused(Refusal),
}

/// What a bounded walk did.
#[derive(Debug, Clone, Copy, PartialEq, Eq, Hash)]
pub struct Walked {
    /// How it ended.
    pub end: WalkEnd,
    /// The steps made. Finding the end is no step.
    pub steps: usize,
    /// Where they led.
    pub cursor: usize,
}

/// Makes at most `allowed` steps over an upload of symbols, fields or data types, from `from` on. It looks at the entries'
/// lengths alone, so entries that reading would refuse are steps like others.
pub fn walk(data: &[u8], from: usize, allowed: usize) -> Walked {
    let mut cursor = from;
    let mut steps = 0;
    let mut answer = [0; 2];
    // SAFETY: data's own pointer and length; cursor, steps and answer are lent for the call.
    let status = unsafe {
        sys::vindaskot_walk(
            data.as_ptr(),
            data.len(),
            allowed,
            &mut cursor,
            &mut steps,
            &mut answer,
        )
    };
    let end = match status {
        sys::FINISHED => WalkEnd::Finished,
        sys::OUT_OF_STEPS => WalkEnd::OutOfSteps,
        _ => WalkEnd::Refused(refused(status, answer)),
    };
    Walked { end, steps, cursor }
}
