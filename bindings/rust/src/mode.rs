//! The two modes of reading.

/// Whether a reader looks at the end byte that follows each string.
///
/// Every function that takes no mode reads in the present one, and so does its namesake in `_in` with
/// [`Present`](Self::Present). Nothing else depends on the mode: what the checked one does not refuse it tells as the
/// present one does, a walk moves by the entries' lengths in both, and [`walk`](crate::walk()), which looks at nothing
/// else, has none.
#[derive(Debug, Clone, Copy, Default, PartialEq, Eq, Hash)]
pub enum Mode {
    /// End bytes are not looked at.
    #[default]
    Present,
    /// An end byte that is not 0 refuses the entry, the record or the chain, by
    /// [`EndByte`](crate::RefusalKind::EndByte), 16.
    ///
    /// Looked at are the end bytes of what is read: an entry's three strings, its attributes, a symbol's chain, and the
    /// strings and attributes of all members of a data type. Lengths come first, for each entry's strings, each attribute
    /// and each refactor record; else the fault that is met first decides. So a short attribute still ends a symbol's list
    /// and a short chain is still dropped, but an end byte met before that refuses the symbol. What a field or a data type
    /// skips, unread bytes and bytes behind the entry are not looked at.
    Checked,
}

impl Mode {
    /// As the C interface takes it.
    pub(crate) const fn is_checked(self) -> bool {
        matches!(self, Self::Checked)
    }
}
