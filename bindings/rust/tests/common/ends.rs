//! Which end byte of an entry the checked mode refuses, worked out from the bytes after docs/FORMAT.md, "Modes".

/// What is read on, from the start of some bytes.
struct Reading<'a> {
    bytes: &'a [u8],
    at: usize,
}

/// Why reading stops: an end byte that is not 0, with its place, or a record that is short.
enum Stop {
    Wrong(usize, u8),
    Short,
}

impl Reading<'_> {
    fn left(&self) -> usize {
        self.bytes.len().saturating_sub(self.at)
    }

    fn number(&self, at: usize, width: usize) -> usize {
        let bytes = self.bytes[at..at + width].iter().rev();
        bytes.fold(0, |number, byte| number << 8 | usize::from(*byte))
    }

    /// Strings one after another, which are known to be there: past them, or the first end byte that is not 0.
    fn strings(&mut self, lengths: &[usize]) -> Result<(), Stop> {
        for length in lengths {
            let end = self.at + length;
            match self.bytes[end] {
                0 => self.at = end + 1,
                byte => return Err(Stop::Wrong(end, byte)),
            }
        }
        Ok(())
    }

    /// An attribute: its length first, then its end bytes. Where it is short, nothing has moved.
    fn attribute(&mut self) -> Result<(), Stop> {
        if self.left() < 4 {
            return Err(Stop::Short);
        }
        let lengths = [0, 1].map(|i| self.number(self.at + i, 1));
        if self.left() < lengths[0] + lengths[1] + 4 {
            return Err(Stop::Short);
        }
        self.at += 2;
        self.strings(&lengths)
    }

    /// A refactor record likewise; whether another follows.
    fn refactor(&mut self) -> Result<bool, Stop> {
        if self.left() < 7 {
            return Err(Stop::Short);
        }
        let length = self.number(self.at + 4, 2);
        if self.left() < length + 7 {
            return Err(Stop::Short);
        }
        let follows = self.bytes[self.at + 3] & 1 == 1;
        self.at += 6;
        self.strings(&[length])?;
        Ok(follows)
    }

    fn attributes(&mut self, flagged: bool) -> Result<(), Stop> {
        if !flagged || self.left() < 2 {
            return Ok(());
        }
        let count = self.number(self.at, 2);
        self.at += 2;
        for _ in 0..count {
            self.attribute()?;
            if self.left() == 0 {
                break;
            }
        }
        Ok(())
    }

    fn chain(&mut self) -> Result<(), Stop> {
        while self.refactor()? {}
        Ok(())
    }

    fn skip(&mut self, flagged: bool, length: usize) {
        if flagged && self.left() >= length {
            self.at += length;
        }
    }

    /// Items that begin with their length.
    fn skip_items(&mut self, count: usize) {
        for _ in 0..count {
            if self.left() < 4 {
                break;
            }
            self.at += self.number(self.at, 4);
        }
    }

    /// The three strings of an entry, whose lengths stand there, once they are known to be inside it.
    fn entry_strings(&mut self, lengths: usize) -> Result<(), Stop> {
        let lengths = [0, 2, 4].map(|i| self.number(lengths + i, 2));
        if self.left() < lengths.iter().sum::<usize>() + 3 {
            return Err(Stop::Short);
        }
        self.strings(&lengths)
    }
}

fn wrong(stopped: Result<(), Stop>) -> Option<(usize, u8)> {
    match stopped {
        Err(Stop::Wrong(place, byte)) => Some((place, byte)),
        _ => None,
    }
}

/// What stops reading but for a short record, at which a symbol's reading goes on.
fn unless_short(stopped: Result<(), Stop>) -> Result<(), Stop> {
    match stopped {
        Err(Stop::Short) => Ok(()),
        other => other,
    }
}

/// The end byte for which a symbol's entry of these bytes is refused, and its place.
pub fn of_symbol(entry: &[u8]) -> Option<(usize, u8)> {
    if entry.len() < 30 {
        return None;
    }
    let reading = Reading {
        bytes: entry,
        at: 30,
    };
    wrong(symbol_read(reading))
}

fn symbol_read(mut reading: Reading<'_>) -> Result<(), Stop> {
    let flags = reading.number(20, 2);
    reading.entry_strings(24)?;
    reading.skip(flags & 0x0008 != 0, 16);
    unless_short(reading.attributes(flags & 0x1000 != 0))?;
    let extended = flags & 0x8000 != 0 && reading.left() >= 4;
    let chained = extended && reading.number(reading.at, 4) & 4 != 0;
    reading.skip(extended, 4);
    if chained {
        unless_short(reading.chain())?;
    }
    Ok(())
}

/// The same of a field's.
pub fn of_field(entry: &[u8]) -> Option<(usize, u8)> {
    if entry.len() < 42 {
        return None;
    }
    let reading = Reading {
        bytes: entry,
        at: 42,
    };
    wrong(field_read(reading))
}

fn field_read(mut reading: Reading<'_>) -> Result<(), Stop> {
    let (size, flags) = (reading.number(16, 4), reading.number(28, 4));
    reading.entry_strings(32)?;
    reading.at += 8 * reading.number(38, 2);
    reading.skip_items(reading.number(40, 2));
    reading.skip(flags & 0x0080 != 0, 16);
    if flags & 0x0200 != 0 {
        reading.at = reading.bytes.len().min(reading.at + size);
    }
    if flags & 0x0800 != 0 && reading.left() >= 2 {
        let methods = reading.number(reading.at, 2);
        reading.at += 2;
        reading.skip_items(methods);
    }
    reading.attributes(flags & 0x1000 != 0)
}

/// The same of an attribute, a refactor record and a chain by themselves.
pub fn of_attribute(bytes: &[u8]) -> Option<(usize, u8)> {
    wrong(Reading { bytes, at: 0 }.attribute())
}

pub fn of_refactor(bytes: &[u8]) -> Option<(usize, u8)> {
    wrong(Reading { bytes, at: 0 }.refactor().map(|_| ()))
}

pub fn of_chain(bytes: &[u8]) -> Option<(usize, u8)> {
    wrong(Reading { bytes, at: 0 }.chain())
}
