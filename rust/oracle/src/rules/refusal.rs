//! The numbers that say no, and the walk over bytes that gives most of them.

/// A refusal: the number of the fault and its place.
#[derive(Clone, Copy, Debug, PartialEq, Eq)]
pub struct Refusal {
    /// Which fault, 1 to 21.
    pub number: u8,
    /// The offset named for that fault, 0 where none is.
    pub place: usize,
}

/// Refuses with a number and a place.
pub fn refuse<T>(number: u8, place: usize) -> Result<T, Refusal> {
    Err(Refusal { number, place })
}

/// Walks over bytes field by field and remembers where the last field started.
pub struct Fields<'a> {
    bytes: &'a [u8],
    /// The offset of the next field.
    pub next: usize,
    /// The offset where the last field started.
    pub start: usize,
    /// The number given when a field runs past the end.
    short: u8,
}

impl<'a> Fields<'a> {
    /// Starts at offset 0; `short` is the number for a field that runs past the end.
    pub fn new(bytes: &'a [u8], short: u8) -> Self {
        let (next, start) = (0, 0);
        Fields { bytes, next, start, short }
    }

    /// The next field of `N` bytes.
    pub fn take<const N: usize>(&mut self) -> Result<[u8; N], Refusal> {
        self.start = self.next;
        let Some(field) = self.bytes[self.start..].first_chunk::<N>() else {
            return refuse(self.short, self.start);
        };
        self.next = self.start + N;
        Ok(*field)
    }

    /// The next field, one byte.
    pub fn byte(&mut self) -> Result<u8, Refusal> {
        Ok(self.take::<1>()?[0])
    }

    /// The next field, a signed number of four bytes.
    pub fn number(&mut self) -> Result<i32, Refusal> {
        Ok(i32::from_le_bytes(self.take()?))
    }

    /// Refuses with `number` at the last field's start unless `good`.
    pub fn expect(&self, good: bool, number: u8) -> Result<(), Refusal> {
        if good {
            Ok(())
        } else {
            refuse(number, self.start)
        }
    }

    /// The next byte, which must be one of `low..=high`, or else `number` is the fault.
    pub fn within(&mut self, low: u8, high: u8, number: u8) -> Result<u8, Refusal> {
        let byte = self.byte()?;
        self.expect((low..=high).contains(&byte), number)?;
        Ok(byte)
    }

    /// Whether every byte was read.
    pub fn at_end(&self) -> bool {
        self.next == self.bytes.len()
    }
}
