//! What the judge's files share: the fields of a case, an answer, and how a reader goes through an input.

/// Longest lent output.
pub const MOST_ROOM: u32 = 70_000;
/// A message, a reply, a request record or a body, whole.
pub const LONGEST_RECORD: usize = 65_535;
/// What a lent output holds before the call.
const FILL: u8 = 0xA5;

/// What is left of a case. Every taker gives None where the field is cut short.
pub struct Fields<'a>(pub &'a [u8]);

impl<'a> Fields<'a> {
    pub fn take(&mut self, n: usize) -> Option<&'a [u8]> {
        if n > self.0.len() {
            return None;
        }
        let (a, b) = self.0.split_at(n);
        self.0 = b;
        Some(a)
    }
    pub fn u8(&mut self) -> Option<u8> {
        Some(self.take(1)?[0])
    }
    /// A byte that may not be more.
    pub fn upto(&mut self, most: u8) -> Option<u8> {
        self.u8().filter(|n| *n <= most)
    }
    pub fn u16(&mut self) -> Option<u16> {
        let b = self.take(2)?;
        Some(u16::from(b[0]) + 256 * u16::from(b[1]))
    }
    pub fn u32(&mut self) -> Option<u32> {
        let low = self.u16()?;
        Some(u32::from(low) + 65_536 * u32::from(self.u16()?))
    }
    pub fn u64(&mut self) -> Option<u64> {
        let low = self.u32()?;
        Some(u64::from(low) + (u64::from(self.u32()?) << 32))
    }
    pub fn run(&mut self) -> Option<&'a [u8]> {
        let n = self.u32()?;
        self.take(n as usize)
    }
    pub fn room(&mut self) -> Option<usize> {
        let n = self.u32()?;
        (n <= MOST_ROOM).then_some(n as usize)
    }
    /// The end of the case: nothing may be left over.
    pub fn end(&self) -> Option<()> {
        self.0.is_empty().then_some(())
    }
}

/// A value, or document 01's number.
pub type Judged<T> = Result<T, u8>;

/// A refusal is its number; an accepted answer is 0 and its fields.
pub fn answer(fields: Judged<Vec<u8>>) -> Vec<u8> {
    match fields {
        Ok(f) => [&[0][..], &f[..]].concat(),
        Err(number) => vec![number],
    }
}

/// A writer's answer: room is judged last (2), and a refusal leaves the lent output as it stood.
pub fn writer(bytes: Judged<Vec<u8>>, room: usize) -> Vec<u8> {
    let mut output = vec![FILL; room];
    let bytes = bytes.and_then(|b| if b.len() > room { Err(2) } else { Ok(b) });
    let head = answer(bytes.map(|b| {
        output[..b.len()].copy_from_slice(&b);
        low_first(b.len() as u32)
    }));
    [head, output].concat()
}

pub fn two(n: u16) -> Vec<u8> {
    vec![(n % 256) as u8, (n / 256) as u8]
}

pub fn low_first(n: u32) -> Vec<u8> {
    (0..4).map(|i| (n >> (8 * i)) as u8).collect()
}

/// A part of the input.
pub struct Part {
    pub start: usize,
    pub len: usize,
}

impl Part {
    pub fn of<'a>(&self, input: &'a [u8]) -> &'a [u8] {
        &input[self.start..self.start + self.len]
    }
    pub fn fields(&self) -> Vec<u8> {
        [low_first(self.start as u32), low_first(self.len as u32)].concat()
    }
}

/// Goes through an input: a field's bytes must be present (1) before its content is judged.
pub struct Reader<'a> {
    pub t: &'a [u8],
    pub at: usize,
}

impl<'a> Reader<'a> {
    /// Of a record, whose limit on the whole input comes first.
    pub fn new(t: &'a [u8]) -> Judged<Self> {
        if t.len() > LONGEST_RECORD {
            Err(3)
        } else {
            Ok(Reader { t, at: 0 })
        }
    }
    pub fn part(&mut self, len: usize) -> Judged<Part> {
        let start = self.at;
        if self.t.len() - start < len {
            return Err(1);
        }
        self.at += len;
        Ok(Part { start, len })
    }
    /// All that is left.
    pub fn rest(&self) -> Part {
        Part { start: self.at, len: self.t.len() - self.at }
    }
    /// Fields that are never judged; as they stand, since a line too has its numbers low byte first.
    pub fn plain(&mut self, len: usize) -> Judged<&'a [u8]> {
        let p = self.part(len)?;
        Ok(&self.t[p.start..self.at])
    }
    /// One reserved field.
    pub fn zeros(&mut self, len: usize) -> Judged<()> {
        if self.plain(len)?.iter().any(|b| *b != 0) {
            Err(5)
        } else {
            Ok(())
        }
    }
    pub fn byte(&mut self) -> Judged<u8> {
        Ok(self.plain(1)?[0])
    }
    pub fn number(&mut self, len: usize) -> Judged<u32> {
        Ok(self.plain(len)?.iter().rev().fold(0, |v, b| v * 256 + u32::from(*b)))
    }
    pub fn end(&self) -> Judged<()> {
        if self.at < self.t.len() {
            Err(8)
        } else {
            Ok(())
        }
    }
}
