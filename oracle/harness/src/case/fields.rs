//! What lines and answers are made of: hex digits, and fields that are put and taken off the front again.

/// Capital hex, no blanks.
pub fn digits(b: &[u8]) -> Vec<u8> {
    const HEX: &[u8; 16] = b"0123456789ABCDEF";
    b.iter().flat_map(|x| [HEX[(x >> 4) as usize], HEX[(x & 15) as usize]]).collect()
}

/// The bytes of capital hex without blanks; None for anything else.
pub fn undigits(t: &[u8]) -> Option<Vec<u8>> {
    let nibble = |c: u8| match c {
        b'0'..=b'9' => Some(c - b'0'),
        b'A'..=b'F' => Some(c - b'A' + 10),
        _ => None,
    };
    if !t.len().is_multiple_of(2) {
        return None;
    }
    t.chunks(2).map(|p| Some(nibble(p[0])? * 16 + nibble(p[1])?)).collect()
}

pub fn put_run(b: &mut Vec<u8>, run: &[u8]) {
    b.extend((run.len() as u32).to_le_bytes());
    b.extend(run);
}

/// A line or an answer taken apart to its end: its first byte, and then its fields.
pub fn whole<T>(line: &[u8], fields: impl FnOnce(u8, &mut Take) -> Option<T>) -> Option<T> {
    let bytes = undigits(line)?;
    let mut t = Take(&bytes);
    let first = t.u8()?;
    let taken = fields(first, &mut t)?;
    t.0.is_empty().then_some(taken)
}

/// Fields off the front; None where they are cut short.
pub struct Take<'a>(pub &'a [u8]);

impl Take<'_> {
    fn bytes<const N: usize>(&mut self) -> Option<[u8; N]> {
        let (front, rest) = self.0.split_first_chunk()?;
        self.0 = rest;
        Some(*front)
    }
    pub fn u8(&mut self) -> Option<u8> {
        self.bytes().map(u8::from_le_bytes)
    }
    pub fn u16(&mut self) -> Option<u16> {
        self.bytes().map(u16::from_le_bytes)
    }
    pub fn u32(&mut self) -> Option<u32> {
        self.bytes().map(u32::from_le_bytes)
    }
    pub fn u64(&mut self) -> Option<u64> {
        self.bytes().map(u64::from_le_bytes)
    }
    pub fn run(&mut self) -> Option<Vec<u8>> {
        let n = self.u32()? as usize;
        let (run, rest) = self.0.split_at_checked(n)?;
        self.0 = rest;
        Some(run.to_vec())
    }
    /// What a start and a length name in an input.
    pub fn part(&mut self, input: &[u8]) -> Option<Vec<u8>> {
        let (start, len) = (self.u32()? as usize, self.u32()? as usize);
        Some(input.get(start..start + len)?.to_vec())
    }
}
