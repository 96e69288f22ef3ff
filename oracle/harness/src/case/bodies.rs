//! Bodies as values, and the lines that ask about them: 30 to 34.

use super::fields::{digits, put_run, whole};

/// A case of 30. Lengths as in a line, so that one can be made which no item has.
#[derive(Clone, Debug)]
pub struct Items {
    pub lent: Vec<u8>,
    pub lengths: Vec<u64>,
    pub room: u32,
}

impl Items {
    /// The items end to end, and nothing behind them.
    pub fn of(items: &[Vec<u8>], room: u32) -> Items {
        Items { lent: items.concat(), lengths: items.iter().map(|i| i.len() as u64).collect(), room }
    }
    /// What the lengths name; None where one reaches past the lent end.
    pub fn items(&self) -> Option<Vec<&[u8]>> {
        let mut rest = &self.lent[..];
        let mut cut = |n: &u64| {
            let (item, behind) = rest.split_at_checked(usize::try_from(*n).ok()?)?;
            rest = behind;
            Some(item)
        };
        self.lengths.iter().map(&mut cut).collect()
    }
    pub fn line(&self) -> Vec<u8> {
        let mut b = vec![0x30];
        put_run(&mut b, &self.lent);
        b.extend((self.lengths.len() as u32).to_le_bytes());
        for n in &self.lengths {
            b.extend(n.to_le_bytes());
        }
        b.extend(self.room.to_le_bytes());
        digits(&b)
    }
    /// The case of a line that `line` made; None for every other line.
    pub fn of_line(line: &[u8]) -> Option<Items> {
        whole(line, |op, t| {
            let lent = t.run()?;
            let count = t.u32().filter(|_| op == 0x30)?;
            let lengths: Option<Vec<u64>> = (0..count).map(|_| t.u64()).collect();
            Some(Items { lent, lengths: lengths?, room: t.u32()? })
        })
    }
}

/// What is asked of a body.
#[derive(Clone, Copy, PartialEq, Eq, Debug)]
pub enum Ask {
    /// 31
    Count,
    /// 32
    Item(u64),
    /// 33
    Reply(u64),
}

impl Ask {
    pub fn line(self, input: &[u8]) -> Vec<u8> {
        let (op, index) = match self {
            Ask::Count => (0x31, None),
            Ask::Item(k) => (0x32, Some(k)),
            Ask::Reply(k) => (0x33, Some(k)),
        };
        let mut b = vec![op];
        put_run(&mut b, input);
        b.extend(index.map_or(vec![], |k| k.to_le_bytes().to_vec()));
        digits(&b)
    }
    /// What a line that `line` made asks, and of which input; None for every other line.
    pub fn of_line(line: &[u8]) -> Option<(Ask, Vec<u8>)> {
        whole(line, |op, t| {
            let input = t.run()?;
            let ask = match op {
                0x31 => Ask::Count,
                0x32 => Ask::Item(t.u64()?),
                0x33 => Ask::Reply(t.u64()?),
                _ => return None,
            };
            Some((ask, input))
        })
    }
}

/// A case of 34.
#[derive(Clone, Debug)]
pub struct Join {
    pub first: Vec<u8>,
    pub second: Vec<u8>,
    pub room: u32,
}

impl Join {
    pub fn line(&self) -> Vec<u8> {
        let mut b = vec![0x34];
        put_run(&mut b, &self.first);
        put_run(&mut b, &self.second);
        b.extend(self.room.to_le_bytes());
        digits(&b)
    }
    /// The case of a line that `line` made; None for every other line.
    pub fn of_line(line: &[u8]) -> Option<Join> {
        whole(line, |op, t| (op == 0x34).then_some(Join { first: t.run()?, second: t.run()?, room: t.u32()? }))
    }
}
