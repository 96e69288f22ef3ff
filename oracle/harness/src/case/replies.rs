//! Replies as values, and the lines that ask about them: 20 to 27.

use super::fields::{digits, put_run, whole, Take};

/// A status. Numbers as in a line, so that one can be made which no status has.
#[derive(Clone, Copy, PartialEq, Eq, Debug)]
pub struct Status {
    pub general: u8,
    pub words: u8,
    pub word: u16,
}

pub fn status(general: u8, word: Option<u16>) -> Status {
    Status { general, words: u8::from(word.is_some()), word: word.unwrap_or(0) }
}

impl Status {
    fn fields(&self) -> Vec<u8> {
        [&[self.general, self.words][..], &self.word.to_le_bytes()].concat()
    }
    pub fn take(t: &mut Take) -> Option<Status> {
        Some(Status { general: t.u8()?, words: t.u8()?, word: t.u16()? })
    }
}

/// Which connection a reply is about.
#[derive(Clone, Copy, PartialEq, Eq, Debug)]
pub struct Ids {
    pub serial: u16,
    pub vendor: u16,
    pub originator: u32,
}

/// The record behind a header. `remaining` counts where `flag` is 1.
#[derive(Clone, PartialEq, Eq, Debug)]
pub enum Body {
    Open { o_t_id: u32, t_o_id: u32, ids: Ids, o_t_api: u32, t_o_api: u32, data: Vec<u8> },
    Close { ids: Ids, data: Vec<u8> },
    Failure { ids: Ids, flag: u8, remaining: u8 },
}

/// A Forward Open or Forward Close reply: what 23 to 25 are given, and what 21 and 22 give back.
#[derive(Clone, PartialEq, Eq, Debug)]
pub struct Forward {
    pub service: u8,
    pub status: Status,
    pub body: Body,
}

impl Forward {
    /// The operation that writes it.
    pub fn op(&self) -> u8 {
        match self.body {
            Body::Open { .. } => 0x23,
            Body::Close { .. } => 0x24,
            Body::Failure { .. } => 0x25,
        }
    }
    /// The operations that read it.
    pub fn readers(&self) -> &'static [u8] {
        match self.body {
            Body::Open { .. } => &[0x21],
            Body::Close { .. } => &[0x22],
            Body::Failure { .. } => &[0x21, 0x22],
        }
    }
    pub fn data(&self) -> &[u8] {
        match &self.body {
            Body::Open { data, .. } | Body::Close { data, .. } => data,
            Body::Failure { .. } => &[],
        }
    }
    /// The fields of its body up to the application data, or up to the remaining path size: their order and their
    /// bytes are the same in a case, in an answer and in the record.
    fn fields(&self) -> Vec<u8> {
        let connection = |i: &Ids| [&i.serial.to_le_bytes()[..], &i.vendor.to_le_bytes(), &i.originator.to_le_bytes()].concat();
        match &self.body {
            Body::Open { o_t_id, t_o_id, ids, o_t_api, t_o_api, .. } => {
                let pair = |a: &u32, b: &u32| [a.to_le_bytes(), b.to_le_bytes()].concat();
                [pair(o_t_id, t_o_id), connection(ids), pair(o_t_api, t_o_api)].concat()
            }
            Body::Close { ids, .. } | Body::Failure { ids, .. } => connection(ids),
        }
    }
    /// The line of 23 to 25.
    pub fn line(&self, room: u32) -> Vec<u8> {
        let mut b = vec![self.op(), self.service];
        if let Body::Failure { flag, remaining, .. } = self.body {
            b.extend(self.status.fields());
            b.extend(self.fields());
            b.extend([flag, remaining]);
        } else {
            b.extend(self.fields());
            put_run(&mut b, self.data());
        }
        b.extend(room.to_le_bytes());
        digits(&b)
    }
    /// The answer of 21 or 22, where the application data begins at a place of the input.
    pub fn answer(&self, start: usize) -> Vec<u8> {
        let mut b = vec![0, self.service];
        b.extend(self.status.fields());
        if let Body::Failure { flag, remaining, .. } = self.body {
            b.push(0);
            b.extend(self.fields());
            b.extend([flag, remaining]);
        } else {
            b.push(1);
            b.extend(self.fields());
            b.extend([start as u32, self.data().len() as u32].map(u32::to_le_bytes).concat());
        }
        digits(&b)
    }
    /// Its bytes, with any byte in the two places that are ignored. A status of more than one word has its word so
    /// often.
    pub fn wire(&self, ignored: u8, reserved: u8) -> Vec<u8> {
        let s = &self.status;
        let words = s.word.to_le_bytes().repeat(s.words.into());
        let mut b = [&[self.service, ignored, s.general, s.words][..], &words, &self.fields()].concat();
        match self.body {
            Body::Failure { flag: 1, remaining, .. } => b.push(remaining),
            Body::Failure { .. } => {}
            _ => {
                b.extend([(self.data().len() / 2) as u8, reserved]);
                b.extend(self.data());
            }
        }
        b
    }
    /// The same without what is read and not used: a word behind 0 words, a remaining size behind a FLAG 0.
    pub fn used(&self) -> Forward {
        let mut f = self.clone();
        if f.status.words == 0 {
            f.status.word = 0;
        }
        if let Body::Failure { flag: 0, remaining, .. } = &mut f.body {
            *remaining = 0;
        }
        f
    }
}

/// An input for a reader, 20 to 22 and 26. `routing` is said to 21 and 22 alone.
#[derive(Clone, Debug)]
pub struct Reply {
    pub op: u8,
    pub routing: u8,
    pub input: Vec<u8>,
}

impl Reply {
    fn is_told(op: u8) -> bool {
        op == 0x21 || op == 0x22
    }
    pub fn line(&self) -> Vec<u8> {
        let mut b = vec![self.op];
        if Self::is_told(self.op) {
            b.push(self.routing);
        }
        put_run(&mut b, &self.input);
        digits(&b)
    }
    /// The case of a line that `line` made for 20 to 22; None for every other line.
    pub fn of_line(line: &[u8]) -> Option<Reply> {
        whole(line, |op, t| {
            let routing = if Self::is_told(op) { t.u8()? } else { 0 };
            let input = t.run().filter(|_| (0x20..=0x22).contains(&op))?;
            Some(Reply { op, routing, input })
        })
    }
}

/// A line of 27.
pub fn routing_line(s: &Status) -> Vec<u8> {
    digits(&[&[0x27][..], &s.fields()].concat())
}

/// The status in a line of 27.
pub fn routing_of_line(line: &[u8]) -> Option<Status> {
    whole(line, |op, t| Status::take(t).filter(|_| op == 0x27))
}
