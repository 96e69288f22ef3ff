//! Requests as values, and the lines that ask about them: 10 to 15, 18 to 1B.

use super::fields::{digits, put_run, whole, Take};
use super::paths::Seg;

/// Connection parameters. Enumerated fields are numbers, so that a line can hold one that no record has.
#[derive(Clone, Copy, PartialEq, Eq, Debug)]
pub struct Par {
    pub size: u16,
    pub variable: u8,
    pub priority: u8,
    pub kind: u8,
    pub owner: u8,
}

impl Par {
    fn take(t: &mut Take) -> Option<Par> {
        Some(Par { size: t.u16()?, variable: t.u8()?, priority: t.u8()?, kind: t.u8()?, owner: t.u8()? })
    }
}

/// A Forward Open without its path.
#[derive(Clone, Copy, PartialEq, Eq, Debug)]
pub struct Open {
    pub large: u8,
    pub prio: u8,
    pub ticks: u8,
    pub o_t_id: u32,
    pub t_o_id: u32,
    pub serial: u16,
    pub vendor: u16,
    pub originator: u32,
    pub multiplier: u8,
    pub o_t_rpi: u32,
    pub o_t: Par,
    pub t_o_rpi: u32,
    pub t_o: Par,
    pub direction: u8,
    pub trigger: u8,
    pub class: u8,
}

impl Open {
    fn put(&self, b: &mut Vec<u8>) {
        b.extend([self.prio, self.ticks]);
        b.extend([self.o_t_id, self.t_o_id].map(u32::to_le_bytes).concat());
        b.extend([self.serial, self.vendor].map(u16::to_le_bytes).concat());
        b.extend(self.originator.to_le_bytes());
        b.push(self.multiplier);
        for (rpi, p) in [(self.o_t_rpi, &self.o_t), (self.t_o_rpi, &self.t_o)] {
            b.extend(rpi.to_le_bytes());
            b.extend(p.size.to_le_bytes());
            b.extend([p.variable, p.priority, p.kind, p.owner]);
        }
        b.extend([self.direction, self.trigger, self.class]);
    }
    fn take(t: &mut Take, large: u8) -> Option<Open> {
        Some(Open {
            large,
            prio: t.u8()?,
            ticks: t.u8()?,
            o_t_id: t.u32()?,
            t_o_id: t.u32()?,
            serial: t.u16()?,
            vendor: t.u16()?,
            originator: t.u32()?,
            multiplier: t.u8()?,
            o_t_rpi: t.u32()?,
            o_t: Par::take(t)?,
            t_o_rpi: t.u32()?,
            t_o: Par::take(t)?,
            direction: t.u8()?,
            trigger: t.u8()?,
            class: t.u8()?,
        })
    }
}

/// A Forward Close without its path.
#[derive(Clone, Copy, PartialEq, Eq, Debug)]
pub struct Close {
    pub prio: u8,
    pub ticks: u8,
    pub serial: u16,
    pub vendor: u16,
    pub originator: u32,
}

impl Close {
    fn put(&self, b: &mut Vec<u8>) {
        b.extend([self.prio, self.ticks]);
        b.extend([self.serial, self.vendor].map(u16::to_le_bytes).concat());
        b.extend(self.originator.to_le_bytes());
    }
    fn take(t: &mut Take) -> Option<Close> {
        let (prio, ticks) = (t.u8()?, t.u8()?);
        Some(Close { prio, ticks, serial: t.u16()?, vendor: t.u16()?, originator: t.u32()? })
    }
}

/// A request without its path: what 10 to 13 are given, and what 18 to 1B give back.
#[derive(Clone, PartialEq, Eq, Debug)]
pub enum Head {
    Message { service: u8, data: Vec<u8> },
    Open(Open),
    Close(Close),
    Send { prio: u8, ticks: u8, message: Vec<u8> },
}

impl Head {
    pub fn op(&self) -> u8 {
        match self {
            Head::Message { .. } => 0x10,
            Head::Open(_) => 0x11,
            Head::Close(_) => 0x12,
            Head::Send { .. } => 0x13,
        }
    }
    /// The byte whose high four bits are reserved; a message has none.
    pub fn prio(&self) -> u8 {
        match self {
            Head::Message { .. } => 0,
            Head::Open(o) => o.prio,
            Head::Close(c) => c.prio,
            Head::Send { prio, .. } => *prio,
        }
    }
    pub fn large(&self) -> u8 {
        match self {
            Head::Open(o) => o.large,
            _ => 0,
        }
    }
    /// The answer of the reader that is given a record of `size` bytes with a path of `path` bytes.
    pub fn answer(&self, size: usize, path: usize) -> Vec<u8> {
        let mut b = vec![0];
        match self {
            Head::Message { service, .. } => b.push(*service),
            Head::Open(o) => o.put(&mut b),
            Head::Close(c) => c.put(&mut b),
            Head::Send { prio, ticks, .. } => b.extend([*prio, *ticks]),
        }
        let mut part = |start: usize, len: usize| b.extend([start as u32, len as u32].map(u32::to_le_bytes).concat());
        match self {
            Head::Message { data, .. } => {
                part(size - data.len() - path, path);
                part(size - data.len(), data.len());
            }
            Head::Send { message, .. } => {
                part(4, message.len());
                part(size - path, path);
            }
            _ => part(size - path, path),
        }
        digits(&b)
    }
}

/// A case of 10 to 13.
#[derive(Clone, Debug)]
pub struct Request {
    pub head: Head,
    pub pool: Vec<u8>,
    pub list: Vec<Seg>,
    pub room: u32,
}

impl Request {
    pub fn line(&self) -> Vec<u8> {
        let mut b = vec![self.head.op()];
        match &self.head {
            Head::Message { service, .. } => b.push(*service),
            Head::Open(o) => {
                b.push(o.large);
                o.put(&mut b);
            }
            Head::Close(c) => c.put(&mut b),
            Head::Send { prio, ticks, message } => {
                b.extend([*prio, *ticks]);
                put_run(&mut b, message);
            }
        }
        put_run(&mut b, &self.pool);
        Seg::put_list(&mut b, &self.list);
        if let Head::Message { data, .. } = &self.head {
            put_run(&mut b, data);
        }
        b.extend(self.room.to_le_bytes());
        digits(&b)
    }
    /// The case of a line that `line` made; None for every other line.
    pub fn of_line(line: &[u8]) -> Option<Request> {
        whole(line, |op, t| {
            let mut head = match op {
                0x10 => Head::Message { service: t.u8()?, data: vec![] },
                0x11 => {
                    let large = t.u8()?;
                    Head::Open(Open::take(t, large)?)
                }
                0x12 => Head::Close(Close::take(t)?),
                0x13 => Head::Send { prio: t.u8()?, ticks: t.u8()?, message: t.run()? },
                _ => return None,
            };
            let pool = t.run()?;
            let list = Seg::take_list(t)?;
            if let Head::Message { data, .. } = &mut head {
                *data = t.run()?;
            }
            Some(Request { head, pool, list, room: t.u32()? })
        })
    }
}

/// A line of 14.
pub fn default_line(large: u8, serial: u16, room: u32) -> Vec<u8> {
    digits(&[&[0x14, large][..], &serial.to_le_bytes(), &room.to_le_bytes()].concat())
}

/// The case of a line of 14: large, serial, room.
pub fn default_of_line(line: &[u8]) -> Option<(u8, u16, u32)> {
    whole(line, |op, t| (op == 0x14).then_some((t.u8()?, t.u16()?, t.u32()?)))
}

/// A line of 15.
pub fn setter_line(value: u8) -> Vec<u8> {
    digits(&[0x15, value])
}

/// An input for a reader, 18 to 1B. `large` is said to 19 alone.
#[derive(Clone, Debug)]
pub struct Record {
    pub op: u8,
    pub large: u8,
    pub input: Vec<u8>,
}

impl Record {
    /// For the reader of what this head's operation writes.
    pub fn of(head: &Head, input: &[u8]) -> Record {
        Record { op: head.op() + 8, large: head.large(), input: input.to_vec() }
    }
    pub fn line(&self) -> Vec<u8> {
        let mut b = vec![self.op];
        if self.op == 0x19 {
            b.push(self.large);
        }
        put_run(&mut b, &self.input);
        digits(&b)
    }
    /// What an accepted answer says was read: the head, and the path's bytes. None for every other answer.
    pub fn read(&self, answer: &[u8]) -> Option<(Head, Vec<u8>)> {
        whole(answer, |refused, t| {
            Some(match self.op {
                _ if refused != 0 => return None,
                0x18 => {
                    let (service, path) = (t.u8()?, t.part(&self.input)?);
                    (Head::Message { service, data: t.part(&self.input)? }, path)
                }
                0x19 => (Head::Open(Open::take(t, self.large)?), t.part(&self.input)?),
                0x1A => (Head::Close(Close::take(t)?), t.part(&self.input)?),
                _ => {
                    let (prio, ticks) = (t.u8()?, t.u8()?);
                    (Head::Send { prio, ticks, message: t.part(&self.input)? }, t.part(&self.input)?)
                }
            })
        })
    }
}
