//! A call of the frame collector as a value, the line that asks it, and what it left: 50.

use super::fields::{digits, put_run, whole, Take};

/// What the driver holds of a half-read frame. As in a line, so that one can be made which no calls leave.
#[derive(Clone, Copy, PartialEq, Eq, Debug)]
pub struct State {
    pub held: u32,
    pub length: u32,
    pub refused: u8,
}

pub fn state(held: u32, length: u32, refused: u8) -> State {
    State { held, length, refused }
}

pub const RESET: State = State { held: 0, length: 0, refused: 0 };

/// A case of 50.
#[derive(Clone, Debug)]
pub struct Call {
    pub state: State,
    pub buffer: Vec<u8>,
    pub scrap: Vec<u8>,
}

impl Call {
    pub fn line(&self) -> Vec<u8> {
        let mut b = vec![0x50];
        b.extend(self.state.held.to_le_bytes());
        b.extend(self.state.length.to_le_bytes());
        b.push(self.state.refused);
        put_run(&mut b, &self.buffer);
        put_run(&mut b, &self.scrap);
        digits(&b)
    }
}

/// What a call left.
pub struct Left {
    /// how much was taken, and the length of the frame that was handed out, 0 if none; None where it was refused
    pub done: Option<(usize, usize)>,
    pub state: State,
    pub buffer: Vec<u8>,
}

impl Left {
    /// From an answer; None where it is none to 50.
    pub fn of(answer: &[u8]) -> Option<Left> {
        whole(answer, |number, t| {
            let done = if number == 0 { Some((t.u32()? as usize, t.u32()? as usize)) } else { None };
            let state = State { held: t.u32()?, length: t.u32()?, refused: t.u8()? };
            let Take(rest) = t;
            let buffer = std::mem::take(rest).to_vec();
            Some(Left { done, state, buffer })
        })
    }
}
