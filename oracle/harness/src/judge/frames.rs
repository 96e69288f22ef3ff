//! The judge on the frame collector, 50: one call of it, written from document 02's Wish 1.

use super::fields::{low_first, Fields, Judged, MOST_ROOM};

/// Bytes of the encapsulation header; the 16-bit data length stands at offset 2 of it.
const HEADER: usize = 24;
/// A header and the most data that 16 bits can say.
const LONGEST_FRAME: usize = HEADER + 65_535;

struct State {
    held: usize,
    length: usize,
    refused: bool,
}

/// As after a reset.
const RESET: State = State { held: 0, length: 0, refused: false };

pub fn case(f: &mut Fields) -> Option<Vec<u8>> {
    let mut state = State { held: f.u32()? as usize, length: f.u32()? as usize, refused: f.upto(1)? == 1 };
    let mut buffer = f.run().filter(|b| b.len() <= MOST_ROOM as usize)?.to_vec();
    let scrap = f.run()?;
    f.end()?;
    let head = match call(&mut state, &mut buffer, scrap) {
        Ok((taken, frame)) => [vec![0], low_first(taken as u32), low_first(frame as u32)].concat(),
        Err(number) => vec![number],
    };
    // state and buffer as they stand then, refused or not
    let state = [low_first(state.held as u32), low_first(state.length as u32), vec![u8::from(state.refused)]].concat();
    Some([head, state, buffer].concat())
}

/// How much of the scrap was taken, and the length of the frame that it ends; 0 where it ends none.
fn call(state: &mut State, buffer: &mut [u8], scrap: &[u8]) -> Judged<(usize, usize)> {
    if !left_by_calls(state) {
        return Err(11);
    }
    if buffer.len() < HEADER || buffer.len() < state.held || buffer.len() < state.length {
        return Err(2);
    }
    if state.refused {
        return Err(2);
    }
    // the stream since the last frame's end
    let since = [&buffer[..state.held], scrap].concat();
    if since.len() < HEADER {
        buffer[..since.len()].copy_from_slice(&since);
        state.held = since.len();
        return Ok((scrap.len(), 0));
    }
    // once the header is held, the state says the length, whatever the buffer then has at offset 2
    let length = if state.held < HEADER { HEADER + usize::from(since[2]) + 256 * usize::from(since[3]) } else { state.length };
    if length > buffer.len() {
        state.refused = true;
        return Err(2);
    }
    if since.len() < length {
        buffer[..since.len()].copy_from_slice(&since);
        *state = State { held: since.len(), length, refused: false };
        return Ok((scrap.len(), 0));
    }
    let taken = length - state.held;
    buffer[..length].copy_from_slice(&since[..length]);
    *state = RESET;
    Ok((taken, length))
}

/// Some calls from a reset leave it, with some buffer. While less than a header is held there is no length; once it is
/// held there is one, not yet reached. A frame is refused before its header is held, and never later.
fn left_by_calls(s: &State) -> bool {
    if s.held < HEADER {
        s.length == 0
    } else {
        !s.refused && s.held < s.length && s.length <= LONGEST_FRAME
    }
}
