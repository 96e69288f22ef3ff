//! Operation 50, the frame collector: the judge alone. Streams driven as a driver would, and where they are cut; what is
//! asked of states by themselves is in a file below.

pub mod drawn;
pub mod states;

use super::asking::{judged, Sink, PAST_THE_END};
use super::bytes::{edges, link};
use crate::case::frames::{state, Call, Left, State, RESET};
use crate::judge;

/// Takes a call that is to be asked.
type Ask<'a> = dyn FnMut(&Call) + 'a;

/// Bytes of the encapsulation header.
const HEADER: usize = 24;

/// A header that says so many bytes of data, and nothing like it in any other place.
fn header(data: usize, salt: usize) -> Vec<u8> {
    let mut h = link(HEADER, salt);
    h[2..4].copy_from_slice(&(data as u16).to_le_bytes());
    h
}

fn frame(data: usize, salt: usize) -> Vec<u8> {
    [header(data, salt), link(data, salt + 1)].concat()
}

/// Frames of so many bytes of data, end to end.
fn stream(data: &[usize]) -> Vec<u8> {
    data.iter().enumerate().flat_map(|(k, n)| frame(*n, k + 1)).collect()
}

/// The whole frames of a stream, up to the first that is too long for the buffer.
fn frames_of(stream: &[u8], room: usize) -> Vec<&[u8]> {
    let mut v = vec![];
    let mut rest = stream;
    while rest.len() >= HEADER {
        let length = HEADER + usize::from(u16::from_le_bytes([rest[2], rest[3]]));
        if length > room.min(rest.len()) {
            break;
        }
        let (whole, behind) = rest.split_at(length);
        v.push(whole);
        rest = behind;
    }
    v
}

/// What a driver holds between its calls.
struct Driver {
    state: State,
    buffer: Vec<u8>,
}

impl Driver {
    /// From a reset. What the buffer holds before anything is stored would be a long frame's header.
    fn new(room: usize) -> Driver {
        Driver { state: RESET, buffer: vec![0xA5; room] }
    }
    /// One call; state and buffer are then as the judge says.
    fn call(&mut self, scrap: &[u8], ask: &mut Ask) -> Option<(usize, usize)> {
        let call = Call { state: self.state, buffer: self.buffer.clone(), scrap: scrap.to_vec() };
        let answer = judge::line(&call.line()).and_then(|a| Left::of(a.as_bytes()));
        let left = answer.expect("a call that is no case");
        ask(&call);
        (self.state, self.buffer) = (left.state, left.buffer);
        left.done
    }
    /// A scrap to its end: what a call leaves of it is given to the next. Its frames, up to what is refused.
    fn take(&mut self, scrap: &[u8], ask: &mut Ask) -> Vec<Vec<u8>> {
        let mut frames = vec![];
        let mut rest = scrap;
        loop {
            let Some((taken, frame)) = self.call(rest, ask) else { return frames };
            if frame > 0 {
                frames.push(self.buffer[..frame].to_vec());
            }
            rest = &rest[taken..];
            if rest.is_empty() {
                return frames;
            }
        }
    }
}

/// Every call of a stream that comes in these scraps, refused ones too. The judge goes from call to call; what it hands out
/// with each scrap has to be what the stream up to there has, which is said without any state.
fn drive(room: usize, scraps: &[&[u8]], ask: &mut Ask) {
    let mut driver = Driver::new(room);
    let (mut came, mut handed) = (vec![], vec![]);
    for scrap in scraps {
        came.extend(*scrap);
        handed.extend(driver.take(scrap, ask));
        assert_eq!(handed, frames_of(&came, room), "what the judge hands out is not what the stream has");
    }
}

/// The second half of a frame that was cut in its header.
pub fn good_lines() -> Vec<Vec<u8>> {
    vec![Call { state: state(3, 0, 0), buffer: header(2, 1), scrap: frame(0, 1)[3..].to_vec() }.line()]
}

pub fn fixed(to: &mut Sink) {
    let ask: &mut Ask = &mut |c| judged(to, c.line());
    cuts(ask);
    steps(ask);
    lengths(ask);
    too_long(ask);
    longest(ask);
    no_case(to);
}

/// Every cut of three frames into two scraps, over buffers that fit all and over shorter ones; and one into three scraps.
fn cuts(ask: &mut Ask) {
    for data in [[0, 0, 0], [2, 0, 5], [0, 1, 0], [1, 2, 3], [40, 3, 25], [0, 300, 1]] {
        let all = stream(&data);
        let longest = HEADER + data.into_iter().max().unwrap_or(0);
        for room in [HEADER, longest - 1, longest, longest + 1].into_iter().filter(|room| *room >= HEADER) {
            for at in 0..=all.len() {
                drive(room, &[&all[..at], &all[at..]], ask);
            }
        }
    }
    let all = stream(&[1, 0, 2]);
    for a in 0..=all.len() {
        for b in a..=all.len() {
            drive(26, &[&all[..a], &all[a..b], &all[b..]], ask);
        }
    }
}

/// Many frames, byte by byte and in scraps of other sizes.
fn steps(ask: &mut Ask) {
    let all = stream(&[0, 1, 2, 0, 0, 30, 255, 256, 0, 3]);
    for step in [1, 2, 3, 5, 22, 23, 24, 25, 26, 47, 48, 49, 101, 700] {
        for room in [30, 279, 280, 300] {
            drive(room, &all.chunks(step).collect::<Vec<_>>(), ask);
        }
    }
}

/// Data of many lengths, over a buffer that is one short, exact and one longer.
fn lengths(ask: &mut Ask) {
    for data in [0, 1, 2, 3, 23, 24, 25, 254, 255, 256, 257, 258, 511, 512, 513] {
        let n = HEADER + data;
        for room in [n - 1, n, n + 1] {
            ends(room, data, &[23, 24, 25, n - 1, n, n + 1], &[0, 2, 3, 4, 23, 24, n - 1], ask);
        }
    }
    // the longest, and few of them
    for data in [4_096, 65_535] {
        let n = HEADER + data;
        for room in [n - 1, n, n + 1] {
            ends(room, data, &[24, n, n + 1], &[0, 24], ask);
        }
        ends(70_000, data, &[n + 1], &[n - 1], ask);
    }
    // what a header says, over a buffer that fits any, and over short ones; in 16 bits 24 and 65,512 is 0
    for data in edges(65_535).into_iter().chain([65_511, 65_512, 65_513, 65_520]) {
        for room in [24, 25, 48, 65_559] {
            drive(room, &[&header(data as usize, 1)], ask);
        }
    }
    for data in 0..=65_535 {
        drive(40, &[&header(data, 1)], ask);
    }
}

/// A frame, and some of what follows it: the stream up to each of the ends, whole and in two scraps.
fn ends(room: usize, data: usize, ends: &[usize], cuts: &[usize], ask: &mut Ask) {
    let all = [frame(data, 1), header(0, 2)].concat();
    for end in ends {
        for at in cuts.iter().filter(|at| *at <= end) {
            drive(room, &[&all[..*at], &all[*at..*end]], ask);
        }
    }
}

/// A frame too long for the buffer, its header cut in every place: refused with the 24th byte, whatever else comes with it.
fn too_long(ask: &mut Ask) {
    let good = frame(0, 3);
    for (data, room) in [(1, 24), (2, 25), (256, 24), (256, 279), (65_512, 24), (65_513, 24), (65_512, 65), (65_535, 24)] {
        let head = header(data, 2);
        let more = [&link(data.min(300), 3)[..], &good].concat();
        for held in 0..HEADER {
            let (kept, rest) = head.split_at(held);
            for brought in [&[][..], &more[..1], &more] {
                let scrap = [rest, brought].concat();
                drive(room, &[kept, &scrap, &[], &scrap[..1], &good], ask);
                // the last byte of the header alone
                drive(room, &[kept, &rest[..rest.len() - 1], &[&head[23..], brought].concat()], ask);
            }
        }
        // behind a good frame, in one scrap
        drive(room, &[&[&good[..], &head, &more].concat(), &good], ask);
        // collects again after a reset
        let mut driver = Driver::new(room);
        driver.take(&[&head[..], &more].concat(), ask);
        driver.state = RESET;
        driver.take(&[&good[..], &good, &head].concat(), ask);
    }
}

/// The longest buffer, the longest line, and a scrap of very many frames, of which a call takes one.
fn longest(ask: &mut Ask) {
    let many = frame(0, 1).repeat(12_500);
    for room in [0, 23, 24, 25, 69_999, 70_000] {
        for scrap in [&many[..299_982 - room], &vec![0xFF; 299_982 - room], &many[..1], &[]] {
            Driver::new(room).call(scrap, ask);
        }
    }
    Driver { state: state(24, 65_559, 0), buffer: link(70_000, 1) }.call(&many[..65_600], ask);
}

fn no_case(to: &mut Sink) {
    let mut call = Call { state: RESET, buffer: link(30, 1), scrap: frame(2, 1) };
    for refused in 0..=255 {
        call.state.refused = refused;
        judged(to, call.line());
    }
    // a buffer of 70,000 bytes is the longest
    for room in [70_001, 70_002, 131_072] {
        for state in [RESET, state(1, 1, 1)] {
            judged(to, Call { state, buffer: link(room, 1), scrap: vec![1] }.line());
        }
    }
    // either length past the end of the line
    for len in PAST_THE_END {
        for (before, behind) in [("", ""), ("", "00000000"), ("00000000", ""), ("02000000A5A5", "FF")] {
            judged(to, format!("50 00000000 00000000 00 {before}{len}{behind}").into_bytes());
        }
    }
}
