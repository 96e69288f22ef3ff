//! Frames of a stream: one in a single scrap, and one byte by byte.
use super::{floor, repeated, Entry, Operation, ROOM};
use crate::place;
use barkcushion::{FrameCollector, Taken, FRAME_HEADER};
use std::hint::black_box;

pub const ALL: &[Entry] = &[
    ("frame-1500", "frame of 1,500 bytes in one scrap", || frame(1500, 1500)),
    ("scraps-100", "frame of 100 bytes in scraps of one byte", || frame(100, 1)),
    ("scraps-1000", "frame of 1,000 bytes in scraps of one byte", || frame(1000, 1)),
    ("scraps-2000", "frame of 2,000 bytes in scraps of one byte", || frame(2000, 1)),
];

/// Of so many bytes, in scraps of so many. A frame handed out leaves the collector as a reset does, so each call is as the first.
fn frame(bytes: usize, each: usize) -> Operation {
    let mut stream: Vec<u8> = (0..bytes).map(|i| i as u8).collect();
    stream[2..4].copy_from_slice(&((bytes - FRAME_HEADER) as u16).to_le_bytes());
    let stream = place::input(&stream);
    let mut frames = FrameCollector::new(place::output(ROOM));
    let mut scraps = stream.chunks(each);
    let last = scraps.next_back().unwrap();
    assert!(scraps.all(|scrap| frames.take(scrap) == Ok(Taken::All)), "no frame before its end");
    assert_eq!(frames.take(last), Ok(Taken::Frame { frame: stream, taken: each }));
    let ours = repeated(move || {
        for scrap in black_box(stream).chunks(each) {
            let _ = black_box(frames.take(scrap).unwrap());
        }
    });
    Operation { bytes, ours, theirs: None, floor: floor(stream), within: (each == bytes).then_some(2.0) }
}
