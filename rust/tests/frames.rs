//! Frames: streams cut in many ways, the limits, refusals and what follows them.
use barkcushion::*;

/// A frame with so many bytes of data. Every byte says something of its place, so that none can be another's.
fn frame(command: u8, data: usize) -> Vec<u8> {
    let mut bytes: Vec<u8> = (0..FRAME_HEADER + data).map(|k| (k * 7 + k / 256) as u8 ^ command).collect();
    bytes[0] = command;
    bytes[2..4].copy_from_slice(&u16::try_from(data).unwrap().to_le_bytes());
    bytes
}

/// One call on a buffer that lies with the caller: the answer, the frame copied out of it, and the state behind it.
fn take(buffer: &mut [u8], state: &mut FrameState, scrap: &[u8]) -> Result<(usize, Option<Vec<u8>>)> {
    let mut frames = FrameCollector::resume(buffer, *state);
    let answer = frames.take(scrap).map(|taken| match taken {
        Taken::All => (scrap.len(), None),
        Taken::Frame { frame, taken } => (taken, Some(frame.to_vec())),
    });
    *state = frames.state();
    answer
}

/// Drives a stream through one collector, in scraps of these sizes, again and again: each frame with the place in the
/// stream behind the last byte that the call was given.
fn collected(stream: &[u8], room: usize, sizes: &[usize]) -> Vec<(Vec<u8>, usize)> {
    let mut buffer = vec![0xA5; room];
    let mut frames = FrameCollector::new(&mut buffer);
    let (mut at, mut found) = (0, Vec::new());
    for size in sizes.iter().cycle() {
        let end = stream.len().min(at + size);
        while let Taken::Frame { frame, taken } = frames.take(&stream[at..end]).unwrap() {
            at += taken;
            found.push((frame.to_vec(), at));
        }
        at = end;
        if at == stream.len() {
            break;
        }
    }
    assert_eq!(frames.state(), FrameState::default(), "the stream ended behind a frame");
    found
}

#[test]
fn cuts() {
    let all: Vec<_> = [0, 1, 5, 0, 1476, 24, 23, 700].into_iter().zip(1..).map(|(data, k)| frame(k, data)).collect();
    let stream = all.concat();
    let mut at = 0;
    let want: Vec<_> = all
        .iter()
        .map(|frame| {
            at += frame.len();
            (frame.clone(), at)
        })
        .collect();
    for room in [1500, 1501, MAX_FRAME] {
        for sizes in [&[1][..], &[2], &[3], &[24], &[25], &[7], &[23], &[49], &[1001], &[1, 0, 30, 2, 999], &[9999]] {
            assert_eq!(collected(&stream, room, sizes), want, "scraps of {sizes:?}, a buffer of {room}");
        }
    }
}

/// In two scraps, cut at every place: each frame comes out of the call that brings its last byte.
#[test]
fn two_scraps() {
    let all = [frame(1, 3), frame(2, 0), frame(3, 30)];
    let stream = all.concat();
    for cut in 0..=stream.len() {
        let mut buffer = [0; 54];
        let mut frames = FrameCollector::new(&mut buffer);
        let mut found = Vec::new();
        frames.take_all(&stream[..cut], |frame| found.push(frame.to_vec())).unwrap();
        let whole = [27, 51, 105].into_iter().filter(|end| *end <= cut).count();
        assert_eq!(found, all[..whole], "cut at {cut}");
        frames.take_all(&stream[cut..], |frame| found.push(frame.to_vec())).unwrap();
        assert_eq!(found, all, "cut at {cut}");
    }
}

#[test]
fn limits() {
    for data in [0, 1, 1476, 65534, 65535] {
        let (bytes, size) = (frame(9, data), FRAME_HEADER + data);
        for room in [size, size + 1] {
            let (mut buffer, mut state) = (vec![0xA5; room], FrameState::default());
            let more = [&bytes[..], &[1, 2, 3]].concat();
            assert_eq!(take(&mut buffer, &mut state, &more), Ok((size, Some(bytes.clone()))));
            assert!(buffer[size..].iter().all(|b| *b == 0xA5), "changed behind the frame");
            assert_eq!(state, FrameState::default());
        }
        if data > 0 {
            let (mut buffer, mut state) = (vec![0xA5; size - 1], FrameState::default());
            assert_eq!(take(&mut buffer, &mut state, &bytes), Err(Error::Room), "{data}");
            assert!(buffer.iter().all(|b| *b == 0xA5), "stored though refused");
            assert_eq!(state, FrameState { refused: true, ..Default::default() });
        }
    }
    assert_eq!(MAX_FRAME, FRAME_HEADER + 65535);
    for room in [0, 1, 23] {
        let (mut buffer, mut state) = (vec![0xA5; room], FrameState::default());
        for scrap in [&[][..], &[1], &[0; 24]] {
            assert_eq!(take(&mut buffer, &mut state, scrap), Err(Error::Room));
            assert_eq!(state, FrameState::default(), "a short buffer leaves the state as it was");
        }
    }
}

/// What is kept, byte by byte; an empty scrap changes nothing.
#[test]
fn kept() {
    let bytes = frame(4, 6);
    let (mut buffer, mut state) = ([0xA5; 40], FrameState::default());
    for held in 0..bytes.len() - 1 {
        for scrap in [&[][..], &bytes[held..][..1]] {
            assert_eq!(take(&mut buffer, &mut state, scrap), Ok((scrap.len(), None)));
            let held = held + scrap.len();
            let length = if held < FRAME_HEADER { 0 } else { bytes.len() };
            assert_eq!(state, FrameState { held, length, refused: false });
            assert_eq!(buffer[..held], bytes[..held]);
            assert!(buffer[held..].iter().all(|b| *b == 0xA5), "changed behind what is kept");
        }
    }
    assert_eq!(take(&mut buffer, &mut state, &bytes[29..]), Ok((1, Some(bytes))));
}

#[test]
fn once_refused() {
    let (long, short) = (frame(1, 100), frame(2, 4));
    let mut buffer = [0xA5; 64];
    let mut state = FrameState::default();
    assert_eq!(take(&mut buffer, &mut state, &short), Ok((28, Some(short.clone()))));
    assert_eq!(take(&mut buffer, &mut state, &long[..20]), Ok((20, None)));
    let before = buffer;
    // The header's last byte and more; then nothing, one byte, a good frame.
    for scrap in [&long[20..], &[], &[0], &short] {
        assert_eq!(take(&mut buffer, &mut state, scrap), Err(Error::Room));
        assert_eq!(state, FrameState { held: 20, length: 0, refused: true });
        assert_eq!(buffer, before);
    }
    let mut frames = FrameCollector::resume(&mut buffer, state);
    frames.reset();
    assert_eq!(frames.state(), FrameState::default());
    assert_eq!(frames.take(&short), Ok(Taken::Frame { frame: &short, taken: 28 }));
}

/// The frames before the one that is refused are handed out.
#[test]
fn refused_behind_others() {
    let stream = [frame(1, 0), frame(2, 8), frame(3, 9), frame(4, 0)].concat();
    let mut buffer = [0; 32];
    let mut frames = FrameCollector::new(&mut buffer);
    let mut commands = Vec::new();
    assert_eq!(frames.take_all(&stream, |frame| commands.push(frame[0])), Err(Error::Room));
    assert_eq!(commands, [1, 2]);
    assert!(frames.state().refused);
}

#[test]
fn states() {
    let state = |held, length, refused| FrameState { held, length, refused };
    let mut buffer = vec![0; MAX_FRAME + 1];
    let before = buffer.clone();
    let (most, huge) = (MAX_FRAME, usize::MAX);
    for bad in [
        state(0, 1, false),
        state(0, 24, false),
        state(23, 48, false),
        state(24, 0, false),
        state(24, 24, false),
        state(25, 24, false),
        state(24, most + 1, false),
        state(most, most, false),
        state(most, most + 1, false),
        state(huge, 0, false),
        state(huge, huge, false),
        state(0, huge, false),
        state(24, 25, true),
        state(24, 0, true),
        state(0, 24, true),
        state(huge, 0, true),
    ] {
        for room in [0, 24, MAX_FRAME + 1] {
            let mut now = bad;
            assert_eq!(take(&mut buffer[..room], &mut now, &[1]), Err(Error::Outside), "{bad:?}");
            assert_eq!(now, bad);
        }
    }
    // Buffers shorter than the state needs.
    for (good, room) in
        [(state(30, 40, false), 29), (state(30, 40, false), 39), (state(most - 1, most, false), most - 1)]
    {
        let mut now = good;
        assert_eq!(take(&mut buffer[..room], &mut now, &[1]), Err(Error::Room), "{good:?}");
        assert_eq!(now, good);
    }
    assert_eq!(buffer, before);
    // Once it is known, the length is the state's, whatever the buffer has.
    let mut now = state(30, 40, false);
    buffer[2..4].fill(0xFF);
    let (taken, frame) = take(&mut buffer[..40], &mut now, &[7; 30]).unwrap();
    assert_eq!((taken, frame.map(|f| f.len()), now), (10, Some(40), FrameState::default()));
}
