//! Frames of a stream that comes in scraps.
use crate::answer::answer;
use crate::error::Result;
use crate::sys;

/// A frame collector: takes a TCP stream in the scraps that it comes in, and hands out its encapsulation frames.
///
/// A frame is a header of [`FRAME_HEADER`](crate::FRAME_HEADER) bytes and its data, whose length stands at the header's
/// offset 2. Each is handed out by the very call that brings its last byte, wherever the stream was cut. The state lies
/// in the collector; what came of a frame lies in the buffer that it borrows.
///
/// ```
/// use barkcushion::{FrameCollector, Taken};
/// let mut stream = [0; 2 * 24 + 1]; // two frames: one byte of data, and none
/// stream[2] = 1;
/// stream[24] = 7;
///
/// let mut buffer = [0; 64];
/// let mut frames = FrameCollector::new(&mut buffer);
/// assert_eq!(frames.take(&stream[..20])?, Taken::All);
/// // The next scrap has the rest of the first frame and some of the second: what is left of it is given again.
/// let scrap = &stream[20..40];
/// assert_eq!(frames.take(scrap)?, Taken::Frame { frame: &stream[..25], taken: 5 });
/// assert_eq!(frames.take(&scrap[5..])?, Taken::All);
/// // Or all frames that end in a scrap, one after the other.
/// let mut lengths = Vec::new();
/// frames.take_all(&stream[40..], |frame| lengths.push(frame.len()))?;
/// assert_eq!(lengths, [24]);
/// # Ok::<(), barkcushion::Error>(())
/// ```
#[derive(Debug)]
pub struct FrameCollector<'b> {
    /// Held, length, refused: the three numbers that the archive takes.
    state: [usize; 3],
    buffer: &'b mut [u8],
}

/// What a call took of a scrap.
#[derive(Clone, Copy, Debug, PartialEq, Eq, Hash)]
pub enum Taken<'a> {
    /// All of it, and no frame has ended.
    All,
    /// As much as belongs to a frame, which has ended. What is left is to be given again.
    Frame {
        /// The frame, header and data.
        frame: &'a [u8],
        /// How many bytes of the scrap were taken.
        taken: usize,
    },
}

/// What a collector knows between two calls, for a driver that keeps it beside the buffer; the default is a reset.
///
/// ```
/// use barkcushion::{FrameCollector, FrameState};
/// #[derive(Default)]
/// struct Connection {
///     buffer: Vec<u8>,
///     state: FrameState,
/// }
///
/// impl Connection {
///     fn received(&mut self, scrap: &[u8]) -> barkcushion::Result<usize> {
///         let mut count = 0;
///         let mut frames = FrameCollector::resume(&mut self.buffer, self.state);
///         let taken = frames.take_all(scrap, |_| count += 1);
///         self.state = frames.state();
///         taken.map(|()| count)
///     }
/// }
///
/// let mut connection = Connection { buffer: vec![0; 1024], ..Default::default() };
/// assert_eq!(connection.received(&[0; 23])?, 0);
/// assert_eq!(connection.received(&[0; 25])?, 2);
/// # Ok::<(), barkcushion::Error>(())
/// ```
#[derive(Clone, Copy, Debug, Default, PartialEq, Eq, Hash)]
pub struct FrameState {
    /// Bytes of a frame that have come; they lie at the front of the buffer.
    pub held: usize,
    /// The length of that frame once its header has come; 0 before.
    pub length: usize,
    /// Whether a frame was refused because it is too long for the buffer. Then every call is refused until a reset.
    pub refused: bool,
}

impl<'b> FrameCollector<'b> {
    /// A collector before a stream's first byte. Frames are handed out that fit into the buffer:
    /// [`MAX_FRAME`](crate::MAX_FRAME) bytes are room for every one, and fewer than
    /// [`FRAME_HEADER`](crate::FRAME_HEADER) for none.
    #[inline]
    pub fn new(buffer: &'b mut [u8]) -> Self {
        Self::resume(buffer, FrameState::default())
    }

    /// A collector that goes on from a state that [`state`](Self::state) gave. The buffer is the same as then, and has
    /// the same bytes.
    #[inline]
    pub fn resume(buffer: &'b mut [u8], state: FrameState) -> Self {
        FrameCollector { state: [state.held, state.length, state.refused.into()], buffer }
    }

    /// Takes a scrap up to a frame's end, or all of it where none comes. Only bytes that are taken are stored.
    ///
    /// Refused: `Outside` a state that no calls leave, which none but [`resume`](Self::resume) can give; `Room` a buffer
    /// of fewer than 24 bytes or than the state needs; `Room` a frame too long for the buffer, as soon as its header is
    /// whole, and from then on every call until a [`reset`](Self::reset). A refused call takes nothing.
    ///
    /// ```
    /// use barkcushion::{Error, FrameCollector, Taken};
    /// let mut buffer = [0; 24];
    /// let mut frames = FrameCollector::new(&mut buffer);
    /// let mut long = [0; 24];
    /// long[2] = 1; // a byte of data
    /// assert_eq!(frames.take(&long[..23])?, Taken::All);
    /// assert_eq!(frames.take(&long[23..]), Err(Error::Room));
    /// assert_eq!(frames.take(&[]), Err(Error::Room));
    /// frames.reset();
    /// assert_eq!(frames.take(&[0; 24])?, Taken::Frame { frame: &[0; 24], taken: 24 });
    /// # Ok::<(), Error>(())
    /// ```
    #[inline]
    pub fn take(&mut self, scrap: &[u8]) -> Result<Taken<'_>> {
        let mut frame = 0;
        let taken = answer(sys::take_scrap(&mut self.state, self.buffer, scrap, &mut frame))?;
        Ok(match frame {
            0 => Taken::All,
            _ => Taken::Frame { frame: &self.buffer[..frame], taken },
        })
    }

    /// Takes all of a scrap, and gives each frame that ends in it to `each`, first to last. Refused: as
    /// [`take`](Self::take); the frames before the refused one were given.
    #[inline]
    pub fn take_all(&mut self, mut scrap: &[u8], mut each: impl FnMut(&[u8])) -> Result<()> {
        while let Taken::Frame { frame, taken } = self.take(scrap)? {
            each(frame);
            scrap = &scrap[taken..];
        }
        Ok(())
    }

    /// Begins anew, for another stream: what came of a frame is forgotten.
    #[inline]
    pub fn reset(&mut self) {
        self.state = [0; 3];
    }

    /// What is known between two calls. At a stream's end `state().held` is 0 where it ended behind a frame.
    #[inline]
    pub fn state(&self) -> FrameState {
        let [held, length, refused] = self.state;
        FrameState { held, length, refused: refused != 0 }
    }
}
