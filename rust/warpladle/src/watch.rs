//! A product that arrives in parts and is not kept.
use crate::answers::ask;
use crate::{Refused, Result};
use std::io;
use std::mem::MaybeUninit;
use warpladle_sys as sys;

/// What has come of a product that is not refused.
#[derive(Clone, Copy, Debug, PartialEq, Eq, Default)]
pub struct Waiting {
    /// How many whole records.
    pub records: u64,
    /// Where the last of them ends.
    pub end: u64,
}

/// A watch over an arrival: some four kilobytes, however long the product. It is fed the parts as they come, or a download is copied into it with
/// [`std::io::copy`], which ends with the refusal.
///
/// A product of more than 64 pointers is refused with `TooManyPointers`, which is a limit of the watch; [`crate::arrival`] has none.
#[derive(Clone)]
pub struct Watch {
    state: Box<sys::Watch>,
    answer: Result<Waiting>,
}

impl Default for Watch {
    fn default() -> Watch {
        Watch::new()
    }
}

impl Watch {
    /// It was fed nothing.
    pub fn new() -> Watch {
        let mut state = MaybeUninit::uninit();
        // SAFETY: the function writes all of the watch.
        let state = unsafe {
            sys::wl_watch_new(state.as_mut_ptr());
            state.assume_init()
        };
        Watch { state: Box::new(state), answer: Ok(Waiting::default()) }
    }

    /// The next part: what [`crate::arrival`] says of all that was fed. A refusal stays.
    pub fn feed(&mut self, part: &[u8]) -> Result<Waiting> {
        // SAFETY: as `ask` says.
        let answer =
            ask::<4>(|answer| unsafe { sys::wl_watch_feed(&mut *self.state, part.as_ptr(), part.len(), answer) });
        self.answer = answer.map(|answer| Waiting { records: answer[2], end: answer[1] });
        self.answer
    }

    /// The last answer.
    pub fn answer(&self) -> Result<Waiting> {
        self.answer
    }
}

/// A part that shows a refusal, and each after it, is an error of kind `InvalidData` that carries the [`Refused`].
impl io::Write for Watch {
    fn write(&mut self, part: &[u8]) -> io::Result<usize> {
        let answer = self.feed(part);
        answer.map(|_| part.len()).map_err(|refused: Refused| io::Error::new(io::ErrorKind::InvalidData, refused))
    }

    fn flush(&mut self) -> io::Result<()> {
        Ok(())
    }
}
