//! Safe functions over the Endrusp library, and a plain model to compare it
//! with.
//!
//! [`run`] and [`run_into`] run the text program of document 01, with W-201 and
//! W-203 of document 02, in the linked library, the archive `libforeign.a`. They
//! need the feature `linked`, which is on by default. [`model`] has the same
//! rules, written a second time, plainly and apart from the library; it links
//! nothing.
//!
//! ```
//! # #[cfg(feature = "linked")]
//! # {
//! // start(2), then new(0, 7): done, and done with cell 0.
//! let answers = endrusp::run(b"0102000000000000\n0200000000000007\n");
//! assert_eq!(answers, b"0000000000\n0000000000\n");
//! # }
//! ```

pub mod generate;
pub mod model;
pub mod shrink;

#[cfg(feature = "linked")]
mod native;

#[cfg(feature = "linked")]
pub use linked::{RoomTooShort, room_for, run, run_into};

#[cfg(feature = "linked")]
mod linked {
    use super::native;
    use std::error::Error;
    use std::fmt;

    /// The longest input that is run, in bytes.
    const LONGEST_INPUT: usize = 65_536;

    /// The buffer lent to [`run_into`] is shorter than [`room_for`] the input.
    /// Nothing was run and nothing was written.
    #[derive(Clone, Copy, Debug, PartialEq, Eq)]
    pub struct RoomTooShort {
        /// The length of the buffer lent.
        pub lent: usize,
        /// The least length that is enough for the input.
        pub needed: usize,
    }

    impl fmt::Display for RoomTooShort {
        fn fmt(&self, f: &mut fmt::Formatter<'_>) -> fmt::Result {
            let RoomTooShort { lent, needed } = self;
            write!(f, "a buffer of {lent} bytes where {needed} are needed")
        }
    }

    impl Error for RoomTooShort {}

    /// How long a buffer [`run_into`] needs for an input of a length: 11 bytes
    /// for each byte of input, each of which may be an empty line, and 11 more.
    ///
    /// For a length that no buffer can answer to it is `usize::MAX`.
    pub const fn room_for(input_len: usize) -> usize {
        input_len.saturating_mul(11).saturating_add(11)
    }

    /// Runs a text and gives back what the text program prints for it.
    ///
    /// One line of 10 digits and a newline for each line of input. An empty
    /// input prints nothing. Of an input longer than 65,536 bytes nothing is
    /// run and the single line `ffffffffff` is printed.
    pub fn run(input: &[u8]) -> Vec<u8> {
        // One byte over the limit tells the library all there is to know of a
        // longer input, and keeps the buffer below a megabyte.
        let lent = &input[..input.len().min(LONGEST_INPUT + 1)];
        let mut out = vec![0; room_for(lent.len())];
        let written = run_into(lent, &mut out).expect("the buffer has room_for the input");
        out.truncate(written);
        out
    }

    /// Runs a text over a buffer that is lent. How many bytes of it
    /// were written: they are what [`run`] gives back.
    ///
    /// # Errors
    ///
    /// [`RoomTooShort`] where the buffer is shorter than [`room_for`] the
    /// input, even if the answer itself would fit. Then nothing is written.
    pub fn run_into(input: &[u8], out: &mut [u8]) -> Result<usize, RoomTooShort> {
        match native::run(input, out) {
            usize::MAX => Err(RoomTooShort { lent: out.len(), needed: room_for(input.len()) }),
            written => Ok(written),
        }
    }
}
