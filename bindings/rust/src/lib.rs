//! PGS (Blu-ray bitmap subtitle) streams, read and written by a library whose every function is proved.
//!
//! A call is done whole or refused with a [`Refusal`], whose number docs/REFUSALS.md explains; a refused call changes
//! nothing, save [`lent::render`] refused by 24 to 33. The functions here bring the memory for what they answer. Those of [`lent`] are the library's own, one for
//! each function of include/pgs.h: the caller lends the lists and buffers, and nothing is allocated.
//!
//! ```
//! let stream = b"PG\x00\x01\x5F\x90\0\0\0\0\x16\0\x0B\x07\x80\x04\x38\x10\0\x01\x80\0\x05\0PG\x00\x01\x5F\x90\0\0\0\0\x80\0\0";
//! let sets = pgs::parse_display_sets(stream)?;
//! assert_eq!((sets[0].place, sets[0].end, sets[0].pts), (0, 37, 90_000));
//! assert_eq!(pgs::parse_display_sets(&stream[..24]), Err(pgs::Refusal::UnterminatedSet));
//! # Ok::<(), pgs::Refusal>(())
//! ```

mod c;
pub mod lent;
mod owned;
mod records;
mod refusal;

pub use lent::{Times, Writes};
pub use owned::*;
pub use records::*;
pub use refusal::Refusal;

/// What a call answers, or why it was refused.
pub type Result<T> = std::result::Result<T, Refusal>;
