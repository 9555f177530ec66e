//! A safe wrapper over the C interface of `libclew_c.a`: one small 8-bit network over one picture.
//!
//! [`Joiner`] owns the buffers; [`raw`] has the calls over slices that the caller lends, and [`Sizes`] says how large
//! those have to be.
//!
//! ```no_run
//! use clew::Joiner;
//!
//! fn centre(network: Vec<u8>, picture: &[u8], third_row: &[u8]) -> Result<Vec<u8>, clew::Refusal> {
//!     let mut joiner = Joiner::load(network)?;
//!     joiner.picture_mut().expect("all stale after a load").copy_from_slice(picture);
//!     joiner.update()?; // everything, for the first picture
//!     joiner.change_rows(2, 1, third_row)?;
//!     let recomputed = joiner.update()?; // only what follows from the third row
//!     println!("{recomputed} bytes recomputed");
//!     joiner.reading()
//! }
//! ```
//!
//! The feature `archive` links the archive; the build script says where it is looked for.

mod joiner;
pub mod raw;
mod refusal;
mod sizes;

pub use joiner::Joiner;
pub use raw::State;
pub use refusal::Refusal;
pub use sizes::Sizes;
