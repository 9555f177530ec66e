//! Document 01 written a second time, from the documents alone.
//!
//! Everything here is written to be seen to be right, not to be fast: numbers are 128 bits wide, every window is
//! gathered as pairs of an input byte and a weight, each total is worked twice where its two forms must agree, each
//! rescaling is worked by two formulas, and reach is found by testing each row of each window. What follows from the
//! document besides (bounds on totals, the distance of a rescaled number from the exact product) is asserted where it
//! arises.
//!
//! * [`mod@decode`]: the network file, stage by stage
//! * [`Network`] and its parts: what a file says
//! * [`numbers`]: totals, rescaling, finishing
//! * [`run`]: one row of a layer, and the fresh run
//! * [`Band`], [`State`] and growth
//! * the calls: [`load`], [`change_rows`], [`replace_layer`], [`update`], [`read`], and [`sizes()`]
//! * [`listing`]: what the listing program writes

mod bands;
mod calls;
pub mod decode;
mod listing;
mod network;
pub mod numbers;
pub mod run;
mod sizes;

pub use bands::{
    grown, reached_rows, state_from_numbers, state_is_sound, state_to_numbers, Band, State, ALL_EMPTY, ALL_STALE, BANDS,
};
pub use calls::{change_rows, load, read, replace_layer, update, Outcome};
pub use decode::decode;
pub use listing::listing;
pub use network::{Add, Conv, Finish, Full, Kind, Layer, Network, Scaling, Shape};
pub use run::fresh_run;
pub use sizes::{sizes, Sizes};
