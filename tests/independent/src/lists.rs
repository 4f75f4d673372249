//! Lists for the tests, the same in each run.
//!
//! - `edges`: the paper's edges and more, with their outputs.
//! - `malformed`: rows that do not read, and rows one byte away from a good one.
//! - `drawn`: random lists, whole or damaged.
//! - `ranked`: K rows in every place, and lists of one depot under two numberings.

mod drawn;
mod edges;
mod malformed;
mod ranked;

pub use drawn::{long_list, random_list};
pub use edges::{edges, Case};
pub use malformed::{malformed_lists, malformed_n_rows, malformed_rows, near_lists, padded_rows};
pub use ranked::{late_ranks, renumbered, Renumbered};

/// Bytes that damage a list more cunningly than any bytes do.
const LIKELY_BYTES: &[u8] = b"\n \t\r\0+-DKN0123456789/:,x\x80\xff";
