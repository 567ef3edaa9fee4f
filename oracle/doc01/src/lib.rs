//! The crate's five Carlson files and `cel.rs` over document 01's leaves, and what the documents say of a call: value, count,
//! road and rescalings, or a number for no. The bodies carry hooks (numeric_literals_hooked); `judge` asks the entries and reads
//! the hooks.

include!("../../frame.rs");

mod hooks;
mod judge;
mod limits;
mod natural;
mod numbers;
mod polyeval;
mod power;
mod ruled;
pub mod rules;
mod start;

use polyeval::polyeval;

pub use hooks::{with, Road, Theirs};
pub use judge::{cel, cel_as_written, cel_passes, of_unfinished_cel, rc, rd, rf, rg, rj, Answer, Judged, Way};
pub use numbers::refusal;
pub use power::neg_three_halves;
