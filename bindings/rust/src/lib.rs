//! Gatewren for Rust: Carlson's elliptic integrals [`rc`], [`rf`], [`rd`], [`rg`] and RJ as [`rj_positive`] and
//! [`rj_negative`], Bulirsch's [`cel`], the bench's [`profile`] of them, the [`leaf`] functions they stand on, the knee
//! [`bench`]'s swing time and step log, the packed [`WorkList`] of its controller and the [`Report`] over such lists,
//! [`check_table`] for other laboratories' tables, and [`decimal`] numbers as people write them. What is called is the proved library,
//! libgatewren.a; here is only its dress.
//!
//! ```
//! use gatewren::{rf, Answer, Refusal, Road};
//!
//! assert_eq!(rf(4.0, 4.0, 4.0), Answer::Value { value: 0.5, rounds: 0, road: Road::Closed, rescalings: 0 });
//! assert_eq!(rf(f64::NAN, -1.0, 1.0), Answer::Refused(Refusal::NanGiven));
//! ```

mod answer;
pub mod bench;
pub mod decimal;
mod entries;
pub mod leaf;
pub mod profile;
mod report;
mod symbols;
mod table;
mod work_list;

pub use answer::{Answer, Refusal, Road};
pub use entries::{cel, rc, rd, rf, rg, rj_negative, rj_positive};
pub use report::{BadLine, Report};
pub use table::{check_table, Checked, Claim};
pub use work_list::{Job, WorkList};

/// The version of this crate, and of the header and the Python package beside it.
pub const VERSION: &str = env!("CARGO_PKG_VERSION");
