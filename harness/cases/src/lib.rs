//! Cases for comparing libtotals.a with the original `Layout::reduce` and `Layout::dot`, and the comparison itself. The original is handed in as
//! an [`Oracle`]: this crate has no part of it.

mod biases;
mod case;
mod check;
mod draw;
mod entries;
mod exhaustive;
mod extended;
mod habits;
mod leaning;
mod lists;
mod refusals;
mod refused;
mod rng;
mod run;
mod shape;
mod shrink;
mod table;
mod table_check;
mod tables;
mod tally;
mod tens;
mod terms;

pub use case::{Case, Format, Operation};
pub use check::{Answer, Oracle};
pub use run::{Options, run};
