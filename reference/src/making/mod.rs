//! What makes cases: random sheets, networks and logs, the benchmark's inputs, the case programs' files.

pub mod cases;
pub mod draft;
pub mod generate;
pub mod programs;
pub mod random;
pub mod random_counts;
pub mod random_ends;
pub mod random_expr;
pub mod scripts;
pub mod wide;
#[cfg(feature = "embed")]
pub mod workloads;
