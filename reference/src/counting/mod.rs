//! What decides in a case, and how often each thing occurs in many.

pub mod counts;
pub mod deciding;
pub mod ends;
pub mod entries;
pub mod preconditions;
pub mod tally;
