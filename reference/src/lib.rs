//! A second implementation of document 01 (rule sheets, call logs, networks), and what makes,
//! compares and counts cases with it. `implementation` uses none of the other folders, `framing` it
//! alone, `making` these two, `counting` all three.

pub mod counting;
pub mod framing;
pub mod implementation;
pub mod making;
