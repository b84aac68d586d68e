//! The cases of the programs whose frames stand each on its own.

pub mod bench_cases;
pub mod condition_cases;
pub mod condition_counts;
pub(crate) mod condition_ends;
mod precondition_roles;
pub mod program_cases;
pub mod rival_sheets;
pub mod sheet_cases;
pub mod translation_cases;
