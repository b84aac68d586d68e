//! Reading, engines, translation, program, conditions for the bench: written from the papers alone, but for what README.md names.

pub mod bench_conditions;
pub mod engine;
pub mod expr;
pub mod machine;
pub mod network;
pub mod program;
pub mod refusal;
pub mod run;
pub mod sheet;
pub mod state;
pub mod translate;
