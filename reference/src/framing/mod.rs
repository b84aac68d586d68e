//! How cases are written down and compared: frames and pages, files, dumps, the proved library.

pub mod bench_frames;
pub mod case_files;
pub mod condition_frames;
pub mod counted_lines;
pub mod dump;
pub mod monitor_frames;
pub mod network_frames;
pub mod pages;
pub mod program_frames;
#[cfg(feature = "embed")]
pub mod proved;
pub mod samples;
pub mod script_frames;
pub mod sheet_frames;
pub mod translation_frames;
