//! The committed cases of `condition_cases`.

use crate::committed::{committed, lines};
use reference::framing::condition_frames::{read_frames, Frame};
use reference::framing::counted_lines::split_count;

/// Each with its line, without the count.
pub fn conditions() -> Vec<(Frame, String)> {
    let frames = read_frames(&committed("condition_cases", "stdin")).expect("frames");
    let lines = lines("condition_cases");
    assert_eq!(frames.len(), lines.len());
    let lines = lines.iter().map(|line| split_count(line).0);
    frames.into_iter().zip(lines).collect()
}
