//! What the frames of `network_cases` have of their own: the checkers.

use crate::framing::script_frames::{put, Kept, Own, Rules};
use crate::implementation::network::Network;
use crate::implementation::state::{Common, NetworkState};

/// How many checkers live, and the checker at a place.
#[derive(Clone, Copy, Debug, PartialEq, Eq)]
pub enum Checkers {
    Living,
    Call(u8),
    Template(u8),
    /// The entry position of the checker at a place.
    Entry(u8),
}

impl Own for Checkers {
    type State = NetworkState;
    const BEFORE: u8 = 3;
    const BEHIND: u8 = 1;
    const CHECKERS: bool = true;

    fn bytes(self) -> [u8; 3] {
        match self {
            Checkers::Living => [0, 0, 0],
            Checkers::Call(i) => [1, i, 0],
            Checkers::Template(i) => [2, i, 0],
            Checkers::Entry(i) => [3, i, 0],
        }
    }

    fn from_bytes(code: u8, i: u8, _: u8) -> Option<Checkers> {
        match code {
            0 => Some(Checkers::Living),
            1 => Some(Checkers::Call(i)),
            2 => Some(Checkers::Template(i)),
            3 => Some(Checkers::Entry(i)),
            _ => None,
        }
    }

    fn set(self, state: &mut NetworkState, value: u32) {
        match self {
            Checkers::Living => state.living = value as u8,
            Checkers::Call(i) => state.checkers[usize::from(i)].call = value as u16,
            Checkers::Template(i) => state.checkers[usize::from(i)].template = value as u8,
            Checkers::Entry(i) => state.checkers[usize::from(i)].entry = value,
        }
    }
}

impl Rules for Network {
    type Own = Checkers;

    fn common_mut(state: &mut NetworkState) -> &mut Common {
        &mut state.common
    }

    fn causes(&self) -> usize {
        self.templates.len()
    }

    fn put_at_call(_: &mut String, _: &NetworkState, _: usize) {}

    fn put_behind_calls(text: &mut String, state: &NetworkState) {
        put(text, "l", state.living.into());
        for (i, checker) in state.checkers.iter().enumerate() {
            put(text, &format!("c{i}"), checker.call.into());
            put(text, &format!("t{i}"), checker.template.into());
            put(text, &format!("f{i}"), checker.entry.into());
        }
    }

    fn entry_values(state: &NetworkState, place: u8) -> Option<Kept> {
        Some(state.entry_values(place.into()))
    }
}
