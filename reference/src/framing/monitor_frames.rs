//! What the frames of `monitor_cases` have of their own: the triples that are armed.

use crate::framing::script_frames::{put, Kept, Own, Rules};
use crate::implementation::sheet::Sheet;
use crate::implementation::state::{Common, SheetState};

/// What is armed for the call at a place.
#[derive(Clone, Copy, Debug, PartialEq, Eq)]
pub enum Arms {
    Count(u8),
    Triple(u8, u8),
}

impl Own for Arms {
    type State = SheetState;
    const BEFORE: u8 = 2;
    const BEHIND: u8 = 0;
    const CHECKERS: bool = false;

    fn bytes(self) -> [u8; 3] {
        match self {
            Arms::Count(i) => [0, i, 0],
            Arms::Triple(i, j) => [1, i, j],
        }
    }

    fn from_bytes(code: u8, i: u8, j: u8) -> Option<Arms> {
        match code {
            0 => Some(Arms::Count(i)),
            1 => Some(Arms::Triple(i, j)),
            _ => None,
        }
    }

    fn set(self, state: &mut SheetState, value: u32) {
        match self {
            Arms::Count(i) => state.armed[usize::from(i)].count = value as u8,
            Arms::Triple(i, j) => {
                state.armed[usize::from(i)].triples[usize::from(j)] = value as u8;
            }
        }
    }
}

impl Rules for Sheet {
    type Own = Arms;

    fn common_mut(state: &mut SheetState) -> &mut Common {
        &mut state.common
    }

    fn causes(&self) -> usize {
        self.triples.len()
    }

    fn put_at_call(text: &mut String, state: &SheetState, place: usize) {
        let armed = &state.armed[place];
        put(text, &format!("a{place}"), armed.count.into());
        for (j, triple) in armed.triples.iter().enumerate() {
            put(text, &format!("t{place}.{j}"), (*triple).into());
        }
    }

    fn put_behind_calls(_: &mut String, _: &SheetState) {}

    fn entry_values(_: &SheetState, _: u8) -> Option<Kept> {
        None
    }
}
