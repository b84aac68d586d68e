//! What the pages of `monitor_cases` and `network_cases` for counts share (document 02, slip 3). The same rules count
//! differently in each form: a network has transitions of its own, and version 3 joins conditions.

use crate::framing::script_frames::Rules;
use crate::implementation::run::Record;
use crate::making::cases::condition_cases::{right_to, TRUE};
use crate::making::draft::SheetDraft;
use crate::making::scripts::card_cases::in_version_3;
use crate::making::scripts::script::{Page, Script, Sort};
use crate::making::scripts::shared_cases::Subject;

/// On what the events are counted.
#[derive(Clone, Copy, Debug, PartialEq, Eq)]
pub enum Form {
    Sheet,
    Version2,
    Version3,
}

impl Form {
    /// The bytes of a sheet, or of its network; in version 3 conditions are joined where they are not too long.
    pub fn of_sheet<R: Subject>(self, draft: &SheetDraft) -> Vec<u8> {
        let rules = R::of_sheet(draft);
        match self {
            Form::Version3 => in_version_3(&rules),
            Form::Sheet | Form::Version2 => rules,
        }
    }

    /// The count of conditions that are tried one after the other, by their own counts; none but the last holds.
    /// In version 3 `and`, `not` and its own stand for each earlier one in front of each.
    pub fn tried(self, own: &[u64]) -> u64 {
        let in_front = |place: usize| match self {
            Form::Version3 => own[..place].iter().map(|count| 2 + count).sum(),
            Form::Sheet | Form::Version2 => 0,
        };
        let places = own.iter().enumerate();
        places.map(|(place, count)| in_front(place) + count).sum()
    }

    /// The same at an entry, of the transitions of a sheet: where none of them is taken and there are triples, a
    /// network tries the one that was added, whose condition is `true`.
    pub fn tried_at_entry(self, own: &[u64], is_taken: bool, triples: usize) -> u64 {
        match self {
            Form::Version2 | Form::Version3 if !is_taken && triples > 0 => {
                self.tried(&[own, &[1]].concat())
            }
            _ => self.tried(own),
        }
    }
}

/// The rows that these parts make in a form, one after the other.
pub(crate) fn rows<R: Subject>(form: Form, parts: &[fn(&mut Script<R>, Form)]) -> Page<R::Own> {
    let mut script = Script::default();
    for part in parts {
        part(&mut script, form);
    }
    script.rows
}

/// A condition behind so many times `and true`: each counts 2.
pub(crate) fn behind(times: usize, condition: &[u8]) -> Vec<u8> {
    right_to(2, times, TRUE, condition)
}

/// Lays out rules; their fresh state is the saved one.
pub(crate) fn start<R: Rules>(script: &mut Script<R>, rules: &[u8]) {
    script.sort = Sort::Counts;
    script.rules(rules);
    script.fresh("accepted");
    script.save();
}

/// Offers an event that is taken with this count.
pub(crate) fn offer<R: Rules>(script: &mut Script<R>, event: &Record, count: u64) {
    script.offer(event, "taken");
    script.counts(count);
}

/// The same, and goes on from the state that comes back.
pub(crate) fn step<R: Rules>(script: &mut Script<R>, event: &Record, count: u64) {
    script.step(event, "taken");
    script.counts(count);
}
