//! Whether it decides where the call that broke a triple was entered (document 02, slip 4): what rules answer
//! is another thing where a verdict carries some other position.

use crate::counting::deciding::{each_step, short_log};
use crate::counting::ends::Written;
use crate::implementation::machine::Kind;
use crate::implementation::run::Record;
use crate::implementation::state::{Common, Verdict};

/// What a verdict could carry in place of the entry position of the call that broke the triple.
#[derive(Clone, Copy, Debug, PartialEq, Eq)]
pub enum Mistake {
    /// The position of the exit.
    Exit,
    /// The entry position of the first open call.
    First,
    /// The position of the last entry.
    Last,
    /// The position before the call's entry.
    OneLess,
    /// The call's entry position, though no triple failed.
    WithoutTriple,
}

/// An event that has been taken, and what was before it.
#[derive(Clone, Copy)]
pub struct Taken<'a> {
    pub before: &'a Common,
    /// The position of the last entry.
    pub last: u32,
    pub event: &'a Record,
}

impl Taken<'_> {
    /// The entry position of the call that an exit leaves; 0 at an entry.
    fn entered(&self) -> u32 {
        let place = self.before.place_of(self.event.call);
        place.map_or(0, |place| self.before.calls[place].entry)
    }
}

impl Mistake {
    pub const ALL: [Mistake; 5] = [
        Mistake::Exit,
        Mistake::First,
        Mistake::Last,
        Mistake::OneLess,
        Mistake::WithoutTriple,
    ];

    /// What is shown where it is another position.
    fn label(self) -> &'static str {
        match self {
            Mistake::Exit => "the carried entry is not the exit's position",
            Mistake::First => "the carried entry is not the first open call's",
            Mistake::Last => "the carried entry is not the last entry's",
            Mistake::OneLess => "the carried entry is not one less",
            Mistake::WithoutTriple => "no entry is carried without a triple",
        }
    }

    /// What the verdict would carry behind the event.
    pub fn carried(self, taken: &Taken, verdict: &Verdict) -> u32 {
        let with_triple = match self {
            Mistake::Exit => verdict.position,
            Mistake::First => taken.before.calls[0].entry,
            Mistake::Last => taken.last,
            Mistake::OneLess => verdict.entry.saturating_sub(1),
            Mistake::WithoutTriple => return taken.entered(),
        };
        verdict.cause.triple().map_or(0, |_| with_triple)
    }

    /// Whether that would be another position.
    fn decides(self, taken: &Taken, verdict: &Verdict) -> bool {
        self.carried(taken, verdict) != verdict.entry
    }
}

// ---- Runs -------------------------------------------------------------------------------------

/// What decides in the run of a log: its last event alone can be found by a verdict.
pub fn of_log<R: Written>(rules: &R, log: &[u8]) -> Vec<String> {
    let (mut labels, mut last) = (Vec::new(), 0);
    each_step(rules, &short_log(rules, log), |state, event, answer| {
        let Ok(next) = answer else {
            return;
        };
        if let Some(verdict) = R::common(next).verdict {
            let before = R::common(state);
            let taken = Taken {
                before,
                last,
                event,
            };
            let deciding = Mistake::ALL.into_iter();
            let deciding = deciding.filter(|mistake| mistake.decides(&taken, &verdict));
            labels.extend(deciding.map(|mistake| named(rules.name(), mistake)));
        }
        if event.kind == Kind::Entry.byte() {
            last = R::common(next).position;
        }
    });
    labels
}

fn named(engine: &str, mistake: Mistake) -> String {
    format!("{engine} run: {}", mistake.label())
}

// ---- What must occur --------------------------------------------------------------------------

/// In generated runs, on a sheet and on a network of each version.
pub fn wanted() -> Vec<String> {
    let engines = ["sheet", "version 2", "version 3"].into_iter();
    let all = engines.flat_map(|engine| Mistake::ALL.map(|mistake| named(engine, mistake)));
    all.collect()
}
