//! Entry positions for states of `monitor_cases` and `network_cases` that are set field by field, so that
//! what else is set decides whether they are sound.

use crate::framing::script_frames::{Bench, Field, Frame, Rules, Set};
use crate::implementation::state::{Call, Cause, Common, Verdict};
use crate::making::scripts::shared_cases::Subject;

/// What is to be set of a state behind what has been set.
pub type Settling<R> = fn(&Bench<R>) -> Vec<Set<<R as Rules>::Own>>;

/// The entry positions that fit a state which has been set otherwise, so that they break no clause of
/// soundness: those of the calls rise from 1 to the position, and a verdict's is 1 where a triple failed.
/// The position is raised where they have no room, with the verdict's if that is the same.
pub fn settling<R: Subject>(bench: &Bench<R>) -> Vec<Set<R::Own>> {
    let mut bench = bench.clone();
    let mut all = Vec::new();
    let steps: [Settling<R>; 4] = [
        |bench| settling_position(bench.common()),
        |bench| settling_calls(bench.common()),
        |bench| settling_verdict(bench.common()),
        |bench| R::settling_checkers(&bench.state),
    ];
    for step in steps {
        for (field, value) in step(&bench) {
            bench.carry_out(&Frame::Set(field, value));
            all.push((field, value));
        }
    }
    all
}

fn settling_position<O>(common: &Common) -> Vec<Set<O>> {
    let failed = common.verdict.and_then(|v| v.cause.triple());
    let least = (common.open_calls().len() as u32).max(failed.map_or(0, |_| 2));
    if common.position >= least {
        return Vec::new();
    }
    match common.verdict {
        Some(verdict) if verdict.position == common.position => {
            vec![(Field::Position, least), (judged_by(verdict.cause), least)]
        }
        // It was another position than the verdict's, and stays so.
        Some(verdict) if verdict.position == least => vec![(Field::Position, least + 1)],
        _ => vec![(Field::Position, least)],
    }
}

/// The field that sets a verdict with this cause.
fn judged_by<O>(cause: Cause) -> Field<O> {
    match cause {
        Cause::State(state) => Field::BadState(state),
        Cause::Triple(triple) => Field::Failed(triple),
        Cause::Both { state, triple } => Field::Both(state, triple),
    }
}

fn settling_calls<O>(common: &Common) -> Vec<Set<O>> {
    let open = common.open_calls();
    let fits = |call: &Call| (1..=common.position).contains(&call.entry);
    let rise = open.windows(2).all(|two| two[0].entry < two[1].entry);
    let stay = rise && open.iter().all(fits);
    let mut all = Vec::new();
    for (place, call) in common.calls.iter().enumerate() {
        let free = Call { entry: 0, ..*call } == Call::default();
        let entry = match place < open.len() {
            true if stay => call.entry,
            true => place as u32 + 1,
            false if free => 0,
            false => call.entry,
        };
        if entry != call.entry {
            all.push((Field::Entry(place as u8), entry));
        }
    }
    all
}

fn settling_verdict<O>(common: &Common) -> Vec<Set<O>> {
    let fits = |verdict: &Verdict| match verdict.cause.triple() {
        Some(_) => (1..verdict.position).contains(&verdict.entry),
        None => true,
    };
    match common.verdict {
        Some(verdict) if !fits(&verdict) => vec![(Field::Carried, 1)],
        _ => Vec::new(),
    }
}
