//! Random cases for `monitor_cases` and `network_cases`: runs, states set at random, logs.

use crate::framing::script_frames::{Bench, Field, Frame, Own, Rules, Set};
use crate::implementation::engine::Engine;
use crate::implementation::machine::Header;
use crate::implementation::run::{write_log, Record};
use crate::implementation::state::Cause;
use crate::making::generate::{self, Manner, Shape};
use crate::making::random::Random;
use crate::making::scripts::script::{entry, offer, Row, Script, Sort};
use crate::making::scripts::settling::settling;
use crate::making::scripts::shared_cases::{Near, Subject, LAST};

/// The most events of a run.
const EVENTS: usize = 10;
/// How often a run is drawn again to end, or a state to be, as wished.
const TRIES: usize = 60;
const FOREIGN: usize = 3;
const SHAKEN: usize = 7;
/// After one event in this many, values at entry are asked for.
const ASKED: usize = 4;

/// An event for the calls that are open: mostly one that is taken.
fn random_event<R: Rules>(random: &mut Random, rules: &R, bench: &Bench<R>) -> Record {
    let header = &rules.machine().header;
    let calls = bench.common().open_calls();
    let open = calls.get(random.below(calls.len()));
    let units = usize::from(header.units);
    let mut event = entry(
        random.below(units) as u8,
        random.below(30) as u16,
        &random.words(header.program.into()),
    );
    if let (Some(call), true) = (open, random.chance(1, 2)) {
        (event.kind, event.unit, event.call) = (1, call.unit, call.number);
    }
    match random.below(24) {
        0 => event.kind = random.pick(&[1, 2, 255]),
        1 => event.unit = random.below(units + 1) as u8,
        2 => event.values.push(0),
        3 => event.call = open.map_or(0, |call| call.number),
        _ => {}
    }
    event
}

/// Events from the present state on, to one past a verdict; the verdict's cause, if there is one.
fn random_run<R: Rules + Clone>(
    random: &mut Random,
    rules: &R,
    start: &Bench<R>,
) -> (Vec<Record>, Option<Cause>) {
    let mut bench = start.clone();
    let mut events = Vec::new();
    while events.len() < EVENTS {
        let judged = bench.common().verdict.is_some();
        events.push(random_event(random, rules, &bench));
        if judged {
            break;
        }
        bench.carry_out(&offer(&events[events.len() - 1], true));
    }
    (events, bench.common().verdict.map(|v| v.cause))
}

/// A run from the fresh state, drawn again until its verdict's cause is as wished.
fn run_to<R: Rules + Clone>(
    script: &mut Script<R>,
    random: &mut Random,
    rules: &R,
    wish: fn(Option<Cause>) -> bool,
) {
    script.sort = Sort::Reached;
    script.fresh("accepted");
    let (mut events, mut cause) = random_run(random, rules, &script.bench);
    for _ in 0..TRIES {
        if wish(cause) {
            break;
        }
        (events, cause) = random_run(random, rules, &script.bench);
    }
    for event in events {
        script.unknown(&event, true);
        ask_any(script, random);
    }
}

/// Sometimes the values at entry of a checker, where states have checkers.
pub fn ask_any<R: Rules>(script: &mut Script<R>, random: &mut Random) {
    if R::Own::CHECKERS && random.chance(1, ASKED) {
        let place = random.pick(&[0, 0, 0, 1, 1, 2, 3, 5, 63, 64]);
        script.add(Frame::EntryValues(place), None);
    }
}

/// A field and a value, which may fit the state or not.
fn random_field<R: Subject>(random: &mut Random, rules: &R, bench: &Bench<R>) -> Set<R::Own> {
    let header = &rules.machine().header;
    let common = bench.common();
    let place = random.below(usize::from(common.open) + 2).min(15) as u8;
    let number = random.below(4) as u8;
    let state = random.below(usize::from(header.states) + 1) as u8;
    let cause = random.below(rules.causes() + 1) as u8;
    let position = if random.chance(1, 8) {
        1
    } else {
        common.position
    };
    let near = Near {
        place,
        number,
        cause,
    };
    let own = usize::from(R::Own::BEFORE);
    match random.below(11 + own) {
        0 => (Field::Main, state.into()),
        1 => (Field::Variable(number), random.word() as u32),
        2 => (Field::Open, u32::from(common.open) + random.below(2) as u32),
        3 => (Field::Number(place), random.below(30) as u32),
        4 => (Field::Unit(place), random_unit(random, header)),
        5 => {
            let variable = random.below(8) as u8;
            (Field::Kept(place, variable), random.word() as u32)
        }
        choice if choice < 6 + own => R::own_field(random, choice - 6, bench, near),
        choice => match choice - own {
            6 => (Field::Position, random.pick(&[0, 9, LAST - 1, LAST])),
            7 => (Field::NoVerdict, 0),
            8 => (Field::BadState(state), position),
            9 => (Field::Failed(cause), position),
            _ => (Field::Both(state, cause), position),
        },
    }
}

fn random_unit(random: &mut Random, header: &Header) -> u32 {
    random.below(usize::from(header.units) + 1) as u32
}

/// One to three fields, entry positions that go with them, and whether the state is sound with all.
fn random_fields<R: Subject>(
    random: &mut Random,
    rules: &R,
    start: &Bench<R>,
) -> (Vec<Set<R::Own>>, bool) {
    let mut bench = start.clone();
    let mut fields = Vec::new();
    for _ in 0..random.pick(&[1, 1, 2, 3]) {
        let (field, value) = random_field(random, rules, &bench);
        bench.carry_out(&Frame::Set(field, value));
        fields.push((field, value));
    }
    for (field, value) in settling(&bench) {
        bench.carry_out(&Frame::Set(field, value));
        fields.push((field, value));
    }
    (fields, rules.is_sound(&bench.state))
}

/// States near the one that the runs ended in. Every other one is drawn again until it is sound.
fn shaken<R: Subject>(script: &mut Script<R>, random: &mut Random, rules: &R) {
    script.sort = Sort::Shaken;
    script.save();
    for number in 0..SHAKEN {
        script.restore();
        let (mut fields, mut sound) = random_fields(random, rules, &script.bench);
        for _ in 0..TRIES {
            if sound || number % 2 == 0 {
                break;
            }
            (fields, sound) = random_fields(random, rules, &script.bench);
        }
        script.set(&fields);
        ask_any(script, random);
        let event = random_event(random, rules, &script.bench);
        script.unknown(&event, false);
    }
}

fn random_log(random: &mut Random, header: &Header) -> Vec<u8> {
    let shape = Shape {
        units: header.units,
        program: header.program,
    };
    let count = random.between(1, 8);
    let manner = Manner::any(random);
    let log = write_log(
        shape.program,
        &generate::records(random, shape, manner, count),
    );
    if random.chance(1, 6) {
        return generate::break_log(random, log);
    }
    log
}

/// A log as it comes, and the events of the last run that were taken.
fn random_logs<R: Rules>(script: &mut Script<R>, random: &mut Random, header: &Header) {
    script.sort = Sort::Log;
    let taken = taken_events(&script.rows);
    script.add(Frame::Run(random_log(random, header)), None);
    script.add(Frame::Run(write_log(header.program, &taken)), None);
}

/// The events that have been taken over since the last fresh state, in order.
fn taken_events<O>(rows: &[Row<O>]) -> Vec<Record> {
    let mut events = Vec::new();
    for row in rows {
        let taken = row
            .line
            .as_ref()
            .is_some_and(|line| line.starts_with("taken"));
        match &row.frame {
            Frame::Fresh => events.clear(),
            Frame::Offer { event, keep: true } if taken => events.push(event.clone()),
            _ => {}
        }
    }
    events
}

/// The state that the runs before ended in, two runs, their logs, and states near the last.
pub fn on_rules<R: Subject>(script: &mut Script<R>, random: &mut Random, bytes: &[u8]) {
    let Ok(rules) = <R as Engine>::read(bytes) else {
        return; // Does not happen: drafts are made to be accepted.
    };
    script.restore();
    script.rules(bytes);
    script.sort = Sort::Foreign;
    for _ in 0..FOREIGN {
        let event = random_event(random, &rules, &script.bench);
        script.unknown(&event, false);
    }
    // A bad state alone is the likeliest end: ask for two causes, then for a triple or no verdict.
    run_to(script, random, &rules, |cause| {
        matches!(cause, Some(Cause::Both { .. }))
    });
    random_logs(script, random, &rules.machine().header);
    run_to(script, random, &rules, |cause| {
        !matches!(cause, Some(Cause::State(_)))
    });
    shaken(script, random, &rules);
}
