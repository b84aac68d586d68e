//! The pages that `monitor_cases` and `network_cases` have for where a call was entered (document 02, slip
//! 4): calls left in every order and with any values, numbers that come again, positions up to the last, and
//! long logs. Chosen cases with answers worked out here, and random ones.

use crate::framing::script_frames::{Bench, Field, Frame, Own, Set};
use crate::implementation::machine::Kind;
use crate::implementation::run::{write_log, Record};
use crate::implementation::sheet::Sheet;
use crate::implementation::state::{Call, Cause};
use crate::making::cases::condition_cases::{number, op, E0, P0, TRUE};
use crate::making::draft::SheetDraft;
use crate::making::generate::{self, Manner, Shape, Size};
use crate::making::random::Random;
use crate::making::scripts::script::{self, entry, event, exit, Page, Script, Sort};
use crate::making::scripts::shared_cases::{broken, ran, Subject, LAST};
use crate::making::scripts::walk::{Leaves, Walk};
use crate::making::wide;
use std::collections::HashSet;

// ---- The sheet of the chosen cases ------------------------------------------------------------

/// The bad state.
const BAD: u8 = 1;
/// The triples that an entry arms, by unit, and the lowest that is broken where the value is another at exit.
const ARMED: [&[u8]; 3] = [&[0], &[1, 2, 3], &[]];
const BROKEN: [Option<u8>; 3] = [Some(0), Some(2), None];
/// Calls of this unit arm nothing and break nothing.
const PLAIN: u8 = 2;

/// States 0-1 (1 is bad), units 0-2, P 1. Triples 0, 2 and 3 ask that the value be the one at entry, triple 1
/// asks nothing. Exits with a value below 0 lead to the bad state, and so do such entries of unit 2.
fn returning() -> SheetDraft {
    let mut sheet = SheetDraft::new(2, 3, 1, &[]);
    sheet.front.bad = 1 << BAD;
    sheet.front.conditions = vec![TRUE.to_vec(), op(5, &[P0, E0]), op(4, &[P0, &number(0)])];
    sheet.front.actions = vec![Vec::new()];
    for unit in 0..3 {
        sheet.transition(0, BAD, (Kind::Exit, unit), 2, 0);
    }
    sheet.transition(0, BAD, (Kind::Entry, PLAIN), 2, 0);
    for (unit, postcondition) in [(0, 1), (1, 0), (1, 1), (1, 1)] {
        sheet.triple(0, unit, 0, postcondition);
    }
    sheet
}

/// What an event leaves behind the others.
fn left(walk: &Walk, event: &Record) -> Leaves {
    let (unit, value) = (usize::from(event.unit), event.values[0]);
    let own = walk.open.iter().find(|(call, _)| call.number == event.call);
    let (bad, triple, armed) = match own {
        Some((call, _)) => {
            let is_other = value != call.kept[0];
            (value < 0, BROKEN[unit].filter(|_| is_other), &[][..])
        }
        None => (event.unit == PLAIN && value < 0, None, ARMED[unit]),
    };
    let bad = bad.then_some(BAD);
    Leaves {
        armed: armed.to_vec(),
        ..Leaves::state(bad.unwrap_or(0), [0; 4], Cause::new(bad, triple))
    }
}

/// Lays out the sheet; its fresh state is the saved one.
fn start<R: Subject>(script: &mut Script<R>) -> Walk {
    script.sort = Sort::Entries;
    script.rules(&R::of_sheet(&returning()));
    script.fresh("accepted");
    script.save();
    Walk::default()
}

fn step<R: Subject>(script: &mut Script<R>, walk: &mut Walk, event: Record) {
    let leaves = left(walk, &event);
    walk.step(script, event, &leaves);
}

/// Offers an event, also as the last of a run.
fn ask<R: Subject>(script: &mut Script<R>, walk: &Walk, event: Record) {
    let leaves = left(walk, &event);
    walk.ask(script, event, &leaves);
}

/// The exit of an open call with a value that is so much more than at entry.
fn leaves(call: &Call, more: i32) -> Record {
    exit(call.unit, call.number, &[call.kept[0] + more])
}

/// A call begins and ends between others.
fn pass<R: Subject>(script: &mut Script<R>, walk: &mut Walk) {
    step(script, walk, entry(PLAIN, 1, &[0]));
    step(script, walk, exit(PLAIN, 1, &[0]));
}

/// The open calls, in order of entry.
fn open(walk: &Walk) -> Vec<Call> {
    walk.open.iter().map(|(call, _)| *call).collect()
}

// ---- Exits ------------------------------------------------------------------------------------

/// Four calls, entered at 1, 4, 5 and 8, left in every order. Before each exit that has not been asked about
/// in that order it is offered with another value, and with one below 0.
fn every_order<R: Subject>(script: &mut Script<R>) {
    let mut walk = start(script);
    step(script, &mut walk, entry(0, 7, &[10]));
    pass(script, &mut walk);
    step(script, &mut walk, entry(1, 8, &[20]));
    step(script, &mut walk, entry(0, 9, &[30]));
    pass(script, &mut walk);
    step(script, &mut walk, entry(1, 5, &[40]));
    script.save();
    let (four, mut asked) = (open(&walk), HashSet::new());
    for order in wide::orders() {
        let mut walk = walk.clone();
        script.restore();
        for (count, place) in (1..).zip(order) {
            let call = &four[place];
            if asked.insert(order[..count].to_vec()) {
                ask(script, &walk, leaves(call, 1));
                ask(script, &walk, exit(call.unit, call.number, &[-1]));
            }
            step(script, &mut walk, leaves(call, 0));
        }
    }
}

/// Of so many open calls each is left with another value. They were entered at 3, 6, 9 and so on.
fn among_many<R: Subject>(script: &mut Script<R>) {
    for count in [2, 3, 5, 16] {
        let mut walk = start(script);
        for number in 0..count {
            pass(script, &mut walk);
            let unit = (number % 2) as u8;
            step(script, &mut walk, entry(unit, 100 + number, &[5]));
        }
        for call in open(&walk) {
            ask(script, &walk, leaves(&call, 1));
        }
    }
}

/// Numbers that come again, for the same unit and for another: every open call is asked about after each
/// event.
fn numbers_again<R: Subject>(script: &mut Script<R>) {
    let mut walk = start(script);
    for event in [
        entry(0, 7, &[1]),
        exit(0, 7, &[1]),
        entry(0, 7, &[2]),
        entry(1, 8, &[3]),
        exit(0, 7, &[2]),
        entry(1, 7, &[4]),
        exit(1, 8, &[3]),
        exit(1, 7, &[4]),
        entry(0, 8, &[5]),
        entry(0, 7, &[6]),
        exit(0, 8, &[5]),
        entry(1, 8, &[7]),
        exit(0, 7, &[6]),
        entry(0, 7, &[8]),
    ] {
        step(script, &mut walk, event);
        for call in open(&walk) {
            ask(script, &walk, leaves(&call, 1));
        }
    }
}

/// Exits that lead to the bad state and break a triple, either or none, of calls with triples and without;
/// and an entry that leads there.
fn bad_states<R: Subject>(script: &mut Script<R>) {
    let mut walk = start(script);
    pass(script, &mut walk);
    for (unit, number, value) in [(0, 7, -5), (1, 8, 20), (PLAIN, 9, 3), (1, 10, -6)] {
        step(script, &mut walk, entry(unit, number, &[value]));
    }
    for call in open(&walk) {
        for value in [call.kept[0], 21, -5, -6, -7, i32::MIN] {
            ask(script, &walk, exit(call.unit, call.number, &[value]));
        }
    }
    for (unit, value) in [(PLAIN, -1), (PLAIN, 1), (0, -1), (1, 1)] {
        ask(script, &walk, entry(unit, 11, &[value]));
    }
}

// ---- Positions --------------------------------------------------------------------------------

/// Calls entered about positions at which one more byte is needed, and at the last ones.
fn about_positions<R: Subject>(script: &mut Script<R>) {
    for middle in [10, 256, 0x1_0000, 0x100_0000, 0x8000_0000, LAST - 1] {
        start(script);
        let mut walk = Walk::at(middle - 3);
        script.set(&[(Field::Position, middle - 3)]);
        for (unit, number) in [(0, 7), (1, 8), (0, 9), (1, 10)] {
            step(script, &mut walk, entry(unit, number, &[5]));
            if walk.reached() != LAST {
                leave_each(script, &walk);
            }
        }
    }
    // Four calls entered at the last four positions: nothing is taken any more.
    script.offer(&entry(0, 11, &[5]), "refused 12");
    script.offer(&exit(0, 7, &[6]), "refused 12");
    at_the_last(script);
}

/// Each open call left with its own value, with another, and with one below 0.
fn leave_each<R: Subject>(script: &mut Script<R>, walk: &Walk) {
    for call in open(walk) {
        for event in [
            leaves(&call, 0),
            leaves(&call, 1),
            exit(call.unit, call.number, &[-1]),
        ] {
            walk.offer(script, &event, &left(walk, &event));
        }
    }
}

/// Verdicts at the last position, of calls that were entered long before it, or right before.
fn at_the_last<R: Subject>(script: &mut Script<R>) {
    for between in [0, 1, 2, 0x7FFF_FFFF, 0x8000_0000, LAST - 2] {
        start(script);
        let mut walk = Walk::at(LAST - 2 - between);
        script.set(&[(Field::Position, LAST - 2 - between)]);
        step(script, &mut walk, entry(0, 7, &[5]));
        script.set(&[(Field::Position, LAST - 1)]);
        walk.before += between;
        leave_each(script, &walk);
    }
}

// ---- Long logs --------------------------------------------------------------------------------

/// One state, units 0-1, no variables. What triple 0, of unit 0, asks never holds.
fn failing() -> SheetDraft {
    let mut sheet = SheetDraft::new(1, 2, 0, &[]);
    sheet.front.conditions = vec![TRUE.to_vec(), op(1, &[TRUE])];
    sheet.triple(0, 0, 0, 1);
    sheet
}

/// Where the call is entered and where it is left.
const LONG: [(usize, usize); 17] = [
    (1, 2),
    (1, 10),
    (9, 10),
    (10, 11),
    (9, 100),
    (10, 100),
    (99, 100),
    (100, 101),
    (99, 256),
    (255, 256),
    (256, 257),
    (123, 321),
    (1, 1_000),
    (999, 1_000),
    (1_000, 1_001),
    (512, 1_025),
    (9_999, 10_000),
];

/// A call of unit 0 that begins and ends at these positions; between, another call begins and ends.
fn long_log(entered: usize, left: usize) -> Vec<Record> {
    let mut kinds = [0, 1].into_iter().cycle();
    let mut record = |at: usize| match at {
        _ if at == entered => entry(0, 7, &[]),
        _ if at == left => exit(0, 7, &[]),
        _ => event(kinds.next().unwrap_or(0), 1, 1, &[]),
    };
    (1..=left).map(&mut record).collect()
}

fn long_logs<R: Subject>(script: &mut Script<R>) {
    script.sort = Sort::Entries;
    script.rules(&R::of_sheet(&failing()));
    for (entered, left) in LONG {
        let failed = broken(Some(Cause::Triple(0)), entered as u32);
        let line = ran(0, 0, left as u32, failed);
        script.run_records(0, &long_log(entered, left), &line);
    }
}

// ---- Random cases -----------------------------------------------------------------------------

const SEED: u64 = 0x5741_5443_480D;
/// Generated sheets or networks.
const RULES: usize = 24;
/// The longest generated sheet, to keep the file small.
const LONGEST: usize = 130;
/// The most events of a run.
const EVENTS: usize = 16;
/// States near the one before the last event, and near the one behind it.
const SHAKEN: [usize; 2] = [6, 3];

/// How many events lead to a verdict, where a triple is broken by neither the first nor the last of the open
/// calls.
fn broken_between<R: Subject>(rules: &R, records: &[Record]) -> Option<usize> {
    let mut state = rules.fresh();
    for (count, record) in (1..).zip(records) {
        let next = rules.event(&state, &record.event()).ok()?;
        if let Some(verdict) = R::common(&next).verdict {
            let open = R::common(&state).open_calls();
            let ends = [open.first()?.entry, open.last()?.entry];
            let is_between = verdict.cause.triple().is_some() && !ends.contains(&verdict.entry);
            return is_between.then_some(count);
        }
        state = next;
    }
    None
}

/// Sheets or networks, with the events of such a run.
fn random_run<R: Subject>(random: &mut Random) -> (Vec<u8>, Vec<Record>) {
    loop {
        let draft = generate::sheet(random, Size::Small);
        if draft.bytes().len() > LONGEST {
            continue;
        }
        let manner = Manner {
            breaks: 0,
            entries: 5,
        };
        let mut records = generate::records(random, Shape::of(&draft), manner, EVENTS);
        let bytes = R::like(random, draft);
        let count = R::read(&bytes).map(|rules| broken_between(&rules, &records));
        if let Ok(Some(count)) = count {
            records.truncate(count);
            return (bytes, records);
        }
    }
}

fn random_cases<R: Subject>(script: &mut Script<R>) {
    let mut random = Random::new(SEED);
    script.sort = Sort::Entries;
    for _ in 0..RULES {
        let (bytes, records) = random_run::<R>(&mut random);
        script.rules(&bytes);
        script.fresh("accepted");
        let (last, before) = (&records[records.len() - 1], &records[..records.len() - 1]);
        for record in before {
            script.unknown(record, true);
        }
        shaken(script, &mut random, last, SHAKEN[0]);
        script.unknown(last, true);
        shaken(script, &mut random, last, SHAKEN[1]);
        let program = last.values.len() as u8;
        script.add(Frame::Run(write_log(program, &records)), None);
    }
}

/// The event offered to states that are the present one but for some entry positions; then that again.
fn shaken<R: Subject>(script: &mut Script<R>, random: &mut Random, event: &Record, count: usize) {
    script.save();
    for _ in 0..count {
        for _ in 0..random.between(1, 2) {
            let field = random_entry(random, &script.bench);
            script.set(&[field]);
        }
        if random.chance(1, 2) {
            script.set(&R::settling_checkers(&script.bench.state));
        }
        script.unknown(event, false);
        script.restore();
    }
}

/// An entry position of a call, of a checker or of the verdict, near those that there are.
fn random_entry<R: Subject>(random: &mut Random, bench: &Bench<R>) -> Set<R::Own> {
    let common = bench.common();
    let place = random.below(usize::from(common.open) + 1).min(15);
    let near = common.calls[place].entry;
    let value = random.pick(&[
        0,
        1,
        near,
        near + 1,
        near.saturating_sub(1),
        common.position,
        common.position + 1,
    ]);
    let checker = R::Own::from_bytes(R::Own::BEFORE, random.below(4) as u8, 0);
    let field = match (random.below(3), checker) {
        (0, Some(checker)) => Field::Own(checker),
        (1, _) if common.verdict.is_some() => Field::Carried,
        _ => Field::Entry(place as u8),
    };
    (field, value)
}

// ---- All --------------------------------------------------------------------------------------

/// The chosen cases alone.
pub fn chosen<R: Subject>() -> Page<R::Own> {
    Script::<R>::of(&[
        every_order,
        among_many,
        numbers_again,
        bad_states,
        about_positions,
    ])
}

/// All but the long logs.
pub fn page<R: Subject>() -> Page<R::Own> {
    let random = Script::<R>::of(&[random_cases]);
    chosen::<R>().into_iter().chain(random).collect()
}

pub fn long_page<R: Subject>() -> Page<R::Own> {
    Script::<R>::of(&[long_logs])
}

/// The runs of both pages as inputs of the program.
pub fn inputs() -> Vec<Vec<u8>> {
    [page::<Sheet>(), long_page::<Sheet>()]
        .into_iter()
        .flat_map(script::inputs)
        .collect()
}
