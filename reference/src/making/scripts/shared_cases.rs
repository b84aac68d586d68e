//! The cases that `monitor_cases` and `network_cases` share: on sheets in the one, on their networks
//! in the other.

use crate::framing::script_frames::{state_text, Bench, Field, Rules, Set};
use crate::implementation::run::{write_log, Record};
use crate::implementation::state::{Call, Cause, Verdict};
use crate::making::cases::sheet_cases::LOG_A;
use crate::making::draft::SheetDraft;
use crate::making::random::Random;
use crate::making::scripts::script::{entry, event, exit, refused, Script, Sort};
use crate::making::scripts::settling::{settling, Settling};
use crate::making::scripts::shared_clauses::Clause;

/// What these cases have to be told of sheets or networks.
pub trait Subject: Rules + Clone {
    /// The lines behind `taken` of the two entries of `base_state`.
    const BASE_LINES: [&'static str; 2];
    /// That of the entry of `edge_state`.
    const EDGE_LINE: &'static str;
    /// Ways to break soundness that leave the rest of a state as it is.
    const BREAKS: [Set<Self::Own>; 5];
    /// The clauses on entry positions that only these states have, in the state of `entry_clauses`.
    const ENTRY_CLAUSES: &'static [Clause<Self::Own>];

    /// The bytes of a sheet, or those of its network.
    fn of_sheet(draft: &SheetDraft) -> Vec<u8>;
    /// The bytes of a random sheet, or of a network like it: its own, or one that no sheet need give.
    fn like(random: &mut Random, draft: SheetDraft) -> Vec<u8>;
    /// One triple more is armed for the call at a place, the last so far.
    fn arm(state: &mut Self::State, place: usize, triple: u8);
    /// The entry positions that checkers must be given: their calls', or none where there is no checker.
    fn settling_checkers(state: &Self::State) -> Vec<Set<Self::Own>>;
    /// One of the fields that only these states have, by its number, near what the state holds.
    fn own_field(
        random: &mut Random,
        number: usize,
        bench: &Bench<Self>,
        near: Near,
    ) -> Set<Self::Own>;
}

/// What a random field may be set at or to.
#[derive(Clone, Copy)]
pub struct Near {
    /// A call's place, not far behind the open ones.
    pub place: u8,
    /// From 0 to 3.
    pub number: u8,
    /// A triple or template, or one that is not there.
    pub cause: u8,
}

// ---- Sheets to start from ---------------------------------------------------------------------

/// States 0-3 (2 and 3 are bad), units 0-1, P 2, V 2. Conditions: 0 true, 1 on a value at entry,
/// 2 on program values, 3 on a monitor variable. Actions: 0 empty, 1 counts. Triples 0, 1, 3 and 5
/// are of state 0 and unit 0; 2 and 6 of state 1 and unit 0; 4 of 0 and 1; 7 of 1 and 1.
pub fn base() -> SheetDraft {
    let mut sheet = SheetDraft::new(4, 2, 2, &[5, -1]);
    sheet.front.bad = 0b1100;
    sheet.front.conditions = vec![
        vec![0],
        vec![5, 17, 1, 19, 0],
        vec![4, 17, 0, 17, 1],
        vec![4, 18, 0, 16, 0, 0, 0, 8],
    ];
    sheet.front.actions = vec![vec![], vec![0, 20, 18, 0, 16, 0, 0, 0, 1]];
    sheet.transitions = vec![
        [0, 0, 1, 3, 1, 0],
        [0, 1, 0, 2, 1, 1],
        [0, 1, 1, 2, 0, 2],
        [1, 0, 0, 0, 1, 0],
        [1, 1, 0, 2, 0, 3],
    ];
    sheet.triples = vec![
        [0, 0, 0, 1],
        [0, 0, 2, 2],
        [1, 0, 0, 1],
        [0, 0, 0, 0],
        [0, 1, 0, 1],
        [0, 0, 2, 1],
        [1, 0, 0, 2],
        [1, 1, 0, 0],
    ];
    sheet
}

/// A header alone: one state and unit, no variables and no tables.
pub fn tiny() -> SheetDraft {
    SheetDraft::new(1, 1, 0, &[])
}

/// Every count that a state depends on at its limit. Triple n is of state 15 - n/4 and unit 15;
/// state 14 is bad. Entries to unit 0 lead there.
pub fn edge() -> SheetDraft {
    let mut sheet = SheetDraft::new(16, 16, 8, &[i32::MIN, -1, 0, i32::MAX]);
    sheet.front.start = 15;
    sheet.front.bad = 0x4000;
    sheet.front.conditions = vec![vec![0], vec![5, 17, 7, 19, 7], vec![4, 17, 0, 17, 7]];
    sheet.front.actions = vec![vec![3, 21, 18, 3, 17, 7]];
    sheet.transitions = vec![[15, 0, 0, 0, 0, 14], [15, 1, 15, 2, 0, 13]];
    sheet.triples = (0..32).map(|n| [15 - n / 4, 15, 0, n % 2]).collect();
    sheet
}

/// The base with calls 7 of unit 0 and 8 of unit 1 open. For the first triples 0 and 3 are armed,
/// for the second triple 4. Saves the state.
pub fn base_state<R: Subject>(script: &mut Script<R>) {
    let [first, both] = R::BASE_LINES.map(|line| format!("taken {line}"));
    script.sort = Sort::Reached;
    script.rules(&R::of_sheet(&base()));
    script.fresh("accepted x0=5 x1=-1");
    script.step(&entry(0, 7, &[2, 1]), &first);
    script.step(&entry(1, 8, &[3, 4]), &both);
    script.save();
}

/// The base with calls 100 to 115 open, of units 0 and 1 by turns. Saves the state.
pub fn full_state<R: Subject>(script: &mut Script<R>) {
    script.sort = Sort::Reached;
    script.rules(&R::of_sheet(&base()));
    script.fresh("accepted x0=5 x1=-1");
    for number in 0..16u8 {
        let values = [i32::from(number), 1];
        script.step(
            &entry(number % 2, 100 + u16::from(number), &values),
            "taken",
        );
    }
    script.save();
}

pub fn tiny_state<R: Subject>(script: &mut Script<R>) {
    script.sort = Sort::Reached;
    script.rules(&R::of_sheet(&tiny()));
    script.fresh("accepted");
    script.step(&entry(0, 7, &[]), "taken o=1 n0=7 e0=1 p=1");
    script.save();
}

/// Call 65535 of unit 15 open, with triples 0 to 3.
pub fn edge_state<R: Subject>(script: &mut Script<R>) {
    script.sort = Sort::Reached;
    script.rules(&R::of_sheet(&edge()));
    script.fresh("accepted m=15 x0=-2147483648 x1=-1 x3=2147483647");
    let values = [1, 2, 3, 4, 5, 6, 7, -1];
    let line = format!("taken {}", R::EDGE_LINE);
    script.step(&entry(15, 65535, &values), &line);
    script.save();
}

// ---- Lines of taken events and of runs --------------------------------------------------------

/// What an event breaks: the cause, and the entry position of the call that broke the triple.
#[derive(Clone, Copy, Debug)]
pub struct Broken {
    pub cause: Cause,
    pub entry: u32,
}

/// By a call that was entered there. No entry position goes with a bad state alone.
pub fn broken(cause: Option<Cause>, entered: u32) -> Option<Broken> {
    cause.map(|cause| Broken {
        cause,
        entry: cause.triple().map_or(0, |_| entered),
    })
}

/// The line of a taken event: main state, variables, open calls with the triples armed for each,
/// position and verdict.
pub fn taken<R: Subject>(
    (main, variables): (u8, [i32; 4]),
    open: &[(Call, Vec<u8>)],
    position: u32,
    broken: Option<Broken>,
) -> String {
    let mut state = R::State::default();
    for (place, (call, triples)) in open.iter().enumerate() {
        R::common_mut(&mut state).calls[place] = *call;
        for triple in triples {
            R::arm(&mut state, place, *triple);
        }
    }
    let common = R::common_mut(&mut state);
    (common.main, common.variables, common.position) = (main, variables, position);
    common.verdict = broken.map(|Broken { cause, entry }| Verdict {
        position,
        cause,
        entry,
    });
    common.open = open.len() as u8;
    format!("taken{}", state_text::<R>(&state))
}

/// The call that an entry at this position opens.
pub fn held(event: &Record, position: u32) -> Call {
    let mut call = Call {
        number: event.call,
        unit: event.unit,
        entry: position,
        ..Call::default()
    };
    for (kept, value) in call.kept.iter_mut().zip(&event.values) {
        *kept = *value;
    }
    call
}

/// A run's line: main state, open calls, position and verdict.
pub fn ran(main: u8, open: usize, position: u32, broken: Option<Broken>) -> String {
    let dash = |number: Option<u32>| number.map_or("-".to_string(), |n| n.to_string());
    match broken {
        None => format!("clean {position} state {main} open {open}"),
        Some(Broken { cause, entry }) => {
            let (state, triple) = (cause.state(), cause.triple());
            let entry = dash(triple.map(|_| entry));
            let (state, triple) = (dash(state.map(u32::from)), dash(triple.map(u32::from)));
            format!("violated {position} state {state} triple {triple} entry {entry}")
        }
    }
}

// ---- Document 01 ------------------------------------------------------------------------------

/// The logs of document 01, on its sheet A.
pub fn document_runs<R: Rules>(script: &mut Script<R>) {
    script.sort = Sort::Log;
    let start = entry(0, 7, &[8, 0]);
    script.run(&LOG_A, "violated 2 state - triple 0 entry 1");
    for (value, line) in [
        (8, "clean 2 state 0 open 0"),
        (7, "violated 2 state - triple 0 entry 1"),
    ] {
        let records = [start.clone(), exit(0, 7, &[value, value])];
        script.run_records(2, &records, line);
    }
    script.run_records(2, &[], "clean 0 state 0 open 0");
    script.run_records(2, std::slice::from_ref(&start), "clean 1 state 1 open 1");
    let inside = [
        start.clone(),
        entry(0, 9, &[3, 0]),
        exit(0, 9, &[3, 0]),
        exit(0, 7, &[8, 8]),
    ];
    script.run_records(2, &inside, "clean 4 state 0 open 0");
    script.run_records(2, &[exit(0, 9, &[0, 0])], "refused 15 at 1");
    script.run_records(2, &[start.clone(), start], "refused 13 at 2");
    let many = |count: u16| -> Vec<Record> { (0..count).map(|n| entry(0, n, &[0, 0])).collect() };
    script.run_records(2, &many(16), "clean 16 state 1 open 16");
    script.run_records(2, &many(17), "refused 14 at 17");
    let again = [many(16), many(1)].concat();
    script.run_records(2, &again, "refused 13 at 17");
}

// ---- Soundness --------------------------------------------------------------------------------

/// What is offered to each state, and what a sound one without a verdict answers.
pub struct Events {
    pub entry: Record,
    pub entry_answer: &'static str,
    pub exit: Record,
    pub exit_answer: &'static str,
}

impl Events {
    /// Of which the exit is taken.
    pub fn new(entry: Record, entry_answer: &'static str, exit: Record) -> Events {
        Events {
            entry,
            entry_answer,
            exit,
            exit_answer: "taken",
        }
    }
}

/// Each clause: its sound neighbours and then what breaks it, with two events each. All have entry positions
/// that fit.
pub fn clauses<R: Subject>(script: &mut Script<R>, clauses: &[Clause<R::Own>], events: &Events) {
    clauses_of(script, clauses, events, settling);
}

/// The same, with what is to be done to each state behind its changes.
pub fn clauses_of<R: Subject>(
    script: &mut Script<R>,
    clauses: &[Clause<R::Own>],
    events: &Events,
    settling: Settling<R>,
) {
    for clause in clauses {
        for (sort, states, answer) in [
            (Sort::Neighbour, clause.sound, clause.answer),
            (Sort::Broken, clause.broken, Some("refused 9")),
        ] {
            script.sort = sort;
            for change in states {
                let change = [clause.before, change].concat();
                changed(script, &change, events, answer, settling);
            }
        }
    }
}

/// Changes of the saved state, with two events, which have one answer or those written beside them.
pub fn changed<R: Subject>(
    script: &mut Script<R>,
    change: &[Set<R::Own>],
    events: &Events,
    answer: Option<&str>,
    settling: Settling<R>,
) {
    script.restore();
    script.set(change);
    script.set(&settling(&script.bench));
    script.offer(&events.entry, answer.unwrap_or(events.entry_answer));
    script.offer(&events.exit, answer.unwrap_or(events.exit_answer));
}

/// Clauses on the base; the next two are on the smallest sheet and on that with every count at its
/// limit.
pub fn base_soundness<R: Subject>(script: &mut Script<R>, all: &[Clause<R::Own>]) {
    base_state(script);
    let usual = Events::new(entry(0, 9, &[1, 3]), "taken", exit(0, 7, &[2, 2]));
    clauses(script, all, &usual);
}

pub fn tiny_soundness<R: Subject>(script: &mut Script<R>, all: &[Clause<R::Own>]) {
    tiny_state(script);
    let usual = Events::new(entry(0, 9, &[]), "taken", exit(0, 7, &[]));
    clauses(script, all, &usual);
}

pub fn edge_soundness<R: Subject>(script: &mut Script<R>, all: &[Clause<R::Own>]) {
    edge_state(script);
    let usual = Events::new(entry(0, 9, &[0; 8]), "taken", exit(15, 65535, &[-1; 8]));
    clauses(script, all, &usual);
}

// ---- Positions --------------------------------------------------------------------------------

pub const LAST: u32 = u32::MAX;

/// Events of the base's state at positions up to the last.
pub fn positions<R: Subject>(script: &mut Script<R>) {
    base_state(script);
    script.sort = Sort::Position;
    let (opens, closes) = (entry(0, 9, &[1, 3]), exit(0, 7, &[2, 2]));
    for position in [0, 1, 0x7FFF_FFFF, 0x8000_0000, LAST - 2, LAST - 1, LAST] {
        let answer = match position {
            // Calls 7 and 8 were entered later.
            0 | 1 => "refused 9",
            LAST => "refused 12",
            _ => "taken",
        };
        script.restore();
        script.set(&[(Field::Position, position)]);
        script.offer(&opens, answer);
        script.offer(&closes, answer);
    }
}

/// The last event that is taken, the state that it leaves, and what refuses the events after it.
pub fn last_event<R: Rules>(script: &mut Script<R>, event: &Record, state: &str, after: u8) {
    script.restore();
    script.set(&[(Field::Position, LAST - 1)]);
    script.step(event, &format!("taken {state}"));
    let answer = format!("refused {after} {state}");
    script.offer(&entry(0, 10, &[1, 3]), &answer);
    script.offer(&exit(1, 8, &[1, 3]), &answer);
}

// ---- Refusals 9 to 15 together ----------------------------------------------------------------

/// What an event meets of refusals 13 to 15, and the event.
type Ask = (&'static [u8], Record);

/// For the state with two calls.
pub fn asks_of_two() -> Vec<Ask> {
    vec![
        (&[], entry(0, 9, &[2, 2])),
        (&[], exit(0, 7, &[2, 2])),
        (&[13], entry(1, 8, &[2, 2])),
        (&[13], entry(0, 8, &[2, 2])),
        (&[15], exit(0, 9, &[2, 2])),
        (&[15], exit(1, 7, &[2, 2])),
    ]
}

/// For the state with sixteen calls.
pub fn asks_of_sixteen() -> Vec<Ask> {
    vec![
        (&[], exit(1, 103, &[2, 2])),
        (&[14], entry(1, 9, &[2, 2])),
        (&[13, 14], entry(1, 115, &[2, 2])),
        (&[15], exit(1, 9, &[2, 2])),
    ]
}

/// Every set of 9 to 12 with every set of 13 to 15: the lowest answers. What stands for 9 and 11
/// goes round by `turn`.
pub fn together<R: Subject>(script: &mut Script<R>, asks: &[Ask], turn: usize) {
    script.sort = Sort::Together;
    for (place, (numbers, event)) in asks.iter().enumerate() {
        for set in 0..16u8 {
            let met: Vec<u8> = (9..=12).filter(|n| set & (1 << (n - 9)) != 0).collect();
            let choice = turn + place + usize::from(set);
            lay_out(script, &met, choice);
            let mut event = event.clone();
            if met.contains(&11) {
                break_arguments(&mut event, choice, numbers.is_empty());
            }
            let lowest = met.iter().chain(*numbers).min();
            let answer = lowest.map_or_else(|| "taken".into(), |number| refused(*number));
            script.offer(&event, &answer);
        }
    }
}

/// The saved state with what meets 9, 10 and 12 of the numbers.
fn lay_out<R: Subject>(script: &mut Script<R>, met: &[u8], choice: usize) {
    let position = if met.contains(&12) { LAST } else { 77 };
    script.restore();
    script.set(&[(Field::Position, position)]);
    if met.contains(&9) {
        script.set(&[R::BREAKS[choice % R::BREAKS.len()]]);
    }
    if met.contains(&10) {
        let failed = Field::Failed(choice as u8 % 8);
        script.set(&[(failed, position), (Field::Carried, 1)]);
    }
}

/// Wrong arguments; a wrong kind is neither entry nor exit, so that 13 to 15 do not apply.
fn break_arguments(event: &mut Record, choice: usize, any_kind: bool) {
    let ways = if any_kind { 7 } else { 5 };
    match choice % ways {
        0 => event.unit = 2,
        1 => event.values.push(0),
        2 => event.values.truncate(1),
        3 => event.unit = 255,
        4 => event.values.clear(),
        5 => event.kind = 2,
        _ => event.kind = 255,
    }
}

/// The edges of 11: units around U, and every number of values up to some that no sheet has.
pub fn arguments<R: Subject>(script: &mut Script<R>) {
    base_state(script);
    script.sort = Sort::Together;
    for (kind, unit, count) in (0..=12u8)
        .chain([254, 255])
        .map(|count| (0, 0, count))
        .chain([2, 3, 128, 255].map(|kind| (kind, 0, 2)))
        .chain([1, 2, 3, 15, 16, 255].map(|unit| (0, unit, 2)))
    {
        let event = event(kind, unit, 9, &vec![1; count.into()]);
        let fits = kind == 0 && unit < 2 && count == 2;
        script.offer(&event, if fits { "taken" } else { "refused 11" });
    }
}

// ---- The reading refusals in front ------------------------------------------------------------

/// The longest that is offered to the state with sixteen calls too.
const SHORT: usize = 36;

/// Sheets or networks that are refused, each with its number: nothing of 9 to 15 shows, and no event
/// or state makes them better.
pub fn reading<R: Subject>(script: &mut Script<R>, all: &[(u8, Vec<u8>)]) {
    base_state(script);
    script.sort = Sort::Reading;
    for (number, rules) in all {
        let answer = refused(*number);
        script.rules(rules);
        script.fresh(&answer);
        script.offer(&entry(0, 9, &[1, 3]), &answer);
        for (state, event) in reading_states() {
            script.restore();
            script.set(&state);
            script.offer(&event, &answer);
        }
        script.run_records(2, &[entry(0, 9, &[1, 3])], &answer);
        script.run(&[], &answer);
    }
    // Before 14 too.
    full_state(script);
    script.sort = Sort::Reading;
    for (number, rules) in all.iter().filter(|(_, rules)| rules.len() <= SHORT) {
        script.rules(rules);
        script.offer(&entry(0, 9, &[1, 3]), &refused(*number));
    }
}

/// What is set of the base's state, and an event: sound and taken on the base; 9; 10 and 11; 12 and
/// 13; 9 and 15.
fn reading_states<O>() -> [(Vec<Set<O>>, Record); 5] {
    [
        (vec![], entry(0, 9, &[1, 3])),
        (vec![(Field::Main, 255)], exit(0, 7, &[2, 2])),
        (
            vec![(Field::Failed(0), 2), (Field::Carried, 1)],
            event(9, 9, 9, &[]),
        ),
        (vec![(Field::Position, LAST)], entry(0, 7, &[1, 1])),
        (
            vec![(Field::Open, 200), (Field::BadState(9), 4)],
            exit(1, 7, &[1, 1]),
        ),
    ]
}

// ---- Logs -------------------------------------------------------------------------------------

pub fn logs<R: Subject>(script: &mut Script<R>) {
    script.sort = Sort::Log;
    script.rules(&R::of_sheet(&base()));
    log_refusals(script, 2);
    let opens = [entry(0, 7, &[2, 1]), entry(1, 8, &[3, 4])];
    let mut then = |last: Record, line: &str| {
        let records = [&opens[..], &[last]].concat();
        script.run_records(2, &records, line);
        // Records behind a verdict are not judged.
        let behind = event(9, 9, 9, &[0, 0]);
        let behind = [&records[..], &[behind]].concat();
        let judged = line.starts_with("violated") || line.starts_with("refused");
        script.run_records(2, &behind, if judged { line } else { "refused 11 at 4" });
    };
    then(exit(1, 8, &[1, 3]), "violated 3 state 2 triple - entry -");
    then(exit(1, 8, &[1, 2]), "violated 3 state 2 triple 4 entry 2");
    then(exit(0, 7, &[2, 3]), "violated 3 state - triple 0 entry 1");
    then(exit(0, 7, &[1, 2]), "clean 3 state 1 open 1");
    then(entry(0, 9, &[1, 2]), "clean 3 state 0 open 3");
    then(entry(0, 7, &[2, 1]), "refused 13 at 3");
    then(entry(1, 8, &[2, 1]), "refused 13 at 3");
    then(exit(0, 9, &[2, 1]), "refused 15 at 3");
    then(exit(0, 8, &[2, 1]), "refused 15 at 3");
    then(exit(2, 8, &[2, 1]), "refused 11 at 3");
    then(event(2, 0, 9, &[2, 1]), "refused 11 at 3");
    let mut full: Vec<Record> = (0..16).map(|n| entry(0, n, &[0, 0])).collect();
    script.run_records(2, &full, "clean 16 state 0 open 16");
    full.push(entry(1, 15, &[0, 0]));
    script.run_records(2, &full, "refused 13 at 17");
    full[16].call = 16;
    script.run_records(2, &full, "refused 14 at 17");
    full[16].kind = 1;
    script.run_records(2, &full, "refused 15 at 17");
    script.rules(&R::of_sheet(&tiny()));
    log_refusals(script, 0);
}

/// Refusals 16 to 18, alone and together, with so many program variables.
fn log_refusals<R: Rules>(script: &mut Script<R>, program: u8) {
    let good = write_log(program, &[entry(0, 9, &vec![1; program.into()])]);
    let clean = "clean 1 state 0 open 1";
    script.run(&good, clean);
    for length in 0..6 {
        script.run(&good[..length], "refused 16");
    }
    let other = |place: usize, value: u8| {
        let mut log = good.clone();
        log[place] = value;
        log
    };
    for (place, value) in [(0, 1), (1, 1), (2, 1), (3, 6), (4, 0), (4, 2), (4, 255)] {
        script.run(&other(place, value), "refused 16");
    }
    for other_program in [program + 1, program.wrapping_sub(1), 255] {
        script.run(&other(5, other_program), "refused 17");
    }
    for extra in [1, 2, 3, 4 * usize::from(program)] {
        let mut log = [&good[..], &vec![0; extra]].concat();
        log[3] += extra as u8;
        script.run(&log, if extra == 0 { clean } else { "refused 18" });
        log[5] += 1;
        script.run(&log, "refused 17");
        log[4] += 1;
        script.run(&log, "refused 16");
    }
}
