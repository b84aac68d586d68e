//! The page that `monitor_cases` and `network_cases` have for the ends of the signed range: counters
//! that are counted past them, rules that ask about the counters, pre- and postconditions with sums
//! that stop there (document 02, slip 2). Chosen cases with answers written down here, and random ones.

use crate::framing::script_frames::Frame;
use crate::implementation::run::{write_log, Record};
use crate::implementation::sheet::Sheet;
use crate::implementation::state::Cause;
use crate::making::cases::condition_cases::{joined, number, op, E0, P0};
use crate::making::cases::condition_ends::{difference, minus, plus, sum, X0, X1};
use crate::making::draft::SheetDraft;
use crate::making::random::Random;
use crate::making::random_ends;
use crate::making::scripts::script::{self, entry, exit, Page, Script, Sort};
use crate::making::scripts::shared_cases::{broken, held, ran, taken, Subject};
use crate::making::scripts::walk::{Leaves, Walk};

const LEAST: i32 = i32::MIN;
const GREATEST: i32 = i32::MAX;

// ---- Counters ---------------------------------------------------------------------------------

/// The bad state of `counters`.
const BAD: u8 = 2;
/// Its variables at first, of which 0 is counted up and 1 down.
const START: [i32; 4] = [GREATEST - 2, LEAST + 2, 0, 0];

/// States 0-2 (2 is bad), units 0-4, P 1, V 4. An entry of unit 0 counts variable 0 up, an exit of
/// unit 1 counts variable 1 down, an entry of unit 2 steps by its value. An entry of unit 3 is bad
/// where variable 0 is more than the greatest but one, an exit of unit 4 where variable 1 is less than
/// the least but one. An entry of unit 4 leads on where variable 1 as a tick is at most 1 behind
/// variable 0, an exit of unit 3 where 1 added and taken away again changes nothing.
fn counters() -> SheetDraft {
    let one = &number(1)[..];
    let mut sheet = SheetDraft::new(3, 5, 1, &START);
    sheet.front.bad = 1 << BAD;
    sheet.front.conditions = vec![
        vec![0],
        op(4, &[&number(GREATEST - 1), X0]),
        op(4, &[X1, &number(LEAST + 1)]),
        op(6, &[X1, X0, one]),
        op(5, &[&minus(&plus(X0, one), one), X0]),
    ];
    let (up, down) = (op(0, &[&plus(X0, one)]), op(1, &[&minus(X1, one)]));
    sheet.front.actions = vec![vec![], up, down, stepping()];
    sheet.transitions = vec![
        [0, 0, 0, 0, 1, 0],
        [0, 1, 1, 0, 2, 0],
        [0, 0, 2, 0, 3, 0],
        [0, 0, 3, 1, 0, BAD],
        [0, 1, 4, 2, 0, BAD],
        [0, 0, 4, 3, 0, 1],
        [0, 1, 3, 4, 0, 1],
    ];
    sheet
}

/// Variable 0 plus the value, variable 1 minus it; then 2 is the difference of the two, and 3 is one
/// more than variable 0 where there is one more, and otherwise one less than variable 1.
fn stepping() -> Vec<u8> {
    let (more, less) = (plus(X0, &number(1)), minus(X1, &number(1)));
    joined(&[
        &op(0, &[&plus(X0, P0)]),
        &op(1, &[&minus(X1, P0)]),
        &op(2, &[&minus(X0, X1)]),
        &op(3, &[&op(22, &[&op(4, &[X0, &more]), &more, &less])]),
    ])
}

/// The variables after `stepping`.
fn stepped([x0, x1, ..]: [i32; 4], by: i32) -> [i32; 4] {
    let (x0, x1) = (sum(x0, by), difference(x1, by));
    let last = match x0 {
        GREATEST => difference(x1, 1),
        _ => x0 + 1,
    };
    [x0, x1, difference(x0, x1), last]
}

/// Offers an event that leads to this state, also as the last of a run.
fn ask<R: Subject>(walk: &Walk, script: &mut Script<R>, event: Record, main: u8) {
    let cause = (main == BAD).then_some(Cause::State(BAD));
    walk.ask(script, event, &Leaves::state(main, walk.variables, cause));
}

/// The four rules that ask about the counters. Calls 3 and 4 are open.
fn ask_all<R: Subject>(walk: &Walk, script: &mut Script<R>) {
    let [x0, x1, ..] = walk.variables;
    let behind = (i64::from(x1) - i64::from(x0)).rem_euclid(1 << 32);
    let bad = |is: bool| if is { BAD } else { 0 };
    ask(walk, script, entry(3, 9, &[0]), bad(x0 == GREATEST));
    ask(walk, script, exit(4, 4, &[0]), bad(x1 == LEAST));
    ask(walk, script, entry(4, 9, &[0]), u8::from(behind <= 1));
    ask(walk, script, exit(3, 3, &[0]), u8::from(x0 != GREATEST));
}

/// What the counters are after each of several counts.
const UP: [i32; 6] = [
    2147483646, 2147483647, 2147483647, 2147483647, 2147483647, 2147483647,
];
const DOWN: [i32; 6] = [
    -2147483647,
    -2147483648,
    -2147483648,
    -2147483648,
    -2147483648,
    -2147483648,
];
/// What unit 2 steps by, one after the other.
const STEPS: [i32; 16] = [
    2,
    1,
    -1,
    GREATEST,
    LEAST,
    LEAST,
    LEAST,
    2,
    GREATEST,
    1 << 30,
    1 << 30,
    1 << 30,
    -(1 << 30),
    -2,
    GREATEST,
    0,
];

/// From the fresh state, with calls 3 and 4 open.
fn start<R: Subject>(script: &mut Script<R>) -> Walk {
    script.sort = Sort::Ends;
    script.rules(&R::of_sheet(&counters()));
    script.fresh("accepted x0=2147483645 x1=-2147483646");
    let mut walk = Walk::default();
    for unit in [3, 4] {
        let event = entry(unit, unit.into(), &[0]);
        walk.step(script, event, &Leaves::variables(START));
    }
    ask_all(&walk, script);
    walk
}

/// Past both ends one by one; the rules are asked after each.
fn counting<R: Subject>(script: &mut Script<R>) {
    let mut walk = start(script);
    let [_, down, x2, x3] = START;
    for (x0, n) in UP.into_iter().zip(1..) {
        let after = [x0, down, x2, x3];
        walk.step(script, entry(0, 7, &[n]), &Leaves::variables(after));
        ask_all(&walk, script);
        walk.step(script, exit(0, 7, &[n]), &Leaves::variables(after));
    }
    for (x1, n) in DOWN.into_iter().zip(1..) {
        let before = walk.variables;
        walk.step(script, entry(1, 8, &[n]), &Leaves::variables(before));
        let after = [GREATEST, x1, x2, x3];
        walk.step(script, exit(1, 8, &[n]), &Leaves::variables(after));
        ask_all(&walk, script);
    }
}

/// Past both ends in steps of any size; the rules are asked after each.
fn any_steps<R: Subject>(script: &mut Script<R>) {
    let mut walk = start(script);
    for by in STEPS {
        let after = stepped(walk.variables, by);
        walk.step(script, entry(2, 7, &[by]), &Leaves::variables(after));
        ask_all(&walk, script);
        walk.step(script, exit(2, 7, &[by]), &Leaves::variables(after));
    }
}

// ---- The "more than" rule of document 02 ------------------------------------------------------

/// More than this is bad.
const LIMIT: i32 = 2_000_000_000;

/// States 0-1 (1 is bad), units 0-1, P 1, V 1. An exit of unit 0 adds the value to the counter; an entry
/// of unit 1 asks whether it is more than the limit.
fn actuations() -> SheetDraft {
    let mut sheet = SheetDraft::new(2, 2, 1, &[0]);
    sheet.front.bad = 0b10;
    sheet.front.conditions = vec![vec![0], op(4, &[&number(LIMIT), X0])];
    sheet.front.actions = vec![vec![], op(0, &[&plus(X0, P0)])];
    sheet.transitions = vec![[0, 1, 0, 0, 1, 0], [0, 0, 1, 1, 0, 1]];
    sheet
}

/// The counts of several logs, and after how many of them the counter is still within the limit.
const COUNTS: [(&[i32], usize); 10] = [
    (&[1_000_000_000, 1_000_000_000], 2),
    (&[1_000_000_000, 1_000_000_000, 1], 2),
    (&[1_000_000_000, 1_000_000_000, 147_483_647], 2),
    (&[1_000_000_000, 1_000_000_000, 147_483_648], 2),
    (&[1_999_999_999, 1, 1_999_999_999], 2),
    (&[GREATEST], 0),
    (&[LIMIT, GREATEST], 1),
    (&[1, GREATEST], 1),
    (&[-5, LEAST, LEAST, -1, GREATEST, GREATEST, 7], 5),
    (&[1_000_000_000; 20], 2),
];

/// The rule asked after each count, where the run ends at the first that is over the limit; and asked
/// after the last alone.
fn more_than<R: Subject>(script: &mut Script<R>) {
    script.sort = Sort::Ends;
    script.rules(&R::of_sheet(&actuations()));
    for (counts, calm) in COUNTS {
        let (mut records, mut last) = (Vec::new(), Vec::new());
        for (n, count) in counts.iter().enumerate() {
            let call = n as u16;
            let whole = [entry(0, call, &[0]), exit(0, call, &[*count])];
            records.extend(whole.clone());
            last.extend(whole);
            records.extend([entry(1, 100, &[0]), exit(1, 100, &[0])]);
        }
        last.push(entry(1, 100, &[0]));
        let is_bad = calm < counts.len();
        let (asked, bad) = (4 * calm as u32 + 3, broken(Some(Cause::State(1)), 0));
        let line = match is_bad {
            true => ran(1, 1, asked, bad),
            false => ran(0, 0, records.len() as u32, None),
        };
        script.run_records(1, &records, &line);
        let bad = bad.filter(|_| is_bad);
        let line = ran(is_bad.into(), 1, last.len() as u32, bad);
        script.run_records(1, &last, &line);
    }
}

// ---- Guards -----------------------------------------------------------------------------------

/// Of the value: it is less than itself plus 1,000; less 1,000 it is less than itself; it is less than
/// itself less -1,000; plus -1,000 it is less than itself.
fn comparisons() -> [Vec<u8>; 4] {
    let (many, minus_many) = (&number(1_000)[..], &number(-1_000)[..]);
    [
        op(4, &[P0, &plus(P0, many)]),
        op(4, &[&minus(P0, many), P0]),
        op(4, &[P0, &minus(P0, minus_many)]),
        op(4, &[&plus(P0, minus_many), P0]),
    ]
}

/// Whether one of these holds.
fn is_met(comparison: u8, value: i32) -> bool {
    match comparison {
        0 | 2 => value != GREATEST,
        _ => value != LEAST,
    }
}

/// States 0-2 (2 is bad), units 0-4, P 1. An entry leads to state 1 where its unit's guard holds, and
/// otherwise to the bad state. The guards are the comparisons and, of unit 4, that twice the value is
/// less than 0.
fn guards() -> SheetDraft {
    let mut sheet = SheetDraft::new(3, 5, 1, &[]);
    sheet.front.bad = 1 << BAD;
    sheet.front.conditions = comparisons().to_vec();
    let twice = op(4, &[&plus(P0, P0), &number(0)]);
    sheet.front.conditions.extend([twice, vec![0]]);
    sheet.front.actions = vec![vec![]];
    let both = |unit: u8| [[0, 0, unit, unit, 0, 1], [0, 0, unit, 5, 0, BAD]];
    sheet.transitions = (0..5).flat_map(both).collect();
    sheet
}

/// Whether the guard of a unit holds for a value.
fn is_led_on(unit: u8, value: i32) -> bool {
    match unit {
        4 => value < 0,
        comparison => is_met(comparison, value),
    }
}

fn guarding<R: Subject>(script: &mut Script<R>) {
    script.sort = Sort::Ends;
    script.rules(&R::of_sheet(&guards()));
    script.fresh("accepted");
    for (unit, value) in (0..5).flat_map(|u| NEAR.map(|value| (u, value))) {
        let enters = entry(unit, 7, &[value]);
        let (main, bad) = match is_led_on(unit, value) {
            true => (1, None),
            false => (BAD, broken(Some(Cause::State(BAD)), 0)),
        };
        let open = [(held(&enters, 1), Vec::new())];
        let line = taken::<R>((main, [0; 4]), &open, 1, bad);
        script.offer(&enters, &line);
        script.run_records(1, &[enters], &ran(main, 1, 1, bad));
    }
}

/// Values near the ends, halfway to them, and about 0.
const NEAR: [i32; 20] = [
    LEAST,
    LEAST + 1,
    LEAST + 2,
    LEAST + 256,
    LEAST + 500,
    LEAST + 999,
    LEAST + 1_000,
    -(1 << 30) - 1,
    -(1 << 30),
    -1,
    0,
    (1 << 30) - 1,
    1 << 30,
    GREATEST - 1_000,
    GREATEST - 999,
    GREATEST - 500,
    GREATEST - 256,
    GREATEST - 2,
    GREATEST - 1,
    GREATEST,
];

// ---- Pre- and postconditions ------------------------------------------------------------------

/// By so much a value is to change.
const CHANGE: i32 = 600;

/// One state, units 0-3, P 1. Triple n below 4 is of unit n: where its unit's comparison holds at entry,
/// the value is to be so much more at exit, less, more, less. Triple 4, of unit 0: at exit it is at
/// most twice that at entry. Triple 5, of unit 1: it is more than 0 less that at entry less 1.
fn bounds() -> SheetDraft {
    let (one, change) = (&number(1)[..], &number(CHANGE)[..]);
    let minus_change = &number(-CHANGE)[..];
    let mut sheet = SheetDraft::new(1, 4, 1, &[]);
    sheet.front.conditions = comparisons().to_vec();
    sheet.front.conditions.extend([
        op(5, &[P0, &plus(E0, change)]),
        op(5, &[P0, &minus(E0, change)]),
        op(5, &[P0, &minus(E0, minus_change)]),
        op(5, &[P0, &plus(E0, minus_change)]),
        op(1, &[&op(4, &[&plus(E0, E0), P0])]),
        op(4, &[&minus(&minus(&number(0), E0), one), P0]),
        vec![0],
    ]);
    sheet.triples = (0..4).map(|unit| [0, unit, unit, 4 + unit]).collect();
    sheet.triples.extend([[0, 0, 10, 8], [0, 1, 10, 9]]);
    sheet
}

/// The triples of `bounds` that an entry arms.
fn armed(unit: u8, value: i32) -> Vec<u8> {
    let compared = is_met(unit, value).then_some(unit);
    let always = (unit < 2).then_some(4 + unit);
    compared.into_iter().chain(always).collect()
}

fn is_kept(triple: u8, entered: i32, left: i32) -> bool {
    match triple {
        0 | 2 => left == sum(entered, CHANGE),
        1 | 3 => left == difference(entered, CHANGE),
        4 => left <= sum(entered, entered),
        _ => difference(difference(0, entered), 1) < left,
    }
}

const ENTERED: [i32; 14] = [
    LEAST,
    LEAST + 1,
    LEAST + 4,
    LEAST + 5,
    LEAST + 500,
    LEAST + 999,
    -1,
    0,
    GREATEST - 999,
    GREATEST - 500,
    GREATEST - 5,
    GREATEST - 4,
    GREATEST - 1,
    GREATEST,
];

fn conditions<R: Subject>(script: &mut Script<R>) {
    script.sort = Sort::Ends;
    script.rules(&R::of_sheet(&bounds()));
    script.fresh("accepted");
    script.save();
    for (unit, entered) in (0..4).flat_map(|u| ENTERED.map(|e| (u, e))) {
        let enters = entry(unit, 7, &[entered]);
        let (call, triples) = (held(&enters, 1), armed(unit, entered));
        let open = [(call, triples.clone())];
        script.restore();
        let line = taken::<R>((0, [0; 4]), &open, 1, None);
        script.step(&enters, &line);
        for left in left_with(entered) {
            let fails = |triple: &&u8| !is_kept(**triple, entered, left);
            let lowest = triples.iter().find(fails).copied();
            let failed = broken(Cause::new(None, lowest), 1);
            let leaves = exit(unit, 7, &[left]);
            let line = taken::<R>((0, [0; 4]), &[], 2, failed);
            script.offer(&leaves, &line);
            let records = [enters.clone(), leaves];
            script.run_records(1, &records, &ran(0, 0, 2, failed));
        }
    }
}

/// What is so much more or less, stopping at the end or turning round there; the ends; and 0.
fn left_with(entered: i32) -> Vec<i32> {
    let mut all = vec![
        sum(entered, CHANGE),
        difference(entered, CHANGE),
        entered.wrapping_add(CHANGE),
        entered.wrapping_sub(CHANGE),
        LEAST,
        GREATEST,
        0,
    ];
    all.sort_unstable();
    all.dedup();
    all
}

// ---- Random cases -----------------------------------------------------------------------------

const SEED: u64 = 0x5741_5443_480B;
/// Generated sheets or networks.
const RULES: usize = 36;

fn random_cases<R: Subject>(script: &mut Script<R>) {
    let mut random = Random::new(SEED);
    script.sort = Sort::Ends;
    for _ in 0..RULES {
        let draft = random_ends::sheet(&mut random);
        let program = draft.front.program;
        script.rules(&R::like(&mut random, draft));
        script.fresh("accepted");
        let records = random_ends::records(&mut random);
        for record in &records {
            script.unknown(record, true);
        }
        script.add(Frame::Run(write_log(program, &records)), None);
    }
}

// ---- All --------------------------------------------------------------------------------------

/// The chosen cases alone.
pub fn chosen<R: Subject>() -> Page<R::Own> {
    Script::<R>::of(&[counting, any_steps, more_than, guarding, conditions])
}

/// All of them.
pub fn page<R: Subject>() -> Page<R::Own> {
    let random = Script::<R>::of(&[random_cases]);
    chosen::<R>().into_iter().chain(random).collect()
}

/// The runs of the page as inputs of the program.
pub fn inputs() -> Vec<Vec<u8>> {
    script::inputs(page::<Sheet>())
}
