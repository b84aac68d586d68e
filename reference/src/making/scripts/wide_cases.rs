//! The pages that `monitor_cases` and `network_cases` have behind the first: the last of the values
//! and variables decide, units are 8 to 15, call numbers over 255 differ in one byte, and four calls
//! are left in every order. Chosen cases with answers written down here, and random ones.

use crate::framing::script_frames::{Field, Frame, Own};
use crate::implementation::machine::MOST_PROGRAM;
use crate::implementation::run::{write_log, Record};
use crate::implementation::state::{Call, Cause};
use crate::making::draft::SheetDraft;
use crate::making::random::Random;
use crate::making::scripts::random_script::ask_any;
use crate::making::scripts::script::{entry, exit, Page, Script, Sort};
use crate::making::scripts::shared_cases::{self, broken, ran, Broken, Subject};
use crate::making::wide::{self, FIRST_UNIT, LAST_VALUE, LAST_VARIABLE};

/// Generated sheets or networks of a page.
const RULES: usize = 50;
const SEEDS: [u64; 2] = [0x5741_5443_4808, 0x5741_5443_4809];

pub fn pages<R: Subject>() -> Vec<Page<R::Own>> {
    vec![
        Script::<R>::of(&[units, kept_values, variables, numbers, orders]),
        Script::<R>::of(&[random_cases::<R, { SEEDS[0] }>]),
        Script::<R>::of(&[random_cases::<R, { SEEDS[1] }>]),
    ]
}

// ---- The sheet of the chosen cases ------------------------------------------------------------

/// States 0-2 (2 is bad), 16 units, P 8, V 4. Conditions: 0 true; 1 the last value is that at entry;
/// 2 it is over 4; 3 it is over the last variable; 4 the last variable is 9. Action 1 makes the last
/// value the last variable, 2 makes the last variable the first. Triple n is of state 0 and unit
/// 8 + n: an odd unit's is armed where the last value is over 4.
fn chosen() -> SheetDraft {
    let mut sheet = SheetDraft::new(3, 16, 8, &START);
    sheet.front.bad = 0b100;
    sheet.front.conditions = vec![
        vec![0],
        vec![5, 17, 7, 19, 7],
        vec![4, 16, 0, 0, 0, 4, 17, 7],
        vec![4, 18, 3, 17, 7],
        vec![5, 18, 3, 16, 0, 0, 0, 9],
    ];
    sheet.front.actions = vec![vec![], vec![3, 17, 7], vec![0, 18, 3]];
    sheet.transitions = vec![
        [0, 0, 8, 3, 1, 0],
        [0, 0, 9, 4, 2, 1],
        [0, 1, 10, 2, 0, 1],
        [0, 1, 11, 4, 0, 2],
        [1, 1, 12, 3, 1, 0],
    ];
    sheet.triples = (8..16).map(|unit| [0, unit, 2 * (unit % 2), 1]).collect();
    sheet
}

/// The monitor variables at first.
const START: [i32; 4] = [1, 2, 3, 4];

/// The values of an event: its last one, behind seven that nothing looks at.
fn with_last(last: i32) -> [i32; 8] {
    [11, 12, 13, 14, 15, 16, 17, last]
}

fn enters(unit: u8, call: u16, last: i32) -> Record {
    entry(unit, call, &with_last(last))
}

fn leaves(unit: u8, call: u16, last: i32) -> Record {
    exit(unit, call, &with_last(last))
}

/// An open call. Its triple is armed, but for an odd unit's with a last value up to 4; units below 8
/// have none.
#[derive(Clone, Copy, PartialEq)]
struct Open {
    number: u16,
    unit: u8,
    /// Its last value at entry.
    last: i32,
    /// Its entry position.
    entry: u32,
}

const fn open(number: u16, unit: u8, last: i32, entry: u32) -> Open {
    Open {
        number,
        unit,
        last,
        entry,
    }
}

impl Open {
    fn triple(self) -> Option<u8> {
        let triple = self.unit.checked_sub(FIRST_UNIT);
        triple.filter(|_| self.unit.is_multiple_of(2) || self.last > 4)
    }

    /// As a state holds it.
    fn held(self) -> Call {
        Call {
            number: self.number,
            unit: self.unit,
            entry: self.entry,
            kept: with_last(self.last),
        }
    }

    fn enters(self) -> Record {
        enters(self.unit, self.number, self.last)
    }

    fn leaves(self, last: i32) -> Record {
        leaves(self.unit, self.number, last)
    }

    /// What is broken where it is left with this last value.
    fn broken_by(self, last: i32) -> Option<Broken> {
        self.broken_in(None, last)
    }

    /// The same where its exit leads to this bad state, if to one.
    fn broken_in(self, bad: Option<u8>, last: i32) -> Option<Broken> {
        let triple = self.triple().filter(|_| last != self.last);
        broken(Cause::new(bad, triple), self.entry)
    }
}

/// The line of a taken event: main state, variables, open calls, position and verdict.
fn taken<R: Subject>(
    state: (u8, [i32; 4]),
    open: &[Open],
    position: u32,
    broken: Option<Broken>,
) -> String {
    let calls = open.iter().map(|call| (call.held(), call.triple()));
    let calls: Vec<(Call, Vec<u8>)> = calls
        .map(|(call, triple)| (call, triple.into_iter().collect()))
        .collect();
    shared_cases::taken::<R>(state, &calls, position, broken)
}

/// The chosen sheet's fresh state, saved.
fn start<R: Subject>(script: &mut Script<R>) {
    script.sort = Sort::Wide;
    script.rules(&R::of_sheet(&chosen()));
    script.fresh("accepted x0=1 x1=2 x2=3 x3=4");
    script.save();
}

/// Enters calls that change neither the state nor a variable, from the saved state.
fn enter_all<R: Subject>(script: &mut Script<R>, calls: &[Open]) {
    for (call, count) in calls.iter().zip(1..) {
        let line = taken::<R>((0, START), &calls[..count], count as u32, None);
        script.step(&call.enters(), &line);
    }
}

/// An event behind these calls: as one event, and as the last of a run.
fn behind<R: Subject>(script: &mut Script<R>, calls: &[Open], event: &Record, lines: [&str; 2]) {
    let mut records: Vec<Record> = calls.iter().map(|call| call.enters()).collect();
    records.push(event.clone());
    script.offer(event, lines[0]);
    script.run_records(MOST_PROGRAM, &records, lines[1]);
}

// ---- Units ------------------------------------------------------------------------------------

/// A call of each unit. An entry of unit 8 over 4 changes the last variable.
fn units<R: Subject>(script: &mut Script<R>) {
    start(script);
    for (unit, last) in (8..16).flat_map(|unit| [(unit, 4), (unit, 5)]) {
        let call = open(0x0100 + u16::from(unit), unit, last, 1);
        let mut variables = START;
        variables[3] = if unit == 8 { last.max(4) } else { 4 };
        script.restore();
        let line = taken::<R>((0, variables), &[call], 1, None);
        script.step(&call.enters(), &line);
        ask_last(script, call);
        leave_each_way(script, call, variables);
        let other = leaves(unit - FIRST_UNIT, call.number, last);
        behind(script, &[call], &other, ["refused 15", "refused 15 at 2"]);
    }
    units_below(script);
}

/// The same events of the units that are 8 less: nothing is armed, and nothing leads on.
fn units_below<R: Subject>(script: &mut Script<R>) {
    for unit in 0..8 {
        let call = open(0x0100 + u16::from(unit), unit, 5, 1);
        script.restore();
        enter_all(script, &[call]);
        let line = taken::<R>((0, START), &[], 2, None);
        let lines = [&line[..], &ran(0, 0, 2, None)];
        behind(script, &[call], &call.leaves(6), lines);
        let other = leaves(unit + FIRST_UNIT, call.number, 5);
        behind(script, &[call], &other, ["refused 15", "refused 15 at 2"]);
    }
}

/// The exit of the only call with several last values. One of unit 10 over 4 leads to state 1.
fn leave_each_way<R: Subject>(script: &mut Script<R>, call: Open, variables: [i32; 4]) {
    for left in [5, 4, 0, 6] {
        let main = u8::from(call.unit == 10 && left > 4);
        let broken = call.broken_by(left);
        let line = taken::<R>((main, variables), &[], 2, broken);
        let lines = [&line[..], &ran(main, 0, 2, broken)];
        behind(script, &[call], &call.leaves(left), lines);
    }
}

/// The values at entry of the call's checker, where there are checkers.
fn ask_last<R: Subject>(script: &mut Script<R>, call: Open) {
    let (front, last) = (
        "k0.0=11 k0.1=12 k0.2=13 k0.3=14 k0.4=15 k0.5=16 k0.6=17",
        call.last,
    );
    match call.triple() {
        Some(_) if R::Own::CHECKERS => script.ask(0, &format!("entry 0 {front} k0.7={last}")),
        None if R::Own::CHECKERS => script.ask(0, "entry 0"),
        _ => {}
    }
}

// ---- Values at entry --------------------------------------------------------------------------

/// Two calls of one unit that differ in their numbers' high byte and in the last value at entry.
fn kept_values<R: Subject>(script: &mut Script<R>) {
    start(script);
    let calls = [open(0x0201, 14, 1, 1), open(0x0301, 14, 2, 2)];
    enter_all(script, &calls);
    for (place, left) in [0, 1]
        .into_iter()
        .flat_map(|p| [0, 1, 2, 3].map(|l| (p, l)))
    {
        let broken = calls[place].broken_by(left);
        let line = taken::<R>((0, START), &[calls[1 - place]], 3, broken);
        let lines = [&line[..], &ran(0, 1, 3, broken)];
        behind(script, &calls, &calls[place].leaves(left), lines);
    }
    bytes_of_the_last(script);
}

/// A last value of four bytes, of which each in turn is another at exit.
fn bytes_of_the_last<R: Subject>(script: &mut Script<R>) {
    let call = open(0x0401, 12, 0x0102_0384, 1);
    script.restore();
    enter_all(script, &[call]);
    for change in [0, 1, 0x0100, 0x0001_0000, 0x0100_0000, i32::MIN] {
        let left = call.last ^ change;
        let broken = call.broken_by(left);
        let line = taken::<R>((0, START), &[], 2, broken);
        let lines = [&line[..], &ran(0, 0, 2, broken)];
        behind(script, &[call], &call.leaves(left), lines);
    }
}

// ---- Variables --------------------------------------------------------------------------------

/// The last variable made 8, 9 and 10 by an entry of unit 8.
fn variables<R: Subject>(script: &mut Script<R>) {
    start(script);
    for last in [8, 9, 10] {
        let calls = [open(0x010B, 11, 5, 1), open(0x0108, 8, last, 2)];
        script.restore();
        enter_all(script, &calls[..1]);
        let line = taken::<R>((0, [1, 2, 3, last]), &calls, 2, None);
        script.step(&calls[1].enters(), &line);
        led_by_variable(script, calls, last);
    }
    variable_set(script);
    back_again(script);
}

/// Only 9 lets an entry of unit 9 on, and an exit of unit 11 into the bad state.
fn led_by_variable<R: Subject>(script: &mut Script<R>, calls: [Open; 2], last: i32) {
    let [eleven, eight] = calls;
    let nine = open(0x0109, 9, 4, 3);
    let (main, first, bad) = if last == 9 {
        (1, 9, Some(2))
    } else {
        (0, 1, None)
    };
    let line = taken::<R>((main, [first, 2, 3, last]), &[eleven, eight, nine], 3, None);
    let lines = [&line[..], &ran(main, 3, 3, None)];
    behind(script, &calls, &nine.enters(), lines);
    for left in [5, 6] {
        let (main, broken) = (bad.unwrap_or(0), eleven.broken_in(bad, left));
        let line = taken::<R>((main, [1, 2, 3, last]), &[eight], 3, broken);
        let lines = [&line[..], &ran(main, 1, 3, broken)];
        behind(script, &calls, &eleven.leaves(left), lines);
    }
}

/// The same where the variable is set and no event has made it.
fn variable_set<R: Subject>(script: &mut Script<R>) {
    for (value, main, first) in [(9, 1, 9), (8, 0, 1), (0, 0, 1), (265, 0, 1), (-9, 0, 1)] {
        script.restore();
        script.set(&[(Field::Variable(LAST_VARIABLE), value as u32)]);
        let nine = open(0x0109, 9, 5, 1);
        let line = taken::<R>((main, [first, 2, 3, value]), &[nine], 1, None);
        script.offer(&nine.enters(), &line);
    }
}

/// From state 1 an exit of unit 12 leads back where its last value is over the last variable, 9.
fn back_again<R: Subject>(script: &mut Script<R>) {
    let calls = [
        open(0x020C, 12, 9, 1),
        open(0x0208, 8, 9, 2),
        open(0x0209, 9, 4, 3),
    ];
    let [twelve, eight, nine] = calls;
    script.restore();
    enter_all(script, &[twelve]);
    let line = taken::<R>((0, [1, 2, 3, 9]), &[twelve, eight], 2, None);
    script.step(&eight.enters(), &line);
    let line = taken::<R>((1, [9, 2, 3, 9]), &calls, 3, None);
    script.step(&nine.enters(), &line);
    for (left, main, last) in [(9, 1, 9), (10, 0, 10), (8, 1, 9), (0, 1, 9)] {
        let broken = twelve.broken_by(left);
        let line = taken::<R>((main, [9, 2, 3, last]), &[eight, nine], 4, broken);
        let lines = [&line[..], &ran(main, 2, 4, broken)];
        behind(script, &calls, &twelve.leaves(left), lines);
    }
}

// ---- Numbers ----------------------------------------------------------------------------------

/// Numbers of which the first two differ in the high byte only and the last two in the low one.
const NUMBERS: [u16; 3] = [0x0107, 0x0207, 0x0208];
/// Each differs from one of them in one byte only, or is one of them in part.
const NEAR: [u16; 9] = [
    0x0108, 0x0307, 0x0209, 0x0007, 0x0008, 0x0100, 0x0200, 0x0701, 0xFF07,
];

/// Of three units, and of one.
fn numbers<R: Subject>(script: &mut Script<R>) {
    start(script);
    for units in [[8, 12, 14], [14; 3]] {
        let calls = [0, 1, 2].map(|i| open(NUMBERS[i], units[i], i as i32 + 1, i as u32 + 1));
        script.restore();
        enter_all(script, &calls);
        calls
            .iter()
            .for_each(|call| left_by_number(script, &calls, *call));
        NEAR.iter()
            .for_each(|number| near_number(script, &calls, *number));
    }
}

/// The call's exit with each last value, of another unit, and its number entered again.
fn left_by_number<R: Subject>(script: &mut Script<R>, calls: &[Open], call: Open) {
    let stay = calls.iter().filter(|other| **other != call).copied();
    let stay: Vec<Open> = stay.collect();
    for left in [1, 2, 3] {
        let broken = call.broken_by(left);
        let line = taken::<R>((0, START), &stay, 4, broken);
        let lines = [&line[..], &ran(0, 2, 4, broken)];
        behind(script, calls, &call.leaves(left), lines);
    }
    let (refused, again) = (
        ["refused 15", "refused 15 at 4"],
        ["refused 13", "refused 13 at 4"],
    );
    behind(script, calls, &leaves(15, call.number, 1), refused);
    behind(script, calls, &enters(15, call.number, 1), again);
    behind(script, calls, &enters(call.unit, call.number, 1), again);
}

/// The exit of a number that is not open, and its entry.
fn near_number<R: Subject>(script: &mut Script<R>, calls: &[Open], number: u16) {
    let refused = ["refused 15", "refused 15 at 4"];
    for call in calls {
        behind(
            script,
            calls,
            &leaves(call.unit, number, call.last),
            refused,
        );
    }
    let new = open(number, 10, 4, 4);
    let all = [calls, &[new]].concat();
    let line = taken::<R>((0, START), &all, 4, None);
    behind(script, calls, &new.enters(), [&line, &ran(0, 4, 4, None)]);
}

// ---- Orders -----------------------------------------------------------------------------------

const FOUR: [Open; 4] = [
    open(0x0107, 8, 1, 1),
    open(0x0207, 12, 2, 2),
    open(0x0108, 14, 3, 3),
    open(0x0208, 8, 4, 4),
];

/// Four calls, left in every order.
fn orders<R: Subject>(script: &mut Script<R>) {
    start(script);
    enter_all(script, &FOUR);
    script.save();
    for order in wide::orders() {
        let calls = order.map(|place| FOUR[place]);
        script.restore();
        leave_all(script, calls);
        order_runs(script, calls);
    }
}

/// Each exit is offered first with another call's last value, by which its own triple is broken.
fn leave_all<R: Subject>(script: &mut Script<R>, calls: [Open; 4]) {
    for (count, call) in (1..).zip(calls) {
        let stays = |open: &&Open| !calls[..count].contains(open);
        let stay: Vec<Open> = FOUR.iter().filter(stays).copied().collect();
        let line = |broken| taken::<R>((0, START), &stay, 4 + count as u32, broken);
        let wrong = call.last % 4 + 1;
        script.offer(&call.leaves(wrong), &line(call.broken_by(wrong)));
        script.step(&call.leaves(call.last), &line(None));
    }
}

/// The same as runs: all four left well, and the last one with another call's value.
fn order_runs<R: Subject>(script: &mut Script<R>, calls: [Open; 4]) {
    let last = calls[3];
    for left in [last.last, last.last % 4 + 1] {
        let exits = calls.map(|call| call.leaves(call.last));
        let mut records = [FOUR.map(Open::enters), exits].concat();
        records[7] = last.leaves(left);
        let line = ran(0, 0, 8, last.broken_by(left));
        script.run_records(MOST_PROGRAM, &records, &line);
    }
}

// ---- Random cases -----------------------------------------------------------------------------

fn random_cases<R: Subject, const SEED: u64>(script: &mut Script<R>) {
    let mut random = Random::new(SEED);
    script.sort = Sort::Wide;
    for _ in 0..RULES {
        on_rules(script, &mut random);
    }
}

/// The records of a log one by one, some with a twin before them, and as a run.
fn on_rules<R: Subject>(script: &mut Script<R>, random: &mut Random) {
    let units = wide::units(random);
    let draft = wide::sheet(random, &units);
    let bytes = R::like(random, draft);
    let Ok(rules) = R::read(&bytes) else {
        return; // Does not happen: wide drafts are made to be accepted.
    };
    let mut records = wide::records(random, &rules, &units);
    script.rules(&bytes);
    script.fresh("accepted");
    for record in &records {
        if random.chance(1, 3) {
            let twin = twin(random, record);
            script.unknown(&twin, false);
        }
        script.unknown(record, true);
        ask_any(script, random);
    }
    script.add(Frame::Run(write_log(MOST_PROGRAM, &records)), None);
    if let Some(last) = records.last_mut() {
        *last = twin(random, last);
        script.add(Frame::Run(write_log(MOST_PROGRAM, &records)), None);
    }
}

/// The same with another last value, or with another byte in its number.
fn twin(random: &mut Random, record: &Record) -> Record {
    let mut twin = record.clone();
    match random.below(3) {
        0 => twin.call = wide::other_byte(random, record.call),
        _ => twin.values[usize::from(LAST_VALUE)] = wide::last_value(random),
    }
    twin
}
