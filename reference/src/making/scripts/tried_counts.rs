//! The pages that `monitor_cases` and `network_cases` have for the conditions tried at an event and the values
//! assigned (document 02, slip 3): no transition to as many as there can be, with others of another state, kind or
//! unit between them, and events that count as much as can be. All counts are worked out here.

use crate::framing::script_frames::{Field, Rules};
use crate::implementation::machine::Kind;
use crate::implementation::run::Record;
use crate::making::cases::condition_cases::{joined, nots, number, op, FALSE, M0, P0, TRUE};
use crate::making::cases::condition_ends::{minus, plus};
use crate::making::draft::{NetworkDraft, SheetDraft};
use crate::making::scripts::count_forms::{behind, offer, rows, start, step, Form};
use crate::making::scripts::script::{entry, event, exit, Page, Script};
use crate::making::scripts::shared_cases::{ran, Subject};

/// That the value is this number, behind so many times `and true`.
fn is_value(n: u8, times: usize) -> Vec<u8> {
    behind(times, &op(5, &[P0, &number(n.into())]))
}

fn reached(times: usize) -> u64 {
    3 + 2 * times as u64
}

// ---- Rivals -----------------------------------------------------------------------------------

/// The most transitions of a sheet.
const ALL: u8 = 64;

/// What goes round with the rivals: how often `and true` stands before a condition, and the action.
fn turn(n: u8) -> u8 {
    n % 3
}

/// An action for each turn, and its count. The last one's second value sees what the first has assigned: a
/// variable over 3 makes it reach three more, and one below reaches one.
fn actions() -> [Vec<u8>; 3] {
    let seen = op(22, &[&op(4, &[M0, &number(3)]), P0, &plus(P0, M0)]);
    [
        Vec::new(),
        op(0, &[P0]),
        joined(&[&[0], &plus(M0, P0), &[0], &seen]),
    ]
}

/// The variable is 0 before each event.
fn acted(n: u8) -> u64 {
    let chosen = if n < 3 { 1 } else { 3 };
    [0, 1, 3 + 1 + 3 + chosen][usize::from(turn(n))]
}

/// One state and unit, P 1, V 1. So many transitions of a kind: number n is taken where the value is n.
fn rivals(kind: Kind, count: u8) -> SheetDraft {
    let mut sheet = SheetDraft::new(1, 1, 1, &[0]);
    let conditions = (0..count).map(|n| is_value(n, turn(n).into()));
    sheet.front.conditions = conditions.collect();
    sheet.front.actions = actions().into();
    for n in 0..count {
        sheet.transition(0, 0, (kind, 0), n, turn(n));
    }
    sheet
}

/// The count where the value is this number: up to and including the one taken, or all of them.
fn rivals_tried(form: Form, count: u8, value: u8) -> u64 {
    let tried = (0..count).take(usize::from(value) + 1);
    let own: Vec<u64> = tried.map(|n| reached(turn(n).into())).collect();
    let acted = if value < count { acted(value) } else { 0 };
    form.tried(&own) + acted
}

/// None, one and all 64, taken at every place and not at all.
fn each_rival<R: Subject>(script: &mut Script<R>, form: Form) {
    for kind in [Kind::Entry, Kind::Exit] {
        for count in [0, 1, 2, ALL] {
            start(script, &form.of_sheet::<R>(&rivals(kind, count)));
            if kind == Kind::Exit {
                step(script, &entry(0, 7, &[0]), 0);
            }
            for value in 0..=count {
                let event = event(kind.byte(), 0, 7, &[value.into()]);
                offer(script, &event, rivals_tried(form, count, value));
            }
        }
    }
}

/// Events of the other kind try none of them.
fn other_kind<R: Subject>(script: &mut Script<R>, form: Form) {
    start(script, &form.of_sheet::<R>(&rivals(Kind::Exit, 2)));
    for (number, value) in (0..).zip([0, 1, 2]) {
        step(script, &entry(0, number, &[value]), 0);
    }
    let total = |values: &[u8]| -> u64 {
        let counts = values.iter().map(|value| rivals_tried(form, 2, *value));
        counts.sum()
    };
    for values in [&[][..], &[0], &[1], &[2], &[1, 2], &[2, 0, 0, 1], &[2; 16]] {
        let entries = (0..).zip(values).map(|(n, _)| entry(0, n, &[0]));
        let exits = (0..).zip(values);
        let exits = exits.map(|(n, value)| exit(0, n, &[i32::from(*value)]));
        let records: Vec<Record> = entries.chain(exits).collect();
        let line = ran(0, 0, records.len() as u32, None);
        script.run_records(1, &records, &line);
        script.counts(total(values));
    }
}

// ---- Others between them ----------------------------------------------------------------------

/// States 0-1, units 0-1, P 1. Transition n is of the place n % 8, which gives its state, kind and unit, and
/// is taken where the value is n / 8. Those of a place have `and true` as often as its number says.
fn mixed() -> SheetDraft {
    let mut sheet = SheetDraft::new(2, 2, 1, &[]);
    let conditions = (0..ALL).map(|n| is_value(n / 8, usize::from(n % 8)));
    sheet.front.conditions = conditions.collect();
    sheet.front.actions = vec![Vec::new()];
    for n in 0..ALL {
        let (state, kind, unit) = place(n % 8);
        sheet.transition(state, state, (kind, unit), n, 0);
    }
    sheet
}

fn place(n: u8) -> (u8, Kind, u8) {
    let kind = [Kind::Entry, Kind::Exit][usize::from(n / 2 % 2)];
    (n % 2, kind, n / 4)
}

/// Every state, kind and unit: only its own eight are tried.
fn between_others<R: Subject>(script: &mut Script<R>, form: Form) {
    start(script, &form.of_sheet::<R>(&mixed()));
    // Calls 0 and 1, of these units, entered where none holds.
    for unit in [0, 1] {
        let (_, own) = tried_of(4 * unit, 9);
        step(script, &entry(unit, unit.into(), &[9]), form.tried(&own));
    }
    script.save();
    for n in 0..8 {
        let (state, kind, unit) = place(n);
        let call = match kind {
            Kind::Entry => 7,
            Kind::Exit => u16::from(unit),
        };
        script.restore();
        script.set(&[(Field::Main, state.into())]);
        for value in 0..=8 {
            let (value, own) = tried_of(n, value);
            let event = event(kind.byte(), unit, call, &[value]);
            offer(script, &event, form.tried(&own));
        }
    }
}

/// A value, and the counts of those of a place that it makes tried.
fn tried_of(n: u8, value: i32) -> (i32, Vec<u64>) {
    let tried = (value + 1).min(8) as usize;
    (value, vec![reached(n.into()); tried])
}

// ---- Later values -----------------------------------------------------------------------------

/// One state and unit, P 1, V 2. The first entry's condition never holds; by the value it reaches one of two branches.
/// The second is always taken: it makes the value the first variable, and the second variable is assigned by that.
fn assigning() -> SheetDraft {
    let mut sheet = SheetDraft::new(1, 1, 1, &[0, 0]);
    let chosen = op(22, &[&op(4, &[P0, &number(3)]), P0, &minus(P0, M0)]);
    let by_first = op(22, &[&op(4, &[M0, &number(3)]), P0, &plus(P0, P0)]);
    sheet.front.conditions = vec![op(4, &[&chosen, &number(i32::MIN)]), TRUE.to_vec()];
    sheet.front.actions = vec![joined(&[&[0], P0, &[1], &by_first])];
    sheet.transition(0, 0, (Kind::Entry, 0), 0, 0);
    sheet.transition(0, 0, (Kind::Entry, 0), 1, 0);
    sheet
}

/// Whatever the variables were before it.
fn assigned(form: Form, p: i32) -> u64 {
    let branch = if p < 3 { 1 } else { 3 };
    form.tried(&[1 + (1 + 3 + branch) + 1, 1]) + 1 + (1 + 3 + branch)
}

/// Each value after each variable, which a later value does not see.
fn later_values<R: Subject>(script: &mut Script<R>, form: Form) {
    start(script, &form.of_sheet::<R>(&assigning()));
    for x in [i32::MIN, 2, 3, i32::MAX] {
        script.restore();
        script.set(&[(Field::Variable(0), x as u32)]);
        for p in [0, 2, 3, 9] {
            offer(script, &entry(0, 7, &[p]), assigned(form, p));
        }
    }
    for place in 0..16 {
        let values = [place, place / 2, place / 4, place / 8].map(|n| [2, 3][n % 2]);
        let entries = (0..).zip(values).map(|(n, p)| entry(0, n, &[p]));
        let records: Vec<Record> = entries.collect();
        script.run_records(1, &records, &ran(0, 4, 4, None));
        script.counts(values.into_iter().map(|p| assigned(form, p)).sum());
    }
}

// ---- As many as can be ------------------------------------------------------------------------

/// The most of a form: transitions, and bytes of a condition.
fn most(form: Form) -> (u8, usize) {
    match form {
        Form::Sheet => (ALL, 64),
        Form::Version2 => (96, 64),
        Form::Version3 => (96, 1_024),
    }
}

/// Of this many bytes, all of which are reached: one that fails and one that holds.
fn full_conditions(length: usize) -> Vec<Vec<u8>> {
    let holds = op(3, &[FALSE, &nots(length - 4, TRUE)]);
    vec![nots(length - 1, TRUE), holds]
}

/// 64 bytes, of which 60 are reached: all but the assigned variable's number, that of the chosen one and
/// the other branch.
fn full_action() -> Vec<u8> {
    op(0, &[&op(22, &[&nots(57, TRUE), M0, M0])])
}

const FULL_ACTION: u64 = 60;

/// One state and unit, V 1. The last of as many transitions as can be is taken, or none; four triples.
fn greatest_sheet(kind: Kind, is_taken: bool) -> SheetDraft {
    let mut sheet = SheetDraft::new(1, 1, 0, &[0]);
    sheet.front.conditions = full_conditions(64);
    sheet.front.actions = vec![full_action()];
    for n in 0..ALL {
        let condition = u8::from(is_taken && n == ALL - 1);
        sheet.transition(0, 0, (kind, 0), condition, 0);
    }
    (0..4).for_each(|_| sheet.triple(0, 0, 1, 1));
    sheet
}

/// The same as a network that no sheet has. The last transition is an entry with four pairs; the others are of
/// this kind.
pub fn greatest_network(kind: Kind, form: Form) -> Vec<u8> {
    let (transitions, length) = most(form);
    let mut network = NetworkDraft::new(1, 1, 0, &[0]);
    network.front.conditions = full_conditions(length);
    network.front.actions = vec![full_action()];
    network.templates = vec![[0, 1]; 4];
    for n in 1..transitions {
        // The last of the exits is taken; of the entries none before the one with pairs.
        let is_last = n == transitions - 1 && kind == Kind::Exit;
        network.creating([0, kind.byte(), 0, is_last.into(), 0, 0], &[]);
    }
    network.creating([0, 0, 0, 1, 0, 0], &[[1, 0], [1, 1], [1, 2], [1, 3]]);
    match form {
        Form::Version3 => network.in_version_3().bytes(),
        Form::Sheet | Form::Version2 => network.bytes(),
    }
}

/// Sixteen calls entered and left, offered one by one and as a run.
fn sixteen_calls<R: Rules>(script: &mut Script<R>, entered: u64, left: u64) {
    let entries: Vec<Record> = (0..16).map(|n| entry(0, n, &[])).collect();
    let exits: Vec<Record> = (0..16).map(|n| exit(0, n, &[])).collect();
    step(script, &entries[0], entered);
    step(script, &entries[1], entered);
    offer(script, &exits[0], left);
    step(script, &exits[1], left);
    for count in [1, 2, 16] {
        script.run_records(0, &entries[..count], &ran(0, count, count as u32, None));
        script.counts(count as u64 * entered);
    }
    let records = [entries, exits].concat();
    script.run_records(0, &records, &ran(0, 0, 32, None));
    script.counts(16 * (entered + left));
}

/// On sheets and their networks, where conditions are too long to be joined: 4,412 at an entry or at an exit.
fn greatest<R: Subject>(script: &mut Script<R>, form: Form) {
    let (all, four) = (u64::from(ALL) * 64, 4 * 64);
    for is_taken in [true, false] {
        let acted = if is_taken { FULL_ACTION } else { 0 };
        // Where none is taken, the one that was added to a network is tried too.
        let added = u64::from(!is_taken && form != Form::Sheet);
        start(
            script,
            &form.of_sheet::<R>(&greatest_sheet(Kind::Entry, is_taken)),
        );
        sixteen_calls(script, all + added + acted + four, four);
        start(
            script,
            &form.of_sheet::<R>(&greatest_sheet(Kind::Exit, is_taken)),
        );
        let added = u64::from(form != Form::Sheet);
        sixteen_calls(script, added + four, all + acted + four);
    }
}

/// On networks that no sheet has: 6,460 in version 2 and 102,460 in version 3.
fn greatest_of_networks<R: Subject>(script: &mut Script<R>, form: Form) {
    if form == Form::Sheet {
        return;
    }
    let (transitions, length) = most(form);
    let (one, four) = (length as u64, 4 * length as u64);
    let all_but_one = (u64::from(transitions) - 1) * one;
    start(script, &greatest_network(Kind::Entry, form));
    sixteen_calls(script, all_but_one + one + FULL_ACTION + four, four);
    start(script, &greatest_network(Kind::Exit, form));
    let entered = one + FULL_ACTION + four;
    sixteen_calls(script, entered, all_but_one + FULL_ACTION + four);
}

// ---- All --------------------------------------------------------------------------------------

/// Those of one state, kind and unit.
pub fn rivals_page<R: Subject>(form: Form) -> Page<R::Own> {
    rows::<R>(form, &[each_rival, other_kind])
}

/// The rest.
pub fn others<R: Subject>(form: Form) -> Page<R::Own> {
    let parts = [between_others, later_values, greatest, greatest_of_networks];
    rows::<R>(form, &parts)
}
