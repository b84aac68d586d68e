//! The cases of the program `monitor_cases`: single events offered to states of every kind, and
//! logs. Chosen ones with answers written down here, and random ones from a fixed seed.

use crate::framing::monitor_frames::Arms;
use crate::framing::script_frames::{Bench, Field, Set};
use crate::implementation::sheet::Sheet;
use crate::implementation::state::SheetState;
use crate::making::cases::sheet_cases::SHEET_A;
use crate::making::draft::SheetDraft;
use crate::making::generate::{self, Size};
use crate::making::random::Random;
use crate::making::scripts::count_forms::Form;
use crate::making::scripts::counting_preconditions;
use crate::making::scripts::entry_clauses;
use crate::making::scripts::entry_positions;
use crate::making::scripts::judged_counts;
use crate::making::scripts::monitor_clauses::{
    BASE_CLAUSES, EDGE_CLAUSES, FULL_CLAUSES, TINY_CLAUSES,
};
use crate::making::scripts::random_script::on_rules;
use crate::making::scripts::script::{self, entry, exit, Sort};
use crate::making::scripts::script_ends;
use crate::making::scripts::shared_cases::{self, base, full_state, tiny, Events, Near, Subject};
use crate::making::scripts::shared_clauses::Clause;
use crate::making::scripts::tried_counts;
use crate::making::scripts::wide_cases;

pub type Page = script::Page<Arms>;
type Script = script::Script<Sheet>;

impl Subject for Sheet {
    const BASE_LINES: [&'static str; 2] = [
        "x0=5 x1=-1 o=1 n0=7 e0=1 k0.0=2 k0.1=1 a0=2 t0.1=3 p=1",
        "x0=6 x1=-1 o=2 n0=7 e0=1 k0.0=2 k0.1=1 a0=2 t0.1=3 \
         n1=8 u1=1 e1=2 k1.0=3 k1.1=4 a1=1 t1.0=4 p=2",
    ];
    const EDGE_LINE: &'static str = "m=15 x0=-2147483648 x1=-1 x3=2147483647 o=1 n0=65535 u0=15 \
        e0=1 k0.0=1 k0.1=2 k0.2=3 k0.3=4 k0.4=5 k0.5=6 k0.6=7 k0.7=-1 a0=4 t0.1=1 t0.2=2 t0.3=3 p=1";
    const BREAKS: [Set<Arms>; 5] = [
        (Field::Variable(3), 1),
        (Field::Kept(1, 7), 1),
        (Field::Own(Arms::Count(0)), 5),
        (Field::Unit(1), 2),
        (Field::Own(Arms::Triple(1, 3)), 1),
    ];
    const ENTRY_CLAUSES: &'static [Clause<Arms>] = &[];

    fn of_sheet(draft: &SheetDraft) -> Vec<u8> {
        draft.bytes()
    }

    fn like(_: &mut Random, draft: SheetDraft) -> Vec<u8> {
        draft.bytes()
    }

    fn arm(state: &mut SheetState, place: usize, triple: u8) {
        let armed = &mut state.armed[place];
        armed.triples[usize::from(armed.count)] = triple;
        armed.count += 1;
    }

    fn settling_checkers(_: &SheetState) -> Vec<Set<Arms>> {
        Vec::new()
    }

    fn own_field(random: &mut Random, number: usize, _: &Bench<Sheet>, near: Near) -> Set<Arms> {
        let (field, value) = match number {
            0 => (Arms::Count(near.place), random.below(6) as u32),
            _ => (Arms::Triple(near.place, near.number), near.cause.into()),
        };
        (Field::Own(field), value)
    }
}

// ---- Document 01 ------------------------------------------------------------------------------

fn document(script: &mut Script) {
    script.sort = Sort::Reached;
    script.rules(&SHEET_A);
    script.fresh("accepted");
    let opened = "m=1 o=1 n0=7 e0=1 k0.0=8 a0=1 p=1";
    script.step(&entry(0, 7, &[8, 0]), &format!("taken {opened}"));
    script.offer(&exit(0, 7, &[8, 8]), "taken p=2");
    let violated = "p=2 violated 2 state - triple 0 entry 1";
    script.offer(&exit(0, 7, &[8, 7]), &format!("taken {violated}"));
    script.offer(&exit(0, 9, &[8, 8]), &format!("refused 15 {opened}"));
    script.offer(&entry(0, 7, &[8, 0]), &format!("refused 13 {opened}"));
    let other = "m=1 o=2 n0=7 e0=1 k0.0=8 a0=1 n1=9 e1=2 k1.0=3 p=2";
    script.step(&entry(0, 9, &[3, 0]), &format!("taken {other}"));
    let outer = "o=1 n0=7 e0=1 k0.0=8 a0=1 p=3";
    script.step(&exit(0, 9, &[3, 0]), &format!("taken {outer}"));
    script.step(
        &exit(0, 7, &[7, 7]),
        "taken p=4 violated 4 state - triple 0 entry 1",
    );
    script.offer(&entry(0, 7, &[8, 0]), "refused 10");
    shared_cases::document_runs(script);
}

// ---- Soundness --------------------------------------------------------------------------------

fn soundness(script: &mut Script) {
    shared_cases::base_soundness(script, BASE_CLAUSES);
    full_state(script);
    let usual = Events::new(entry(0, 9, &[1, 3]), "refused 14", exit(0, 102, &[2, 2]));
    shared_cases::clauses(script, FULL_CLAUSES, &usual);
    shared_cases::tiny_soundness(script, TINY_CLAUSES);
    shared_cases::edge_soundness(script, EDGE_CLAUSES);
}

// ---- Positions and places ---------------------------------------------------------------------

fn positions(script: &mut Script) {
    shared_cases::positions(script);
    let seven = "n0=7 e0=1 k0.0=2 k0.1=1 a0=2 t0.1=3";
    let eight = "n1=8 u1=1 e1=2 k1.0=3 k1.1=4 a1=1 t1.0=4";
    let nine = "n2=9 e2=4294967295 k2.0=1 k2.1=3 a2=4 t2.1=1 t2.2=3 t2.3=5";
    let without_seven = "o=1 n0=8 u0=1 e0=2 k0.0=3 k0.1=4 a0=1 t0.0=4 p=4294967295";
    let all_three = format!("o=3 {seven} {eight} {nine} p=4294967295");
    let without_eight = format!("o=1 {seven} p=4294967295");
    let mut last = |event, state: &str, after| {
        shared_cases::last_event(script, &event, state, after);
    };
    last(entry(0, 9, &[1, 3]), &format!("x0=6 x1=-1 {all_three}"), 12);
    let state = format!("x0=6 x1=-1 {without_seven}");
    last(exit(0, 7, &[2, 2]), &state, 12);
    let end = "violated 4294967295 state - triple 0 entry 1";
    let state = format!("m=1 x0=7 x1=-1 {without_seven} {end}");
    last(exit(0, 7, &[2, 3]), &state, 10);
    for (value, triple, entered) in [(3, "-", 0), (2, "4", 2)] {
        let end = format!("violated 4294967295 state 2 triple {triple} entry {entered}");
        let state = format!("m=2 x0=6 x1=-1 {without_eight} {end}");
        last(exit(1, 8, &[1, value]), &state, 10);
    }
}

/// Exit values by which nothing is broken in the state with sixteen calls.
fn leaving(number: u16) -> [i32; 2] {
    match number {
        100 => [-5, 0],
        _ => [99, i32::from(number) - 100],
    }
}

/// The calls one by one up to sixteen, then out of the middle, the front and the end.
fn filling(script: &mut Script) {
    full_state(script);
    script.sort = Sort::Filling;
    let values = [9, 7];
    for unit in [0, 1] {
        script.offer(&entry(unit, 99, &values), "refused 14");
        script.offer(&entry(unit, 100, &values), "refused 13");
        script.offer(&entry(unit, 115, &values), "refused 13");
        script.offer(&exit(unit, 99, &values), "refused 15");
    }
    for (place, number) in (0..16).zip(100..) {
        let unit = place % 2;
        let other = 1 - unit;
        script.offer(&exit(other, number, &values), "refused 15");
        script.offer(&exit(unit, number, &values), "taken");
        // Of unit 1 these lead to the bad state and fail the postcondition.
        script.offer(&exit(unit, number, &[0, 99]), "taken");
    }
    // Fifteen open, then sixteen again, then none.
    for number in [107, 100, 115] {
        let unit = (number % 2) as u8;
        script.restore();
        script.step(&exit(unit, number, &leaving(number)), "taken");
        script.offer(&exit(unit, number, &values), "refused 15");
        script.offer(&entry(unit, 108, &values), "refused 13");
        script.step(&entry(unit, number, &values), "taken");
        script.offer(&entry(unit, number + 100, &values), "refused 14");
    }
    script.restore();
    for number in [
        101, 114, 115, 100, 108, 107, 102, 113, 103, 112, 104, 111, 105, 110, 106, 109,
    ] {
        let unit = (number % 2) as u8;
        script.step(&exit(unit, number, &leaving(number)), "taken");
    }
}

// ---- Refusals ---------------------------------------------------------------------------------

fn refusals_together(script: &mut Script) {
    shared_cases::base_state(script);
    shared_cases::together(script, &shared_cases::asks_of_two(), 0);
    shared_cases::together(script, &shared_cases::asks_of_two(), 3);
    full_state(script);
    shared_cases::together(script, &shared_cases::asks_of_sixteen(), 1);
    shared_cases::together(script, &shared_cases::asks_of_sixteen(), 4);
    shared_cases::arguments(script);
}

/// Sheets that are refused, each with its number.
fn refused_sheets() -> Vec<(u8, Vec<u8>)> {
    let good = base().bytes();
    let small = tiny().bytes();
    let mut sheets = vec![
        (1, Vec::new()),
        (1, small[..13].to_vec()),
        (1, [&small[..], &[0]].concat()),
        (1, good[..good.len() - 1].to_vec()),
    ];
    let mut change = |number: u8, start: SheetDraft, change: &dyn Fn(&mut SheetDraft)| {
        let mut sheet = start;
        change(&mut sheet);
        sheets.push((number, sheet.bytes()));
    };
    change(2, tiny(), &|d| d.front.version = 2);
    change(2, base(), &|d| d.front.version = 0);
    change(3, tiny(), &|d| d.front.states = 0);
    change(3, tiny(), &|d| d.front.units = 17);
    change(3, base(), &|d| d.front.start = 2);
    change(4, tiny(), &|d| d.front.monitor = 1);
    change(4, base(), &|d| d.front.conditions[1].clear());
    change(5, tiny(), &|d| d.front.conditions.push(vec![7]));
    change(5, base(), &|d| d.front.actions[1][0] = 2);
    change(6, tiny(), &|d| d.triples.push([0; 4]));
    change(6, base(), &|d| d.transitions[4][5] = 4);
    change(7, SheetDraft::new(1, 1, 0, &[0]), &|d| {
        d.front.conditions.push(vec![5, 18, 0, 18, 0]);
        d.triples.push([0; 4]);
    });
    change(7, base(), &|d| d.triples[7][2] = 1);
    change(8, tiny(), &|d| {
        d.front.conditions.push(vec![0]);
        d.triples = vec![[0; 4]; 5];
    });
    change(8, base(), &|d| d.triples[4][1] = 0);
    sheets
}

fn reading(script: &mut Script) {
    shared_cases::reading(script, &refused_sheets());
}

fn reading_before_entries(script: &mut Script) {
    entry_clauses::reading(script, &refused_sheets());
}

// ---- Random cases -----------------------------------------------------------------------------

const SEED: u64 = 0x5741_5443_4806;
/// Generated sheets.
const SHEETS: usize = 32;
/// The longest generated sheet, to keep the file small.
const LONGEST: usize = 100;

/// With several transitions and triples, of which some can bring about a verdict.
pub(crate) fn random_sheet(random: &mut Random) -> SheetDraft {
    loop {
        let draft = generate::sheet(random, Size::Small);
        let start = draft.front.start;
        let bad = |state: u8| draft.front.bad & (1 << state) != 0;
        let checked = |unit: u8| draft.triples.iter().any(|t| t[1] == unit);
        // An exit, so that there can be two causes.
        let bad_exit = |t: &[u8; 6]| t[0] == start && t[1] == 1 && checked(t[2]) && bad(t[5]);
        let ends_badly = draft.transitions.iter().any(bad_exit);
        let arms = draft.triples.iter().any(|t| t[0] == start);
        let rules = draft.transitions.len() >= 3 && draft.triples.len() >= 2;
        if rules && ends_badly && arms && draft.bytes().len() <= LONGEST {
            return draft;
        }
    }
}

fn random_cases(script: &mut Script) {
    let mut random = Random::new(SEED);
    for _ in 0..SHEETS {
        let draft = random_sheet(&mut random);
        on_rules(script, &mut random, &draft.bytes());
    }
    let greatest = generate::sheet(&mut random, Size::Full);
    on_rules(script, &mut random, &greatest.bytes());
}

// ---- All --------------------------------------------------------------------------------------

/// The refusals together, and what 9 asks about entry positions.
fn refusals() -> Page {
    let [calls, sixteen, verdicts, others] = entry_clauses::parts();
    Script::of(&[
        refusals_together,
        calls,
        sixteen,
        verdicts,
        others,
        reading_before_entries,
    ])
}

/// How many operators and operands are evaluated: what the pages before it have no room for.
fn last_counts() -> Page {
    let others = tried_counts::others::<Sheet>(Form::Sheet).into_iter();
    others
        .chain(judged_counts::runs::<Sheet>(Form::Sheet))
        .collect()
}

pub fn all() -> Vec<Page> {
    let first = Script::of(&[
        document,
        soundness,
        positions,
        filling,
        reading,
        shared_cases::logs,
        random_cases,
    ]);
    let last = [
        script_ends::page::<Sheet>(),
        counting_preconditions::page::<Sheet>(),
        refusals(),
        entry_positions::page::<Sheet>(),
        entry_positions::long_page::<Sheet>(),
        tried_counts::rivals_page::<Sheet>(Form::Sheet),
        judged_counts::events_page::<Sheet>(Form::Sheet),
        last_counts(),
    ];
    [vec![first], wide_cases::pages::<Sheet>(), last.into()]
        .into_iter()
        .flatten()
        .collect()
}
