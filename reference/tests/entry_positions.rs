//! Document 02's slip 4: each open call remembers its entry's position, and so do its checkers; a verdict with
//! a triple carries it. What the committed cases must show of it is written down here, whatever the generators
//! make, and looked for in the files that the case programs read; so are the faults that they would see.

mod committed;
mod visiting;

use committed::{add, assert_shown, Counts};
use reference::counting::ends::Written;
use reference::counting::entries::{of_log, wanted, Mistake, Taken};
use reference::counting::tally;
use reference::framing::monitor_frames::Arms;
use reference::framing::network_frames::Checkers;
use reference::framing::script_frames::{Frame, Own};
use reference::implementation::engine::{Engine, Event};
use reference::implementation::expr::{Condition, Value};
use reference::implementation::machine::Kind;
use reference::implementation::network::Network;
use reference::implementation::program::{output, split};
use reference::implementation::refusal::Refusal;
use reference::implementation::run::{follow, read_log, run_records, write_log, Record};
use reference::implementation::sheet::Sheet;
use reference::implementation::state::{
    Call, Cause, Checker, Common, NetworkState, SheetState, Verdict,
};
use reference::making::cases::program_cases;
use reference::making::cases::sheet_cases::{LOG_A, SHEET_A};
use reference::making::draft::SheetDraft;
use reference::making::generate::{self, Manner, Shape, Size};
use reference::making::random::Random;
use reference::making::scripts::script::{entry, exit};
use std::collections::{BTreeMap, HashSet};
use visiting::visit;

const LAST: u32 = u32::MAX;

// ---- The words of the slip --------------------------------------------------------------------

/// One state and two units, P 1: each call of either asks that the value be the one at entry. Exits below 0
/// lead to the bad state.
fn returning() -> Sheet {
    let mut sheet = SheetDraft::new(2, 2, 1, &[]);
    sheet.front.bad = 0b10;
    let (value, at_entry) = (Box::new(Value::Program(0)), Box::new(Value::AtEntry(0)));
    let always = sheet.condition(&Condition::True);
    let same = sheet.condition(&Condition::Equal(value.clone(), at_entry));
    let below = sheet.condition(&Condition::Less(value, Box::new(Value::Constant(0))));
    sheet.front.actions.push(Vec::new());
    for unit in [0, 1] {
        sheet.transition(0, 1, (Kind::Exit, unit), below, 0);
        sheet.triple(0, unit, always, same);
    }
    Sheet::read(&sheet.bytes()).expect("a sheet")
}

/// The line of a run, which must be the same on the sheet and on both of its networks.
fn line(sheet: &Sheet, records: &[Record]) -> String {
    let network = sheet.translate();
    let on_sheet = run_records(sheet, records).result;
    let card = network.separated();
    assert_eq!(run_records(&network, records).result, on_sheet);
    assert_eq!(run_records(&card, records).result, on_sheet);
    on_sheet.to_string()
}

/// "The line becomes `violated 2 state - triple 0 entry 1`".
#[test]
fn the_line_of_the_sample() {
    let line = "violated 2 state - triple 0 entry 1\n";
    assert_eq!(output(&[&SHEET_A[..], &LOG_A].concat()), line.repeat(2));
}

/// "with `-` where no triple failed": by a bad state alone, at an exit and with calls open.
#[test]
fn a_dash_where_no_triple_failed() {
    let begun = [entry(0, 7, &[3]), entry(1, 8, &[-4])];
    for (last, expected) in [
        (exit(1, 8, &[-4]), "violated 3 state 1 triple - entry -"),
        (exit(1, 8, &[-5]), "violated 3 state 1 triple 1 entry 2"),
        (exit(1, 8, &[4]), "violated 3 state - triple 1 entry 2"),
        (exit(0, 7, &[-3]), "violated 3 state 1 triple 0 entry 1"),
        (exit(0, 7, &[3]), "clean 3 state 0 open 1"),
    ] {
        let records = [&begun[..], &[last]].concat();
        assert_eq!(line(&returning(), &records), expected);
    }
}

/// "where the call started": whichever call it is, whatever came between, however often its number came.
#[test]
fn the_call_s_own_entry() {
    let calls = [(7, 1), (8, 2), (9, 4), (7, 6)];
    let begun = [
        entry(0, 7, &[1]),
        entry(1, 8, &[2]),
        exit(0, 7, &[1]),
        entry(0, 9, &[3]),
        entry(1, 3, &[5]),
        entry(1, 7, &[4]),
        exit(1, 3, &[5]),
    ];
    for (number, entered) in &calls[1..] {
        let unit = u8::from(*number != 9);
        let records = [&begun[..], &[exit(unit, *number, &[99])]].concat();
        let triple = unit;
        let expected = format!("violated 8 state - triple {triple} entry {entered}");
        assert_eq!(line(&returning(), &records), expected);
    }
}

/// A refused event has no position, so it moves no later one.
#[test]
fn positions_are_of_accepted_events() {
    let sheet = returning();
    let mut state = sheet.fresh();
    let mut offer = |event: Record| match sheet.event(&state, &event.event()) {
        Ok(next) => state = next,
        Err(refusal) => assert_ne!(refusal, Refusal::Unsound),
    };
    offer(entry(0, 7, &[1]));
    offer(entry(0, 7, &[1]));
    offer(exit(0, 9, &[1]));
    offer(entry(5, 8, &[1]));
    offer(entry(0, 8, &[1]));
    offer(exit(0, 8, &[2]));
    let verdict = Verdict {
        position: 3,
        cause: Cause::Triple(0),
        entry: 2,
    };
    assert_eq!(state.common.verdict, Some(verdict));
}

/// "Each open call shall remember its entry's position", "a verdict with a triple carries it" and "checkers
/// carry it too": kept here beside the engine, on random sheets and their networks.
#[test]
fn every_state_of_a_run_has_the_positions_of_entries() {
    let mut random = Random::new(41);
    let mut carried = 0;
    for _ in 0..2_000 {
        let draft = generate::sheet(&mut random, Size::Small);
        let manner = Manner {
            breaks: random.pick(&[0, 8]),
            entries: 5,
        };
        let records = generate::records(&mut random, Shape::of(&draft), manner, 20);
        let sheet = Sheet::read(&draft.bytes()).expect("a draft is a sheet");
        let network = sheet.translate();
        carried += positions_are_kept(&sheet, &records);
        carried += positions_are_kept(&network, &records);
        carried += positions_are_kept(&network.separated(), &records);
    }
    assert!(carried > 500, "{carried} verdicts carry an entry position");
}

/// Offers the records up to a verdict; gives whether it carries an entry position.
fn positions_are_kept<R: Entered>(rules: &R, records: &[Record]) -> usize {
    let (mut state, mut entered) = (rules.fresh(), BTreeMap::new());
    let mut position = 0;
    for record in records {
        let Ok(next) = rules.event(&state, &record.event()) else {
            continue;
        };
        position += 1;
        if record.kind == 0 {
            entered.insert(record.call, position);
        }
        let common = R::common(&next);
        assert!(rules.is_sound(&next));
        assert!(common
            .open_calls()
            .iter()
            .all(|c| entered[&c.number] == c.entry));
        let (checkers, living) = R::checkers(&next);
        let living = &checkers[..living];
        assert!(living.iter().all(|c| entered[&c.call] == c.entry));
        if let Some(verdict) = common.verdict {
            let triple = verdict.cause.triple();
            let entry = triple.map_or(0, |_| entered[&record.call]);
            assert_eq!((verdict.position, verdict.entry), (position, entry));
            return usize::from(entry != 0);
        }
        state = next;
    }
    0
}

// ---- What 9 asks ------------------------------------------------------------------------------

/// Sheets and networks, whose states have no checkers or have some.
trait Entered: Written {
    /// All places, and how many of them live.
    fn checkers(state: &Self::State) -> (&[Checker], usize);
    fn checkers_mut(state: &mut Self::State) -> &mut [Checker];
}

impl Entered for Sheet {
    fn checkers(_: &SheetState) -> (&[Checker], usize) {
        (&[], 0)
    }

    fn checkers_mut(_: &mut SheetState) -> &mut [Checker] {
        &mut []
    }
}

impl Entered for Network {
    fn checkers(state: &NetworkState) -> (&[Checker], usize) {
        (&state.checkers, state.living_checkers().len())
    }

    fn checkers_mut(state: &mut NetworkState) -> &mut [Checker] {
        &mut state.checkers
    }
}

/// The clauses of 9 on entry positions, and that unused places have none.
#[derive(Clone, Copy, Debug, PartialEq, Eq)]
enum Clause {
    NotZero,
    NotAbove,
    Rising,
    FreeCalls,
    OfCheckers,
    FreeCheckers,
    WithTriple,
    WithoutTriple,
}

const CLAUSES: [Clause; 8] = [
    Clause::NotZero,
    Clause::NotAbove,
    Clause::Rising,
    Clause::FreeCalls,
    Clause::OfCheckers,
    Clause::FreeCheckers,
    Clause::WithTriple,
    Clause::WithoutTriple,
];

/// What the clauses are about.
struct Positions<'a> {
    position: u32,
    open: &'a [Call],
    free_calls: &'a [Call],
    living: &'a [Checker],
    free_checkers: &'a [Checker],
    verdict: Option<Verdict>,
}

impl<'a> Positions<'a> {
    fn of<R: Entered>(state: &'a R::State) -> Positions<'a> {
        let common = R::common(state);
        let (open, free_calls) = common.calls.split_at(common.open_calls().len());
        let (checkers, living) = R::checkers(state);
        let (living, free_checkers) = checkers.split_at(living);
        Positions {
            position: common.position,
            open,
            free_calls,
            living,
            free_checkers,
            verdict: common.verdict,
        }
    }

    fn entries(&self) -> Vec<u32> {
        self.open.iter().map(|call| call.entry).collect()
    }

    fn rise(&self, is_below: impl Fn(u32, u32) -> bool) -> bool {
        let two = self.open.windows(2);
        two.into_iter()
            .all(|two| is_below(two[0].entry, two[1].entry))
    }

    /// The entry position of the open call with a checker's number, if there is one.
    fn of_call(&self, checker: &Checker) -> Option<u32> {
        let own = self.open.iter().find(|call| call.number == checker.call);
        own.map(|call| call.entry)
    }

    /// Of the verdict's own position and what it carries, where a triple failed or where none did.
    fn carries(&self, triple: bool, fits: impl Fn(u32, u32) -> bool) -> bool {
        let verdict = self
            .verdict
            .filter(|v| v.cause.triple().is_some() == triple);
        verdict.is_none_or(|verdict| fits(verdict.position, verdict.entry))
    }
}

impl Clause {
    fn holds(self, at: &Positions) -> bool {
        match self {
            Clause::NotZero => at.open.iter().all(|call| call.entry != 0),
            Clause::NotAbove => at.open.iter().all(|call| call.entry <= at.position),
            Clause::Rising => at.rise(|one, next| one < next),
            Clause::FreeCalls => at.free_calls.iter().all(|call| call.entry == 0),
            Clause::OfCheckers => {
                let is_own = |c: &Checker| at.of_call(c).is_none_or(|entry| entry == c.entry);
                at.living.iter().all(is_own)
            }
            Clause::FreeCheckers => at.free_checkers.iter().all(|c| c.entry == 0),
            Clause::WithTriple => at.carries(true, |own, entry| 1 <= entry && entry < own),
            Clause::WithoutTriple => at.carries(false, |_, entry| entry == 0),
        }
    }
}

/// Whether all but the entry positions of a state is sound: they are made to fit, and the positions are made
/// large, but the same where they were.
fn otherwise_sound<R: Entered>(rules: &R, state: &R::State) -> bool {
    let mut state = state.clone();
    let common = R::common_mut(&mut state);
    let open = common.open_calls().len();
    if let Some(verdict) = &mut common.verdict {
        let is_same = verdict.position == common.position;
        verdict.position = 1_000 + u32::from(!is_same);
        verdict.entry = verdict.cause.triple().map_or(0, |_| 1);
    }
    common.position = 1_000;
    for (place, call) in common.calls.iter_mut().enumerate() {
        call.entry = if place < open { place as u32 + 1 } else { 0 };
    }
    let common = common.clone();
    let living = R::checkers(&state).1;
    for (place, checker) in R::checkers_mut(&mut state).iter_mut().enumerate() {
        let call = common.place_of(checker.call).filter(|_| place < living);
        checker.entry = call.map_or(0, |call| common.calls[call].entry);
    }
    rules.is_sound(&state)
}

/// Whether a state is sound where one clause is not asked, or another one in its place.
fn sound_by<R: Entered>(rules: &R, state: &R::State, clause: Clause, instead: Instead) -> bool {
    let at = Positions::of::<R>(state);
    let mut others = CLAUSES.into_iter().filter(|other| *other != clause);
    others.all(|other| other.holds(&at)) && instead(&at) && otherwise_sound(rules, state)
}

type Instead = fn(&Positions) -> bool;

// ---- Faults -----------------------------------------------------------------------------------

/// What an engine could do wrong.
#[derive(Clone, Copy)]
enum Fault {
    /// A verdict carries another position.
    Carries(Mistake),
    /// A call remembers the position before its entry, and so do its checkers.
    RemembersOneLess,
    /// A call remembers the right position, and its checkers the one before.
    CheckersOneLess,
    /// 9 asks something else in place of a clause.
    Asks(Clause, Instead),
}

/// A clause that is not asked, or is asked otherwise.
const ASKED: [(&str, Clause, Instead); 29] = [
    ("0 is accepted", Clause::NotZero, |_| true),
    (
        "0 is refused behind the first alone",
        Clause::NotZero,
        |at| at.open.iter().skip(1).all(|call| call.entry != 0),
    ),
    ("1 is refused", Clause::NotZero, |at| {
        at.open.iter().all(|call| call.entry > 1)
    }),
    ("above the state's is accepted", Clause::NotAbove, |_| true),
    (
        "one above the state's is accepted",
        Clause::NotAbove,
        |at| {
            at.open
                .iter()
                .all(|call| call.entry <= at.position.saturating_add(1))
        },
    ),
    ("the state's itself is refused", Clause::NotAbove, |at| {
        at.open.iter().all(|call| call.entry < at.position)
    }),
    (
        "above the state's as signed numbers",
        Clause::NotAbove,
        |at| {
            let fits = |call: &Call| call.entry as i32 <= at.position as i32;
            at.open.iter().all(fits)
        },
    ),
    (
        "above the state's by the low bytes",
        Clause::NotAbove,
        |at| {
            let fits = |call: &Call| call.entry as u16 <= at.position as u16;
            at.open.iter().all(fits)
        },
    ),
    (
        "above the state's of the first alone",
        Clause::NotAbove,
        |at| at.open.iter().take(1).all(|call| call.entry <= at.position),
    ),
    ("rising is not asked", Clause::Rising, |_| true),
    ("the same one twice rises", Clause::Rising, |at| {
        at.rise(|one, next| one <= next)
    }),
    ("one more does not rise", Clause::Rising, |at| {
        at.rise(|one, next| one < next && next - one > 1)
    }),
    ("rising of the first two alone", Clause::Rising, |at| {
        let entries = at.entries();
        entries.len() < 2 || entries[0] < entries[1]
    }),
    ("rising of the last two alone", Clause::Rising, |at| {
        let entries = at.entries();
        entries.len() < 2 || entries[entries.len() - 2] < entries[entries.len() - 1]
    }),
    ("each is above the first", Clause::Rising, |at| {
        let entries = at.entries();
        entries.iter().skip(1).all(|entry| *entry > entries[0])
    }),
    ("none comes twice", Clause::Rising, |at| {
        let entries: HashSet<u32> = at.entries().into_iter().collect();
        entries.len() == at.open.len()
    }),
    ("rising as signed numbers", Clause::Rising, |at| {
        at.rise(|one, next| (one as i32) < next as i32)
    }),
    ("rising by the low bytes", Clause::Rising, |at| {
        at.rise(|one, next| (one as u16) < next as u16)
    }),
    (
        "places behind the calls are not asked",
        Clause::FreeCalls,
        |_| true,
    ),
    (
        "a verdict's with a triple is not asked",
        Clause::WithTriple,
        |_| true,
    ),
    ("a verdict's 0 is accepted", Clause::WithTriple, |at| {
        at.carries(true, |own, entry| entry < own)
    }),
    ("a verdict's own is accepted", Clause::WithTriple, |at| {
        at.carries(true, |own, entry| 1 <= entry && entry <= own)
    }),
    (
        "a verdict's above its own is accepted",
        Clause::WithTriple,
        |at| at.carries(true, |_, entry| 1 <= entry),
    ),
    ("a verdict's 1 is refused", Clause::WithTriple, |at| {
        at.carries(true, |own, entry| 1 < entry && entry < own)
    }),
    (
        "a verdict's one below its own is refused",
        Clause::WithTriple,
        |at| {
            at.carries(true, |own, entry| {
                1 <= entry && entry < own.saturating_sub(1)
            })
        },
    ),
    ("a verdict's as signed numbers", Clause::WithTriple, |at| {
        at.carries(true, |own, entry| {
            1 <= entry as i32 && (entry as i32) < own as i32
        })
    }),
    (
        "a verdict's with both is to be 0",
        Clause::WithTriple,
        |at| {
            let both = at
                .verdict
                .is_some_and(|v| matches!(v.cause, Cause::Both { .. }));
            at.carries(true, |own, entry| {
                if both {
                    entry == 0
                } else {
                    1 <= entry && entry < own
                }
            })
        },
    ),
    (
        "a verdict's without a triple is not asked",
        Clause::WithoutTriple,
        |_| true,
    ),
    (
        "a verdict's without a triple as with one",
        Clause::WithoutTriple,
        |at| at.carries(false, |own, entry| 1 <= entry && entry < own),
    ),
];

/// The same of checkers.
const ASKED_OF_CHECKERS: [(&str, Clause, Instead); 5] = [
    ("a checker's own is not asked", Clause::OfCheckers, |_| true),
    (
        "the first checker's alone is asked",
        Clause::OfCheckers,
        |at| {
            let is_own = |c: &Checker| at.of_call(c).is_none_or(|entry| entry == c.entry);
            at.living.iter().take(1).all(is_own)
        },
    ),
    (
        "any call's will do for a checker",
        Clause::OfCheckers,
        |at| at.living.iter().all(|c| at.entries().contains(&c.entry)),
    ),
    (
        "a checker's is at most its call's",
        Clause::OfCheckers,
        |at| {
            let fits = |c: &Checker| at.of_call(c).is_none_or(|entry| c.entry <= entry);
            at.living.iter().all(fits)
        },
    ),
    (
        "places behind the checkers are not asked",
        Clause::FreeCheckers,
        |_| true,
    ),
];

/// Those that a run shows too.
const OF_RUNS: [(&str, Fault); 6] = [
    ("the exit's position", Fault::Carries(Mistake::Exit)),
    ("the first open call's", Fault::Carries(Mistake::First)),
    ("the last entry's", Fault::Carries(Mistake::Last)),
    ("one less", Fault::Carries(Mistake::OneLess)),
    (
        "carried without a triple",
        Fault::Carries(Mistake::WithoutTriple),
    ),
    ("a call remembers one less", Fault::RemembersOneLess),
];

impl Fault {
    fn offer<R: Entered>(
        self,
        rules: &R,
        state: &R::State,
        event: &Event,
    ) -> Result<R::State, Refusal> {
        match self {
            Fault::Asks(clause, instead) => match sound_by(rules, state, clause, instead) {
                true => rules.take(state, event).map(|next| next.result),
                false => Err(Refusal::Unsound),
            },
            Fault::Carries(mistake) => {
                let mut next = rules.event(state, event)?;
                carry(mistake, R::common(state), event, R::common_mut(&mut next));
                Ok(next)
            }
            Fault::RemembersOneLess | Fault::CheckersOneLess => {
                let mut next = rules.event(state, event)?;
                self.remember::<R>(event, &mut next);
                Ok(next)
            }
        }
    }

    /// What a call and its checkers remember behind its entry.
    fn remember<R: Entered>(self, event: &Event, next: &mut R::State) {
        let common = R::common_mut(next);
        let place = common.place_of(event.call);
        let (Some(place), true) = (place, event.kind == Kind::Entry.byte()) else {
            return;
        };
        if matches!(self, Fault::RemembersOneLess) {
            common.calls[place].entry -= 1;
        }
        let checkers = R::checkers_mut(next).iter_mut();
        let own = checkers.filter(|c| c.call == event.call && c.entry > 0);
        own.for_each(|checker| checker.entry -= 1);
    }
}

/// What the verdict behind an event carries by a mistake.
fn carry(mistake: Mistake, before: &Common, event: &Event, next: &mut Common) {
    let Some(verdict) = &mut next.verdict else {
        return;
    };
    let event = Record {
        kind: event.kind,
        unit: event.unit,
        call: event.call,
        values: Vec::new(),
    };
    let last = before.open_calls().last().map_or(0, |call| call.entry);
    let taken = Taken {
        before,
        last,
        event: &event,
    };
    verdict.entry = mistake.carried(&taken, verdict);
}

// ---- The committed scripts --------------------------------------------------------------------

/// The refusals of 10 to 15 that an event meets, each judged without regard to the others.
fn besides<R: Entered>(rules: &R, common: &Common, event: &Record) -> Vec<u8> {
    let header = &rules.machine().header;
    let own = common.open_calls().iter().find(|c| c.number == event.call);
    let wrong = event.kind > 1
        || event.unit >= header.units
        || event.values.len() != usize::from(header.program);
    let other_unit = own.is_none_or(|call| call.unit != event.unit);
    let met = [
        (10, common.verdict.is_some()),
        (11, wrong),
        (12, common.position == LAST),
        (13, event.kind == 0 && own.is_some()),
        (14, event.kind == 0 && common.open >= 16),
        (15, event.kind == 1 && other_unit),
    ];
    let met = met.into_iter().filter(|(_, is)| *is);
    met.map(|(number, _)| number).collect()
}

/// Which clause alone a state breaks, and what else refuses the event.
fn of_clauses<R: Entered>(rules: &R, state: &R::State, event: &Record) -> Vec<String> {
    let at = Positions::of::<R>(state);
    let broken: Vec<Clause> = CLAUSES.into_iter().filter(|c| !c.holds(&at)).collect();
    let others = otherwise_sound(rules, state);
    // The clauses are those of 9: with all of them a state is sound.
    assert_eq!(rules.is_sound(state), others && broken.is_empty());
    let (true, [only]) = (others, &broken[..]) else {
        return Vec::new();
    };
    let besides = besides(rules, R::common(state), event).into_iter();
    let besides = besides.map(|number| format!("{only:?} before {number}"));
    besides.chain([format!("{only:?} alone")]).collect()
}

/// The clauses that do not hold where the rules are refused.
fn behind_reading<R: Entered>(state: &R::State, line: &str) -> Vec<String> {
    let at = Positions::of::<R>(state);
    let number = line.split(' ').nth(1).expect("a refusal");
    let broken = CLAUSES.into_iter().filter(|c| !c.holds(&at));
    broken.map(|c| format!("{c:?} behind {number}")).collect()
}

/// What a verdict shows that an event leads to.
fn of_verdict(before: &Common, event: &Record, verdict: &Verdict) -> Vec<String> {
    let open = before.open_calls();
    let Some(place) = before.place_of(event.call) else {
        return vec!["a bad state at an entry".into()];
    };
    let mut labels: Vec<String> = Vec::new();
    let mut label = |is: bool, text: &str| labels.extend(is.then(|| text.to_string()));
    let (last, several) = (open.len() - 1, open.len() > 2);
    let (state, triple) = (verdict.cause.state(), verdict.cause.triple());
    label(triple.is_none(), "a bad state alone at an exit");
    label(state.is_some() && triple.is_some(), "both");
    if triple.is_some() {
        label(open.len() == 1, "the only call");
        label(several && place == 0, "the first of several");
        label(several && (1..last).contains(&place), "one between");
        label(several && place == last, "the last of several");
        label(open.len() == 16, "one of sixteen");
        label(
            verdict.entry > LAST / 2,
            "an entry position over 2147483647",
        );
    }
    let right_before = verdict.entry == LAST - 1;
    label(
        verdict.position == LAST && right_before,
        "at the last, entered right before",
    );
    label(
        verdict.position == LAST && verdict.entry == 1,
        "at the last, entered first",
    );
    labels
}

/// What an event shows that is offered.
fn of_offer<R: Entered>(rules: &R, state: &R::State, event: &Record) -> Vec<String> {
    let mut labels = of_clauses(rules, state, event);
    let Ok(next) = rules.event(state, &event.event()) else {
        return labels;
    };
    let (before, after) = (R::common(state), R::common(&next));
    if let Some(verdict) = &after.verdict {
        labels.extend(of_verdict(before, event, verdict));
    }
    if event.kind == 0 && after.position == LAST {
        labels.push("a call entered at the last position".into());
    }
    labels
}

/// What a run shows: its verdict, and where and after what the call was entered that broke the triple.
fn of_run<R: Entered>(rules: &R, log: &[u8]) -> Vec<String> {
    let (mut state, mut labels) = (rules.fresh(), Vec::new());
    let records = read_log(log, rules.machine().header.program).unwrap_or_default();
    for (count, record) in records.iter().enumerate() {
        let Ok(next) = rules.event(&state, &record.event()) else {
            return labels;
        };
        if let Some(verdict) = &R::common(&next).verdict {
            labels.extend(of_verdict(R::common(&state), record, verdict));
            labels.extend(of_way(&records[..count], record, verdict.entry));
            break;
        }
        state = next;
    }
    labels
}

/// What came before the exit of a call that was entered there.
fn of_way(before: &[Record], exit: &Record, entered: u32) -> Vec<String> {
    let Some(place) = (entered as usize).checked_sub(1) else {
        return Vec::new();
    };
    let (earlier, between) = (&before[..place], &before[place + 1..]);
    let digits = entered.to_string().len();
    let entries = between.iter().filter(|record| record.kind == 0).count();
    let again = earlier.iter().any(|record| record.call == exit.call);
    [
        (true, format!("an entry position of {digits} digits")),
        (again, "a number that came before".into()),
        (entries > 0, "an entry between".into()),
        (between.len() > 100, "over 100 events between".into()),
    ]
    .into_iter()
    .filter_map(|(is, label)| is.then_some(label))
    .collect()
}

/// What the pages of a program show, by engine, of events and of runs.
fn shown<R, O>(program: &str) -> Counts
where
    R: Entered<Own = O, State = O::State>,
    O: Own,
{
    let mut counts = Counts::new();
    visit::<R, O>(program, |rules, bench, frame, line| {
        let (of, labels) = match (rules, frame) {
            (Some(rules), Frame::Offer { event, .. }) => {
                ("event", of_offer(rules, &bench.state, event))
            }
            (None, Frame::Offer { .. }) => ("event", behind_reading::<R>(&bench.state, line)),
            (Some(rules), Frame::Run(log)) => ("run", of_run(rules, log)),
            _ => return,
        };
        // What is refused has no version that counts; it is told by the byte.
        let name = match (rules, bench.rules.get(2)) {
            (Some(rules), _) => rules.name(),
            (None, Some(3)) => "version 3",
            (None, _) => "refused",
        };
        for label in labels {
            add(&mut counts, format!("{name} {of}: {label}"));
        }
    });
    counts
}

/// What events must show of each engine, and how often at least.
const OF_EVENTS: [(&str, usize); 49] = [
    ("NotZero alone", 20),
    ("NotAbove alone", 40),
    ("Rising alone", 80),
    ("FreeCalls alone", 15),
    ("WithTriple alone", 60),
    ("WithoutTriple alone", 30),
    ("NotZero before 10", 2),
    ("NotZero before 11", 4),
    ("NotZero before 12", 2),
    ("NotZero before 13", 2),
    ("NotZero before 14", 2),
    ("NotZero before 15", 2),
    ("NotAbove before 10", 2),
    ("NotAbove before 11", 2),
    ("NotAbove before 13", 2),
    ("NotAbove before 14", 2),
    ("NotAbove before 15", 2),
    ("Rising before 10", 4),
    ("Rising before 11", 4),
    ("Rising before 12", 4),
    ("Rising before 13", 4),
    ("Rising before 14", 2),
    ("Rising before 15", 4),
    ("FreeCalls before 10", 2),
    ("FreeCalls before 11", 2),
    ("FreeCalls before 12", 2),
    ("FreeCalls before 13", 2),
    ("FreeCalls before 15", 2),
    ("WithTriple before 10", 60),
    ("WithTriple before 11", 4),
    ("WithTriple before 12", 4),
    ("WithTriple before 13", 4),
    ("WithTriple before 14", 2),
    ("WithTriple before 15", 4),
    ("WithoutTriple before 10", 30),
    ("WithoutTriple before 11", 2),
    ("WithoutTriple before 12", 2),
    ("WithoutTriple before 13", 2),
    ("WithoutTriple before 14", 2),
    ("WithoutTriple before 15", 2),
    ("the only call", 60),
    ("the first of several", 40),
    ("one between", 40),
    ("the last of several", 40),
    ("one of sixteen", 16),
    ("both", 40),
    ("a bad state alone at an exit", 20),
    ("at the last, entered right before", 2),
    ("at the last, entered first", 2),
];
const OF_EVENTS_BESIDES: [(&str, usize); 3] = [
    ("a bad state at an entry", 10),
    ("a call entered at the last position", 1),
    ("an entry position over 2147483647", 10),
];
/// The same of runs.
const OF_LOGS: [(&str, usize); 15] = [
    ("the only call", 60),
    ("the first of several", 40),
    ("one between", 40),
    ("the last of several", 40),
    ("one of sixteen", 14),
    ("both", 40),
    ("a bad state alone at an exit", 20),
    ("a bad state at an entry", 10),
    ("an entry position of 1 digits", 200),
    ("an entry position of 2 digits", 20),
    ("an entry position of 3 digits", 6),
    ("an entry position of 4 digits", 2),
    ("a number that came before", 12),
    ("an entry between", 100),
    ("over 100 events between", 3),
];
/// Of networks besides.
const OF_NETWORKS: [(&str, usize); 14] = [
    ("OfCheckers alone", 60),
    ("FreeCheckers alone", 8),
    ("OfCheckers before 10", 4),
    ("OfCheckers before 11", 4),
    ("OfCheckers before 12", 4),
    ("OfCheckers before 13", 4),
    ("OfCheckers before 14", 4),
    ("OfCheckers before 15", 4),
    ("FreeCheckers before 10", 2),
    ("FreeCheckers before 11", 2),
    ("FreeCheckers before 12", 2),
    ("FreeCheckers before 13", 2),
    ("FreeCheckers before 14", 2),
    ("FreeCheckers before 15", 2),
];

fn assert_engine_shown(counts: &Counts, engine: &str) {
    let events = OF_EVENTS.iter().chain(&OF_EVENTS_BESIDES);
    for (label, least) in events {
        assert_shown(counts, &[(&format!("{engine} event: {label}"), *least)]);
    }
    for (label, least) in &OF_LOGS {
        assert_shown(counts, &[(&format!("{engine} run: {label}"), *least)]);
    }
}

/// Every clause broken, and the reading refusals in front.
fn assert_behind_reading(counts: &Counts, engine: &str, numbers: &[u8], clauses: &[Clause]) {
    for number in numbers {
        for clause in clauses {
            let label = format!("{engine} event: {clause:?} behind {number}");
            assert_shown(counts, &[(&label, 1)]);
        }
    }
}

#[test]
fn of_sheets() {
    let counts = shown::<Sheet, Arms>("monitor_cases");
    assert_engine_shown(&counts, "sheet");
    let clauses: Vec<Clause> = CLAUSES.into_iter().filter(|c| !of_checkers(*c)).collect();
    assert_behind_reading(&counts, "refused", &[1, 2, 3, 4, 5, 6, 7, 8], &clauses);
}

#[test]
fn of_networks() {
    let counts = shown::<Network, Checkers>("network_cases");
    for engine in ["version 2", "version 3"] {
        assert_engine_shown(&counts, engine);
        for (label, least) in OF_NETWORKS {
            assert_shown(&counts, &[(&format!("{engine} event: {label}"), least)]);
        }
    }
    assert_behind_reading(&counts, "refused", &[1, 2, 3, 4, 5, 6, 7], &CLAUSES);
    assert_behind_reading(&counts, "version 3", &[3, 4, 5, 6, 7], &CLAUSES);
}

fn of_checkers(clause: Clause) -> bool {
    matches!(clause, Clause::OfCheckers | Clause::FreeCheckers)
}

// ---- Faults that the committed cases would see ------------------------------------------------

/// How many lines would be others with each of the faults, by engine, of events and of runs.
fn seen<R, O>(program: &str, faults: &[(&str, Fault)]) -> Counts
where
    R: Entered<Own = O, State = O::State>,
    O: Own,
{
    let mut counts = Counts::new();
    visit::<R, O>(program, |rules, bench, frame, _| {
        let Some(rules) = rules else {
            return;
        };
        for (name, fault) in faults {
            let (of, shows) = match frame {
                Frame::Offer { event, .. } => {
                    let event = event.event();
                    let right = rules.event(&bench.state, &event);
                    ("event", fault.offer(rules, &bench.state, &event) != right)
                }
                Frame::Run(log) => ("run", shows_in_run(*fault, rules, log)),
                _ => continue,
            };
            if shows {
                add(&mut counts, format!("{} {of}: {name}", rules.name()));
            }
        }
    });
    counts
}

fn shows_in_run<R: Entered>(fault: Fault, rules: &R, log: &[u8]) -> bool {
    // A fresh state and what comes of it are sound, whatever is not asked.
    if matches!(fault, Fault::Asks(..)) {
        return false;
    }
    let records = read_log(log, rules.machine().header.program).unwrap_or_default();
    let offer = |rules: &R, state: &R::State, event: &Event| fault.offer(rules, state, event);
    follow(rules, &records, offer) != run_records(rules, &records).result
}

/// Of every engine: events and runs with another verdict or call, and events that 9 answers otherwise.
fn assert_faults_seen(counts: &Counts, engine: &str, asked: &[(&str, Clause, Instead)]) {
    for (name, _) in OF_RUNS {
        assert_shown(counts, &[(&format!("{engine} event: {name}"), 40)]);
        assert_shown(counts, &[(&format!("{engine} run: {name}"), 40)]);
    }
    for (name, ..) in asked {
        assert_shown(counts, &[(&format!("{engine} event: {name}"), 4)]);
    }
}

fn faults(asked: &[(&'static str, Clause, Instead)]) -> Vec<(&'static str, Fault)> {
    let asked = asked.iter();
    let asked = asked.map(|(name, clause, instead)| (*name, Fault::Asks(*clause, *instead)));
    OF_RUNS.into_iter().chain(asked).collect()
}

#[test]
fn faults_on_sheets_are_seen() {
    let counts = seen::<Sheet, Arms>("monitor_cases", &faults(&ASKED));
    assert_faults_seen(&counts, "sheet", &ASKED);
}

#[test]
fn faults_on_networks_are_seen() {
    let asked = [&ASKED[..], &ASKED_OF_CHECKERS].concat();
    let mut faults = faults(&asked);
    let of_checkers = "a checker remembers one less";
    faults.push((of_checkers, Fault::CheckersOneLess));
    let counts = seen::<Network, Checkers>("network_cases", &faults);
    for engine in ["version 2", "version 3"] {
        assert_faults_seen(&counts, engine, &asked);
        assert_shown(&counts, &[(&format!("{engine} event: {of_checkers}"), 200)]);
    }
}

// ---- Whole inputs -----------------------------------------------------------------------------

/// Inputs of which a line would be another, on the sheet or on its network.
#[test]
fn of_whole_inputs() {
    let mut counts = Counts::new();
    for frame in program_cases::all() {
        let input = frame.input();
        let (sheet, log) = split(&input);
        let Ok(sheet) = Sheet::read(sheet) else {
            continue;
        };
        let network = sheet.translate();
        for (name, fault) in OF_RUNS {
            let shows = [
                ("sheet", shows_in_run(fault, &sheet, log)),
                ("network", shows_in_run(fault, &network, log)),
            ];
            for (engine, _) in shows.into_iter().filter(|(_, shows)| *shows) {
                add(&mut counts, format!("{engine}: {name}"));
            }
        }
        for label in of_log(&sheet, log).into_iter().chain(of_run(&sheet, log)) {
            add(&mut counts, label);
        }
    }
    for (name, _) in OF_RUNS {
        assert_shown(&counts, &[(&format!("sheet: {name}"), 60)]);
        assert_shown(&counts, &[(&format!("network: {name}"), 60)]);
    }
    assert_shown(&counts, &OF_LOGS);
    let of_sheet = wanted()
        .into_iter()
        .filter(|label| label.starts_with("sheet"));
    for label in of_sheet {
        assert_shown(&counts, &[(&label, 60)]);
    }
}

// ---- What is wanted of the generator ----------------------------------------------------------

const OF_GENERATED: [&str; 5] = [
    "the carried entry is not the exit's position",
    "the carried entry is not the first open call's",
    "the carried entry is not the last entry's",
    "the carried entry is not one less",
    "no entry is carried without a triple",
];

#[test]
fn all_of_it_is_wanted() {
    let engines = ["sheet", "version 2", "version 3"].into_iter();
    let labels = engines.flat_map(|e| OF_GENERATED.map(|label| format!("{e} run: {label}")));
    let labels: Vec<String> = labels.collect();
    assert_eq!(wanted(), labels);
    let tallied = tally::wanted();
    assert!(labels.iter().all(|label| tallied.contains(label)));
}

/// What makes no difference is not counted.
#[test]
fn the_first_call_is_the_first() {
    let sheet = returning();
    let labels = |records: &[Record]| of_log(&sheet, &write_log(1, records));
    let named = |labels: &[usize]| -> Vec<String> {
        let labels = labels.iter().map(|place| OF_GENERATED[*place]);
        labels.map(|label| format!("sheet run: {label}")).collect()
    };
    let (seven, eight) = (entry(0, 7, &[1]), entry(1, 8, &[2]));
    // The only call, the first of two, the last of two.
    assert_eq!(labels(&[seven.clone(), exit(0, 7, &[2])]), named(&[0, 3]));
    let two = [seven, eight];
    let then = |last: Record| [&two[..], &[last]].concat();
    assert_eq!(labels(&then(exit(0, 7, &[2]))), named(&[0, 2, 3]));
    assert_eq!(labels(&then(exit(1, 8, &[1]))), named(&[0, 1, 3]));
    // A call that ended is the last entry's too.
    let ended = [then(exit(1, 8, &[2])), vec![exit(0, 7, &[2])]].concat();
    assert_eq!(labels(&ended), named(&[0, 2, 3]));
    // Without a triple, and without a verdict.
    let bad = [entry(0, 7, &[-1]), exit(0, 7, &[-1])];
    assert_eq!(labels(&bad), named(&[4]));
    assert!(labels(&then(exit(1, 8, &[2]))).is_empty());
}
