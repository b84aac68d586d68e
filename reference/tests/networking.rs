//! Single events and whole logs on a network, through the cases of `network_cases`.

mod scripts;

use reference::framing::counted_lines::split_count;
use reference::framing::network_frames::Checkers;
use reference::framing::script_frames::{read_frames, Field, Frame};
use reference::implementation::engine::network_event;
use reference::implementation::expr::Lent;
use reference::implementation::network::{Creating, Network, LONGEST_NETWORK};
use reference::implementation::run::Record;
use reference::implementation::state::{Cause, Checker, Common, NetworkState};
use reference::making::scripts::card_cases;
use reference::making::scripts::network_cases::{self, Page};
use reference::making::scripts::script::{visit, Row, Sort};
use scripts::{answer, count, is_offer, is_run};
use std::collections::{HashMap, HashSet};
use std::sync::OnceLock;

/// Made once for all tests.
fn pages() -> &'static [Page] {
    static PAGES: OnceLock<Vec<Page>> = OnceLock::new();
    PAGES.get_or_init(network_cases::all)
}

#[test]
fn cases_have_the_answers_written_beside_them() {
    scripts::assert_written_answers(pages());
}

#[test]
fn the_file_is_large_enough_and_small_enough() {
    scripts::assert_files_hold::<Network>("network_cases", pages());
}

#[test]
fn every_sort_of_case_occurs_often() {
    let pages = pages();
    let offers = count(pages, |row, _| is_offer(row));
    assert!(offers >= 900, "{offers} events");
    scripts::assert_offers_of_sorts(
        pages,
        &[
            (Sort::Reached, 300),
            (Sort::Broken, 1_000),
            (Sort::Neighbour, 300),
            (Sort::Position, 20),
            (Sort::Filling, 50),
            (Sort::Together, 600),
            (Sort::Reading, 100),
            (Sort::Foreign, 50),
            (Sort::Shaken, 100),
            (Sort::Checkers, 100),
            (Sort::Nesting, 40),
            (Sort::Wide, 1_000),
            (Sort::Ends, 500),
            (Sort::Card, 600),
            (Sort::Preconditions, 1_000),
            (Sort::Entries, 1_000),
            (Sort::Counts, 2_400),
        ],
    );
    let logs = count(pages, |row, _| is_run(row));
    let fresh = count(pages, |row, _| row.frame == Frame::Fresh);
    let values = count(pages, |row, _| matches!(row.frame, Frame::EntryValues(_)));
    println!("events {offers}, logs {logs}, fresh states {fresh}, values at entry {values}");
    for number in 1..=7 {
        let refused = format!("refused {number}");
        let found = count(pages, |row, line| {
            row.frame == Frame::Fresh && line == refused
        });
        assert!(found >= 2, "fresh states {refused}: {found}");
    }
    assert!(logs >= 150, "{logs} logs");
    assert!(fresh >= 60, "{fresh} fresh states");
    assert!(values >= 100, "{values} lines of values at entry");
}

#[test]
fn every_answer_to_an_event_occurs_often() {
    let refusals: Vec<u8> = (1..=7).chain(9..=15).collect();
    scripts::assert_answers_to_events(pages(), &refusals, 400);
}

#[test]
fn every_answer_to_a_log_occurs() {
    scripts::assert_answers_to_logs(pages(), 7);
}

#[test]
fn every_two_refusals_meet_and_the_lowest_answers() {
    scripts::assert_lowest_refusal_answers::<Network>(pages());
}

#[test]
fn refused_events_change_nothing() {
    scripts::assert_refused_events_change_nothing::<Network>(pages());
}

#[test]
fn every_field_shows_in_the_line() {
    let mut own = vec![Checkers::Living];
    own.extend(
        (0..64).flat_map(|i| [Checkers::Call(i), Checkers::Template(i), Checkers::Entry(i)]),
    );
    scripts::assert_fields_show::<Network>(&own);
}

#[test]
fn frames_that_are_cut_are_no_frames() {
    let frames = [
        Frame::<Checkers>::Rules(vec![1, 2]),
        Frame::Set(Field::Own(Checkers::Living), 3),
        Frame::Set(Field::Own(Checkers::Template(63)), 4),
        Frame::Set(Field::Position, 5),
        Frame::Set(Field::Both(1, 2), 6),
        Frame::Set(Field::Entry(15), 0x0102_0304),
        Frame::Set(Field::Own(Checkers::Entry(63)), 7),
        Frame::Set(Field::Carried, u32::MAX),
        Frame::EntryValues(64),
        Frame::Offer {
            event: Record {
                kind: 1,
                unit: 2,
                call: 0x0304,
                values: vec![-1],
            },
            keep: false,
        },
    ];
    let expected = [
        [0, 0, 2, 1, 2].as_slice(),
        &[2, 6, 0, 0, 0, 0, 0, 3],
        &[2, 8, 63, 0, 0, 0, 0, 4],
        &[2, 9, 0, 0, 0, 0, 0, 5],
        &[2, 13, 1, 2, 0, 0, 0, 6],
        &[2, 14, 15, 0, 1, 2, 3, 4],
        &[2, 15, 63, 0, 0, 0, 0, 7],
        &[2, 16, 0, 0, 255, 255, 255, 255],
        &[8, 64],
        &[5, 1, 2, 3, 4, 1, 255, 255, 255, 255],
    ];
    scripts::assert_frames_are(&frames, &expected);
    assert_eq!(read_frames::<Checkers>(&[9]), None);
    assert_eq!(read_frames::<Checkers>(&[2, 17, 0, 0, 0, 0, 0, 0]), None);
}

#[test]
fn the_greatest_network_occurs_once() {
    let longest =
        |row: &&Row<Checkers>| matches!(&row.frame, Frame::Rules(n) if n.len() == LONGEST_NETWORK);
    assert_eq!(pages().iter().flatten().filter(longest).count(), 1);
}

/// Joining conditions changes no answer and no state; it changes how many are evaluated.
#[test]
fn in_version_3_the_lines_are_the_same() {
    let first = &pages()[0];
    let carried_over = card_cases::page_in_version_3(first);
    let joined =
        |row: &&Row<Checkers>| matches!(&row.frame, Frame::Rules(n) if n.get(2) == Some(&3));
    assert!(carried_over.iter().filter(joined).count() >= 40);
    let line = |row: &Row<Checkers>| row.line.as_deref().map(|line| split_count(line).0);
    let lines = |page: &Page| page.iter().map(line).collect::<Vec<_>>();
    assert_eq!(lines(first), lines(&carried_over));
}

// ---- What the cases hold of networks ----------------------------------------------------------

/// An event that was taken, on the network and state that it was offered to.
struct Taken {
    network: Network,
    before: NetworkState,
    event: Record,
    after: NetworkState,
    /// Its number was another call's before, since the fresh state.
    again: bool,
}

/// Every taken event, in order.
fn taken() -> Vec<Taken> {
    let mut all = Vec::new();
    let (mut gone, mut gone_when_saved) = (HashSet::new(), HashSet::new());
    visit::<Network>(pages(), |bench, row| match &row.frame {
        Frame::Fresh => gone.clear(),
        Frame::Save => gone_when_saved = gone.clone(),
        Frame::Restore => gone = gone_when_saved.clone(),
        Frame::Offer { event, keep } => {
            if let Ok(after) = network_event(&bench.rules, &bench.state, &event.event()) {
                all.push(Taken {
                    network: Network::read(&bench.rules).expect("it took an event"),
                    before: bench.state.clone(),
                    event: event.clone(),
                    after: after.result,
                    again: event.kind == 0 && gone.contains(&event.call),
                });
                if *keep && event.kind == 1 {
                    gone.insert(event.call);
                }
            }
        }
        _ => {}
    });
    all
}

impl Taken {
    fn is_entry(&self) -> bool {
        self.event.kind == 0
    }

    /// The templates of this call's checkers, as they stand in a state.
    fn templates(&self, state: &NetworkState) -> Vec<u8> {
        let living = state.living_checkers().iter();
        let bound = living.filter(|c| c.call == self.event.call);
        bound.map(|c| c.template).collect()
    }

    fn created(&self) -> Vec<u8> {
        match self.is_entry() {
            true => self.templates(&self.after),
            false => Vec::new(),
        }
    }

    fn ended(&self) -> Vec<u8> {
        match self.is_entry() {
            true => Vec::new(),
            false => self.templates(&self.before),
        }
    }

    /// The templates of the ended checkers whose postconditions fail with these values at entry.
    fn failing(&self, kept: &[i32]) -> Vec<u8> {
        let lent = Lent {
            program: &self.event.values,
            monitor: &[],
            kept,
        };
        let holds = |template: &u8| {
            let post = self.network.templates[usize::from(*template)].postcondition;
            self.network.machine.condition_holds(post, &lent)
        };
        let mut ended = self.ended();
        ended.retain(|template| !holds(template));
        ended
    }

    /// The place of the call that an exit closes.
    fn place(&self) -> usize {
        let place = self.before.common.place_of(self.event.call);
        place.expect("the exit was taken")
    }

    /// What fails at an exit, in the order of the checkers.
    fn failed(&self) -> Vec<u8> {
        match self.is_entry() {
            true => Vec::new(),
            false => self.failing(&self.before.common.calls[self.place()].kept),
        }
    }

    /// Whether it would change what fails at an exit if these were the values at entry.
    fn needs_entry_values(&self) -> bool {
        let mut same = self.event.values.clone();
        same.resize(8, 0);
        self.failed() != self.failing(&same)
    }

    /// Places of calls that have checkers and stay open.
    fn others(&self) -> Vec<usize> {
        let living = self.before.living_checkers().iter();
        let others = living.filter(|c| c.call != self.event.call);
        let place = |c: &Checker| self.before.common.place_of(c.call);
        others.filter_map(place).collect()
    }

    fn cause(&self) -> Option<Cause> {
        self.after.common.verdict.map(|verdict| verdict.cause)
    }
}

fn falls(row: &[u8]) -> bool {
    row.windows(2).any(|two| two[0] > two[1])
}

fn repeats(row: &[u8]) -> bool {
    (1..row.len()).any(|place| row[..place].contains(&row[place]))
}

/// Asserts that taken events with this property occur at least so often.
fn assert_often(all: &[Taken], name: &str, least: usize, is: impl Fn(&Taken) -> bool) {
    let found = all.iter().filter(|taken| is(taken)).count();
    println!("{name}: {found}");
    assert!(found >= least, "{name}: {found}");
}

#[test]
fn entries_create_what_they_can() {
    let all = taken();
    for (count, least) in [60, 60, 30, 5, 40].into_iter().enumerate() {
        let name = format!("{count} created");
        let created = |t: &Taken| t.is_entry() && t.created().len() == count;
        assert_often(&all, &name, least, created);
    }
    assert_often(&all, "a template twice", 30, |t| repeats(&t.created()));
    assert_often(
        &all,
        "one template four times",
        2,
        |t| matches!(t.created()[..], [a, b, c, d] if a == b && b == c && c == d),
    );
    assert_often(&all, "not in the templates' order", 40, |t| {
        falls(&t.created())
    });
    assert_often(&all, "some pairs hold and some do not", 25, |t| {
        (1..pairs_of(t)).contains(&t.created().len())
    });
    assert_often(&all, "pairs, and none holds", 2, |t| {
        pairs_of(t) > 0 && t.created().is_empty()
    });
    assert_often(&all, "created and moved", 15, |t| {
        !t.created().is_empty() && t.before.common.main != t.after.common.main
    });
    assert_often(&all, "created and led to a bad state", 3, |t| {
        !t.created().is_empty() && t.cause().is_some()
    });
    assert_often(&all, "a number used again", 5, |t| t.again);
    assert_often(&all, "up to sixty-four", 3, |t| t.after.living == 64);
}

/// How many pairs the first enabled transition of an entry has.
fn pairs_of(taken: &Taken) -> usize {
    let lent = Lent {
        program: &taken.event.values,
        monitor: &taken.before.common.variables,
        kept: &[],
    };
    let enabled = |c: &&Creating| {
        let t = &c.transition;
        t.from == taken.before.common.main
            && t.kind.byte() == taken.event.kind
            && t.unit == taken.event.unit
            && taken.network.machine.condition_holds(t.condition, &lent)
    };
    let first = taken.network.transitions.iter().find(enabled);
    first.map_or(0, |c| c.pairs.len())
}

#[test]
fn exits_judge_what_they_end() {
    let all = taken();
    for count in 0..=4 {
        let name = format!("{count} ended");
        let ended = |t: &Taken| !t.is_entry() && t.ended().len() == count;
        assert_often(&all, &name, 15, ended);
    }
    assert_often(&all, "the lowest is not the first that fails", 20, |t| {
        t.failed().first() > t.failed().iter().min()
    });
    assert_often(&all, "nor the last", 10, |t| {
        let failed = t.failed();
        let lowest = failed.iter().min();
        failed.first() > lowest && failed.last() > lowest
    });
    assert_often(&all, "a template fails twice", 10, |t| repeats(&t.failed()));
    assert_often(&all, "some fail and some do not", 40, |t| {
        (1..t.ended().len()).contains(&t.failed().len())
    });
    assert_often(&all, "a bad state and a template", 15, |t| {
        matches!(t.cause(), Some(Cause::Both { .. }))
    });
    assert_often(&all, "a bad state, and checkers that hold", 3, |t| {
        matches!(t.cause(), Some(Cause::State(_))) && !t.ended().is_empty()
    });
    assert_often(&all, "what fails depends on the values at entry", 60, |t| {
        t.needs_entry_values()
    });
    for taken in all.iter().filter(|t| !t.is_entry()) {
        let named = taken.cause().and_then(Cause::triple);
        assert_eq!(named, taken.failed().into_iter().min());
    }
}

#[test]
fn exits_leave_other_calls_alone() {
    let all = taken();
    let exits = |t: &Taken| !t.is_entry();
    assert_often(&all, "an outer call's checkers live on", 80, |t| {
        exits(t) && t.others().iter().any(|place| *place < t.place())
    });
    assert_often(&all, "an inner call's checkers live on", 80, |t| {
        exits(t) && t.others().iter().any(|place| *place > t.place())
    });
    assert_often(&all, "from sixty-four", 40, |t| {
        exits(t) && t.before.living == 64
    });
    assert_often(&all, "from sixty-four, with a verdict", 20, |t| {
        exits(t) && t.before.living == 64 && t.cause().is_some()
    });
    for taken in &all {
        let stays = |c: &&Checker| c.call != taken.event.call;
        let before: Vec<_> = taken
            .before
            .living_checkers()
            .iter()
            .filter(stays)
            .collect();
        let after: Vec<_> = taken.after.living_checkers().iter().filter(stays).collect();
        assert_eq!(before, after);
    }
}

/// Exits of the same templates with the same values, of which one call fails and another does not.
#[test]
fn the_same_exit_values_go_both_ways() {
    let mut ways: HashMap<_, HashSet<bool>> = HashMap::new();
    for taken in taken().iter().filter(|t| !t.ended().is_empty()) {
        let key = (
            taken.network.bytes(),
            taken.event.values.clone(),
            taken.ended(),
        );
        ways.entry(key)
            .or_default()
            .insert(taken.failed().is_empty());
    }
    let both = ways.values().filter(|ways| ways.len() == 2).count();
    println!("both ways: {both}");
    assert!(both >= 15, "{both}");
}

// ---- Soundness --------------------------------------------------------------------------------

/// A clause and whether it is broken.
type Judged = (&'static str, bool);

/// Each clause of soundness, judged without regard to the others.
fn broken(state: &NetworkState, network: &Network) -> Vec<&'static str> {
    let mut all = calls_judged(state, network);
    all.extend(checkers_judged(state, network));
    all.extend(verdict_judged(&state.common, network));
    let broken = all.into_iter().filter(|(_, broken)| *broken);
    broken.map(|(name, _)| name).collect()
}

fn calls_judged(state: &NetworkState, network: &Network) -> Vec<Judged> {
    let (common, header) = (&state.common, &network.machine.header);
    let (program, monitor) = (usize::from(header.program), usize::from(header.monitor));
    let (open, behind) = common.calls.split_at(usize::from(common.open).min(16));
    let is_set = |value: &i32| *value != 0;
    let numbers: HashSet<u16> = open.iter().map(|call| call.number).collect();
    vec![
        ("main state", common.main >= header.states),
        ("opened", common.open > 16),
        ("numbers", numbers.len() < open.len()),
        ("unit", open.iter().any(|call| call.unit >= header.units)),
        (
            "kept from P on",
            open.iter()
                .any(|call| call.kept[program..].iter().any(is_set)),
        ),
        (
            "variable from V on",
            common.variables[monitor..].iter().any(is_set),
        ),
        (
            "number behind the open calls",
            behind.iter().any(|call| call.number != 0),
        ),
        (
            "unit behind the open calls",
            behind.iter().any(|call| call.unit != 0),
        ),
        (
            "kept behind the open calls",
            behind.iter().any(|call| call.kept.iter().any(is_set)),
        ),
        (
            "entry behind the open calls",
            behind.iter().any(|call| call.entry != 0),
        ),
        ("entry 0", open.iter().any(|call| call.entry == 0)),
        (
            "entry above the position",
            open.iter().any(|call| call.entry > common.position),
        ),
        (
            "entries do not rise",
            (1..open.len()).any(|place| open[place].entry <= open[place - 1].entry),
        ),
    ]
}

fn checkers_judged(state: &NetworkState, network: &Network) -> Vec<Judged> {
    let (living, behind) = state.checkers.split_at(usize::from(state.living).min(64));
    let open = state.common.open_calls();
    let place = |c: &Checker| open.iter().position(|call| call.number == c.call);
    let template = |c: &Checker| network.templates.get(usize::from(c.template));
    let other_unit = |c: &Checker| match (place(c), template(c)) {
        (Some(place), Some(template)) => open[place].unit != template.unit,
        _ => false,
    };
    let other_entry = |c: &Checker| place(c).is_some_and(|place| open[place].entry != c.entry);
    let together = |c: &Checker| living.iter().filter(|other| other.call == c.call).count();
    let places: Vec<usize> = living.iter().filter_map(place).collect();
    vec![
        ("living", state.living > 64),
        ("call not open", living.iter().any(|c| place(c).is_none())),
        (
            "no such template",
            living.iter().any(|c| template(c).is_none()),
        ),
        ("another unit", living.iter().any(other_unit)),
        ("five on a call", living.iter().any(|c| together(c) > 4)),
        ("order", places.windows(2).any(|two| two[0] > two[1])),
        ("call behind the living", behind.iter().any(|c| c.call != 0)),
        (
            "template behind the living",
            behind.iter().any(|c| c.template != 0),
        ),
        (
            "entry behind the living",
            behind.iter().any(|c| c.entry != 0),
        ),
        ("another call's entry", living.iter().any(other_entry)),
    ]
}

fn verdict_judged(common: &Common, network: &Network) -> Vec<Judged> {
    let bad = |state: u8| state < 16 && network.machine.header.bad & (1 << state) != 0;
    let Some(verdict) = common.verdict else {
        return vec![("no verdict in a bad state", bad(common.main))];
    };
    let (state, template) = (verdict.cause.state(), verdict.cause.triple());
    vec![
        ("verdict's position", verdict.position != common.position),
        (
            "verdict's state is not the main one",
            state.is_some_and(|state| state != common.main),
        ),
        (
            "verdict's state is not bad",
            state.is_some_and(|state| !bad(state)),
        ),
        (
            "verdict's template does not exist",
            template.is_some_and(|template| usize::from(template) >= network.templates.len()),
        ),
        (
            "verdict's entry without a template",
            template.is_none() && verdict.entry != 0,
        ),
        (
            "verdict's entry 0 with a template",
            template.is_some() && verdict.entry == 0,
        ),
        (
            "verdict's entry not below its position",
            template.is_some() && verdict.entry >= verdict.position,
        ),
    ]
}

const CLAUSES: [&str; 31] = [
    "main state",
    "opened",
    "numbers",
    "unit",
    "kept from P on",
    "variable from V on",
    "number behind the open calls",
    "unit behind the open calls",
    "kept behind the open calls",
    "entry behind the open calls",
    "entry 0",
    "entry above the position",
    "entries do not rise",
    "living",
    "call not open",
    "no such template",
    "another unit",
    "five on a call",
    "order",
    "call behind the living",
    "template behind the living",
    "entry behind the living",
    "another call's entry",
    "no verdict in a bad state",
    "verdict's position",
    "verdict's state is not the main one",
    "verdict's state is not bad",
    "verdict's template does not exist",
    "verdict's entry without a template",
    "verdict's entry 0 with a template",
    "verdict's entry not below its position",
];

/// Every clause is broken alone, with an entry and an exit at least, and no other state is refused 9.
#[test]
fn every_clause_of_soundness_is_broken_alone() {
    let mut alone: HashMap<&str, usize> = HashMap::new();
    visit::<Network>(pages(), |bench, row| {
        if let (true, Ok(network)) = (is_offer(row), Network::read(&bench.rules)) {
            let broken = broken(&bench.state, &network);
            let refused = row.line.as_deref().map(answer) == Some("refused 9".into());
            assert_eq!(refused, !broken.is_empty(), "{broken:?}");
            if let [only] = broken[..] {
                *alone.entry(only).or_default() += 1;
            }
        }
    });
    println!("{alone:?}");
    for name in CLAUSES {
        let found = alone.get(name).copied().unwrap_or(0);
        assert!(found >= 4, "{name}: {found}");
    }
}

/// What is near a broken clause and sound.
#[test]
fn the_neighbours_of_broken_clauses_are_taken() {
    let all = taken();
    let of = |t: &Taken, call: u16| -> Vec<u8> {
        let living = t.before.living_checkers().iter();
        let bound = living.filter(|c| c.call == call);
        bound.map(|c| c.template).collect()
    };
    let any = |t: &Taken, is: fn(&[u8]) -> bool| {
        let calls = t.before.common.open_calls().iter();
        calls.clone().any(|call| is(&of(t, call.number)))
    };
    assert_often(&all, "four on a call", 60, |t| any(t, |row| row.len() == 4));
    assert_often(&all, "falling on a call", 60, |t| any(t, falls));
    assert_often(&all, "twice on a call", 60, |t| any(t, repeats));
    assert_often(&all, "numbers fall, places do not", 20, |t| {
        let living = t.before.living_checkers();
        living.windows(2).any(|two| two[0].call > two[1].call)
    });
    assert_often(&all, "a checker on call 0", 10, |t| {
        t.before.living_checkers().iter().any(|c| c.call == 0)
    });
    assert_often(&all, "sixteen calls", 40, |t| t.before.common.open == 16);
}

// ---- Values at entry --------------------------------------------------------------------------

#[test]
fn values_at_entry_are_asked_for_in_every_kind_of_state() {
    let mut found: HashMap<&str, usize> = HashMap::new();
    visit::<Network>(pages(), |bench, row| {
        let (Frame::EntryValues(place), Some(line)) = (&row.frame, &row.line) else {
            return;
        };
        let (state, place) = (&bench.state, usize::from(*place));
        let checker = state.checkers.get(place);
        let living = place < usize::from(state.living);
        let calls = state.common.calls.iter();
        let named = calls.filter(|call| checker.is_some_and(|c| c.call == call.number));
        let network = Network::read(&bench.rules);
        for (name, is) in [
            ("some", line.contains('=')),
            ("of a place from 64 on", place >= 64),
            ("of a place from 64 on, below living", place >= 64 && living),
            ("of a place behind the living", !living),
            ("of two calls with the number", living && named.count() == 2),
            ("of over 16 open calls", state.common.open > 16),
            ("of over 64 checkers", state.living > 64),
            ("of no network", network.is_err()),
            ("unsound", network.is_ok_and(|n| !state.is_sound(&n))),
        ] {
            *found.entry(name).or_default() += usize::from(is);
        }
    });
    println!("{found:?}");
    assert!(found.values().all(|count| *count >= 2));
    assert!(found["some"] >= 100 && found["unsound"] >= 40);
}
