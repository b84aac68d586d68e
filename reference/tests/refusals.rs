//! Every refusal by hand: its edges, and which of two comes first.

use reference::implementation::engine::{network_event, sheet_event, Engine, Event};
use reference::implementation::network::Network;
use reference::implementation::refusal::Refusal;
use reference::implementation::run::Outcome;
use reference::implementation::sheet::{Sheet, LONGEST_SHEET};
use reference::implementation::state::{Cause, Checker, NetworkState, SheetState, Verdict};
use reference::implementation::translate::{translate, BUFFER};
use reference::making::draft::{NetworkDraft, SheetDraft};

/// States 0-2 (2 is bad), units 0-1, P 2, V 1. Conditions: 0 true, 1 on the monitor variable,
/// 2 on values at entry, 3 on program values. Actions: 0 empty, 1 counts.
fn draft() -> SheetDraft {
    let mut sheet = SheetDraft::new(3, 2, 2, &[0]);
    sheet.front.bad = 0b100;
    sheet.front.conditions = vec![
        vec![0],
        vec![4, 18, 0, 16, 0, 0, 0, 5],
        vec![5, 17, 0, 19, 0],
        vec![5, 17, 0, 17, 1],
    ];
    sheet.front.actions = vec![vec![], vec![0, 20, 18, 0, 16, 0, 0, 0, 1]];
    sheet.transitions = vec![[0, 0, 0, 1, 1, 1], [1, 1, 0, 0, 0, 0], [1, 0, 1, 3, 0, 2]];
    sheet.triples = vec![[0, 0, 0, 2], [1, 0, 3, 3], [0, 0, 3, 0]];
    sheet
}

fn network_draft() -> NetworkDraft {
    let base = draft();
    let mut network = NetworkDraft {
        front: base.front,
        transitions: vec![
            ([0, 0, 0, 1, 1, 1], vec![[0, 0], [3, 2]]),
            ([1, 1, 0, 0, 0, 0], vec![]),
            ([1, 0, 1, 3, 0, 2], vec![]),
        ],
        templates: vec![[0, 2], [0, 3], [0, 0]],
    };
    network.front.version = 2;
    network
}

fn sheet_answer(change: impl Fn(&mut SheetDraft)) -> Result<(), u8> {
    let mut changed = draft();
    change(&mut changed);
    read_sheet(&changed.bytes())
}

fn read_sheet(bytes: &[u8]) -> Result<(), u8> {
    let answer = Sheet::read(bytes);
    if let Ok(sheet) = &answer {
        assert_eq!(sheet.bytes(), bytes);
    }
    // Everything that reads a sheet refuses it alike.
    let refusal = answer.err();
    let mut buffer = vec![7; BUFFER];
    assert_eq!(translate(bytes, &mut buffer).err(), refusal);
    if let Some(refusal) = refusal {
        assert!(buffer.iter().all(|b| *b == 7));
        assert_eq!(
            reference::implementation::run::run_sheet(bytes, &[]).result,
            Outcome::Refused(refusal)
        );
        let event = event(0, 0, 1);
        assert_eq!(
            sheet_event(bytes, &SheetState::default(), &event),
            Err(refusal)
        );
    }
    refusal.map_or(Ok(()), |r| Err(r.number()))
}

fn network_answer(change: impl Fn(&mut NetworkDraft)) -> Result<(), u8> {
    let mut changed = network_draft();
    change(&mut changed);
    read_network(&changed.bytes())
}

fn read_network(bytes: &[u8]) -> Result<(), u8> {
    let answer = Network::read(bytes);
    if let Ok(network) = &answer {
        assert_eq!(network.bytes(), bytes);
    }
    let refusal = answer.err();
    if let Some(refusal) = refusal {
        let event = event(0, 0, 1);
        assert_eq!(
            network_event(bytes, &NetworkState::default(), &event),
            Err(refusal)
        );
    }
    refusal.map_or(Ok(()), |r| Err(r.number()))
}

fn event(kind: u8, unit: u8, call: u16) -> Event<'static> {
    Event {
        kind,
        unit,
        call,
        values: &[4, 4],
    }
}

// ---- Reading ----------------------------------------------------------------------------------

#[test]
fn the_drafts_are_accepted() {
    assert_eq!(sheet_answer(|_| {}), Ok(()));
    assert_eq!(network_answer(|_| {}), Ok(()));
    assert_eq!(read_sheet(&SheetDraft::new(1, 1, 0, &[]).bytes()), Ok(()));
}

#[test]
fn refusal_1_and_2() {
    let good = draft().bytes();
    for length in 0..good.len() {
        assert_eq!(read_sheet(&good[..length]), Err(1));
    }
    assert_eq!(read_sheet(&[&good[..], &[0]].concat()), Err(1));
    assert_eq!(
        read_sheet(&[0, 13, 9, 0, 0, 0, 0, 0, 0, 0, 0, 0, 0]),
        Err(1)
    );
    for version in [0, 2, 255] {
        assert_eq!(sheet_answer(|d| d.front.version = version), Err(2));
    }
    for version in [0, 1, 4] {
        assert_eq!(network_answer(|d| d.front.version = version), Err(2));
    }
    // 2 comes before 3.
    let both = |d: &mut SheetDraft| (d.front.version, d.front.states) = (7, 0);
    assert_eq!(sheet_answer(both), Err(2));
}

#[test]
fn refusal_3_counts() {
    assert_eq!(sheet_answer(|d| d.front.states = 0), Err(3));
    assert_eq!(sheet_answer(|d| d.front.states = 17), Err(3));
    assert_eq!(sheet_answer(|d| d.front.states = 16), Ok(()));
    assert_eq!(sheet_answer(|d| d.front.units = 0), Err(3));
    assert_eq!(sheet_answer(|d| d.front.units = 17), Err(3));
    assert_eq!(sheet_answer(|d| d.front.units = 16), Ok(()));
    assert_eq!(sheet_answer(|d| d.front.program = 9), Err(3));
    assert_eq!(sheet_answer(|d| d.front.program = 8), Ok(()));
    assert_eq!(sheet_answer(|d| d.front.monitor = 5), Err(3));
    let four = |d: &mut SheetDraft| (d.front.monitor, d.front.initial) = (4, vec![1, 2, 3, 4]);
    assert_eq!(sheet_answer(four), Ok(()));
    assert_eq!(
        sheet_answer(|d| d.front.conditions.resize(64, vec![0])),
        Ok(())
    );
    assert_eq!(
        sheet_answer(|d| d.front.conditions.resize(65, vec![0])),
        Err(3)
    );
    assert_eq!(sheet_answer(|d| d.front.actions.resize(32, vec![])), Ok(()));
    assert_eq!(sheet_answer(|d| d.front.actions.resize(33, vec![])), Err(3));
    assert_eq!(sheet_answer(|d| d.transitions.resize(64, [0; 6])), Ok(()));
    assert_eq!(sheet_answer(|d| d.transitions.resize(65, [0; 6])), Err(3));
    assert_eq!(sheet_answer(|d| spread_triples(d, 32)), Ok(()));
    assert_eq!(sheet_answer(|d| spread_triples(d, 33)), Err(3));
}

/// Triples on 16 states, four to a state, so that 8 does not apply.
fn spread_triples(draft: &mut SheetDraft, count: u8) {
    draft.front.states = 16;
    draft.triples = (0..count).map(|n| [n / 4, 0, 0, 0]).collect();
}

#[test]
fn refusal_3_states() {
    assert_eq!(sheet_answer(|d| d.front.start = 1), Ok(()));
    assert_eq!(sheet_answer(|d| d.front.start = 2), Err(3));
    assert_eq!(sheet_answer(|d| d.front.start = 3), Err(3));
    assert_eq!(sheet_answer(|d| d.front.bad = 0b1000), Err(3));
    assert_eq!(sheet_answer(|d| d.front.bad = 0x8000), Err(3));
    assert_eq!(sheet_answer(|d| d.front.bad = 0b001), Err(3));
    assert_eq!(sheet_answer(|d| d.front.bad = 0b110), Ok(()));
    let wide = |d: &mut SheetDraft| (d.front.states, d.front.bad) = (16, 0xFFFE);
    assert_eq!(sheet_answer(wide), Ok(()));
    // 3 comes before 4: with a wrong count the tables do not fit either.
    assert_eq!(
        sheet_answer(|d| (d.front.start, d.front.monitor) = (3, 2)),
        Err(3)
    );
}

#[test]
fn refusal_3_on_networks() {
    assert_eq!(
        network_answer(|d| d.front.conditions.resize(65, vec![0])),
        Ok(())
    );
    assert_eq!(
        network_answer(|d| d.front.conditions.resize(66, vec![0])),
        Err(3)
    );
    assert_eq!(
        network_answer(|d| d.front.actions.resize(33, vec![])),
        Ok(())
    );
    assert_eq!(
        network_answer(|d| d.front.actions.resize(34, vec![])),
        Err(3)
    );
    assert_eq!(
        network_answer(|d| d.transitions.resize(96, ([0; 6], vec![]))),
        Ok(())
    );
    assert_eq!(
        network_answer(|d| d.transitions.resize(97, ([0; 6], vec![]))),
        Err(3)
    );
    assert_eq!(network_answer(|d| d.templates.resize(32, [0, 0])), Ok(()));
    assert_eq!(network_answer(|d| d.templates.resize(33, [0, 0])), Err(3));
}

#[test]
fn refusal_4() {
    assert_eq!(sheet_answer(|d| d.front.conditions[0] = vec![]), Err(4));
    assert_eq!(
        sheet_answer(|d| d.front.conditions[0] = vec![0; 65]),
        Err(4)
    );
    assert_eq!(sheet_answer(|d| d.front.actions[0] = vec![0; 65]), Err(4));
    assert_eq!(sheet_answer(|d| d.front.monitor = 2), Err(4));
    assert_eq!(sheet_answer(|d| d.front.monitor = 0), Err(4));
    let full: Vec<u8> = [vec![1; 63], vec![0]].concat();
    assert_eq!(
        sheet_answer(|d| d.front.conditions[0].clone_from(&full)),
        Ok(())
    );
    // 4 comes before 5: the first condition is no condition, the last action too long.
    let both = |d: &mut SheetDraft| {
        d.front.conditions[0] = vec![99];
        d.front.actions[1] = vec![0; 65];
    };
    assert_eq!(sheet_answer(both), Err(4));
    assert_eq!(
        network_answer(|d| d.transitions[0].1 = vec![[0, 0]; 4]),
        Ok(())
    );
    assert_eq!(
        network_answer(|d| d.transitions[0].1 = vec![[0, 0]; 5]),
        Err(4)
    );
}

#[test]
fn refusal_4_by_the_end() {
    for good in [draft().bytes(), network_draft().bytes()] {
        let read = if good[2] == 1 {
            read_sheet
        } else {
            read_network
        };
        for length in 14..good.len() {
            let mut cut = good[..length].to_vec();
            (cut[0], cut[1]) = (0, length as u8);
            assert_eq!(read(&cut), Err(4), "{length}");
        }
        let mut long = good.clone();
        long.push(0);
        long[1] += 1;
        assert_eq!(read(&long), Err(4));
    }
}

#[test]
fn refusal_5() {
    for bad in [
        &[7][..],
        &[0, 0],
        &[17, 0],
        &[1],
        &[5, 17, 2, 17, 0],
        &[5, 18, 1, 17, 0],
    ] {
        assert_eq!(
            sheet_answer(|d| d.front.conditions.push(bad.to_vec())),
            Err(5)
        );
        assert_eq!(
            network_answer(|d| d.front.conditions.push(bad.to_vec())),
            Err(5)
        );
    }
    // A value at entry is out of range at P, not at V.
    assert_eq!(
        sheet_answer(|d| d.front.conditions.push(vec![5, 19, 2, 19, 0])),
        Err(5)
    );
    assert_eq!(
        sheet_answer(|d| d.front.conditions.push(vec![5, 19, 1, 19, 0])),
        Ok(())
    );
    for bad in [
        &[0][..],
        &[1, 17, 0],
        &[0, 17],
        &[0, 0],
        &[0, 17, 0, 0],
        &[0, 18, 1],
    ] {
        assert_eq!(sheet_answer(|d| d.front.actions.push(bad.to_vec())), Err(5));
        assert_eq!(
            network_answer(|d| d.front.actions.push(bad.to_vec())),
            Err(5)
        );
    }
    // 5 comes before 6 and 7.
    let both = |d: &mut SheetDraft| {
        d.transitions[0] = [9; 6];
        d.front.actions.push(vec![0, 19, 0]);
        d.front.actions.push(vec![0, 19, 2]);
    };
    assert_eq!(sheet_answer(both), Err(5));
}

#[test]
fn refusal_6() {
    for (place, limit) in [3, 2, 2, 4, 2, 3].into_iter().enumerate() {
        for number in [limit, 255] {
            assert_eq!(
                sheet_answer(|d| d.transitions[1][place] = number),
                Err(6),
                "{place}"
            );
            assert_eq!(
                network_answer(|d| d.transitions[1].0[place] = number),
                Err(6)
            );
        }
    }
    for (place, limit) in [3, 2, 4, 4].into_iter().enumerate() {
        for number in [limit, 255] {
            assert_eq!(
                sheet_answer(|d| d.triples[2][place] = number),
                Err(6),
                "{place}"
            );
        }
    }
    // 6 comes before 7: a value at entry as a guard, and a number out of range after it.
    let both = |d: &mut SheetDraft| (d.transitions[0][3], d.triples[2][0]) = (2, 3);
    assert_eq!(sheet_answer(both), Err(6));
}

#[test]
fn refusal_6_on_networks() {
    assert_eq!(network_answer(|d| d.transitions[0].1[0] = [4, 0]), Err(6));
    assert_eq!(network_answer(|d| d.transitions[0].1[1] = [0, 3]), Err(6));
    assert_eq!(
        network_answer(|d| d.transitions[1].1 = vec![[0, 0]]),
        Err(6)
    );
    assert_eq!(
        network_answer(|d| d.transitions[2].1 = vec![[0, 0]]),
        Err(6)
    );
    assert_eq!(network_answer(|d| d.templates[1] = [1, 3]), Ok(()));
    assert_eq!(network_answer(|d| d.templates[2] = [1, 3]), Err(6));
    assert_eq!(network_answer(|d| d.templates[1] = [2, 3]), Err(6));
    assert_eq!(network_answer(|d| d.templates[1] = [0, 4]), Err(6));
    // The same template twice is allowed.
    assert_eq!(
        network_answer(|d| d.transitions[0].1 = vec![[0, 1], [3, 1]]),
        Ok(())
    );
}

#[test]
fn refusal_7() {
    // Condition 1 holds a monitor variable, condition 2 a value at entry.
    assert_eq!(sheet_answer(|d| d.transitions[1][3] = 2), Err(7));
    assert_eq!(sheet_answer(|d| d.transitions[1][3] = 1), Ok(()));
    for (precondition, answer) in [(0, Ok(())), (1, Ok(())), (2, Err(7)), (3, Ok(()))] {
        assert_eq!(sheet_answer(|d| d.triples[1][2] = precondition), answer);
        let pair = |d: &mut NetworkDraft| d.transitions[0].1[0][0] = precondition;
        assert_eq!(network_answer(pair), answer);
    }
    for (postcondition, answer) in [(0, Ok(())), (1, Err(7)), (2, Ok(())), (3, Ok(()))] {
        assert_eq!(sheet_answer(|d| d.triples[1][3] = postcondition), answer);
        // A template counts though no pair names it.
        assert_eq!(
            network_answer(|d| d.templates[1][1] = postcondition),
            answer
        );
    }
    // In actions also where nothing names them; unused conditions may hold anything.
    assert_eq!(
        sheet_answer(|d| d.front.actions.push(vec![0, 19, 0])),
        Err(7)
    );
    assert_eq!(
        network_answer(|d| d.front.actions.push(vec![0, 19, 0])),
        Err(7)
    );
    assert_eq!(
        sheet_answer(|d| d.front.conditions.push(vec![5, 18, 0, 19, 0])),
        Ok(())
    );
    // In a part that evaluation does not reach, of a pre- and a postcondition.
    for (operator, place) in [(18, 3), (19, 2)] {
        let hidden = vec![3, 0, 5, operator, 0, 17, 0];
        let named = |d: &mut SheetDraft| {
            d.front.conditions.push(hidden.clone());
            d.triples[1][place] = 4;
        };
        assert_eq!(sheet_answer(named), Err(7));
    }
}

#[test]
fn refusal_8() {
    let triples = |count: usize| move |d: &mut SheetDraft| d.triples = vec![[0, 1, 0, 0]; count];
    assert_eq!(sheet_answer(triples(4)), Ok(()));
    assert_eq!(sheet_answer(triples(5)), Err(8));
    let mixed = |d: &mut SheetDraft| {
        d.triples = [[0, 1, 0, 0], [1, 0, 0, 0]].repeat(4);
        d.triples.push([1, 1, 0, 0]);
    };
    assert_eq!(sheet_answer(mixed), Ok(()));
    let late = |d: &mut SheetDraft| {
        mixed(d);
        d.triples.push([1, 0, 0, 0]);
    };
    assert_eq!(sheet_answer(late), Err(8));
    // 7 comes before 8: a value at entry before, a monitor variable after; the other way round is right.
    for (triple, refusal) in [([0, 1, 2, 0], 7), ([0, 1, 0, 1], 7), ([0, 1, 1, 2], 8)] {
        assert_eq!(sheet_answer(|d| d.triples = vec![triple; 5]), Err(refusal));
    }
}

#[test]
fn the_longest_sheet_and_its_network() {
    let mut random = reference::making::random::Random::new(1);
    let draft =
        reference::making::generate::sheet(&mut random, reference::making::generate::Size::Full);
    let bytes = draft.bytes();
    assert_eq!(bytes.len(), LONGEST_SHEET);
    assert_eq!(read_sheet(&bytes), Ok(()));
    let mut buffer = vec![0; BUFFER];
    let length = translate(&bytes, &mut buffer).unwrap();
    assert!(length <= BUFFER);
    assert_eq!(read_network(&buffer[..length]), Ok(()));
}

// ---- Events -----------------------------------------------------------------------------------

fn read() -> Sheet {
    Sheet::read(&draft().bytes()).unwrap()
}

/// Call 7 of unit 0 is open, with triples 0 and 2 armed; the main state is 1.
fn one_open() -> SheetState {
    let sheet = read();
    sheet.event(&sheet.fresh(), &event(0, 0, 7)).unwrap()
}

fn network_one_open() -> (Network, NetworkState) {
    let network = read().translate();
    let state = network.event(&network.fresh(), &event(0, 0, 7)).unwrap();
    (network, state)
}

#[test]
fn the_state_after_an_entry() {
    let state = one_open();
    assert_eq!(state.armed[0].numbers(), [0, 2]);
    assert_eq!((state.common.main, state.common.variables[0]), (1, 1));
    let (_, state) = network_one_open();
    let templates: Vec<u8> = state.living_checkers().iter().map(|c| c.template).collect();
    assert_eq!(templates, [0, 2]);
}

/// A change of a state, to see whether it stays sound.
type Change<'a, S> = &'a dyn Fn(&mut S);

#[test]
fn refusal_9_on_sheets() {
    let sheet = read();
    let offer = |change: Change<SheetState>| {
        let mut state = one_open();
        change(&mut state);
        let answer = sheet.event(&state, &event(0, 1, 8));
        assert_eq!(state.is_sound(&sheet), answer != Err(Refusal::Unsound));
        answer.err()
    };
    let unsound = Some(Refusal::Unsound);
    assert_eq!(offer(&|_| {}), None);
    let changes: [Change<SheetState>; 20] = [
        &|s| s.common.main = 3,
        &|s| s.common.main = 255,
        &|s| s.common.main = 2,
        &|s| s.common.variables[1] = 1,
        &|s| s.common.open = 17,
        &|s| s.common.open = 255,
        &|s| s.common.open = 0,
        &|s| s.common.calls[0].unit = 2,
        // Unit 1 is below U, but the armed triples are not of it.
        &|s| s.common.calls[0].unit = 1,
        &|s| s.common.calls[0].kept[2] = 1,
        &|s| s.common.calls[1].number = 1,
        &|s| s.common.calls[15].kept[0] = 1,
        &|s| s.armed[0].count = 5,
        &|s| s.armed[0].count = 1,
        &|s| s.armed[0].count = 3,
        &|s| s.armed[0].triples = [2, 0, 0, 0],
        &|s| s.armed[0].triples = [0, 3, 0, 0],
        // Triple 1 is of another state than triple 0.
        &|s| s.armed[0].triples = [0, 1, 0, 0],
        &|s| s.armed[1].count = 1,
        &|s| s.armed[9].triples[3] = 1,
    ];
    for (number, change) in changes.iter().enumerate() {
        assert_eq!(offer(change), unsound, "{number}");
    }
    // Two open calls with one number, and with two.
    let second = |s: &mut SheetState, number: u16| {
        (s.common.open, s.common.position) = (2, 2);
        s.common.calls[1] = s.common.calls[0];
        (s.common.calls[1].entry, s.common.calls[1].number) = (2, number);
    };
    assert_eq!(offer(&|s| second(s, 7)), unsound);
    assert_eq!(offer(&|s| second(s, 9)), None);
    let other_state = |s: &mut SheetState| {
        (s.armed[0].count, s.armed[0].triples) = (1, [1, 0, 0, 0]);
    };
    // All of one state, though not the one the entry was in.
    assert_eq!(offer(&other_state), None);
    // Call 7 was entered at 1.
    assert_eq!(offer(&|s| s.common.position = 0), unsound);
    assert_eq!(offer(&|s| s.common.position = 9), None);
}

#[test]
fn refusal_9_by_the_verdict() {
    let sheet = read();
    let verdict = |position: u32, cause: Cause| Verdict {
        position,
        cause,
        entry: cause.triple().map_or(0, |_| 1),
    };
    let offer = |main: u8, position: u32, cause: Cause| {
        let mut state = one_open();
        (state.common.main, state.common.position) = (main, 2);
        state.common.verdict = Some(verdict(position, cause));
        sheet
            .event(&state, &event(0, 1, 8))
            .err()
            .map(Refusal::number)
    };
    let both = |state, triple| Cause::Both { state, triple };
    assert_eq!(offer(2, 2, Cause::State(2)), Some(10));
    assert_eq!(offer(2, 2, both(2, 1)), Some(10));
    assert_eq!(offer(1, 2, Cause::Triple(2)), Some(10));
    // A triple alone is sound also where the main state is bad.
    assert_eq!(offer(2, 2, Cause::Triple(0)), Some(10));
    assert_eq!(offer(2, 3, Cause::State(2)), Some(9));
    assert_eq!(offer(1, 2, Cause::State(1)), Some(9));
    assert_eq!(offer(2, 2, Cause::State(1)), Some(9));
    assert_eq!(offer(1, 2, Cause::State(2)), Some(9));
    assert_eq!(offer(1, 2, Cause::Triple(3)), Some(9));
    assert_eq!(offer(2, 2, both(2, 3)), Some(9));
    assert_eq!(offer(1, 2, both(2, 0)), Some(9));
    // At position 0 a bad state may be found, but no call can have been entered.
    for (cause, refusal) in [
        (Cause::State(2), Refusal::HasVerdict),
        (Cause::Triple(0), Refusal::Unsound),
    ] {
        let mut fresh = sheet.fresh();
        (fresh.common.main, fresh.common.verdict) = (2, Some(verdict(0, cause)));
        assert_eq!(sheet.event(&fresh, &event(0, 0, 1)), Err(refusal));
    }
}

#[test]
fn refusal_9_on_networks() {
    let (network, good) = network_one_open();
    let offer = |change: Change<NetworkState>| {
        let mut state = good.clone();
        change(&mut state);
        network.event(&state, &event(0, 1, 8)).err()
    };
    let unsound = Some(Refusal::Unsound);
    let checker = |call, template| Checker {
        call,
        template,
        entry: 1,
    };
    assert_eq!(offer(&|_| {}), None);
    let changes: [Change<NetworkState>; 9] = [
        &|s| s.living = 65,
        &|s| s.living = 1,
        &|s| s.living = 3,
        &|s| s.checkers[1].call = 8,
        &|s| s.checkers[1].template = 3,
        &|s| s.checkers[63].template = 1,
        &|s| s.common.calls[0].unit = 1,
        &|s| s.common.main = 2,
        &|s| s.common.variables[3] = -1,
    ];
    for (number, change) in changes.iter().enumerate() {
        assert_eq!(offer(change), unsound, "{number}");
    }
    // Within a call any order and the same template twice are sound; five are not.
    let set = |s: &mut NetworkState, row: &[Checker]| {
        s.living = row.len() as u8;
        s.checkers = [Checker::default(); 64];
        s.checkers[..row.len()].copy_from_slice(row);
    };
    assert_eq!(offer(&|s| set(s, &[checker(7, 2), checker(7, 0)])), None);
    assert_eq!(offer(&|s| set(s, &[checker(7, 1); 4])), None);
    assert_eq!(offer(&|s| set(s, &[checker(7, 1); 5])), unsound);
}

#[test]
fn refusal_9_where_checkers_are_not_in_their_calls_order() {
    let (network, state) = network_one_open();
    let mut state = network.event(&state, &event(0, 0, 8)).unwrap();
    // Call 8 entered in state 1, where triple 1 is armed.
    let calls: Vec<u16> = state.living_checkers().iter().map(|c| c.call).collect();
    assert_eq!(calls, [7, 7, 8]);
    assert!(state.is_sound(&network));
    state.checkers.swap(0, 2);
    assert!(!state.is_sound(&network));
    assert_eq!(
        network.event(&state, &event(0, 1, 9)),
        Err(Refusal::Unsound)
    );
}

#[test]
fn refusals_10_to_15_in_order() {
    let sheet = read();
    let network = sheet.translate();
    let answer = |change: &dyn Fn(&mut reference::implementation::state::Common), event: &Event| {
        let mut on_sheet = one_open();
        change(&mut on_sheet.common);
        let (_, mut on_network) = network_one_open();
        change(&mut on_network.common);
        let refusal = sheet.event(&on_sheet, event).err().map(Refusal::number);
        assert_eq!(
            network.event(&on_network, event).err().map(Refusal::number),
            refusal
        );
        refusal
    };
    let short = Event {
        values: &[4],
        ..event(0, 0, 9)
    };
    let long = Event {
        values: &[4, 4, 4],
        ..event(0, 0, 9)
    };
    let as_is = |_: &mut reference::implementation::state::Common| {};
    assert_eq!(answer(&as_is, &event(2, 0, 9)), Some(11));
    assert_eq!(answer(&as_is, &event(255, 0, 7)), Some(11));
    assert_eq!(answer(&as_is, &event(0, 2, 9)), Some(11));
    assert_eq!(answer(&as_is, &event(1, 2, 7)), Some(11));
    assert_eq!(answer(&as_is, &short), Some(11));
    assert_eq!(answer(&as_is, &long), Some(11));
    assert_eq!(answer(&as_is, &event(0, 1, 7)), Some(13));
    assert_eq!(answer(&as_is, &event(1, 0, 9)), Some(15));
    assert_eq!(answer(&as_is, &event(1, 1, 7)), Some(15));
    assert_eq!(answer(&as_is, &event(1, 0, 7)), None);
    let verdict = |c: &mut reference::implementation::state::Common| {
        c.position = 2;
        c.verdict = Some(Verdict {
            position: 2,
            cause: Cause::Triple(0),
            entry: 1,
        })
    };
    // 10 before 11, 11 before 12, 12 before 13 and 15.
    assert_eq!(answer(&verdict, &event(2, 0, 9)), Some(10));
    let last = |c: &mut reference::implementation::state::Common| c.position = u32::MAX;
    assert_eq!(answer(&last, &event(2, 0, 9)), Some(11));
    assert_eq!(answer(&last, &event(0, 0, 7)), Some(12));
    assert_eq!(answer(&last, &event(1, 0, 9)), Some(12));
    let last_but_one = |c: &mut reference::implementation::state::Common| c.position = u32::MAX - 1;
    assert_eq!(answer(&last_but_one, &event(0, 0, 9)), None);
}

#[test]
fn refusal_14_comes_after_13() {
    let sheet = read();
    let mut state = sheet.fresh();
    for call in 0..16 {
        // Unit 1 stays in state 0, where no transition is for it.
        state = sheet.event(&state, &event(0, 1, call)).unwrap();
    }
    assert_eq!(state.common.open, 16);
    assert_eq!(sheet.event(&state, &event(0, 1, 16)), Err(Refusal::NoPlace));
    assert_eq!(
        sheet.event(&state, &event(0, 1, 15)),
        Err(Refusal::AlreadyOpen)
    );
    let state = sheet.event(&state, &event(1, 1, 3)).unwrap();
    let numbers: Vec<u16> = state.common.open_calls().iter().map(|c| c.number).collect();
    assert_eq!(numbers, [0, 1, 2, 4, 5, 6, 7, 8, 9, 10, 11, 12, 13, 14, 15]);
    assert_eq!(state.common.calls[15], Default::default());
}

#[test]
fn a_refused_event_leaves_the_state_alone() {
    let sheet = read();
    let before = one_open();
    let state = before.clone();
    assert!(sheet.event(&state, &event(0, 0, 7)).is_err());
    assert_eq!(state, before);
}

// ---- Networks that no sheet gives -------------------------------------------------------------

#[test]
fn a_network_may_create_a_checker_twice_and_out_of_order() {
    let mut draft = network_draft();
    // Templates 1 and 2 both fail on unequal values; template 1 is the lowest.
    draft.templates = vec![[0, 0], [0, 3], [0, 3]];
    draft.transitions[0].1 = vec![[0, 2], [0, 1], [0, 2], [0, 0]];
    let network = Network::read(&draft.bytes()).unwrap();
    let state = network.event(&network.fresh(), &event(0, 0, 7)).unwrap();
    let templates: Vec<u8> = state.living_checkers().iter().map(|c| c.template).collect();
    assert_eq!(templates, [2, 1, 2, 0]);
    let exit = Event {
        values: &[1, 2],
        ..event(1, 0, 7)
    };
    let state = network.event(&state, &exit).unwrap();
    let verdict = Verdict {
        position: 2,
        cause: Cause::Triple(1),
        entry: 1,
    };
    assert_eq!(state.common.verdict, Some(verdict));
    assert_eq!(state.living, 0);
    assert_eq!(state.checkers, [Checker::default(); 64]);
}
