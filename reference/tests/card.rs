//! Networks of version 3: writing them, reading them, and what runs on them give.

use reference::implementation::engine::Engine;
use reference::implementation::expr::Lent;
use reference::implementation::machine::Transition;
use reference::implementation::network::{Network, Version};
use reference::implementation::refusal::Refusal;
use reference::implementation::run::{run, run_network, run_sheet, write_log};
use reference::implementation::sheet::Sheet;
use reference::implementation::state::NetworkState;
use reference::implementation::translate::{translate, translate_card, BUFFER, CARD_BUFFER};
use reference::making::cases::sheet_cases::{CARD_A, LOG_A, SHEET_A};
use reference::making::draft::{NetworkDraft, SheetDraft};
use reference::making::generate::{self, Size};
use reference::making::random::Random;

const FILL: u8 = 0xEE;

/// The answer and the whole buffer behind it.
fn card_in(sheet: &[u8], room: usize) -> (Result<usize, Refusal>, Vec<u8>) {
    let mut buffer = vec![FILL; room];
    let answer = translate_card(sheet, &mut buffer);
    (answer, buffer)
}

/// One in four has many rivals.
fn any_sheet(random: &mut Random) -> SheetDraft {
    if random.chance(1, 4) {
        return generate::sheet_of_rivals(random);
    }
    let size = generate::any_size(random);
    generate::sheet(random, size)
}

/// A condition of this length: `not` over and over, then `true`.
fn nots(length: usize) -> Vec<u8> {
    [vec![1; length - 1], vec![0]].concat()
}

// ---- Writing ----------------------------------------------------------------------------------

#[test]
fn the_version_3_network_of_a() {
    for room in [68, 69, 100] {
        let (answer, buffer) = card_in(&SHEET_A, room);
        assert_eq!(answer, Ok(68));
        assert_eq!(buffer[..68], CARD_A);
        assert_eq!(buffer[68..], vec![FILL; room - 68]);
    }
    for room in [0, 1, 53, 67] {
        assert_eq!(
            card_in(&SHEET_A, room),
            (Err(Refusal::Buffer), vec![FILL; room])
        );
    }
    let read = Network::read(&CARD_A).expect("it is a network");
    assert_eq!(read.version, Version::Three);
    assert_eq!(read.bytes(), CARD_A);
    let on_card = run_network(&CARD_A, &LOG_A).result;
    assert_eq!(on_card, run_sheet(&SHEET_A, &LOG_A).result);
}

/// A sheet whose entries to unit 0 have conditions of these lengths, with a triple or without.
fn rivals(lengths: &[usize], triple: bool) -> Vec<u8> {
    let mut draft = SheetDraft::new(1, 1, 0, &[]);
    draft.front.conditions = lengths.iter().map(|length| nots(*length)).collect();
    draft.front.actions.push(vec![]);
    for number in 0..lengths.len() as u8 {
        draft.transitions.push([0, 0, 0, number, 0, 0]);
    }
    if triple {
        draft.triple(0, 0, 0, 0);
    }
    draft.bytes()
}

#[test]
fn refusal_21_past_1_024_bytes() {
    // Fifteen rivals of 64 bytes take 990 with `and` and `not`.
    let mut lengths = vec![64; 15];
    let with = |lengths: &[usize], last: usize| [lengths, &[last]].concat();
    let accepted = rivals(&with(&lengths, 34), false);
    let (answer, buffer) = card_in(&accepted, CARD_BUFFER);
    let network = Network::read(&buffer[..answer.expect("1,024 bytes")]).expect("a network");
    let longest = network.machine.conditions.last().expect("joined");
    assert_eq!(longest.bytes().len(), 1_024);
    let refused = rivals(&with(&lengths, 35), false);
    for room in [0, 100, CARD_BUFFER] {
        assert_eq!(
            card_in(&refused, room),
            (Err(Refusal::TooLong), vec![FILL; room])
        );
    }
    // With the added transition, whose own condition has one byte.
    lengths.push(31);
    assert!(card_in(&rivals(&lengths, true), CARD_BUFFER).0.is_ok());
    lengths[15] = 32;
    assert!(card_in(&rivals(&lengths, false), CARD_BUFFER).0.is_ok());
    assert_eq!(
        card_in(&rivals(&lengths, true), CARD_BUFFER).0,
        Err(Refusal::TooLong)
    );
    // In version 2 there is no such refusal.
    assert!(translate(&refused, &mut [0; BUFFER]).is_ok());
}

#[test]
fn a_refused_sheet_is_refused_alike_in_both_forms() {
    let mut random = Random::new(31);
    for _ in 0..2_000 {
        let draft = generate::sheet(&mut random, Size::Small);
        let broken = generate::break_sheet(&mut random, &draft);
        if let Err(refusal) = Sheet::read(&broken) {
            for room in [0, 70, 2_000] {
                assert_eq!(card_in(&broken, room), (Err(refusal), vec![FILL; room]));
            }
        }
    }
}

/// The joined bytes, written from the version 2 network.
#[test]
fn what_is_joined_is_and_not_earlier_and_then_its_own() {
    let mut random = Random::new(32);
    let mut long = 0;
    for _ in 0..3_000 {
        let sheet = Sheet::read(&any_sheet(&mut random).bytes()).unwrap();
        let (old, new) = (sheet.translate(), sheet.translate().separated());
        let old_bytes = |place: usize| {
            let number = old.transitions[place].transition.condition;
            old.machine.conditions[usize::from(number)].bytes()
        };
        let count = old.machine.conditions.len();
        assert_eq!(new.machine.conditions[..count], old.machine.conditions);
        assert_eq!(new.machine.conditions.len(), count + old.transitions.len());
        for (place, creating) in new.transitions.iter().enumerate() {
            let t = creating.transition;
            assert_eq!(usize::from(t.condition), count + place);
            let mut joined = Vec::new();
            for (earlier, other) in old.transitions[..place].iter().enumerate() {
                let o = other.transition;
                if (o.from, o.kind, o.unit) == (t.from, t.kind, t.unit) {
                    joined.extend([2, 1]);
                    joined.extend(old_bytes(earlier));
                }
            }
            joined.extend(old_bytes(place));
            assert_eq!(new.machine.conditions[count + place].bytes(), joined);
            long += usize::from(joined.len() > 255);
            // All else stays.
            let condition = old.transitions[place].transition.condition;
            let back = Transition { condition, ..t };
            assert_eq!(back, old.transitions[place].transition);
            assert_eq!(creating.pairs, old.transitions[place].pairs);
        }
        assert_eq!(new.templates, old.templates);
        assert_eq!(new.machine.actions, old.machine.actions);
    }
    assert!(long > 100, "{long} joined conditions have over 255 bytes");
}

// ---- At most one, and the same run ------------------------------------------------------------

/// How many transitions of the same state, kind and unit as one of them have conditions that hold.
fn enabled_with(network: &Network, one: &Transition, lent: &Lent) -> usize {
    let rivals = network.transitions.iter().map(|c| &c.transition);
    let rivals = rivals.filter(|t| (t.from, t.kind, t.unit) == (one.from, one.kind, one.unit));
    rivals
        .filter(|t| network.machine.condition_holds(t.condition, lent))
        .count()
}

#[test]
fn under_any_values_at_most_one_condition_holds() {
    let mut random = Random::new(33);
    let (mut one, mut several) = (0, 0);
    for _ in 0..1_500 {
        let sheet = Sheet::read(&any_sheet(&mut random).bytes()).unwrap();
        let (old, new) = (sheet.translate(), sheet.translate().separated());
        for _ in 0..4 {
            let (program, monitor) = (random.words(8), random.words(4));
            let lent = Lent {
                program: &program,
                monitor: &monitor,
                kept: &[],
            };
            for (before, after) in old.transitions.iter().zip(&new.transitions) {
                let holding = enabled_with(&new, &after.transition, &lent);
                let before = enabled_with(&old, &before.transition, &lent);
                assert_eq!(holding, before.min(1));
                one += usize::from(holding == 1);
                several += usize::from(before > 1);
            }
        }
    }
    assert!(one > 1_000 && several > 1_000, "{one} {several}");
}

fn states<E: Engine>(
    engine: &E,
    records: &[reference::implementation::run::Record],
) -> Vec<E::State> {
    let mut states = vec![engine.fresh()];
    for record in records {
        match engine.event(&states[states.len() - 1], &record.event()) {
            Ok(next) => states.push(next),
            Err(_) => break,
        }
    }
    states
}

#[test]
fn sheet_and_both_networks_give_the_same_run() {
    let mut random = Random::new(34);
    let (mut written, mut several) = (0, 0);
    for _ in 0..6_000 {
        let draft = any_sheet(&mut random);
        let (answer, buffer) = card_in(&draft.bytes(), CARD_BUFFER);
        let Ok(length) = answer else {
            assert_eq!(answer, Err(Refusal::TooLong));
            continue;
        };
        written += 1;
        let sheet = Sheet::read(&draft.bytes()).unwrap();
        let card = Network::read(&buffer[..length]).expect("what is written is a network");
        let (shape, manner) = (
            generate::Shape::of(&draft),
            generate::Manner::any(&mut random),
        );
        let records = generate::records(&mut random, shape, manner, 30);
        let log = write_log(shape.program, &records);
        assert_eq!(run(&card, &log).result, run(&sheet, &log).result);
        let on_card = states(&card, &records);
        let on_network = states(&sheet.translate(), &records);
        assert_eq!(on_card, on_network);
        // In any order.
        let mut backwards = card.clone();
        backwards.transitions.reverse();
        assert_eq!(states(&backwards, &records), on_card);
        several += usize::from(on_card.last().is_some_and(|s: &NetworkState| s.living > 1));
    }
    assert!(written > 4_000 && several > 400, "{written} {several}");
}

// ---- Reading ----------------------------------------------------------------------------------

/// Some of everything. Conditions: 0 true, 1 on the variable, 2 on values at entry.
fn draft() -> NetworkDraft {
    let mut draft = NetworkDraft::new(2, 2, 1, &[-1]).in_version_3();
    draft.front.bad = 0b10;
    draft.front.conditions = vec![vec![0], vec![4, 18, 0, 17, 0], vec![5, 17, 0, 19, 0]];
    draft.front.actions = vec![vec![], vec![0, 18, 0]];
    draft.creating([0, 0, 0, 1, 1, 1], &[[0, 0]]);
    draft.creating([1, 1, 1, 0, 0, 0], &[]);
    draft.templates = vec![[0, 2]];
    draft
}

/// `None` where it is accepted; then it is written back as it was read.
fn answer(change: impl Fn(&mut NetworkDraft)) -> Option<u8> {
    let mut changed = draft();
    change(&mut changed);
    let bytes = changed.bytes();
    let network = Network::read(&bytes);
    if let Ok(network) = &network {
        assert_eq!(network.bytes(), bytes);
        assert_eq!(network.places(), changed.places());
    }
    network.err().map(Refusal::number)
}

#[test]
fn refusals_1_to_4_of_version_3() {
    assert_eq!(answer(|_| {}), None);
    let good = draft().bytes();
    for length in 0..good.len() {
        let refusal = Network::read(&good[..length]).err().map(Refusal::number);
        assert_eq!(refusal, Some(1));
    }
    for version in [0, 1, 4, 255] {
        assert_eq!(answer(|d| d.front.version = version), Some(2));
    }
    // The lengths' width goes with the version.
    assert_eq!(answer(|d| d.front.version = 2), Some(4));
    assert_eq!(answer(|d| d.front.wide = false), Some(4));
    assert_eq!(Sheet::read(&good).err(), Some(Refusal::Version));
    let conditions = |count: usize| answer(move |d| d.front.conditions.resize(count, vec![0]));
    assert_eq!(conditions(160), None);
    assert_eq!(conditions(161), None);
    assert_eq!(conditions(162), Some(3));
    for (count, refusal) in [(33, None), (34, Some(3))] {
        assert_eq!(answer(|d| d.front.actions.resize(count, vec![])), refusal);
    }
    for length in [1, 64, 65, 255, 256, 257, 1_023, 1_024] {
        let two = [nots(length), nots(2)];
        assert_eq!(answer(|d| d.front.conditions.extend(two.clone())), None);
    }
    for length in [1_025, 1_280, 2_048] {
        assert_eq!(answer(|d| d.front.conditions.push(nots(length))), Some(4));
    }
    assert_eq!(answer(|d| d.front.conditions.push(vec![])), Some(4));
    let action = |count: usize, last: &'static [u8]| {
        let bytes = [[0, 18, 0].repeat(count), last.to_vec()].concat();
        answer(move |d| d.front.actions.push(bytes.clone()))
    };
    assert_eq!(action(19, &[0, 22, 0, 18, 0, 18, 0]), None);
    assert_eq!(action(20, &[0, 16, 0, 0, 0]), Some(4));
    assert_eq!(answer(|d| d.transitions[0].1 = vec![[0, 0]; 4]), None);
    assert_eq!(answer(|d| d.transitions[0].1 = vec![[0, 0]; 5]), Some(4));
}

#[test]
fn refusals_5_to_7_of_version_3() {
    let long = |end: &'static [u8]| {
        let bytes = [vec![1; 1_024 - end.len()], end.to_vec()].concat();
        answer(move |d| d.front.conditions.push(bytes.clone()))
    };
    assert_eq!(long(&[0]), None);
    assert_eq!(long(&[7]), Some(5));
    assert_eq!(long(&[1]), Some(5));
    assert_eq!(long(&[0, 0]), Some(5));
    assert_eq!(long(&[5, 17, 0, 17, 0]), None);
    assert_eq!(long(&[5, 17, 0, 17, 1]), Some(5));
    assert_eq!(answer(|d| d.transitions[1].0[3] = 3), Some(6));
    assert_eq!(answer(|d| d.transitions[0].1[0] = [3, 0]), Some(6));
    assert_eq!(answer(|d| d.transitions[0].1[0] = [0, 1]), Some(6));
    assert_eq!(answer(|d| d.transitions[1].1.push([0, 0])), Some(6));
    assert_eq!(answer(|d| d.templates[0] = [1, 2]), Some(6));
    assert_eq!(answer(|d| d.transitions[1].0[3] = 1), None);
    assert_eq!(answer(|d| d.transitions[1].0[3] = 2), Some(7));
    assert_eq!(answer(|d| d.transitions[0].1[0] = [1, 0]), None);
    assert_eq!(answer(|d| d.transitions[0].1[0] = [2, 0]), Some(7));
    assert_eq!(answer(|d| d.templates[0] = [0, 1]), Some(7));
    assert_eq!(answer(|d| d.front.actions[0] = vec![0, 19, 0]), Some(7));
    // The highest number of a condition.
    let many = |number: u8| {
        answer(move |d| {
            d.front.conditions.resize(161, vec![0]);
            d.transitions[1].0[3] = number;
        })
    };
    assert_eq!(many(160), None);
    assert_eq!(many(161), Some(6));
}

/// Only version 3 takes them: sheets and version 2 keep to 64 bytes.
#[test]
fn sixty_five_bytes_are_for_version_3_and_the_evaluator_alone() {
    for (length, refusal) in [(64, None), (65, Some(Refusal::Tables))] {
        let sheet = rivals(&[length], false);
        assert_eq!(Sheet::read(&sheet).err(), refusal);
        let mut draft = NetworkDraft::new(1, 1, 0, &[]);
        draft.front.conditions.push(nots(length));
        assert_eq!(Network::read(&draft.bytes()).err(), refusal);
        assert!(Network::read(&draft.in_version_3().bytes()).is_ok());
    }
}
