//! Many random and damaged inputs: nothing panics, the answers hang together, and a run on a sheet
//! is the same as the run on its network.

use reference::counting::tally::{tally, wanted, SEED};
use reference::implementation::engine::{fresh_network_state, fresh_sheet_state, Engine, Event};
use reference::implementation::expr::{self, Lent};
use reference::implementation::network::Network;
use reference::implementation::program::output;
use reference::implementation::run::{reach, run_network, run_sheet, Record};
use reference::implementation::sheet::{Sheet, LONGEST_SHEET};
use reference::implementation::state::{Checker, NetworkState, SheetState};
use reference::implementation::translate::{translate, translate_card, BUFFER};
use reference::making::generate::{self, Size};
use reference::making::random::Random;
use reference::making::random_expr::damage;

/// Offers bytes to everything that takes bytes.
fn offer(bytes: &[u8], random: &mut Random) {
    let text = output(bytes);
    assert!(text.ends_with('\n') && text.lines().count() <= 2);
    assert_eq!(text.lines().next(), text.lines().last());
    let middle = random.below(bytes.len() + 1);
    let (front, back) = bytes.split_at(middle);
    let _ = run_sheet(front, back);
    let _ = run_network(front, back);
    let lent = Lent {
        program: &[1, 2],
        monitor: &[3],
        kept: &[4, 5],
    };
    let _ = expr::evaluate_condition(back, &lent);
    let _ = expr::evaluate_value(back, &lent);
    let _ = expr::evaluate_action(back, &lent);
    let mut buffer = [0; 300];
    let _ = translate(bytes, &mut buffer);
    let _ = translate_card(bytes, &mut buffer);
    offer_events(bytes, random);
}

/// Offers an event to fresh states made from the bytes, if they are a sheet or network.
fn offer_events(bytes: &[u8], random: &mut Random) {
    let values = random.words(random_small(bytes));
    let event = Event {
        kind: bytes.first().copied().unwrap_or(0) & 3,
        unit: 0,
        call: 1,
        values: &values,
    };
    let (state, _) = fresh_sheet_state(bytes);
    let _ = reference::implementation::engine::sheet_event(bytes, &state, &event);
    let (state, _) = fresh_network_state(bytes);
    let _ = reference::implementation::engine::network_event(bytes, &state, &event);
}

fn random_small(bytes: &[u8]) -> usize {
    usize::from(bytes.get(5).copied().unwrap_or(0) & 15)
}

#[test]
fn random_bytes_do_not_panic() {
    let mut random = Random::new(11);
    for _ in 0..60_000 {
        let length = random.between(0, 120);
        let mut bytes = random.bytes(length);
        // Without these the first two refusals would hide the rest.
        if bytes.len() >= 14 && random.chance(3, 4) {
            bytes[0] = 0;
            bytes[1] = random.pick(&[length as u8, length as u8, length as u8 / 2]);
            bytes[2] = random.pick(&[1, 2, 3]);
            for byte in &mut bytes[3..14] {
                *byte = random.below(5) as u8;
            }
        }
        offer(&bytes, &mut random);
    }
}

#[test]
fn damaged_sheets_and_logs_do_not_panic() {
    let mut random = Random::new(12);
    for _ in 0..50_000 {
        let size = if random.chance(1, 50) {
            Size::Full
        } else {
            Size::Small
        };
        let draft = generate::sheet(&mut random, size);
        let shape = generate::Shape::of(&draft);
        let manner = generate::Manner::any(&mut random);
        let count = random.between(0, 10);
        let records = generate::records(&mut random, shape, manner, count);
        let log = reference::implementation::run::write_log(shape.program, &records);
        let mut input = [draft.bytes(), log].concat();
        for _ in 0..random.between(1, 4) {
            damage(&mut random, &mut input);
        }
        offer(&input, &mut random);
    }
}

#[test]
fn damaged_networks_do_not_panic() {
    let mut random = Random::new(13);
    for _ in 0..20_000 {
        let mut draft = generate::network(&mut random, Size::Small);
        if random.chance(1, 2) {
            draft = generate::lengthened(&mut random, draft);
        }
        let mut bytes = draft.bytes();
        for _ in 0..random.between(1, 3) {
            bytes = generate::damaged(&mut random, bytes);
        }
        offer(&bytes, &mut random);
    }
}

#[test]
fn long_inputs_do_not_panic() {
    let mut random = Random::new(14);
    for length in [65_534, 65_535, 65_536, 65_537, 70_000] {
        let mut bytes = random.bytes(length);
        offer(&bytes, &mut random);
        (bytes[0], bytes[1], bytes[2]) = (0xFF, 0xFF, 1);
        offer(&bytes, &mut random);
    }
}

#[test]
fn drafts_are_accepted_and_written_back() {
    let mut random = Random::new(15);
    for _ in 0..3_000 {
        let size = generate::any_size(&mut random);
        let bytes = generate::sheet(&mut random, size).bytes();
        let sheet = Sheet::read(&bytes).expect("a draft is a sheet");
        assert_eq!(sheet.bytes(), bytes);
        assert!(bytes.len() <= LONGEST_SHEET);
        let network = sheet.translate().bytes();
        assert!(network.len() <= BUFFER);
        let read = Network::read(&network).expect("a translation is a network");
        assert_eq!(read.bytes(), network);
        let draft = generate::network(&mut random, size);
        let long = generate::lengthened(&mut random, draft.clone());
        for bytes in [draft.bytes(), long.bytes()] {
            let network = Network::read(&bytes).expect("a draft is a network");
            assert_eq!(network.bytes(), bytes);
        }
    }
}

/// Offers the records one by one, refused ones too, and compares after each.
fn compare_step_by_step(sheet: &Sheet, network: &Network, records: &[Record]) {
    let mut on_sheet = sheet.fresh();
    let mut on_network = network.fresh();
    for record in records {
        let first = sheet.event(&on_sheet, &record.event());
        let second = network.event(&on_network, &record.event());
        match (first, second) {
            (Ok(one), Ok(two)) => (on_sheet, on_network) = (one, two),
            (one, two) => assert_eq!(one.err(), two.err()),
        }
        compare(&on_sheet, &on_network);
        assert!(on_sheet.is_sound(sheet));
        assert!(on_network.is_sound(network));
    }
}

fn compare(on_sheet: &SheetState, on_network: &NetworkState) {
    assert_eq!(on_sheet.common, on_network.common);
    let calls = on_sheet.common.open_calls().iter().zip(&on_sheet.armed);
    let armed = calls.flat_map(|(call, armed)| {
        let triples = armed.numbers().iter();
        triples.map(|triple| Checker {
            call: call.number,
            template: *triple,
            entry: call.entry,
        })
    });
    let armed: Vec<Checker> = armed.collect();
    assert_eq!(on_network.living_checkers(), armed);
}

#[test]
fn sheet_and_network_agree_after_every_event() {
    let mut random = Random::new(16);
    let mut armed = 0;
    for _ in 0..8_000 {
        let size = generate::any_size(&mut random);
        let draft = generate::sheet(&mut random, size);
        let sheet = Sheet::read(&draft.bytes()).unwrap();
        let network = Network::read(&sheet.translate().bytes()).unwrap();
        let manner = generate::Manner {
            breaks: random.pick(&[0, 10]),
            entries: 5,
        };
        let shape = generate::Shape::of(&draft);
        let records = generate::records(&mut random, shape, manner, 30);
        compare_step_by_step(&sheet, &network, &records);
        armed += usize::from(reach(&network, &records).living > 1);
    }
    assert!(armed > 500, "{armed} runs end with several checkers");
}

#[test]
fn everything_wanted_occurs_many_times() {
    let tally = tally(SEED, 6_000).expect("sheet and network agree");
    for label in wanted() {
        assert!(tally.count(&label) >= 5, "{label}: {}", tally.count(&label));
    }
    assert!(tally.missing().is_empty());
}

#[test]
fn what_does_not_occur_is_named() {
    let tally = tally(SEED, 1).unwrap();
    assert!(tally.missing().len() > 20);
    assert!(tally
        .missing()
        .contains(&"sheet run: violated by both".to_string()));
}
