//! The cases of the program `cases`: whole inputs of `watch`. Document 01's sample, inputs at the
//! edges of what the program takes, random ones from a fixed seed, runs at the ends of the range, runs
//! whose preconditions read monitor variables, and runs that tell where a call was entered.

use crate::framing::program_frames::Frame;
use crate::implementation::machine::MOST_PROGRAM;
use crate::implementation::program::MOST_INPUT;
use crate::implementation::run::{reach, write_log, Record};
use crate::implementation::sheet::Sheet;
use crate::making::cases::sheet_cases::SHEET_A;
use crate::making::generate::{usual_case, RunCase};
use crate::making::random::Random;
use crate::making::scripts::counting_preconditions;
use crate::making::scripts::entry_positions;
use crate::making::scripts::script_ends;
use crate::making::wide;

const SEED: u64 = 20_261_115;
const RANDOM: usize = 2_400;
const LONGEST: usize = 300;
const WIDE_SEED: u64 = 20_261_116;
/// How often each order of four exits comes.
const EACH_ORDER: usize = 3;
/// Wide inputs with calls as they come.
const ANY_CALLS: usize = 180;

/// A record of sheet A's unit.
pub fn record(kind: u8, call: u16, declared: i32, loaded: i32) -> Record {
    Record {
        kind,
        unit: 0,
        call,
        values: vec![declared, loaded],
    }
}

fn on_sheet_a(records: &[Record]) -> Frame {
    Frame::Bytes([&SHEET_A[..], &write_log(2, records)].concat())
}

/// The logs of document 01's sample, starred or not.
fn documented() -> Vec<Frame> {
    let entry = |call, declared| record(0, call, declared, 0);
    let exit = |call, declared, loaded| record(1, call, declared, loaded);
    let sixteen: Vec<Record> = (1..=16).map(|call| entry(call, 8)).collect();
    let with = |last: Record| [&sixteen[..], &[last]].concat();
    [
        vec![entry(7, 8), exit(7, 8, 7)],
        vec![entry(7, 8), exit(7, 8, 8)],
        vec![entry(7, 8), exit(7, 7, 7)],
        vec![],
        vec![entry(7, 8)],
        vec![entry(7, 8), entry(9, 3), exit(9, 3, 0), exit(7, 8, 8)],
        vec![exit(9, 0, 0)],
        vec![entry(7, 8), entry(7, 8)],
        sixteen.clone(),
        with(entry(17, 8)),
        with(entry(3, 8)),
    ]
    .iter()
    .map(|records| on_sheet_a(records))
    .collect()
}

/// Few bytes, as many as the program takes, and one more; a sheet cut short, and bytes behind a log.
fn at_the_edges() -> Vec<Frame> {
    let log = write_log(2, &[record(0, 7, 8, 0)]);
    let mut frames: Vec<Frame> = [0, 1, 2, 13, MOST_INPUT - 1, MOST_INPUT, MOST_INPUT + 1]
        .map(Frame::Zeros)
        .into();
    let cut = |length: usize| Frame::Bytes(SHEET_A[..length].to_vec());
    frames.extend((0..=SHEET_A.len()).map(cut));
    let whole = [&SHEET_A[..], &log].concat();
    frames.extend((SHEET_A.len()..=whole.len()).map(|n| Frame::Bytes(whole[..n].to_vec())));
    frames.push(Frame::Bytes([&whole[..], &[0]].concat()));
    frames
}

/// Random sheets with random logs, sound and broken, of which the short ones are kept.
fn random() -> Vec<Frame> {
    let mut random = Random::new(SEED);
    let mut frames = Vec::new();
    while frames.len() < RANDOM {
        let input = usual_case(&mut random).input();
        if input.len() <= LONGEST {
            frames.push(Frame::Bytes(input));
        }
    }
    frames
}

/// Wide sheets, with four calls left in every order and with calls as they come.
fn wide() -> Vec<Frame> {
    let mut random = Random::new(WIDE_SEED);
    let orders = wide::orders().repeat(EACH_ORDER).into_iter().map(Some);
    let all = orders.chain([None; ANY_CALLS]);
    all.map(|order| wide_input(&mut random, order)).collect()
}

/// Drawn again where the run ends before its last record, if the order is asked for.
fn wide_input(random: &mut Random, order: Option<[usize; 4]>) -> Frame {
    loop {
        let units = wide::units(random);
        let sheet = wide::sheet(random, &units).bytes();
        let Ok(rules) = Sheet::read(&sheet) else {
            continue; // Does not happen: a wide sheet is accepted.
        };
        let records = match order {
            Some(order) => wide::four_calls(random, &rules, &units, order),
            None => wide::any_calls(random, &rules, &units),
        };
        let taken = reach(&rules, &records).common.position as usize;
        if order.is_none() || taken == records.len() {
            let log = write_log(MOST_PROGRAM, &records);
            return Frame::Bytes(RunCase { sheet, log }.input());
        }
    }
}

pub fn all() -> Vec<Frame> {
    let mut frames = documented();
    frames.extend(at_the_edges());
    frames.extend(random());
    frames.extend(wide());
    for inputs in [
        script_ends::inputs(),
        counting_preconditions::inputs(),
        entry_positions::inputs(),
    ] {
        frames.extend(inputs.into_iter().map(Frame::Bytes));
    }
    frames
}

#[cfg(test)]
mod tests {
    use super::*;
    use crate::framing::pages::{self, MOST, PAGE};
    use std::collections::BTreeMap;

    /// The two lines with their numbers taken out, but for a refusal's.
    fn form(line: &str) -> String {
        let words: Vec<&str> = line.split(' ').collect();
        match words[..] {
            ["refused", n] => format!("refused {n}"),
            ["refused", n, "at", _] => format!("refused {n} at"),
            ["violated", _, "state", s, "triple", t, "entry", e] => {
                assert_eq!(e == "-", t == "-", "{line}");
                format!("violated state {} triple {}", s == "-", t == "-")
            }
            _ => words[0].to_string(),
        }
    }

    fn forms() -> BTreeMap<String, usize> {
        let mut counts = BTreeMap::new();
        for frame in all() {
            for line in frame.lines().lines() {
                *counts.entry(form(line)).or_insert(0) += 1;
            }
        }
        counts
    }

    /// 9, 10 and 12 cannot occur: a run starts fresh, ends at its verdict and is short.
    #[test]
    fn every_answer_that_the_program_can_give_occurs() {
        let counts = forms();
        let mut wanted: Vec<String> = (1..=8)
            .chain(16..=18)
            .map(|n| format!("refused {n}"))
            .collect();
        wanted.extend([11, 13, 14, 15].map(|n| format!("refused {n} at")));
        wanted.extend(["clean", "too"].map(String::from));
        for (state, triple) in [(false, true), (true, false), (false, false)] {
            wanted.push(format!("violated state {state} triple {triple}"));
        }
        for form in wanted {
            assert!(
                counts.contains_key(&form),
                "{form} does not occur: {counts:?}"
            );
        }
    }

    #[test]
    fn there_are_over_two_thousand_inputs_and_no_frame_goes_over_a_page() {
        let frames = all();
        assert!(frames.len() > 2_650);
        let mut out = Vec::new();
        for frame in &frames {
            pages::append(&frame.bytes(), &mut out);
            let size = frame.bytes().len();
            assert_eq!((out.len() - size) / PAGE, (out.len() - 1) / PAGE);
        }
        assert!(out.len() <= MOST * PAGE);
    }
}
