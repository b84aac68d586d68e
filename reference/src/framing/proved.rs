//! The proved library, `crates/embed`, by way of its static library: the functions of
//! `embed/watch.h` on slices. A Rust slice and a `&mut` are all that those ask of a caller.

use crate::implementation::expr::Counted;
use crate::implementation::network::Version;
use crate::implementation::run::Outcome;

mod c {
    extern "C" {
        pub fn watch_run(
            sheet: *const u8,
            sheet_length: usize,
            log: *const u8,
            log_length: usize,
            first: *mut u32,
            second: *mut u32,
            third: *mut u32,
            fourth: *mut u32,
            count: *mut u64,
        ) -> u32;
        pub fn watch_run_network(
            network: *const u8,
            network_length: usize,
            log: *const u8,
            log_length: usize,
            first: *mut u32,
            second: *mut u32,
            third: *mut u32,
            fourth: *mut u32,
            count: *mut u64,
        ) -> u32;
        pub fn watch_translate(
            sheet: *const u8,
            sheet_length: usize,
            out: *mut u8,
            out_length: usize,
            size: *mut usize,
        ) -> u32;
        pub fn watch_translate_card(
            sheet: *const u8,
            sheet_length: usize,
            out: *mut u8,
            out_length: usize,
            size: *mut usize,
        ) -> u32;
        pub fn watch_lines(
            input: *const u8,
            input_length: usize,
            out: *mut u8,
            out_length: usize,
        ) -> usize;
    }
}

/// What a run answers: 0 clean, 1 violated, 2 refused, 3 an event refused; its numbers; and its count.
#[derive(Clone, Copy, Debug, PartialEq, Eq)]
pub struct Answer {
    pub code: u32,
    pub numbers: [u32; 4],
    pub count: u64,
}

/// What stands in a place that is to be written, so that one that is not shows.
const UNWRITTEN: u32 = 0xA5A5_A5A5;
const UNCOUNTED: u64 = 0xA5A5_A5A5_A5A5_A5A5;

type Run = unsafe extern "C" fn(
    *const u8,
    usize,
    *const u8,
    usize,
    *mut u32,
    *mut u32,
    *mut u32,
    *mut u32,
    *mut u64,
) -> u32;

fn answer(run: Run, rules: &[u8], log: &[u8]) -> Answer {
    let (mut numbers, mut count) = ([UNWRITTEN; 4], UNCOUNTED);
    let [first, second, third, fourth] = &mut numbers;
    let (r, r_length, l, l_length) = (rules.as_ptr(), rules.len(), log.as_ptr(), log.len());
    // SAFETY: the slices and the five places are good, and are lent to nobody else.
    let code = unsafe {
        run(
            r, r_length, l, l_length, first, second, third, fourth, &mut count,
        )
    };
    Answer {
        code,
        numbers,
        count,
    }
}

pub fn run(sheet: &[u8], log: &[u8]) -> Answer {
    answer(c::watch_run, sheet, log)
}

pub fn run_network(network: &[u8], log: &[u8]) -> Answer {
    answer(c::watch_run_network, network, log)
}

/// 0, with the network of this version at the front of `out` and its length in `size`; or the refusal.
pub fn translate(version: Version, sheet: &[u8], out: &mut [u8], size: &mut usize) -> u32 {
    let translate = match version {
        Version::Two => c::watch_translate,
        Version::Three => c::watch_translate_card,
    };
    // SAFETY: the slices and the place are good, and are lent to nobody else.
    unsafe {
        translate(
            sheet.as_ptr(),
            sheet.len(),
            out.as_mut_ptr(),
            out.len(),
            size,
        )
    }
}

/// How many bytes the program's lines have; as many as there is room for stand in `out`.
pub fn lines(input: &[u8], out: &mut [u8]) -> usize {
    // SAFETY: the slices are good, and are lent to nobody else.
    unsafe { c::watch_lines(input.as_ptr(), input.len(), out.as_mut_ptr(), out.len()) }
}

/// The reference's answer, in the same numbers.
pub fn numbered(run: Counted<Outcome>) -> Answer {
    let or_none = |number: Option<u8>| number.map_or(256, u32::from);
    let (code, numbers) = match run.result {
        Outcome::Clean {
            events,
            state,
            open,
        } => (0, [events, state.into(), open.into(), 0]),
        Outcome::Violated(verdict) => {
            let (state, triple) = (verdict.cause.state(), verdict.cause.triple());
            let (state, triple) = (or_none(state), or_none(triple));
            (1, [verdict.position, state, triple, verdict.entry])
        }
        Outcome::Refused(refusal) => (2, [refusal.number().into(), 0, 0, 0]),
        Outcome::RefusedAt(refusal, record) => (3, [refusal.number().into(), record, 0, 0]),
    };
    Answer {
        code,
        numbers,
        count: run.count,
    }
}
