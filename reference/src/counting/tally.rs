//! Makes many cases from a fixed seed and counts what occurred in them.

use crate::counting::counts::{self, Judging};
use crate::counting::deciding::{self, named, of_log, of_steps};
use crate::counting::ends::{self, Turned};
use crate::counting::entries;
use crate::counting::preconditions;
use crate::implementation::engine::Engine;
use crate::implementation::network::{Network, Version};
use crate::implementation::program::{self, MOST_INPUT};
use crate::implementation::refusal::Refusal;
use crate::implementation::run::{reach, read_log, run_network, run_sheet, Outcome, Record};
use crate::implementation::sheet::{Sheet, LONGEST_SHEET};
use crate::implementation::state::{Cause, Common, NetworkState, SheetState, Verdict};
use crate::implementation::translate::{translate_card, translate_to, CARD_BUFFER};
use crate::making::generate::{self, RunCase};
use crate::making::random::Random;
use std::collections::BTreeMap;

pub const SEED: u64 = 0x5741_5443_4802;
/// How many cases of each sort are made when nothing else is asked for.
pub const USUAL: usize = 20_000;

/// How often each thing occurred.
#[derive(Clone, Debug, Default)]
pub struct Tally {
    counts: BTreeMap<String, usize>,
}

impl Tally {
    /// Of things that have been named elsewhere.
    pub fn of(labels: impl IntoIterator<Item = String>) -> Tally {
        let mut tally = Tally::default();
        tally.add_all(labels);
        tally
    }

    fn add_all(&mut self, labels: impl IntoIterator<Item = String>) {
        for label in labels {
            self.add(label);
        }
    }

    fn add(&mut self, label: impl Into<String>) {
        *self.counts.entry(label.into()).or_insert(0) += 1;
    }

    pub fn count(&self, label: &str) -> usize {
        self.counts.get(label).copied().unwrap_or(0)
    }

    pub fn lines(&self) -> Vec<String> {
        let line = |(label, count): (&String, &usize)| format!("{count:>8}  {label}");
        self.counts.iter().map(line).collect()
    }

    /// What must occur and did not.
    pub fn missing(&self) -> Vec<String> {
        self.missing_of(wanted())
    }

    pub fn missing_of(&self, wanted: impl IntoIterator<Item = String>) -> Vec<String> {
        let absent = |label: &String| self.count(label) == 0;
        wanted.into_iter().filter(absent).collect()
    }
}

/// Everything that must occur.
pub fn wanted() -> Vec<String> {
    let mut labels = Vec::new();
    for engine in ["sheet", "network"] {
        let mut want = |text: &str| labels.push(format!("{engine} run: {text}"));
        for text in [
            "violated by state",
            "violated by triple",
            "violated by both",
        ] {
            want(text);
        }
        for text in ["clean, calls open", "clean, none open", "clean, no events"] {
            want(text);
        }
        let reading = if engine == "sheet" { 8 } else { 7 };
        for number in (1..=reading).chain(16..=18) {
            want(&format!("refused {number:02}"));
        }
        for number in [11, 13, 14, 15] {
            want(&format!("refused {number:02} at a record"));
        }
        for number in 9..=15 {
            labels.push(format!("{engine} event: refused {number:02}"));
        }
        labels.push(format!("{engine} event: taken"));
        labels.extend(named(engine, "run", deciding::wanted_of_runs()));
        labels.extend(named(engine, "event", deciding::wanted_of_events()));
    }
    labels.push("input: the longest sheet".into());
    labels.push("input: no room for another record".into());
    labels.push("translation: refused 19".into());
    labels.push("translation: done".into());
    labels.extend(wanted_of_version_3());
    labels.extend(ends::wanted());
    labels.extend(preconditions::wanted());
    labels.extend(entries::wanted());
    labels.extend(counts::wanted());
    labels
}

/// Of runs on networks of version 3, which sheets give or none does, and of writing them.
pub fn wanted_of_version_3() -> Vec<String> {
    let mut labels = Vec::new();
    for run in ["card run", "version 3 run"] {
        for text in [
            "violated by state",
            "violated by triple",
            "violated by both",
            "clean, calls open",
            "clean, none open",
            "refused 16",
            "refused 17",
            "refused 18",
            "refused 11 at a record",
            "refused 13 at a record",
            "refused 15 at a record",
        ] {
            labels.push(format!("{run}: {text}"));
        }
    }
    for number in [1, 4, 5, 6, 7] {
        labels.push(format!("version 3 run: refused {number:02}"));
    }
    for number in (1..=8).chain([19, 21]) {
        labels.push(format!("card: refused {number:02}"));
    }
    labels.push("card: done".into());
    labels
}

fn outcome_label(outcome: &Outcome) -> String {
    match outcome {
        Outcome::Violated(verdict) => match verdict.cause {
            Cause::State(_) => "violated by state".into(),
            Cause::Triple(_) => "violated by triple".into(),
            Cause::Both { .. } => "violated by both".into(),
        },
        Outcome::Clean { events: 0, .. } => "clean, no events".into(),
        Outcome::Clean { open: 0, .. } => "clean, none open".into(),
        Outcome::Clean { .. } => "clean, calls open".into(),
        Outcome::Refused(refusal) => format!("refused {:02}", refusal.number()),
        Outcome::RefusedAt(refusal, _) => {
            format!("refused {:02} at a record", refusal.number())
        }
    }
}

fn answer_label<T>(answer: &Result<T, Refusal>, good: &str) -> String {
    match answer {
        Ok(_) => good.into(),
        Err(refusal) => format!("refused {:02}", refusal.number()),
    }
}

/// Makes `count` cases of each sort. The error is a case where sheet and network differ.
pub fn tally(seed: u64, count: usize) -> Result<Tally, String> {
    let mut random = Random::new(seed);
    let mut tally = Tally::default();
    for _ in 0..count {
        let case = generate::run_case(&mut random);
        count_run(&case, &mut tally)?;
        count_card_run(&case, &mut tally)?;
        count_network_run(&mut random, &case, &mut tally);
        count_events(&mut random, &case, &mut tally);
        count_on_all(&case, &mut tally);
        for version in [Version::Two, Version::Three] {
            count_translation(&mut random, version, &case.sheet, &mut tally)?;
        }
    }
    Ok(tally)
}

fn count_run(case: &RunCase, tally: &mut Tally) -> Result<(), String> {
    let outcome = run_sheet(&case.sheet, &case.log).result;
    tally.add(format!("sheet run: {}", outcome_label(&outcome)));
    let length = case.sheet.len() + case.log.len();
    if case.sheet.len() == LONGEST_SHEET {
        tally.add("input: the longest sheet");
        tally.add(format!("longest sheet run: {}", outcome_label(&outcome)));
    }
    // A record has at least 4 bytes and at most 36.
    if (MOST_INPUT - 35..=MOST_INPUT).contains(&length) {
        tally.add("input: no room for another record");
    }
    let (sheet, network) = program::outcomes(&case.input());
    if sheet != network {
        return Err(format!(
            "the sheet's run gives {sheet}, the network's {network}"
        ));
    }
    tally.add_all(of_input(&case.sheet, &case.log));
    Ok(())
}

/// The run on the sheet's network of version 3, where it has one.
fn count_card_run(case: &RunCase, tally: &mut Tally) -> Result<(), String> {
    let mut buffer = vec![0; CARD_BUFFER];
    let Ok(length) = translate_card(&case.sheet, &mut buffer) else {
        return Ok(());
    };
    let (sheet, card) = (
        run_sheet(&case.sheet, &case.log).result,
        run_network(&buffer[..length], &case.log).result,
    );
    tally.add(format!("card run: {}", outcome_label(&card)));
    if sheet != card {
        return Err(format!(
            "the sheet's run gives {sheet}, that of version 3 {card}"
        ));
    }
    Ok(())
}

/// What decides in the sheet's run and in that of its network.
pub fn of_input(sheet: &[u8], log: &[u8]) -> Vec<String> {
    let Ok(sheet) = Sheet::read(sheet) else {
        return Vec::new();
    };
    let on_sheet = named("sheet", "run", of_log(&sheet, log));
    let on_network = named("network", "run", of_log(&sheet.translate(), log));
    on_sheet.chain(on_network).collect()
}

fn count_network_run(random: &mut Random, case: &RunCase, tally: &mut Tally) {
    let own = generate::network_case(random, &case.log);
    let outcome = run_network(&own.network, &own.log).result;
    tally.add(format!("network run: {}", outcome_label(&outcome)));
    if own.network.get(2) == Some(&3) {
        tally.add(format!("version 3 run: {}", outcome_label(&outcome)));
    }
    if let Ok(network) = Network::read(&own.network) {
        tally.add_all(named("network", "run", of_log(&network, &own.log)));
        tally.add_all(Turned::of(&network).of_log(&own.log));
        tally.add_all(preconditions::of_log(&network, &own.log));
        tally.add_all(entries::of_log(&network, &own.log));
        tally.add_all(counts::of_log(&network, &own.log));
    }
}

/// Where an end of the range decides, how preconditions read variables, where a call was entered, or what is
/// counted: on the sheet and on its networks, in the run and in its events.
fn count_on_all(case: &RunCase, tally: &mut Tally) {
    let Ok(sheet) = Sheet::read(&case.sheet) else {
        return;
    };
    let network = sheet.translate();
    tally.add_all(of_engine(&sheet, &case.log));
    tally.add_all(of_engine(&network, &case.log));
    if let Ok(card) = Network::read(&network.separated().bytes()) {
        tally.add_all(of_engine(&card, &case.log));
    }
}

fn of_engine<R: Judging>(rules: &R, log: &[u8]) -> Vec<String> {
    let turned = Turned::of(rules);
    [
        turned.of_log(log),
        turned.of_steps(log),
        preconditions::of_log(rules, log),
        preconditions::of_steps(rules, log),
        entries::of_log(rules, log),
        counts::of_log(rules, log),
        counts::of_steps(rules, log),
    ]
    .concat()
}

// ---- Single events ----------------------------------------------------------------------------

/// Offers one event to states reached by the case's log, some of them changed.
fn count_events(random: &mut Random, case: &RunCase, tally: &mut Tally) {
    let Ok(sheet) = Sheet::read(&case.sheet) else {
        return;
    };
    let Ok(records) = read_log(&case.log, sheet.machine.header.program) else {
        return;
    };
    let steps = random.between(0, records.len().min(30));
    let event = any_record(random, &sheet, &records);
    let change = random.below(8);

    let mut state = reach(&sheet, &records[..steps]);
    change_common(random, change, &mut state.common);
    change_sheet_state(random, change, &mut state);
    let answer = sheet.event(&state, &event.event());
    tally.add(format!("sheet event: {}", answer_label(&answer, "taken")));
    tally.add_all(named("sheet", "event", of_steps(&sheet, &records)));

    let network = sheet.translate();
    let mut state = reach(&network, &records[..steps]);
    change_common(random, change, &mut state.common);
    change_network_state(random, change, &mut state);
    let answer = network.event(&state, &event.event());
    tally.add(format!("network event: {}", answer_label(&answer, "taken")));
    tally.add_all(named("network", "event", of_steps(&network, &records)));
}

fn any_record(random: &mut Random, sheet: &Sheet, records: &[Record]) -> Record {
    let shape = generate::Shape {
        units: sheet.machine.header.units,
        program: sheet.machine.header.program,
    };
    let manner = generate::Manner {
        breaks: 3,
        entries: 4,
    };
    let mut record = match records.len() {
        0 => generate::records(random, shape, manner, 1).remove(0),
        length => records[random.below(length)].clone(),
    };
    match random.below(8) {
        0 => record.kind = random.byte(),
        1 => record.kind = 1 - record.kind.min(1),
        2 => record.call = random.below(40) as u16,
        3 => record.values.push(0),
        _ => {}
    }
    record
}

fn change_common(random: &mut Random, change: usize, common: &mut Common) {
    match change {
        0 => common.position = u32::MAX,
        1 => {
            common.verdict = Some(Verdict {
                position: common.position,
                cause: Cause::Triple(random.below(4) as u8),
                entry: random.below(3) as u32,
            })
        }
        2 => match random.below(8) {
            0 => common.main = random.byte(),
            1 => common.open = random.byte(),
            2 => common.variables[random.below(4)] = random.word(),
            3 => common.calls[random.below(16)].unit = random.byte(),
            4 => common.calls[random.below(16)].number = random.below(40) as u16,
            5 => common.calls[random.below(16)].entry = random.below(40) as u32,
            6 => common.position = random.below(20) as u32,
            _ => common.calls[random.below(16)].kept[random.below(8)] = random.word(),
        },
        _ => {}
    }
}

fn change_sheet_state(random: &mut Random, change: usize, state: &mut SheetState) {
    if change == 3 {
        let armed = &mut state.armed[random.below(16)];
        match random.below(2) {
            0 => armed.count = random.below(6) as u8,
            _ => armed.triples[random.below(4)] = random.below(34) as u8,
        }
    }
}

fn change_network_state(random: &mut Random, change: usize, state: &mut NetworkState) {
    if change == 3 {
        let checker = &mut state.checkers[random.below(8)];
        match random.below(4) {
            0 => state.living = random.below(66) as u8,
            1 => checker.call = random.below(40) as u16,
            2 => checker.entry = random.below(20) as u32,
            _ => checker.template = random.below(34) as u8,
        }
    }
}

// ---- Translating ------------------------------------------------------------------------------

/// Translates into a buffer that is sometimes too short, and looks at every byte of it.
fn count_translation(
    random: &mut Random,
    version: Version,
    sheet: &[u8],
    tally: &mut Tally,
) -> Result<(), String> {
    const FILL: u8 = 0xA5;
    let network = Sheet::read(sheet).map(|sheet| sheet.translate());
    let (name, network) = match version {
        Version::Two => ("translation", network),
        Version::Three => ("card", network.map(|network| network.separated())),
    };
    let whole = network.map_or(Vec::new(), |network| network.bytes());
    let length = match random.below(4) {
        0 => random.below(whole.len()),
        1 => whole.len().saturating_sub(1),
        2 => whole.len(),
        _ => whole.len() + 300,
    };
    let mut buffer = vec![FILL; length];
    let answer = translate_to(version, sheet, &mut buffer);
    tally.add(format!("{name}: {}", answer_label(&answer, "done")));
    let written = answer.unwrap_or(0);
    let right = buffer[..written] == whole[..written];
    let untouched = buffer[written..].iter().all(|byte| *byte == FILL);
    let accepted = answer.is_err() || Network::read(&whole).is_ok();
    if right && untouched && accepted && (written == 0 || written == whole.len()) {
        Ok(())
    } else {
        Err("a translation is wrong, or wrote past its end".into())
    }
}
