//! What the tests of `monitor_cases` and `network_cases` share.

use reference::framing::counted_lines::split_count;
use reference::framing::pages::{FILLER, PAGE};
use reference::framing::script_frames::{read_frames, read_page, Bench, Field, Frame, Own, Rules};
use reference::implementation::run::Record;
use reference::implementation::state::Call;
use reference::making::programs;
use reference::making::scripts::script::{visit, Page, Row, Sort};
use std::collections::HashSet;

pub fn assert_written_answers<O: Own>(pages: &[Page<O>]) {
    for (number, row) in pages.iter().flatten().enumerate() {
        let (Some(expected), Some(line)) = (&row.expected, &row.line) else {
            continue;
        };
        let (line, count) = split_count(line);
        // A run's answer and values at entry are written whole; of the others at least the front.
        let whole = matches!(row.frame, Frame::Run(_) | Frame::EntryValues(_));
        let front = !whole && line.starts_with(&format!("{expected} "));
        let place = format!("row {number}, {:?}: {:?}", row.sort, row.frame);
        assert!(
            line == *expected || front,
            "{line}, not {expected}; {place}"
        );
        assert_eq!(count.is_some(), is_offer(row) || is_run(row), "{place}");
        if row.count.is_some() {
            assert_eq!(count, row.count, "{place}");
        }
    }
}

/// The most pages that an input has here.
const FEW: usize = 24;
const LONGEST_OUTPUT: usize = 4_500_000;

/// The files of the program are these pages and what carrying them out gives, and not too long.
pub fn assert_files_hold<R: Rules>(name: &str, pages: &[Page<R::Own>]) {
    let files = programs::files(name).expect("the program is in the table");
    let (stdin, stdout) = (files.stdin.len(), files.stdout.len());
    println!("stdin {stdin}, stdout {stdout}");
    assert!(pages.len() <= FEW && stdin <= FEW * PAGE, "{stdin} bytes");
    assert!(stdout <= LONGEST_OUTPUT, "{stdout} bytes");
    let written = files.stdin.chunks(PAGE);
    assert_eq!(written.len(), pages.len());
    let lines = written
        .zip(pages)
        .map(|(bytes, page)| lines_of_page::<R>(bytes, page));
    assert_eq!(lines.collect::<String>().into_bytes(), files.stdout);
}

/// Reads a page back, which must hold these rows and then filler, and carries it out from the start.
fn lines_of_page<R: Rules>(bytes: &[u8], page: &[Row<R::Own>]) -> String {
    let (frames, rest) = read_page(bytes);
    assert!(frames.iter().eq(page.iter().map(|row| &row.frame)));
    assert!(rest.iter().all(|byte| *byte == FILLER));
    let mut bench = Bench::<R>::default();
    let lines = frames.iter().filter_map(|frame| bench.carry_out(frame));
    lines.map(|line| line + "\n").collect()
}

// ---- Counting ---------------------------------------------------------------------------------

/// The rows whose line, without its count, is as wanted.
pub fn count<O>(pages: &[Page<O>], wanted: impl Fn(&Row<O>, &str) -> bool) -> usize {
    let matching = |row: &&Row<O>| {
        let line = row.line.as_deref().map(|line| split_count(line).0);
        line.is_some_and(|line| wanted(row, &line))
    };
    pages.iter().flatten().filter(matching).count()
}

pub fn is_offer<O>(row: &Row<O>) -> bool {
    matches!(row.frame, Frame::Offer { .. })
}

pub fn is_run<O>(row: &Row<O>) -> bool {
    matches!(row.frame, Frame::Run(_))
}

/// The answer in front of a state: one word, or two for a refusal.
pub fn answer(line: &str) -> String {
    let words = if line.starts_with("refused") { 2 } else { 1 };
    let words: Vec<&str> = line.split(' ').take(words).collect();
    words.join(" ")
}

pub fn assert_offers_of_sorts<O>(pages: &[Page<O>], sorts: &[(Sort, usize)]) {
    for (sort, least) in sorts {
        let found = count(pages, |row, _| row.sort == *sort && is_offer(row));
        println!("{sort:?}: {found}");
        assert!(found >= *least, "{sort:?}: {found}");
    }
}

/// Each refusal at least ten times, and each cause of a verdict at least twelve.
pub fn assert_answers_to_events<O>(pages: &[Page<O>], refusals: &[u8], least_taken: usize) {
    let offers = |wanted: &str| count(pages, |row, line| is_offer(row) && answer(line) == wanted);
    for number in refusals {
        let wanted = format!("refused {number}");
        let found = offers(&wanted);
        println!("{wanted}: {found}");
        assert!(found >= 10, "{wanted}: {found}");
    }
    let taken = offers("taken");
    println!("taken: {taken}");
    assert!(taken >= least_taken, "taken: {taken}");
    for (number, cause) in causes(pages, is_offer).into_iter().enumerate() {
        assert!(cause >= 12, "cause {number}: {cause}");
    }
}

/// How many verdicts are complete by a bad state, a triple and both.
fn causes<O>(pages: &[Page<O>], of: impl Fn(&Row<O>) -> bool) -> [usize; 3] {
    let complete = |row: &Row<O>, line: &str| {
        let answered = line.starts_with("taken") || line.starts_with("violated");
        of(row) && answered && line.contains("violated")
    };
    let found = [
        count(pages, |row, line| {
            complete(row, line) && line.contains("triple -")
        }),
        count(pages, |row, line| {
            complete(row, line) && line.contains("state -")
        }),
        count(pages, |row, line| {
            complete(row, line) && !line.contains("triple -") && !line.contains("state -")
        }),
    ];
    println!("verdicts by state, triple, both: {found:?}");
    found
}

/// Each answer to a log; the reading refusals are 1 to `reading`.
pub fn assert_answers_to_logs<O>(pages: &[Page<O>], reading: u8) {
    let runs =
        |wanted: &dyn Fn(&str) -> bool| count(pages, |row, line| is_run(row) && wanted(line));
    for number in (1..=reading).chain(16..=18) {
        let found = runs(&|line| line == format!("refused {number}"));
        println!("refused {number}: {found}");
        assert!(found >= 2, "refused {number}: {found}");
    }
    for number in [11, 13, 14, 15] {
        let found = runs(&|line| line.starts_with(&format!("refused {number} at ")));
        println!("refused {number} at a record: {found}");
        assert!(found >= 2, "refused {number} at a record: {found}");
    }
    let clean = runs(&|line| line.starts_with("clean"));
    println!("clean: {clean}");
    assert!(clean >= 20, "clean: {clean}");
    for (number, cause) in causes(pages, is_run).into_iter().enumerate() {
        assert!(cause >= 5, "cause {number}: {cause}");
    }
}

// ---- Refusals ---------------------------------------------------------------------------------

/// The refusals of 9 to 15 that an event meets, each judged without regard to the others.
fn met<R: Rules>(bench: &Bench<R>, event: &Record) -> Vec<u8> {
    let Ok(rules) = R::read(&bench.rules) else {
        panic!("the sheet or network is accepted");
    };
    let header = &rules.machine().header;
    let common = bench.common();
    let open = |call: &&Call| call.number == event.call;
    let known = common.open_calls().iter().find(open);
    let arguments = event.kind <= 1
        && event.unit < header.units
        && event.values.len() == usize::from(header.program);
    let meets = [
        (9, !rules.is_sound(&bench.state)),
        (10, common.verdict.is_some()),
        (11, !arguments),
        (12, common.position == u32::MAX),
        (13, event.kind == 0 && known.is_some()),
        (14, event.kind == 0 && common.open >= 16),
        (
            15,
            event.kind == 1 && known.is_none_or(|call| call.unit != event.unit),
        ),
    ];
    meets
        .iter()
        .filter(|(_, is)| *is)
        .map(|(n, _)| *n)
        .collect()
}

pub fn assert_lowest_refusal_answers<R: Rules>(pages: &[Page<R::Own>]) {
    let mut pairs = HashSet::new();
    let mut alone = HashSet::new();
    visit::<R>(pages, |bench, row| {
        if let (Sort::Together, Frame::Offer { event, .. }) = (row.sort, &row.frame) {
            let met = met(bench, event);
            let expected = met
                .first()
                .map_or("taken".into(), |n| format!("refused {n}"));
            assert_eq!(row.line.as_deref().map(answer), Some(expected));
            pairs.extend(met.iter().flat_map(|a| met.iter().map(move |b| (*a, *b))));
            if let [only] = met[..] {
                alone.insert(only);
            }
        }
    });
    for a in 9..=15 {
        assert!(alone.contains(&a), "{a} alone");
        // An entry is no exit.
        for b in (a + 1..=15).filter(|b| (a, *b) != (13, 15) && (a, *b) != (14, 15)) {
            assert!(pairs.contains(&(a, b)), "{a} with {b}");
        }
    }
}

/// A refused event gives back the state that went in.
pub fn assert_refused_events_change_nothing<R: Rules + Clone>(pages: &[Page<R::Own>]) {
    visit::<R>(pages, |bench, row| {
        let mut after = bench.clone();
        let line = after.carry_out(&row.frame);
        assert_eq!(line, row.line);
        if is_offer(row) && line.is_some_and(|line| line.starts_with("refused")) {
            assert_eq!(after.state, bench.state);
        }
    });
}

// ---- Frames -----------------------------------------------------------------------------------

/// Lines are the same only where states are: each field that is set alone gives another line, and so does
/// what a verdict carries.
pub fn assert_fields_show<R: Rules>(own: &[R::Own]) {
    let mut fields = vec![Field::Main, Field::Open, Field::Position];
    fields.extend((0..4).map(Field::Variable));
    for i in 0..16 {
        fields.extend([Field::Number(i), Field::Unit(i), Field::Entry(i)]);
        fields.extend((0..8).map(|j| Field::Kept(i, j)));
    }
    fields.extend(own.iter().map(|own| Field::Own(*own)));
    fields.extend([Field::BadState(0), Field::Failed(0), Field::Both(0, 0)]);
    let offered = Frame::Offer {
        event: Record {
            kind: 0,
            unit: 0,
            call: 0,
            values: vec![],
        },
        keep: false,
    };
    let mut lines = HashSet::new();
    let mut line = |fields: &[Field<R::Own>]| {
        let mut bench = Bench::<R>::default();
        for field in fields {
            bench.carry_out(&Frame::Set(*field, 1));
        }
        lines.insert(bench.carry_out(&offered))
    };
    for field in &fields {
        assert!(line(&[*field]), "{field:?}");
    }
    for verdict in [Field::BadState(0), Field::Failed(0), Field::Both(0, 0)] {
        assert!(line(&[verdict, Field::Carried]), "{verdict:?}");
    }
    // Without a verdict there is nothing to carry.
    assert!(!line(&[Field::Main, Field::Carried]));
    assert!(!lines.contains(&Some("refused 1 count 0".into())));
}

/// Some frames and their bytes: they are read back, and where they are cut they are none.
pub fn assert_frames_are<O: Own>(frames: &[Frame<O>], expected: &[&[u8]]) {
    let mut bytes = Vec::new();
    frames.iter().for_each(|frame| frame.write(&mut bytes));
    assert_eq!(bytes, expected.concat());
    assert_eq!(read_frames(&bytes).as_deref(), Some(frames));
    let ends: Vec<usize> = (1..=expected.len())
        .map(|count| expected[..count].concat().len())
        .collect();
    for length in (1..bytes.len()).filter(|length| !ends.contains(length)) {
        assert_eq!(read_frames::<O>(&bytes[..length]), None);
    }
}
