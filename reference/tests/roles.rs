//! Refusal 7 as document 02's slip 13 leaves it, judged once more from the bytes of the committed cases: a
//! value at entry is turned away in actions, transitions' conditions, preconditions and pairs, a monitor
//! variable in postconditions and templates. Each way to judge it wrongly would show in the cases.

mod committed;
mod leaves;

use committed::{add, assert_shown, committed, lines, Counts};
use leaves::{leaves, AT_ENTRY, MONITOR};
use reference::framing::monitor_frames::Arms;
use reference::framing::network_frames::Checkers;
use reference::framing::pages::PAGE;
use reference::framing::script_frames::{read_page, Frame, Own};
use reference::framing::sheet_frames;
use reference::framing::translation_frames;
use reference::implementation::engine::Engine;
use reference::implementation::network::Network;
use reference::implementation::program::split;
use reference::implementation::refusal::Refusal;
use reference::implementation::sheet::Sheet;
use reference::making::cases::program_cases;

// ---- Judging from bytes -----------------------------------------------------------------------

/// What one could judge wrongly.
#[derive(Clone, Copy, Debug, PartialEq)]
enum Fault {
    /// As it was before the slip.
    MonitorRefusedBefore,
    MonitorAcceptedAfter,
    EntryAcceptedBefore,
    EntryRefusedAfter,
    MonitorRefusedInGuards,
    EntryAcceptedInGuards,
    EntryAcceptedInActions,
    /// Of triples, or of the pairs of a transition.
    OnlyTheFirstLookedAt,
    EightBeforeSeven,
}

const FAULTS: [Fault; 9] = [
    Fault::MonitorRefusedBefore,
    Fault::MonitorAcceptedAfter,
    Fault::EntryAcceptedBefore,
    Fault::EntryRefusedAfter,
    Fault::MonitorRefusedInGuards,
    Fault::EntryAcceptedInGuards,
    Fault::EntryAcceptedInActions,
    Fault::OnlyTheFirstLookedAt,
    Fault::EightBeforeSeven,
];

/// A table's entries, from the front of what is left.
struct Rest<'a>(&'a [u8]);

impl<'a> Rest<'a> {
    fn take(&mut self, count: usize) -> &'a [u8] {
        let (front, back) = self.0.split_at(count);
        self.0 = back;
        front
    }

    fn counted(&mut self, width: usize) -> &'a [u8] {
        let digits = self.take(width).iter();
        self.take(digits.fold(0, |length, digit| 256 * length + usize::from(*digit)))
    }
}

/// The tables of a sheet or network of which 1 to 6 hold nothing against.
struct Tables<'a> {
    conditions: Vec<&'a [u8]>,
    actions: Vec<&'a [u8]>,
    guards: Vec<u8>,
    /// By triple, or by the pairs of a transition.
    before: Vec<Vec<u8>>,
    after: Vec<u8>,
    /// State and unit of each triple.
    places: Vec<[u8; 2]>,
}

fn tables(bytes: &[u8]) -> Tables<'_> {
    let counts = [bytes[10], bytes[11], bytes[12], bytes[13]].map(usize::from);
    let mut rest = Rest(&bytes[14 + 4 * usize::from(bytes[6])..]);
    let width = if bytes[2] == 3 { 2 } else { 1 };
    let conditions = (0..counts[0]).map(|_| rest.counted(width)).collect();
    let actions = (0..counts[1]).map(|_| rest.counted(1)).collect();
    let (mut guards, mut before) = (Vec::new(), Vec::new());
    let is_sheet = bytes[2] == 1;
    for _ in 0..counts[2] {
        guards.push(rest.take(6)[3]);
        if !is_sheet {
            let count = usize::from(rest.take(1)[0]);
            let pairs = rest.take(2 * count).chunks(2);
            before.push(pairs.map(|pair| pair[0]).collect());
        }
    }
    let size = if is_sheet { 4 } else { 2 };
    let last: Vec<&[u8]> = (0..counts[3]).map(|_| rest.take(size)).collect();
    assert!(rest.0.is_empty());
    let after = last.iter().map(|one| one[size - 1]).collect();
    let mut places = Vec::new();
    if is_sheet {
        before.push(last.iter().map(|triple| triple[2]).collect());
        places = last.iter().map(|triple| [triple[0], triple[1]]).collect();
    }
    Tables {
        conditions,
        actions,
        guards,
        before,
        after,
        places,
    }
}

fn has(operator: u8, expression: &[u8]) -> bool {
    leaves(expression).iter().any(|(of, _)| *of == operator)
}

impl Tables<'_> {
    fn some_has(&self, numbers: &[u8], operator: u8) -> bool {
        let condition = |number: &u8| self.conditions[usize::from(*number)];
        numbers
            .iter()
            .any(|number| has(operator, condition(number)))
    }

    fn is_refused_7(&self, fault: Option<Fault>) -> bool {
        let is = |one: Fault| fault == Some(one);
        let before = |operator: u8| {
            let looked_at = |row: &Vec<u8>| match is(Fault::OnlyTheFirstLookedAt) {
                true => row[..row.len().min(1)].to_vec(),
                false => row.clone(),
            };
            let mut rows = self.before.iter().map(looked_at);
            rows.any(|row| self.some_has(&row, operator))
        };
        let (guards, after) = (&self.guards, &self.after);
        let in_actions = self.actions.iter().any(|action| has(AT_ENTRY, action));
        [
            in_actions && !is(Fault::EntryAcceptedInActions),
            self.some_has(guards, AT_ENTRY) && !is(Fault::EntryAcceptedInGuards),
            self.some_has(guards, MONITOR) && is(Fault::MonitorRefusedInGuards),
            before(AT_ENTRY) && !is(Fault::EntryAcceptedBefore),
            before(MONITOR) && is(Fault::MonitorRefusedBefore),
            self.some_has(after, MONITOR) && !is(Fault::MonitorAcceptedAfter),
            self.some_has(after, AT_ENTRY) && is(Fault::EntryRefusedAfter),
        ]
        .contains(&true)
    }

    fn is_refused_8(&self) -> bool {
        let together = |place: &[u8; 2]| self.places.iter().filter(|p| *p == place).count();
        self.places.iter().any(|place| together(place) > 4)
    }

    fn refusal(&self, fault: Option<Fault>) -> Option<u8> {
        let mut refusals = [(self.is_refused_7(fault), 7), (self.is_refused_8(), 8)];
        if fault == Some(Fault::EightBeforeSeven) {
            refusals.reverse();
        }
        let met = refusals.into_iter().find(|(is, _)| *is);
        met.map(|(_, number)| number)
    }
}

/// The rules' tables, where the answer is that they are accepted, or 7 or 8.
fn judged<E: Engine>(bytes: &[u8]) -> Option<(Tables<'_>, Option<u8>)> {
    let answer = E::read(bytes).err().map(Refusal::number);
    (answer.is_none() || answer >= Some(7)).then(|| (tables(bytes), answer))
}

/// Judges a sheet or network once more, and says with which faults the answer would be another.
fn see<E: Engine>(name: &str, bytes: &[u8], counts: &mut Counts) {
    let Some((tables, answer)) = judged::<E>(bytes) else {
        return;
    };
    assert_eq!(tables.refusal(None), answer, "{bytes:?}");
    let name = match bytes[2] {
        1 => format!("{name}, sheet"),
        version => format!("{name}, version {version}"),
    };
    for fault in FAULTS {
        if tables.refusal(Some(fault)) != answer {
            add(counts, format!("{name}: {fault:?}"));
        }
    }
}

// ---- The committed cases ----------------------------------------------------------------------

/// Each fault shows so often at least.
fn assert_each_shown(counts: &Counts, name: &str, faults: &[Fault], least: usize) {
    for fault in faults {
        assert_shown(counts, &[(&format!("{name}: {fault:?}"), least)]);
    }
}

#[test]
fn in_reading() {
    let frames = sheet_frames::read_frames(&committed("sheet_cases", "stdin")).expect("frames");
    let lines = lines("sheet_cases");
    let mut counts = Counts::new();
    for (frame, line) in frames.iter().zip(&lines) {
        let bytes = &frame.bytes;
        match frame.kind {
            sheet_frames::Kind::Sheet => see::<Sheet>("reading", bytes, &mut counts),
            sheet_frames::Kind::Network => see::<Network>("reading", bytes, &mut counts),
            sheet_frames::Kind::Log => continue,
        }
        // The committed line says it too.
        let named = |number: u8| *line == format!("refused {number}");
        let answer = match frame.kind {
            sheet_frames::Kind::Sheet => judged::<Sheet>(bytes),
            _ => judged::<Network>(bytes),
        };
        match answer {
            Some((_, None)) => assert!(line.starts_with("accepted")),
            Some((_, Some(number))) => assert!(named(number)),
            None => assert!((1..7).any(named)),
        }
    }
    assert_each_shown(&counts, "reading, sheet", &FAULTS, 4);
    for version in ["version 2", "version 3"] {
        let (faults, name) = (&FAULTS[..8], format!("reading, {version}"));
        assert_each_shown(&counts, &name, faults, 4);
    }
}

/// The two that the slip is about.
const OF_THE_SLIP: [Fault; 2] = [Fault::MonitorRefusedBefore, Fault::MonitorAcceptedAfter];

/// How often rules are laid out with which a fault would show, in the pages of a script.
fn in_scripts<E: Engine, O: Own>(program: &str) -> Counts {
    let mut counts = Counts::new();
    for page in committed(program, "stdin").chunks(PAGE) {
        for frame in read_page::<O>(page).0 {
            if let Frame::Rules(bytes) = frame {
                see::<E>("events", &bytes, &mut counts);
            }
        }
    }
    counts
}

#[test]
fn in_events() {
    let counts = in_scripts::<Sheet, Arms>("monitor_cases");
    assert_each_shown(&counts, "events, sheet", &OF_THE_SLIP[..1], 40);
    assert_each_shown(&counts, "events, sheet", &OF_THE_SLIP[1..], 1);
    let counts = in_scripts::<Network, Checkers>("network_cases");
    for version in ["version 2", "version 3"] {
        let name = format!("events, {version}");
        assert_each_shown(&counts, &name, &OF_THE_SLIP[..1], 20);
        assert_each_shown(&counts, &name, &OF_THE_SLIP[1..], 1);
    }
}

#[test]
fn in_translations() {
    let bytes = committed("translation_cases", "stdin");
    let frames = translation_frames::read_frames(&bytes).expect("frames");
    let mut counts = Counts::new();
    for frame in &frames {
        let name = format!("to version {}", frame.version.byte());
        see::<Sheet>(&name, &frame.sheet, &mut counts);
    }
    for version in [2, 3] {
        let name = format!("to version {version}, sheet");
        assert_each_shown(&counts, &name, &OF_THE_SLIP[..1], 16);
        assert_each_shown(&counts, &name, &OF_THE_SLIP[1..], 2);
    }
}

#[test]
fn in_whole_inputs() {
    let mut counts = Counts::new();
    for frame in program_cases::all() {
        see::<Sheet>("inputs", split(&frame.input()).0, &mut counts);
    }
    assert_each_shown(&counts, "inputs, sheet", &OF_THE_SLIP[..1], 300);
    assert_each_shown(&counts, "inputs, sheet", &OF_THE_SLIP[1..], 4);
}
