//! What the committed cases must show of version 3. It is written down here, whatever the generators
//! make, and looked for in the files that the case programs read.

mod committed;
mod evaluations;

use committed::{add, assert_shown, committed, lines, Counts};
use reference::framing::condition_frames;
use reference::framing::network_frames::Checkers;
use reference::framing::pages::PAGE;
use reference::framing::script_frames::{read_page, Bench, Frame};
use reference::framing::sheet_frames;
use reference::framing::translation_frames;
use reference::implementation::engine::Engine;
use reference::implementation::expr::Condition;
use reference::implementation::network::{Network, Version};
use reference::implementation::run::{read_log, run, Record};

// ---- condition_cases --------------------------------------------------------------------------

const OF_CONDITIONS: [(&str, usize); 47] = [
    ("condition of 64 bytes: false", 1),
    ("condition of 65 bytes: true", 1),
    ("condition of 255 bytes: true", 1),
    ("condition of 256 bytes: false", 1),
    ("condition of 257 bytes: true", 1),
    ("condition of 1022 bytes: false", 1),
    ("condition of 1023 bytes: true", 1),
    ("condition of 1023 bytes: false", 1),
    ("condition of 1024 bytes: true", 1),
    ("condition of 1024 bytes: false", 1),
    ("condition of 0 bytes: refused 4", 1),
    ("condition of 1025 bytes: refused 4", 1),
    ("condition of 1280 bytes: refused 4", 1),
    ("condition of 65 bytes: refused 5", 1),
    ("condition of 255 bytes: refused 5", 1),
    ("condition of 256 bytes: refused 5", 1),
    ("condition of 257 bytes: refused 5", 1),
    ("condition of 1023 bytes: refused 5", 1),
    ("condition of 1024 bytes: refused 5", 1),
    ("value of 64 bytes: a number", 1),
    ("value of 65 bytes: a number", 1),
    ("value of 255 bytes: a number", 1),
    ("value of 256 bytes: a number", 1),
    ("value of 257 bytes: a number", 1),
    ("value of 1023 bytes: a number", 4),
    ("value of 1024 bytes: a number", 4),
    ("value of 0 bytes: refused 4", 1),
    ("value of 1025 bytes: refused 4", 1),
    ("value of 65 bytes: refused 5", 1),
    ("value of 257 bytes: refused 5", 1),
    ("value of 1024 bytes: refused 5", 1),
    ("action of 64 bytes: done", 1),
    ("action of 65 bytes: refused 4", 1),
    ("action of 257 bytes: refused 4", 1),
    ("action of 1024 bytes: refused 4", 1),
    ("condition of 65 bytes judged: 100", 1),
    ("condition of 257 bytes judged: 100", 1),
    ("condition of 1023 bytes judged: 100", 1),
    ("condition of 1023 bytes judged: 110", 1),
    ("condition of 1023 bytes judged: 101", 1),
    ("condition of 1024 bytes judged: 100", 1),
    ("condition of 1024 bytes judged: 101", 1),
    ("condition of 1024 bytes judged: 000", 1),
    ("condition of 1025 bytes judged: 000", 1),
    ("action of 64 bytes judged: 10", 1),
    ("action of 65 bytes judged: 00", 1),
    ("action of 1024 bytes judged: 00", 1),
];

#[test]
fn of_conditions() {
    let mut counts = Counts::new();
    for (frame, line) in &evaluations::conditions() {
        let (name, judged) = match frame.kind {
            condition_frames::Kind::Condition => ("condition", ""),
            condition_frames::Kind::Value => ("value", ""),
            condition_frames::Kind::Action => ("action", ""),
            condition_frames::Kind::JudgeCondition => ("condition", " judged"),
            condition_frames::Kind::JudgeAction => ("action", " judged"),
        };
        let answer = match line.parse::<i32>() {
            Ok(_) if judged.is_empty() => "a number",
            _ if line.starts_with("done") => "done",
            _ => line,
        };
        let length = frame.expression.len();
        add(
            &mut counts,
            format!("{name} of {length} bytes{judged}: {answer}"),
        );
    }
    assert_shown(&counts, &OF_CONDITIONS);
}

// ---- sheet_cases ------------------------------------------------------------------------------

/// By a network's version byte, its number of conditions and its first condition's length field.
const OF_READING: [(&str, usize); 40] = [
    ("version 3: accepted", 150),
    ("version 3: refused 1", 30),
    ("version 3: refused 3", 40),
    ("version 3: refused 4", 80),
    ("version 3: refused 5", 60),
    ("version 3: refused 6", 60),
    ("version 3: refused 7", 40),
    ("version 0: refused 2", 2),
    ("version 1: refused 2", 2),
    ("version 4: refused 2", 2),
    ("version 255: refused 2", 2),
    ("version 2, lengths of two bytes: refused 4", 1),
    ("version 3, lengths of one byte: refused 4", 1),
    ("a sheet of version 3: refused 2", 2),
    ("160 conditions: accepted", 1),
    ("161 conditions: accepted", 1),
    ("162 conditions: refused 3", 1),
    ("length 0: refused 4", 1),
    ("length 1: accepted", 1),
    ("length 64: accepted", 1),
    ("length 65: accepted", 1),
    ("length 255: accepted", 1),
    ("length 256: accepted", 1),
    ("length 256: refused 4", 1),
    ("length 257: accepted", 1),
    ("length 257: refused 4", 1),
    ("length 1023: accepted", 1),
    ("length 1024: accepted", 1),
    ("length 1024: refused 4", 1),
    ("length 1024: refused 5", 1),
    ("length 1025: refused 4", 1),
    ("length 1280: refused 4", 1),
    ("length 65535: refused 4", 1),
    ("tables from 256 on: accepted", 10),
    ("tables from 1024 on: accepted", 5),
    ("tables from 1024 on: refused 5", 1),
    ("65 bytes in a sheet: refused 4", 1),
    ("65 bytes in version 2: refused 4", 1),
    ("a network over 8192 bytes: accepted", 1),
    ("a network over 65000 bytes: accepted", 1),
];

/// What is said of a network of version 3 by its bytes.
fn of_network(bytes: &[u8]) -> Vec<String> {
    let mut labels = vec!["version 3".into()];
    let (Some(monitor), Some(conditions)) = (bytes.get(6), bytes.get(10)) else {
        return labels;
    };
    labels.push(format!("{conditions} conditions"));
    let field = 14 + 4 * usize::from(*monitor);
    if let (true, Some([high, low])) = (*conditions > 0, bytes.get(field..field + 2)) {
        let length = 256 * usize::from(*high) + usize::from(*low);
        labels.push(format!("length {length}"));
        if *conditions > 1 && high == &1 && bytes[field + 1] <= 5 {
            labels.push("version 3, lengths of one byte".into());
        }
    }
    for least in [8_192, 65_000] {
        if bytes.len() > least {
            labels.push(format!("a network over {least} bytes"));
        }
    }
    for least in [256, 1_024] {
        if bytes.len() > least + 30 && bytes.len() < 8_192 {
            labels.push(format!("tables from {least} on"));
        }
    }
    labels
}

fn of_frame(frame: &sheet_frames::Frame) -> Vec<String> {
    let bytes = &frame.bytes;
    let version = bytes.get(2).copied();
    let long = bytes.get(14) == Some(&65) && bytes.get(10) == Some(&1);
    match (frame.kind, version) {
        (sheet_frames::Kind::Network, Some(3)) => of_network(bytes),
        (sheet_frames::Kind::Network, Some(2)) if long => vec!["65 bytes in version 2".into()],
        (sheet_frames::Kind::Network, Some(2)) if bytes.get(14..16) == Some(&[0, 1]) => {
            vec!["version 2, lengths of two bytes".into()]
        }
        (sheet_frames::Kind::Network, Some(version)) => vec![format!("version {version}")],
        (sheet_frames::Kind::Sheet, Some(3)) => vec!["a sheet of version 3".into()],
        (sheet_frames::Kind::Sheet, Some(1)) if long => vec!["65 bytes in a sheet".into()],
        _ => Vec::new(),
    }
}

#[test]
fn of_reading() {
    let frames = sheet_frames::read_frames(&committed("sheet_cases", "stdin")).expect("frames");
    let lines = lines("sheet_cases");
    assert_eq!(frames.len(), lines.len());
    let mut counts = Counts::new();
    for (frame, line) in frames.iter().zip(&lines) {
        let accepted = line.starts_with("accepted");
        let answer = if accepted { "accepted" } else { line };
        for label in of_frame(frame) {
            add(&mut counts, format!("{label}: {answer}"));
        }
    }
    assert_shown(&counts, &OF_READING);
}

// ---- translation_cases ------------------------------------------------------------------------

const OF_TRANSLATING: [(&str, usize); 13] = [
    ("written", 400),
    ("written over 255 bytes", 100),
    ("written over 8192 bytes", 8),
    ("refused 1", 30),
    ("refused 2", 30),
    ("refused 3", 30),
    ("refused 4", 30),
    ("refused 5", 30),
    ("refused 6", 30),
    ("refused 7", 30),
    ("refused 8", 30),
    ("refused 19", 400),
    ("refused 21", 24),
];

#[test]
fn of_translating() {
    let bytes = committed("translation_cases", "stdin");
    let frames = translation_frames::read_frames(&bytes).expect("frames");
    let mut lines = lines("translation_cases").into_iter();
    let mut counts = Counts::new();
    for frame in &frames {
        for line in lines.by_ref().take(frame.rooms.len()) {
            if frame.version == Version::Three {
                count_translation(&line, &mut counts);
            }
        }
    }
    assert_eq!(lines.next(), None);
    assert_shown(&counts, &OF_TRANSLATING);
}

fn count_translation(line: &str, counts: &mut Counts) {
    let words: Vec<&str> = line.split(' ').collect();
    if words[0] == "refused" {
        return add(counts, format!("refused {}", words[1]));
    }
    add(counts, "written".into());
    let length: usize = words[1].parse().expect("a length");
    for least in [255, 8_192] {
        if length > least {
            add(counts, format!("written over {least} bytes"));
        }
    }
}

// ---- network_cases ----------------------------------------------------------------------------

const OF_NETWORKS: [(&str, usize); 54] = [
    ("fresh: accepted", 60),
    ("fresh: refused 1", 1),
    ("fresh: refused 3", 2),
    ("fresh: refused 4", 3),
    ("fresh: refused 5", 2),
    ("fresh: refused 6", 3),
    ("fresh: refused 7", 3),
    ("event", 1_500),
    ("event: taken", 900),
    ("event: refused 1", 3),
    ("event: refused 3", 10),
    ("event: refused 4", 10),
    ("event: refused 5", 10),
    ("event: refused 6", 10),
    ("event: refused 7", 10),
    ("event: refused 9", 200),
    ("event: refused 10", 80),
    ("event: refused 11", 20),
    ("event: refused 12", 5),
    ("event: refused 13", 10),
    ("event: refused 14", 5),
    ("event: refused 15", 20),
    ("entry values", 100),
    ("log", 200),
    ("log: clean", 60),
    ("log: violated", 60),
    ("log: refused 16", 5),
    ("log: refused 17", 3),
    ("log: refused 18", 3),
    ("log: refused 3", 2),
    ("log: refused 4", 2),
    ("log: refused 5", 2),
    ("log: refused 6", 2),
    ("log: refused 7", 2),
    ("log: refused 11 at", 2),
    ("log: refused 13 at", 2),
    ("log: refused 14 at", 2),
    ("log: refused 15 at", 2),
    ("event: a guard over 64 bytes decides", 60),
    ("event: a guard over 255 bytes decides", 30),
    ("event: a guard over 1000 bytes decides", 12),
    ("event: a pair over 64 bytes decides", 18),
    ("event: a pair over 255 bytes decides", 10),
    ("event: a pair over 1000 bytes decides", 4),
    ("event: a template over 64 bytes decides", 18),
    ("event: a template over 255 bytes decides", 10),
    ("event: a template over 1000 bytes decides", 4),
    ("event: an earlier rival decides", 60),
    ("log: a guard over 255 bytes decides", 12),
    ("log: a pair over 255 bytes decides", 2),
    ("log: a template over 255 bytes decides", 8),
    ("log: a guard over 1000 bytes decides", 4),
    ("log: a template over 1000 bytes decides", 2),
    ("log: an earlier rival decides", 8),
];

/// Where a network names conditions.
const ROLES: [&str; 3] = ["guard", "pair", "template"];

/// The network with every condition over so many bytes taken for true, or for false, in a role.
fn overlooked(network: &Network, role: &str, over: usize, truth: bool) -> Network {
    let mut other = network.clone();
    let number = other.machine.conditions.len() as u8;
    let always = Condition::True;
    other.machine.conditions.push(match truth {
        true => always,
        false => Condition::Not(Box::new(always)),
    });
    let long = |condition: &mut u8| {
        let bytes = network.machine.conditions[usize::from(*condition)].bytes();
        if bytes.len() > over {
            *condition = number;
        }
    };
    let transitions = &mut other.transitions;
    match role {
        "guard" => transitions
            .iter_mut()
            .map(|c| &mut c.transition.condition)
            .for_each(long),
        "pair" => {
            let pairs = transitions.iter_mut().flat_map(|c| &mut c.pairs);
            pairs.map(|pair| &mut pair.condition).for_each(long);
        }
        _ => other
            .templates
            .iter_mut()
            .map(|t| &mut t.postcondition)
            .for_each(long),
    }
    other
}

/// The network with its transitions from the back, and what is joined before their own conditions
/// taken away.
fn without_rivals(network: &Network) -> Network {
    let mut other = network.clone();
    for creating in &mut other.transitions {
        let number = usize::from(creating.transition.condition);
        let mut own = network.machine.conditions[number].clone();
        while let Condition::And(first, rest) = &own {
            match **first {
                Condition::Not(_) => own = (**rest).clone(),
                _ => break,
            }
        }
        creating.transition.condition = other.machine.conditions.len() as u8;
        other.machine.conditions.push(own);
    }
    other.transitions.reverse();
    other
}

/// What a network is where something is overlooked, each with its name.
fn oversights(network: &Network) -> Vec<(String, Network)> {
    let mut all = Vec::new();
    let longest = network.machine.conditions.iter().map(|c| c.bytes().len());
    let longest = longest.max().unwrap_or(0);
    for over in [64, 255, 1_000].into_iter().filter(|over| *over < longest) {
        for role in ROLES {
            let name = format!("a {role} over {over} bytes decides");
            all.push((name.clone(), overlooked(network, role, over, true)));
            all.push((name, overlooked(network, role, over, false)));
        }
    }
    // With more conditions a number would not hold them.
    if network.machine.conditions.len() + network.transitions.len() < 256 {
        all.push(("an earlier rival decides".into(), without_rivals(network)));
    }
    all
}

/// The names of the oversights with which something comes out differently.
fn deciding<T: PartialEq>(
    network: &Network,
    others: &[(String, Network)],
    of: impl Fn(&Network) -> T,
) -> Vec<String> {
    let right = of(network);
    let differ = others.iter().filter(|(_, other)| of(other) != right);
    let mut names: Vec<String> = differ.map(|(name, _)| name.clone()).collect();
    names.dedup();
    names
}

/// The network that is laid out, and what it is with something overlooked.
#[derive(Default)]
struct Laid {
    network: Option<Network>,
    others: Vec<(String, Network)>,
}

impl Laid {
    fn of(bytes: &[u8]) -> Laid {
        let network = Network::read(bytes).ok();
        let others = network.as_ref().map(oversights).unwrap_or_default();
        Laid { network, others }
    }

    fn decides(&self, bench: &Bench<Network>, frame: &Frame<Checkers>) -> Vec<String> {
        let Some(network) = &self.network else {
            return Vec::new();
        };
        let event = |event: &Record| {
            let of = |n: &Network| n.event(&bench.state, &event.event());
            deciding(network, &self.others, of)
        };
        match frame {
            Frame::Offer { event: offered, .. } => event(offered),
            Frame::Run(log) if read_log(log, network.machine.header.program).is_ok() => {
                deciding(network, &self.others, |n| run(n, log).result)
            }
            _ => Vec::new(),
        }
    }
}

/// What a frame is, and what of its line counts.
fn answer_of(frame: &Frame<Checkers>, line: &str) -> (&'static str, String) {
    let words: Vec<&str> = line.split(' ').collect();
    let answer = match words[..] {
        ["refused", number, "at", ..] => format!("refused {number} at"),
        ["refused", number, ..] => format!("refused {number}"),
        _ => words[0].to_string(),
    };
    match frame {
        Frame::Fresh => ("fresh", answer),
        Frame::Offer { .. } => ("event", answer),
        Frame::Run(_) => ("log", answer),
        _ => ("entry values", answer),
    }
}

fn count_page(page: &[u8], lines: &mut impl Iterator<Item = String>, counts: &mut Counts) {
    let (frames, _) = read_page::<Checkers>(page);
    let (mut bench, mut laid) = (Bench::<Network>::default(), Laid::default());
    for frame in &frames {
        if let Frame::Rules(bytes) = frame {
            laid = Laid::of(bytes);
        }
        let is_card = bench.rules.get(2) == Some(&3);
        let decides = match is_card {
            true => laid.decides(&bench, frame),
            false => Vec::new(),
        };
        let line = bench.carry_out(frame);
        if line.is_some() {
            let line = lines.next().expect("a line for the frame");
            let (what, answer) = answer_of(frame, &line);
            if is_card {
                add(counts, what.into());
                add(counts, format!("{what}: {answer}"));
                decides
                    .into_iter()
                    .for_each(|name| add(counts, format!("{what}: {name}")));
            }
        }
    }
}

#[test]
fn of_networks() {
    let mut lines = lines("network_cases").into_iter();
    let mut counts = Counts::new();
    for page in committed("network_cases", "stdin").chunks(PAGE) {
        count_page(page, &mut lines, &mut counts);
    }
    assert_eq!(lines.next(), None);
    assert_shown(&counts, &OF_NETWORKS);
}
