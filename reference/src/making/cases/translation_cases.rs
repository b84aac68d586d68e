//! The cases of the program `translation_cases`: chosen sheets, random ones from a fixed seed, and
//! sheets that are refused, each with several buffers, in both versions of networks.

use crate::framing::translation_frames::{Frame, Room};
use crate::implementation::expr::LONGEST;
use crate::implementation::machine::Kind;
use crate::implementation::network::Version;
use crate::implementation::sheet::Sheet;
use crate::implementation::translate::{translate_to, BUFFER, CARD_BUFFER};
use crate::making::cases::rival_sheets;
use crate::making::cases::sheet_cases::{NETWORK_A, SHEET_A};
use crate::making::draft::SheetDraft;
use crate::making::generate::{self, Size};
use crate::making::random::Random;
use crate::making::scripts::counting_preconditions;
use std::collections::HashSet;
use std::ops::Range;

// ---- Drafts to start from ---------------------------------------------------------------------

const TRUE: u8 = 0;
const ON_ENTRY: u8 = 1;
const ON_PROGRAM: u8 = 2;
const EMPTY: u8 = 0;

/// No transitions and no triples; the three conditions above and an empty action.
fn base(states: u8, units: u8) -> SheetDraft {
    let mut draft = SheetDraft::new(states, units, 1, &[]);
    draft.front.conditions = vec![vec![0], vec![5, 17, 0, 19, 0], vec![4, 17, 0, 17, 0]];
    draft.front.actions = vec![vec![]];
    draft
}

/// The base with triples of these states and units, which differ in their conditions.
fn with_triples(states: u8, units: u8, places: &[(u8, u8)]) -> SheetDraft {
    let mut draft = base(states, units);
    for (number, (state, unit)) in places.iter().enumerate() {
        let precondition = [TRUE, ON_PROGRAM][number % 2];
        let postcondition = [ON_ENTRY, TRUE, ON_PROGRAM][number % 3];
        draft.triple(*state, *unit, precondition, postcondition);
    }
    draft
}

/// A condition of this length: `not` over and over, then `true`.
pub(crate) fn nots(length: usize) -> Vec<u8> {
    let mut bytes = vec![1; length];
    bytes[length - 1] = 0;
    bytes
}

/// An action of 64 bytes: variable 0 becomes itself, 19 times by three bytes and once by seven.
pub(crate) fn long_action() -> Vec<u8> {
    let mut bytes = [0, 18, 0].repeat(19);
    bytes.extend([0, 22, 0, 18, 0, 18, 0]);
    bytes
}

/// A condition of 64 bytes, another for each number.
pub(crate) fn numbered_condition(number: u8) -> Vec<u8> {
    let mut bytes = vec![1; LONGEST - 11];
    bytes.extend([5, 16, number, 0, 255, number, 16, 128, number, 1, 2]);
    bytes
}

/// An action of 64 bytes, another for each number.
pub(crate) fn numbered_action(number: u8) -> Vec<u8> {
    let mut bytes = long_action();
    bytes[..6].copy_from_slice(&[number % 4, 16, 0, number, 255, number]);
    bytes
}

// ---- Chosen sheets ----------------------------------------------------------------------------

fn without_triples(sheets: &mut Vec<SheetDraft>) {
    sheets.push(SheetDraft::new(1, 1, 0, &[]));
    sheets.push(SheetDraft::new(16, 16, 8, &[0x0102_0304, -1, i32::MIN, 5]));
    sheets.push(base(2, 3));
    for kind in [Kind::Entry, Kind::Exit] {
        let mut draft = base(2, 2);
        draft.transition(0, 1, (kind, 1), TRUE, EMPTY);
        sheets.push(draft.clone());
        draft.transition(1, 0, (kind, 0), ON_PROGRAM, EMPTY);
        sheets.push(draft);
    }
}

/// No transition in any state, and no action before the added one in some.
fn triples_alone(sheets: &mut Vec<SheetDraft>) {
    for count in 1..=4 {
        let mut draft = with_triples(1, 1, &vec![(0, 0); count]);
        sheets.push(draft.clone());
        draft.front.actions.clear();
        sheets.push(draft);
    }
    for place in [(0, 0), (0, 15), (15, 0), (15, 15), (7, 9)] {
        sheets.push(with_triples(16, 16, &[place]));
    }
}

/// Triples whose order is not that of their states and units.
fn triples_in_any_order(sheets: &mut Vec<SheetDraft>) {
    let places = [(0, 0), (0, 1), (1, 0)];
    for order in [
        [0, 1, 2],
        [0, 2, 1],
        [1, 0, 2],
        [1, 2, 0],
        [2, 0, 1],
        [2, 1, 0],
    ] {
        let once = order.map(|number| places[number]);
        sheets.push(with_triples(2, 2, &once));
        let twice = [once, order.map(|number| places[2 - number])].concat();
        sheets.push(with_triples(2, 2, &twice));
    }
    let falling: Vec<(u8, u8)> = (0..32).map(|n| (15 - n % 16, 15 - n / 16)).collect();
    sheets.push(with_triples(16, 16, &falling));
    let in_turn: Vec<(u8, u8)> = (0..32).map(|n| (n % 4 * 5, n / 4 % 2 * 15)).collect();
    sheets.push(with_triples(16, 16, &in_turn));
}

/// One transition from each state, at each kind and unit, beside triples of state and unit 0.
fn one_transition(sheets: &mut Vec<SheetDraft>) {
    for number in 0..8 {
        let (from, unit) = (number & 1, number >> 1 & 1);
        let kind = [Kind::Entry, Kind::Exit][usize::from(number >> 2)];
        let mut draft = with_triples(2, 2, &[(0, 0), (0, 0)]);
        draft.transition(from, 1 - from, (kind, unit), TRUE, EMPTY);
        sheets.push(draft);
    }
}

/// Entry transitions that stand before the added one of the same state and unit, and exits of it.
fn clashes(sheets: &mut Vec<SheetDraft>) {
    for triples in 1..=4 {
        for condition in [TRUE, ON_PROGRAM] {
            let mut draft = with_triples(3, 2, &vec![(1, 1); triples]);
            draft.front.start = 1;
            draft.transition(1, 1, (Kind::Entry, 1), condition, EMPTY);
            draft.transition(1, 2, (Kind::Exit, 1), condition, EMPTY);
            draft.transition(1, 0, (Kind::Entry, 1), ON_PROGRAM, EMPTY);
            draft.transition(2, 1, (Kind::Entry, 1), TRUE, EMPTY);
            draft.transition(1, 1, (Kind::Exit, 1), TRUE, EMPTY);
            draft.triple(2, 0, TRUE, ON_ENTRY);
            sheets.push(draft);
        }
    }
}

/// Tables with as many entries as they may have, and short ones.
fn full_tables(sheets: &mut Vec<SheetDraft>) {
    let mut conditions = with_triples(1, 1, &[(0, 0)]);
    conditions.front.conditions.resize(64, vec![0]);
    sheets.push(conditions);
    let mut actions = with_triples(1, 1, &[(0, 0)]);
    actions.front.actions.resize(32, vec![]);
    sheets.push(actions);
    // Four pairs on each of 64 transitions.
    let mut entries = with_triples(1, 1, &[(0, 0); 4]);
    entries.transitions = vec![[0; 6]; 64];
    sheets.push(entries);
    // 96 transitions in the network: half of the sheet's are exits.
    let apart: Vec<(u8, u8)> = (0..32).map(|n| (n / 2, n % 2 * 8)).collect();
    let mut both = with_triples(16, 16, &apart);
    both.transitions = (0..64)
        .map(|n| [n / 4, n % 2, n / 2 % 2 * 8, TRUE, EMPTY, n / 8])
        .collect();
    sheets.push(both);
}

/// Headers and texts: bad states, a start that is not 0, variables, the longest and shortest texts.
fn fronts(sheets: &mut Vec<SheetDraft>) {
    for values in [&[7][..], &[-2, i32::MAX], &[1, 2, 3], &[-1, 0, 256, 65_536]] {
        let mut draft = with_triples(16, 2, &[(3, 1)]);
        draft.front.monitor = values.len() as u8;
        draft.front.initial = values.to_vec();
        draft.front.start = 3;
        draft.front.bad = 0xA5C7;
        draft.front.actions.push(vec![0, 18, 0]);
        draft.transition(3, 15, (Kind::Entry, 1), TRUE, 1);
        sheets.push(draft);
    }
    let mut long = with_triples(1, 1, &[(0, 0)]);
    long.front.monitor = 1;
    long.front.initial = vec![9];
    long.front.conditions.push(nots(LONGEST));
    long.front.actions = vec![long_action(), vec![], vec![0, 18, 0]];
    sheets.push(long);
}

/// Networks of about 256 bytes, where the first byte of the length begins to count.
fn around_256(sheets: &mut Vec<SheetDraft>) {
    for length in 254..=258 {
        let mut draft = with_triples(2, 1, &[(0, 0), (1, 0), (0, 0)]);
        let filler = [LONGEST, LONGEST, 30].map(nots);
        draft.front.conditions.extend(filler);
        let others = network_length(Version::Two, &draft.bytes()).unwrap_or(0) + 1;
        draft.front.conditions.push(nots(length - others));
        sheets.push(draft);
    }
}

/// One state with these many monitor variables, and a triple for each, which asks whether it is the value.
fn counting(variables: u8) -> SheetDraft {
    let mut draft = base(2, 2);
    draft.front.monitor = variables;
    draft.front.initial = (1..=variables).map(i32::from).collect();
    draft.front.actions.push(vec![0, 17, 0]);
    for variable in 0..variables {
        draft.front.conditions.push(vec![5, 18, variable, 17, 0]);
        draft.triple(1, 1, FIRST_COUNTING + variable, ON_ENTRY);
    }
    draft
}

/// The number of the first such precondition.
const FIRST_COUNTING: u8 = 3;

/// Preconditions that read monitor variables (document 02, slip 13): alone, as guards of rivals that change
/// a variable, and as long as they can be.
fn counting_sheets(sheets: &mut Vec<SheetDraft>) {
    sheets.extend(counting_preconditions::sheets());
    for variables in 1..=4 {
        let mut draft = counting(variables);
        sheets.push(draft.clone());
        for variable in 0..variables {
            let guard = FIRST_COUNTING + variable;
            draft.transition(1, 0, (Kind::Entry, 1), guard, 1);
            draft.transition(1, 1, (Kind::Exit, 1), guard, 1);
        }
        sheets.push(draft.clone());
        for condition in &mut draft.front.conditions[usize::from(FIRST_COUNTING)..] {
            condition.splice(..0, vec![1; LONGEST - condition.len()]);
        }
        sheets.push(draft);
    }
}

/// What is still refused 7 beside such preconditions: a monitor variable in a postcondition, and a value at
/// entry in a precondition.
fn wrong_roles() -> [Vec<u8>; 2] {
    [[0, FIRST_COUNTING], [ON_ENTRY, 0]].map(|[precondition, postcondition]| {
        let mut draft = counting(2);
        draft.triple(1, 1, precondition, postcondition);
        draft.bytes()
    })
}

/// The longest sheet that has the longest network: each transition is an entry with four pairs, and
/// no other triples share a state and unit.
fn greatest() -> SheetDraft {
    let mut draft = SheetDraft::new(16, 16, 8, &[-1, 1, i32::MIN, 0x0102_0304]);
    draft.front.start = 15;
    draft.front.bad = 0x7FFF;
    draft.front.conditions = (0..64).map(numbered_condition).collect();
    draft.front.actions = (0..32).map(numbered_action).collect();
    for number in 0..64 {
        draft.transition(0, number % 16, (Kind::Entry, 0), number, number % 32);
    }
    for number in 0..32u8 {
        let crowd = number.saturating_sub(3);
        draft.triple(crowd % 16, crowd / 16, number, 63 - number);
    }
    draft
}

/// The accepted sheets that were chosen by hand.
pub fn chosen() -> Vec<Vec<u8>> {
    let mut drafts = Vec::new();
    for add in [
        without_triples,
        triples_alone,
        triples_in_any_order,
        one_transition,
        clashes,
        full_tables,
        fronts,
        around_256,
        counting_sheets,
    ] {
        add(&mut drafts);
    }
    drafts.push(greatest());
    let mut sheets = vec![SHEET_A.to_vec()];
    sheets.extend(drafts.iter().map(SheetDraft::bytes));
    sheets
}

// ---- Random sheets ----------------------------------------------------------------------------

const SEED: u64 = 0x5741_5443_4804;
/// How many random sheets are accepted, and how many of them are of any size.
const SOUND: usize = 300;
const SOUND_ANY: usize = 6;
/// How many sheets have each of the refusals 1-8.
const REFUSED: usize = 10;

/// Tries again until the sheet's length is as asked. Two in three have triples and transitions.
fn random_sheet(random: &mut Random, size: Size, lengths: Range<usize>) -> SheetDraft {
    let plain = random.chance(1, 3);
    loop {
        let draft = generate::sheet(random, size);
        let both = !draft.triples.is_empty() && !draft.transitions.is_empty();
        if lengths.contains(&draft.bytes().len()) && (plain || both) {
            return draft;
        }
    }
}

fn random_sheets(random: &mut Random) -> Vec<Vec<u8>> {
    let mut sheets = Vec::new();
    for number in 0..SOUND {
        let (size, lengths) = if number < SOUND_ANY {
            (Size::Any, 400..2_000)
        } else {
            (Size::Small, 0..random.pick(&[80, 140, 220]))
        };
        sheets.push(random_sheet(random, size, lengths).bytes());
    }
    sheets
}

/// Sheets of each refusal, from random ones that were broken or damaged.
fn refused_sheets(random: &mut Random) -> Vec<Vec<u8>> {
    let mut sheets = vec![Vec::new(), NETWORK_A.to_vec(), SHEET_A[..38].to_vec()];
    sheets.extend(wrong_roles());
    let mut missing = [REFUSED; 8];
    while missing.iter().any(|count| *count > 0) {
        let draft = random_sheet(random, Size::Small, 0..90);
        let broken = match random.below(4) {
            0 => generate::damaged(random, draft.bytes()),
            _ => generate::break_sheet(random, &draft),
        };
        let Err(refusal) = Sheet::read(&broken) else {
            continue;
        };
        let count = &mut missing[usize::from(refusal.number()) - 1];
        if *count > 0 && broken.len() <= 160 {
            *count -= 1;
            sheets.push(broken);
        }
    }
    sheets
}

// ---- Buffers ----------------------------------------------------------------------------------

/// `None` where a buffer of any length is refused.
fn network_length(version: Version, sheet: &[u8]) -> Option<usize> {
    translate_to(version, sheet, &mut vec![0; CARD_BUFFER]).ok()
}

fn room(length: usize, seed: u8) -> Room {
    Room {
        length: length as u16,
        seed,
    }
}

/// As long as the network; one byte shorter; none; much longer, with a pattern that differs from
/// the first at every place, so that a byte left out shows; and sometimes any shorter length.
fn rooms_of_accepted(random: &mut Random, network: usize) -> Vec<Room> {
    let seed = random.byte();
    let more = random.pick(&[1, 30, 60, 100, 250]);
    let longer = (network + more).min(CARD_BUFFER);
    let mut rooms = vec![
        room(network, seed),
        room(network - 1, random.byte()),
        room(0, random.byte()),
        room(longer, seed.wrapping_add(128)),
    ];
    if random.chance(1, 4) {
        rooms.push(room(random.below(network), random.byte()));
    }
    rooms
}

/// More bytes than most such sheets have; a few; none.
fn rooms_of_refused(random: &mut Random) -> Vec<Room> {
    vec![
        room(random.between(150, 250), random.byte()),
        room(random.between(1, 14), random.byte()),
        room(0, random.byte()),
    ]
}

/// Refused 21: as many bytes as the network would have if it were written, where two bytes can say
/// that; then as for other refused sheets.
fn rooms_of_too_long(random: &mut Random, sheet: &Sheet) -> Vec<Room> {
    let length = sheet.translate().separated().bytes().len();
    let mut rooms = vec![room(length.min(CARD_BUFFER), random.byte())];
    rooms.extend(rooms_of_refused(random));
    rooms
}

// ---- All --------------------------------------------------------------------------------------

fn frame(random: &mut Random, version: Version, sheet: Vec<u8>) -> Frame {
    let rooms = match (network_length(version, &sheet), Sheet::read(&sheet)) {
        (Some(network), _) => rooms_of_accepted(random, network),
        (None, Ok(sheet)) => rooms_of_too_long(random, &sheet),
        (None, Err(_)) => rooms_of_refused(random),
    };
    Frame {
        version,
        sheet,
        rooms,
    }
}

/// Whole buffers: of the length that is enough for any sheet in version 2, and of any length.
fn add_whole_buffers(random: &mut Random, frames: &mut [Frame]) {
    let greatest = greatest().bytes();
    let lengths = [BUFFER, CARD_BUFFER];
    for (frame, length) in frames.iter_mut().zip(lengths) {
        frame.rooms.push(room(length, random.byte()));
    }
    for frame in frames.iter_mut().filter(|frame| frame.sheet == greatest) {
        frame.rooms.push(room(BUFFER, random.byte()));
    }
}

/// For about half of the sheets, as long as the network of version 2, which is too short for version 3.
fn add_shorter_buffers(random: &mut Random, frames: &mut [Frame]) {
    for frame in frames.iter_mut().filter(|_| random.chance(1, 2)) {
        let written = network_length(frame.version, &frame.sheet).is_some();
        if let (true, Some(length)) = (written, network_length(Version::Two, &frame.sheet)) {
            frame.rooms.push(room(length, length as u8));
        }
    }
}

/// All the frames. No sheet comes twice in one version.
pub fn all() -> Vec<Frame> {
    let mut random = Random::new(SEED);
    let (chosen, random_ones) = (chosen(), random_sheets(&mut random));
    let refused = refused_sheets(&mut random);
    let rivals = rival_sheets::all().iter().map(SheetDraft::bytes).collect();
    let longest = vec![rival_sheets::longest().bytes()];
    let third = random_ones.iter().step_by(3).cloned().collect();
    let plain = [chosen.clone(), random_ones, refused.clone()].concat();
    let card = [chosen, third, refused, rivals, longest].concat();
    let mut frames = frames_of(&mut random, Version::Two, plain);
    add_whole_buffers(&mut random, &mut frames);
    let mut cards = frames_of(&mut random, Version::Three, card);
    add_whole_buffers(&mut random, &mut cards);
    add_shorter_buffers(&mut random, &mut cards);
    frames.extend(cards);
    frames
}

/// A frame for each of the sheets that are different.
fn frames_of(random: &mut Random, version: Version, mut sheets: Vec<Vec<u8>>) -> Vec<Frame> {
    let mut seen = HashSet::new();
    sheets.retain(|sheet| seen.insert(sheet.clone()));
    let sheets = sheets.into_iter();
    sheets.map(|sheet| frame(random, version, sheet)).collect()
}
