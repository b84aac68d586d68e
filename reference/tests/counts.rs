//! Document 02's slip 3: an evaluation, an event and a run count the operators and operands that they evaluate. Counts
//! worked out by hand; what the committed cases must show, whatever the generators make, looked for in the files that
//! the case programs read; and the faults that they would see.

mod committed;
mod visiting;

use committed::{add, assert_shown, committed, lines, Counts};
use reference::counting::counts::{label, of_log, of_steps, wanted, Counting, Judging, Mistake};
use reference::counting::tally;
use reference::framing::condition_frames::{self, read_frames};
use reference::framing::counted_lines::{split_count, with_count};
use reference::framing::monitor_frames::Arms;
use reference::framing::network_frames::Checkers;
use reference::framing::script_frames::{Frame, Own};
use reference::implementation::engine::{Engine, Event};
use reference::implementation::expr::{self, Action, Condition, Counted, Lent, Value};
use reference::implementation::machine::{Kind, Transition};
use reference::implementation::network::Network;
use reference::implementation::run::{
    follow_counting, read_log, run, run_records, write_log, Record,
};
use reference::implementation::sheet::Sheet;
use reference::implementation::state::SheetState;
use reference::making::cases::sheet_cases::{LOG_A, NETWORK_A, SHEET_A};
use reference::making::draft::SheetDraft;
use reference::making::generate::{self, Manner, Shape, Size};
use reference::making::random::Random;
use reference::making::scripts::script::{entry, exit};
use visiting::visit;

// ---- By hand: evaluations ---------------------------------------------------------------------

/// 11 present, 22 monitored, 33 at entry.
const LENT: Lent = Lent {
    program: &[11],
    monitor: &[22],
    kept: &[33],
};

/// "each once when reached, the right side of `and` only if the left is true, of `or` only if the left is false".
#[test]
fn conditions_by_hand() {
    for (bytes, holds, count) in [
        // true; not true; not not true.
        (&[0][..], true, 1),
        (&[1, 0], false, 2),
        (&[1, 1, 0], true, 3),
        // and true true; and true (not true); and (not true) true: the last `true` is not reached.
        (&[2, 0, 0], true, 3),
        (&[2, 0, 1, 0], false, 4),
        (&[2, 1, 0, 0], false, 3),
        // or true true; or (not true) true; or (not true) (not true).
        (&[3, 0, 0], true, 2),
        (&[3, 1, 0, 0], true, 4),
        (&[3, 1, 0, 1, 0], false, 5),
        // less, equal: the operator and two operands; within: and three.
        (&[4, 17, 0, 18, 0], true, 3),
        (&[5, 19, 0, 18, 0], false, 3),
        (&[5, 17, 0, 16, 0, 0, 0, 11], true, 3),
        (&[6, 19, 0, 18, 0, 17, 0], true, 4),
        // and (or true true) (or true true): and, or, true, or, true.
        (&[2, 3, 0, 0, 3, 0, 0], true, 5),
        // or (and (not true) true) (and true true): or, and, not, true, and, true, true.
        (&[3, 2, 1, 0, 0, 2, 0, 0], true, 7),
        // less (choose true p p) m: less, choose, true, p, m.
        (&[4, 22, 0, 17, 0, 17, 0, 18, 0], true, 5),
    ] {
        let evaluated = expr::evaluate_condition(bytes, &LENT);
        let expected = Counted {
            result: holds,
            count,
        };
        assert_eq!(evaluated, Ok(expected), "{bytes:?}");
    }
}

/// "and one branch of `choose`".
#[test]
fn values_by_hand() {
    for (bytes, gives, count) in [
        (&[16, 0, 0, 0, 5][..], 5, 1),
        (&[17, 0], 11, 1),
        (&[18, 0], 22, 1),
        (&[19, 0], 33, 1),
        (&[20, 17, 0, 18, 0], 33, 3),
        (&[21, 18, 0, 17, 0], 11, 3),
        // choose true v w; choose (not true) v w.
        (&[22, 0, 17, 0, 18, 0], 11, 3),
        (&[22, 1, 0, 17, 0, 18, 0], 22, 4),
        // The other branch is a sum, or a choice.
        (&[22, 0, 17, 0, 20, 18, 0, 18, 0], 11, 3),
        (&[22, 1, 0, 17, 0, 20, 18, 0, 18, 0], 44, 6),
        // choose (less p m) (choose true e p) p: choose, less, p, m, choose, true, e.
        (&[22, 4, 17, 0, 18, 0, 22, 0, 19, 0, 17, 0, 17, 0], 33, 7),
        // plus (plus p p) (plus p p).
        (&[20, 20, 17, 0, 17, 0, 20, 17, 0, 17, 0], 44, 7),
    ] {
        let evaluated = expr::evaluate_value(bytes, &LENT);
        let expected = Counted {
            result: gives,
            count,
        };
        assert_eq!(evaluated, Ok(expected), "{bytes:?}");
    }
}

/// The values assigned, each as the action runs; the assigned variable does not count.
#[test]
fn actions_by_hand() {
    // x := 5; x := choose (equal x 5) p (plus p p): 1, then choose, equal, x, 5 and p.
    let chosen = [0, 22, 5, 18, 0, 16, 0, 0, 0, 5, 17, 0, 20, 17, 0, 17, 0];
    let makes = [0, 16, 0, 0, 0, 5];
    for (bytes, after, count) in [
        (vec![], 22, 0),
        (vec![0, 17, 0], 11, 1),
        (vec![0, 17, 0, 0, 20, 18, 0, 17, 0], 22, 1 + 3),
        (makes.to_vec(), 5, 1),
        (chosen.to_vec(), 22, 1 + 3 + 3),
        ([&makes[..], &chosen].concat(), 11, 1 + 1 + 3 + 1),
        ([&chosen[..], &makes].concat(), 5, 1 + 3 + 3 + 1),
    ] {
        let evaluated = expr::evaluate_action(&bytes, &LENT);
        let expected = Counted {
            result: vec![after],
            count,
        };
        assert_eq!(evaluated, Ok(expected), "{bytes:?}");
    }
}

// ---- By hand: document 01's sample ------------------------------------------------------------

/// Runs records on sheet A, its network and its card network.
fn counts_on_a(records: &[Record]) -> [u64; 3] {
    let sheet = Sheet::read(&SHEET_A).expect("a sheet");
    let network = Network::read(&NETWORK_A).expect("a network");
    let card = network.separated();
    [
        run_records(&sheet, records).count,
        run_records(&network, records).count,
        run_records(&card, records).count,
    ]
}

/// The entry in state 0: `true`, tried; `true`, the precondition. The exit in state 1: `true`, tried; `equal` and
/// its two operands, the postcondition. In state 1 no transition is for entries, and in state 0 none is for exits.
#[test]
fn sheet_a_by_hand() {
    let (enters, leaves) = (entry(0, 7, &[8, 0]), exit(0, 7, &[8, 8]));
    let broken = exit(0, 7, &[8, 7]);
    let inside = [entry(0, 9, &[3, 0]), exit(0, 9, &[3, 0])];
    assert_eq!(counts_on_a(&[]), [0; 3]);
    assert_eq!(counts_on_a(std::slice::from_ref(&enters)), [2; 3]);
    assert_eq!(counts_on_a(&[enters.clone(), leaves.clone()]), [2 + 4; 3]);
    assert_eq!(counts_on_a(&[enters.clone(), broken]), [2 + 4; 3]);
    // The one inside is entered in state 1, and left there: 0, then `true`. Then call 7 is left in state 0.
    let [other, left] = inside;
    let nested = [enters.clone(), other, left, leaves.clone()];
    assert_eq!(counts_on_a(&nested), [2 + 1 + 3; 3]);
    // Refused: at the first event, at the second, and at the seventeenth.
    assert_eq!(counts_on_a(&[leaves]), [0; 3]);
    assert_eq!(counts_on_a(&[enters.clone(), enters]), [2; 3]);
    let many: Vec<Record> = (0..17).map(|n| entry(0, n, &[0, 0])).collect();
    assert_eq!(counts_on_a(&many), [2; 3]);
}

/// "A refused event or evaluation counts 0", and so does a run that is refused for its sheet or log.
#[test]
fn refused_runs_by_hand() {
    let sheet = Sheet::read(&SHEET_A).expect("a sheet");
    assert_eq!(run(&sheet, &LOG_A).count, 6);
    assert_eq!(run(&sheet, &LOG_A[..29]).count, 0);
    let mut other = LOG_A;
    other[5] = 1;
    assert_eq!(run(&sheet, &other).count, 0);
    let refused = reference::implementation::run::run_sheet(&SHEET_A[..38], &LOG_A);
    assert_eq!(refused.count, 0);
    assert_eq!(
        with_count(&refused.result.to_string(), refused.count),
        "refused 1 count 0"
    );
}

/// Two rivals, two triples and an action of two values, on the sheet and on its networks, in which the transition
/// that was added, or the joined conditions, count too.
#[test]
fn an_event_by_hand() {
    let mut sheet = SheetDraft::new(1, 1, 1, &[0]);
    let is = |n: u8| vec![5, 17, 0, 16, 0, 0, 0, n];
    sheet.front.conditions = vec![is(1), is(2), vec![1, 0], vec![0]];
    sheet.front.actions = vec![vec![], vec![0, 17, 0, 0, 20, 18, 0, 17, 0]];
    sheet.transition(0, 0, (Kind::Entry, 0), 0, 0);
    sheet.transition(0, 0, (Kind::Entry, 0), 1, 1);
    sheet.triple(0, 0, 2, 3);
    sheet.triple(0, 0, 3, 2);
    let sheet = Sheet::read(&sheet.bytes()).expect("a sheet");
    let network = sheet.translate();
    let card = network.separated();
    // The preconditions count 2 and 1, whichever hold.
    for (value, expected) in [
        (1, [3 + 3, 3 + 3, 3 + 3]),
        // The second: 3, 3 and the values' 1 + 3. In version 3 `and` and `not` stand before the joined one.
        (2, [6 + 4 + 3, 6 + 4 + 3, 3 + (2 + 3 + 3) + 4 + 3]),
        // None: the added one is `true`, and in version 3 joined to both.
        (3, [6 + 3, 6 + 1 + 3, 3 + 8 + (5 + 5 + 1) + 3]),
    ] {
        let records = [entry(0, 7, &[value])];
        let counts = [
            run_records(&sheet, &records).count,
            run_records(&network, &records).count,
            run_records(&card, &records).count,
        ];
        assert_eq!(counts, expected, "{value}");
    }
    // Triple 1 alone is armed, and judged: `not` and `true`.
    let records = [entry(0, 7, &[1]), exit(0, 7, &[1])];
    assert_eq!(run_records(&sheet, &records).count, 6 + 2);
}

/// A run's count does not stop at 32 bits.
#[test]
fn totals_are_wide() {
    let sheet = Sheet::read(&SHEET_A).expect("a sheet");
    let many = |sheet: &Sheet, state: &SheetState, event: &Event| {
        let counted = sheet.counted_event(state, event)?;
        Ok(Counted {
            count: u64::from(u32::MAX),
            ..counted
        })
    };
    let records: Vec<Record> = (0..16).map(|n| entry(0, n, &[0, 0])).collect();
    let counted = follow_counting(&sheet, &records, many);
    assert_eq!(counted.count, 16 * u64::from(u32::MAX));
}

// ---- The second definition --------------------------------------------------------------------

/// On random sheets and networks: every event, refused ones too, and every run.
#[test]
fn the_second_definition_agrees_on_random_rules() {
    let mut random = Random::new(43);
    let mut total = 0;
    for number in 0..3_000 {
        let draft = generate::sheet(&mut random, Size::Small);
        let (shape, manner) = (
            Shape::of(&draft),
            Manner {
                breaks: random.pick(&[0, 8]),
                entries: 5,
            },
        );
        let records = generate::records(&mut random, shape, manner, 20);
        let sheet = Sheet::read(&draft.bytes()).expect("a draft is a sheet");
        let network = sheet.translate();
        total += agrees(&sheet, &records);
        total += agrees(&network, &records);
        total += agrees(&network.separated(), &records);
        if number % 4 == 0 {
            let network = generate::network_like(&mut random, draft);
            let network = Network::read(&network.bytes()).expect("a draft is a network");
            total += agrees(&network, &records);
        }
    }
    assert!(total > 100_000, "{total}");
}

/// Gives the count of the run.
fn agrees<R: Judging>(rules: &R, records: &[Record]) -> u64 {
    let mut state = rules.fresh();
    for record in records {
        let counted = rules.counted_event(&state, &record.event());
        let answer = rules.event(&state, &record.event());
        let count = Counting::RIGHT.event(rules, &state, record, &answer);
        assert_eq!(count, counted.map_or(0, |counted| counted.count));
        if let Ok(next) = answer {
            state = next;
        }
    }
    let run = run_records(rules, records).count;
    assert_eq!(Counting::RIGHT.run(rules, records), run);
    run
}

// ---- Which operators are reached --------------------------------------------------------------

const AND: [&str; 2] = ["and whose right side is reached", "and whose left is false"];
const OR: [&str; 2] = ["or whose right side is reached", "or whose left is true"];
const CHOOSE: [&str; 2] = ["choose of the first", "choose of the second"];
const BRANCHES: [&str; 6] = [AND[0], AND[1], OR[0], OR[1], CHOOSE[0], CHOOSE[1]];
const OTHERS: [&str; 11] = [
    "true", "not", "less", "equal", "within", "constant", "program", "monitor", "at entry", "plus",
    "minus",
];

/// What an evaluation reaches: each operator or operand, and the branch that it takes; a branch also with the one
/// around it.
struct Reached<'a> {
    lent: &'a Lent<'a>,
    labels: Vec<String>,
}

impl Reached<'_> {
    fn see(&mut self, label: &str) {
        self.labels.push(label.into());
    }

    fn branch(&mut self, branches: [&'static str; 2], second: bool, around: &str) -> &'static str {
        let own = branches[usize::from(second)];
        self.see(own);
        if !around.is_empty() {
            self.see(&format!("{own}, inside {around}"));
        }
        own
    }

    fn condition(&mut self, condition: &Condition, around: &str) {
        match condition {
            Condition::True => self.see("true"),
            Condition::Not(c) => {
                self.see("not");
                self.condition(c, around);
            }
            Condition::And(c, d) => self.two(AND, c, d, !c.holds(self.lent), around),
            Condition::Or(c, d) => self.two(OR, c, d, c.holds(self.lent), around),
            Condition::Less(a, b) => self.values("less", &[a, b], around),
            Condition::Equal(a, b) => self.values("equal", &[a, b], around),
            Condition::Within(a, b, k) => self.values("within", &[a, b, k], around),
        }
    }

    /// The right side is reached unless the left one ends it.
    fn two(
        &mut self,
        branches: [&'static str; 2],
        left: &Condition,
        right: &Condition,
        ends: bool,
        around: &str,
    ) {
        let own = self.branch(branches, ends, around);
        self.condition(left, own);
        if !ends {
            self.condition(right, own);
        }
    }

    fn values(&mut self, label: &str, values: &[&Value], around: &str) {
        self.see(label);
        values.iter().for_each(|value| self.value(value, around));
    }

    fn value(&mut self, value: &Value, around: &str) {
        match value {
            Value::Constant(_) => self.see("constant"),
            Value::Program(_) => self.see("program"),
            Value::Monitor(_) => self.see("monitor"),
            Value::AtEntry(_) => self.see("at entry"),
            Value::Plus(a, b) => self.values("plus", &[a, b], around),
            Value::Minus(a, b) => self.values("minus", &[a, b], around),
            Value::Choose(c, a, b) => {
                let first = c.holds(self.lent);
                let own = self.branch(CHOOSE, !first, around);
                self.condition(c, own);
                self.value(if first { a } else { b }, own);
            }
        }
    }
}

fn reached(lent: &Lent, see: impl FnOnce(&mut Reached)) -> Vec<String> {
    let mut reached = Reached {
        lent,
        labels: Vec::new(),
    };
    see(&mut reached);
    reached.labels
}

fn reached_by_action(action: &Action, lent: &Lent) -> Vec<String> {
    let mut monitor = lent.monitor.to_vec();
    let mut labels = Vec::new();
    for assignment in &action.assignments {
        let seen = Lent {
            monitor: &monitor,
            ..*lent
        };
        labels.extend(reached(&seen, |reached| {
            reached.value(&assignment.value, "");
        }));
        let value = assignment.value.of(&seen);
        if let Some(place) = monitor.get_mut(usize::from(assignment.variable)) {
            *place = value;
        }
    }
    labels
}

// ---- condition_cases --------------------------------------------------------------------------

/// An evaluation that is not refused: what it reaches, and its count.
struct Evaluated {
    kind: condition_frames::Kind,
    labels: Vec<String>,
    count: u64,
    /// With the mistakes of which each shows.
    shows: Vec<Mistake>,
    length: usize,
}

/// The count by the second definition, rightly or with a mistake.
type Recount<'a> = &'a dyn Fn(Counting) -> u64;

/// Those whose count is another, of an expression that counts this.
fn showing(mistakes: &[Mistake], count: u64, recount: Recount) -> Vec<Mistake> {
    assert_eq!(recount(Counting::RIGHT), count);
    let mistakes = mistakes.iter().copied();
    let shows = mistakes.filter(|mistake| recount(Counting::with(*mistake)) != count);
    shows.collect()
}

/// What an expression reaches, and the mistakes that show where it counts this.
fn reaches(
    frame: &condition_frames::Frame,
    lent: &Lent,
    count: u64,
) -> Option<(Vec<String>, Vec<Mistake>)> {
    use condition_frames::Kind as Asked;
    let (bytes, counts) = (&frame.expression, lent.counts());
    let of_expressions = &Mistake::OF_EXPRESSIONS;
    Some(match frame.kind {
        Asked::Condition => {
            let condition = expr::read_condition(bytes, counts).ok()?;
            let labels = reached(lent, |reached| reached.condition(&condition, ""));
            let recount = |counting: Counting| counting.condition(&condition, lent);
            (labels, showing(of_expressions, count, &recount))
        }
        Asked::Value => {
            let value = expr::read_value(bytes, counts).ok()?;
            let labels = reached(lent, |reached| reached.value(&value, ""));
            let recount = |counting: Counting| counting.value(&value, lent);
            (labels, showing(of_expressions, count, &recount))
        }
        Asked::Action => {
            let action = expr::read_action(bytes, counts).ok()?;
            let mistakes = [&Mistake::OF_EXPRESSIONS[..], &Mistake::OF_ACTIONS].concat();
            let recount = |counting: Counting| counting.action(&action, lent);
            let shows = showing(&mistakes, count, &recount);
            (reached_by_action(&action, lent), shows)
        }
        Asked::JudgeCondition | Asked::JudgeAction => return None,
    })
}

fn evaluated(frame: &condition_frames::Frame, line: &str) -> Option<Evaluated> {
    let lent = Lent {
        program: &frame.program,
        monitor: &frame.monitor,
        kept: &frame.kept,
    };
    let count = split_count(line).1?;
    let (labels, shows) = reaches(frame, &lent, count)?;
    Some(Evaluated {
        kind: frame.kind,
        labels,
        count,
        shows,
        length: frame.expression.len(),
    })
}

/// All cases of `condition_cases`: the counts of those that are refused are 0.
fn evaluations() -> Vec<Evaluated> {
    let frames = read_frames(&committed("condition_cases", "stdin")).expect("frames");
    let lines = lines("condition_cases");
    assert_eq!(frames.len(), lines.len());
    let mut all = Vec::new();
    for (frame, line) in frames.iter().zip(&lines) {
        assert_eq!(*line, frame.answer());
        match evaluated(frame, line) {
            Some(evaluated) => all.push(evaluated),
            None => assert!(split_count(line).1.unwrap_or(0) == 0, "{line}"),
        }
    }
    all
}

/// What evaluations reach: each operator and operand, each branch both ways, each of these inside each, and how much.
#[test]
fn of_evaluations() {
    let mut counts = Counts::new();
    let mut greatest = [0; 3];
    for evaluation in evaluations() {
        let place = evaluation.kind as usize;
        greatest[place] = greatest[place].max(evaluation.count);
        // A condition, a value or an action of n bytes counts at most n.
        assert!(evaluation.count <= evaluation.length as u64);
        for label in evaluation.labels {
            add(&mut counts, format!("{:?}: {label}", evaluation.kind));
            add(&mut counts, label);
        }
    }
    assert_eq!(greatest, [1_024, 1_021, 60]);
    for label in OTHERS {
        assert_shown(&counts, &[(label, 300)]);
    }
    for branch in BRANCHES {
        assert_shown(&counts, &[(branch, 300)]);
        for kind in ["Condition", "Value", "Action"] {
            assert_shown(&counts, &[(&format!("{kind}: {branch}"), 5)]);
        }
        for around in BRANCHES {
            assert_shown(&counts, &[(&format!("{branch}, inside {around}"), 10)]);
        }
    }
}

#[test]
fn faults_in_evaluations_are_seen() {
    let mut counts = Counts::new();
    for evaluation in evaluations() {
        for mistake in evaluation.shows {
            add(&mut counts, format!("{:?}: {mistake:?}", evaluation.kind));
        }
    }
    for mistake in Mistake::OF_EXPRESSIONS {
        for (kind, least) in [("Condition", 80), ("Value", 25), ("Action", 4)] {
            assert_shown(&counts, &[(&format!("{kind}: {mistake:?}"), least)]);
        }
    }
    for mistake in Mistake::OF_ACTIONS {
        assert_shown(&counts, &[(&format!("Action: {mistake:?}"), 15)]);
    }
}

// ---- Events -----------------------------------------------------------------------------------

/// An event that is taken, on its rules and state.
struct Taken<'a, R: Judging> {
    rules: &'a R,
    state: &'a R::State,
    event: &'a Record,
}

impl<R: Judging> Taken<'_, R> {
    fn lent(&self) -> Lent<'_> {
        Lent {
            program: &self.event.values,
            monitor: &R::common(self.state).variables,
            kept: &[],
        }
    }

    fn condition(&self, number: u8) -> &Condition {
        &self.rules.machine().conditions[usize::from(number)]
    }

    /// The transitions that are tried, and whether the last of them is taken.
    fn tried(&self) -> (Vec<&Transition>, bool) {
        let main = R::common(self.state).main;
        let all = self.rules.transitions().into_iter();
        let own = all.filter(|t| {
            (t.from, t.kind.byte(), t.unit) == (main, self.event.kind, self.event.unit)
        });
        let mut tried = Vec::new();
        for t in own {
            tried.push(t);
            if self.condition(t.condition).holds(&self.lent()) {
                return (tried, true);
            }
        }
        (tried, false)
    }

    /// What the conditions tried and the action taken reach.
    fn reached(&self) -> Vec<String> {
        let (tried, is_taken) = self.tried();
        let mut labels = Vec::new();
        for t in &tried {
            let condition = self.condition(t.condition);
            let seen = reached(&self.lent(), |reached| reached.condition(condition, ""));
            labels.extend(seen.into_iter().map(|label| format!("tried: {label}")));
        }
        if let (Some(t), true) = (tried.last(), is_taken) {
            let action = &self.rules.machine().actions[usize::from(t.action)];
            let seen = reached_by_action(action, &self.lent()).into_iter();
            labels.extend(seen.map(|label| format!("assigned: {label}")));
        }
        labels
    }

    /// The postconditions of what is armed for the call that is left, and whether each holds.
    fn judged(&self) -> Vec<(u8, bool)> {
        let common = R::common(self.state);
        let Some(place) = common.place_of(self.event.call) else {
            return Vec::new();
        };
        let lent = Lent {
            program: &self.event.values,
            monitor: &[],
            kept: &common.calls[place].kept,
        };
        let armed = R::armed_for(self.state, place).into_iter();
        let conditions = armed.filter_map(|number| self.rules.postcondition(number));
        conditions
            .map(|number| (number, self.condition(number).holds(&lent)))
            .collect()
    }

    fn labels(&self) -> Vec<String> {
        let (tried, is_taken) = self.tried();
        let mut labels = vec![format!("{} tried", tried.len())];
        let mut see = |is: bool, label: String| labels.extend(is.then_some(label));
        see(!is_taken && !tried.is_empty(), "none is taken".into());
        see(is_taken && tried.len() > 1, "a later one is taken".into());
        if let (Some(t), true) = (tried.last(), is_taken) {
            let action = &self.rules.machine().actions[usize::from(t.action)];
            see(true, format!("{} assigned", action.assignments.len()));
        }
        if self.event.kind == Kind::Entry.byte() {
            let common = R::common(self.state);
            let asked = self.rules.asked(common, &self.event.event());
            let holds = |number: u8| self.condition(number).holds(&self.lent());
            let armed = asked.iter().filter(|(number, _)| holds(*number)).count();
            see(true, format!("{} candidates", asked.len()));
            see(true, format!("{armed} of {} candidates hold", asked.len()));
        } else {
            let judged = self.judged();
            let first = judged.iter().position(|(_, holds)| !holds);
            see(true, format!("{} judged", judged.len()));
            let is_early = first.is_some_and(|first| first + 1 < judged.len());
            see(is_early, "one fails before the last that is judged".into());
        }
        labels
    }
}

/// What an event shows: the refusal, or what is tried, assigned and judged, and how much it counts.
fn of_offer<R: Judging>(rules: &R, state: &R::State, event: &Record) -> (Vec<String>, u64) {
    let counted = match rules.counted_event(state, &event.event()) {
        Ok(counted) => counted,
        Err(refusal) => return (vec![refusal.to_string()], 0),
    };
    let taken = Taken {
        rules,
        state,
        event,
    };
    let mut labels = taken.labels();
    labels.extend(taken.reached());
    for over in [255, 1_000, 4_000, 6_000, 65_535] {
        labels.extend((counted.count > over).then(|| format!("a count over {over}")));
    }
    (labels, counted.count)
}

// ---- Runs -------------------------------------------------------------------------------------

/// What a run shows.
fn of_run<R: Judging>(rules: &R, log: &[u8], line: &str) -> Vec<String> {
    let (answer, count) = split_count(line);
    let count = count.expect("a run has a count");
    let Ok(records) = read_log(log, rules.machine().header.program) else {
        assert_eq!(count, 0);
        return vec![answer];
    };
    let words: Vec<&str> = answer.split(' ').collect();
    let number = |word: &str| word.parse::<usize>().expect("a number");
    let mut labels = vec![words[0].to_string()];
    let mut see = |is: bool, label: &str| labels.extend(is.then(|| label.to_string()));
    match words[..] {
        ["violated", position, _, state, _, triple, ..] => {
            let behind = records.len() > number(position);
            see(triple == "-", "violated by a state");
            see(state == "-", "violated by a triple");
            see(state != "-" && triple != "-", "violated by both");
            see(behind, "records behind the verdict");
        }
        ["refused", _, "at", record] => {
            let (record, all) = (number(record), records.len());
            see(record == 1, "refused at the first record");
            see(record > 1 && count > 0, "refused behind some that count");
            let middle = record > 1 && record < all && count > 0;
            see(middle, "refused in the middle");
        }
        _ => see(records.is_empty(), "no records"),
    }
    see(count > 255, "a total over 255");
    see(count > 65_535, "a total over 65535");
    labels
}

// ---- The committed scripts --------------------------------------------------------------------

/// What the pages of a program show, by engine, of events and of runs, and the greatest count of an event by engine.
fn shown<R, O>(program: &str) -> (Counts, Vec<(String, u64)>)
where
    R: Judging<Own = O, State = O::State>,
    O: Own,
{
    let (mut counts, mut greatest) = (Counts::new(), std::collections::BTreeMap::new());
    visit::<R, O>(program, |rules, bench, frame, line| {
        let Some(rules) = rules else {
            if matches!(frame, Frame::Offer { .. } | Frame::Run(_)) {
                let (answer, count) = split_count(line);
                assert_eq!(count, Some(0));
                let refused: Vec<&str> = answer.split(' ').take(2).collect();
                add(&mut counts, format!("rules {}", refused.join(" ")));
            }
            return;
        };
        let (of, labels) = match frame {
            Frame::Offer { event, .. } => {
                let (labels, count) = of_offer(rules, &bench.state, event);
                assert_eq!(split_count(line).1, Some(count));
                let most = greatest.entry(rules.name().to_string()).or_insert(0);
                *most = count.max(*most);
                ("event", labels)
            }
            Frame::Run(log) => ("run", of_run(rules, log, line)),
            _ => return,
        };
        for label in labels {
            add(&mut counts, format!("{} {of}: {label}", rules.name()));
        }
    });
    (counts, greatest.into_iter().collect())
}

/// What events must show of each engine, and how often at least.
const OF_EVENTS: [(&str, usize); 40] = [
    ("0 tried", 500),
    ("1 tried", 500),
    ("2 tried", 200),
    ("3 tried", 15),
    ("8 tried", 10),
    ("63 tried", 2),
    ("64 tried", 8),
    ("none is taken", 200),
    ("a later one is taken", 200),
    ("0 assigned", 200),
    ("1 assigned", 100),
    ("2 assigned", 60),
    ("4 assigned", 4),
    ("0 candidates", 300),
    ("1 candidates", 300),
    ("2 candidates", 60),
    ("3 candidates", 60),
    ("4 candidates", 150),
    ("0 of 4 candidates hold", 3),
    ("1 of 4 candidates hold", 10),
    ("2 of 4 candidates hold", 20),
    ("3 of 4 candidates hold", 20),
    ("4 of 4 candidates hold", 20),
    ("0 judged", 300),
    ("1 judged", 300),
    ("2 judged", 200),
    ("3 judged", 100),
    ("4 judged", 80),
    ("one fails before the last that is judged", 100),
    ("refused 9", 100),
    ("refused 10", 60),
    ("refused 11", 60),
    ("refused 12", 20),
    ("refused 13", 30),
    ("refused 14", 20),
    ("refused 15", 60),
    ("a count over 255", 20),
    ("a count over 1000", 6),
    ("a count over 4000", 6),
    ("assigned: choose of the second", 10),
];

const OF_RUNS: [(&str, usize); 16] = [
    ("clean", 100),
    ("no records", 3),
    ("violated by a state", 20),
    ("violated by a triple", 100),
    ("violated by both", 20),
    ("records behind the verdict", 30),
    ("refused at the first record", 4),
    ("refused behind some that count", 50),
    ("refused in the middle", 50),
    ("refused 16", 4),
    ("refused 17", 2),
    ("refused 18", 2),
    ("refused", 60),
    ("violated", 200),
    ("a total over 255", 10),
    ("a total over 65535", 3),
];

fn assert_engine_shown(counts: &Counts, engine: &str) {
    for (label, least) in OF_EVENTS {
        assert_shown(counts, &[(&format!("{engine} event: {label}"), least)]);
    }
    for (label, least) in OF_RUNS {
        assert_shown(counts, &[(&format!("{engine} run: {label}"), least)]);
    }
    for branch in BRANCHES {
        assert_shown(counts, &[(&format!("{engine} event: tried: {branch}"), 10)]);
    }
}

/// The greatest counts of values and of actions of 0 to 64 bytes; none where there is none of that length. A condition of n
/// bytes may count n: `not` again and again, then `true`.
fn greatest_counts() -> [Vec<Option<u64>>; 2] {
    let (mut values, mut actions) = (vec![None; 65], vec![None; 65]);
    actions[0] = Some(0);
    for n in 1..=64 {
        let leaf = [2, 5].contains(&n).then_some(1);
        let sums = (1..n).filter_map(|a| Some(1 + values[a]? + values[n - 1 - a]?));
        // The other branch takes two bytes at least, and the chosen value what the condition leaves.
        let chosen = (1..n.saturating_sub(3)).filter_map(|a| {
            let condition = (n - 3).checked_sub(a).filter(|length| *length > 0)?;
            Some(1 + condition as u64 + values[a]?)
        });
        values[n] = sums.chain(chosen).chain(leaf).max();
        let assigned = (1..n).filter_map(|a| Some(values[a]? + actions[n - 1 - a]?));
        actions[n] = assigned.max();
    }
    [values, actions]
}

#[test]
fn the_most_that_values_and_actions_count() {
    let [values, actions] = greatest_counts();
    assert_eq!(
        values[..7],
        [None, None, Some(1), None, None, Some(3), Some(3)]
    );
    assert_eq!(actions[..5], [Some(0), None, None, Some(1), None]);
    assert_eq!((values[64], actions[64]), (Some(61), Some(60)));
}

/// "never above 4,416": 64 conditions of 64 bytes, an action of 64 and four conditions of 64. Of an action's 64 bytes
/// at most 60 can be reached.
#[test]
fn of_sheets() {
    let (counts, greatest) = shown::<Sheet, Arms>("monitor_cases");
    assert_engine_shown(&counts, "sheet");
    for number in 1..=8 {
        assert_shown(&counts, &[(&format!("rules refused {number}"), 10)]);
    }
    assert_eq!(greatest, [("sheet".to_string(), 4_416 - 4)]);
}

/// The same with 96 transitions, and in version 3 with conditions of 1,024 bytes.
#[test]
fn of_networks() {
    let (counts, greatest) = shown::<Network, Checkers>("network_cases");
    for engine in ["version 2", "version 3"] {
        assert_engine_shown(&counts, engine);
        for label in ["96 tried", "a count over 6000"] {
            assert_shown(&counts, &[(&format!("{engine} event: {label}"), 2)]);
        }
    }
    assert_shown(&counts, &[("version 3 event: a count over 65535", 2)]);
    for number in 1..=7 {
        assert_shown(&counts, &[(&format!("rules refused {number}"), 10)]);
    }
    let most = [
        ("version 2".to_string(), 96 * 64 + 64 + 4 * 64 - 4),
        ("version 3".to_string(), 96 * 1_024 + 64 + 4 * 1_024 - 4),
    ];
    assert_eq!(greatest, most);
}

// ---- Faults that the committed cases would see ------------------------------------------------

/// How many counts would be others with each of the mistakes, by engine, of events and of runs.
fn seen<R, O>(program: &str, events: &[Mistake], runs: &[Mistake]) -> Counts
where
    R: Judging<Own = O, State = O::State>,
    O: Own,
{
    let mut counts = Counts::new();
    visit::<R, O>(program, |rules, bench, frame, line| {
        let (Some(rules), Some(count)) = (rules, split_count(line).1) else {
            return;
        };
        let (of, shows) = match frame {
            Frame::Offer { event, .. } => {
                let answer = rules.event(&bench.state, &event.event());
                let recount =
                    |counting: Counting| counting.event(rules, &bench.state, event, &answer);
                ("event", showing(events, count, &recount))
            }
            Frame::Run(log) => {
                let records = read_log(log, rules.machine().header.program);
                let records = records.unwrap_or_default();
                let recount = |counting: Counting| counting.run(rules, &records);
                ("run", showing(runs, count, &recount))
            }
            _ => return,
        };
        for mistake in shows {
            add(&mut counts, label(rules.name(), of, mistake));
        }
    });
    counts
}

/// How often at least.
fn least(mistake: Mistake) -> usize {
    match mistake {
        Mistake::SixteenBits => 3,
        Mistake::FirstValueAlone | Mistake::ValuesBefore => 5,
        Mistake::TemplatesOnce | Mistake::PairsOfTried => 5,
        Mistake::PreconditionsAfter | Mistake::BothBranches => 8,
        _ => 20,
    }
}

fn assert_faults_seen(counts: &Counts, engine: &str, events: &[Mistake], runs: &[Mistake]) {
    for (of, mistakes) in [("event", events), ("run", runs)] {
        for mistake in mistakes {
            let label = label(engine, of, *mistake);
            assert_shown(counts, &[(&label, least(*mistake))]);
        }
    }
}

#[test]
fn faults_on_sheets_are_seen() {
    let (events, runs) = (Mistake::of_events(), Mistake::of_runs());
    let counts = seen::<Sheet, Arms>("monitor_cases", &events, &runs);
    assert_faults_seen(&counts, "sheet", &events, &runs);
}

#[test]
fn faults_on_networks_are_seen() {
    let events = [Mistake::of_events(), Mistake::OF_NETWORKS.to_vec()].concat();
    let runs = [Mistake::of_runs(), Mistake::OF_NETWORKS.to_vec()].concat();
    let counts = seen::<Network, Checkers>("network_cases", &events, &runs);
    for engine in ["version 2", "version 3"] {
        assert_faults_seen(&counts, engine, &events, &runs);
    }
}

// ---- What is wanted of the generator ----------------------------------------------------------

/// Each mistake but that of width, on each engine, in runs; and in events those that are not of runs alone.
#[test]
fn all_of_it_is_wanted() {
    let labels = wanted();
    let of_runs = Mistake::of_runs().len() - 1;
    let of_events = Mistake::of_events().len();
    assert_eq!((of_runs, of_events), (28, 24));
    assert_eq!(labels.len(), 3 * (of_runs + of_events));
    let tallied = tally::wanted();
    assert!(labels.iter().all(|label| tallied.contains(label)));
}

/// What makes no difference is not counted: sheet A has no `and`, no values and no rivals.
#[test]
fn sheet_a_shows_little() {
    let sheet = Sheet::read(&SHEET_A).expect("a sheet");
    let named = |of: &str, mistakes: &[Mistake]| -> Vec<String> {
        let mistakes = mistakes.iter();
        mistakes
            .map(|mistake| label("sheet", of, *mistake))
            .collect()
    };
    let entered = write_log(2, &[entry(0, 7, &[8, 0])]);
    let at_entry = [
        Mistake::NoOperands,
        Mistake::TakenLeftOut,
        Mistake::NoPreconditions,
    ];
    assert_eq!(of_steps(&sheet, &entered), named("event", &at_entry));
    assert_eq!(of_log(&sheet, &entered), named("run", &at_entry));
    let refused = write_log(2, &[exit(0, 7, &[8, 0])]);
    assert!(of_log(&sheet, &refused).is_empty());
}
