//! Random sheets in which it counts when a variable is read (document 02, slip 3): a later value of an action, and a
//! precondition, reach one part or another by a variable that the action assigns.

use crate::implementation::expr::{Action, Assignment, Condition, Value};
use crate::making::draft::SheetDraft;
use crate::making::generate::{self, Size};
use crate::making::random::Random;

/// The most conditions of a sheet.
const MOST_CONDITIONS: usize = 64;

/// A random sheet whose actions first assign a variable and then choose by it, and whose preconditions ask about it.
pub fn sheet(random: &mut Random) -> SheetDraft {
    let mut draft = any_sheet(random);
    let variable = random.below(draft.front.monitor.into()) as u8;
    for action in &mut draft.front.actions {
        *action = assigning(random, variable, draft.front.program).bytes();
    }
    let precondition = draft.front.condition(&Condition::Or(
        Box::new(is_below(random, variable)),
        Box::new(Condition::Not(Box::new(Condition::True))),
    ));
    for triple in &mut draft.triples {
        triple[2] = precondition;
    }
    draft
}

/// With a variable, an action, and room for a condition.
fn any_sheet(random: &mut Random) -> SheetDraft {
    loop {
        let draft = generate::sheet(random, Size::Small);
        let acts = draft.front.monitor > 0 && !draft.front.actions.is_empty();
        if acts && draft.front.conditions.len() < MOST_CONDITIONS {
            return draft;
        }
    }
}

fn is_below(random: &mut Random, variable: u8) -> Condition {
    let limit = Value::Constant(random.word());
    Condition::Less(Box::new(Value::Monitor(variable)), Box::new(limit))
}

fn assigning(random: &mut Random, variable: u8, program: u8) -> Action {
    let value = match program {
        0 => Value::Constant(random.word()),
        _ => Value::Program(random.below(program.into()) as u8),
    };
    let read = || Box::new(Value::Monitor(variable));
    let sum = Value::Plus(read(), Box::new(Value::Constant(1)));
    let chosen = Value::Choose(Box::new(is_below(random, variable)), read(), Box::new(sum));
    let assigns = |value: Value| Assignment { variable, value };
    Action {
        assignments: vec![assigns(value), assigns(chosen)],
    }
}
