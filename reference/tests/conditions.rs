//! The evaluator on its own, through the cases of `condition_cases`.

use reference::framing::condition_frames::{read_frames, Kind};
use reference::framing::counted_lines::split_count;
use reference::framing::pages::PAGE;
use reference::implementation::expr::{self, Lent};
use reference::implementation::refusal::Refusal;
use reference::making::cases::condition_cases;
use reference::making::programs;

const NOTHING: Lent = Lent {
    program: &[],
    monitor: &[],
    kept: &[],
};

#[test]
fn chosen_cases_have_the_answers_written_beside_them() {
    for (number, row) in condition_cases::chosen().iter().enumerate() {
        let expected = row
            .expected
            .as_deref()
            .expect("a chosen case has an answer");
        let (answer, count) = split_count(&row.frame.answer());
        assert_eq!(answer, expected, "case {number}: {:?}", row.frame);
        let judges = matches!(row.frame.kind, Kind::JudgeCondition | Kind::JudgeAction);
        assert_eq!(count.is_none(), judges, "case {number}");
        if row.count.is_some() {
            assert_eq!(count, row.count, "case {number}: {:?}", row.frame);
        }
    }
}

#[test]
fn the_file_is_large_enough_and_small_enough() {
    let files = programs::files("condition_cases").expect("the program is in the table");
    let frames = read_frames(&files.stdin).expect("frames fill the file");
    assert!(frames.len() >= 600, "{} cases", frames.len());
    assert!(files.stdin.len() <= 7 * PAGE, "{}", files.stdin.len());
    let lines = files.stdout.split(|b| *b == b'\n').count() - 1;
    assert_eq!(frames.len(), lines);
    for frame in &frames {
        let acts = matches!(frame.kind, Kind::Action | Kind::JudgeAction);
        assert!(!acts || frame.monitor.len() <= 4);
    }
}

#[test]
fn every_answer_occurs_many_times() {
    let rows = condition_cases::all();
    let count = |kind: Kind, wanted: &dyn Fn(&str) -> bool| {
        let matching = |row: &&condition_cases::Row| {
            row.frame.kind == kind && wanted(&split_count(&row.frame.answer()).0)
        };
        rows.iter().filter(matching).count()
    };
    for kind in [Kind::Condition, Kind::Value, Kind::Action] {
        assert!(count(kind, &|a| a == "refused 4") >= 3, "{kind:?} 4");
        assert!(count(kind, &|a| a == "refused 5") >= 30, "{kind:?} 5");
    }
    for answer in ["true", "false"] {
        assert!(count(Kind::Condition, &|a| a == answer) >= 100, "{answer}");
    }
    for answer in ["000", "100", "110", "101", "111"] {
        assert!(
            count(Kind::JudgeCondition, &|a| a == answer) >= 5,
            "{answer}"
        );
    }
    for answer in ["00", "10", "11"] {
        assert!(count(Kind::JudgeAction, &|a| a == answer) >= 5, "{answer}");
    }
    assert!(count(Kind::Action, &|a| a.starts_with("done")) >= 40);
}

#[test]
fn reading_and_writing_give_the_same_bytes() {
    for row in condition_cases::all() {
        let frame = row.frame;
        let lent = Lent {
            program: &frame.program,
            monitor: &frame.monitor,
            kept: &frame.kept,
        };
        let bytes = &frame.expression;
        if let Ok(condition) = expr::read_condition(bytes, lent.counts()) {
            assert_eq!(&condition.bytes(), bytes);
        }
        if let Ok(value) = expr::read_value(bytes, lent.counts()) {
            assert_eq!(&value.bytes(), bytes);
        }
        if let Ok(action) = expr::read_action(bytes, lent.counts()) {
            assert_eq!(&action.bytes(), bytes);
        }
    }
}

#[test]
fn starred_rows_of_document_01() {
    let holds = |bytes: &[u8]| expr::evaluate_condition(bytes, &NOTHING).map(|c| c.result);
    let low_high = [
        6, 16, 0x80, 0, 0, 0, 16, 0x7F, 0xFF, 0xFF, 0xFF, 16, 0, 0, 0,
    ];
    assert_eq!(holds(&[&low_high[..], &[1]].concat()), Ok(true));
    assert_eq!(holds(&[&low_high[..], &[0]].concat()), Ok(false));
    let less = [4, 16, 0xFF, 0xFF, 0xFF, 0xFF, 16, 0, 0, 0, 0];
    assert_eq!(holds(&less), Ok(true));
    let plus = [20, 16, 0x7F, 0xFF, 0xFF, 0xFF, 16, 0, 0, 0, 1];
    // As document 02's slip 2 has it.
    let value = expr::evaluate_value(&plus, &NOTHING);
    assert_eq!(value.map(|v| v.result), Ok(2147483647));
}

#[test]
fn all_short_byte_strings_are_judged_without_a_panic() {
    let lent = Lent {
        program: &[1, 2],
        monitor: &[3],
        kept: &[4, 5],
    };
    let mut conditions = 0;
    for first in 0..=255u8 {
        for second in 0..=255u8 {
            for bytes in [&[first][..], &[first, second], &[first, second, 0]] {
                conditions += usize::from(expr::evaluate_condition(bytes, &lent).is_ok());
                let _ = expr::evaluate_value(bytes, &lent);
                let _ = expr::evaluate_action(bytes, &lent);
            }
        }
    }
    // `true` 65,536 / 256 times over, `not true`, and `not not true`, `and`, `or`.
    assert_eq!(conditions, 256 + 1 + 3);
    assert_eq!(expr::evaluate_condition(&[], &lent), Err(Refusal::Tables));
}
