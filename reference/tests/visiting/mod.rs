//! The committed scripts of `monitor_cases` and `network_cases`, frame by frame.

use crate::committed::{committed, lines};
use reference::framing::pages::PAGE;
use reference::framing::script_frames::{read_page, Bench, Frame, Own, Rules};

/// Sees each frame of a program's pages that has a line, with the rules that are laid out, if they are accepted, and
/// what the frames before it have led to. The lines must be those of the reference.
pub fn visit<R, O>(program: &str, mut see: impl FnMut(Option<&R>, &Bench<R>, &Frame<O>, &str))
where
    R: Rules<Own = O, State = O::State>,
    O: Own,
{
    let mut lines = lines(program).into_iter();
    for page in committed(program, "stdin").chunks(PAGE) {
        let (mut bench, mut rules) = (Bench::<R>::default(), None);
        for frame in &read_page::<O>(page).0 {
            if let Frame::Rules(bytes) = frame {
                rules = R::read(bytes).ok();
            }
            let line = has_line(frame).then(|| lines.next().expect("a line"));
            if let Some(line) = &line {
                see(rules.as_ref(), &bench, frame, line);
            }
            assert_eq!(bench.carry_out(frame), line);
        }
    }
}

fn has_line<O>(frame: &Frame<O>) -> bool {
    matches!(
        frame,
        Frame::Fresh | Frame::Offer { .. } | Frame::Run(_) | Frame::EntryValues(_)
    )
}
