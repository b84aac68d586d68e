//! Single events and whole logs on a sheet, through the cases of `monitor_cases`.

mod scripts;

use reference::framing::monitor_frames::Arms;
use reference::framing::script_frames::{read_frames, Field, Frame};
use reference::implementation::run::Record;
use reference::implementation::sheet::{Sheet, LONGEST_SHEET};
use reference::making::scripts::monitor_cases::{self, Page};
use reference::making::scripts::script::{Row, Sort};
use scripts::{count, is_offer, is_run};
use std::sync::OnceLock;

/// Made once for all tests.
fn pages() -> &'static [Page] {
    static PAGES: OnceLock<Vec<Page>> = OnceLock::new();
    PAGES.get_or_init(monitor_cases::all)
}

#[test]
fn cases_have_the_answers_written_beside_them() {
    scripts::assert_written_answers(pages());
}

#[test]
fn the_file_is_large_enough_and_small_enough() {
    scripts::assert_files_hold::<Sheet>("monitor_cases", pages());
}

#[test]
fn every_sort_of_case_occurs_often() {
    let pages = pages();
    let offers = count(pages, |row, _| is_offer(row));
    assert!(offers >= 1_500, "{offers} events");
    scripts::assert_offers_of_sorts(
        pages,
        &[
            (Sort::Reached, 500),
            (Sort::Broken, 500),
            (Sort::Neighbour, 150),
            (Sort::Position, 20),
            (Sort::Filling, 50),
            (Sort::Together, 450),
            (Sort::Reading, 100),
            (Sort::Foreign, 90),
            (Sort::Shaken, 200),
            (Sort::Wide, 1_000),
            (Sort::Ends, 500),
            (Sort::Preconditions, 500),
            (Sort::Entries, 500),
            (Sort::Counts, 1_200),
        ],
    );
    let logs = count(pages, |row, _| is_run(row));
    println!("events {offers}, logs {logs}");
    assert!(logs >= 100, "{logs} logs");
    let fresh = count(pages, |row, _| row.frame == Frame::Fresh);
    println!("fresh states {fresh}");
    assert!(fresh >= 80, "{fresh} fresh states");
}

#[test]
fn every_answer_to_an_event_occurs_often() {
    let refusals: Vec<u8> = (1..=15).collect();
    scripts::assert_answers_to_events(pages(), &refusals, 500);
}

#[test]
fn every_answer_to_a_log_occurs() {
    scripts::assert_answers_to_logs(pages(), 8);
}

#[test]
fn every_two_refusals_meet_and_the_lowest_answers() {
    scripts::assert_lowest_refusal_answers::<Sheet>(pages());
}

#[test]
fn refused_events_change_nothing() {
    scripts::assert_refused_events_change_nothing::<Sheet>(pages());
}

#[test]
fn every_field_shows_in_the_line() {
    let mut own = Vec::new();
    for i in 0..16 {
        own.push(Arms::Count(i));
        own.extend((0..4).map(|j| Arms::Triple(i, j)));
    }
    scripts::assert_fields_show::<Sheet>(&own);
}

#[test]
fn frames_that_are_cut_are_no_frames() {
    let frames = [
        Frame::<Arms>::Rules(vec![1, 2]),
        Frame::Set(Field::Kept(3, 4), 0x0506_0708),
        Frame::Set(Field::Own(Arms::Triple(3, 2)), 9),
        Frame::Set(Field::Both(1, 2), 3),
        Frame::Set(Field::Entry(15), 0x0102_0304),
        Frame::Set(Field::Carried, u32::MAX),
        Frame::Offer {
            event: Record {
                kind: 1,
                unit: 2,
                call: 0x0304,
                values: vec![-1],
            },
            keep: true,
        },
    ];
    let expected = [
        [0, 0, 2, 1, 2].as_slice(),
        &[2, 5, 3, 4, 5, 6, 7, 8],
        &[2, 7, 3, 2, 0, 0, 0, 9],
        &[2, 12, 1, 2, 0, 0, 0, 3],
        &[2, 13, 15, 0, 1, 2, 3, 4],
        &[2, 14, 0, 0, 255, 255, 255, 255],
        &[6, 1, 2, 3, 4, 1, 255, 255, 255, 255],
    ];
    scripts::assert_frames_are(&frames, &expected);
    assert_eq!(read_frames::<Arms>(&[8, 0]), None);
    assert_eq!(read_frames::<Arms>(&[2, 15, 0, 0, 0, 0, 0, 0]), None);
}

#[test]
fn the_greatest_sheet_occurs_once() {
    let pages = pages();
    let longest =
        |row: &&Row<Arms>| matches!(&row.frame, Frame::Rules(s) if s.len() == LONGEST_SHEET);
    assert_eq!(pages.iter().flatten().filter(longest).count(), 1);
}
