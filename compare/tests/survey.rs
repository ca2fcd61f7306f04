//! Worked surveys, request 2026-12, tried on the model, on the plain code and on the proved library;
//! what the command survey prints and tells, on its model; then the model of surveys against the plain
//! code on random ones.

use compare::rng::Rng;
use compare::surveys;
use compare::types::{Opening, Report, Search, Surveyed, MOST_PAIRS, MOST_SURVEYED};
use compare::{ffi, model, plain, survey_command, survey_model};
use std::fs;

type Survey = fn(i32, i32, &[i32], &mut [u32]) -> Surveyed;

const SURVEYS: [Survey; 3] = [survey_model::survey, plain::survey, ffi::survey];

/// What a place of the list holds before.
const MARK: u32 = 7_777_777;

/// Tries a survey on all three, with a list just long enough and with longer ones: these are the lower
/// points of its pairs, and the rest of the list keeps its marks.
fn found(lowest: i32, pitch: i32, values: &[i32], points: &[u32]) {
    for survey in SURVEYS {
        for rest in [0, 1, 5, 600] {
            let mut list = vec![MARK; points.len() + rest];
            let told = survey(lowest, pitch, values, &mut list);
            let Surveyed {
                kind,
                pairs,
                number,
                place,
            } = told;
            let input = format!("{values:?} from {lowest} by {pitch}");
            let all = points.len() as u32;
            assert_eq!([kind, pairs, number, place], [7, all, 0, 0], "{input}");
            assert_eq!(&list[..points.len()], points, "{input}");
            assert_eq!(list[points.len()..], vec![MARK; rest], "{input}");
        }
    }
}

/// Tries a survey that is refused, with a list of so many places, all of which keep their marks.
fn refused_with(size: usize, survey: (i32, i32, &[i32]), number: u32, place: u32) {
    let (lowest, pitch, values) = survey;
    for survey in SURVEYS {
        let mut list = vec![MARK; size];
        let told = survey(lowest, pitch, values, &mut list);
        let told = [told.kind, told.pairs, told.number, told.place];
        assert_eq!(
            told,
            [3, 0, number, place],
            "{values:?} from {lowest} by {pitch}"
        );
        assert_eq!(list, vec![MARK; size]);
    }
}

/// The same with a list that is always long enough, and with one that has no place.
fn refused(lowest: i32, pitch: i32, values: &[i32], number: u32, place: u32) {
    for size in [MOST_PAIRS, 0] {
        refused_with(size, (lowest, pitch, values), number, place);
    }
}

/// Falls through 0 from 100 to 150, is on target at 200 on the way up, and falls through it again from
/// 300 to 350. From 250 to 300 both values are above.
#[test]
fn the_worked_survey() {
    let values = [5, -3, 0, 4, 4, -1];
    found(100, 50, &values, &[100, 150, 200, 300]);
    found(0, 1, &values, &[0, 1, 2, 4]);
    found(0, 12_000, &values, &[0, 12_000, 24_000, 48_000]);
    found(59_995, 1, &values, &[59_995, 59_996, 59_997, 59_999]);
    found(10_000, 10_000, &values, &[10_000, 20_000, 30_000, 50_000]);
}

/// Every beginning of it with 2 values or more, and every end.
#[test]
fn parts_of_the_worked_survey() {
    let values = [5, -3, 0, 4, 4, -1];
    found(100, 50, &values[..2], &[100]);
    found(100, 50, &values[..3], &[100, 150]);
    found(100, 50, &values[..4], &[100, 150, 200]);
    found(100, 50, &values[..5], &[100, 150, 200]);
    found(150, 50, &values[1..], &[150, 200, 300]);
    found(200, 50, &values[2..], &[200, 300]);
    found(250, 50, &values[3..], &[300]);
    found(300, 50, &values[4..], &[300]);
    refused(100, 50, &values[..1], 21, 0);
    refused(350, 50, &values[5..], 21, 0);
}

/// Two values of every sign: only two above, or two below, are no pair.
#[test]
fn every_two_signs() {
    for (one, other) in [(4, 3), (3, 4), (-4, -3), (-3, -4), (1, 1), (-1, -1)] {
        found(10, 20, &[one, other], &[]);
    }
    for (one, other) in [(4, -3), (-4, 3), (1, -1), (-1, 1), (10_000, -10_000)] {
        found(10, 20, &[one, other], &[10]);
    }
    for (one, other) in [(0, 3), (3, 0), (0, -3), (-3, 0), (0, 0), (0, 10_000)] {
        found(10, 20, &[one, other], &[10]);
    }
}

/// A zero between two neighbours gives two pairs, whatever these are, and one at an end gives one.
#[test]
fn zeros() {
    for (one, other) in [(5, 7), (-5, -7), (-5, 7), (5, -7)] {
        found(30, 10, &[one, 0, other], &[30, 40]);
        found(30, 10, &[one, 0, 0, other], &[30, 40, 50]);
        found(30, 10, &[0, one, one, 0, other], &[30, 50, 60]);
        found(30, 10, &[other, other, 0], &[40]);
    }
    found(30, 10, &[0, 0, 0], &[30, 40]);
}

/// Values of one side have no pair; by turns above and below every two are one.
#[test]
fn no_pair_and_every_pair() {
    found(0, 1_000, &[1; 61], &[]);
    found(0, 1_000, &[-10_000; 61], &[]);
    let every: Vec<u32> = (0..60).map(|k| 1_000 * k).collect();
    let turns: Vec<i32> = (0..61).map(|k| [1, -1][k % 2]).collect();
    found(0, 1_000, &turns, &every);
    found(0, 1_000, &[0; 61], &every);
}

/// 2 to 600 values are taken, and no others.
#[test]
fn lengths() {
    refused(0, 1, &[], 21, 0);
    refused(0, 1, &[0], 21, 0);
    found(0, 1, &[0; 2], &[0]);
    let lower = |pairs: u32| (0..pairs).map(|k| 100 + 100 * k).collect::<Vec<u32>>();
    found(100, 100, &[0; 599], &lower(598));
    found(100, 100, &[0; 600], &lower(599));
    refused(0, 1, &[0; 601], 21, 0);
    refused(0, 1, &[0; 602], 21, 0);
    for length in [1_000, 60_001, 65_536, 65_538, 66_136, 131_074] {
        refused(0, 1, &vec![0; length], 21, 0);
    }
}

/// The pitch is 1 or more, also where every point would be in range.
#[test]
fn pitches() {
    let values = [-1, 1, 1];
    found(200, 1, &values, &[200]);
    for pitch in [0, -1, -100, -65_536, i32::MIN + 1, i32::MIN] {
        refused(200, pitch, &values, 21, 0);
    }
}

/// Points are 0 to 60,000.
#[test]
fn points() {
    let values = [-1, 1, 1];
    found(0, 30_000, &values, &[0]);
    found(59_998, 1, &values, &[59_998]);
    found(2, 29_999, &values, &[2]);
    refused(-1, 30_000, &values, 21, 0);
    refused(1, 30_000, &values, 21, 0);
    refused(0, 30_001, &values, 21, 0);
    refused(59_999, 1, &values, 21, 0);
    refused(3, 29_999, &values, 21, 0);
    found(0, 60_000, &[1, 0], &[0]);
    refused(0, 60_001, &[1, 0], 21, 0);
    refused(60_000, 1, &[1, 0], 21, 0);
    for lowest in [i32::MIN, -60_000, -1, 60_001, i32::MAX] {
        refused(lowest, 60_000, &[1, 0], 21, 0);
        refused(lowest, 1, &[1, 0], 21, 0);
    }
}

/// Last points that 32 bits would have in range: 4 times 2^30 is 2^32, and so is 256 times 2^24; 2 times
/// 2^31 − 1 is 2 less, and 599 times 7,170,230 is 474 more.
#[test]
fn points_beyond_32_bits() {
    refused(0, 1 << 30, &[1, -1, 1, -1, 1], 21, 0);
    refused(2, i32::MAX, &[1, -1, 1], 21, 0);
    refused(0, 1 << 24, &[0; 257], 21, 0);
    refused(0, 7_170_230, &[0; 600], 21, 0);
    refused(0, i32::MAX, &[0; 600], 21, 0);
    refused(i32::MAX, i32::MAX, &[0; 600], 21, 0);
}

/// Values are −10,000 to 10,000. The place is that of the first out of range, counted from 0, and the
/// list stays as it is, though there are pairs before it.
#[test]
fn values() {
    found(0, 1, &[-10_000, 10_000, -10_000], &[0, 1]);
    found(0, 1, &[10_000, 10_000], &[]);
    found(0, 1, &[-10_000, -10_000], &[]);
    for value in [10_001, -10_001, 65_536, i32::MAX, i32::MIN] {
        refused(0, 1, &[value, 0], 7, 0);
        refused(0, 1, &[1, value], 7, 1);
        refused(0, 1, &[1, -1, value, 1], 7, 2);
        refused(0, 1, &[1, -1, value, -value.max(-i32::MAX), value], 7, 2);
    }
    let mut values = [0; MOST_SURVEYED];
    values[599] = 10_001;
    refused(0, 1, &values, 7, 599);
    values[0] = -10_001;
    refused(0, 1, &values, 7, 0);
}

/// A list with fewer places than there are pairs is refused and stays as it is.
#[test]
fn lists_too_short() {
    let values = [5, -3, 0, 4, 4, -1];
    for size in 0..4 {
        refused_with(size, (100, 50, &values), 22, 0);
    }
    refused_with(0, (10, 20, &[1, -1]), 22, 0);
    for size in [0, 1, 300, 598] {
        refused_with(size, (0, 100, &[0; 600]), 22, 0);
    }
}

/// 21 is told before 7, and 7 before 22.
#[test]
fn the_order_of_refusals() {
    let list = |size, survey, number, place| refused_with(size, survey, number, place);
    let wrong = &[0, 0, 10_001][..];
    list(0, (0, 1, wrong), 7, 2);
    list(1, (0, 1, wrong), 7, 2);
    list(0, (0, 0, wrong), 21, 0);
    list(0, (-1, 1, wrong), 21, 0);
    list(0, (59_999, 1, wrong), 21, 0);
    list(2, (59_999, 1, wrong), 21, 0);
    list(0, (59_999, 1, &[0; 3]), 21, 0);
    list(0, (0, 1, &[10_001]), 21, 0);
    list(0, (0, 1, &[10_001; 601]), 21, 0);
    list(0, (0, 1, &[0; 601]), 21, 0);
}

/// Document 01's trial M 0, 100; −50, 100 calls for 33: as the pair of a survey it is opened from 0 to
/// 100, and goes on so.
#[test]
fn a_pair_of_document_01() {
    found(0, 100, &[-50, 100, 70], &[0]);
    let mut search = Search::BLANK;
    let opening = Opening::new(1, 0, 100, 1);
    assert_eq!(ffi::open(&mut search, &opening), Report::next(0, 0));
    assert_eq!(ffi::enter(&mut search, 0, -50), Report::next(100, 1));
    assert_eq!(ffi::enter(&mut search, 100, 100), Report::next(33, 2));
}

/// Every pair of the worked survey opens a search that accepts its two values, by every method and with
/// the least tolerance, the largest and some between. Its first value is at place (p − 100) / 50.
#[test]
fn pairs_open_searches() {
    let values = [5, -3, 0, 4, 4, -1];
    for point in [100, 150, 200, 300] {
        let place = (point as usize - 100) / 50;
        let two = &values[place..place + 2];
        for method in 0..=2 {
            for tolerance in [1, 2, 24, 25, 26, 5_000] {
                let opening = Opening::new(method, point, point + 50, tolerance);
                let report = ffi::values(&opening, two);
                let kind = if tolerance < 25 { 1 } else { 2 };
                assert_eq!((report.kind, report.taken), (kind, 2), "{opening:?}");
                assert_eq!(model::values(&opening, two), report, "{opening:?}");
            }
        }
    }
    let opening = Opening::new(0, 250, 300, 1);
    assert_eq!(ffi::values(&opening, &values[3..5]), Report::refuse(8, 1));
}

/// What the model of the command says to these arguments, with one blank between them, and this text.
fn commanded(arguments: &str, text: &str) -> Result<String, String> {
    let arguments = arguments.split(' ').filter(|argument| !argument.is_empty());
    let arguments: Vec<String> = arguments.map(String::from).collect();
    survey_command::survey(&arguments, text).map_err(|fault| fault.to_string())
}

/// The surveys in examples/surveys, each with what is printed for these arguments.
#[test]
fn examples() {
    let folder = concat!(env!("CARGO_MANIFEST_DIR"), "/../examples/surveys");
    for (name, arguments) in [
        ("damp", "6000 3000"),
        ("ends", "1000 250 5000"),
        ("finest", "59997 1 1 2"),
        ("leaf", "6000 1000"),
        ("on_target", "0 100 1 1"),
        ("roaster", "18000 2000 50 2"),
        ("whole_range", "0 60000 5000 1"),
    ] {
        let read = |kind| fs::read_to_string(format!("{folder}/{name}.{kind}"));
        let text = read("txt").expect("the example is there");
        let printed = read("expected").expect("what is printed stands beside it");
        assert_eq!(commanded(arguments, &text), Ok(printed), "{name}");
    }
}

/// Tries a fault of the command: the words after its name.
fn faulty(arguments: &str, text: &str, words: &str) {
    let words = format!("survey: {words}");
    assert_eq!(commanded(arguments, text), Err(words));
}

/// What the command tells of its arguments, before any value is read.
#[test]
fn wrong_arguments() {
    let usage = "usage: survey LOWEST PITCH [TOLERANCE [METHOD]] < VALUES".to_string();
    for arguments in ["", "1", "1 2 3 1 1", "--help", "1 --2", "1 2 3 --"] {
        assert_eq!(commanded(arguments, "x"), Err(usage.clone()), "{arguments}");
    }
    let no_number =
        "is no whole number: give it in digits alone, with no leading zero, as 6000 for 60.00 degrees";
    for (arguments, shown) in [("x1 1", "x1"), ("0 01", "01"), ("0 1 -0 3", "-0")] {
        faulty(arguments, "x", &format!("'{shown}' {no_number}"));
    }
    faulty("0 1 25 3", "x", "the method is not 0, 1 or 2");
    faulty("0 1 0 3", "x", "the method is not 0, 1 or 2");
    faulty("0 1 0", "x", "the tolerance is not from 1 to 5000");
    faulty("0 1 4294967297", "x", "the tolerance is not from 1 to 5000");
}

/// What it tells of its values, and of a survey that is refused.
#[test]
fn wrong_values() {
    let no_number =
        "is no whole number: give it in digits alone, with a minus where it is below 0, and \
                     no leading zero";
    faulty("0 1", "1 abc x", &format!("value 2, 'abc', {no_number}"));
    faulty("0 0", "+1", &format!("value 1, '+1', {no_number}"));
    faulty(
        "0 1",
        "5\t1\u{b}2\n",
        &format!("value 2, '1?2', {no_number}"),
    );
    let mut text = "0 ".repeat(600);
    assert!(commanded("0 1", &text).is_ok());
    text += "x ";
    faulty("0 1", &text, &format!("value 601, 'x', {no_number}"));
    let limits = "a survey has 2 to 600 values, a pitch of 1 or more and points from 0 to 60000";
    let refused = |arguments: &str, text: &str, counted: &str| {
        let words = format!("refused, 21: {limits}; this one has {counted}");
        faulty(arguments, text, &words);
    };
    refused("0 1", " \r\n", "0 values from '0' by '1'");
    refused("0 1", "10001", "1 value from '0' by '1'");
    refused("0 -5", "0 0", "2 values from '0' by '-5'");
    refused(
        "99999999999 1",
        "0 0 0",
        "3 values from '99999999999' by '1'",
    );
    let more = format!("{}x", "0\n".repeat(601));
    refused("0 1", &more, "more than 600 values from '0' by '1'");
    faulty(
        "0 1",
        "0 0 10001",
        "refused, 7: value 3 is not from -10000 to 10000",
    );
    faulty(
        "0 1",
        "-4294967296 0",
        "refused, 7: value 1 is not from -10000 to 10000",
    );
}

#[test]
fn model_and_plain_on_surveys() {
    let mut rng = Rng::new(15);
    for _ in 0..40_000 {
        let mut survey = surveys::some_survey(&mut rng);
        for _ in 0..rng.below(3) {
            surveys::spoil(&mut survey, &mut rng);
        }
        let (lowest, pitch, values) = (survey.lowest, survey.pitch, &survey.values);
        let size = survey.pairs() + 2 - rng.below(3).min(survey.pairs() + 2);
        let mut lists = [vec![MARK; size], vec![MARK; size]];
        let [model, plain] = &mut lists;
        let told = (
            survey_model::survey(lowest, pitch, values, model),
            plain::survey(lowest, pitch, values, plain),
        );
        assert_eq!(told.0, told.1, "{}", survey.show());
        assert_eq!(lists[0], lists[1], "{}", survey.show());
    }
}
