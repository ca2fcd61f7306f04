//! Worked seasons and outcomes of sheets, request 2026-10, tried on the model, on the plain code
//! and on the proved library; then the model against the plain code on random cases.

use compare::cases;
use compare::model::Book;
use compare::outcomes;
use compare::rng::Rng;
use compare::sheets;
use compare::types::{MethodTally, Opening, Outcome, SeasonReport, MOST_OUTCOMES, SLOTS, TALLIES};
use compare::{ffi, plain, season_model};

type Season = fn(&[u16]) -> SeasonReport;
type SheetOutcome = fn(&[u8]) -> Outcome;

const SEASONS: [Season; 3] = [season_model::season, plain::season, ffi::season];
const READERS: [SheetOutcome; 3] = [
    season_model::sheet_outcome,
    plain::sheet_outcome,
    ffi::sheet_outcome,
];

/// A tally: stopped, unfinished, refused, answers, quoted and largest.
type Numbers = [u32; 6];
const NONE: Numbers = [0; 6];

/// Tries a run on all three: the number of outcomes, and the tallies of 0, 1, 2 and the others.
fn told(numbers: &[u16], outcomes: u32, tallies: [Numbers; TALLIES]) {
    for season in SEASONS {
        let report = season(numbers);
        let head = [report.kind, report.outcomes, report.number, report.place];
        assert_eq!(head, [6, outcomes, 0, 0]);
        assert_eq!(report.tallies.map(MethodTally::numbers), tallies);
    }
}

/// Tries a run that is refused.
fn refused(numbers: &[u16]) {
    for season in SEASONS {
        let report = season(numbers);
        let head = [report.kind, report.outcomes, report.number, report.place];
        assert_eq!(head, [3, 0, 19, 0], "{} numbers", numbers.len());
        assert_eq!(report.tallies.map(MethodTally::numbers), [NONE; TALLIES]);
    }
}

/// The five outcomes of the worked season: two by M, and a refused one that carries more answers
/// than either of them; one with the house default; one with method 7.
const FIVE: [[u16; 4]; 5] = [
    [0, 1, 9, 58],
    [1, 1, 12, 30],
    [2, 1, 70, 72],
    [0, 0, 4, 6],
    [1, 7, 0, 2],
];

const TOLD_OF_FIVE: [Numbers; TALLIES] = [
    [1, 0, 0, 4, 6, 4],
    [1, 1, 1, 21, 88, 12],
    NONE,
    [0, 1, 0, 0, 2, 0],
];

/// Every order of some outcomes.
fn orders(outcomes: &[[u16; 4]]) -> Vec<Vec<[u16; 4]>> {
    if outcomes.is_empty() {
        return vec![vec![]];
    }
    let mut all = Vec::new();
    for (at, first) in outcomes.iter().enumerate() {
        let others = [&outcomes[..at], &outcomes[at + 1..]].concat();
        let after = orders(&others).into_iter();
        all.extend(after.map(|rest| [&[*first], &rest[..]].concat()));
    }
    all
}

/// In all 120 orders the worked season has the same report.
#[test]
fn the_worked_season() {
    let all = orders(&FIVE);
    assert_eq!(all.len(), 120);
    for order in all {
        told(&order.concat(), 5, TOLD_OF_FIVE);
    }
}

/// Twice over the counts and the totals are twice as high, and the largest is the same.
#[test]
fn the_worked_season_twice() {
    let twice = [FIVE, FIVE].concat().concat();
    let tallies = [
        [2, 0, 0, 8, 12, 4],
        [2, 2, 2, 42, 176, 12],
        NONE,
        [0, 2, 0, 0, 4, 0],
    ];
    told(&twice, 10, tallies);
}

/// Every beginning of the worked season in whole fours is a season, and no other.
#[test]
fn whole_fours() {
    let numbers = FIVE.concat();
    for length in 0..=numbers.len() {
        match length % 4 {
            0 => assert_eq!(ffi::season(&numbers[..length]).kind, SeasonReport::SEASON),
            _ => refused(&numbers[..length]),
        }
    }
    refused(&[0, 1, 9]);
}

/// No outcome at all is a season of 0.
#[test]
fn the_empty_run() {
    told(&[], 0, [NONE; TALLIES]);
}

/// 10,000 outcomes are taken. One number more is refused, and so is one outcome more.
#[test]
fn lengths_at_the_limit() {
    let run = |length| vec![0; length];
    told(
        &run(39_996),
        9_999,
        [[9_999, 0, 0, 0, 0, 0], NONE, NONE, NONE],
    );
    told(
        &run(40_000),
        10_000,
        [[10_000, 0, 0, 0, 0, 0], NONE, NONE, NONE],
    );
    for length in [39_997, 39_998, 39_999, 40_001, 40_002, 40_003, 40_004] {
        refused(&run(length));
    }
    for length in [40_008, 65_535, 65_536, 65_540, 80_000, 131_072, 1_000_000] {
        refused(&run(length));
    }
}

/// The totals of 10,000 outcomes with the highest numbers, under each method, and none of them
/// where the outcomes are refused.
#[test]
fn highest_numbers() {
    let run = |kind, method| [kind, method, u16::MAX, u16::MAX].repeat(MOST_OUTCOMES);
    for (method, place) in [(0, 0), (1, 1), (2, 2), (3, 3), (u16::MAX, 3)] {
        let only = |numbers| {
            let mut tallies = [NONE; TALLIES];
            tallies[place] = numbers;
            tallies
        };
        let (all, sum) = (10_000, 655_350_000);
        told(&run(0, method), all, only([all, 0, 0, sum, sum, 65_535]));
        told(&run(1, method), all, only([0, all, 0, sum, sum, 65_535]));
        told(&run(2, method), all, only([0, 0, all, 0, 0, 0]));
        told(&run(u16::MAX, method), all, only([0, 0, all, 0, 0, 0]));
    }
    let highest = [u16::MAX; 40_000];
    told(
        &highest,
        10_000,
        [NONE, NONE, NONE, [0, 0, 10_000, 0, 0, 0]],
    );
}

/// Every kind from 2 on is refused, and adds to that count only.
#[test]
fn kinds() {
    let of_kind = |kind, numbers| told(&[kind, 2, 60, 77], 1, [NONE, NONE, numbers, NONE]);
    of_kind(0, [1, 0, 0, 60, 77, 60]);
    of_kind(1, [0, 1, 0, 60, 77, 60]);
    for kind in 2..=u16::MAX {
        of_kind(kind, [0, 0, 1, 0, 0, 0]);
    }
}

/// Every method from 3 on is booked as other.
#[test]
fn methods() {
    let numbers = [1, 0, 0, 5, 26, 5];
    told(&[0, 0, 5, 26], 1, [numbers, NONE, NONE, NONE]);
    told(&[0, 1, 5, 26], 1, [NONE, numbers, NONE, NONE]);
    told(&[0, 2, 5, 26], 1, [NONE, NONE, numbers, NONE]);
    for method in 3..=u16::MAX {
        told(&[0, method, 5, 26], 1, [NONE, NONE, NONE, numbers]);
    }
}

/// The largest is that of one search, stopped or unfinished, wherever it stands.
#[test]
fn the_largest() {
    let by_r = |numbers| [NONE, NONE, numbers, NONE];
    told(
        &[0, 2, 7, 9, 1, 2, 8, 9, 0, 2, 6, 9],
        3,
        by_r([2, 1, 0, 21, 27, 8]),
    );
    told(&[0, 2, 0, 9, 3, 2, 8, 9], 2, by_r([1, 0, 1, 0, 9, 0]));
}

/// Tries a sheet on all three.
fn sheet(text: &[u8], numbers: [u16; 4]) {
    for reader in READERS {
        assert_eq!(reader(text).numbers(), numbers, "{}", sheets::show(text));
    }
}

/// The sheets in examples/. Their quotes are by hand: 25 · 2^8 is the first to reach 6,000, so t is
/// 7, and so on.
#[test]
fn examples() {
    sheet(include_bytes!("../../examples/dryer.csv"), [0, 1, 7, 30]);
    sheet(include_bytes!("../../examples/next.csv"), [1, 1, 3, 26]);
    sheet(include_bytes!("../../examples/stop.csv"), [0, 1, 5, 26]);
    sheet(include_bytes!("../../examples/roaster.csv"), [0, 2, 6, 37]);
    sheet(include_bytes!("../../examples/share.csv"), [0, 2, 6, 42]);
    sheet(include_bytes!("../../examples/old.csv"), [2, 0, 0, 0]);
    sheet(include_bytes!("../../examples/refused.csv"), [2, 1, 0, 0]);
    sheet(
        include_bytes!("../../examples/office/joined.csv"),
        [0, 1, 7, 30],
    );
    sheet(
        include_bytes!("../../examples/office/libreoffice.csv"),
        [2, 3, 0, 0],
    );
}

/// The season of these nine.
#[test]
fn the_season_of_the_examples() {
    let texts: [&[u8]; 9] = [
        include_bytes!("../../examples/dryer.csv"),
        include_bytes!("../../examples/next.csv"),
        include_bytes!("../../examples/stop.csv"),
        include_bytes!("../../examples/roaster.csv"),
        include_bytes!("../../examples/share.csv"),
        include_bytes!("../../examples/old.csv"),
        include_bytes!("../../examples/refused.csv"),
        include_bytes!("../../examples/office/joined.csv"),
        include_bytes!("../../examples/office/libreoffice.csv"),
    ];
    let tallies = [
        [0, 0, 1, 0, 0, 0],
        [3, 1, 1, 22, 112, 7],
        [2, 0, 0, 12, 79, 6],
        [0, 0, 1, 0, 0, 0],
    ];
    for reader in READERS {
        let numbers = texts.map(|text| reader(text).numbers()).concat();
        told(&numbers, 9, tallies);
    }
}

/// Document 01's first trial at every stage of its way.
#[test]
fn every_stage() {
    let opening = Opening::new(1, 0, 100, 1);
    let values = [-50, 100, -10, -2, 1];
    for n in 0..=values.len() {
        let book = Book::of(opening, &values[..n]);
        let kind = if n == 5 { 0 } else { 1 };
        let text = sheets::write(&opening, &book.pairs());
        sheet(&text, [kind, 1, n as u16, 26]);
    }
}

/// The house default is told as 0, though it is quoted by R.
#[test]
fn methods_of_accepted_sheets() {
    sheet(b"0,0,100,1", [1, 0, 0, 32]);
    sheet(b"1,0,100,1", [1, 1, 0, 26]);
    sheet(b"2,0,100,1", [1, 2, 0, 32]);
    sheet(b"0,0,60000,1", [1, 0, 0, 77]);
    sheet(b"1,60000,0,1,100", [1, 1, 0, 62]);
    sheet(b"2,0,60000,1", [1, 2, 0, 77]);
    sheet(b"-0,0,2,1\r\n", [1, 0, 0, 2]);
    sheet(b"\"00001\",0,\"2\",1\r\n0,-1\r\n2,1", [0, 1, 2, 2]);
    sheet(b"00002,0,2,1,0\r\n0,0\r\n2,0\r\n", [0, 2, 2, 2]);
}

/// A refused sheet keeps the method of its first record, whatever it is refused for.
#[test]
fn methods_of_refused_sheets() {
    sheet(b"2,7,7,1\r\n", [2, 2, 0, 0]);
    sheet(b"2,0,60001,1\r\n", [2, 2, 0, 0]);
    sheet(b"0,0,100,0\r\n", [2, 0, 0, 0]);
    sheet(b"1,0,100,1,101\r\n", [2, 1, 0, 0]);
    sheet(b"2,0,100,1\r\n0,-50\r\n100,-50\r\n", [2, 2, 0, 0]);
    sheet(b"1,0,2,1\r\n0,-1\r\n2,1\r\n0,0\r\n", [2, 1, 0, 0]);
    sheet(b"0,0,100,1\r\n0,10001\r\n", [2, 0, 0, 0]);
    sheet(b"2,0,100,1\r\nnot an answer", [2, 2, 0, 0]);
    sheet(b"1,0,100,1\r\n0,-50,7\r\n", [2, 1, 0, 0]);
    sheet(b"0,7,7,1\r\n\r\n", [2, 0, 0, 0]);
}

/// 3 where the first record has none of the three methods, or its form is wrong, or is absent.
#[test]
fn sheets_without_a_method() {
    sheet(b"", [2, 3, 0, 0]);
    for method in [
        -99_999, -65_536, -2, -1, 3, 7, 256, 65_535, 65_536, 65_538, 99_999,
    ] {
        sheet(format!("{method},0,100,1\r\n").as_bytes(), [2, 3, 0, 0]);
        sheet(
            format!("{method},0,100,1\r\n0,-50,\r\n").as_bytes(),
            [2, 3, 0, 0],
        );
    }
    for text in [
        &b"1"[..],
        b"\r\n",
        b"\r\n1,0,100,1\r\n",
        b"1,0,100\r\n",
        b"1,0,100,1,0,0\r\n",
        b"1,0,100,1,\r\n",
        b"1,0,100,1\n",
        b"1,0,100,1\r0,-50\r\n",
        b"000001,0,100,1",
        b" 1,0,100,1",
        b"\"1,0,100,1",
        b"1,0,100,x\r\n0,-50\r\n",
        b"\xef\xbb\xbf1,0,100,1\r\n",
    ] {
        sheet(text, [2, 3, 0, 0]);
    }
}

/// A sheet with as many answers as there are slots and one more, and texts of 4,096 bytes and of
/// 4,097, of which no record is read.
#[test]
fn long_sheets() {
    let answers = |n: usize| [&b"2,0,100,1\r\n"[..], &b"0,0\r\n".repeat(n)].concat();
    sheet(&answers(SLOTS), [2, 2, 0, 0]);
    sheet(&answers(SLOTS + 1), [2, 2, 0, 0]);
    let mut text = answers(817);
    assert_eq!(text.len(), 4_096);
    sheet(&text, [2, 2, 0, 0]);
    text.push(b'0');
    sheet(&text, [2, 3, 0, 0]);
    sheet(&answers(100_000), [2, 3, 0, 0]);
}

#[test]
fn model_and_plain_on_runs() {
    let mut rng = Rng::new(12);
    for _ in 0..20_000 {
        let run = outcomes::run_of(outcomes::some_outcomes(&mut rng), &mut rng);
        let mut numbers = outcomes::numbers(&run);
        numbers.truncate(numbers.len() - rng.below(2).min(numbers.len()));
        let reports = (season_model::season(&numbers), plain::season(&numbers));
        assert_eq!(reports.0, reports.1, "{numbers:?}");
    }
}

#[test]
fn model_and_plain_on_sheets() {
    let mut rng = Rng::new(13);
    for _ in 0..20_000 {
        let mut text = sheets::any_text(&mut rng);
        if rng.once_in(4) {
            let opening = cases::refused_opening(&mut rng);
            text = sheets::write_spelt(&opening, &[], &mut rng);
        }
        let outcomes = (
            season_model::sheet_outcome(&text),
            plain::sheet_outcome(&text),
        );
        assert_eq!(outcomes.0, outcomes.1, "{}", sheets::show(&text));
    }
}
