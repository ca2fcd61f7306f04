//! The outcomes of sheets in four numbers, and the seasons that they make: the comparison's part on
//! what a season report is made of.

use crate::cases;
use crate::checks::{agree, named, Checked, Kinds, Tally};
use crate::model::{self, Book, OLD, TODAY};
use crate::old_default::{zeros, AFTER_THE_METHOD};
use crate::outcomes::{numbers, show};
use crate::rng::Rng;
use crate::season::report_agrees;
use crate::season_model;
use crate::sheets::{self, Text, FIELDS};
use crate::types::{MethodTally, Opening, Outcome, Report, MOST_OUTCOMES, SLOTS};
use crate::{beam, ffi};
use std::hint::black_box;

/// How many texts of any kind are tried; how long the first fields and the ends of sheets are that
/// are all tried; and of how many of the longest orders that the beam finds with so many states, by
/// M and by R each.
const TEXTS: usize = 100_000;
const FIRST_FIELD: u32 = 5;
const ENDING: u32 = 6;
const LONG: usize = 100;
const ORDERS: usize = 20;

/// The bytes on each side of what is lent.
const MARGIN: usize = 16;

/// The most sheets of a season that is none of 10,000.
const SMALL_SEASON: usize = 60;

/// Methods that are none of the three. Cut to 8 or 16 bits, or without their sign, some of them
/// would be.
const NO_METHODS: [i32; 24] = [
    3, 4, 7, 10, 255, 256, 257, 258, 65_535, 65_536, 65_537, 65_538, 99_999, -1, -2, -3, -254,
    -255, -256, -65_534, -65_535, -65_536, -99_998, -99_999,
];

/// What becomes of a sheet, as it is told in the part's line.
const SHEETS: [&str; 11] = [
    "stopped by 0",
    "stopped by 1",
    "stopped by 2",
    "unfinished by 0",
    "unfinished by 1",
    "unfinished by 2",
    "refused with 0",
    "refused with 1",
    "refused with 2",
    "refused with another method",
    "refused without a method",
];

/// Which of them it is.
fn name(outcome: &Outcome, method: Option<i32>) -> &'static str {
    let place = match (outcome.method, method) {
        (known @ 0..=2, _) => 3 * outcome.kind + known,
        (_, Some(_)) => 9,
        (_, None) => 10,
    };
    SHEETS[usize::from(place)]
}

/// Why a sheet is refused: the number, and where the method of its first record is in doubt, what
/// that record has.
const CAUSES: [&str; 18] = [
    "1",
    "2",
    "3",
    "4",
    "17",
    "5",
    "6",
    "7",
    "8",
    "11",
    "1 below 0",
    "1 with 0, 1 or 2 in 16 bits",
    "10 after a first record in form",
    "10 after another",
    "12 of no byte",
    "12 in the first record",
    "12 in a later one, after 0, 1 or 2",
    "12 in a later one, after another method",
];

/// Which of them a text has, whose first record has this method and of which this is the report.
fn causes(text: &[u8], method: Option<i32>, report: &Report) -> Vec<&'static str> {
    let Report { number, place, .. } = *report;
    let one_of_three = method.is_some_and(|method| (0..=2).contains(&method));
    let in_16_bits = method.is_some_and(|method| method as u16 <= 2);
    let came = [
        number == 1,
        number == 2,
        number == 3,
        number == 4,
        number == 17,
        number == 5,
        number == 6,
        number == 7,
        number == 8,
        number == 11,
        number == 1 && method < Some(0),
        number == 1 && in_16_bits,
        number == 10 && method.is_some(),
        number == 10 && method.is_none(),
        number == 12 && text.is_empty(),
        number == 12 && place == 1,
        number == 12 && place > 1 && one_of_three,
        number == 12 && place > 1 && !one_of_three,
    ];
    named(&CAUSES, &came)
}

/// The first record of a text, with its CR LF if there is one.
fn first_record(text: &[u8]) -> &[u8] {
    let end = text.windows(2).position(|pair| pair == b"\r\n");
    end.map_or(text, |end| &text[..end + 2])
}

/// What texts were tried, and what became of them.
struct Sheets<'a> {
    tally: &'a mut Tally,
    outcomes: Kinds,
    causes: Kinds,
}

impl Sheets<'_> {
    fn new(tally: &mut Tally) -> Sheets<'_> {
        Sheets {
            tally,
            outcomes: Kinds::new(&SHEETS),
            causes: Kinds::new(&CAUSES),
        }
    }

    /// One more text, which is compared and counted.
    fn agrees(&mut self, text: &[u8], rng: &mut Rng) -> Result<Outcome, String> {
        let outcome = outcome_agrees(text, rng)?;
        let report = ffi::sheet(text);
        outcome_is_of_sheet(text, &outcome, &report)?;
        let method = model::first_record(first_record(text)).map(|opening| opening.method);
        self.tally.cases += 1;
        self.tally.count_outcome();
        self.outcomes.count(name(&outcome, method));
        for cause in causes(text, method, &report) {
            self.causes.count(cause);
        }
        Ok(outcome)
    }
}

/// One text: the outcome is the model's. The text stays, and the bytes beside it.
fn outcome_agrees(text: &[u8], rng: &mut Rng) -> Result<Outcome, String> {
    let input = || sheets::show(text);
    let (before, after) = (rng.bytes(MARGIN), rng.bytes(MARGIN));
    let lent = Text([&before, text, &after].concat());
    let kept = lent.clone();
    let outcome = ffi::sheet_outcome(&lent.0[MARGIN..MARGIN + text.len()]);
    agree(season_model::sheet_outcome(text), outcome, input)?;
    // Looked at anew: the compiler may take for granted that what is lent to be read stays.
    agree(&kept, black_box(&lent), input)?;
    Ok(outcome)
}

/// What is claimed of an outcome, apart from its model. Its kind and its answers are those of the
/// report, of which a refused one has no answers, and its quote that of the opening, which the
/// answers keep to. Its method is that of the first record alone. And an accepted text has the
/// outcome of its clean sheet.
fn outcome_is_of_sheet(text: &[u8], outcome: &Outcome, report: &Report) -> Checked {
    let input = || sheets::show(text);
    let kind = match report.kind {
        Report::STOP => Outcome::STOPPED,
        Report::NEXT => Outcome::UNFINISHED,
        _ => Outcome::REFUSED,
    };
    let accepted = kind != Outcome::REFUSED;
    let opening = model::first_record(text).filter(|_| accepted);
    let most = opening.map_or(0, |opening| ffi::quote(&opening).most);
    let told = (outcome.kind, outcome.answers.into(), outcome.quoted.into());
    agree((kind, report.taken, most), told, input)?;
    agree(true, outcome.answers <= outcome.quoted, input)?;
    let method = match text.len() {
        0..=4_096 => ffi::sheet_outcome(first_record(text)).method,
        _ => 3,
    };
    agree(method, outcome.method, input)?;
    if accepted {
        let clean = model::clean_text(text);
        agree(*outcome, ffi::sheet_outcome(&clean), input)?;
    }
    Ok(())
}

/// The outcomes of texts of every kind, and the seasons that they make.
pub fn sheet_outcomes(rng: &mut Rng, tally: &mut Tally) -> Checked {
    let mut told = Sheets::new(tally);
    every_first_field(rng, &mut told)?;
    every_ending(rng, &mut told)?;
    long_sheets(rng, &mut told)?;
    let mut run = Vec::new();
    for _ in 0..TEXTS {
        run.push(told.agrees(&any_text(rng), rng)?);
    }
    told.outcomes.all_came("sheets")?;
    told.causes.all_came("sheets refused by")?;
    seasons(&run, rng, tally)
}

/// A text of any kind, with a method of any kind.
fn any_text(rng: &mut Rng) -> Vec<u8> {
    let accepted = cases::accepted_opening(rng);
    match rng.below(5) {
        0 => {
            let method = rng.pick(&NO_METHODS);
            sheets::any_text_of(Opening { method, ..accepted }, TODAY, rng)
        }
        1 => sheets::any_text_of(cases::old_opening(rng), rng.pick(&[OLD, TODAY]), rng),
        2 => sheets::write_spelt(&accepted, &some_answers(accepted, rng), rng),
        3 => sheets::any_text_of(cases::refused_opening(rng), TODAY, rng),
        _ => sheets::any_text(rng),
    }
}

/// The answers of a search on its way or at its stop; now and then with one more after the stop, or
/// a second value like the first.
fn some_answers(opening: Opening, rng: &mut Rng) -> Vec<(i32, i32)> {
    let mut answers = cases::answered(opening, rng).pairs();
    match rng.below(8) {
        0 => answers.push((opening.first, 0)),
        1 => answers[1].1 = answers[0].1,
        _ => answers.truncate(rng.below(answers.len() + 1)),
    }
    answers
}

/// First fields before all that may stand after the method: every spelling of 0, methods that are
/// none and fields out of form, as they are and with so many answers after them that the text is as
/// long as it may be, and a byte longer; then every text of up to `FIRST_FIELD` bytes of those that
/// sheets are made of.
fn every_first_field(rng: &mut Rng, told: &mut Sheets) -> Checked {
    let zeros = zeros().into_iter().map(String::into_bytes);
    let none = NO_METHODS.map(|method| method.to_string().into_bytes());
    let fields = FIELDS.map(<[u8]>::to_vec);
    for field in zeros.chain(none).chain(fields) {
        for rest in AFTER_THE_METHOD {
            let text = [&field, rest.as_bytes()].concat();
            told.agrees(&text, rng)?;
            for length in [4_096, 4_097] {
                let bytes = text.iter().chain(b"0,0\r\n".iter().cycle());
                let long: Vec<u8> = bytes.copied().take(length).collect();
                told.agrees(&long, rng)?;
            }
        }
    }
    for length in 0..=FIRST_FIELD {
        for which in 0..sheets::BYTES.len().pow(length) {
            let field = sheets::ending(which, length);
            told.agrees(&[&field, &b",0,100,1\r\n0,-50"[..]].concat(), rng)?;
        }
    }
    Ok(())
}

/// The ends of an opening, with a share and without, and of an answer: every text of up to `ENDING`
/// bytes of those that sheets are made of.
fn every_ending(rng: &mut Rng, told: &mut Sheets) -> Checked {
    for start in [&b"2,0,100,"[..], b"0,0,100,1,", b"1,0,100,1\r\n0,"] {
        for length in 0..=ENDING {
            for which in 0..sheets::BYTES.len().pow(length) {
                let end = sheets::ending(which, length);
                told.agrees(&[start, &end].concat(), rng)?;
            }
        }
    }
    Ok(())
}

/// Long searches, by M and by R, at their stop and on their way.
fn long_sheets(rng: &mut Rng, told: &mut Sheets) -> Checked {
    for method in [1, 2] {
        let opening = cases::widest(method);
        for order in beam::longest(&opening, LONG, rng).iter().take(ORDERS) {
            let pairs = Book::of(opening, order).pairs();
            for n in [pairs.len(), pairs.len() - 1, rng.below(pairs.len())] {
                told.agrees(&sheets::write_spelt(&opening, &pairs[..n], rng), rng)?;
            }
        }
    }
    Ok(())
}

/// The outcomes of sheets season by season: many of a few, and then some of 10,000.
fn seasons(run: &[Outcome], rng: &mut Rng, tally: &mut Tally) -> Checked {
    let mut rest = run;
    let mut small = 0;
    while !rest.is_empty() {
        let sheets = 1 + rng.below(SMALL_SEASON);
        let (season, after) = rest.split_at(sheets.min(rest.len()));
        season_agrees(season, rng, tally)?;
        rest = after;
        small += 1;
    }
    let full = run.chunks_exact(MOST_OUTCOMES);
    println!("{small} seasons of sheets, and {} of 10,000", full.len());
    for season in full {
        season_agrees(season, rng, tally)?;
    }
    Ok(())
}

/// A season of sheets: the report is the model's. A sheet of another method is refused, and no
/// tally has more answers than were quoted, nor a search with more than there are slots.
fn season_agrees(run: &[Outcome], rng: &mut Rng, tally: &mut Tally) -> Checked {
    let report = report_agrees(&numbers(run), rng)?;
    let input = || show(&numbers(run));
    let [.., other] = report.tallies;
    let refused = MethodTally {
        refused: other.refused,
        ..MethodTally::default()
    };
    agree(refused, other, input)?;
    for t in report.tallies {
        let kept = t.answers <= t.quoted && t.largest <= SLOTS as u32;
        agree(true, kept, input)?;
    }
    tally.cases += 1;
    tally.count_season(&report);
    Ok(())
}
