//! The model of the season report, from request 2026-10, what include/busdekker.h says of the
//! outcome of a sheet, and the model of single searches, and from nothing else. Plain like it: a
//! run is taken apart by fours, and every number of a tally is a count, a sum or a maximum over the
//! outcomes of its method, each found by going through all of them anew.

use crate::model;
use crate::types::{MethodTally, Outcome, Report, SeasonReport};

/// The season report on a run of outcomes. Refusal 19 is checked before any number is read.
pub fn season(numbers: &[u16]) -> SeasonReport {
    let whole_fours = numbers.len().is_multiple_of(4);
    let outcomes = numbers.len() / 4;
    if !whole_fours || outcomes > 10_000 {
        return SeasonReport::refuse(19);
    }
    let run: Vec<Outcome> = numbers.chunks(4).map(outcome).collect();
    let tallies = [
        tally(&run, |method| method == 0),
        tally(&run, |method| method == 1),
        tally(&run, |method| method == 2),
        tally(&run, |method| ![0, 1, 2].contains(&method)),
    ];
    SeasonReport::season(outcomes as u32, tallies)
}

/// The outcome that four numbers are.
fn outcome(four: &[u16]) -> Outcome {
    Outcome::new(four[0], four[1], four[2], four[3])
}

/// The tally of the outcomes of a run that carry such a method. Its searches are those not refused.
fn tally(run: &[Outcome], of_method: fn(u16) -> bool) -> MethodTally {
    let booked = || run.iter().filter(|o| of_method(o.method));
    let searches = || booked().filter(|o| o.kind == 0 || o.kind == 1);
    MethodTally {
        stopped: booked().filter(|o| o.kind == 0).count() as u32,
        unfinished: booked().filter(|o| o.kind == 1).count() as u32,
        refused: booked().filter(|o| o.kind != 0 && o.kind != 1).count() as u32,
        answers: searches().map(|o| u32::from(o.answers)).sum(),
        quoted: searches().map(|o| u32::from(o.quoted)).sum(),
        largest: searches().map(|o| o.answers.into()).max().unwrap_or(0),
    }
}

/// The outcome of a sheet in four numbers.
pub fn sheet_outcome(text: &[u8]) -> Outcome {
    let method = method(text);
    match model::read(text) {
        Ok(book) => {
            let report = book.report();
            let kind = if report.kind == Report::STOP { 0 } else { 1 };
            let most = model::quote(book.opening()).most;
            Outcome::new(kind, method, report.taken as u16, most as u16)
        }
        Err(_) => Outcome::new(2, method, 0, 0),
    }
}

/// The method as the first record has it, or 3 where that is none of the three or cannot be read.
fn method(text: &[u8]) -> u16 {
    match model::first_record(text).map(|opening| opening.method) {
        Some(0) => 0,
        Some(1) => 1,
        Some(2) => 2,
        _ => 3,
    }
}
