//! What the parts of the comparison share: mismatches with their input, the tally of what was tried
//! and answered, and the kinds of cases that must come.

use crate::model::{self, Book};
use crate::sheets;
use crate::types::{Opening, Quotation, Report, Search, SeasonReport, Surveyed, Written};
use std::fmt::{self, Debug};

/// The error tells of the mismatch, with its input.
pub type Checked = Result<(), String>;

/// A mismatch unless the two are the same.
pub fn agree<T: PartialEq + Debug>(
    expected: T,
    answered: T,
    input: impl Fn() -> String,
) -> Checked {
    if expected == answered {
        return Ok(());
    }
    let input = input();
    Err(format!(
        "MISMATCH\n{input}\nexpected: {expected:?}\nanswered: {answered:?}"
    ))
}

/// A mismatch unless two reports, which are counted, are the same, with the bound on the answers.
pub fn agree_on_report(
    opening: &Opening,
    (model, library): (Report, Report),
    tally: &mut Tally,
    input: impl Fn() -> String,
) -> Checked {
    agree(model, library, &input)?;
    tally.count(&library);
    let most = model::quote(opening).most;
    let kept = match library.kind {
        Report::NEXT => library.taken < most,
        Report::STOP => library.taken <= most,
        _ => true,
    };
    if !kept {
        let input = input();
        return Err(format!("BOUND OF {most} BROKEN\n{input}\n{library:?}"));
    }
    Ok(())
}

/// A list of values as a sheet, with the points called for; 0 where none is.
pub fn list_as_sheet(opening: &Opening, values: &[i32]) -> String {
    let accepted = model::refused_opening(opening).is_none();
    let mut book = accepted.then(|| Book::new(*opening));
    let mut answers = Vec::new();
    for &value in values {
        let point = book.as_ref().and_then(Book::called).unwrap_or(0);
        answers.push((point, value));
        if let Some(book) = &mut book {
            book.offer(point, value);
        }
    }
    sheets::show(&sheets::write(opening, &answers))
}

/// A held search as a sheet, then whole.
pub fn search_as_sheet(search: &Search) -> String {
    let held = search.slots.iter().take(search.count as usize);
    let values: Vec<i32> = held.copied().collect();
    let sheet = list_as_sheet(&search.opening, &values);
    format!("{sheet}held as {search:?}")
}

/// Each kind of case must come so often at least.
const LEAST: u64 = 500;

/// How often each kind of case came.
pub struct Kinds(Vec<(&'static str, u64)>);

impl Kinds {
    pub fn new(names: &[&'static str]) -> Self {
        Kinds(names.iter().map(|&name| (name, 0)).collect())
    }

    pub fn count(&mut self, kind: &str) {
        let found = self.0.iter_mut().find(|(name, _)| *name == kind);
        found.expect("each kind has been named").1 += 1;
    }

    /// Tells them all. One that came too seldom is a mismatch.
    pub fn all_came(&self, of: &str) -> Checked {
        self.each_came(of, LEAST)
    }

    /// The same where each must come so often at least.
    pub fn each_came(&self, of: &str, least: u64) -> Checked {
        let kinds = self.0.iter();
        let told: Vec<String> = kinds.map(|(name, n)| format!("{name} {n}")).collect();
        println!("{of}: {}", told.join(", "));
        for (name, n) in &self.0 {
            agree(true, *n >= least, || {
                format!("{of}: {name} came {n} times, to be at least {least}")
            })?;
        }
        Ok(())
    }
}

/// The names of those that came.
pub fn named(names: &[&'static str], came: &[bool]) -> Vec<&'static str> {
    let both = names.iter().zip(came);
    both.filter(|(_, &came)| came)
        .map(|(&name, _)| name)
        .collect()
}

/// What was tried, and what was answered.
#[derive(Default)]
pub struct Tally {
    pub cases: u64,
    next: u64,
    stop: u64,
    quoted: u64,
    written: u64,
    outcomes: u64,
    seasons: u64,
    draws: u64,
    surveys: u64,
    refused: [u64; 23],
}

impl Tally {
    pub fn count(&mut self, report: &Report) {
        match report.kind {
            Report::NEXT => self.next += 1,
            Report::STOP => self.stop += 1,
            _ => self.refused[report.number as usize] += 1,
        }
    }

    pub fn count_quotation(&mut self, quotation: &Quotation) {
        match quotation.kind {
            Quotation::QUOTED => self.quoted += 1,
            _ => self.refused[quotation.number as usize] += 1,
        }
    }

    pub fn count_written(&mut self, written: &Written) {
        match written.kind {
            Written::WRITTEN => self.written += 1,
            _ => self.refused[written.number as usize] += 1,
        }
    }

    /// The outcome of a sheet is told of every text, and has no number of a refusal.
    pub fn count_outcome(&mut self) {
        self.outcomes += 1;
    }

    pub fn count_season(&mut self, report: &SeasonReport) {
        match report.kind {
            SeasonReport::SEASON => self.seasons += 1,
            _ => self.refused[report.number as usize] += 1,
        }
    }

    /// A draw is told after every number.
    pub fn count_draw(&mut self) {
        self.draws += 1;
    }

    pub fn count_survey(&mut self, surveyed: &Surveyed) {
        match surveyed.kind {
            Surveyed::SURVEYED => self.surveys += 1,
            _ => self.refused[surveyed.number as usize] += 1,
        }
    }
}

impl fmt::Display for Tally {
    fn fmt(&self, f: &mut fmt::Formatter) -> fmt::Result {
        let refused: u64 = self.refused.iter().sum();
        let kinds = [
            ("next", self.next),
            ("stop", self.stop),
            ("quoted", self.quoted),
            ("written", self.written),
            ("outcome", self.outcomes),
            ("season", self.seasons),
            ("draw", self.draws),
            ("survey", self.surveys),
        ];
        let others: u64 = kinds.iter().map(|(_, times)| times).sum();
        write!(f, "told {}", others + refused)?;
        for (kind, times) in kinds.iter().filter(|(_, times)| *times > 0) {
            write!(f, ", {kind} {times}")?;
        }
        let refused = self.refused.iter().enumerate();
        for (number, times) in refused.filter(|(_, &times)| times > 0) {
            write!(f, ", refuse {number} {times}")?;
        }
        Ok(())
    }
}
