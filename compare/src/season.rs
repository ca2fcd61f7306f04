//! The season report: the comparison's part on runs of outcomes, whatever their numbers are.

use crate::checks::{agree, named, Checked, Kinds, Tally};
use crate::ffi;
use crate::outcomes::{any_numbers, booked_alike, highest_run_of, is_refused, numbers, run_of};
use crate::outcomes::{show, some_outcomes, ANSWERS, KINDS_REFUSED, METHODS_OTHER};
use crate::rng::Rng;
use crate::season_model;
use crate::types::{MethodTally, Outcome, SeasonReport, MOST_OUTCOMES, OUTCOME_NUMBERS, TALLIES};
use std::array;
use std::hint::black_box;

/// How many runs are tried of some outcomes, and of 10,000 or a few less.
const RUNS: usize = 150_000;
const FULL_RUNS: usize = 240;

/// The longest of the runs whose length is every one in turn, how often each length is tried, and
/// how often each of the lengths just above the limit and far above it.
const EVERY_LENGTH: usize = 400;
const OF_A_LENGTH: usize = 10;
const JUST_ABOVE: usize = 500;
const FAR_ABOVE: usize = 70;

/// The most numbers of a run.
const MOST_NUMBERS: usize = OUTCOME_NUMBERS * MOST_OUTCOMES;

/// Lengths above the limit. Cut to 16 bits, some of them would be in range.
const LENGTHS_ABOVE: [usize; 18] = [
    40_005, 40_006, 40_007, 40_008, 40_010, 43_690, 50_000, 50_001, 65_535, 65_536, 65_537, 65_540,
    80_000, 105_536, 131_072, 131_076, 160_000, 262_144,
];

/// The numbers on each side of what is lent.
const MARGIN: usize = 16;

/// The place of the tally that an outcome is booked in.
fn place(outcome: &Outcome) -> usize {
    usize::from(outcome.method).min(TALLIES - 1)
}

/// What a run has, as it is told in the part's line: what a wrong rule would tell otherwise.
const RUNS_WITH: [&str; 18] = [
    "no outcome",
    "one outcome",
    "kind 2",
    "kind 3 to 65,534",
    "kind 65,535",
    "method 3",
    "method 4 to 65,534",
    "method 65,535",
    "answers refused",
    "a quote refused",
    "more answers refused than the largest",
    "a method with refused ones alone",
    "the largest of the first outcome",
    "the largest of the last",
    "the largest of one unfinished",
    "a quote above the largest",
    "answers above 65,535 in all",
    "quotes above 65,535 in all",
];

/// What runs about as long as can be have.
const FULL_RUNS_WITH: [&str; 4] = [
    "9,997 to 9,999 outcomes",
    "10,000 outcomes",
    "655,350,000 answers",
    "655,350,000 quoted",
];

/// Each of these must come so often at least.
const LEAST_FULL: u64 = 50;

/// Runs that are refused, by their length.
const REFUSED_RUNS: [&str; 5] = [
    "below 40,000 numbers",
    "of 40,001 to 40,003",
    "of 40,004",
    "above that, in fours",
    "above that, not in fours",
];

fn refused_run(length: usize) -> &'static str {
    let place = match length {
        0..=40_000 => 0,
        40_001..=40_003 => 1,
        40_004 => 2,
        _ if length.is_multiple_of(4) => 3,
        _ => 4,
    };
    REFUSED_RUNS[place]
}

/// Which of `RUNS_WITH` a run has, of which this is the report.
fn runs_with(run: &[Outcome], report: &SeasonReport) -> Vec<&'static str> {
    let any = |has: &dyn Fn(&Outcome) -> bool| run.iter().any(has);
    let any_tally = |has: &dyn Fn(&MethodTally) -> bool| report.tallies.iter().any(has);
    let largest = |o: &Outcome| report.tallies[place(o)].largest;
    let came = [
        run.is_empty(),
        run.len() == 1,
        any(&|o| o.kind == 2),
        any(&|o| (3..u16::MAX).contains(&o.kind)),
        any(&|o| o.kind == u16::MAX),
        any(&|o| o.method == 3),
        any(&|o| (4..u16::MAX).contains(&o.method)),
        any(&|o| o.method == u16::MAX),
        any(&|o| is_refused(o) && o.answers > 0),
        any(&|o| is_refused(o) && o.quoted > 0),
        any(&|o| is_refused(o) && u32::from(o.answers) > largest(o)),
        any_tally(&|t| t.refused > 0 && t.stopped + t.unfinished == 0),
        run.first().is_some_and(|o| has_the_most(run, 0, o)),
        run.last()
            .is_some_and(|o| has_the_most(run, run.len() - 1, o)),
        (0..TALLIES).any(|place| most(run, place, 1) > most(run, place, 0)),
        any(&|o| !is_refused(o) && u32::from(o.quoted) > largest(o)),
        any_tally(&|t| t.answers > u16::MAX.into()),
        any_tally(&|t| t.quoted > u16::MAX.into()),
    ];
    named(&RUNS_WITH, &came)
}

/// Which of `FULL_RUNS_WITH` it has.
fn full_runs_with(run: &[Outcome], report: &SeasonReport) -> Vec<&'static str> {
    let highest = MOST_OUTCOMES as u32 * u32::from(u16::MAX);
    let came = [
        (9_997..=9_999).contains(&run.len()),
        run.len() == 10_000,
        report.tallies.iter().any(|t| t.answers == highest),
        report.tallies.iter().any(|t| t.quoted == highest),
    ];
    named(&FULL_RUNS_WITH, &came)
}

/// Whether the outcome at this place has more answers than every other search of its method, of
/// which there is one.
fn has_the_most(run: &[Outcome], at: usize, one: &Outcome) -> bool {
    let beside = |o: &Outcome| !is_refused(o) && place(o) == place(one);
    let others = run.iter().enumerate();
    let others = others.filter(|&(n, o)| n != at && beside(o));
    let most = others.map(|(_, o)| o.answers).max();
    !is_refused(one) && most.is_some_and(|most| most < one.answers)
}

/// The most answers in a tally's outcomes of this kind, 0 for none.
fn most(run: &[Outcome], booked: usize, kind: u16) -> u16 {
    let these = run.iter().filter(|o| place(o) == booked && o.kind == kind);
    these.map(|o| o.answers).max().unwrap_or(0)
}

/// What runs were tried, and what they had.
struct Told<'a> {
    tally: &'a mut Tally,
    runs: Kinds,
    full: Kinds,
    refused: Kinds,
}

impl Told<'_> {
    fn new(tally: &mut Tally) -> Told<'_> {
        Told {
            tally,
            runs: Kinds::new(&RUNS_WITH),
            full: Kinds::new(&FULL_RUNS_WITH),
            refused: Kinds::new(&REFUSED_RUNS),
        }
    }

    /// One more run of whole outcomes, up to 10,000, which is compared and counted.
    fn agrees(&mut self, run: &[Outcome], rng: &mut Rng) -> Checked {
        let report = report_agrees(&numbers(run), rng)?;
        claims_hold(run, &report, rng)?;
        self.tally.cases += 1;
        self.tally.count_season(&report);
        for kind in runs_with(run, &report) {
            self.runs.count(kind);
        }
        for kind in full_runs_with(run, &report) {
            self.full.count(kind);
        }
        Ok(())
    }

    /// One more run of so many numbers, which is refused by its length.
    fn refuses(&mut self, length: usize, rng: &mut Rng) -> Checked {
        let numbers = vec![rng.bits() as u16; length];
        let report = report_agrees(&numbers, rng)?;
        agree(SeasonReport::refuse(19), report, || show(&numbers))?;
        self.tally.cases += 1;
        self.tally.count_season(&report);
        self.refused.count(refused_run(length));
        Ok(())
    }

    fn all_came(&self) -> Checked {
        self.runs.all_came("runs of outcomes with")?;
        self.full.each_came("of these", LEAST_FULL)?;
        self.refused.all_came("runs refused")
    }
}

/// One run of any length: the report is the model's. The numbers stay, and those beside them.
pub fn report_agrees(numbers: &[u16], rng: &mut Rng) -> Result<SeasonReport, String> {
    let input = || show(numbers);
    let (before, after) = (any_numbers(MARGIN, rng), any_numbers(MARGIN, rng));
    let lent = [&before, numbers, &after].concat();
    let kept = lent.clone();
    let report = ffi::season(&lent[MARGIN..MARGIN + numbers.len()]);
    agree(season_model::season(numbers), report, input)?;
    // Looked at anew: the compiler may take for granted that what is lent to be read stays.
    agree(true, kept == *black_box(&lent), || {
        format!("{}\nthe numbers lent, and {MARGIN} on each side", input())
    })?;
    Ok(report)
}

/// What is claimed of the report on a run of whole outcomes, apart from the model: every outcome is
/// counted once; the order does not matter; what is told of two parts adds up; and of a refused
/// outcome the answers, the quote and which of the kinds from 2 on it has do not matter, nor which
/// of the methods from 3 on an outcome has.
fn claims_hold(run: &[Outcome], report: &SeasonReport, rng: &mut Rng) -> Checked {
    let input = || show(&numbers(run));
    let told = |run: &[Outcome]| ffi::season(&numbers(run));
    let counts = report.tallies.iter();
    let counted = counts.map(|t| t.stopped + t.unfinished + t.refused).sum();
    let all = run.len() as u32;
    agree((all, all), (report.outcomes, counted), input)?;
    let mut other: Vec<Outcome> = run.iter().rev().copied().collect();
    agree(*report, told(&other), input)?;
    rng.shuffle(&mut other);
    agree(*report, told(&other), || {
        format!("{}\nin the order of {}", input(), show(&numbers(&other)))
    })?;
    let (one, two) = run.split_at(rng.below(run.len() + 1));
    agree(*report, added(&told(one), &told(two)), || {
        format!("{}\ncut after {} outcomes", input(), one.len())
    })?;
    other.iter_mut().for_each(|o| *o = booked_alike(o, rng));
    agree(*report, told(&other), || {
        format!("{}\nbooked as {}", input(), show(&numbers(&other)))
    })
}

/// The report on two runs one after the other.
fn added(one: &SeasonReport, two: &SeasonReport) -> SeasonReport {
    let tallies = array::from_fn(|k| {
        let (one, two) = (one.tallies[k], two.tallies[k]);
        MethodTally {
            stopped: one.stopped + two.stopped,
            unfinished: one.unfinished + two.unfinished,
            refused: one.refused + two.refused,
            answers: one.answers + two.answers,
            quoted: one.quoted + two.quoted,
            largest: one.largest.max(two.largest),
        }
    });
    SeasonReport::season(one.outcomes + two.outcomes, tallies)
}

/// Runs of outcomes of every kind.
pub fn runs(rng: &mut Rng, tally: &mut Tally) -> Checked {
    let mut told = Told::new(tally);
    every_length(rng, &mut told)?;
    every_number(rng, &mut told)?;
    for _ in 0..RUNS {
        told.agrees(&run_of(some_outcomes(rng), rng), rng)?;
    }
    for n in 0..FULL_RUNS {
        let run = match n % 4 {
            0 => highest_run_of(MOST_OUTCOMES, rng),
            1 => run_of(MOST_OUTCOMES, rng),
            _ => run_of(MOST_OUTCOMES - 1 - rng.below(3), rng),
        };
        told.agrees(&run, rng)?;
    }
    told.all_came()
}

/// Every length up to a few hundred numbers, the lengths around 40,000, and lengths far above.
fn every_length(rng: &mut Rng, told: &mut Told) -> Checked {
    for length in 0..=EVERY_LENGTH {
        for _ in 0..OF_A_LENGTH {
            match length % OUTCOME_NUMBERS {
                0 => told.agrees(&run_of(length / OUTCOME_NUMBERS, rng), rng)?,
                _ => told.refuses(length, rng)?,
            }
        }
    }
    for length in [39_997, 39_998, 39_999] {
        told.refuses(length, rng)?;
    }
    for _ in 0..JUST_ABOVE {
        let by = 1 + rng.below(3);
        told.refuses(MOST_NUMBERS + by, rng)?;
        told.refuses(MOST_NUMBERS + OUTCOME_NUMBERS, rng)?;
    }
    for length in LENGTHS_ABOVE {
        for _ in 0..FAR_ABOVE {
            told.refuses(length, rng)?;
        }
    }
    Ok(())
}

/// Every number in each of the four places of an outcome that is one of a few, and the numbers at
/// the limits in all four places, in every combination.
fn every_number(rng: &mut Rng, told: &mut Told) -> Checked {
    for number in 0..=u16::MAX {
        for place in 0..OUTCOME_NUMBERS {
            let mut run = run_of(1 + rng.below(4), rng);
            let at = rng.below(run.len());
            let outcome = &mut run[at];
            match place {
                0 => outcome.kind = number,
                1 => outcome.method = number,
                2 => outcome.answers = number,
                _ => outcome.quoted = number,
            }
            told.agrees(&run, rng)?;
        }
    }
    for kind in [&[0, 1], &KINDS_REFUSED[..]].concat() {
        for method in [&[0, 1, 2], &METHODS_OTHER[..]].concat() {
            for answers in ANSWERS {
                for quoted in ANSWERS {
                    told.agrees(&[Outcome::new(kind, method, answers, quoted)], rng)?;
                }
            }
        }
    }
    Ok(())
}
