//! The survey: the comparison's part on surveys with something wrong in them, and with numbers at and
//! around their limits.

use crate::checks::{agree, named, Checked, Kinds, Tally};
use crate::rng::Rng;
use crate::survey::{call_agrees, count_all};
use crate::surveys::{self, opposed, Survey};
use crate::types::{Surveyed, MOST_SURVEYED};

/// How many surveys are tried that were spoilt.
const SPOILT: usize = 150_000;

/// The most of the numbers of values that are all tried, and how often each of them; and how often one
/// next to a limit, and one far above.
const VALUES_TRIED: usize = 700;
const OF_A_LENGTH: usize = 10;
const AT_A_LIMIT: usize = 300;
const FAR_ABOVE: usize = 50;

/// Numbers of values far above the limit. Cut to 16 bits, some of them would be in range.
const LENGTHS_ABOVE: [usize; 9] = [
    1_200, 6_000, 32_768, 60_001, 65_538, 65_539, 65_836, 66_136, 131_074,
];

/// What is wrong with a survey and its list.
struct Wrong {
    length: bool,
    pitch: bool,
    point: bool,
    value: bool,
    list: bool,
}

impl Wrong {
    fn with(survey: &Survey, size: usize) -> Self {
        Wrong {
            length: !(2..=MOST_SURVEYED).contains(&survey.values.len()),
            pitch: survey.pitch < 1,
            point: !is_point(survey.lowest.into()) || !is_point(survey.last()),
            value: survey.values.iter().any(is_out_of_range),
            list: size < survey.pairs(),
        }
    }

    /// The number and the place of the first of them that is told; both are 0 where there is none.
    fn first(&self, survey: &Survey) -> (u32, u32) {
        let place = survey.values.iter().position(is_out_of_range);
        match place {
            _ if self.length || self.pitch || self.point => (21, 0),
            Some(place) => (7, place as u32),
            None if self.list => (22, 0),
            None => (0, 0),
        }
    }
}

fn is_point(number: i64) -> bool {
    (0..=60_000).contains(&number)
}

fn is_out_of_range(value: &i32) -> bool {
    !(-10_000..=10_000).contains(value)
}

/// Surveys that are refused 21 for one thing alone, as they are told in the part's line.
const MISPLACED: [&str; 14] = [
    "no value",
    "one value",
    "601 values",
    "602 to 60,001 values",
    "values that 16 bits would count 2 to 600",
    "pitch 0",
    "a pitch below 0",
    "the lowest point -1",
    "a lowest point below that",
    "a lowest point above 60,000",
    "the last point 60,001",
    "a last point above that",
    "a last point in range in 32 bits",
    "a last point in range in 16 bits",
];

/// Which of them it is.
fn misplaced(survey: &Survey, wrong: &Wrong) -> Vec<&'static str> {
    let (lowest, last, length) = (survey.lowest, survey.last(), survey.values.len());
    let by_length = wrong.length && !wrong.pitch && !wrong.point;
    let by_pitch = wrong.pitch && !wrong.length && !wrong.point;
    let by_point = wrong.point && !wrong.length && !wrong.pitch;
    let last_alone = by_point && is_point(lowest.into());
    let came = [
        by_length && length == 0,
        by_length && length == 1,
        by_length && length == 601,
        by_length && length > 601,
        length > 60_001 && taken_in_16_bits(survey),
        by_pitch && survey.pitch == 0,
        by_pitch && survey.pitch < 0,
        by_point && lowest == -1 && is_point(last),
        by_point && lowest < -1 && is_point(last),
        by_point && lowest > 60_000,
        last_alone && last == 60_001,
        last_alone && last > 60_001,
        last_alone && is_point((last as i32).into()),
        last_alone && is_point((last as u16).into()),
    ];
    named(&MISPLACED, &came)
}

/// Whether nothing would be wrong with a survey whose values were counted in 16 bits.
fn taken_in_16_bits(survey: &Survey) -> bool {
    let length = usize::from(survey.values.len() as u16);
    let right = (2..=MOST_SURVEYED).contains(&length) && survey.pitch >= 1;
    right && is_point(survey.lowest.into()) && is_point(survey.point(length - 1))
}

/// What surveys have that are refused 7, as it is told in the part's line.
const OUT_OF_RANGE: [&str; 9] = [
    "the first",
    "the last",
    "one between",
    "10,001",
    "-10,001",
    "2,147,483,647",
    "-2,147,483,648",
    "another after it",
    "a pair before it that the list would take",
];

/// Which of them it has, where the value at this place is refused.
fn out_of_range(survey: &Survey, place: usize, size: usize) -> Vec<&'static str> {
    let (before, after) = survey.values.split_at(place);
    let (value, after) = (after[0], &after[1..]);
    let mut pairs_before = before.windows(2).filter(|two| opposed(two[0], two[1]));
    let came = [
        before.is_empty(),
        after.is_empty(),
        !before.is_empty() && !after.is_empty(),
        value == 10_001,
        value == -10_001,
        value == i32::MAX,
        value == i32::MIN,
        after.iter().any(is_out_of_range),
        size > 0 && pairs_before.next().is_some(),
    ];
    named(&OUT_OF_RANGE, &came)
}

/// Refusals by what stands behind the one that is told, so that the order of the checks shows.
const BEHIND: [&str; 6] = [
    "7 behind 21",
    "22 behind 21",
    "7 and 22 behind 21",
    "22 behind 7",
    "22 behind 7 from the pairs before it",
    "22 alone",
];

/// Which of them it is.
fn behind(survey: &Survey, size: usize, told: &Surveyed, wrong: &Wrong) -> Vec<&'static str> {
    let before = survey.values.get(..told.place as usize).unwrap_or(&[]);
    let pairs_before = before.windows(2).filter(|two| opposed(two[0], two[1]));
    let came = [
        told.number == 21 && wrong.value && !wrong.list,
        told.number == 21 && wrong.list && !wrong.value,
        told.number == 21 && wrong.value && wrong.list,
        told.number == 7 && wrong.list,
        told.number == 7 && pairs_before.count() > size,
        told.number == 22,
    ];
    named(&BEHIND, &came)
}

/// What surveys were tried with something wrong in them, and what that was.
struct Refused<'a> {
    tally: &'a mut Tally,
    misplaced: Kinds,
    out_of_range: Kinds,
    behind: Kinds,
}

impl Refused<'_> {
    fn new(tally: &mut Tally) -> Refused<'_> {
        Refused {
            tally,
            misplaced: Kinds::new(&MISPLACED),
            out_of_range: Kinds::new(&OUT_OF_RANGE),
            behind: Kinds::new(&BEHIND),
        }
    }

    /// One more survey, whatever is wrong with it, with lists that are long enough and not.
    fn agrees(&mut self, survey: &Survey, rng: &mut Rng) -> Checked {
        let pairs = survey.pairs().min(1_000);
        let mut sizes = vec![0, pairs.saturating_sub(1), pairs, pairs + rng.below(40)];
        sizes.dedup();
        for size in sizes {
            let (told, _) = call_agrees(survey, size, rng)?;
            self.tally.cases += 1;
            self.tally.count_survey(&told);
            self.count(survey, size, &told)?;
        }
        Ok(())
    }

    /// Counts what is told of a survey with a list of this length. Apart from the model: it is the first
    /// thing wrong, and of values the first.
    fn count(&mut self, survey: &Survey, size: usize, told: &Surveyed) -> Checked {
        let wrong = Wrong::with(survey, size);
        let first = wrong.first(survey);
        agree(first, (told.number, told.place), || survey.show())?;
        match first {
            (21, _) => count_all(&mut self.misplaced, &misplaced(survey, &wrong)),
            (7, place) => {
                let kinds = out_of_range(survey, place as usize, size);
                count_all(&mut self.out_of_range, &kinds);
            }
            _ => (),
        }
        count_all(&mut self.behind, &behind(survey, size, told, &wrong));
        Ok(())
    }

    fn all_came(&self) -> Checked {
        self.misplaced.all_came("surveys misplaced by")?;
        self.out_of_range.all_came("values out of range")?;
        self.behind.all_came("refusals of surveys")
    }
}

/// Surveys with something wrong in them, often more than one thing, and with numbers at and around
/// their limits.
pub fn refusals(rng: &mut Rng, tally: &mut Tally) -> Checked {
    let mut refused = Refused::new(tally);
    every_length(rng, &mut refused)?;
    at_limits(rng, &mut refused)?;
    last_points(rng, &mut refused)?;
    for _ in 0..SPOILT {
        let mut survey = surveys::some_survey(rng);
        for _ in 0..1 + rng.below(3) {
            surveys::spoil(&mut survey, rng);
        }
        refused.agrees(&survey, rng)?;
    }
    refused.all_came()
}

/// Every number of values up to the most and some above, those next to the limits many times, and some
/// far above.
fn every_length(rng: &mut Rng, refused: &mut Refused) -> Checked {
    for length in 0..=VALUES_TRIED {
        let times = match length {
            0..=3 | 599..=602 => AT_A_LIMIT,
            _ => OF_A_LENGTH,
        };
        for _ in 0..times {
            refused.agrees(&surveys::survey_of(length, rng), rng)?;
        }
    }
    let far_above = LENGTHS_ABOVE.iter().flat_map(|length| [*length; FAR_ABOVE]);
    for length in far_above {
        let mut survey = surveys::survey_of(length % 65_536, rng);
        let values = survey.values.iter().copied().cycle();
        survey.values = values.take(length).collect();
        refused.agrees(&survey, rng)?;
    }
    Ok(())
}

/// Lowest points, pitches and numbers of values at and around the limits, in every combination, with the
/// values in range and not.
fn at_limits(rng: &mut Rng, refused: &mut Refused) -> Checked {
    for lowest in surveys::LOWEST_AT_LIMITS {
        for pitch in surveys::PITCHES_AT_LIMITS {
            for length in surveys::LENGTHS_AT_LIMITS {
                let values = surveys::values(length, rng);
                let mut survey = Survey {
                    lowest,
                    pitch,
                    values,
                };
                refused.agrees(&survey, rng)?;
                surveys::spoil_values(&mut survey.values, rng);
                refused.agrees(&survey, rng)?;
            }
        }
    }
    Ok(())
}

/// For every number of values that is taken: last points next to the highest, and some that would be in
/// range in 16 bits or in 32.
fn last_points(rng: &mut Rng, refused: &mut Refused) -> Checked {
    for length in 2..=MOST_SURVEYED {
        for above in [-1, 0, 1, 2] {
            let mut survey = surveys::survey_of(length, rng);
            survey.lowest += 60_000 + above - survey.last() as i32;
            refused.agrees(&survey, rng)?;
        }
        for bits in [16, 32] {
            if let Some(survey) = surveys::wrapped(length, bits, rng) {
                refused.agrees(&survey, rng)?;
            }
        }
    }
    Ok(())
}
