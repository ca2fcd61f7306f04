//! The survey: the comparison's part on surveys with nothing wrong in them.

use crate::checks::{agree, named, Checked, Kinds, Tally};
use crate::rng::Rng;
use crate::surveys::{self, opposed, Survey};
use crate::types::{Opening, Report, Search, Surveyed, MOST_PAIRS, MOST_SURVEYED};
use crate::{cases, ffi, model, survey_model};
use std::hint::black_box;

/// How many surveys are tried of any number of values, and of 600 with a pair at every place.
const SURVEYS: usize = 100_000;
const FULL: usize = 600;

/// One survey in so many is tried with a list of every length, and one with a list far longer than is
/// ever needed.
const EVERY_LENGTH: usize = 400;
const LONG_LIST: usize = 100;

/// Such lists. Cut to 16 bits, some of the lengths would be too short.
const LONG_LISTS: [usize; 6] = [600, 1_000, 65_535, 65_536, 65_537, 131_073];

/// The numbers on each side of what is lent.
const MARGIN: usize = 16;

/// What is told of a survey, and the lower points that it lists.
pub type Told = (Surveyed, Vec<u32>);

/// One call with a list of this length, which holds anything: what is told is the model's, and so is
/// every number of the list and around it. Past the pairs it stays as it was, and so do the values and
/// those beside them.
pub fn call_agrees(survey: &Survey, size: usize, rng: &mut Rng) -> Result<Told, String> {
    let input = || format!("{}\ninto {size} places", survey.show());
    let (lowest, pitch, values) = (survey.lowest, survey.pitch, &survey.values[..]);
    let mut model = marks(size + 2 * MARGIN, rng);
    let (mut library, before) = (model.clone(), model.clone());
    let list = MARGIN..MARGIN + size;
    let beside: [Vec<i32>; 2] = [(); 2].map(|()| (0..MARGIN).map(|_| rng.any()).collect());
    let lent = [&beside[0], values, &beside[1]].concat();
    let kept = lent.clone();
    let lent_values = &lent[MARGIN..MARGIN + values.len()];
    let told = (
        survey_model::survey(lowest, pitch, values, &mut model[list.clone()]),
        ffi::survey(lowest, pitch, lent_values, &mut library[list]),
    );
    agree((told.0, &model), (told.1, &library), input)?;
    // Looked at anew: the compiler may take for granted that what is lent to be read stays.
    agree(true, kept == *black_box(&lent), || {
        format!("{}\nthe values lent, and {MARGIN} on each side", input())
    })?;
    let past = MARGIN + told.1.pairs as usize;
    agree(&before[past..], &library[past..], input)?;
    Ok((told.1, library[MARGIN..past].to_vec()))
}

/// So many numbers of any size, no two of them alike.
fn marks(length: usize, rng: &mut Rng) -> Vec<u32> {
    let (mut mark, step) = (rng.any() as u32, rng.any() as u32 | 1);
    let mut next = || {
        mark = mark.wrapping_add(step);
        mark
    };
    (0..length).map(|_| next()).collect()
}

/// Lengths of lists for so many pairs: about as long, 0, and what is always enough; now and then far
/// longer, or every length.
fn sizes(pairs: usize, rng: &mut Rng) -> Vec<usize> {
    if rng.once_in(EVERY_LENGTH) {
        return (0..=pairs + 3).collect();
    }
    let shorter = rng.below(pairs + 1);
    let longer = pairs + 2 + rng.below(40);
    let before = pairs.saturating_sub(1);
    let mut sizes = vec![0, shorter, before, pairs, pairs + 1, longer, MOST_PAIRS];
    if rng.once_in(LONG_LIST) {
        sizes.push(rng.pick(&LONG_LISTS));
    }
    sizes.sort();
    sizes.dedup();
    sizes
}

/// What a survey has, as it is told in the part's line: what a wrong rule would make otherwise.
const SURVEYS_WITH: [&str; 32] = [
    "2 values",
    "3 values",
    "599 values",
    "600 values",
    "pitch 1",
    "pitch 60,000",
    "the lowest point 0",
    "the last point 60,000",
    "a pair above 32,767",
    "no pair",
    "one pair",
    "a pair of every two",
    "599 pairs",
    "a pair at the beginning",
    "a pair at the end",
    "a rise through 0",
    "a fall through 0",
    "0 and then above",
    "0 and then below",
    "above and then 0",
    "below and then 0",
    "0 and 0",
    "0 between two above",
    "0 between two below",
    "0 on the way up",
    "0 on the way down",
    "two above",
    "two below",
    "10,000 beside -10,000",
    "10,000 beside 10,000",
    "a product above 0, but not in 16 bits",
    "a product below 0, but above in 16 bits",
];

/// Which of them it has, where these are the lower points of its pairs.
fn surveys_with(survey: &Survey, points: &[u32]) -> Vec<&'static str> {
    let values = &survey.values[..];
    let any = |has: &dyn Fn(i32, i32) -> bool| values.windows(2).any(|two| has(two[0], two[1]));
    let zero_between = |one: i32, other: i32| {
        let around = |three: &[i32]| [three[0].signum(), three[1], three[2].signum()];
        values
            .windows(3)
            .any(|three| around(three) == [one, 0, other])
    };
    let (length, pairs) = (values.len(), points.len());
    let before_last = survey.last() - i64::from(survey.pitch);
    let came = [
        length == 2,
        length == 3,
        length == 599,
        length == 600,
        survey.pitch == 1,
        survey.pitch == 60_000,
        survey.lowest == 0,
        survey.last() == 60_000,
        points.last().is_some_and(|&point| point > 32_767),
        pairs == 0,
        pairs == 1,
        pairs == length - 1,
        pairs == MOST_PAIRS,
        points.first() == Some(&(survey.lowest as u32)),
        points.last() == Some(&(before_last as u32)),
        any(&|one, other| one < 0 && other > 0),
        any(&|one, other| one > 0 && other < 0),
        any(&|one, other| one == 0 && other > 0),
        any(&|one, other| one == 0 && other < 0),
        any(&|one, other| one > 0 && other == 0),
        any(&|one, other| one < 0 && other == 0),
        any(&|one, other| one == 0 && other == 0),
        zero_between(1, 1),
        zero_between(-1, -1),
        zero_between(-1, 1),
        zero_between(1, -1),
        any(&|one, other| one > 0 && other > 0),
        any(&|one, other| one < 0 && other < 0),
        any(&|one, other| one * other == -100_000_000),
        any(&|one, other| one * other == 100_000_000),
        any(&|one, other| one * other > 0 && (one * other) as i16 <= 0),
        any(&|one, other| one * other < 0 && (one * other) as i16 > 0),
    ];
    named(&SURVEYS_WITH, &came)
}

/// Lists that a survey is lent, as they are told in the part's line.
const LISTS: [&str; 10] = [
    "empty for no pair",
    "empty for pairs",
    "too short by one",
    "too short by more",
    "just long enough",
    "longer by one",
    "longer by more",
    "of 599 places",
    "of 600 to 65,535",
    "of more",
];

/// Which of them it is.
fn list(size: usize, pairs: usize) -> &'static str {
    let place = match size {
        0 if pairs == 0 => 0,
        0 => 1,
        _ if size + 1 == pairs => 2,
        _ if size < pairs => 3,
        _ if size == pairs => 4,
        _ if size == pairs + 1 => 5,
        1..MOST_PAIRS => 6,
        MOST_PAIRS => 7,
        MOST_SURVEYED..65_536 => 8,
        _ => 9,
    };
    LISTS[place]
}

/// The searches that pairs open, as they are told in the part's line.
const SEARCHES: [&str; 7] = [
    "method 0",
    "method 1",
    "method 2",
    "tolerance 1",
    "tolerance 5,000",
    "that go on",
    "that have stopped",
];

/// Which of these kinds it is.
fn searches(opening: &Opening, report: &Report) -> Vec<&'static str> {
    let came = [
        opening.method == 0,
        opening.method == 1,
        opening.method == 2,
        opening.tolerance == 1,
        opening.tolerance == 5_000,
        report.kind == Report::NEXT,
        report.kind == Report::STOP,
    ];
    named(&SEARCHES, &came)
}

/// Counts each of these kinds.
pub fn count_all(kinds: &mut Kinds, came: &[&str]) {
    came.iter().for_each(|kind| kinds.count(kind));
}

/// What surveys were tried with nothing wrong in them, and what they had.
struct Taken<'a> {
    tally: &'a mut Tally,
    surveys: Kinds,
    lists: Kinds,
    searches: Kinds,
    /// The pairs that they have, and the other neighbours.
    pairs: u64,
    others: u64,
}

impl Taken<'_> {
    fn new(tally: &mut Tally) -> Taken<'_> {
        Taken {
            tally,
            surveys: Kinds::new(&SURVEYS_WITH),
            lists: Kinds::new(&LISTS),
            searches: Kinds::new(&SEARCHES),
            pairs: 0,
            others: 0,
        }
    }

    /// One more survey with nothing wrong in it, with lists of many lengths. One place fewer than
    /// there are values is always enough.
    fn agrees(&mut self, survey: &Survey, rng: &mut Rng) -> Checked {
        let (all, points) = self.call_agrees(survey, survey.values.len() - 1, rng)?;
        agree(Surveyed::SURVEYED, all.kind, || survey.show())?;
        for size in sizes(points.len(), rng) {
            let told = self.call_agrees(survey, size, rng)?;
            let expected = match size < points.len() {
                true => (Surveyed::refuse(22, 0), vec![]),
                false => (all, points.clone()),
            };
            agree(expected, told, || survey.show())?;
        }
        count_all(&mut self.surveys, &surveys_with(survey, &points));
        claims_hold(survey, &points, rng)?;
        self.neighbours_hold(survey, &points, rng)
    }

    /// One call, which is compared and counted.
    fn call_agrees(&mut self, survey: &Survey, size: usize, rng: &mut Rng) -> Result<Told, String> {
        let told = call_agrees(survey, size, rng)?;
        self.tally.cases += 1;
        self.tally.count_survey(&told.0);
        self.lists.count(list(size, survey.pairs()));
        Ok(told)
    }

    /// Each pair opens a search that accepts its two values, by any method and with any tolerance;
    /// of two other neighbours the second value is refused.
    fn neighbours_hold(&mut self, survey: &Survey, points: &[u32], rng: &mut Rng) -> Checked {
        let mut listed = points.iter().peekable();
        for (place, two) in survey.values.windows(2).enumerate() {
            let opening = any_opening(survey, place, rng);
            let point = opening.first as u32;
            if listed.next_if_eq(&&point).is_some() {
                self.search_holds(&opening, two)?;
                self.pairs += 1;
            } else {
                let input = || format!("{}\nby {opening:?}", survey.show());
                agree(Report::refuse(8, 1), ffi::values(&opening, two), input)?;
                self.others += 1;
            }
        }
        agree(None, listed.next(), || survey.show())
    }

    /// One search that a pair opens, which is counted.
    fn search_holds(&mut self, opening: &Opening, two: &[i32]) -> Checked {
        let report = pair_is_accepted(opening, two)?;
        count_all(&mut self.searches, &searches(opening, &report));
        Ok(())
    }

    fn all_came(&self) -> Checked {
        let Taken { pairs, others, .. } = self;
        println!("neighbours of these surveys: {pairs} pairs, {others} others");
        self.surveys.all_came("surveys with")?;
        self.lists.all_came("lists")?;
        self.searches.all_came("searches of pairs")
    }
}

/// An opening from the point at this place to the next, by any method and with any tolerance.
fn any_opening(survey: &Survey, place: usize, rng: &mut Rng) -> Opening {
    let [lower, upper] = [place, place + 1].map(|place| survey.point(place) as i32);
    Opening::new(rng.pick(&[0, 1, 2]), lower, upper, any_tolerance(rng))
}

/// A tolerance in range, often at a limit.
fn any_tolerance(rng: &mut Rng) -> i32 {
    match rng.below(4) {
        0 => rng.pick(&[1, 5_000]),
        1 => 1 + rng.size().min(4_999),
        _ => rng.between(1, 5_000),
    }
}

/// The search of a pair's opening accepts its two values: as a list, by the model too, and entered into
/// the host's own search, each at the point called for. It gives the report.
fn pair_is_accepted(opening: &Opening, two: &[i32]) -> Result<Report, String> {
    let input = || format!("the values {two:?} by {opening:?}");
    let report = ffi::values(opening, two);
    agree(model::values(opening, two), report, input)?;
    let accepted = [Report::NEXT, Report::STOP].contains(&report.kind);
    agree((true, 2), (accepted, report.taken), input)?;
    let (lower, upper) = (opening.first, opening.second);
    let mut search = Search::BLANK;
    let reports = [
        ffi::open(&mut search, opening),
        ffi::enter(&mut search, lower, two[0]),
        ffi::enter(&mut search, upper, two[1]),
    ];
    let called = [Report::next(lower as u32, 0), Report::next(upper as u32, 1)];
    agree([called[0], called[1], report], reports, input)?;
    let mut holding = Search::fresh(*opening);
    holding.count = 2;
    holding.slots[..2].copy_from_slice(two);
    agree(holding, search, input)?;
    Ok(report)
}

/// What is claimed of the lower points that are listed, apart from the model. They are at the places
/// where two neighbours are not on the same side of target, lowest first. With every value negated they
/// are at the same places, and so they are elsewhere and by another pitch; with the values backwards
/// the places are counted from the end. Two parts that share a trial have the points of the whole.
fn claims_hold(survey: &Survey, points: &[u32], rng: &mut Rng) -> Checked {
    let values = &survey.values;
    let pairs = (0..values.len() - 1).filter(|&k| opposed(values[k], values[k + 1]));
    let places: Vec<usize> = pairs.collect();
    let from_the_end: Vec<usize> = places.iter().rev().map(|k| values.len() - 2 - k).collect();
    let negated = survey.with(values.iter().map(|value| -value).collect());
    let backwards = survey.with(values.iter().rev().copied().collect());
    let pitch = surveys::some_pitch(values.len(), rng);
    let elsewhere = surveys::placed(values.clone(), pitch, rng);
    agree(points_at(survey, &places), points.to_vec(), || {
        survey.show()
    })?;
    for (other, places) in [
        (negated, &places),
        (elsewhere, &places),
        (backwards, &from_the_end),
    ] {
        agree(points_at(&other, places), listed(&other), || {
            format!("{}\nand {}", survey.show(), other.show())
        })?;
    }
    let shared = rng.below(values.len());
    agree(points.to_vec(), of_two_parts(survey, shared), || {
        format!("{}\ncut at place {shared}", survey.show())
    })
}

/// The points at these places.
fn points_at(survey: &Survey, places: &[usize]) -> Vec<u32> {
    let points = places.iter().map(|&place| survey.point(place) as u32);
    points.collect()
}

/// The lower points that the library lists with a list that is always long enough.
fn listed(survey: &Survey) -> Vec<u32> {
    let mut list = vec![0; MOST_PAIRS];
    let told = ffi::survey(survey.lowest, survey.pitch, &survey.values, &mut list);
    list.truncate(told.pairs as usize);
    list
}

/// Those of the two parts of a survey that share the trial at this place. A part of one trial is no
/// survey, and has no pair.
fn of_two_parts(survey: &Survey, shared: usize) -> Vec<u32> {
    let one = survey.with(survey.values[..=shared].to_vec());
    let other = Survey {
        lowest: survey.point(shared) as i32,
        pitch: survey.pitch,
        values: survey.values[shared..].to_vec(),
    };
    [listed(&one), listed(&other)].concat()
}

/// Surveys with nothing wrong in them.
pub fn surveys(rng: &mut Rng, tally: &mut Tally) -> Checked {
    let mut taken = Taken::new(tally);
    for _ in 0..SURVEYS {
        taken.agrees(&surveys::some_survey(rng), rng)?;
    }
    for _ in 0..FULL {
        taken.agrees(&surveys::full_survey(rng), rng)?;
    }
    every_pitch(rng, &mut taken)?;
    taken.all_came()
}

/// A survey of a few values by every pitch, with the searches of its first pair by every method and with
/// the least tolerance, the largest and another.
fn every_pitch(rng: &mut Rng, taken: &mut Taken) -> Checked {
    for pitch in 1..=cases::HIGHEST {
        let most = 1 + (cases::HIGHEST / pitch) as usize;
        let length = 2 + rng.below((most - 1).min(4));
        let mut values = surveys::values(length, rng);
        if !opposed(values[0], values[1]) {
            values[0] = -values[0];
        }
        let survey = surveys::placed(values, pitch, rng);
        taken.agrees(&survey, rng)?;
        for method in 0..=2 {
            for tolerance in [1, 5_000, any_tolerance(rng)] {
                let (lower, upper) = (survey.point(0) as i32, survey.point(1) as i32);
                let opening = Opening::new(method, lower, upper, tolerance);
                taken.search_holds(&opening, &survey.values[..2])?;
            }
        }
    }
    Ok(())
}
