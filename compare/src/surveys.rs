//! Surveys made at random, of every kind that a host may bring.

use crate::cases::HIGHEST;
use crate::rng::Rng;
use crate::types::MOST_SURVEYED;

/// A survey as a host brings it: the lowest point, the pitch and the values.
#[derive(Clone, PartialEq, Eq)]
pub struct Survey {
    pub lowest: i32,
    pub pitch: i32,
    pub values: Vec<i32>,
}

impl Survey {
    /// The point at this place, in range or out of it.
    pub fn point(&self, place: usize) -> i64 {
        i64::from(self.lowest) + place as i64 * i64::from(self.pitch)
    }

    /// The point of the last value; the lowest one where there is no value.
    pub fn last(&self) -> i64 {
        self.point(self.values.len().saturating_sub(1))
    }

    /// How many neighbours have a zero or negative product, whatever else is wrong with the survey.
    pub fn pairs(&self) -> usize {
        let neighbours = self.values.windows(2);
        neighbours.filter(|two| opposed(two[0], two[1])).count()
    }

    /// The same with these values.
    pub fn with(&self, values: Vec<i32>) -> Survey {
        Survey {
            lowest: self.lowest,
            pitch: self.pitch,
            values,
        }
    }

    /// The survey for the eye, with no more values than it takes to see that they are too many.
    pub fn show(&self) -> String {
        let Survey {
            lowest,
            pitch,
            values,
        } = self;
        let shown = &values[..values.len().min(601)];
        let length = values.len();
        format!("a survey from {lowest} by {pitch} of {length} values: {shown:?}")
    }
}

/// Neither both above 0 nor both below it.
pub fn opposed(one: i32, other: i32) -> bool {
    one.signum() * other.signum() != 1
}

/// Values in range at a limit, of the range and of a sign; and values out of range: the first on
/// either side, those that some other width has in range, and the largest and least of all.
pub const VALUES_AT_LIMITS: [i32; 7] = [-10_000, -9_999, -1, 0, 1, 9_999, 10_000];
pub const VALUES_OUT_OF_RANGE: [i32; 12] = [
    i32::MIN,
    i32::MIN + 1,
    -65_536,
    -20_000,
    -10_002,
    -10_001,
    10_001,
    10_002,
    20_000,
    65_536,
    i32::MAX - 1,
    i32::MAX,
];

/// A value out of range.
pub fn out_of_range(rng: &mut Rng) -> i32 {
    let any = rng.any();
    match rng.below(4) {
        0 if !(-10_000..=10_000).contains(&any) => any,
        _ => rng.pick(&VALUES_OUT_OF_RANGE),
    }
}

/// The ways in which values may come along a survey.
#[derive(Clone, Copy)]
enum Way {
    /// Of any size, above target and below.
    Any,
    /// On target mostly.
    OnTarget,
    /// On target, or next to it.
    Near,
    /// At the limits.
    Limits,
    /// On one side of target, with one on target now and then.
    OneSide,
    /// By turns above and below.
    Turns,
    /// Above for a while, then below for a while, and so on.
    Whiles,
    /// A zigzag.
    Zigzag,
}

/// So many values in range.
pub fn values(length: usize, rng: &mut Rng) -> Vec<i32> {
    use Way::*;
    let way = rng.pick(&[Any, OnTarget, Near, Limits, OneSide, Turns, Whiles, Zigzag]);
    let seldom = 2 + rng.below(60);
    let mut side = rng.pick(&[1, -1]);
    if let Zigzag = way {
        let (height, step) = (1 + rng.size().min(9_999), 1 + rng.size());
        return zigzag(length, height, step, rng);
    }
    let mut one = || {
        let turns = match way {
            Turns => true,
            Whiles => rng.once_in(seldom),
            _ => false,
        };
        side *= if turns { -1 } else { 1 };
        value(way, side, seldom, rng)
    };
    (0..length).map(|_| one()).collect()
}

/// A value that this way may have when it is on this side of target, and what is seldom is so seldom.
fn value(way: Way, side: i32, seldom: usize, rng: &mut Rng) -> i32 {
    let size = rng.size();
    match way {
        Way::Any => size * rng.pick(&[1, -1]),
        Way::OnTarget if rng.once_in(4) => size * rng.pick(&[1, -1]),
        Way::OnTarget => 0,
        Way::Near => rng.between(-1, 1),
        Way::Limits => rng.pick(&VALUES_AT_LIMITS),
        Way::OneSide if rng.once_in(seldom) => 0,
        _ => side * size.max(1),
    }
}

/// So many values up and down between a height, up to 10,000, and as far below 0, by such steps.
fn zigzag(length: usize, height: i32, step: i32, rng: &mut Rng) -> Vec<i32> {
    let start = rng.between(0, 4 * height);
    let turn = |steps: usize| (start + steps as i32 * step) % (4 * height);
    let value = |steps| (turn(steps) - 2 * height).abs() - height;
    (0..length).map(value).collect()
}

/// How many values: mostly a few, and often as many as are taken or a few less.
pub fn some_length(rng: &mut Rng) -> usize {
    match rng.below(32) {
        0 => rng.pick(&[598, 599, 600]),
        1 => 2 + rng.below(599),
        2..=5 => 2 + rng.below(60),
        6..=9 => 2,
        _ => 3 + rng.below(8),
    }
}

/// The pitches between so many values, which are 2 or more.
fn pitches(length: usize) -> i32 {
    length as i32 - 1
}

/// A pitch at which so many values, of up to 60,001, are in range.
pub fn some_pitch(length: usize, rng: &mut Rng) -> i32 {
    let widest = HIGHEST / pitches(length.max(2));
    match rng.below(4) {
        0 => 1,
        1 => widest,
        2 => rng.size().clamp(1, widest),
        _ => rng.between(1, widest),
    }
}

/// The values from some lowest point on, by a pitch at which they are in range: at one end of it, at
/// the other, or between.
pub fn placed(values: Vec<i32>, pitch: i32, rng: &mut Rng) -> Survey {
    let highest = HIGHEST - pitches(values.len().max(2)) * pitch;
    let lowest = match rng.below(4) {
        0 => 0,
        1 => highest,
        _ => rng.between(0, highest),
    };
    Survey {
        lowest,
        pitch,
        values,
    }
}

/// A survey of so many values, up to 60,001, with its points and its values in range.
pub fn survey_of(length: usize, rng: &mut Rng) -> Survey {
    let pitch = some_pitch(length, rng);
    placed(values(length, rng), pitch, rng)
}

/// A survey with nothing wrong in it.
pub fn some_survey(rng: &mut Rng) -> Survey {
    survey_of(some_length(rng), rng)
}

/// A survey of as many values as are taken, with a pair at every place: by turns above and below, or
/// all on target but for some that have such neighbours.
pub fn full_survey(rng: &mut Rng) -> Survey {
    let on_target = rng.once_in(2);
    let mut side = rng.pick(&[1, -1]);
    let mut one = |place: usize| {
        side = -side;
        match on_target && place.is_multiple_of(2) {
            true => 0,
            false => side * rng.size().max(1),
        }
    };
    let values = (0..MOST_SURVEYED).map(&mut one).collect();
    let pitch = some_pitch(MOST_SURVEYED, rng);
    placed(values, pitch, rng)
}

/// A survey of as many values as are taken that rises and falls through 0, up to some 30 times in all.
pub fn few_pairs(rng: &mut Rng) -> Survey {
    let height = rng.between(1_000, 10_000);
    let step = height * rng.between(1, 15) / 150;
    let values = zigzag(MOST_SURVEYED, height, step, rng);
    let pitch = some_pitch(MOST_SURVEYED, rng);
    placed(values, pitch, rng)
}

/// Lowest points, pitches and numbers of values at and around their limits, and where products or sums
/// would leave 16 bits or 32.
pub const LOWEST_AT_LIMITS: [i32; 22] = [
    i32::MIN,
    i32::MIN + 1,
    -65_536,
    -60_001,
    -60_000,
    -2,
    -1,
    0,
    1,
    2,
    100,
    101,
    30_000,
    59_401,
    59_402,
    59_999,
    60_000,
    60_001,
    65_535,
    65_536,
    i32::MAX - 1,
    i32::MAX,
];
pub const PITCHES_AT_LIMITS: [i32; 22] = [
    i32::MIN,
    i32::MIN + 1,
    -65_536,
    -60_000,
    -1,
    0,
    1,
    2,
    99,
    100,
    101,
    30_000,
    30_001,
    59_999,
    60_000,
    60_001,
    65_535,
    65_536,
    1 << 24,
    1 << 30,
    i32::MAX - 1,
    i32::MAX,
];
pub const LENGTHS_AT_LIMITS: [usize; 11] = [0, 1, 2, 3, 4, 5, 257, 599, 600, 601, 602];

/// Lengths of surveys with too few values or too many: next to the limits, and farther away.
const WRONG_LENGTHS: [usize; 8] = [0, 1, 601, 602, 700, 857, 1_000, 1_200];

/// Pitches below 1.
const WRONG_PITCHES: [i32; 8] = [0, -1, -2, -100, -60_000, -65_536, i32::MIN + 1, i32::MIN];

/// Lowest points out of range.
const WRONG_LOWESTS: [i32; 8] = [
    i32::MIN,
    -60_000,
    -2,
    -1,
    HIGHEST + 1,
    65_535,
    65_536,
    i32::MAX,
];

/// Makes the number of values wrong, or the pitch, or some points, or some values.
pub fn spoil(survey: &mut Survey, rng: &mut Rng) {
    match rng.below(8) {
        0 => survey.values = values(rng.pick(&WRONG_LENGTHS), rng),
        1 => survey.pitch = rng.pick(&WRONG_PITCHES),
        2 => turn_round(survey),
        3 => survey.lowest = rng.pick(&WRONG_LOWESTS),
        4 => move_down(survey, rng),
        5 => move_up(survey, rng),
        _ => spoil_values(&mut survey.values, rng),
    }
}

/// The same points from the last to the lowest: the pitch is negated.
fn turn_round(survey: &mut Survey) {
    survey.lowest = in_32_bits(survey.last());
    survey.pitch = in_32_bits(-i64::from(survey.pitch));
}

/// The lowest point below 0, and the last in range where it can be.
fn move_down(survey: &mut Survey, rng: &mut Rng) {
    let span = survey.last() - i64::from(survey.lowest);
    survey.lowest = rng.between(in_32_bits(-span.max(1)), -1);
}

/// The last point above the highest, often just above, and the lowest in range where it can be.
fn move_up(survey: &mut Survey, rng: &mut Rng) {
    let by = match rng.below(3) {
        0 => rng.between(1, HIGHEST),
        _ => rng.pick(&[1, 1, 2, 5_536]),
    };
    let moved = i64::from(HIGHEST + by) - survey.last();
    survey.lowest = in_32_bits(i64::from(survey.lowest) + moved);
}

/// The number itself, or the nearest that 32 bits have.
fn in_32_bits(number: i64) -> i32 {
    number.clamp(i32::MIN.into(), i32::MAX.into()) as i32
}

/// Makes one value wrong, or two or three: the first, the last, or some other.
pub fn spoil_values(values: &mut [i32], rng: &mut Rng) {
    for _ in 0..rng.pick(&[1, 1, 2, 3]) {
        let last = values.len().saturating_sub(1);
        let place = match rng.below(4) {
            0 => 0,
            1 => last,
            _ => rng.below(last + 1),
        };
        if let Some(value) = values.get_mut(place) {
            *value = out_of_range(rng);
        }
    }
}

/// A survey of so many values, 2 or more, whose last point is out of range, but would be in range in so
/// few bits; none where no pitch brings it there.
pub fn wrapped(length: usize, bits: u32, rng: &mut Rng) -> Option<Survey> {
    let pitches = pitches(length) as u64;
    let most_turns = (pitches * i32::MAX as u64) >> bits;
    if most_turns == 0 {
        return None;
    }
    let turns = 1 + rng.below(most_turns as usize) as u64;
    let pitch = (turns << bits).div_ceil(pitches);
    let over = pitches * pitch - (turns << bits);
    Some(Survey {
        lowest: rng.between(0, HIGHEST - over as i32),
        pitch: pitch as i32,
        values: values(length, rng),
    })
}
