//! The model of the survey, from request 2026-12 and document 01's ranges, and from nothing else.
//! Plain like the model of single searches: every trial is written down with its point, in numbers
//! that no product leaves; the checks are made one after the other; and the pairs are picked from all
//! neighbours, and then put in order.

use crate::types::Surveyed;

/// A trial: its point, and the value measured there.
#[derive(Clone, Copy)]
struct Trial {
    point: i128,
    value: i128,
}

/// The trials of a survey at equal distances, from the lowest point on.
fn trials(lowest: i32, pitch: i32, values: &[i32]) -> Vec<Trial> {
    let point = |pitches: usize| i128::from(lowest) + pitches as i128 * i128::from(pitch);
    let trial = |(pitches, &value)| Trial {
        point: point(pitches),
        value: i128::from(value),
    };
    values.iter().enumerate().map(trial).collect()
}

/// Refusal 21: fewer than 2 or more than 600 values, a pitch below 1, or a point out of range.
fn misplaced(pitch: i32, trials: &[Trial]) -> bool {
    let out_of_range = |trial: &Trial| !(0..=60_000).contains(&trial.point);
    trials.len() < 2 || trials.len() > 600 || pitch < 1 || trials.iter().any(out_of_range)
}

/// Refusal 7: the index of the first value out of range.
fn out_of_range(trials: &[Trial]) -> Option<usize> {
    let mut values = trials.iter().map(|trial| trial.value);
    values.position(|value| !(-10_000..=10_000).contains(&value))
}

/// The neighbouring pairs whose values have a zero or negative product.
fn pairs(trials: &[Trial]) -> Vec<(Trial, Trial)> {
    let neighbours = trials.windows(2).map(|two| (two[0], two[1]));
    let product = |one: Trial, other: Trial| one.value * other.value;
    neighbours
        .filter(|&(one, other)| product(one, other) == 0 || product(one, other) < 0)
        .collect()
}

/// The lower points of a survey's pairs, lowest first, or the refusal of the survey itself.
pub fn lower_points(lowest: i32, pitch: i32, values: &[i32]) -> Result<Vec<u32>, Surveyed> {
    let trials = trials(lowest, pitch, values);
    if misplaced(pitch, &trials) {
        return Err(Surveyed::refuse(21, 0));
    }
    if let Some(index) = out_of_range(&trials) {
        return Err(Surveyed::refuse(7, index as u32));
    }
    let pairs = pairs(&trials).into_iter();
    let lower = pairs.map(|(one, other)| one.point.min(other.point) as u32);
    let mut points: Vec<u32> = lower.collect();
    points.sort();
    Ok(points)
}

/// The survey with a lent list. Past the pairs, and where something is refused, it stays as it is.
pub fn survey(lowest: i32, pitch: i32, values: &[i32], list: &mut [u32]) -> Surveyed {
    let points = match lower_points(lowest, pitch, values) {
        Ok(points) => points,
        Err(refusal) => return refusal,
    };
    if list.len() < points.len() {
        return Surveyed::refuse(22, 0);
    }
    for (place, point) in list.iter_mut().zip(&points) {
        *place = *point;
    }
    Surveyed::found(points.len() as u32)
}
