//! Openings, lists of values, held searches and dispatchers made at random, of every kind that a host
//! may bring.

use crate::model::{self, Book, Reading};
use crate::rng::Rng;
use crate::types::{Dispatcher, Opening, Search, DRYERS, SLOTS};
use std::array;

/// The highest point, for all that makes cases; model.rs and plain.rs each have their own.
pub const HIGHEST: i32 = 60_000;

/// Points in range at a limit: of the range, of the one before request 2026-06, and of 16 bits with
/// a sign.
pub const POINTS_AT_LIMITS: [i32; 9] = [
    0,
    1,
    19_999,
    20_000,
    20_001,
    32_767,
    32_768,
    HIGHEST - 1,
    HIGHEST,
];

/// Points above the range: the first of them, the limits of 16 bits without a sign, and twice the
/// highest.
pub const POINTS_ABOVE: [i32; 4] = [HIGHEST + 1, 65_535, 65_536, 2 * HIGHEST];

/// The least count of a held search that is too high.
pub const COUNT_ABOVE: u32 = SLOTS as u32 + 1;

/// Counts that are too high: the least two, and large ones.
pub const COUNTS_ABOVE: [u32; 6] = [
    COUNT_ABOVE,
    COUNT_ABOVE + 1,
    100,
    1 << 16,
    1 << 31,
    u32::MAX,
];

/// The opening whose search may need the most answers: the whole range at the least tolerance.
pub const fn widest(method: i32) -> Opening {
    Opening::new(method, 0, HIGHEST, 1)
}

/// An opening with nothing wrong in it, of every width, every tolerance and every share.
pub fn accepted_opening(rng: &mut Rng) -> Opening {
    let opening = opening_without_share(rng);
    opening.with_share(share(rng))
}

/// A share in range: every second one is 0, and of the others every second one is at a limit or next
/// to it.
pub fn share(rng: &mut Rng) -> i32 {
    match rng.below(8) {
        0..=3 => 0,
        4 | 5 => rng.pick(&[1, 99, 100]),
        _ => rng.between(0, 100),
    }
}

/// An opening with nothing wrong in it and a share of 0.
pub fn opening_without_share(rng: &mut Rng) -> Opening {
    let method = rng.pick(&[0, 1, 1, 2, 2]);
    let first = end(rng);
    let mut second = first;
    while second == first {
        second = match rng.below(4) {
            0 => (first + sign(rng) * rng.size()).clamp(0, HIGHEST),
            _ => end(rng),
        };
    }
    let tolerance = match rng.below(8) {
        0 => rng.pick(&[50, 4_999, 5_000]),
        1 => rng.between(1, 5_000),
        2 => rng.between(1, 100),
        3 | 4 => rng.between(1, 10),
        _ => 1,
    };
    Opening::new(method, first, second, tolerance)
}

/// An end in range, often at a limit.
fn end(rng: &mut Rng) -> i32 {
    match rng.below(6) {
        0 => rng.pick(&POINTS_AT_LIMITS),
        1 => rng.pick(&[2, 3, 100, 10_000]),
        _ => point(rng),
    }
}

/// Any point in range.
pub fn point(rng: &mut Rng) -> i32 {
    rng.between(0, HIGHEST)
}

fn sign(rng: &mut Rng) -> i32 {
    rng.pick(&[1, -1])
}

/// An opening of any kind. One in eight is spoilt, often in more than one way.
pub fn any_opening(rng: &mut Rng) -> Opening {
    let mut opening = accepted_opening(rng);
    if rng.once_in(8) {
        for _ in 0..1 + rng.below(3) {
            spoil(&mut opening, rng);
        }
    }
    opening
}

/// An opening of any kind for an old search: three in four of those with method 1 or 2 have 0, the
/// house default.
pub fn old_opening(rng: &mut Rng) -> Opening {
    let mut opening = any_opening(rng);
    if [1, 2].contains(&opening.method) && !rng.once_in(4) {
        opening.method = 0;
    }
    opening
}

/// An opening with something wrong in it, often more than one thing.
pub fn refused_opening(rng: &mut Rng) -> Opening {
    let mut opening = accepted_opening(rng);
    while model::refused_opening(&opening).is_none() || rng.once_in(3) {
        spoil(&mut opening, rng);
    }
    opening
}

/// Makes one of the five numbers wrong, or the ends equal.
fn spoil(opening: &mut Opening, rng: &mut Rng) {
    match rng.below(6) {
        0 => opening.method = wrong(&[3, 4, 10], rng),
        1 => opening.first = wrong(&POINTS_ABOVE, rng),
        2 => opening.second = wrong(&POINTS_ABOVE, rng),
        3 => opening.second = opening.first,
        4 => opening.share = wrong(&[101, 1_000, -100], rng),
        _ => opening.tolerance = wrong(&[0, 5_001], rng),
    }
}

/// One of these, or a number that is out of every range.
fn wrong(these: &[i32], rng: &mut Rng) -> i32 {
    match rng.below(8) {
        0 => i32::MIN,
        1 => i32::MAX,
        2 => -1,
        3 => rng.any(),
        _ => rng.pick(these),
    }
}

/// A value of any kind, in range or out of it.
pub fn any_value(rng: &mut Rng) -> i32 {
    match rng.below(16) {
        0 => sign(rng) * rng.pick(&[9_999, 10_000, 10_001]),
        1 => sign(rng) * wrong(&[10_001, 20_000], rng).max(-i32::MAX),
        2 => i32::MIN,
        3 => 0,
        _ => sign(rng) * rng.size(),
    }
}

/// The ways in which the value may hang on the point.
#[derive(Clone, Copy)]
enum Curve {
    Linear,
    Cubic,
    Step,
    Steep,
    Noisy,
    /// Mostly the sign of the better end, which makes searches long.
    Signs,
    /// No way at all.
    Any,
}

/// The oven: it has a value for every point called for.
pub struct Oven {
    curve: Curve,
    /// Where the value crosses 0: above the lower end, and not above the upper.
    root: i64,
    /// 1 if the value rises with the point, −1 if it falls.
    rise: i64,
    /// How steep or how high the curve is, 1 to 10,000.
    scale: i64,
}

impl Oven {
    pub fn new(opening: &Opening, rng: &mut Rng) -> Self {
        use Curve::*;
        let curve = rng.pick(&[Linear, Cubic, Step, Steep, Noisy, Signs, Signs, Any]);
        let (first, second) = (opening.first, opening.second);
        let root = rng.between(first.min(second) + 1, first.max(second));
        Oven {
            curve,
            root: root.into(),
            rise: sign(rng).into(),
            scale: rng.size().max(1).into(),
        }
    }

    /// The value at the point that the book calls for, always in range.
    pub fn value(&self, book: &Book, point: i32, rng: &mut Rng) -> i32 {
        let x = i64::from(point) - self.root;
        let size = self.scale;
        let rising = match self.curve {
            Curve::Linear => x * size / 100,
            Curve::Cubic => x * x * x / (size * size),
            Curve::Step => {
                if x < 0 {
                    -size
                } else {
                    10_001 - size
                }
            }
            Curve::Steep => exponential(x, size),
            Curve::Noisy => x * size / 100 + i64::from(rng.between(-50, 50)),
            Curve::Signs => return awkward(book, x, rng),
            Curve::Any => i64::from(sign(rng) * rng.size()),
        };
        (self.rise * rising).clamp(-10_000, 10_000) as i32
    }
}

/// 100·2^(x/width) − 100, straight between the whole powers.
fn exponential(x: i64, width: i64) -> i64 {
    let power = x.div_euclid(width).clamp(-20, 20);
    let part = 100 * (width + x.rem_euclid(width)) / width;
    let size = if power < 0 {
        part >> -power
    } else {
        part << power
    };
    size - 100
}

/// A value that is mostly on the side of the better end and often close to its value.
fn awkward(book: &Book, x: i64, rng: &mut Rng) -> i32 {
    let Some((better, _)) = book.ends() else {
        return if x < 0 { -rng.size() } else { rng.size() };
    };
    let value = better.value as i32;
    let size = match rng.below(4) {
        0 => (value.abs() + rng.between(-1, 1)).clamp(0, 10_000),
        1 => value.abs() / 2,
        _ => rng.size(),
    };
    let side = if value < 0 { -1 } else { 1 };
    size * if rng.once_in(8) { -side } else { side }
}

/// The book of a search that is answered by an oven up to its stop.
pub fn answered(opening: Opening, rng: &mut Rng) -> Book {
    answered_from(opening, &[], rng)
}

/// The same with these values, which are accepted, before the oven's.
pub fn answered_from(opening: Opening, values: &[i32], rng: &mut Rng) -> Book {
    to_its_stop(Book::of(opening, values), rng)
}

/// A book that an oven answers from where it stands up to its stop.
pub fn to_its_stop(mut book: Book, rng: &mut Rng) -> Book {
    let oven = Oven::new(book.opening(), rng);
    while let Some(point) = book.called() {
        let value = oven.value(&book, point, rng);
        // A second value on the side of the first is refused: it is taken over to the other side.
        let before = book.answers().len();
        book.offer(point, value);
        if book.answers().len() == before {
            book.offer(point, -value);
        }
    }
    book
}

/// A list of values for any opening: as they were called for, or altered, or of any kind.
pub fn any_list(rng: &mut Rng) -> (Opening, Vec<i32>) {
    let opening = any_opening(rng);
    (opening, any_list_of(opening, model::TODAY, rng))
}

/// Such a list for this opening, called for by this reading of its method.
fn any_list_of(opening: Opening, reading: Reading, rng: &mut Rng) -> Vec<i32> {
    if model::refused_opening(&opening).is_some() || rng.once_in(16) {
        let n = rng.pick(&[0, 1, 2, 3, 10, 90]);
        return (0..n).map(|_| any_value(rng)).collect();
    }
    let mut values = to_its_stop(reading.book(opening), rng).values();
    match rng.below(8) {
        0 => values.truncate(rng.below(values.len())),
        1 => lengthen(&mut values, rng),
        2 | 3 => {
            let at = rng.below(values.len());
            values[at] = any_value(rng);
        }
        4 => {
            let at = rng.below(values.len());
            values[at] = -values[at];
        }
        _ => (),
    }
    values
}

/// Makes a list too long, mostly by a few values.
fn lengthen(values: &mut Vec<i32>, rng: &mut Rng) {
    let more = match rng.below(8) {
        0 => (SLOTS + 1).saturating_sub(values.len()),
        1 => rng.below(200),
        _ => 1 + rng.below(3),
    };
    values.extend((0..more).map(|_| any_value(rng)));
}

/// A held search of any kind: slots past its count hold anything, and its count may be too high.
pub fn any_search(rng: &mut Rng) -> Search {
    any_search_of(any_opening(rng), model::TODAY, rng)
}

/// Such a search of this opening, called for by this reading of its method.
pub fn any_search_of(opening: Opening, reading: Reading, rng: &mut Rng) -> Search {
    let values = any_list_of(opening, reading, rng);
    let mut search = Search::fresh(opening);
    if rng.once_in(2) {
        search.slots.fill_with(|| rng.any());
    }
    let n = values.len().min(SLOTS);
    search.slots[..n].copy_from_slice(&values[..n]);
    search.count = match rng.below(16) {
        0 => rng.pick(&COUNTS_ABOVE),
        1 => rng.below(SLOTS + 1) as u32,
        2 => SLOTS as u32,
        _ => n as u32,
    };
    search
}

/// A search that is accepted and unfinished. Slots past its count may hold anything.
fn search_on_its_way(rng: &mut Rng) -> Search {
    let opening = accepted_opening(rng);
    let values = answered(opening, rng).values();
    let mut search = Book::of(opening, &values[..rng.below(values.len())]).search();
    if rng.once_in(2) {
        let count = search.count as usize;
        search.slots[count..].fill_with(|| rng.any());
    }
    search
}

/// A dispatcher of any kind: each dryer has a search that is on its way, one of any kind or none;
/// the mark and the counts are mostly at or around their limits.
pub fn any_dispatcher(rng: &mut Rng) -> Dispatcher {
    let mut dispatcher = Dispatcher::fresh();
    for search in &mut dispatcher.searches {
        match rng.below(5) {
            0 => (),
            1 | 2 => *search = any_search(rng),
            _ => *search = search_on_its_way(rng),
        }
    }
    dispatcher.last = match rng.below(16) {
        0 => rng.any() as u32,
        _ => rng.pick(&[0, 1, 2, 3, 4, 5, 6, 7, u32::MAX]),
    };
    dispatcher.counts = any_counts(rng);
    dispatcher
}

/// The six counts of a dispatcher: mostly at or around the ceiling, each of them alone, one beside
/// five small ones, or all in sum; sometimes 0, and sometimes anything.
fn any_counts(rng: &mut Rng) -> [u32; DRYERS] {
    match rng.below(8) {
        0 => [0; DRYERS],
        1 => array::from_fn(|_| rng.any() as u32),
        2 | 3 => array::from_fn(|_| around_ceiling(rng)),
        4 => {
            let mut counts = array::from_fn(|_| rng.below(3) as u32);
            counts[rng.below(DRYERS)] = around_ceiling(rng);
            counts
        }
        _ => around_ceiling_in_sum(rng),
    }
}

/// A count that mostly is close to the ceiling.
fn around_ceiling(rng: &mut Rng) -> u32 {
    match rng.below(8) {
        0 => 0,
        1 => u32::MAX,
        _ => rng.between(999_999_997, 1_000_000_001) as u32,
    }
}

/// Six counts far below the ceiling, whose sum is close to it.
fn around_ceiling_in_sum(rng: &mut Rng) -> [u32; DRYERS] {
    let mut counts = array::from_fn(|_| rng.between(100_000_000, 190_000_000) as u32);
    let others: u32 = counts[1..].iter().sum();
    counts[0] = rng.between(999_999_990, 1_000_000_001) as u32 - others;
    counts.rotate_right(rng.below(DRYERS));
    counts
}

/// A point that is mostly not the one called for.
pub fn any_point(opening: &Opening, called: i32, rng: &mut Rng) -> i32 {
    match rng.below(8) {
        0 => opening.first,
        1 => opening.second,
        2 => called - 1,
        3 => -called,
        4 => wrong(&[0, HIGHEST, HIGHEST + 1], rng),
        5 => point(rng),
        _ => called + 1,
    }
}
