//! The trial load: the comparison's parts on draws and on the loads that seeds make.

use crate::checks::{agree, named, search_as_sheet, Checked, Kinds, Tally};
use crate::clean::written;
use crate::rng::Rng;
use crate::sheets::Text;
use crate::types::{Answered, Opening, Report, Search, LARGEST_SEED, LONGEST_REPLY, SLOTS};
use crate::{ffi, load_model, model, requests};
use std::ops::RangeInclusive;

/// How many numbers are tried on each side of a limit, of a power of two, and of an edge of draws.
const AT_A_LIMIT: u64 = 10_000;
const BESIDE_A_POWER: u64 = 50;
const BESIDE_AN_EDGE: u64 = 2;

/// After how many numbers of any size a draw is tried; and how many seeds, in range and above it, and
/// with each of the draws that are wanted.
const DRAWS: usize = 1_000_000;
const SEEDS: usize = 300_000;
const SEEDS_ABOVE: usize = 5_000;
const WITH_A_DRAW: usize = 5_000;

/// The modulus of the draws, their multiplier, and what undoes a draw: by the modulus the product of
/// these two is 1.
const MODULUS: u64 = 2_147_483_647;
const MULTIPLIER: u64 = 16_807;
const UNDOES_A_DRAW: u64 = 1_407_677_000;
const _: () = assert!(MULTIPLIER * UNDOES_A_DRAW % MODULUS == 1);

/// The modulus divided by the multiplier, and what is left.
const QUOTIENT: u64 = 127_773;
const LEFT: u64 = 2_836;
const _: () = assert!(QUOTIENT * MULTIPLIER + LEFT == MODULUS);

/// How many points there are, and what undoes the multiplier less 1 by this number.
const POINTS: u64 = 60_001;
const UNDOES_ONE_LESS: u64 = 59_162;
const _: () = assert!((MULTIPLIER - 1) * UNDOES_ONE_LESS % POINTS == 1);

/// How many values there are; and counted from the lowest, which of them is 0, and which are 0, next to
/// 0 or at their limits.
const VALUES: u32 = 20_001;
const ZERO: u32 = 10_000;
const VALUES_AT_LIMITS: [u32; 5] = [0, ZERO - 1, ZERO, ZERO + 1, VALUES - 1];

/// Draws that are wanted: which one after the seed, by what it is divided, and what is left. They
/// make ends at their limits and next to them, the least tolerances and the largest, and first, second
/// and third values of 0, next to 0 and at their limits.
const WANTED: [(usize, u32, &[u32]); 6] = [
    (1, 60_001, &[0, 1, 59_999, 60_000]),
    (2, 60_001, &[0, 1, 59_999, 60_000]),
    (3, 5_000, &[0, 1, 2, 3, 4, 5, 6, 7, 4_998, 4_999]),
    (5, VALUES, &VALUES_AT_LIMITS),
    (6, VALUES, &VALUES_AT_LIMITS),
    (7, VALUES, &VALUES_AT_LIMITS),
];

/// The seeds whose loads have 23 answers, four by M and six by R. None has more: plain.rs was run once
/// on every seed.
const LONG: [u32; 10] = [
    467_267_962,
    632_430_209,
    1_195_399_133,
    1_869_948_444,
    1_051_411_030,
    1_098_073_067,
    1_280_470_691,
    1_343_969_711,
    1_422_603_867,
    1_655_497_921,
];

/// Numbers that are drawn after, as they are told in the part's line.
const DRAWN_AFTER: [&str; 4] = [
    "a seed up to 127,773",
    "a larger one with a difference above 0",
    "a larger one with a difference below 0",
    "a number that is no seed",
];

/// Which of them it is.
fn drawn_after(last: u32) -> &'static str {
    let place = match last {
        1..=127_773 => 0,
        127_774..=LARGEST_SEED if difference(last) > 0 => 1,
        127_774..=LARGEST_SEED => 2,
        _ => 3,
    };
    DRAWN_AFTER[place]
}

/// What Park and Miller draw by in 32 bits with a sign, for no product leaves them: the draw, where it
/// is above 0, and otherwise the draw less the modulus.
fn difference(last: u32) -> i32 {
    let (quotient, multiplier, left) = (QUOTIENT as i32, MULTIPLIER as i32, LEFT as i32);
    let last = last as i32;
    multiplier * (last % quotient) - left * (last / quotient)
}

/// Draws after numbers of every size, and the 10,000th from seed 1, which is published.
pub fn draws(rng: &mut Rng, tally: &mut Tally) -> Checked {
    let mut kinds = Kinds::new(&DRAWN_AFTER);
    let edges = [at_limits(), edges()].concat();
    let any = (0..DRAWS).map(|_| rng.any() as u32);
    for last in edges.into_iter().chain(any) {
        draw_agrees(last)?;
        tally.cases += 1;
        tally.count_draw();
        kinds.count(drawn_after(last));
    }
    let published = (0..10_000).fold(1, |last, _| ffi::draw(last));
    agree(1_043_618_065, published, || "10,000 draws".to_string())?;
    kinds.all_came("draws after")
}

/// Numbers at and around the limits of seeds and of 32 bits, and around the powers of two.
fn at_limits() -> Vec<u32> {
    let limits = [0, u64::from(LARGEST_SEED), u64::from(u32::MAX)];
    let at_limits = limits.iter().flat_map(|&limit| around(limit, AT_A_LIMIT));
    let at_powers = (0..=32).flat_map(|power| around(1 << power, BESIDE_A_POWER));
    at_limits.chain(at_powers).filter_map(in_32_bits).collect()
}

/// Numbers next to those where a way to draw may have a border: every multiple of the modulus divided
/// by the multiplier, and every multiple of the quotient.
fn edges() -> Vec<u32> {
    let times = 0..=u64::from(u32::MAX) / QUOTIENT;
    let edges = times.flat_map(|times| [times * MODULUS / MULTIPLIER, times * QUOTIENT]);
    let numbers = edges.flat_map(|edge| around(edge, BESIDE_AN_EDGE));
    numbers.filter_map(in_32_bits).collect()
}

/// A number and so many on each side of it.
fn around(number: u64, beside: u64) -> RangeInclusive<u64> {
    number.saturating_sub(beside)..=number + beside
}

fn in_32_bits(number: u64) -> Option<u32> {
    number.try_into().ok()
}

/// One draw: it is the model's. After a seed it is a seed, from which one comes back, and the one that
/// Park and Miller draw in 32 bits.
fn draw_agrees(last: u32) -> Checked {
    let input = || format!("the draw after {last}");
    let draw = ffi::draw(last);
    agree(load_model::draw(last), draw, input)?;
    if !is_seed(last) {
        return Ok(());
    }
    agree((true, last), (is_seed(draw), seed_of(draw, 1)), input)?;
    let in_32_bits = match difference(last) {
        above @ 1.. => above,
        below => below + MODULUS as i32,
    };
    agree(in_32_bits as u32, draw, input)
}

fn is_seed(number: u32) -> bool {
    (1..=LARGEST_SEED).contains(&number)
}

/// The seed after which this is the draw that is wanted: the first, the second and so on.
fn seed_of(draw: u32, wanted: usize) -> u32 {
    let back = |seed, _| seed * UNDOES_A_DRAW % MODULUS;
    (0..wanted).fold(u64::from(draw), back) as u32
}

/// What loads have, as it is told in the part's line: what a wrong rule would make otherwise.
const LOADS_WITH: [&str; 24] = [
    "M",
    "R",
    "x0 below x1",
    "x0 above x1",
    "x1 drawn equal to x0",
    "x0 of 0",
    "x0 of 60,000",
    "x1 of 0",
    "x1 of 60,000",
    "tolerance 1",
    "tolerance 5,000",
    "a second value negated, drawn above 0",
    "a second value negated, drawn below 0",
    "a second value above 0 after one below",
    "a second value below 0 after one above",
    "a second value above 0 after 0",
    "a second value below 0 after 0",
    "a second value of 0",
    "a third value of the first's sign",
    "a third value of the second's sign",
    "a value of 10,000",
    "a value of -10,000",
    "two answers",
    "15 answers or more",
];

/// Which of them a load has whose first draws are these.
fn loads_with(draws: &[u32], search: &Search) -> Vec<&'static str> {
    let Opening {
        method,
        first,
        second,
        tolerance,
        ..
    } = search.opening;
    let [one, two, three, ..] = search.slots;
    let drawn = (draws[5] % VALUES) as i32 - ZERO as i32;
    let values = &search.slots[..search.count as usize];
    let came = [
        method == 1,
        method == 2,
        first < second,
        first > second,
        u64::from(draws[0]) % POINTS == u64::from(draws[1]) % POINTS,
        first == 0,
        first == 60_000,
        second == 0,
        second == 60_000,
        tolerance == 1,
        tolerance == 5_000,
        one > 0 && drawn > 0,
        one < 0 && drawn < 0,
        one < 0 && drawn > 0,
        one > 0 && drawn < 0,
        one == 0 && two > 0,
        one == 0 && two < 0,
        one != 0 && two == 0,
        one * three > 0,
        two * three > 0,
        values.contains(&10_000),
        values.contains(&-10_000),
        values.len() == 2,
        values.len() >= 15,
    ];
    named(&LOADS_WITH, &came)
}

/// Seeds that are refused, as they are told in the part's line.
const SEEDS_REFUSED: [&str; 3] = ["0", "2,147,483,647", "above that"];

/// Which of them it is.
fn seed_refused(seed: u32) -> &'static str {
    let place = match seed {
        0 => 0,
        2_147_483_647 => 1,
        _ => 2,
    };
    SEEDS_REFUSED[place]
}

/// What loads were tried, and what they had.
struct Told<'a> {
    tally: &'a mut Tally,
    loads: Kinds,
    refused: Kinds,
    /// How many loads have so many answers, and a seed of one that has the most.
    by_answers: [u64; SLOTS + 1],
    longest: (u32, u32),
}

impl Told<'_> {
    fn new(tally: &mut Tally) -> Told<'_> {
        Told {
            tally,
            loads: Kinds::new(&LOADS_WITH),
            refused: Kinds::new(&SEEDS_REFUSED),
            by_answers: [0; SLOTS + 1],
            longest: (0, 0),
        }
    }

    /// The load of one more seed, or its refusal, which is compared and counted.
    fn agrees(&mut self, seed: u32) -> Checked {
        let load = ffi::load(seed);
        let input = || format!("the load of seed {seed}");
        agree(load_model::load(seed), load, input)?;
        self.tally.cases += 1;
        self.tally.count(&load.report);
        if !is_seed(seed) {
            self.refused.count(seed_refused(seed));
            return refused_load_holds(&load, input);
        }
        let input = || format!("{}\n{}", input(), search_as_sheet(&load.search));
        load_holds(seed, &load, input)?;
        let draws: Vec<u32> = load_model::draws(seed).take(6).collect();
        for kind in loads_with(&draws, &load.search) {
            self.loads.count(kind);
        }
        self.by_answers[load.report.taken as usize] += 1;
        self.longest = self.longest.max((load.report.taken, seed));
        Ok(())
    }

    fn all_came(&self) -> Checked {
        let numbers = self.by_answers.iter().enumerate();
        let came = numbers.filter(|(_, &loads)| loads > 0);
        let told: Vec<String> = came.map(|(n, loads)| format!("{n} {loads}")).collect();
        println!("loads by their answers: {}", told.join(", "));
        let (answers, seed) = self.longest;
        println!("longest load of these: {answers} answers, of seed {seed}");
        self.loads.all_came("loads with")?;
        self.refused.each_came("seeds refused", 1)
    }
}

/// What is claimed of a refused load apart from its model: the search beside it is refused too.
fn refused_load_holds(load: &Answered, input: impl Fn() -> String) -> Checked {
    agree(Report::refuse(3, 0), ffi::ask(&load.search), input)
}

/// What is claimed of a load apart from its model. It has stopped, within the answers that are quoted
/// for its opening. A host that draws by itself, opens a search and enters the values for the points
/// called for has the same search with the same report, and so has one that enters them by a panel.
/// Its clean sheet is the model's; it is reported on as the load is, and read as the same search.
fn load_holds(seed: u32, load: &Answered, input: impl Fn() -> String) -> Checked {
    let Answered { report, search } = load;
    agree(
        (Report::STOP, search.count),
        (report.kind, report.taken),
        &input,
    )?;
    let most = ffi::quote(&search.opening).most;
    agree(true, report.taken <= most, || {
        format!("{}\nthe quote is {most}", input())
    })?;
    agree(*load, drawn_and_entered(seed), &input)?;
    agree(*search, entered_by_panel(search), &input)?;
    agree(*report, ffi::ask(search), &input)?;
    let text = written(search);
    agree(model::clean(search).map(Text), Ok(text.clone()), &input)?;
    agree(*report, ffi::sheet(&text.0), &input)?;
    let read = model::read(&text.0).map(|book| book.search());
    agree(Ok(*search), read, input)
}

/// The load as a host makes it that draws by `busdekker_draw`, and enters value by value.
fn drawn_and_entered(seed: u32) -> Answered {
    let mut last = seed;
    let mut modulo = |divisor: u32| {
        last = ffi::draw(last);
        (last % divisor) as i32
    };
    let first = modulo(60_001);
    let second = match modulo(60_001) {
        equal if equal == first => (first + 1) % 60_001,
        other => other,
    };
    let tolerance = 1 + modulo(5_000);
    let opening = Opening::new(1 + modulo(2), first, second, tolerance);
    let mut search = Search::BLANK;
    let mut report = ffi::open(&mut search, &opening);
    while report.kind == Report::NEXT {
        let drawn = modulo(20_001) - 10_000;
        let same_side = search.count == 1 && search.slots[0] * drawn > 0;
        let value = if same_side { -drawn } else { drawn };
        report = ffi::enter(&mut search, report.point as i32, value);
    }
    Answered { report, search }
}

/// The search of the same opening after the same values, entered at a panel.
fn entered_by_panel(load: &Search) -> Search {
    let mut search = Search::fresh(load.opening);
    for &value in &load.slots[..load.count as usize] {
        let mut reply = [0; LONGEST_REPLY];
        ffi::panel(&mut search, &requests::enter(value), &mut reply);
    }
    search
}

/// The loads of seeds of every kind, and seeds that are refused.
pub fn loads(rng: &mut Rng, tally: &mut Tally) -> Checked {
    let mut told = Told::new(tally);
    let seeds = [
        at_limits(),
        seeds_with_equal_ends(),
        seeds_with_two_values_at_limits(),
        LONG.to_vec(),
        seeds_with_a_draw(rng),
        any_seeds(rng),
        seeds_above(rng),
    ];
    for seed in seeds.concat() {
        told.agrees(seed)?;
    }
    told.all_came()
}

/// Every first draw whose second leaves the same by the number of points. The second is the first
/// times the multiplier, less the modulus some times, 0 to 16,806. So the first times the multiplier
/// less 1 leaves what the modulus so many times does, which one number in 60,001 does.
fn firsts_with_equal_ends() -> Vec<u64> {
    let mut firsts = Vec::new();
    for times in 0..MULTIPLIER {
        let least = (times * MODULUS).div_ceil(MULTIPLIER).max(1);
        let most = ((times + 1) * MODULUS - 1) / MULTIPLIER;
        let left = times * MODULUS % POINTS * UNDOES_ONE_LESS % POINTS;
        let start = least + (left + POINTS - least % POINTS) % POINTS;
        firsts.extend((start..=most).step_by(POINTS as usize));
    }
    firsts
}

/// Their seeds. The line tells how many draw both ends at 60,000, so that the second becomes 0.
fn seeds_with_equal_ends() -> Vec<u32> {
    let firsts = firsts_with_equal_ends();
    let highest = firsts.iter().filter(|&first| first % POINTS == POINTS - 1);
    let (all, highest) = (firsts.len(), highest.count());
    println!("{all} seeds draw x1 equal to x0, {highest} of them at 60,000");
    let seed = |first| seed_of(first as u32, 1);
    firsts.into_iter().map(seed).collect()
}

/// Every seed whose fifth and sixth draws both make values of 0, next to 0 or at their limits.
fn seeds_with_two_values_at_limits() -> Vec<u32> {
    let at_limit = |draw: u32| VALUES_AT_LIMITS.contains(&(draw % VALUES));
    let draws = |&left: &u32| (left..=LARGEST_SEED).step_by(VALUES as usize);
    let fifth = VALUES_AT_LIMITS.iter().flat_map(draws);
    let both = fifth.filter(|&fifth| is_seed(fifth) && at_limit(load_model::draw(fifth)));
    let seeds: Vec<u32> = both.map(|fifth| seed_of(fifth, 5)).collect();
    let all = seeds.len();
    println!("{all} seeds draw both first values of 0, next to 0 or at their limits");
    seeds
}

/// Seeds with each of the draws that are wanted.
fn seeds_with_a_draw(rng: &mut Rng) -> Vec<u32> {
    let mut seeds = Vec::new();
    for (wanted, divisor, left) in WANTED {
        let left = left.iter().flat_map(|left| [left; WITH_A_DRAW]);
        let draws = left.map(|left| any_draw(divisor, *left, rng));
        seeds.extend(draws.map(|draw| seed_of(draw, wanted)));
    }
    seeds
}

/// One of the draws that leave this when they are divided so.
fn any_draw(divisor: u32, left: u32, rng: &mut Rng) -> u32 {
    let least = if left == 0 { divisor } else { left };
    let others = (LARGEST_SEED - least) / divisor;
    least + divisor * rng.below(others as usize + 1) as u32
}

/// Seeds at random.
fn any_seeds(rng: &mut Rng) -> Vec<u32> {
    let seeds = (0..SEEDS).map(|_| 1 + rng.below(LARGEST_SEED as usize) as u32);
    seeds.collect()
}

/// Numbers above every seed, at random.
fn seeds_above(rng: &mut Rng) -> Vec<u32> {
    let seeds = (0..SEEDS_ABOVE).map(|_| LARGEST_SEED + 1 + rng.below(1 << 31) as u32);
    seeds.collect()
}
