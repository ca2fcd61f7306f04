//! The benchmark: the library and plain.rs at the same work on the same inputs, in one run.

#![forbid(unsafe_code)]

use compare::rng::Rng;
use compare::surveys::Survey;
use compare::types::{
    Answer, Answered, Dispatcher, Opening, Outcome, Report, Search, SeasonReport, Surveyed,
    Written, DRYERS, LONGEST_CLEAN_SHEET, LONGEST_REPLY, MOST_OUTCOMES, MOST_PAIRS, MOST_SURVEYED,
};
use compare::{beam, cases, ffi, model, plain, requests, sheets, surveys};
use std::hint::black_box;
use std::time::Instant;

const SEED: u64 = 1975;
const REPETITIONS: usize = 101;

/// How many usual searches are timed, and how many by the answers that they hold: so many that the
/// processor cannot learn them by heart.
const USUAL: usize = 1_000;
const MANY: usize = 20_000;

/// How many of the longest searches that the beam finds are timed, by M and by R each.
const LONG: usize = 150;

/// How many seeds' loads are timed, and how many draws.
const SEEDS: u32 = 1_000;
const DRAWS: u32 = 10_000;

/// How many surveys are timed.
const SURVEYS: usize = 1_000;

/// One search that was answered up to its stop, in every form in which it is to be handed over.
struct Work {
    opening: Opening,
    answers: Vec<(i32, i32)>,
    values: Vec<i32>,
    sheet: Vec<u8>,
}

impl Work {
    fn new(book: &model::Book) -> Self {
        let opening = *book.opening();
        let answers = book.pairs();
        let sheet = sheets::write(&opening, &answers);
        Work {
            opening,
            values: book.values(),
            sheet,
            answers,
        }
    }

    /// A search that holds so many of the answers.
    fn holding(&self, count: usize) -> Search {
        let mut search = Search::fresh(self.opening);
        search.slots[..count].copy_from_slice(&self.values[..count]);
        search.count = count as u32;
        search
    }
}

/// The calls that are timed: the library's or plain.rs's.
#[derive(Clone, Copy)]
struct Calls {
    enter: fn(&mut Search, i32, i32) -> Report,
    entered: fn(Search, i32, i32) -> Answered,
    values: fn(&Opening, &[i32]) -> Report,
    sheet: fn(&[u8]) -> Report,
    sheet_outcome: fn(&[u8]) -> Outcome,
    season: fn(&[u16]) -> SeasonReport,
    write: fn(&Search, &mut [u8]) -> Written,
    panel: fn(&mut Search, &[u8], &mut [u8]) -> Written,
    load: fn(u32) -> Answered,
    draw: fn(u32) -> u32,
    survey: fn(i32, i32, &[i32], &mut [u32]) -> Surveyed,
    dispatch_enter: fn(&mut Dispatcher, u32, Answer) -> Report,
    dispatch_turn: fn(&Dispatcher) -> u32,
}

const LIBRARY: Calls = Calls {
    enter: ffi::enter,
    entered: ffi::entered,
    values: ffi::values,
    sheet: ffi::sheet,
    sheet_outcome: ffi::sheet_outcome,
    season: ffi::season,
    write: ffi::write,
    panel: ffi::panel,
    load: ffi::load,
    draw: ffi::draw,
    survey: ffi::survey,
    dispatch_enter: ffi::dispatch_enter,
    dispatch_turn: ffi::dispatch_turn,
};

const PLAIN: Calls = Calls {
    enter: plain::enter,
    entered: plain::entered,
    values: plain::values,
    sheet: plain::sheet,
    sheet_outcome: plain::sheet_outcome,
    season: plain::season,
    write: plain::write,
    panel: plain::panel,
    load: plain::load,
    draw: plain::draw,
    survey: plain::survey,
    dispatch_enter: plain::dispatch_enter,
    dispatch_turn: plain::dispatch_turn,
};

/// A search, and an answer offered to it: its point and its value.
type Offer = (Search, (i32, i32));

/// An operation over all works: it gives the nanoseconds that it took.
type Timed<'a> = &'a dyn Fn(Calls, &[Work]) -> f64;

/// How many answers a search holds where the growth of an answer's cost is looked at. We know of no
/// search that takes a 70th: the long ones by R have stopped by then, and the answer is refused.
const BEFORE: [usize; 6] = [2, 10, 20, 40, 60, 69];

fn main() {
    println!("bench: seed {SEED}; what answers is {}", ffi::WHO);
    println!("Median of {REPETITIONS} repetitions of each, library and plain.rs by turns.");
    println!("Buffers (searches, lists, sheets, requests, runs, surveys) are prepared before and outside the timed part.");
    println!(
        "An answer is entered into a search that holds the ones before it, each walked again."
    );
    let mut rng = Rng::new(SEED);
    println!("\noperation                                   library ns    plain ns  library/plain");
    let works = usual(USUAL, |_| 0, &mut rng);
    table("usual searches", &works);
    dispatchers(&works);
    panels(&works);
    seasons(&works);
    loads(&works);
    surveys(&works);
    let long = long(&mut rng);
    table("long searches", &long);
    println!("an answer into the host's search, by the answers that it holds already:");
    let (by_m, by_r) = long.split_at(long.partition_point(|work| work.opening.method == 1));
    growth("usual", &usual(MANY, |_| 0, &mut rng));
    growth("long by M", by_m);
    growth("long by R", by_r);
    let shared = usual(USUAL, |rng| rng.between(1, 100), &mut rng);
    table("usual searches with a share", &shared);
}

/// Searches as ovens of every kind answer them, each with one of these shares.
fn usual(count: usize, share: fn(&mut Rng) -> i32, rng: &mut Rng) -> Vec<Work> {
    let mut one = || {
        let opening = cases::opening_without_share(rng).with_share(share(rng));
        Work::new(&cases::answered(opening, rng))
    };
    (0..count).map(|_| one()).collect()
}

/// The longest searches that the beam finds over the whole range at τ = 1, by M and by R.
fn long(rng: &mut Rng) -> Vec<Work> {
    let mut works = Vec::new();
    for method in [1, 2] {
        let opening = cases::widest(method);
        let orders = beam::longest(&opening, beam::WIDE, rng);
        let one = |order: &Vec<i32>| Work::new(&model::Book::of(opening, order));
        works.extend(orders.iter().take(LONG).map(one));
    }
    works
}

/// Five lines of the table.
fn table(kind: &str, works: &[Work]) {
    let searches = works.len();
    let answers: usize = works.iter().map(|work| work.values.len()).sum();
    let mean = answers as f64 / searches as f64;
    println!("{searches} {kind} of {mean:.1} answers in the mean:");
    line(
        "  an answer, into the host's search",
        works,
        answers,
        &entering,
    );
    line("  an answer, by value", works, answers, &entering_by_value);
    line("  a list of values", works, searches, &listing);
    line("  a sheet", works, searches, &reading);
    line("  a clean sheet written", works, searches, &writing);
}

/// A dispatcher, and the answers offered to it in the order of the turns, each with its dryer.
type Morning = (Dispatcher, Vec<(u32, Answer)>);

/// Two lines: the works as the searches of dispatchers, six at each.
fn dispatchers(works: &[Work]) {
    let (fresh, halfway): (Vec<Morning>, Vec<Dispatcher>) =
        works.chunks_exact(DRYERS).map(morning).unzip();
    let answers = fresh.iter().map(|(_, offers)| offers.len()).sum();
    println!("{} dispatchers, with six of them at each:", fresh.len());
    let timed = |calls, _: &[Work]| dispatching(calls, fresh.clone());
    line(
        "  an answer, through its dispatcher",
        works,
        answers,
        &timed,
    );
    let timed = |calls, _: &[Work]| asking(calls, &halfway);
    line("  the turn, half-way", works, halfway.len(), &timed);
}

/// The morning of six works, with the dispatcher at its beginning and half-way.
fn morning(works: &[Work]) -> (Morning, Dispatcher) {
    let mut start = Dispatcher::fresh();
    for (search, work) in start.searches.iter_mut().zip(works) {
        *search = Search::fresh(work.opening);
    }
    let mut stages = vec![start];
    let mut offers = Vec::new();
    loop {
        let mut now = stages[offers.len()];
        let dryer = plain::dispatch_turn(&now);
        let Some(search) = now.searches.get(dryer as usize) else {
            break;
        };
        let (point, value) = works[dryer as usize].answers[search.count as usize];
        let answer = Answer::new(point, value);
        plain::dispatch_enter(&mut now, dryer, answer);
        offers.push((dryer, answer));
        stages.push(now);
    }
    let halfway = stages[stages.len() / 2];
    ((start, offers), halfway)
}

/// A search, and the requests to it, one after the other.
type Shift = (Search, Vec<[u8; 5]>);

/// Two lines: the works as the searches of panels.
fn panels(works: &[Work]) {
    let entries: Vec<Shift> = works.iter().map(entries).collect();
    let reads: Vec<Shift> = works.iter().map(read_half_way).collect();
    println!("{} panels, with one of them at each:", works.len());
    let all: usize = works.iter().map(|work| work.values.len()).sum();
    let timed = |calls, _: &[Work]| requesting(calls, entries.clone());
    line("  an answer, through its panel", works, all, &timed);
    let timed = |calls, _: &[Work]| requesting(calls, reads.clone());
    line(
        "  all seven registers, half-way",
        works,
        works.len(),
        &timed,
    );
}

/// A fresh search, and a request for each of its answers.
fn entries(work: &Work) -> Shift {
    let requests = work.values.iter().map(|&value| requests::enter(value));
    (Search::fresh(work.opening), requests.collect())
}

/// The search with half of its answers, and the request to read all registers.
fn read_half_way(work: &Work) -> Shift {
    let search = work.holding(work.values.len() / 2);
    (search, vec![requests::READ_ALL])
}

/// Two lines: the outcomes of the works' sheets, and a season of as many outcomes as there may be.
fn seasons(works: &[Work]) {
    let numbers = season_of(works);
    println!("{} sheets, and a season of {MOST_OUTCOMES}:", works.len());
    line(
        "  the outcome of a sheet",
        works,
        works.len(),
        &reading_outcomes,
    );
    let timed = |calls, _: &[Work]| reporting(calls, &numbers);
    line("  a season report", works, 1, &timed);
}

/// A season of the works' sheets, over and over. One outcome in eight is made a refused one, and one an
/// unfinished one.
fn season_of(works: &[Work]) -> Vec<u16> {
    let mut rng = Rng::new(SEED);
    let sheets = works.iter().map(|work| plain::sheet_outcome(&work.sheet));
    let mut run: Vec<Outcome> = sheets.cycle().take(MOST_OUTCOMES).collect();
    for outcome in &mut run {
        match rng.below(8) {
            0 => outcome.kind = Outcome::REFUSED,
            1 => outcome.kind = Outcome::UNFINISHED,
            _ => (),
        }
    }
    run.iter().flat_map(|outcome| outcome.numbers()).collect()
}

/// Two lines: the loads of the first seeds, and the first draws from seed 1.
fn loads(works: &[Work]) {
    let answers: u32 = (1..=SEEDS).map(|seed| plain::load(seed).search.count).sum();
    let mean = f64::from(answers) / f64::from(SEEDS);
    println!("{SEEDS} trial loads of {mean:.1} answers in the mean, and {DRAWS} draws:");
    line("  a trial load", works, SEEDS as usize, &loading);
    line("  a draw", works, DRAWS as usize, &drawing);
}

/// Two lines: surveys of as many values as are taken, with some pairs each, and with a pair at every
/// place.
fn surveys(works: &[Work]) {
    let mut rng = Rng::new(SEED);
    let mut all = |one: fn(&mut Rng) -> Survey| -> Vec<Survey> {
        (0..SURVEYS).map(|_| one(&mut rng)).collect()
    };
    let (few, every) = (all(surveys::few_pairs), all(surveys::full_survey));
    let pairs: usize = few.iter().map(Survey::pairs).sum();
    let mean = pairs as f64 / SURVEYS as f64;
    println!("{SURVEYS} surveys of {MOST_SURVEYED} values, with {mean:.1} pairs in the mean:");
    let timed = |calls, _: &[Work]| surveying(calls, &few);
    line("  a survey", works, SURVEYS, &timed);
    let timed = |calls, _: &[Work]| surveying(calls, &every);
    line("  a survey with every pair", works, SURVEYS, &timed);
}

/// How the cost of an answer, entered into the host's search, grows with the answers before it.
fn growth(name: &str, works: &[Work]) {
    for before in BEFORE {
        let (offers, end) = match after(before, works) {
            (going, _) if !going.is_empty() => (going, ""),
            (_, stopped) => (stopped, ", refused"),
        };
        let count = offers.len();
        if count > 0 {
            let name = format!("  {count} {name}, after {before} others{end}");
            let timed = |calls, _: &[Work]| offering(calls, offers.clone());
            line(&name, works, count, &timed);
        }
    }
}

/// The searches that hold so many answers: those that go on, each with the answer that follows, and
/// those that have stopped, each with its last answer once more.
fn after(before: usize, works: &[Work]) -> (Vec<Offer>, Vec<Offer>) {
    let holding = works.iter().filter(|work| work.values.len() >= before);
    let (going, stopped): (Vec<&Work>, Vec<&Work>) =
        holding.partition(|work| work.values.len() > before);
    let offer = |next: usize| move |work: &&Work| (work.holding(before), work.answers[next]);
    let follows = going.iter().map(offer(before)).collect();
    let again = stopped.iter().map(offer(before - 1)).collect();
    (follows, again)
}

/// One line: the medians of both, by turns, for so many operations.
fn line(name: &str, works: &[Work], operations: usize, timed: Timed) {
    let mut library = Vec::new();
    let mut plain = Vec::new();
    for _ in 0..REPETITIONS {
        library.push(timed(LIBRARY, works) / operations as f64);
        plain.push(timed(PLAIN, works) / operations as f64);
    }
    let (library, plain) = (median(library), median(plain));
    let ratio = library / plain;
    println!("{name:<42} {library:>11.1} {plain:>11.1} {ratio:>14.2}");
}

fn median(mut list: Vec<f64>) -> f64 {
    list.sort_by(f64::total_cmp);
    list[list.len() / 2]
}

/// Every answer of every work entered into the host's own search.
fn entering(calls: Calls, works: &[Work]) -> f64 {
    let fresh = |work: &Work| Search::fresh(work.opening);
    let mut searches: Vec<Search> = works.iter().map(fresh).collect();
    let start = Instant::now();
    for (search, work) in searches.iter_mut().zip(works) {
        for &(point, value) in &work.answers {
            black_box((calls.enter)(search, black_box(point), black_box(value)));
        }
    }
    let time = start.elapsed();
    black_box(&searches);
    time.as_nanos() as f64
}

/// Every answer of every morning, through its dispatcher.
fn dispatching(calls: Calls, mut mornings: Vec<Morning>) -> f64 {
    let start = Instant::now();
    for (dispatcher, offers) in &mut mornings {
        for &mut (dryer, answer) in offers {
            black_box((calls.dispatch_enter)(
                dispatcher,
                black_box(dryer),
                black_box(answer),
            ));
        }
    }
    let time = start.elapsed();
    black_box(&mornings);
    time.as_nanos() as f64
}

/// The turn of every dispatcher.
fn asking(calls: Calls, dispatchers: &[Dispatcher]) -> f64 {
    let start = Instant::now();
    for dispatcher in dispatchers {
        black_box((calls.dispatch_turn)(black_box(dispatcher)));
    }
    start.elapsed().as_nanos() as f64
}

/// Every request to every panel. All replies go into one buffer, one after the other.
fn requesting(calls: Calls, mut shifts: Vec<Shift>) -> f64 {
    let mut buffer = [0; LONGEST_REPLY];
    let start = Instant::now();
    for (search, requests) in &mut shifts {
        for request in requests {
            black_box((calls.panel)(
                search,
                black_box(&*request),
                black_box(&mut buffer),
            ));
        }
    }
    let time = start.elapsed();
    black_box((&shifts, &buffer));
    time.as_nanos() as f64
}

/// Each answer entered into its search, the host's own.
fn offering(calls: Calls, mut offers: Vec<Offer>) -> f64 {
    let start = Instant::now();
    for (search, (point, value)) in &mut offers {
        black_box((calls.enter)(search, black_box(*point), black_box(*value)));
    }
    let time = start.elapsed();
    black_box(&offers);
    time.as_nanos() as f64
}

/// Every answer of every work, each search passed and returned by value.
fn entering_by_value(calls: Calls, works: &[Work]) -> f64 {
    let fresh = |work: &Work| Search::fresh(work.opening);
    let mut searches: Vec<Search> = works.iter().map(fresh).collect();
    let start = Instant::now();
    for (search, work) in searches.iter_mut().zip(works) {
        for &(point, value) in &work.answers {
            let answered = (calls.entered)(*search, black_box(point), black_box(value));
            *search = answered.search;
            black_box(answered.report);
        }
    }
    let time = start.elapsed();
    black_box(&searches);
    time.as_nanos() as f64
}

/// Every work's list of values.
fn listing(calls: Calls, works: &[Work]) -> f64 {
    let start = Instant::now();
    for work in works {
        black_box((calls.values)(
            black_box(&work.opening),
            black_box(&work.values),
        ));
    }
    start.elapsed().as_nanos() as f64
}

/// Every work's sheet.
fn reading(calls: Calls, works: &[Work]) -> f64 {
    let start = Instant::now();
    for work in works {
        black_box((calls.sheet)(black_box(&work.sheet)));
    }
    start.elapsed().as_nanos() as f64
}

/// The outcome of every work's sheet.
fn reading_outcomes(calls: Calls, works: &[Work]) -> f64 {
    let start = Instant::now();
    for work in works {
        black_box((calls.sheet_outcome)(black_box(&work.sheet)));
    }
    start.elapsed().as_nanos() as f64
}

/// The report on a season.
fn reporting(calls: Calls, numbers: &[u16]) -> f64 {
    let start = Instant::now();
    black_box((calls.season)(black_box(numbers)));
    start.elapsed().as_nanos() as f64
}

/// The load of every seed from 1 on.
fn loading(calls: Calls, _: &[Work]) -> f64 {
    let start = Instant::now();
    for seed in 1..=SEEDS {
        black_box((calls.load)(black_box(seed)));
    }
    start.elapsed().as_nanos() as f64
}

/// Draws one after the other, from seed 1.
fn drawing(calls: Calls, _: &[Work]) -> f64 {
    let mut last = black_box(1);
    let start = Instant::now();
    for _ in 0..DRAWS {
        last = (calls.draw)(last);
    }
    let time = start.elapsed();
    black_box(last);
    time.as_nanos() as f64
}

/// The pairs of every survey. All of them go into one list, one after the other.
fn surveying(calls: Calls, surveys: &[Survey]) -> f64 {
    let mut list = [0; MOST_PAIRS];
    let start = Instant::now();
    for survey in surveys {
        let values = black_box(&survey.values[..]);
        let (lowest, pitch) = (black_box(survey.lowest), black_box(survey.pitch));
        black_box((calls.survey)(lowest, pitch, values, black_box(&mut list)));
    }
    let time = start.elapsed();
    black_box(&list);
    time.as_nanos() as f64
}

/// The clean sheet of every work's search at its stop. All of them go into one buffer, one after
/// the other; it is not cleared between them.
fn writing(calls: Calls, works: &[Work]) -> f64 {
    let stopped = |work: &Work| work.holding(work.values.len());
    let searches: Vec<Search> = works.iter().map(stopped).collect();
    let mut buffer = [0; LONGEST_CLEAN_SHEET];
    let start = Instant::now();
    for search in &searches {
        black_box((calls.write)(black_box(search), black_box(&mut buffer)));
    }
    let time = start.elapsed();
    black_box(&buffer);
    time.as_nanos() as f64
}
