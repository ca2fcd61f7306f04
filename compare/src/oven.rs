//! Six dryers and one oven: the comparison's part on the dispatcher. Lists of calls by crews that
//! behave and by ones that do not, each call getting the dispatcher as the one before left it; and
//! with every list what requests 2026-04 and 2026-05 claim of it.

use crate::cases::{self, Oven};
use crate::checks::{agree, search_as_sheet, Checked, Tally};
use crate::model::{self, Book};
use crate::rng::Rng;
use crate::types::{Answer, Dispatcher, Opening, Report, Search, DRYERS, NOBODY};
use crate::{dispatcher, ffi};
use std::array;
use std::hint::black_box;

/// Lists of calls from a fresh dispatcher, and from one that holds anything. A list has so many
/// calls in the mean.
const FRESH: usize = 5_000;
const CALLS_FROM_FRESH: usize = 70;
const HELD: usize = 8_000;
const CALLS_FROM_HELD: usize = 25;

/// A dryer never waits for more served answers than this.
const LONGEST_WAIT: u32 = 5;

/// The count of a dryer grows up to this, and so did the old one of all served answers.
const CEILING: u64 = 1_000_000_000;

/// A call on a dispatcher, with its dryer.
#[derive(Clone, Copy, Debug)]
enum Call {
    Open(u32, Opening),
    Enter(u32, Answer),
}

/// What the calls were told; after each of them, what the dryers were and whose the turn was; the
/// longest wait; and how often served answers met the ceiling.
struct Told<'a> {
    calls: &'a mut Tally,
    asked: Tally,
    turns: [u64; DRYERS + 1],
    longest_wait: u32,
    borders: Borders,
}

impl Told<'_> {
    fn show(&self) {
        println!("dryers asked after each call: {}", self.asked);
        let (nobody, turns) = self.turns.split_last().expect("it is the seventh");
        println!("the turn after each call: nobody's {nobody}, the dryers' {turns:?}");
        let longest = self.longest_wait;
        println!(
            "longest wait for the turn: {longest} served answers, the bound is {LONGEST_WAIT}"
        );
        self.borders.show();
    }
}

/// How many served answers met the ceiling.
#[derive(Default)]
struct Borders {
    /// Their dryer's count came to it; or it was there already or above, and stayed.
    reached: u64,
    stayed: u64,
    /// The sum of the six came to it; or it went past, with each of the six still below.
    sum_reached: u64,
    sum_passed: u64,
}

impl Borders {
    /// One more answer served at this dryer, and the counts before it.
    fn count(&mut self, dryer: usize, counts: &[u64; DRYERS]) {
        let sum: u64 = counts.iter().sum();
        let after = |of: usize| counts[of] + u64::from(of == dryer);
        let all_below = (0..DRYERS).all(|of| after(of) < CEILING);
        self.reached += u64::from(counts[dryer] + 1 == CEILING);
        self.stayed += u64::from(counts[dryer] >= CEILING);
        self.sum_reached += u64::from(sum + 1 == CEILING);
        self.sum_passed += u64::from(sum == CEILING && all_below);
    }

    fn all_met(&self) -> bool {
        let times = [self.reached, self.stayed, self.sum_reached, self.sum_passed];
        !times.contains(&0)
    }

    fn show(&self) {
        let (reached, stayed) = (self.reached, self.stayed);
        println!("served answers that took their dryer's count to its ceiling: {reached}");
        println!("served answers with their dryer's count at its ceiling or above: {stayed}");
        let (reached, passed) = (self.sum_reached, self.sum_passed);
        println!("served answers that took the sum of the six to the ceiling: {reached}");
        println!("served answers that took the sum past it, each of the six below: {passed}");
    }
}

/// Lists of calls of every kind.
pub fn dispatchers(rng: &mut Rng, tally: &mut Tally) -> Checked {
    let mut told = Told {
        calls: tally,
        asked: Tally::default(),
        turns: [0; DRYERS + 1],
        longest_wait: 0,
        borders: Borders::default(),
    };
    agree(Dispatcher::fresh(), ffi::dispatch_fresh(), || {
        "a fresh dispatcher".into()
    })?;
    for _ in 0..FRESH {
        list_agrees(ffi::dispatch_fresh(), CALLS_FROM_FRESH, rng, &mut told)?;
    }
    for _ in 0..HELD {
        list_agrees(cases::any_dispatcher(rng), CALLS_FROM_HELD, rng, &mut told)?;
    }
    told.show();
    agree(true, told.borders.all_met(), || {
        "the ceiling, met by a dryer's count and by the sum of the six".into()
    })
}

/// One list of about so many calls. In every second one a call in three is a mistake.
fn list_agrees(start: Dispatcher, calls: usize, rng: &mut Rng, told: &mut Told) -> Checked {
    let mut morning = Morning::new(start, rng);
    let badly = rng.once_in(2);
    let eager = rng.pick(&[2, 4, 16]);
    while !rng.once_in(calls) {
        let call = if badly && rng.once_in(3) {
            morning.mistake(rng)
        } else {
            morning.proper_call(eager, rng)
        };
        morning.call_agrees(call, rng, told)?;
        told.calls.cases += 1;
    }
    Ok(())
}

/// The crew of a dryer whose search is accepted: the trial book, and how the leaf comes out.
struct Crew {
    book: Book,
    oven: Oven,
}

impl Crew {
    fn new(book: Book, rng: &mut Rng) -> Self {
        let oven = Oven::new(book.opening(), rng);
        Crew { book, oven }
    }

    /// The point called for with a value that is accepted there; none at the stop.
    fn answer(&self, rng: &mut Rng) -> Option<Answer> {
        let point = self.book.called()?;
        let value = self.oven.value(&self.book, point, rng);
        let same_side = matches!(self.book.values()[..], [first] if first * value > 0);
        Some(Answer::new(point, if same_side { -value } else { value }))
    }
}

/// A dispatcher on its way through a list of calls, the library's and the model's.
struct Morning {
    library: Dispatcher,
    model: Dispatcher,
    /// The model's reports of the dryers, and the dryer that has the turn.
    reports: [Report; DRYERS],
    turn: u32,
    crews: [Option<Crew>; DRYERS],
    /// The search of each dryer by itself: its own accepted openings and answers, and nothing else.
    alone: [Search; DRYERS],
    /// The served answers that each dryer has waited for, since its opening or its own last one.
    waited: [u32; DRYERS],
    /// The counts at the beginning, and the answers served at each dryer since.
    counts: [u32; DRYERS],
    served: [u64; DRYERS],
    /// Request 2026-04's one count of all served answers. The dispatcher has it no more: it is kept
    /// here, from the sum of the counts or the ceiling, whichever is less; from 0 if all are 0.
    old_count: u64,
}

impl Morning {
    fn new(start: Dispatcher, rng: &mut Rng) -> Self {
        let reports = start.searches.each_ref().map(model::ask);
        let mut crew = |dryer: usize| {
            let search = &start.searches[dryer];
            let values = || &search.slots[..search.count as usize];
            let accepted = reports[dryer].kind != Report::REFUSED;
            accepted.then(|| Crew::new(Book::of(search.opening, values()), rng))
        };
        Morning {
            library: start,
            model: start,
            reports,
            turn: dispatcher::turn(&start),
            crews: array::from_fn(&mut crew),
            alone: start.searches,
            waited: [0; DRYERS],
            counts: start.counts,
            served: [0; DRYERS],
            old_count: CEILING.min(sum(&start.counts)),
        }
    }

    fn unfinished(&self, dryer: usize) -> bool {
        self.reports[dryer].kind == Report::NEXT
    }

    /// What crews do that behave: the one that has the turn answers, and now and then, once in
    /// `eager` calls, a dryer with no search on its way gets one.
    fn proper_call(&self, eager: usize, rng: &mut Rng) -> Call {
        let idle: Vec<usize> = (0..DRYERS).filter(|&k| !self.unfinished(k)).collect();
        if self.turn == NOBODY || !idle.is_empty() && rng.once_in(eager) {
            let opening = cases::accepted_opening(rng);
            return Call::Open(rng.pick(&idle) as u32, opening);
        }
        Call::Enter(self.turn, self.answer(self.turn, rng))
    }

    /// What the crew of a dryer brings when it behaves, though it may not be asked.
    fn answer(&self, dryer: u32, rng: &mut Rng) -> Answer {
        let crew = self.crews[dryer as usize].as_ref();
        let answer = crew.and_then(|crew| crew.answer(rng));
        answer.unwrap_or(Answer::new(cases::point(rng), cases::any_value(rng)))
    }

    /// A call in which mostly something is wrong: the dryer, its turn, its search, the opening or
    /// the answer.
    fn mistake(&self, rng: &mut Rng) -> Call {
        let none = rng.pick(&[6, 7, u32::MAX]);
        let any = rng.below(DRYERS) as u32;
        let turn = if self.turn == NOBODY { any } else { self.turn };
        let mut answer = self.answer(turn, rng);
        let search = &self.model.searches[turn as usize];
        match rng.below(8) {
            0 => return Call::Open(none, cases::any_opening(rng)),
            1 => return Call::Enter(none, answer),
            2 => return Call::Open(any, cases::any_opening(rng)),
            3 => return Call::Open(any, cases::refused_opening(rng)),
            4 => return Call::Enter(any, self.answer(any, rng)),
            5 => answer.point = cases::any_point(&search.opening, answer.point, rng),
            6 => answer.value = cases::any_value(rng),
            // The first value again: as a second one it is refused, unless it is 0.
            _ => answer.value = search.slots[0],
        }
        Call::Enter(turn, answer)
    }

    /// One call: its report, all that the dispatcher holds after it, and what is told of that.
    fn call_agrees(&mut self, call: Call, rng: &mut Rng, told: &mut Told) -> Checked {
        let (before, old_count) = (self.library, self.old_count);
        let input = || dispatcher_and_call(&before, old_count, call);
        let (model, library) = (&mut self.model, &mut self.library);
        let reports = match call {
            Call::Open(dryer, opening) => (
                dispatcher::open(model, dryer, &opening),
                ffi::dispatch_open(library, dryer, &opening),
            ),
            Call::Enter(dryer, answer) => (
                dispatcher::enter(model, dryer, answer),
                ffi::dispatch_enter(library, dryer, answer),
            ),
        };
        agree(reports.0, reports.1, input)?;
        agree(self.model, self.library, input)?;
        told.calls.count(&reports.1);
        if reports.1.kind == Report::REFUSED {
            agree(before, self.library, input)?;
        } else {
            agree(reports.1, self.accepted(call, rng, told), input)?;
        }
        self.told_agrees(told, input)?;
        self.claims_hold(input)
    }

    /// An accepted call, of the dryer by itself: its report there.
    fn accepted(&mut self, call: Call, rng: &mut Rng, told: &mut Told) -> Report {
        match call {
            Call::Open(dryer, opening) => {
                let dryer = dryer as usize;
                self.crews[dryer] = Some(Crew::new(Book::new(opening), rng));
                self.waited[dryer] = 0;
                ffi::open(&mut self.alone[dryer], &opening)
            }
            Call::Enter(dryer, Answer { point, value }) => {
                let dryer = dryer as usize;
                if let Some(crew) = &mut self.crews[dryer] {
                    crew.book.offer(point, value);
                }
                told.longest_wait = told.longest_wait.max(self.waited[dryer]);
                told.borders.count(dryer, &self.counted());
                self.waited = self.waited.map(|waited| waited + 1);
                self.waited[dryer] = 0;
                self.served[dryer] += 1;
                self.old_count += u64::from(self.old_count < CEILING);
                ffi::enter(&mut self.alone[dryer], point, value)
            }
        }
    }

    /// The count of each dryer, from the one at the beginning and the answers served there since.
    fn counted(&self) -> [u64; DRYERS] {
        array::from_fn(|dryer| {
            let start = u64::from(self.counts[dryer]);
            start.max(CEILING.min(start + self.served[dryer]))
        })
    }

    /// The turn and the reports of dryers 0 to 6 are the model's, and to ask for them changes
    /// nothing.
    fn told_agrees(&mut self, told: &mut Told, input: impl Fn() -> String) -> Checked {
        self.turn = dispatcher::turn(&self.model);
        agree(self.turn, ffi::dispatch_turn(&self.library), &input)?;
        told.turns[self.turn as usize] += 1;
        for dryer in 0..DRYERS {
            self.reports[dryer] = dispatcher::ask(&self.model, dryer as u32);
            let report = ffi::dispatch_ask(&self.library, dryer as u32);
            agree(self.reports[dryer], report, &input)?;
            told.asked.count(&report);
        }
        let none = DRYERS as u32;
        let reports = (
            dispatcher::ask(&self.model, none),
            ffi::dispatch_ask(&self.library, none),
        );
        agree(reports.0, reports.1, &input)?;
        // Looked at anew: the compiler may take for granted that what is lent to be read stays.
        agree(self.model, *black_box(&self.library), input)
    }

    /// The old count is the sum of the six, up to the ceiling, and each count is that of the answers
    /// served at its dryer.
    fn counts_hold(&self, input: impl Fn() -> String) -> Checked {
        let counts = self.library.counts;
        agree(self.old_count, CEILING.min(sum(&counts)), || {
            input() + "\nthe old count, from the sum of the six"
        })?;
        agree(self.counted(), counts.map(u64::from), || {
            input() + "\nthe counts, from the answers served at each dryer"
        })
    }

    /// The requests' claims: each search is the one that its dryer has by itself, the counts are
    /// those of the served answers, and nobody waits for too many of them.
    fn claims_hold(&self, input: impl Fn() -> String) -> Checked {
        agree(self.alone, self.library.searches, &input)?;
        self.counts_hold(&input)?;
        for (dryer, &waited) in self.waited.iter().enumerate() {
            let late = waited >= LONGEST_WAIT && self.turn != dryer as u32;
            if self.unfinished(dryer) && late {
                let input = input();
                return Err(format!(
                    "DRYER {dryer} WAITED FOR {waited} ANSWERS\n{input}"
                ));
            }
        }
        Ok(())
    }
}

/// The six counts of a dispatcher, added up.
fn sum(counts: &[u32; DRYERS]) -> u64 {
    counts.iter().copied().map(u64::from).sum()
}

/// The searches of a dispatcher, each as a sheet and whole, its mark and its counts, beside them the
/// old count; and the call.
fn dispatcher_and_call(dispatcher: &Dispatcher, old_count: u64, call: Call) -> String {
    let mut text = String::new();
    for (dryer, search) in dispatcher.searches.iter().enumerate() {
        text += &format!("dryer {dryer}:\n{}\n", search_as_sheet(search));
    }
    let Dispatcher { last, counts, .. } = dispatcher;
    text += &format!("last served {last}, counts {counts:?}, the old count {old_count}\n");
    format!("{text}call: {call:?}")
}
