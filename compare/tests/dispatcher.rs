//! Worked cases of the dispatcher, tried on the model, on the plain code and on the proved library;
//! then the model against the plain code on random cases.

use compare::cases::{self, COUNT_ABOVE, HIGHEST};
use compare::model::{self, Book, OLD};
use compare::rng::Rng;
use compare::types::{Answer, Dispatcher, Opening, Report, Search, DRYERS, NOBODY, SLOTS};
use compare::{dispatcher, ffi, plain};

const M: Opening = Opening::new(1, 0, 100, 1);
const R: Opening = Opening::new(2, 0, 100, 1);
const HOUSE: Opening = Opening::new(0, 0, 100, 1);
const SHORT: Opening = Opening::new(1, 0, 2, 1);
const REFUSED: Opening = Opening::new(1, 5, 5, 1);

/// The first answer of M and of R, and of the short one.
const FIRST: Answer = Answer::new(0, -50);

/// The second and last answer of the short one.
const LAST: Answer = Answer::new(2, 1);

/// The count of a dryer grows up to this, and so did request 2026-04's one count.
const CEILING: u64 = 1_000_000_000;

/// Six counts added up.
fn sum(counts: &[u32; DRYERS]) -> u64 {
    counts.iter().copied().map(u64::from).sum()
}

/// Request 2026-04's one count after one more served answer.
fn old_count_after(old_count: u64) -> u64 {
    if old_count < CEILING {
        old_count + 1
    } else {
        old_count
    }
}

/// The calls on a dispatcher.
#[derive(Clone, Copy)]
struct Calls {
    fresh: fn() -> Dispatcher,
    turn: fn(&Dispatcher) -> u32,
    open: fn(&mut Dispatcher, u32, &Opening) -> Report,
    enter: fn(&mut Dispatcher, u32, Answer) -> Report,
    ask: fn(&Dispatcher, u32) -> Report,
    /// On a search of the dispatcher.
    change_over: fn(&mut Search) -> Report,
}

const MODEL: Calls = Calls {
    fresh: Dispatcher::fresh,
    turn: dispatcher::turn,
    open: dispatcher::open,
    enter: dispatcher::enter,
    ask: dispatcher::ask,
    change_over: model::change_over,
};

const PLAIN: Calls = Calls {
    fresh: Dispatcher::fresh,
    turn: plain::dispatch_turn,
    open: plain::dispatch_open,
    enter: plain::dispatch_enter,
    ask: plain::dispatch_ask,
    change_over: plain::change_over,
};

const LIBRARY: Calls = Calls {
    fresh: ffi::dispatch_fresh,
    turn: ffi::dispatch_turn,
    open: ffi::dispatch_open,
    enter: ffi::dispatch_enter,
    ask: ffi::dispatch_ask,
    change_over: ffi::change_over,
};

const ALL: [Calls; 3] = [MODEL, PLAIN, LIBRARY];

impl Calls {
    /// A fresh dispatcher with a search of M at each of these dryers.
    fn with(&self, dryers: &[u32]) -> Dispatcher {
        let mut dispatcher = (self.fresh)();
        for &dryer in dryers {
            let report = (self.open)(&mut dispatcher, dryer, &M);
            assert_eq!(report, Report::next(0, 0));
        }
        dispatcher
    }

    /// An answer for a dryer that is refused so, and leaves the dispatcher as it was.
    fn refuses(&self, dispatcher: &mut Dispatcher, dryer: u32, answer: Answer, refusal: Report) {
        let before = *dispatcher;
        assert_eq!((self.enter)(dispatcher, dryer, answer), refusal);
        assert_eq!(*dispatcher, before);
    }

    /// An opening for a dryer that is refused so, and leaves the dispatcher as it was.
    fn refuses_opening(&self, dispatcher: &mut Dispatcher, dryer: u32, opening: &Opening, n: u32) {
        let before = *dispatcher;
        let refusal = Report::refuse(n, 0);
        assert_eq!((self.open)(dispatcher, dryer, opening), refusal);
        assert_eq!(*dispatcher, before);
    }

    /// The first answer of M for each of these dryers in turn.
    fn serves(&self, dispatcher: &mut Dispatcher, dryers: &[u32]) {
        for &dryer in dryers {
            assert_eq!((self.turn)(dispatcher), dryer);
            let report = (self.enter)(dispatcher, dryer, FIRST);
            assert_eq!(report, Report::next(100, 1));
            assert_eq!(dispatcher.last, dryer);
        }
    }

    /// A short search opened at a dryer and answered to its stop. The dryer has no search on its
    /// way, and no other has.
    fn runs_short(&self, dispatcher: &mut Dispatcher, dryer: u32) {
        let report = (self.open)(dispatcher, dryer, &SHORT);
        assert_eq!(report, Report::next(0, 0));
        let report = (self.enter)(dispatcher, dryer, FIRST);
        assert_eq!(report, Report::next(2, 1));
        let report = (self.enter)(dispatcher, dryer, LAST);
        assert_eq!(report, Report::stop(0, 2, 2, 2));
    }
}

/// No search, nobody served, counts of 0: every dryer is refused as a search of nothing but 0.
#[test]
fn fresh() {
    for calls in ALL {
        let mut dispatcher = (calls.fresh)();
        let blank = Search::fresh(Opening::new(0, 0, 0, 0));
        assert_eq!(dispatcher.searches, [blank; DRYERS]);
        assert_eq!((dispatcher.last, dispatcher.counts), (6, [0; DRYERS]));
        assert_eq!((calls.turn)(&dispatcher), NOBODY);
        for dryer in 0..6 {
            assert_eq!((calls.ask)(&dispatcher, dryer), Report::refuse(3, 0));
            calls.refuses(&mut dispatcher, dryer, FIRST, Report::refuse(15, 0));
        }
        assert_eq!((calls.ask)(&dispatcher, 6), Report::refuse(14, 0));
    }
}

/// An opening moves neither the mark nor a count, and touches no other dryer.
#[test]
fn openings() {
    for calls in ALL {
        let mut dispatcher = calls.with(&[4]);
        assert_eq!((calls.turn)(&dispatcher), 4);
        let mut expected = Dispatcher::fresh();
        expected.searches[4] = Search::fresh(M);
        assert_eq!(dispatcher, expected);
        (dispatcher.last, dispatcher.counts) = (2, [7, 0, 9, 8, 1, u32::MAX]);
        dispatcher.searches[3].count = COUNT_ABOVE;
        dispatcher.searches[3].slots[SLOTS - 1] = 5;
        assert_eq!((calls.open)(&mut dispatcher, 3, &R), Report::next(0, 0));
        (expected.last, expected.counts) = (2, [7, 0, 9, 8, 1, u32::MAX]);
        expected.searches[3] = Search::fresh(R);
        assert_eq!(dispatcher, expected);
    }
}

/// Dryers 4, 1 and 2 are opened in this order; the turn goes 1, 2, 4 and round.
#[test]
fn three_dryers() {
    for calls in ALL {
        let mut dispatcher = calls.with(&[4, 1, 2]);
        calls.serves(&mut dispatcher, &[1, 2, 4]);
        assert_eq!((calls.turn)(&dispatcher), 1);
        let report = (calls.enter)(&mut dispatcher, 1, Answer::new(100, 100));
        assert_eq!(report, Report::next(33, 2));
        assert_eq!((calls.ask)(&dispatcher, 1), Report::next(33, 2));
        assert_eq!((calls.ask)(&dispatcher, 2), Report::next(100, 1));
        assert_eq!((calls.turn)(&dispatcher), 2);
        let mut expected = Dispatcher::fresh();
        expected.searches[1] = Book::of(M, &[-50, 100]).search();
        expected.searches[2] = Book::of(M, &[-50]).search();
        expected.searches[4] = Book::of(M, &[-50]).search();
        (expected.last, expected.counts) = (1, [0, 2, 1, 0, 1, 0]);
        assert_eq!(dispatcher, expected);
    }
}

/// Every mark with searches at 1, 2 and 4.
#[test]
fn marks() {
    let turns = [(0, 1), (1, 2), (2, 4), (3, 4), (4, 1), (5, 1), (6, 1)];
    for calls in ALL {
        let mut dispatcher = calls.with(&[4, 1, 2]);
        for (mark, turn) in turns.into_iter().chain([(7, 1), (u32::MAX, 1)]) {
            dispatcher.last = mark;
            assert_eq!((calls.turn)(&dispatcher), turn, "mark {mark}");
        }
    }
}

/// A dryer that is not there is refused before all else.
#[test]
fn no_such_dryer() {
    for calls in ALL {
        let mut dispatcher = calls.with(&[0, 5]);
        for dryer in [6, 7, 256, u32::MAX] {
            calls.refuses(&mut dispatcher, dryer, FIRST, Report::refuse(14, 0));
            let wrong = Answer::new(-1, i32::MIN);
            calls.refuses(&mut dispatcher, dryer, wrong, Report::refuse(14, 0));
            calls.refuses_opening(&mut dispatcher, dryer, &M, 14);
            calls.refuses_opening(&mut dispatcher, dryer, &REFUSED, 14);
            assert_eq!((calls.ask)(&dispatcher, dryer), Report::refuse(14, 0));
        }
    }
}

/// Out of turn is refused before the answer's own faults, for dryers of every kind.
#[test]
fn not_its_turn() {
    for calls in ALL {
        let mut dispatcher = calls.with(&[0, 1]);
        dispatcher.searches[2] = Book::of(SHORT, &[-1, 1]).search();
        dispatcher.searches[3].count = COUNT_ABOVE;
        for dryer in 1..6 {
            for answer in [FIRST, Answer::new(99, -50), Answer::new(0, 10_001)] {
                calls.refuses(&mut dispatcher, dryer, answer, Report::refuse(15, 0));
            }
        }
    }
}

/// A search on its way is not opened anew, whatever the opening; one that has stopped is, and so
/// is one that is itself refused.
#[test]
fn still_searching() {
    for calls in ALL {
        let mut dispatcher = calls.with(&[0]);
        calls.refuses_opening(&mut dispatcher, 0, &SHORT, 16);
        calls.refuses_opening(&mut dispatcher, 0, &REFUSED, 16);
        let stopped = Book::of(SHORT, &[-1, 1]).search();
        let mut junk = Search::fresh(M);
        junk.count = COUNT_ABOVE;
        dispatcher.searches[1] = stopped;
        dispatcher.searches[2] = junk;
        for dryer in 1..4 {
            calls.refuses_opening(&mut dispatcher, dryer, &REFUSED, 3);
            assert_eq!((calls.open)(&mut dispatcher, dryer, &R), Report::next(0, 0));
            assert_eq!(dispatcher.searches[dryer as usize], Search::fresh(R));
            calls.refuses_opening(&mut dispatcher, dryer, &R, 16);
        }
        assert_eq!((dispatcher.last, dispatcher.counts), (6, [0; DRYERS]));
    }
}

/// The ends of a dryer's search and the answers that it holds have the limits of any search.
#[test]
fn limits_of_a_search() {
    for calls in ALL {
        let mut dispatcher = (calls.fresh)();
        calls.refuses_opening(&mut dispatcher, 5, &Opening::new(2, 0, HIGHEST + 1, 1), 2);
        let report = (calls.open)(&mut dispatcher, 5, &cases::widest(2));
        assert_eq!(report, Report::next(0, 0));
        assert_eq!((calls.turn)(&dispatcher), 5);
        let stopped = Book::of(SHORT, &[-1, 1]).search();
        for (count, number, place) in [(SLOTS as u32, 5, 2), (COUNT_ABOVE, 9, 0)] {
            dispatcher.searches[5] = Search { count, ..stopped };
            let refusal = Report::refuse(number, place);
            assert_eq!((calls.ask)(&dispatcher, 5), refusal);
            assert_eq!((calls.turn)(&dispatcher), NOBODY);
        }
    }
}

/// Each dryer's search has the share of its own opening: of two with the same answers one stops, and
/// the other goes on, 250/6 rounded down from its better end. A share out of range is refused after a
/// search on its way.
#[test]
fn shares_of_dryers() {
    let shared = Opening::new(1, 1_000, 1_250, 1).with_share(100);
    let refused = shared.with_share(101);
    for calls in ALL {
        let mut dispatcher = (calls.fresh)();
        for (dryer, opening) in [(0, shared), (1, shared.with_share(0))] {
            let report = (calls.open)(&mut dispatcher, dryer, &opening);
            assert_eq!(report, Report::next(1_000, 0));
            assert_eq!(dispatcher.searches[dryer as usize].opening, opening);
        }
        for (dryer, number) in [(6, 14), (0, 16), (1, 16), (2, 17)] {
            calls.refuses_opening(&mut dispatcher, dryer, &refused, number);
        }
        let answers = [
            (0, Answer::new(1_000, -5), Report::next(1_250, 1)),
            (1, Answer::new(1_000, -5), Report::next(1_250, 1)),
            (
                0,
                Answer::new(1_250, 1),
                Report::stop(1_000, 1_250, 1_250, 2),
            ),
            (1, Answer::new(1_250, 1), Report::next(1_209, 2)),
        ];
        for (dryer, answer, report) in answers {
            assert_eq!((calls.turn)(&dispatcher), dryer);
            assert_eq!((calls.enter)(&mut dispatcher, dryer, answer), report);
        }
        calls.refuses_opening(&mut dispatcher, 0, &refused, 17);
    }
}

/// Request 2026-08: a dryer's search with the house default is asked by R.
#[test]
fn house_default_of_a_dryer() {
    for calls in ALL {
        let mut dispatcher = (calls.fresh)();
        let report = (calls.open)(&mut dispatcher, 2, &HOUSE);
        assert_eq!(report, Report::next(0, 0));
        let answers = [
            (FIRST, Report::next(100, 1)),
            (Answer::new(100, 100), Report::next(33, 2)),
            (Answer::new(33, -10), Report::next(40, 3)),
        ];
        for (answer, report) in answers {
            assert_eq!((calls.enter)(&mut dispatcher, 2, answer), report);
        }
        calls.refuses(
            &mut dispatcher,
            2,
            Answer::new(41, -2),
            Report::refuse(6, 3),
        );
        assert_eq!(dispatcher.searches[2].opening, HOUSE);
    }
}

/// The searches of an old dispatcher are changed over one by one, a dryer without one being refused;
/// the mark, the counts and the turn stay, and the crews go on by M.
#[test]
fn old_searches_of_dryers() {
    for calls in ALL {
        let mut dispatcher = (calls.fresh)();
        let old = OLD.book_of(HOUSE, &[-50, 100, -10, -2]).search();
        let stopped = Book::of(SHORT, &[-1, 1]).search();
        dispatcher.searches[1] = old;
        dispatcher.searches[4] = stopped;
        (dispatcher.last, dispatcher.counts) = (1, [7, 9, 0, 0, 2, u32::MAX]);
        let mut expected = dispatcher;
        expected.searches[1].opening = M;
        let none = Report::refuse(3, 0);
        let told = [
            none,
            Report::next(43, 4),
            none,
            none,
            Report::stop(0, 2, 2, 2),
            none,
        ];
        for (search, report) in dispatcher.searches.iter_mut().zip(told) {
            assert_eq!((calls.change_over)(search), report);
        }
        assert_eq!(dispatcher, expected);
        assert_eq!((calls.turn)(&dispatcher), 1);
        assert_eq!((calls.ask)(&dispatcher, 1), Report::next(43, 4));
        let report = (calls.enter)(&mut dispatcher, 1, Answer::new(43, 1));
        assert_eq!(report, Report::stop(41, 43, 43, 5));
    }
}

/// Answers refused 6, 7 and 8 leave the turn; the place is the count of the dryer's search.
#[test]
fn refused_answers_leave_the_turn() {
    for calls in ALL {
        let mut dispatcher = calls.with(&[3, 5]);
        calls.serves(&mut dispatcher, &[3, 5]);
        let wrong = [
            (Answer::new(99, 100), Report::refuse(6, 1)),
            (Answer::new(100, 10_001), Report::refuse(7, 1)),
            (Answer::new(100, -1), Report::refuse(8, 1)),
        ];
        for (answer, refusal) in wrong {
            calls.refuses(&mut dispatcher, 3, answer, refusal);
            assert_eq!((calls.turn)(&dispatcher), 3);
        }
        let second = Answer::new(100, 100);
        assert_eq!(
            (calls.enter)(&mut dispatcher, 3, second),
            Report::next(33, 2)
        );
        assert_eq!((calls.turn)(&dispatcher), 5);
    }
}

/// The count of each dryer grows up to the ceiling, and remains as it is there and above; those of
/// the five others stay, whatever they are.
#[test]
fn each_ceiling() {
    let others = [3, 999_999_999, 0, 1_000_000_000, u32::MAX, 1_000_000_001];
    let after = [
        (0, 1),
        (999_999_998, 999_999_999),
        (999_999_999, 1_000_000_000),
        (1_000_000_000, 1_000_000_000),
        (1_000_000_001, 1_000_000_001),
        (u32::MAX, u32::MAX),
    ];
    for calls in ALL {
        for (before, after) in after {
            for dryer in 0..6 {
                let mut dispatcher = calls.with(&[dryer]);
                dispatcher.counts = others;
                dispatcher.counts[dryer as usize] = before;
                let another = (dryer + 1) % 6;
                calls.refuses(&mut dispatcher, another, FIRST, Report::refuse(15, 0));
                calls.serves(&mut dispatcher, &[dryer]);
                let mut expected = others;
                expected[dryer as usize] = after;
                assert_eq!(dispatcher.counts, expected, "dryer {dryer}");
            }
        }
    }
}

/// A dryer is opened anew after each stop, and its count goes on; refused openings leave it too.
#[test]
fn openings_clear_nothing() {
    for calls in ALL {
        let mut dispatcher = (calls.fresh)();
        calls.runs_short(&mut dispatcher, 4);
        for count in [2, 4, 6] {
            assert_eq!(dispatcher.counts, [0, 0, 0, 0, count, 0]);
            calls.refuses_opening(&mut dispatcher, 4, &REFUSED, 3);
            calls.runs_short(&mut dispatcher, 4);
        }
        assert_eq!((calls.open)(&mut dispatcher, 4, &M), Report::next(0, 0));
        calls.refuses_opening(&mut dispatcher, 4, &M, 16);
        assert_eq!(dispatcher.counts, [0, 0, 0, 0, 8, 0]);
        calls.serves(&mut dispatcher, &[4]);
        assert_eq!(dispatcher.counts, [0, 0, 0, 0, 9, 0]);
    }
}

/// The answers of one crew, through many searches, never move the count of another, though the
/// others have searches that have stopped.
#[test]
fn one_crew_alone() {
    for calls in ALL {
        let mut dispatcher = (calls.fresh)();
        for dryer in 0..6 {
            calls.runs_short(&mut dispatcher, dryer);
        }
        assert_eq!(dispatcher.counts, [2; DRYERS]);
        for dryer in 0..6 {
            let mut expected = dispatcher.counts;
            for _ in 0..10 {
                calls.runs_short(&mut dispatcher, dryer);
                expected[dryer as usize] += 2;
                assert_eq!(dispatcher.counts, expected, "dryer {dryer}");
            }
        }
        assert_eq!(dispatcher.counts, [22; DRYERS]);
    }
}

/// The sum of the six passes the ceiling, where the old count stays, while each count goes on.
#[test]
fn sum_past_the_ceiling() {
    let start = [150_000_000, 0, 250_000_000, 299_999_998, 1, 299_999_999];
    for calls in ALL {
        let mut dispatcher = calls.with(&[0, 1, 2, 3, 4, 5]);
        dispatcher.counts = start;
        let mut expected = start;
        let mut old_count = sum(&start);
        assert_eq!(old_count, 999_999_998);
        for dryer in 0..6 {
            calls.serves(&mut dispatcher, &[dryer]);
            expected[dryer as usize] += 1;
            old_count = old_count_after(old_count);
            assert_eq!(old_count, CEILING.min(sum(&dispatcher.counts)));
            assert_eq!(dispatcher.counts, expected);
        }
        assert_eq!(old_count, 1_000_000_000);
    }
}

/// From a fresh dispatcher the sum of the six is what the old count would have shown: here after
/// every call of mornings in which crews open, answer, and bring leaf out of turn.
#[test]
fn sum_from_fresh() {
    for calls in ALL {
        let mut rng = Rng::new(5);
        let mut dispatcher = (calls.fresh)();
        let mut old_count = 0;
        let mut served = [0; DRYERS];
        for _ in 0..600 {
            let turn = (calls.turn)(&dispatcher);
            let any = rng.below(7) as u32;
            let dryer = if rng.once_in(3) { any } else { turn };
            let begun = (calls.ask)(&dispatcher, dryer).taken > 0;
            let answer = if begun { LAST } else { FIRST };
            if turn == NOBODY || rng.once_in(3) {
                (calls.open)(&mut dispatcher, any, &SHORT);
            } else if (calls.enter)(&mut dispatcher, dryer, answer).kind != Report::REFUSED {
                old_count = old_count_after(old_count);
                served[dryer as usize] += 1;
            }
            assert_eq!(sum(&dispatcher.counts), old_count);
            assert_eq!(dispatcher.counts, served);
        }
        assert!(served.iter().all(|&served| served > 10), "{served:?}");
    }
}

/// The longest wait: dryer 0 was served last, and the five others come before it.
#[test]
fn all_six() {
    for calls in ALL {
        let mut dispatcher = calls.with(&[5, 4, 3, 2, 1, 0]);
        calls.serves(&mut dispatcher, &[0, 1, 2, 3, 4, 5]);
        assert_eq!((calls.turn)(&dispatcher), 0);
        assert_eq!(dispatcher.counts, [1; DRYERS]);
    }
}

/// A search that stops leaves the round, and the last one leaves nobody; a new one comes in again.
#[test]
fn to_the_stop() {
    for calls in ALL {
        let mut dispatcher = (calls.fresh)();
        for dryer in [2, 4] {
            assert_eq!(
                (calls.open)(&mut dispatcher, dryer, &SHORT),
                Report::next(0, 0)
            );
        }
        let stop = Report::stop(0, 2, 2, 2);
        let turns = [
            (2, FIRST, Report::next(2, 1)),
            (4, FIRST, Report::next(2, 1)),
        ];
        let last = [2, 4].map(|dryer| (dryer, LAST, stop));
        for (dryer, answer, report) in turns.into_iter().chain(last) {
            assert_eq!((calls.turn)(&dispatcher), dryer);
            assert_eq!((calls.enter)(&mut dispatcher, dryer, answer), report);
        }
        assert_eq!((calls.turn)(&dispatcher), NOBODY);
        assert_eq!((calls.ask)(&dispatcher, 2), stop);
        let counts = [0, 0, 2, 0, 2, 0];
        assert_eq!((dispatcher.last, dispatcher.counts), (4, counts));
        assert_eq!((calls.open)(&mut dispatcher, 4, &M), Report::next(0, 0));
        calls.serves(&mut dispatcher, &[4]);
    }
}

#[test]
fn model_and_plain_on_dispatchers() {
    let mut rng = Rng::new(9);
    for _ in 0..5_000 {
        let mut one = cases::any_dispatcher(&mut rng);
        let mut other = one;
        for dryer in 0..7 {
            let report = dispatcher::ask(&one, dryer);
            assert_eq!(report, plain::dispatch_ask(&other, dryer), "{one:?}");
            let answer = Answer::new(report.point as i32, cases::any_value(&mut rng));
            let opening = cases::any_opening(&mut rng);
            let (model, plain) = if rng.once_in(3) {
                (
                    dispatcher::open(&mut one, dryer, &opening),
                    plain::dispatch_open(&mut other, dryer, &opening),
                )
            } else {
                (
                    dispatcher::enter(&mut one, dryer, answer),
                    plain::dispatch_enter(&mut other, dryer, answer),
                )
            };
            assert_eq!(model, plain, "{one:?}");
            assert_eq!(one, other);
            assert_eq!(dispatcher::turn(&one), plain::dispatch_turn(&other));
        }
    }
}
