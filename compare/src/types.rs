//! The data that the C interface, the model and the plain code have in common. No rule is here.

use std::fmt;
use std::mem::{offset_of, size_of};

/// The slots of a held search.
pub const SLOTS: usize = 77;

/// The dryers of a dispatcher.
pub const DRYERS: usize = 6;

/// No dryer: the turn where none has it, and the mark where none was served.
pub const NOBODY: u32 = 6;

/// The bytes that the clean sheet of every search fits in: 24 for the opening and 14 for each
/// answer.
pub const LONGEST_CLEAN_SHEET: usize = 24 + 14 * SLOTS;

/// The registers that a panel reads of a search.
pub const REGISTERS: usize = 7;

/// The bytes that every reply to a panel fits in: the function, the number of bytes, and two for each
/// register.
pub const LONGEST_REPLY: usize = 2 + 2 * REGISTERS;

/// The most outcomes of a season, and the numbers of each.
pub const MOST_OUTCOMES: usize = 10_000;
pub const OUTCOME_NUMBERS: usize = 4;

/// The tallies of a season report: of the methods 0, 1 and 2, and of any other.
pub const TALLIES: usize = 4;

/// The largest seed of a trial load; the least is 1.
pub const LARGEST_SEED: u32 = 2_147_483_646;

/// The fewest and the most values of a survey, and the most pairs that one finds.
pub const FEWEST_SURVEYED: usize = 2;
pub const MOST_SURVEYED: usize = 600;
pub const MOST_PAIRS: usize = MOST_SURVEYED - 1;

/// An opening: method, x0, x1, τ and p, each as it was offered.
#[repr(C)]
#[derive(Clone, Copy, Debug, PartialEq, Eq)]
pub struct Opening {
    pub method: i32,
    pub first: i32,
    pub second: i32,
    pub tolerance: i32,
    pub share: i32,
}

impl Opening {
    /// One whose share is 0.
    pub const fn new(method: i32, first: i32, second: i32, tolerance: i32) -> Self {
        Opening {
            method,
            first,
            second,
            tolerance,
            share: 0,
        }
    }

    /// The same with this share.
    pub const fn with_share(self, share: i32) -> Self {
        Opening { share, ..self }
    }
}

/// A held search, as the host keeps it.
#[repr(C)]
#[derive(Clone, Copy, Debug, PartialEq, Eq)]
pub struct Search {
    pub opening: Opening,
    pub count: u32,
    pub slots: [i32; SLOTS],
}

impl Search {
    /// The search of which every number is 0.
    pub const BLANK: Search = Search::fresh(Opening::new(0, 0, 0, 0));

    /// A search of this opening with a count of 0 and slots of 0.
    pub const fn fresh(opening: Opening) -> Self {
        Search {
            opening,
            count: 0,
            slots: [0; SLOTS],
        }
    }
}

/// An answer: a point and its value, each as it was offered.
#[repr(C)]
#[derive(Clone, Copy, Debug, PartialEq, Eq)]
pub struct Answer {
    pub point: i32,
    pub value: i32,
}

impl Answer {
    pub const fn new(point: i32, value: i32) -> Self {
        Answer { point, value }
    }
}

/// A dispatcher, as the host keeps it: the search of each dryer, the dryer that was last served, and
/// for each dryer the number of answers served there.
#[repr(C)]
#[derive(Clone, Copy, Debug, PartialEq, Eq)]
pub struct Dispatcher {
    pub searches: [Search; DRYERS],
    pub last: u32,
    pub counts: [u32; DRYERS],
}

impl Dispatcher {
    /// No search, which is six of nothing but 0; nobody served; and six counts of 0.
    pub const fn fresh() -> Self {
        Dispatcher {
            searches: [Search::BLANK; DRYERS],
            last: NOBODY,
            counts: [0; DRYERS],
        }
    }
}

/// A report. A number that its kind has not is 0.
#[repr(C)]
#[derive(Clone, Copy, Debug, PartialEq, Eq)]
pub struct Report {
    pub kind: u32,
    pub point: u32,
    pub lower: u32,
    pub upper: u32,
    pub better: u32,
    pub taken: u32,
    pub number: u32,
    pub place: u32,
}

impl Report {
    pub const NEXT: u32 = 1;
    pub const STOP: u32 = 2;
    pub const REFUSED: u32 = 3;

    const NONE: Report = Report {
        kind: 0,
        point: 0,
        lower: 0,
        upper: 0,
        better: 0,
        taken: 0,
        number: 0,
        place: 0,
    };

    pub const fn next(point: u32, taken: u32) -> Self {
        Report {
            kind: Self::NEXT,
            point,
            taken,
            ..Self::NONE
        }
    }

    pub const fn stop(lower: u32, upper: u32, better: u32, taken: u32) -> Self {
        Report {
            kind: Self::STOP,
            lower,
            upper,
            better,
            taken,
            ..Self::NONE
        }
    }

    pub const fn refuse(number: u32, place: u32) -> Self {
        Report {
            kind: Self::REFUSED,
            number,
            place,
            ..Self::NONE
        }
    }
}

/// The record that the program writes, without its CR LF.
impl fmt::Display for Report {
    fn fmt(&self, f: &mut fmt::Formatter) -> fmt::Result {
        let Report {
            kind,
            point,
            lower,
            upper,
            better,
            taken,
            number,
            place,
        } = self;
        match *kind {
            Self::NEXT => write!(f, "next,{point},{taken}"),
            Self::STOP => write!(f, "stop,{lower},{upper},{better},{taken}"),
            Self::REFUSED => write!(f, "refuse,{number},{place}"),
            _ => write!(f, "unknown kind {kind}"),
        }
    }
}

/// What is told of an opening before the first trial: t and the most answers that may be needed, or
/// a refusal. A number that its kind has not is 0.
#[repr(C)]
#[derive(Clone, Copy, Debug, PartialEq, Eq)]
pub struct Quotation {
    pub kind: u32,
    pub t: u32,
    pub most: u32,
    pub number: u32,
    pub place: u32,
}

impl Quotation {
    pub const QUOTED: u32 = 4;

    pub const fn quote(t: u32, most: u32) -> Self {
        Quotation {
            kind: Self::QUOTED,
            t,
            most,
            number: 0,
            place: 0,
        }
    }

    pub const fn refuse(number: u32) -> Self {
        Quotation {
            kind: Report::REFUSED,
            t: 0,
            most: 0,
            number,
            place: 0,
        }
    }
}

/// What is told of a sheet or a reply that is to be written: its length, or a refusal. A number that
/// its kind has not is 0.
#[repr(C)]
#[derive(Clone, Copy, Debug, PartialEq, Eq)]
pub struct Written {
    pub kind: u32,
    pub length: u32,
    pub number: u32,
    pub place: u32,
}

impl Written {
    pub const WRITTEN: u32 = 5;

    pub const fn bytes(length: u32) -> Self {
        Written {
            kind: Self::WRITTEN,
            length,
            number: 0,
            place: 0,
        }
    }

    pub const fn refuse(number: u32, place: u32) -> Self {
        Written {
            kind: Report::REFUSED,
            length: 0,
            number,
            place,
        }
    }
}

/// The outcome of a sheet, each number as it was offered.
#[repr(C)]
#[derive(Clone, Copy, Debug, PartialEq, Eq)]
pub struct Outcome {
    pub kind: u16,
    pub method: u16,
    pub answers: u16,
    pub quoted: u16,
}

impl Outcome {
    pub const STOPPED: u16 = 0;
    pub const UNFINISHED: u16 = 1;
    pub const REFUSED: u16 = 2;

    pub const fn new(kind: u16, method: u16, answers: u16, quoted: u16) -> Self {
        Outcome {
            kind,
            method,
            answers,
            quoted,
        }
    }

    /// The four numbers in the order of a run.
    pub const fn numbers(self) -> [u16; OUTCOME_NUMBERS] {
        [self.kind, self.method, self.answers, self.quoted]
    }
}

/// What is told of the outcomes of one method: how many stopped, are unfinished and were refused, and
/// the total answers, the total quoted and the largest number of answers.
#[repr(C)]
#[derive(Clone, Copy, Debug, Default, PartialEq, Eq)]
pub struct MethodTally {
    pub stopped: u32,
    pub unfinished: u32,
    pub refused: u32,
    pub answers: u32,
    pub quoted: u32,
    pub largest: u32,
}

impl MethodTally {
    /// The numbers in the order in which they are told.
    pub const fn numbers(self) -> [u32; 6] {
        [
            self.stopped,
            self.unfinished,
            self.refused,
            self.answers,
            self.quoted,
            self.largest,
        ]
    }
}

/// A season report: the number of outcomes and the tally of each method, or a refusal. A number that
/// its kind has not is 0.
#[repr(C)]
#[derive(Clone, Copy, Debug, PartialEq, Eq)]
pub struct SeasonReport {
    pub kind: u32,
    pub outcomes: u32,
    pub number: u32,
    pub place: u32,
    pub tallies: [MethodTally; TALLIES],
}

impl SeasonReport {
    pub const SEASON: u32 = 6;

    pub const fn season(outcomes: u32, tallies: [MethodTally; TALLIES]) -> Self {
        SeasonReport {
            kind: Self::SEASON,
            outcomes,
            number: 0,
            place: 0,
            tallies,
        }
    }

    pub fn refuse(number: u32) -> Self {
        SeasonReport {
            kind: Report::REFUSED,
            outcomes: 0,
            number,
            place: 0,
            tallies: [MethodTally::default(); TALLIES],
        }
    }
}

/// What is told of a survey: how many pairs it has, or a refusal. A number that its kind has not is 0.
#[repr(C)]
#[derive(Clone, Copy, Debug, PartialEq, Eq)]
pub struct Surveyed {
    pub kind: u32,
    pub pairs: u32,
    pub number: u32,
    pub place: u32,
}

impl Surveyed {
    pub const SURVEYED: u32 = 7;

    pub const fn found(pairs: u32) -> Self {
        Surveyed {
            kind: Self::SURVEYED,
            pairs,
            number: 0,
            place: 0,
        }
    }

    pub const fn refuse(number: u32, place: u32) -> Self {
        Surveyed {
            kind: Report::REFUSED,
            pairs: 0,
            number,
            place,
        }
    }
}

/// A report, and beside it the search as it then is.
#[repr(C)]
#[derive(Clone, Copy, Debug, PartialEq, Eq)]
pub struct Answered {
    pub report: Report,
    pub search: Search,
}

impl Answered {
    /// A refusal whose place is 0, and beside it the search of which every number is 0.
    pub const fn refuse(number: u32) -> Self {
        Answered {
            report: Report::refuse(number, 0),
            search: Search::BLANK,
        }
    }
}

// The layout that include/busdekker.h has.
const _: () = {
    assert!(size_of::<Opening>() == 20);
    assert!(offset_of!(Opening, first) == 4);
    assert!(offset_of!(Opening, second) == 8);
    assert!(offset_of!(Opening, tolerance) == 12);
    assert!(offset_of!(Opening, share) == 16);
    assert!(size_of::<Search>() == 332);
    assert!(offset_of!(Search, count) == 20);
    assert!(offset_of!(Search, slots) == 24);
    assert!(size_of::<Answer>() == 8);
    assert!(offset_of!(Answer, value) == 4);
    assert!(size_of::<Dispatcher>() == 2_020);
    assert!(offset_of!(Dispatcher, last) == 1_992);
    assert!(offset_of!(Dispatcher, counts) == 1_996);
    assert!(size_of::<Report>() == 32);
    assert!(offset_of!(Report, point) == 4);
    assert!(offset_of!(Report, lower) == 8);
    assert!(offset_of!(Report, upper) == 12);
    assert!(offset_of!(Report, better) == 16);
    assert!(offset_of!(Report, taken) == 20);
    assert!(offset_of!(Report, number) == 24);
    assert!(offset_of!(Report, place) == 28);
    assert!(size_of::<Quotation>() == 20);
    assert!(offset_of!(Quotation, t) == 4);
    assert!(offset_of!(Quotation, most) == 8);
    assert!(offset_of!(Quotation, number) == 12);
    assert!(offset_of!(Quotation, place) == 16);
    assert!(size_of::<Written>() == 16);
    assert!(offset_of!(Written, length) == 4);
    assert!(offset_of!(Written, number) == 8);
    assert!(offset_of!(Written, place) == 12);
    assert!(size_of::<Outcome>() == 8);
    assert!(offset_of!(Outcome, method) == 2);
    assert!(offset_of!(Outcome, answers) == 4);
    assert!(offset_of!(Outcome, quoted) == 6);
    assert!(size_of::<MethodTally>() == 24);
    assert!(offset_of!(MethodTally, unfinished) == 4);
    assert!(offset_of!(MethodTally, refused) == 8);
    assert!(offset_of!(MethodTally, answers) == 12);
    assert!(offset_of!(MethodTally, quoted) == 16);
    assert!(offset_of!(MethodTally, largest) == 20);
    assert!(size_of::<SeasonReport>() == 112);
    assert!(offset_of!(SeasonReport, outcomes) == 4);
    assert!(offset_of!(SeasonReport, number) == 8);
    assert!(offset_of!(SeasonReport, place) == 12);
    assert!(offset_of!(SeasonReport, tallies) == 16);
    assert!(size_of::<Surveyed>() == 16);
    assert!(offset_of!(Surveyed, pairs) == 4);
    assert!(offset_of!(Surveyed, number) == 8);
    assert!(offset_of!(Surveyed, place) == 12);
    assert!(size_of::<Answered>() == 364);
    assert!(offset_of!(Answered, search) == 32);
};
