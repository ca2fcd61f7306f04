//! The C interface of the proved library, include/busdekker.h, behind safe functions.

use crate::types::{
    Answer, Answered, Dispatcher, Opening, Outcome, Quotation, Report, Search, SeasonReport,
    Surveyed, Written,
};

/// Who answers.
pub const WHO: &str = "the proved library, target/staticlib/libbusdekker.a";

/// The version of the interface that is declared here.
pub const VERSION: u32 = 11;

extern "C" {
    fn busdekker_version() -> u32;
    fn busdekker_quote(opening: Opening) -> Quotation;
    fn busdekker_open(search: *mut Search, opening: Opening) -> Report;
    fn busdekker_enter(search: *mut Search, point: i32, value: i32) -> Report;
    fn busdekker_entered(search: Search, point: i32, value: i32) -> Answered;
    fn busdekker_ask(search: *const Search) -> Report;
    fn busdekker_change_over(search: *mut Search) -> Report;
    fn busdekker_values(opening: Opening, values: *const i32, length: usize) -> Report;
    fn busdekker_sheet(text: *const u8, length: usize) -> Report;
    fn busdekker_sheet_outcome(text: *const u8, length: usize) -> Outcome;
    fn busdekker_season(numbers: *const u16, length: usize) -> SeasonReport;
    fn busdekker_write(search: *const Search, buffer: *mut u8, size: usize) -> Written;
    fn busdekker_panel(
        search: *mut Search,
        request: *const u8,
        length: usize,
        reply: *mut u8,
        size: usize,
    ) -> Written;
    fn busdekker_load(seed: u32) -> Answered;
    fn busdekker_draw(last: u32) -> u32;
    fn busdekker_survey(
        lowest: i32,
        pitch: i32,
        values: *const i32,
        length: usize,
        list: *mut u32,
        size: usize,
    ) -> Surveyed;
    fn busdekker_dispatch_fresh() -> Dispatcher;
    fn busdekker_dispatch_turn(dispatcher: *const Dispatcher) -> u32;
    fn busdekker_dispatch_open(dispatcher: *mut Dispatcher, dryer: u32, opening: Opening)
        -> Report;
    fn busdekker_dispatch_enter(dispatcher: *mut Dispatcher, dryer: u32, answer: Answer) -> Report;
    fn busdekker_dispatch_ask(dispatcher: *const Dispatcher, dryer: u32) -> Report;
}

/// The version of the interface that the library has.
pub fn version() -> u32 {
    // Nothing goes in, and a number comes out.
    unsafe { busdekker_version() }
}

/// t and the most answers that may be needed.
pub fn quote(opening: &Opening) -> Quotation {
    // Numbers go in and numbers come out.
    unsafe { busdekker_quote(*opening) }
}

/// A fresh search in the host's own, which stays as it is if the opening is refused.
pub fn open(search: &mut Search, opening: &Opening) -> Report {
    // The reference is to a whole search that nobody else reads or writes.
    unsafe { busdekker_open(search, *opening) }
}

/// An answer entered into the host's own search.
pub fn enter(search: &mut Search, point: i32, value: i32) -> Report {
    // The reference is to a whole search that nobody else reads or writes.
    unsafe { busdekker_enter(search, point, value) }
}

/// The same by value.
pub fn entered(search: Search, point: i32, value: i32) -> Answered {
    // A search goes in by value and comes out so.
    unsafe { busdekker_entered(search, point, value) }
}

/// The report of a held search.
pub fn ask(search: &Search) -> Report {
    // The reference is to a whole search, which is only read.
    unsafe { busdekker_ask(search) }
}

/// An old search of the host's own, whose method 0 is M, in today's numbers.
pub fn change_over(search: &mut Search) -> Report {
    // The reference is to a whole search that nobody else reads or writes.
    unsafe { busdekker_change_over(search) }
}

/// The report of the search over a list of values.
pub fn values(opening: &Opening, values: &[i32]) -> Report {
    // The pointer and the length are those of a slice, which is only read.
    unsafe { busdekker_values(*opening, values.as_ptr(), values.len()) }
}

/// The program's report of a sheet. Places are record numbers.
pub fn sheet(text: &[u8]) -> Report {
    // The pointer and the length are those of a slice, which is only read.
    unsafe { busdekker_sheet(text.as_ptr(), text.len()) }
}

/// The outcome of a sheet in four numbers, as a season takes them.
pub fn sheet_outcome(text: &[u8]) -> Outcome {
    // The pointer and the length are those of a slice, which is only read.
    unsafe { busdekker_sheet_outcome(text.as_ptr(), text.len()) }
}

/// The season report on a run of outcomes, four numbers for each.
pub fn season(numbers: &[u16]) -> SeasonReport {
    // The pointer and the length are those of a slice, which is only read.
    unsafe { busdekker_season(numbers.as_ptr(), numbers.len()) }
}

/// The clean sheet of a held search, written at the beginning of the buffer.
pub fn write(search: &Search, buffer: &mut [u8]) -> Written {
    // The reference is to a whole search, which is only read. The pointer and the length are those
    // of a slice that nobody else reads or writes.
    unsafe { busdekker_write(search, buffer.as_mut_ptr(), buffer.len()) }
}

/// A panel's request answered from the host's own search, the reply written at the beginning of its
/// buffer.
pub fn panel(search: &mut Search, request: &[u8], reply: &mut [u8]) -> Written {
    let (length, size) = (request.len(), reply.len());
    // The reference is to a whole search that nobody else reads or writes. The pointers and the
    // lengths are those of two slices: the first is only read, and the second nobody else reads or
    // writes.
    unsafe { busdekker_panel(search, request.as_ptr(), length, reply.as_mut_ptr(), size) }
}

/// The trial load of a seed.
pub fn load(seed: u32) -> Answered {
    // A number goes in and numbers come out.
    unsafe { busdekker_load(seed) }
}

/// The draw after this one, or the first after a seed.
pub fn draw(last: u32) -> u32 {
    // A number goes in and a number comes out.
    unsafe { busdekker_draw(last) }
}

/// The pairs of a survey, whose lower points are written at the beginning of the list.
pub fn survey(lowest: i32, pitch: i32, values: &[i32], list: &mut [u32]) -> Surveyed {
    let (length, size) = (values.len(), list.len());
    // The pointers and the lengths are those of two slices: the first is only read, and the second
    // nobody else reads or writes.
    unsafe {
        busdekker_survey(
            lowest,
            pitch,
            values.as_ptr(),
            length,
            list.as_mut_ptr(),
            size,
        )
    }
}

/// A fresh dispatcher.
pub fn dispatch_fresh() -> Dispatcher {
    // Nothing goes in, and numbers come out.
    unsafe { busdekker_dispatch_fresh() }
}

/// The dryer that has the oven's turn, or nobody.
pub fn dispatch_turn(dispatcher: &Dispatcher) -> u32 {
    // The reference is to a whole dispatcher, which is only read.
    unsafe { busdekker_dispatch_turn(dispatcher) }
}

/// A fresh search at a dryer of the host's dispatcher.
pub fn dispatch_open(dispatcher: &mut Dispatcher, dryer: u32, opening: &Opening) -> Report {
    // The reference is to a whole dispatcher that nobody else reads or writes.
    unsafe { busdekker_dispatch_open(dispatcher, dryer, *opening) }
}

/// An answer for a dryer of the host's dispatcher.
pub fn dispatch_enter(dispatcher: &mut Dispatcher, dryer: u32, answer: Answer) -> Report {
    // The reference is to a whole dispatcher that nobody else reads or writes.
    unsafe { busdekker_dispatch_enter(dispatcher, dryer, answer) }
}

/// The report of a dryer.
pub fn dispatch_ask(dispatcher: &Dispatcher, dryer: u32) -> Report {
    // The reference is to a whole dispatcher, which is only read.
    unsafe { busdekker_dispatch_ask(dispatcher, dryer) }
}
