//! Clean sheets: the comparison's part on what is written of a held search into a lent buffer.

use crate::checks::{agree, search_as_sheet, Checked, Tally};
use crate::model::{self, Book};
use crate::rng::Rng;
use crate::sheets::Text;
use crate::types::{Opening, Search, Written, LONGEST_CLEAN_SHEET};
use crate::{beam, cases, ffi};
use std::hint::black_box;

/// How many searches are tried that hold anything; books, at each stage of their way; and of the
/// longest orders that the beam finds, by M and by R each, tried so too.
const HELD: usize = 100_000;
const BOOKS: usize = 10_000;
const ORDERS: usize = 100;

/// One search in so many is tried with a buffer of every length.
const EVERY_LENGTH: usize = 400;

/// The bytes before and after the buffer that must not be touched either.
const MARGIN: usize = 16;

/// Searches of every kind, each with buffers of many lengths.
pub fn clean_sheets(rng: &mut Rng, tally: &mut Tally) -> Checked {
    for _ in 0..HELD {
        search_agrees(&cases::any_search(rng), rng, tally)?;
    }
    for _ in 0..BOOKS {
        let book = cases::answered(cases::accepted_opening(rng), rng);
        stages_agree(book.opening(), &book.values(), rng, tally)?;
    }
    let mut longest = 0;
    for method in [1, 2] {
        let opening = cases::widest(method);
        let orders = beam::longest(&opening, beam::WIDE, rng);
        for order in orders.iter().take(ORDERS) {
            stages_agree(&opening, order, rng, tally)?;
            let sheet = model::clean(&Book::of(opening, order).search());
            longest = longest.max(sheet.map_or(0, |text| text.len()));
        }
    }
    println!("longest clean sheet of these: {longest} bytes, the bound is {LONGEST_CLEAN_SHEET}");
    Ok(())
}

/// The search of an accepted opening after none of its values, after the first, and so on.
fn stages_agree(opening: &Opening, values: &[i32], rng: &mut Rng, tally: &mut Tally) -> Checked {
    for n in 0..=values.len() {
        let search = Book::of(*opening, &values[..n]).search();
        search_agrees(&with_junk(&search, rng), rng, tally)?;
    }
    Ok(())
}

/// One search: buffers of many lengths, and where it is accepted, what its sheet is read as.
fn search_agrees(search: &Search, rng: &mut Rng, tally: &mut Tally) -> Checked {
    let clean = model::clean(search);
    let length = clean.as_ref().map_or(rng.below(100), Vec::len);
    for size in sizes(length, rng) {
        let written = write_agrees(search, size, rng)?;
        tally.count_written(&written);
    }
    if let Ok(text) = clean {
        sheet_agrees(search, &text, rng)?;
    }
    tally.cases += 1;
    Ok(())
}

/// Lengths of buffers for a sheet of this length: about as long, 0, and what is always enough; or
/// now and then every length.
fn sizes(length: usize, rng: &mut Rng) -> Vec<usize> {
    if rng.once_in(EVERY_LENGTH) {
        return (0..=length + 3).collect();
    }
    let shorter = rng.below(length + 1);
    let longer = length + 1 + rng.below(40);
    let before = length.saturating_sub(1);
    vec![0, shorter, before, length, longer, LONGEST_CLEAN_SHEET]
}

/// The same search written by both into a buffer of this size, whose bytes are any: what is told
/// is the same, and so is every byte of the buffer and around it. The search stays as it is.
fn write_agrees(search: &Search, size: usize, rng: &mut Rng) -> Result<Written, String> {
    let mut model = Text(rng.bytes(size + 2 * MARGIN));
    let mut library = model.clone();
    let before = library.clone();
    let lent = MARGIN..MARGIN + size;
    let input = || {
        let search = search_as_sheet(search);
        format!("{search}\ninto {size} bytes, {MARGIN} before and after them: {before:?}")
    };
    let after = *search;
    let told = (
        model::write(search, &mut model.0[lent.clone()]),
        ffi::write(&after, &mut library.0[lent]),
    );
    agree((told.0, model), (told.1, library), input)?;
    // Looked at anew: the compiler may take for granted that what is lent to be read stays.
    agree(*search, *black_box(&after), input)?;
    Ok(told.1)
}

/// What the library writes of an accepted search is this text, whatever the slots past the count
/// hold. It is reported on as the search is. Read by the model it is the search with fresh slots
/// at 0, and cleaned again it is the same text.
fn sheet_agrees(search: &Search, text: &[u8], rng: &mut Rng) -> Checked {
    let input = || search_as_sheet(search);
    if text.len() > LONGEST_CLEAN_SHEET {
        return Err(format!("LONGER THAN THE LONGEST\n{}", input()));
    }
    let expected = Text(text.to_vec());
    let fresh = with_slots(search, || 0);
    for same in [*search, with_junk(search, rng), fresh] {
        agree(&expected, &written(&same), input)?;
    }
    let library = written(search).0;
    agree(model::ask(search), ffi::ask(search), input)?;
    agree(ffi::ask(search), ffi::sheet(&library), input)?;
    let restored = model::read(&library).map(|book| book.search());
    agree(Ok(fresh), restored, input)?;
    agree(&expected, &Text(model::clean_text(&library)), input)
}

/// What the library writes of an accepted search.
pub fn written(search: &Search) -> Text {
    let mut buffer = vec![0; LONGEST_CLEAN_SHEET];
    let told = ffi::write(search, &mut buffer);
    buffer.truncate(told.length as usize);
    Text(buffer)
}

/// The search with other numbers in its slots at and past the count, which nobody should see.
fn with_slots(search: &Search, number: impl FnMut() -> i32) -> Search {
    let mut other = *search;
    let count = search.count as usize;
    other.slots[count..].fill_with(number);
    other
}

/// The search with any numbers there.
pub fn with_junk(search: &Search, rng: &mut Rng) -> Search {
    with_slots(search, || rng.any())
}
