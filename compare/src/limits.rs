//! The limits: the comparison's part on openings and held searches whose numbers are at and around
//! them, in every combination.

use crate::cases::{COUNTS_ABOVE, POINTS_ABOVE, POINTS_AT_LIMITS};
use crate::checks::{agree, list_as_sheet, search_as_sheet, Checked, Tally};
use crate::rng::Rng;
use crate::types::{Opening, Search, SLOTS};
use crate::{ffi, model, sheets};

const METHODS_AROUND: [i32; 5] = [-1, 0, 1, 2, 3];
const TOLERANCES_AROUND: [i32; 4] = [0, 1, 5_000, 5_001];
const SHARES_AROUND: [i32; 4] = [-1, 0, 100, 101];
const POINTS_BELOW: [i32; 3] = [i32::MIN, -65_536, -1];

/// Counts in range: the least, and those at the limit, now and before request 2026-06.
const COUNTS: [u32; 6] = [0, 1, 72, 73, SLOTS as u32 - 1, SLOTS as u32];

/// Every opening of these numbers, by itself and in searches of every count.
pub fn limits(_: &mut Rng, tally: &mut Tally) -> Checked {
    let largest = &[i32::MAX][..];
    let ends = [&POINTS_BELOW, &POINTS_AT_LIMITS[..], &POINTS_ABOVE, largest].concat();
    for &first in &ends {
        for &second in &ends {
            for method in METHODS_AROUND {
                for tolerance in TOLERANCES_AROUND {
                    let opening = Opening::new(method, first, second, tolerance);
                    for share in SHARES_AROUND {
                        opening_agrees(&opening.with_share(share), tally)?;
                    }
                }
            }
        }
    }
    Ok(())
}

/// The quote, the sheet of the opening alone, and what is told of searches of it.
fn opening_agrees(opening: &Opening, tally: &mut Tally) -> Checked {
    let input = || list_as_sheet(opening, &[]);
    agree(model::quote(opening), ffi::quote(opening), input)?;
    let text = sheets::write(opening, &[]);
    agree(model::sheet(&text), ffi::sheet(&text), input)?;
    let mut search = Search::fresh(*opening);
    search.slots.fill(1);
    search.slots[0] = -1;
    for count in COUNTS.into_iter().chain(COUNTS_ABOVE) {
        search.count = count;
        held_agrees(&search, tally)?;
    }
    Ok(())
}

/// One search as it stands, then changed over as an old one; then as it stood with an answer offered
/// at the point called for, and then opened anew.
fn held_agrees(search: &Search, tally: &mut Tally) -> Checked {
    let input = || search_as_sheet(search);
    let (mut model, mut library) = (*search, *search);
    let asked = (model::ask(&model), ffi::ask(&library));
    agree(asked.0, asked.1, input)?;
    let (mut changed_model, mut changed_library) = (*search, *search);
    let changed = (
        model::change_over(&mut changed_model),
        ffi::change_over(&mut changed_library),
    );
    agree(
        (changed.0, changed_model),
        (changed.1, changed_library),
        input,
    )?;
    let point = asked.0.point as i32;
    let entered = (
        model::enter(&mut model, point, 1),
        ffi::enter(&mut library, point, 1),
    );
    agree((entered.0, model), (entered.1, library), input)?;
    let opened = (
        model::open(&mut model, &search.opening),
        ffi::open(&mut library, &search.opening),
    );
    agree((opened.0, model), (opened.1, library), input)?;
    for report in [asked.1, changed.1, entered.1, opened.1] {
        tally.count(&report);
    }
    tally.cases += 1;
    Ok(())
}
