//! Document 01's worked trials, and those of the requests since, tried on the model, on the plain
//! code and on the proved library; then the model against the plain code on random cases.

use compare::cases::{self, COUNT_ABOVE, HIGHEST};
use compare::model::{self, Book, OLD};
use compare::plain;
use compare::rng::Rng;
use compare::sheets;
use compare::types::{Opening, Quotation, Report, Search, Written, LONGEST_CLEAN_SHEET, SLOTS};
use compare::{beam, ffi};

const M: Opening = Opening::new(1, 0, 100, 1);
const R: Opening = Opening::new(2, 0, 100, 1);
const HOUSE: Opening = Opening::new(0, 0, 100, 1);

type Values = fn(&Opening, &[i32]) -> Report;
type Sheet = fn(&[u8]) -> Report;

/// Tries a list of values on all three, and on the book and a sheet if it is accepted.
fn trial(opening: Opening, values: &[i32], report: &str) {
    for search in [model::values, plain::values, ffi::values] as [Values; 3] {
        assert_eq!(search(&opening, values).to_string(), report, "{values:?}");
    }
    if !report.starts_with("refuse") {
        let book = Book::of(opening, values);
        assert_eq!(book.report().to_string(), report);
        sheet_trial(&sheets::write(&opening, &book.pairs()), report);
    }
}

/// Tries a sheet on all three.
fn sheet_trial(text: &[u8], report: &str) {
    for reader in [model::sheet, plain::sheet, ffi::sheet] as [Sheet; 3] {
        assert_eq!(reader(text).to_string(), report, "{}", sheets::show(text));
    }
}

#[test]
fn trials_of_m() {
    trial(M, &[-50, 100], "next,33,2");
    trial(M, &[-50, 100, -10], "next,41,3");
    trial(M, &[-50, 100, -10, -2], "next,43,4");
    trial(M, &[-50, 100, -10, -2, 1], "stop,41,43,43,5");
    trial(M, &[-50, 100, -10, -2, -1], "next,71,5");
    trial(M, &[-50, 100, -50], "next,66,3");
    trial(M, &[0, 5, -3], "next,50,3");
    trial(Opening::new(1, 0, 3, 1), &[-1, 1], "next,2,2");
    trial(Opening::new(1, 0, 2, 1), &[-1, 1], "stop,0,2,2,2");
}

#[test]
fn trials_of_r() {
    trial(R, &[-50, 100, -10], "next,40,3");
    trial(R, &[-50, 100, -10, -5, -1], "next,53,5");
    trial(R, &[-50, 100, -10, -5, -1, -1], "next,76,6");
}

/// Request 2026-08: the house default is R. Until then it was M, and these trials were M's.
#[test]
fn method_0_is_r() {
    trial(HOUSE, &[-50, 100], "next,33,2");
    trial(HOUSE, &[-50, 100, -10], "next,40,3");
    trial(HOUSE, &[-50, 100, -10, -5, -1], "next,53,5");
    trial(HOUSE, &[-50, 100, -10, -5, -1, -1], "next,76,6");
    trial(HOUSE, &[-50, 100, -10, -2], "next,41,4");
    trial(HOUSE, &[-50, 100, -10, -2, 1], "stop,40,41,41,5");
    trial(HOUSE, &[-50, 100, -10, -2, -1], "next,43,5");
}

#[test]
fn trials_refused() {
    trial(M, &[5, 7], "refuse,8,1");
    trial(M, &[-5, -7], "refuse,8,1");
    trial(M, &[0, 7], "next,1,2");
    trial(Opening::new(3, 0, 100, 1), &[], "refuse,1,0");
    trial(Opening::new(0, 7, 7, 1), &[], "refuse,3,0");
    trial(Opening::new(1, 0, 20_000, 1), &[], "next,0,0");
    // Request 2026-06: these stand for document 01's refusal of an end of 20,001.
    trial(Opening::new(1, 0, 20_001, 1), &[], "next,0,0");
    trial(Opening::new(1, 0, 60_000, 1), &[], "next,0,0");
    trial(Opening::new(1, 0, 60_001, 1), &[], "refuse,2,0");
    trial(Opening::new(1, 0, 100, 5_000), &[], "next,0,0");
    trial(Opening::new(1, 0, 100, 5_001), &[], "refuse,4,0");
    trial(Opening::new(1, 0, 100, 0), &[], "refuse,4,0");
    trial(M, &[-10_000], "next,100,1");
    trial(M, &[-10_001], "refuse,7,0");
    trial(M, &[-50, 100, -10, -2, 1, 10_001], "refuse,5,5");
}

/// Each end alone at and around its limits.
#[test]
fn ends_at_the_limits() {
    for end in cases::POINTS_AT_LIMITS {
        trial(Opening::new(1, 500, end, 1), &[], "next,500,0");
        trial(Opening::new(2, end, 500, 1), &[], &format!("next,{end},0"));
    }
    let others = [-1, i32::MIN, i32::MAX];
    for end in cases::POINTS_ABOVE.into_iter().chain(others) {
        trial(Opening::new(1, 0, end, 1), &[], "refuse,2,0");
        trial(Opening::new(2, end, 0, 1), &[], "refuse,2,0");
    }
    sheet_trial(b"1,0,60001,1\r\n", "refuse,2,1");
    sheet_trial(b"1,65536,0,1\r\n", "refuse,2,1");
}

/// Roasters, request 2026-06: a linear estimate from 18,000 (19,894 and a part), a stop at the
/// upper end, and each kind of step over the whole range.
#[test]
fn trials_of_roasters() {
    let roaster = Opening::new(1, 18_000, 60_000, 100);
    trial(roaster, &[-9_000], "next,60000,1");
    trial(roaster, &[-9_000, 10_000], "next,37894,2");
    trial(
        Opening::new(1, 59_998, 60_000, 1),
        &[-1, 1],
        "stop,59998,60000,60000,2",
    );
    let down = Opening::new(1, 60_000, 0, 1);
    trial(down, &[1, -9_999, 10_000], "next,29995,3");
    trial(down, &[1, -9_999, 10_000, -3_333], "next,39993,4");
    let up = Opening::new(1, 0, 60_000, 1);
    trial(up, &[-9_999, 1, 10_000, -4_999], "next,44992,4");
    let up = Opening::new(2, 0, 60_000, 1);
    trial(up, &[-1, 9_999, -10_000], "next,30003,3");
    trial(up, &[-5, 9_999, -2, -1, -10_000], "next,30040,5");
    let down = Opening::new(2, 60_000, 0, 1);
    trial(down, &[-7_721, 4_218, 2_198, 946, 162], "next,52858,5");
}

/// The opening of a roaster, request 2026-07: τ is 0.25 degrees and p two parts per thousand.
fn roaster(first: i32, second: i32) -> Opening {
    Opening::new(1, first, second, 25).with_share(2)
}

/// At b = 21,789 p·b/1,000 is 43.578, so the tolerance is 25 + 43 = 68. A bracket of 136 stops, and
/// one of 137 does not; there u, 137/6, is below 68, and D is 68. Without the share it would be 25.
#[test]
fn trials_with_a_share() {
    trial(
        roaster(21_653, 21_789),
        &[-5, 1],
        "stop,21653,21789,21789,2",
    );
    trial(roaster(21_652, 21_789), &[-5, 1], "next,21721,2");
    let without = roaster(21_652, 21_789).with_share(0);
    trial(without, &[-5, 1], "next,21764,2");
    // u = 272/4 is the tolerance itself, 276/4 is 69.
    trial(roaster(21_517, 21_789), &[-3, 1], "next,21721,2");
    trial(roaster(21_513, 21_789), &[-3, 1], "next,21720,2");
    // examples/share.csv: after the fifth answer b is 21,727, where the tolerance is 25 + 43 too; u is
    // 62 and a part, so D is 68.
    let by_r = Opening::new(2, 18_000, 26_000, 25).with_share(2);
    let values = [690, -169, -134, 41, 5, -1];
    trial(by_r, &values[..5], "next,21795,5");
    trial(by_r, &values, "stop,21727,21795,21795,6");
    trial(by_r.with_share(0), &values[..5], "next,21789,5");
}

/// The better end counts. At 1,250 the tolerance is 1 + 125, twice that 252, and the bracket of 250
/// stops; at 1,000 it is 1 + 100, and D is 101. In the middle it is 113: neither would stop.
#[test]
fn tolerance_at_the_better_end() {
    let up = Opening::new(1, 1_000, 1_250, 1).with_share(100);
    let down = Opening::new(1, 1_250, 1_000, 1).with_share(100);
    trial(up, &[-5, 1], "stop,1000,1250,1250,2");
    trial(down, &[1, -5], "stop,1000,1250,1250,2");
    trial(up, &[1, -5], "next,1101,2");
    trial(down, &[-5, 1], "next,1101,2");
    // Of equal values the second is the better.
    trial(up, &[1, -1], "stop,1000,1250,1250,2");
    trial(down, &[1, -1], "next,1125,2");
}

/// At 999 one part per thousand is less than 1, and at 1,000 it is 1. At 60,000 the largest share
/// makes the largest tolerance 11,000; at 0 it adds nothing.
#[test]
fn whole_parts_of_a_share() {
    let one = |first, second| Opening::new(1, first, second, 1).with_share(1);
    trial(one(996, 999), &[-5, 1], "next,998,2");
    trial(one(997, 1_000), &[-5, 1], "stop,997,1000,1000,2");
    trial(one(995, 1_000), &[-5, 1], "next,998,2");
    let most = |first| Opening::new(1, first, 60_000, 5_000).with_share(100);
    trial(most(38_000), &[-5, 1], "stop,38000,60000,60000,2");
    trial(most(37_999), &[-5, 1], "next,49000,2");
    trial(R.with_share(100), &[1, -50], "next,1,2");
}

/// 17 comes after 1 to 4, and after the form of the whole sheet and a count above the slots.
#[test]
fn shares_refused() {
    let refused = [
        (Opening::new(3, 7, 7, 0), 1),
        (Opening::new(1, 7, 60_001, 0), 2),
        (Opening::new(1, 7, 7, 0), 3),
        (Opening::new(1, 7, 8, 0), 4),
        (Opening::new(1, 7, 8, 1), 17),
    ];
    for share in [-1, 101, 1_000, -100, 256, 65_536, i32::MIN, i32::MAX] {
        for (opening, number) in refused {
            let opening = opening.with_share(share);
            trial(opening, &[], &format!("refuse,{number},0"));
            trial(opening, &[10_001], &format!("refuse,{number},0"));
            for quote in [model::quote, plain::quote, ffi::quote] {
                assert_eq!(quote(&opening), Quotation::refuse(number));
            }
        }
    }
    for share in [0, 1, 99, 100] {
        trial(M.with_share(share), &[], "next,0,0");
    }
    sheet_trial(b"1,0,100,1,101\r\n0,-50\r\n", "refuse,17,1");
    sheet_trial(b"1,0,100,0,101\r\n0,-50\r\n", "refuse,4,1");
    sheet_trial(b"1,0,100,1,101\r\n0,-50\n", "refuse,12,2");
    let mut search = Search::fresh(M.with_share(101));
    for (count, refusal) in [
        (1, Report::refuse(17, 0)),
        (COUNT_ABOVE, Report::refuse(9, 0)),
    ] {
        search.count = count;
        for ask in [model::ask, plain::ask, ffi::ask] {
            assert_eq!(ask(&search), refusal);
        }
        for write in WRITERS {
            let told = Written::refuse(refusal.number, 0);
            assert_eq!(write(&search, &mut []), told);
        }
    }
}

/// A first record of four fields or five, in every spelling; one of six, or of answers with more
/// than two, is out of form.
#[test]
fn records_with_a_share() {
    let fifth = |field: &str| format!("1,0,100,1,{field}\r\n0,-50\r\n").into_bytes();
    for field in [
        "0",
        "-0",
        "-00000",
        "7",
        "100",
        "\"7\"",
        "00007",
        "\"00100\"",
    ] {
        sheet_trial(&fifth(field), "next,100,1");
    }
    for field in ["-1", "101", "-00001", "99999", "\"-7\""] {
        sheet_trial(&fifth(field), "refuse,17,1");
    }
    let wrong = [
        "", "-", "x", " 7", "7 ", "+7", "7.0", "000007", "100000", "\"7", "7\"", "\"\"", "7,",
        "7,0", "7\r", "7,\"\"",
    ];
    for field in wrong {
        sheet_trial(&fifth(field), "refuse,12,1");
    }
    sheet_trial(b"1,0,100,1,7", "next,0,0");
    sheet_trial(b"1,0,100,1,", "refuse,12,1");
    sheet_trial(b"1,0,100,,7", "refuse,12,1");
    sheet_trial(b"1,0,100", "refuse,12,1");
    for more in [",0", ",", ",0,0", ",0,0,0"] {
        let text = format!("1,0,100,1,7\r\n0,-50{more}\r\n");
        sheet_trial(text.as_bytes(), "refuse,12,2");
    }
}

#[test]
fn the_sheet() {
    let sheet = b"1,0,100,1\r\n0,-50\r\n100,100\r\n33,-10\r\n41,-2\r\n43,1\r\n";
    sheet_trial(sheet, "stop,41,43,43,5");
    let wrong = b"1,0,100,1\r\n0,-50\r\n100,100\r\n33,-10\r\n41,-2\r\n42,1\r\n";
    sheet_trial(wrong, "refuse,6,6");
}

#[test]
fn forms_of_sheets() {
    sheet_trial(b"", "refuse,12,1");
    sheet_trial(b"01,-0,00100,00001\r\n-00000,-050\r\n", "next,100,1");
    sheet_trial(b"1,0,100,000001\r\n", "refuse,12,1");
    sheet_trial(b"1,0,100,1\r\n\r\n", "refuse,12,2");
    sheet_trial(b"1,0,100,1\r\r\n", "refuse,12,1");
    sheet_trial(b"1,0,100,1\n0,-50\r\n", "refuse,12,1");
    sheet_trial(b"9,0,100,1\r\n0,-50\n", "refuse,12,2");
    sheet_trial(b"9,0,100,1\r\n0,-50\r\n", "refuse,1,1");
    sheet_trial(&[b'0'; 4_096], "refuse,12,1");
    sheet_trial(&[b'0'; 4_097], "refuse,10,0");
}

#[test]
fn last_line_end() {
    sheet_trial(b"1,0,100,1", "next,0,0");
    sheet_trial(b"1,0,100,1\r\n0,-50", "next,100,1");
    sheet_trial(b"1,0,100,1\r\n0,\"-50\"", "next,100,1");
    sheet_trial(b"1,0,100,1\r\n0,-50\r", "refuse,12,2");
    sheet_trial(b"1,0,100,1\r\n0,-50\n", "refuse,12,2");
    sheet_trial(b"1,0,100,1\r\n0,-50\0", "refuse,12,2");
    sheet_trial(b"1,0,100,1\r\n0,-50\n100,100\r\n", "refuse,12,2");
    sheet_trial(b"1,0,100,1\r\n0,-50\r\n\r\n", "refuse,12,3");
    sheet_trial(b"1,0,100,1\r\n0,", "refuse,12,2");
}

/// A value in every spelling with quotes: taken where only a number stands between two of them.
#[test]
fn fields_in_quotes() {
    let with = |field: &str| format!("\"1\",0,\"100\",1\r\n\"0\",{field}\r\n").into_bytes();
    for field in ["\"-50\"", "\"-00050\"", "\"0\"", "\"-0\"", "50"] {
        sheet_trial(&with(field), "next,100,1");
    }
    let wrong = [
        "\"5",
        "5\"",
        "\"",
        "\"\"",
        "\"-\"",
        "\"1\"2",
        "1\"2\"",
        "\"\"5\"\"",
        "\"5\"\"",
        "\" 5\"",
        "\"5\" ",
        "\"1,2\"",
        "-\"5\"",
        "\"+5\"",
        "\"000005\"",
        "'5'",
        "\"5\r\n\"",
        "\"5\",",
        "\"5\"\r",
    ];
    for field in wrong {
        sheet_trial(&with(field), "refuse,12,2");
    }
    sheet_trial(b"\"1,0,100,1\"\r\n", "refuse,12,1");
}

#[test]
fn numbers_of_records() {
    let with = |n| [&b"9,0,0,0\r\n"[..], &b"0,0\r\n".repeat(n)].concat();
    sheet_trial(&with(72), "refuse,1,1");
    // Request 2026-06: these stand for document 01's refusal of a 73rd answer record.
    sheet_trial(&with(73), "refuse,1,1");
    sheet_trial(&with(77), "refuse,1,1");
    sheet_trial(&with(78), "refuse,11,79");
    let last = |n, last: &[u8]| [&with(n), last].concat();
    sheet_trial(&last(76, b"0"), "refuse,12,78");
    sheet_trial(&last(76, b"\"0\",0"), "refuse,1,1");
    sheet_trial(&last(77, b"0"), "refuse,11,79");
}

/// The bracket 0 to 13, cut in the middle at 7, leaves 0 to 7: that step halves, though 7 is more
/// than half of 13. The next estimate is then linear (4), and not the rational one (6).
#[test]
fn astray_in_halving() {
    trial(Opening::new(1, 0, 19, 1), &[-2, 1, 1], "next,7,3");
    trial(Opening::new(1, 0, 19, 1), &[-2, 1, 1, 1], "next,4,4");
}

/// Doubling after rounding in R would give 52.
#[test]
fn astray_in_doubling() {
    trial(R, &[-50, 100, -10, -5, -1], "next,53,5");
}

/// A zero is not kept as an end for good.
#[test]
fn astray_with_zero() {
    let book = Book::of(M, &[0, 5, -3]);
    let (better, other) = book.ends().expect("three answers make a bracket");
    assert_eq!((better.point, other.point), (1, 100));
}

/// Rounding is towards b, wherever it lies.
#[test]
fn astray_in_rounding() {
    trial(M, &[-50, 100], "next,33,2");
    trial(M, &[100, -50], "next,67,2");
    trial(Opening::new(1, 100, 0, 1), &[-50, 100], "next,67,2");
    trial(Opening::new(1, 100, 0, 1), &[100, -50], "next,33,2");
}

/// The partner is the point just before where that one qualifies, though the other end may too.
#[test]
fn astray_in_pairing() {
    // 0 at 33 would go with either end. 100 came just before, and the step from b is upwards.
    trial(M, &[-50, 100, 0], "next,34,3");
    // −3 at 1 would go with the 0 at 0 as well, and the search would stop.
    trial(M, &[0, 5, -3], "next,50,3");
}

#[test]
fn quotes() {
    for quote in [model::quote, plain::quote, ffi::quote] {
        let asked = |method, first, second, tolerance| {
            quote(&Opening::new(method, first, second, tolerance))
        };
        assert_eq!(asked(1, 0, 20_000, 1), Quotation::quote(14, 58));
        assert_eq!(asked(2, 20_000, 0, 1), Quotation::quote(14, 72));
        // Request 2026-06: the quotes over the whole range, which were the two above.
        assert_eq!(asked(1, 0, 60_000, 1), Quotation::quote(15, 62));
        assert_eq!(asked(2, 60_000, 0, 1), Quotation::quote(15, 77));
        assert_eq!(asked(2, 0, 32_768, 1), Quotation::quote(14, 72));
        assert_eq!(asked(2, 0, 32_769, 1), Quotation::quote(15, 77));
        assert_eq!(asked(2, 60_001, 0, 1), Quotation::refuse(2));
        // Request 2026-07: from τ alone, though with this share the search stops after two answers.
        let shared = Opening::new(2, 59_000, 60_000, 1).with_share(100);
        assert_eq!(quote(&shared), Quotation::quote(9, 47));
        assert_eq!(asked(0, 0, 2, 1), Quotation::quote(0, 2));
        assert_eq!(asked(1, 0, 3, 1), Quotation::quote(1, 6));
        // Request 2026-08: with 0 it is 2 + 5t, which was 2 + 4t.
        assert_eq!(asked(0, 0, 3, 1), Quotation::quote(1, 7));
        assert_eq!(asked(0, 6_000, 12_000, 25), Quotation::quote(7, 37));
        assert_eq!(asked(0, 60_000, 0, 1), Quotation::quote(15, 77));
        assert_eq!(asked(2, 0, 3, 1), Quotation::quote(1, 7));
        assert_eq!(asked(3, 0, 3, 1), Quotation::refuse(1));
    }
    let old = |method| OLD.quote(&Opening::new(method, 0, 3, 1));
    assert_eq!(old(0), Quotation::quote(1, 6));
    assert_eq!((old(1), old(2)), (old(0), Quotation::quote(1, 7)));
}

#[test]
fn held_searches() {
    type Enter = fn(&mut Search, i32, i32) -> Report;
    let all = [
        (
            model::open as fn(&mut Search, &Opening) -> Report,
            model::ask as fn(&Search) -> Report,
            model::enter as Enter,
        ),
        (plain::open, plain::ask, plain::enter),
        (ffi::open, ffi::ask, ffi::enter),
    ];
    for (open, ask, enter) in all {
        // What is there before does not matter.
        let mut search = Search {
            opening: R,
            count: COUNT_ABOVE,
            slots: [5; SLOTS],
        };
        assert_eq!(open(&mut search, &M), Report::next(0, 0));
        assert_eq!(search, Search::fresh(M));
        assert_eq!(enter(&mut search, 0, -50), Report::next(100, 1));
        assert_eq!(enter(&mut search, 99, 50), Report::refuse(6, 1));
        assert_eq!(enter(&mut search, 100, -50), Report::refuse(8, 1));
        assert_eq!(enter(&mut search, 100, 100), Report::next(33, 2));
        let mut slots = [0; SLOTS];
        slots[..2].copy_from_slice(&[-50, 100]);
        let held = Search {
            opening: M,
            count: 2,
            slots,
        };
        assert_eq!(search, held);
        assert_eq!(ask(&search), Report::next(33, 2));
        // A refused opening leaves the search as it was.
        let refused = Opening::new(1, 5, 5, 1);
        assert_eq!(open(&mut search, &refused), Report::refuse(3, 0));
        assert_eq!(search, held);
        search.count = COUNT_ABOVE;
        assert_eq!(ask(&search), Report::refuse(9, 0));
        assert_eq!(enter(&mut search, 33, 1), Report::refuse(9, 0));
    }
}

/// A count of 73 to 77, which was refused 9 before request 2026-06, is judged by its answers: here
/// the search stops after two.
#[test]
fn counts_at_the_limit() {
    for ask in [model::ask, plain::ask, ffi::ask] {
        let mut search = holding(Opening::new(1, 0, 2, 1), &[-1, 1]);
        for count in [3, 72, 73, 76, 77] {
            search.count = count;
            assert_eq!(ask(&search), Report::refuse(5, 2), "{count}");
        }
        for count in cases::COUNTS_ABOVE {
            search.count = count;
            assert_eq!(ask(&search), Report::refuse(9, 0), "{count}");
        }
    }
}

/// The most answers that are quoted, by R over the whole range, are as many as there are slots.
#[test]
fn slots_for_the_widest() {
    for method in [0, 2] {
        assert_eq!(model::quote(&cases::widest(method)).most as usize, SLOTS);
    }
}

/// By value the search that was passed stays, and after a refusal the one returned is equal to it.
#[test]
fn held_searches_by_value() {
    for entered in [plain::entered, ffi::entered] {
        let fresh = Search::fresh(M);
        let first = entered(fresh, 0, -50);
        assert_eq!(first.report, Report::next(100, 1));
        assert_eq!((first.search.count, first.search.slots[0]), (1, -50));
        let refused = entered(first.search, 99, 50);
        assert_eq!(refused.report, Report::refuse(6, 1));
        assert_eq!(refused.search, first.search);
    }
}

type Write = fn(&Search, &mut [u8]) -> Written;

const WRITERS: [Write; 3] = [model::write, plain::write, ffi::write];

/// Tries the clean sheet of a held search on all three: into a buffer that is longer, whose
/// further bytes stay; into one of its length; and into one that is a byte shorter, which stays as
/// it is. The sheet is then reported on as the search is.
fn clean_trial(search: &Search, sheet: &str) {
    let length = sheet.len();
    for write in WRITERS {
        let mut longer = vec![b'#'; length + 3];
        assert_eq!(write(search, &mut longer), Written::bytes(length as u32));
        assert_eq!(longer, format!("{sheet}###").as_bytes());
        let mut just = vec![b'#'; length];
        assert_eq!(write(search, &mut just), Written::bytes(length as u32));
        assert_eq!(just, sheet.as_bytes());
        let mut shorter = vec![b'#'; length - 1];
        assert_eq!(write(search, &mut shorter), Written::refuse(13, 0));
        assert_eq!(shorter, vec![b'#'; length - 1]);
        assert_eq!(write(search, &mut []), Written::refuse(13, 0));
    }
    sheet_trial(sheet.as_bytes(), &model::ask(search).to_string());
}

/// The search that holds these values.
fn holding(opening: Opening, values: &[i32]) -> Search {
    Book::of(opening, values).search()
}

#[test]
fn clean_sheets() {
    clean_trial(
        &holding(M, &[-50, 100, -10, -2, 1]),
        "1,0,100,1\r\n0,-50\r\n100,100\r\n33,-10\r\n41,-2\r\n43,1\r\n",
    );
    clean_trial(&holding(M, &[]), "1,0,100,1\r\n");
    clean_trial(&holding(M, &[7]), "1,0,100,1\r\n0,7\r\n");
    clean_trial(&holding(M, &[0]), "1,0,100,1\r\n0,0\r\n");
}

/// The house default stays 0, though it is R.
#[test]
fn clean_sheets_keep_the_method() {
    clean_trial(&holding(HOUSE, &[-50]), "0,0,100,1\r\n0,-50\r\n");
    clean_trial(
        &holding(HOUSE, &[-50, 100, -10, -5]),
        "0,0,100,1\r\n0,-50\r\n100,100\r\n33,-10\r\n40,-5\r\n",
    );
    clean_trial(&holding(R, &[-50]), "2,0,100,1\r\n0,-50\r\n");
}

/// The numbers with the most digits, and the first end above the second.
#[test]
fn long_records_of_clean_sheets() {
    clean_trial(
        &holding(Opening::new(2, HIGHEST, 0, 5_000), &[-10_000, 10_000]),
        &format!("2,{HIGHEST},0,5000\r\n{HIGHEST},-10000\r\n0,10000\r\n"),
    );
    let longest = Opening::new(0, HIGHEST, HIGHEST - 1, 5_000).with_share(100);
    let opening = format!("0,{HIGHEST},{},5000,100\r\n", HIGHEST - 1);
    let answer = format!("{HIGHEST},-10000\r\n");
    clean_trial(&holding(longest, &[-10_000]), &format!("{opening}{answer}"));
    let length = opening.len() + answer.len() * SLOTS;
    assert_eq!(length, LONGEST_CLEAN_SHEET);
}

/// A share is a fifth number, and of 0 there is none.
#[test]
fn clean_sheets_with_a_share() {
    for (share, fifth) in [(0, ""), (1, ",1"), (10, ",10"), (100, ",100")] {
        let search = holding(M.with_share(share), &[-50, 100]);
        let sheet = format!("1,0,100,1{fifth}\r\n0,-50\r\n100,100\r\n");
        clean_trial(&search, &sheet);
    }
}

/// What the slots past the count hold is not seen.
#[test]
fn clean_sheets_of_slots_in_use() {
    let mut search = holding(M, &[-50, 100]);
    search.slots[2..].fill(i32::MIN);
    clean_trial(&search, "1,0,100,1\r\n0,-50\r\n100,100\r\n");
}

/// The search itself is checked before the buffer, and nothing is written.
#[test]
fn clean_sheets_refused() {
    let with = |count, first| {
        let mut search = Search::fresh(Opening::new(1, 0, 2, 1));
        search.count = count;
        search.slots[..2].copy_from_slice(&[first, 1]);
        search
    };
    let mut spoilt = with(2, -1);
    spoilt.opening.second = 0;
    let refused = [
        (with(COUNT_ABOVE, -1), Written::refuse(9, 0)),
        (with(u32::MAX, -1), Written::refuse(9, 0)),
        (spoilt, Written::refuse(3, 0)),
        (with(1, 10_001), Written::refuse(7, 0)),
        (with(2, 1), Written::refuse(8, 1)),
        (with(3, -1), Written::refuse(5, 2)),
        (with(SLOTS as u32, -1), Written::refuse(5, 2)),
    ];
    for (search, refusal) in refused {
        for write in WRITERS {
            let mut buffer = [b'#'; LONGEST_CLEAN_SHEET];
            assert_eq!(write(&search, &mut buffer), refusal, "{search:?}");
            assert_eq!(buffer, [b'#'; LONGEST_CLEAN_SHEET]);
            assert_eq!(write(&search, &mut []), refusal, "{search:?}");
        }
    }
}

/// What the program `clean` writes, on the model: the sheet is read as a search, and that is
/// written.
#[test]
fn sheets_cleaned() {
    let cleaned = |text: &str| String::from_utf8(model::clean_text(text.as_bytes())).unwrap();
    let odd = "\"00\",00100,-0,\"00001\"\r\n\"00100\",-0\r\n-0000,\"-00050\"";
    let clean = "0,100,0,1\r\n100,0\r\n0,-50\r\n";
    assert_eq!(cleaned(odd), clean);
    assert_eq!(cleaned(clean), clean);
    assert_eq!(cleaned(""), "refuse,12,1\r\n");
    assert_eq!(cleaned("1,0,100,1\r\n1,-50\r\n"), "refuse,6,2\r\n");
    for zero in ["0", "-0", "\"00000\""] {
        assert_eq!(cleaned(&format!("1,0,100,1,{zero}")), "1,0,100,1\r\n");
    }
    assert_eq!(cleaned("1,0,100,1,\"007\""), "1,0,100,1,7\r\n");
    assert_eq!(cleaned("1,0,100,1,101"), "refuse,17,1\r\n");
}

type ChangeOver = fn(&mut Search) -> Report;

const CHANGERS: [ChangeOver; 3] = [model::change_over, plain::change_over, ffi::change_over];

/// The search that holds these values, whichever reading accepts them, with other numbers than 0 in
/// its fresh slots.
fn held_with_junk(opening: Opening, values: &[i32]) -> Search {
    let mut search = Search {
        opening,
        count: values.len() as u32,
        slots: [i32::MIN; SLOTS],
    };
    search.slots[..values.len()].copy_from_slice(values);
    search
}

/// Tries an accepted old search on all three: what is told of it, the method that it has then, and
/// that nothing else is altered. Its new sheet is reported on in the same way.
fn changed_trial(search: &Search, report: &str, method: i32, sheet: &str) {
    let opening = Opening {
        method,
        ..search.opening
    };
    let new = Search { opening, ..*search };
    for change_over in CHANGERS {
        let mut changed = *search;
        assert_eq!(change_over(&mut changed).to_string(), report);
        assert_eq!(changed, new);
        assert_eq!(change_over(&mut changed).to_string(), report);
        assert_eq!(changed, new);
    }
    for ask in [model::ask, plain::ask, ffi::ask] {
        assert_eq!(ask(&new).to_string(), report);
    }
    clean_trial(&new, sheet);
    let old_sheet = OLD.clean(search).expect("the old reading accepts it");
    assert_eq!(OLD.sheet(&old_sheet).to_string(), report);
    assert_eq!(model::old_default(&old_sheet), sheet.as_bytes());
}

/// Old searches with 0, asked by M: what was told of each, and what would be today if it were not
/// changed over.
#[test]
fn old_searches_changed_over() {
    let asked_today = |search: &Search, report: &str| {
        for ask in [model::ask, plain::ask, ffi::ask] {
            assert_eq!(ask(search).to_string(), report);
        }
    };
    // Another stop: by R the points after 33 are 40 and 41.
    let stopped = held_with_junk(HOUSE, &[-50, 100, -10, -2, 1]);
    let sheet = "1,0,100,1\r\n0,-50\r\n100,100\r\n33,-10\r\n41,-2\r\n43,1\r\n";
    changed_trial(&stopped, "stop,41,43,43,5", 1, sheet);
    asked_today(&stopped, "stop,40,41,41,5");
    // Another setting.
    let on_its_way = held_with_junk(HOUSE, &[-50, 100, -10, -2]);
    let sheet = "1,0,100,1\r\n0,-50\r\n100,100\r\n33,-10\r\n41,-2\r\n";
    changed_trial(&on_its_way, "next,43,4", 1, sheet);
    asked_today(&on_its_way, "next,41,4");
    // A refusal: M has 5, 4, 1 and 2 after 0; by R the fourth point is 2, and the bracket of 2 and 4
    // stops the search.
    let short = Opening::new(0, 0, 5, 1);
    let longer_by_m = held_with_junk(short, &[-4, 1, 5, -3, 1]);
    let sheet = "1,0,5,1\r\n0,-4\r\n5,1\r\n4,5\r\n1,-3\r\n2,1\r\n";
    changed_trial(&longer_by_m, "stop,1,2,2,5", 1, sheet);
    asked_today(&longer_by_m, "refuse,5,4");
    // None yet, and with a share.
    changed_trial(&held_with_junk(HOUSE, &[]), "next,0,0", 1, "1,0,100,1\r\n");
    let shared = held_with_junk(HOUSE.with_share(7), &[-50]);
    changed_trial(&shared, "next,100,1", 1, "1,0,100,1,7\r\n0,-50\r\n");
}

/// Methods 1 and 2 are read as before, and kept.
#[test]
fn old_searches_of_m_and_r() {
    let values = [-50, 100, -10];
    let sheet = "0,100,1\r\n0,-50\r\n100,100\r\n33,-10\r\n";
    let by_m = held_with_junk(M, &values);
    changed_trial(&by_m, "next,41,3", 1, &format!("1,{sheet}"));
    let by_r = held_with_junk(R, &values);
    changed_trial(&by_r, "next,40,3", 2, &format!("2,{sheet}"));
}

/// An old search that is refused stays as it is, whatever today's reading makes of it.
#[test]
fn old_searches_refused() {
    let short = Opening::new(0, 0, 5, 1);
    // By M the bracket of 0 and 2 stops the search after four; by R the points are 5, 4, 3 and 2.
    let longer_by_r = held_with_junk(short, &[-9, 3, 2, 1, -1]);
    for ask in [model::ask, plain::ask, ffi::ask] {
        assert_eq!(ask(&longer_by_r), Report::stop(2, 3, 2, 5));
    }
    let counting = |count| {
        let mut search = longer_by_r;
        search.count = count;
        search
    };
    let opened = |opening| held_with_junk(opening, &[-1]);
    let refused = [
        (longer_by_r, Report::refuse(5, 4)),
        (counting(SLOTS as u32), Report::refuse(5, 4)),
        (counting(COUNT_ABOVE), Report::refuse(9, 0)),
        (counting(u32::MAX), Report::refuse(9, 0)),
        (opened(Opening::new(3, 0, 5, 1)), Report::refuse(1, 0)),
        (opened(Opening::new(-1, 0, 5, 1)), Report::refuse(1, 0)),
        (opened(Opening::new(0, 0, 60_001, 1)), Report::refuse(2, 0)),
        (opened(Opening::new(0, 5, 5, 1)), Report::refuse(3, 0)),
        (opened(Opening::new(0, 0, 5, 0)), Report::refuse(4, 0)),
        (opened(short.with_share(101)), Report::refuse(17, 0)),
        (held_with_junk(short, &[-1, 10_001]), Report::refuse(7, 1)),
        (held_with_junk(short, &[1, 1]), Report::refuse(8, 1)),
    ];
    for (search, refusal) in refused {
        for change_over in CHANGERS {
            let mut changed = search;
            assert_eq!(change_over(&mut changed), refusal, "{search:?}");
            assert_eq!(changed, search);
        }
    }
}

/// Tries an old sheet: today's report of it, what the program `old_default` writes, on the model, and
/// the report of that.
fn old_sheet_trial(old: &str, today: &str, new: &str, report: &str) {
    sheet_trial(old.as_bytes(), today);
    let written = String::from_utf8(model::old_default(old.as_bytes())).unwrap();
    assert_eq!(written, new);
    assert_eq!(OLD.sheet(old.as_bytes()).to_string(), report);
    if report.starts_with("refuse") {
        assert_eq!(new, format!("{report}\r\n"));
    } else {
        sheet_trial(new.as_bytes(), report);
        assert_eq!(model::old_default(new.as_bytes()), new.as_bytes());
    }
}

/// Document 01's sheet with the house default, as it was asked by M, and what becomes of it.
#[test]
fn old_sheets_made_new() {
    let by_m = "0,100,1\r\n0,-50\r\n100,100\r\n33,-10\r\n41,-2\r\n";
    let old = |method: &str, last: &str| format!("{method},{by_m}{last}\r\n");
    let report = "stop,41,43,43,5";
    let new = old("1", "43,1");
    for zero in ["0", "-0", "00000", "\"-00\""] {
        old_sheet_trial(&old(zero, "43,1"), "refuse,6,5", &new, report);
    }
    old_sheet_trial(&new, report, &new, report);
    let odd = "\"0\",00,\"00100\",01,-0\r\n-0,\"-050\"\r\n100,0100";
    let clean = "1,0,100,1\r\n0,-50\r\n100,100\r\n";
    old_sheet_trial(odd, "next,33,2", clean, "next,33,2");
    // Each reading refuses this one at another record.
    let wrong = old("0", "42,1");
    old_sheet_trial(&wrong, "refuse,6,5", "refuse,6,6\r\n", "refuse,6,6");
    // By R with 0, as sheets are asked today: none of the old ones was. With 2 it is kept.
    let by_r = "0,100,1\r\n0,-50\r\n100,100\r\n33,-10\r\n40,-5\r\n";
    let (house, two) = (format!("0,{by_r}"), format!("2,{by_r}"));
    let today = model::sheet(two.as_bytes()).to_string();
    old_sheet_trial(&house, &today, "refuse,6,5\r\n", "refuse,6,5");
    old_sheet_trial(&two, &today, &two, &today);
}

/// A refused sheet makes the program write its refusal, in the order of the checks.
#[test]
fn old_sheets_refused() {
    let refused = [
        ("", "refuse,12,1"),
        ("0,0,100,1\n", "refuse,12,1"),
        ("000000,0,100,1\r\n", "refuse,12,1"),
        ("3,0,100,1\r\n", "refuse,1,1"),
        ("0,0,60001,1\r\n", "refuse,2,1"),
        ("0,7,7,1\r\n", "refuse,3,1"),
        ("0,0,100,5001\r\n", "refuse,4,1"),
        ("0,0,100,1,101\r\n", "refuse,17,1"),
        ("0,0,100,1\r\n0,10001\r\n", "refuse,7,2"),
        ("0,0,100,1\r\n0,5\r\n100,7\r\n", "refuse,8,3"),
        ("0,0,2,1\r\n0,-1\r\n2,1\r\n1,1\r\n", "refuse,5,4"),
    ];
    for (old, report) in refused {
        old_sheet_trial(old, report, &format!("{report}\r\n"), report);
    }
    let records = "0,0,100,1\r\n".to_owned() + &"0,0\r\n".repeat(78);
    old_sheet_trial(&records, "refuse,11,79", "refuse,11,79\r\n", "refuse,11,79");
    let long = "0".repeat(4_097);
    old_sheet_trial(&long, "refuse,10,0", "refuse,10,0\r\n", "refuse,10,0");
}

#[test]
fn version_of_the_interface() {
    assert_eq!(ffi::version(), ffi::VERSION);
}

/// Demand 3 on the model: brackets lie in one another, and their values are never on one side.
#[test]
fn brackets_of_the_book() {
    let mut rng = Rng::new(3);
    for _ in 0..500 {
        let whole = cases::answered(cases::accepted_opening(&mut rng), &mut rng);
        let mut book = Book::new(*whole.opening());
        let mut before = (0, i128::from(HIGHEST));
        for answer in whole.answers() {
            book.offer(answer.point as i32, answer.value as i32);
            let Some((b, c)) = book.ends() else { continue };
            let now = (b.point.min(c.point), b.point.max(c.point));
            assert!(before.0 <= now.0 && now.1 <= before.1);
            assert!(b.value * c.value <= 0);
            assert!(b.value.abs() <= c.value.abs());
            before = now;
        }
    }
}

/// The beam finds long searches, within the bounds.
#[test]
fn long_searches() {
    for (method, found) in [(1, 44), (2, 61)] {
        let opening = cases::widest(method);
        let most = model::quote(&opening).most as usize;
        let orders = beam::longest(&opening, 30, &mut Rng::new(7));
        assert!((found..=most).contains(&orders[0].len()));
        let report = model::values(&opening, &orders[0]);
        assert_eq!(report.kind, Report::STOP);
        assert_eq!(report, plain::values(&opening, &orders[0]));
    }
}

#[test]
fn model_and_plain_on_lists() {
    let mut rng = Rng::new(4);
    for _ in 0..5_000 {
        let (opening, values) = cases::any_list(&mut rng);
        let (model, plain) = (
            model::values(&opening, &values),
            plain::values(&opening, &values),
        );
        assert_eq!(model, plain, "{opening:?} {values:?}");
        assert_eq!(model::quote(&opening), plain::quote(&opening));
    }
}

#[test]
fn model_and_plain_on_searches() {
    let mut rng = Rng::new(5);
    for _ in 0..5_000 {
        let mut one = cases::any_search(&mut rng);
        let mut other = one;
        let report = model::ask(&one);
        assert_eq!(report, plain::ask(&other), "{one:?}");
        let called = if report.kind == Report::NEXT {
            report.point as i32
        } else {
            0
        };
        let value = cases::any_value(&mut rng);
        let (model, plain) = (
            model::enter(&mut one, called, value),
            plain::enter(&mut other, called, value),
        );
        assert_eq!(model, plain, "{one:?}");
        assert_eq!(one, other);
    }
}

#[test]
fn model_and_plain_on_old_searches() {
    let mut rng = Rng::new(10);
    for _ in 0..10_000 {
        let opening = cases::old_opening(&mut rng);
        let mut one = cases::any_search_of(opening, OLD, &mut rng);
        let mut other = one;
        let (model, plain) = (model::change_over(&mut one), plain::change_over(&mut other));
        assert_eq!((model, one), (plain, other));
    }
}

#[test]
fn model_and_plain_on_sheets() {
    let mut rng = Rng::new(6);
    for _ in 0..10_000 {
        let text = sheets::any_text(&mut rng);
        assert_eq!(
            model::sheet(&text),
            plain::sheet(&text),
            "{}",
            sheets::show(&text)
        );
    }
}

#[test]
fn model_and_plain_on_clean_sheets() {
    let mut rng = Rng::new(8);
    for _ in 0..5_000 {
        let search = cases::any_search(&mut rng);
        let length = model::clean(&search).map_or(0, |sheet| sheet.len());
        for size in [0, length.saturating_sub(1), length, length + 1] {
            let (mut one, mut other) = (vec![b'#'; size], vec![b'#'; size]);
            let (model, plain) = (
                model::write(&search, &mut one),
                plain::write(&search, &mut other),
            );
            assert_eq!(model, plain, "{search:?}");
            assert_eq!(one, other, "{search:?}");
        }
    }
}
