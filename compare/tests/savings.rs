//! The counting of trials, by hand; the paper's tables, by their totals; and what every method promises.

use compare::algol::TABLES;
use compare::cases;
use compare::counts::{self, Needed, Row, HERE, TOLERANCES};
use compare::curves::{self, Curve};

/// 50 at 0, falling by 1 to −50 at 100.
fn line() -> Curve {
    Curve {
        group: 4,
        name: "line".into(),
        values: (0..=100).map(|p| 50 - p).collect(),
    }
}

#[test]
fn counts_by_hand() {
    let needed = |settings: &[i32]| counts::needed(&line(), settings, 1);
    let counted = |to_end, to_hold| Needed { to_end, to_hold };
    // 50 is on target; 48 is tried after it, at twice the tolerance
    assert_eq!(needed(&[0, 100, 50]), counted(3, 4));
    // 49 and 51 hold before the method ends
    assert_eq!(needed(&[0, 100, 49, 51, 50]), counted(5, 4));
    // a setting tried twice is one trial; 47, at twice the tolerance from 45, does not hold; then the middles: 53, 50, 48
    assert_eq!(needed(&[0, 100, 60, 45, 60]), counted(4, 8));
}

#[test]
fn tables_have_the_printed_totals() {
    let total = |from: usize, to: usize| {
        let rows = &TABLES[from..to];
        let m: u32 = rows.iter().map(|row| row.0).sum();
        let r: u32 = rows.iter().map(|row| row.1).sum();
        (m, r)
    };
    assert_eq!(total(0, 17), (165, 149));
    assert_eq!(total(17, 29), (199, 163));
    assert_eq!(total(29, 35), (959, 1036));
    assert_eq!(total(35, 36), (27, 23));
    assert_eq!(curves::functions().len(), TABLES.len());
}

#[test]
fn never_more_than_quoted() {
    for curve in curves::all() {
        assert_eq!(curve.values.len() as i32, cases::HIGHEST + 1);
        for tolerance in TOLERANCES {
            let taken = counts::here(&curve, tolerance);
            for (method, taken) in taken.into_iter().enumerate() {
                assert!(taken <= counts::most(method, tolerance), "{}", curve.name);
            }
        }
    }
}

#[test]
fn rows_are_read_as_written() {
    let row = Row {
        group: 1,
        curve: "a=0 b=0.0001 n=3".into(),
        tolerance: 25,
        here: [1, 2, 3],
        by_hand: [4, 6, 8].map(|n| Needed {
            to_end: n,
            to_hold: n + 1,
        }),
    };
    assert_eq!(row.here.len(), HERE);
    assert_eq!(row.line(), "II,a=0 b=0.0001 n=3,25,1,2,3,4,5,6,7,8,9");
    assert_eq!(Row::read(&row.line()), Some(row));
    assert_eq!(Row::read("II,a,25,1,2,3,4,5,6,7,8"), None);
    assert_eq!(Row::read("V,a,25,1,2,3,4,5,6,7,8,9"), None);
}
