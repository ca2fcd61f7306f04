//! The paper's own procedures, zeroin (M) and zeroinrat (R), in double precision and at its tolerance, and its figures for them: to see
//! that this reading of its functions is the one that it counted on.

use crate::curves::Function;

/// Table I to IV, columns M and R, in the order of `curves::functions`.
pub const TABLES: [(u32, u32); 36] = [
    (10, 9),
    (9, 7),
    (10, 8),
    (11, 9),
    (12, 10),
    (9, 8),
    (10, 9),
    (9, 9),
    (10, 8),
    (10, 9),
    (11, 11),
    (10, 8),
    (9, 9),
    (7, 8),
    (9, 8),
    (9, 9),
    (10, 10),
    (12, 11),
    (10, 10),
    (13, 11),
    (13, 13),
    (26, 17),
    (26, 18),
    (27, 19),
    (27, 19),
    (12, 11),
    (10, 10),
    (10, 11),
    (13, 13),
    (151, 91),
    (149, 163),
    (161, 206),
    (160, 196),
    (179, 206),
    (159, 174),
    (27, 23),
];

/// A place and its value.
type Place = (f64, f64);

/// The paper's δ(x).
fn tolerance(x: f64) -> f64 {
    x.abs() * 1e-14 + 1e-14
}

/// The step by interpolation: `rational` through a, b and d, else linear through a and b; `doubled` is R's fourth in a row.
fn interpolated(a: Place, b: Place, d: Place, mb: f64, rational: bool, doubled: bool) -> f64 {
    let tol = tolerance(b.0) * mb.signum();
    let mut p = (b.0 - a.0) * b.1;
    let mut q = a.1 - b.1;
    if rational {
        let fdb = (d.1 - b.1) / (d.0 - b.0);
        let fda = (d.1 - a.1) / (d.0 - a.0);
        p *= fda;
        q = fdb * a.1 - fda * b.1;
    }
    if p < 0.0 {
        (p, q) = (-p, -q);
    }
    if doubled {
        p *= 2.0;
    }
    if p == 0.0 || p <= q * tol {
        tol
    } else if p < mb * q {
        p / q
    } else {
        mb
    }
}

/// How many evaluations M, or R, takes on a function.
pub fn evaluations(f: &Function, rational: bool) -> u32 {
    let place = |x: f64| (x, (f.at)(x));
    let (mut b, mut a) = (place(f.low), place(f.high));
    let (mut c, mut d) = (a, a);
    let (mut taken, mut ext) = (2, 0);
    let last = if rational { 3 } else { 2 };
    loop {
        if c.1.abs() < b.1.abs() {
            if c.0 != a.0 {
                d = a;
            }
            (a, b) = (b, c);
            c = a;
        }
        let mb = (c.0 + b.0) * 0.5 - b.0;
        if mb.abs() <= tolerance(b.0) {
            return taken;
        }
        let w = if ext > last {
            mb
        } else {
            let by_three = if rational { taken > 2 } else { ext > 1 };
            interpolated(a, b, d, mb, by_three, rational && ext == 3)
        };
        (d, a, b) = (a, b, place(b.0 + w));
        taken += 1;
        if if c.1 >= 0.0 { b.1 >= 0.0 } else { b.1 <= 0.0 } {
            (c, ext) = (a, 0);
        } else {
            ext = if w == mb { 0 } else { ext + 1 };
        }
    }
}
