//! The work on which methods are compared by the trials that they need: the test functions of Bus and Dekker (1975), section 5, laid on
//! the dryer's scale, and a made-up dryer's curves.

use crate::cases::HIGHEST;
use crate::rng::Rng;

/// The largest value, above and below 0.
pub const LARGEST: f64 = 10_000.0;

/// The names of the groups, in order.
pub const GROUPS: [&str; 5] = ["I", "II", "III", "IV", "dryer"];

/// A test function of the paper on its interval.
pub struct Function {
    pub group: usize,
    pub name: String,
    pub low: f64,
    pub high: f64,
    pub at: Box<dyn Fn(f64) -> f64>,
}

/// What comes out at each setting, 0 to HIGHEST.
pub struct Curve {
    pub group: usize,
    pub name: String,
    pub values: Vec<i32>,
}

/// x to the power n, by multiplication, so that it is the same on every machine.
fn power(x: f64, n: i32) -> f64 {
    (0..n).fold(1.0, |product, _| product * x)
}

// ---- the paper's functions

/// Makes one function of the paper from its group, name, interval and rule.
fn function(
    group: usize,
    name: String,
    (low, high): (f64, f64),
    at: impl Fn(f64) -> f64 + 'static,
) -> Function {
    Function {
        group,
        name,
        low,
        high,
        at: Box::new(at),
    }
}

/// Group I: simple zeros. In the second function the text has exp(−nx) twice; with exp(−n) in the first place, as it stands here, all eight
/// of its figures in Table I come out, and with the text's one of them.
fn simple_zeros() -> Vec<Function> {
    let unit = (0.0, 1.0);
    let mut all = vec![function(0, "1".into(), (0.0, 1.5), |x| x.sin() - 0.5)];
    for n in [1, 2, 3, 4] {
        let m = f64::from(n);
        all.push(function(0, format!("2 n={n}"), unit, move |x| {
            2.0 * x * (-m).exp() + 1.0 - 2.0 * (-m * x).exp()
        }));
    }
    for n in [1, 5, 10] {
        let m = f64::from(n);
        all.push(function(0, format!("3 n={n}"), unit, move |x| {
            (1.0 + power(1.0 - m, 2)) * x - power(1.0 - m * x, 2)
        }));
    }
    for n in [1, 5, 10] {
        all.push(function(0, format!("4 n={n}"), unit, move |x| {
            x * x - power(1.0 - x, n)
        }));
    }
    for n in [1, 4, 8] {
        let m = f64::from(n);
        all.push(function(0, format!("5 n={n}"), unit, move |x| {
            (1.0 + power(1.0 - m, 4)) * x - power(1.0 - m * x, 4)
        }));
    }
    for n in [1, 5, 10] {
        let m = f64::from(n);
        all.push(function(0, format!("6 n={n}"), unit, move |x| {
            (x - 1.0) * (-m * x).exp() + power(x, n)
        }));
    }
    all
}

/// Groups II to IV: an inflexion at or near the zero, multiple zeros, and a zero where all derivatives vanish. The text names no interval
/// for group II; with that of group III Table II comes out.
fn hard_zeros() -> Vec<Function> {
    let wide = (-1.0, 10.0);
    let mut all = Vec::new();
    for (a, b) in [(1.0, 0.0), (0.0, 1e-4), (1.0, 1e-4)] {
        for n in [3, 5, 9, 19] {
            let name = format!("a={a} b={b} n={n}");
            all.push(function(1, name, wide, move |x| power(x, n) + a * x + b));
        }
    }
    for n in [3, 5, 7, 9, 19, 25] {
        all.push(function(2, format!("n={n}"), wide, move |x| power(x, n)));
    }
    all.push(function(3, "1".into(), (-1.0, 4.0), |x| {
        if x == 0.0 {
            0.0
        } else {
            x * (-1.0 / (x * x)).exp()
        }
    }));
    all
}

/// The paper's functions, group by group.
pub fn functions() -> Vec<Function> {
    let mut all = simple_zeros();
    all.append(&mut hard_zeros());
    all
}

/// A function on the dryer's scale: its interval from 0 to HIGHEST, its largest value ±10,000. Those of groups II and III grow to 10 to the
/// power n, beside which the low end's value would round to 0, on target with nothing to search; there the low end has −10,000, and what
/// is above 10,000 is entered as 10,000, the largest that a sheet takes.
fn laid(f: &Function) -> Curve {
    let at = |u: f64| (f.at)(f.low + (f.high - f.low) * u);
    let largest = if f.group == 1 || f.group == 2 {
        at(0.0).abs()
    } else {
        (0..=HIGHEST).map(|p| at(part(p)).abs()).fold(0.0, f64::max)
    };
    curve(f.group, f.name.clone(), |u| at(u) * LARGEST / largest)
}

// ---- curves

/// How far up the range a setting is, 0 to 1.
fn part(setting: i32) -> f64 {
    f64::from(setting) / f64::from(HIGHEST)
}

/// A curve from its value at each part of the range.
fn curve(group: usize, name: String, at: impl Fn(f64) -> f64) -> Curve {
    let values = (0..=HIGHEST)
        .map(|p| at(part(p)).round().clamp(-LARGEST, LARGEST) as i32)
        .collect();
    Curve {
        group,
        name,
        values,
    }
}

/// A made-up dryer's curves, with the target at three places: moisture falls evenly, steeply, hardly at all near the target; lies at the
/// target over a tenth of the range; falls evenly under an oven's noise of up to 0.60 points either way.
fn dryer() -> Vec<Curve> {
    let falling = |u: f64, target: f64| 7_500.0 * ((-3.0 * u).exp() - (-3.0 * target).exp());
    let mut all = Vec::new();
    for (seed, target) in [(1, 0.23), (2, 0.5), (3, 0.81)] {
        let named = |kind: &str| format!("{kind} {target}");
        all.push(curve(4, named("falling"), |u| falling(u, target)));
        all.push(curve(4, named("steep"), |u| {
            3_000.0 * (40.0 * (target - u)).tanh()
        }));
        all.push(curve(4, named("flat"), |u| {
            let away = target - u;
            200.0 * away + 4_000.0 * power(away, 3)
        }));
        all.push(curve(4, named("plateau"), |u| {
            let away = target - u;
            6_000.0 * away.signum() * (away.abs() - 0.05).max(0.0)
        }));
        let mut noisy = curve(4, named("noise"), |u| falling(u, target));
        let mut rng = Rng::new(seed);
        for value in &mut noisy.values {
            *value += rng.between(-60, 60);
        }
        all.push(noisy);
    }
    all
}

/// All the work.
pub fn all() -> Vec<Curve> {
    let mut curves: Vec<Curve> = functions().iter().map(laid).collect();
    curves.append(&mut dryer());
    curves
}

/// A sum over every value of every curve, to tell whether figures were counted on these (FNV-1a, 64 bits).
pub fn sum(curves: &[Curve]) -> u64 {
    curves
        .iter()
        .flat_map(|c| &c.values)
        .flat_map(|v| v.to_le_bytes())
        .fold(0xcbf2_9ce4_8422_2325, |sum, byte| {
            (sum ^ u64::from(byte)).wrapping_mul(0x0000_0100_0000_01b3)
        })
}
