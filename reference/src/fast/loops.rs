//! Loops on records.

use super::Rules;
use crate::family::Record;

const SPAN: i32 = 1_000_000;
const WIDE: i32 = 1_000_000_000;
const GAIN: i32 = 100_000;

#[derive(Debug)]
pub struct LoopRules;

fn within(n: i32, most: i32) -> bool {
    -most <= n && n <= most
}

fn limited(n: i64, most: i32) -> i32 {
    n.clamp(-i64::from(most), i64::from(most)) as i32
}

/// ⌊n/1000⌋
fn thousandth(n: i64) -> i64 {
    n.div_euclid(1000)
}

/// Whether all of these are 0.
fn none<const N: usize>(values: [i32; N]) -> bool {
    values.iter().fold(0, |all, n| all | n) == 0
}

fn controller_counts(x: &Record) -> bool {
    within(x.p, GAIN)
        && within(x.q, GAIN)
        && within(x.r, GAIN)
        && within(x.u, WIDE)
        && within(x.v, 2 * SPAN)
        && within(x.w, SPAN)
        && within(x.z, SPAN)
}

/// A controller's output in thousandths.
fn drive(x: &Record, a: i32, b: i32) -> i32 {
    let wide = i64::from;
    let error = wide(a - b);
    let bend = wide(b - 2 * x.w + x.z);
    let change = wide(x.p) * (error - wide(x.v)) + wide(x.q) * error - wide(x.r) * bend;
    limited(wide(x.u) + change, WIDE)
}

fn root(a: i32) -> i32 {
    // Exact: below 2^52, a rounded root never crosses a whole number.
    (1e6 * f64::from(a.max(0))).sqrt() as i32
}

impl Rules for LoopRules {
    type Signal = i32;
    const REST: i32 = 0;

    fn counts(x: &Record) -> bool {
        match x.code {
            1 | 7 => within(x.p, SPAN) && within(x.u, SPAN) && none([x.q, x.r, x.v, x.w, x.z]),
            2 | 3 => controller_counts(x),
            4 => -SPAN <= x.p && x.p <= x.q && x.q <= SPAN && none([x.r, x.u, x.v, x.w, x.z]),
            5 | 8 | 9 | 10 => none([x.p, x.q, x.r, x.u, x.v, x.w, x.z]),
            6 => (1..=1000).contains(&x.p) && within(x.u, WIDE) && none([x.q, x.r, x.v, x.w, x.z]),
            11 => within(x.p, GAIN) && none([x.q, x.r, x.u, x.v, x.w, x.z]),
            _ => false,
        }
    }

    fn output(x: &Record, inputs: [i32; 3]) -> i32 {
        let [a, b, c] = inputs.map(|n| if within(n, SPAN) { n } else { 0 });
        match x.code {
            2 | 3 => drive(x, a, b).div_euclid(1000),
            4 => a.clamp(x.p, x.q),
            5 => root(a),
            6 => x.u.div_euclid(1000),
            8 => a.min(b),
            9 => a.max(b),
            10 => (a + b - c).clamp(-SPAN, SPAN),
            11 => limited(thousandth(i64::from(x.p) * i64::from(a)), SPAN),
            _ => x.u,
        }
    }

    fn next(x: &Record, inputs: [i32; 3]) -> Record {
        let [a, b, c] = inputs.map(|n| if within(n, SPAN) { n } else { 0 });
        match x.code {
            2 => Record { u: drive(x, a, b), v: a - b, w: b, z: x.w, ..*x },
            3 => {
                let s = drive(x, a, b);
                let back = 1000 * i64::from(c - s.div_euclid(1000));
                Record { u: limited(i64::from(s) + back, WIDE), v: a - b, w: b, z: x.w, ..*x }
            }
            6 => {
                let gap = 1000 * i64::from(a) - i64::from(x.u);
                Record { u: x.u + thousandth(i64::from(x.p) * gap) as i32, ..*x }
            }
            7 => Record { u: a, ..*x },
            _ => *x,
        }
    }
}
