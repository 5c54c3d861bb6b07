//! Interlocks on records.

use super::Rules;
use crate::family::Record;

const LONGEST: i32 = 1_000_000;

#[derive(Debug)]
pub struct LockRules;

impl Rules for LockRules {
    type Signal = bool;
    const REST: bool = false;

    fn counts(x: &Record) -> bool {
        let (most_p, most_u) = match x.code {
            1 | 6 => (1, 1),
            2..=4 => (0, 0),
            5 => (0, 1),
            7 => (LONGEST, LONGEST),
            _ => return false,
        };
        let least_p = i32::from(x.code == 7);
        (least_p..=most_p).contains(&x.p)
            && (0..=most_u).contains(&x.u)
            && (x.q | x.r | x.v | x.w | x.z) == 0
    }

    fn output(x: &Record, [a, b, _]: [bool; 3]) -> bool {
        match x.code {
            2 => a & b,
            3 => a | b,
            4 => !a,
            5 => (a | (x.u == 1)) & !b,
            7 => a & (x.u >= x.p),
            _ => x.u == 1,
        }
    }

    fn next(x: &Record, inputs: [bool; 3]) -> Record {
        let u = match x.code {
            5 => i32::from(Self::output(x, inputs)),
            6 => i32::from(inputs[0]),
            7 if inputs[0] => (x.u + 1).min(x.p),
            7 => 0,
            _ => return *x,
        };
        Record { u, ..*x }
    }
}
