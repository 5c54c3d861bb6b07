//! What the generator knows of each family: likely parameters and feeds.

use crate::family::{Family, Number, Parameters};
use crate::locks::{self, Locks};
use crate::loops::{self, Loops};
use crate::random::Random;

pub trait Palette: Family {
    /// The name of the program.
    const PROGRAM: &'static str;

    /// Parameters that the kind accepts.
    fn parameters(kind: Self::Kind, random: &mut Random) -> Parameters;

    /// A kind whose only port is direct.
    fn link(random: &mut Random) -> Self::Kind;
    /// A kind with two direct ports or more.
    fn join(random: &mut Random) -> Self::Kind;
    /// A kind whose first port is late.
    fn store(random: &mut Random) -> Self::Kind;

    fn any_kind(random: &mut Random) -> Self::Kind {
        random.pick(Self::KINDS).1
    }

    fn input() -> Self::Kind {
        Self::KINDS[0].1
    }

    fn word(kind: Self::Kind) -> &'static str {
        Self::KINDS[usize::from(Self::code(kind)) - 1].0
    }
}

/// A number that a file can hold.
pub fn any_number(random: &mut Random) -> Number {
    match random.below(3) {
        0 => random.number(&(-9_999_999..=9_999_999)),
        1 => random.number(&(-1_000_001..=1_000_001)),
        _ => random.number(&(-3000..=3000)),
    }
}

/// A gain: often one that neither dies out nor runs off.
fn gain(random: &mut Random) -> Number {
    match random.below(3) {
        0 => random.number(&(-100_000..=100_000)),
        1 => random.number(&(-1500..=1500)),
        _ => random.number(&(900..=1100)),
    }
}

fn level(random: &mut Random) -> Number {
    any_number(random).clamp(-1_000_000, 1_000_000)
}

impl Palette for Loops {
    const PROGRAM: &'static str = "loops";

    fn parameters(kind: loops::Kind, random: &mut Random) -> Parameters {
        use loops::Kind;
        match kind {
            Kind::In | Kind::Hold => [level(random), 0, 0],
            Kind::Pid | Kind::Pidt => [gain(random), gain(random), gain(random)],
            Kind::Lim => {
                let (p, q) = (level(random), level(random));
                [p.min(q), p.max(q), 0]
            }
            Kind::Lag => [random.number(&(1..=1000)), 0, 0],
            Kind::Gain => [gain(random), 0, 0],
            Kind::Root | Kind::Low | Kind::High | Kind::Sum => [0; 3],
        }
    }

    fn link(random: &mut Random) -> loops::Kind {
        use loops::Kind;
        *random.pick(&[Kind::Lim, Kind::Root, Kind::Gain, Kind::Gain])
    }

    fn join(random: &mut Random) -> loops::Kind {
        use loops::Kind;
        *random.pick(&[Kind::Pid, Kind::Pidt, Kind::Low, Kind::High, Kind::Sum])
    }

    fn store(random: &mut Random) -> loops::Kind {
        use loops::Kind;
        *random.pick(&[Kind::Lag, Kind::Hold])
    }
}

impl Palette for Locks {
    const PROGRAM: &'static str = "locks";

    fn parameters(kind: locks::Kind, random: &mut Random) -> Parameters {
        use locks::Kind;
        match kind {
            Kind::In | Kind::Hold => [random.number(&(0..=1)), 0, 0],
            Kind::Timer if random.chance(80) => [random.number(&(1..=9)), 0, 0],
            Kind::Timer => [random.number(&(1..=1_000_000)), 0, 0],
            Kind::And | Kind::Or | Kind::Not | Kind::Latch => [0; 3],
        }
    }

    fn link(random: &mut Random) -> locks::Kind {
        use locks::Kind;
        *random.pick(&[Kind::Not, Kind::Not, Kind::Timer])
    }

    fn join(random: &mut Random) -> locks::Kind {
        use locks::Kind;
        *random.pick(&[Kind::And, Kind::Or, Kind::Latch])
    }

    fn store(_: &mut Random) -> locks::Kind {
        locks::Kind::Hold
    }
}
