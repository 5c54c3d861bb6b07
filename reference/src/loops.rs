//! Loops: blocks whose signals are whole numbers.

use crate::family::{Family, NOTHING, Number, Parameters, Port, Range, Record, first_outside};

const MILLION: Number = 1_000_000;
const SPAN: Range = -MILLION..=MILLION;
const WIDE: Range = -1000 * MILLION..=1000 * MILLION;
const GAIN: Range = -100_000..=100_000;

#[derive(Clone, Copy, PartialEq, Eq, Debug)]
pub enum Kind {
    In,
    Pid,
    Pidt,
    Lim,
    Root,
    Lag,
    Hold,
    Low,
    High,
    Sum,
    Gain,
}

/// The gains of a controller, in thousandths per scan.
#[derive(Clone, Copy, PartialEq, Eq, Debug)]
pub struct Gains {
    pub proportional: Number,
    pub integral: Number,
    pub derivative: Number,
}

/// What a controller remembers: its output in thousandths, the last error
/// and the last two measurements.
#[derive(Clone, Copy, PartialEq, Eq, Debug, Default)]
pub struct Past {
    pub drive: Number,
    pub error: Number,
    pub measured: Number,
    pub measured_before: Number,
}

#[derive(Clone, PartialEq, Eq, Debug)]
pub enum Block {
    Input {
        start: Number,
        value: Number,
    },
    Controller {
        gains: Gains,
        past: Past,
        tracking: bool,
    },
    Limiter {
        low: Number,
        high: Number,
    },
    SquareRoot,
    /// `charge` is the output in thousandths, `pace` its share per scan.
    Lag {
        pace: Number,
        charge: Number,
    },
    Hold {
        start: Number,
        value: Number,
    },
    Smaller,
    Larger,
    Sum,
    Gain {
        thousandths: Number,
    },
}

/// The family of loops.
#[derive(Clone, Copy, Debug)]
pub struct Loops;

fn limit(n: Number, range: &Range) -> Number {
    if n < *range.start() {
        *range.start()
    } else if n > *range.end() {
        *range.end()
    } else {
        n
    }
}

/// ⌊n/1000⌋
fn thousandth(n: Number) -> Number {
    n.div_euclid(1000)
}

/// The square root of `n`, rounded down, by halving where it may lie.
fn square_root(n: Number) -> Number {
    let (mut low, mut above) = (0, MILLION + 1);
    while above - low > 1 {
        let middle = (low + above) / 2;
        if middle * middle <= n { low = middle } else { above = middle }
    }
    low
}

/// A signal as an input or a number: one out of range is at rest.
fn heard(signal: Number) -> Number {
    if SPAN.contains(&signal) { signal } else { 0 }
}

impl Gains {
    fn of([proportional, integral, derivative]: Parameters) -> Gains {
        Gains { proportional, integral, derivative }
    }
}

impl Past {
    /// The controller's output in thousandths.
    fn drive(&self, gains: &Gains, set_point: Number, measurement: Number) -> Number {
        let error = set_point - measurement;
        let bend = measurement - 2 * self.measured + self.measured_before;
        let change = gains.proportional * (error - self.error) + gains.integral * error
            - gains.derivative * bend;
        limit(self.drive + change, &WIDE)
    }

    /// What is remembered after a scan; `tracked` is there in a `pidt`.
    fn after(&self, gains: &Gains, [a, b]: [Number; 2], tracked: Option<Number>) -> Past {
        let drive = self.drive(gains, a, b);
        let back = tracked.map_or(0, |c| 1000 * (c - thousandth(drive)));
        Past {
            drive: limit(drive + back, &WIDE),
            error: a - b,
            measured: b,
            measured_before: self.measured,
        }
    }
}

fn parameter_ranges(kind: Kind) -> [Range; 3] {
    match kind {
        Kind::In | Kind::Hold => [SPAN, NOTHING, NOTHING],
        Kind::Pid | Kind::Pidt => [GAIN, GAIN, GAIN],
        Kind::Lim => [SPAN, SPAN, NOTHING],
        Kind::Lag => [1..=1000, NOTHING, NOTHING],
        Kind::Gain => [GAIN, NOTHING, NOTHING],
        Kind::Root | Kind::Low | Kind::High | Kind::Sum => [NOTHING, NOTHING, NOTHING],
    }
}

fn state_ranges(kind: Kind) -> [Range; 4] {
    match kind {
        Kind::In | Kind::Hold => [SPAN, NOTHING, NOTHING, NOTHING],
        Kind::Pid | Kind::Pidt => [WIDE, -2 * MILLION..=2 * MILLION, SPAN, SPAN],
        Kind::Lag => [WIDE, NOTHING, NOTHING, NOTHING],
        _ => [NOTHING, NOTHING, NOTHING, NOTHING],
    }
}

/// The block of a record that counts as itself.
fn block_of(record: &Record) -> Option<Block> {
    let kind = Loops::kind_of_code(record.code)?;
    let parameters = record.parameters();
    let states = record.states();
    if Loops::bad_parameter(kind, &parameters).is_some()
        || first_outside(&states, &state_ranges(kind)).is_some()
    {
        return None;
    }
    let [u, v, w, z] = states;
    let mut block = Loops::fresh(kind, &parameters);
    match &mut block {
        Block::Input { value, .. } | Block::Hold { value, .. } => *value = u,
        Block::Lag { charge, .. } => *charge = u,
        Block::Controller { past, .. } => {
            *past = Past { drive: u, error: v, measured: w, measured_before: z };
        }
        _ => {}
    }
    Some(block)
}

impl Family for Loops {
    type Kind = Kind;
    type Block = Block;
    type Signal = Number;

    const REST: Number = 0;

    const KINDS: &'static [(&'static str, Kind)] = &[
        ("in", Kind::In),
        ("pid", Kind::Pid),
        ("pidt", Kind::Pidt),
        ("lim", Kind::Lim),
        ("root", Kind::Root),
        ("lag", Kind::Lag),
        ("hold", Kind::Hold),
        ("low", Kind::Low),
        ("high", Kind::High),
        ("sum", Kind::Sum),
        ("gain", Kind::Gain),
    ];

    fn ports(kind: Kind) -> &'static [Port] {
        use Port::{Direct, Late};
        match kind {
            Kind::In => &[],
            Kind::Lim | Kind::Root | Kind::Gain => &[Direct],
            Kind::Lag | Kind::Hold => &[Late],
            Kind::Pid | Kind::Low | Kind::High => &[Direct, Direct],
            Kind::Pidt => &[Direct, Direct, Late],
            Kind::Sum => &[Direct, Direct, Direct],
        }
    }

    fn bad_parameter(kind: Kind, parameters: &Parameters) -> Option<usize> {
        let crossed = kind == Kind::Lim && parameters[0] > parameters[1];
        match first_outside(parameters, &parameter_ranges(kind)) {
            None | Some(2) if crossed => Some(1),
            bad => bad,
        }
    }

    fn fresh(kind: Kind, parameters: &Parameters) -> Block {
        let [p, q, _] = *parameters;
        let controller = |tracking| Block::Controller {
            gains: Gains::of(*parameters),
            past: Past::default(),
            tracking,
        };
        match kind {
            Kind::In => Block::Input { start: p, value: p },
            Kind::Pid => controller(false),
            Kind::Pidt => controller(true),
            Kind::Lim => Block::Limiter { low: p, high: q },
            Kind::Root => Block::SquareRoot,
            Kind::Lag => Block::Lag { pace: p, charge: 0 },
            Kind::Hold => Block::Hold { start: p, value: p },
            Kind::Low => Block::Smaller,
            Kind::High => Block::Larger,
            Kind::Sum => Block::Sum,
            Kind::Gain => Block::Gain { thousandths: p },
        }
    }

    fn kind(block: &Block) -> Kind {
        match block {
            Block::Input { .. } => Kind::In,
            Block::Controller { tracking: false, .. } => Kind::Pid,
            Block::Controller { tracking: true, .. } => Kind::Pidt,
            Block::Limiter { .. } => Kind::Lim,
            Block::SquareRoot => Kind::Root,
            Block::Lag { .. } => Kind::Lag,
            Block::Hold { .. } => Kind::Hold,
            Block::Smaller => Kind::Low,
            Block::Larger => Kind::High,
            Block::Sum => Kind::Sum,
            Block::Gain { .. } => Kind::Gain,
        }
    }

    fn takes_feed(block: &Block) -> bool {
        matches!(block, Block::Input { .. })
    }

    fn feed(block: &mut Block, number: Number) {
        if let Block::Input { value, .. } = block {
            *value = limit(number, &SPAN);
        }
    }

    fn tune(block: &mut Block, &[p, q, r]: &Parameters) {
        match block {
            Block::Input { start, .. } | Block::Hold { start, .. } => *start = p,
            Block::Controller { gains, .. } => *gains = Gains::of([p, q, r]),
            Block::Limiter { low, high } => (*low, *high) = (p, q),
            Block::Lag { pace, .. } => *pace = p,
            Block::Gain { thousandths } => *thousandths = p,
            Block::SquareRoot | Block::Smaller | Block::Larger | Block::Sum => {}
        }
    }

    fn output(block: &Block, inputs: &[Number; 3]) -> Number {
        let [a, b, c] = inputs.map(heard);
        match block {
            Block::Input { value, .. } | Block::Hold { value, .. } => *value,
            Block::Controller { gains, past, .. } => thousandth(past.drive(gains, a, b)),
            Block::Limiter { low, high } => limit(a, &(*low..=*high)),
            Block::SquareRoot => square_root(MILLION * a),
            Block::Lag { charge, .. } => thousandth(*charge),
            Block::Smaller => a.min(b),
            Block::Larger => a.max(b),
            Block::Sum => limit(a + b - c, &SPAN),
            Block::Gain { thousandths } => limit(thousandth(thousandths * a), &SPAN),
        }
    }

    fn next(block: &Block, inputs: &[Number; 3]) -> Block {
        let [a, b, c] = inputs.map(heard);
        let mut next = block.clone();
        match &mut next {
            Block::Hold { value, .. } => *value = a,
            Block::Lag { pace, charge } => *charge += thousandth(*pace * (1000 * a - *charge)),
            Block::Controller { gains, past, tracking } => {
                *past = past.after(gains, [a, b], tracking.then_some(c));
            }
            _ => {}
        }
        next
    }

    fn number(signal: Number) -> Number {
        heard(signal)
    }

    fn from_record(record: &Record) -> Block {
        block_of(record).unwrap_or_else(|| Loops::fresh(Kind::In, &[0; 3]))
    }

    fn to_record(block: &Block) -> Record {
        let mut states = [0; 4];
        let parameters = match block {
            Block::Input { start, value } | Block::Hold { start, value } => {
                states[0] = *value;
                [*start, 0, 0]
            }
            Block::Controller { gains, past, .. } => {
                states = [past.drive, past.error, past.measured, past.measured_before];
                [gains.proportional, gains.integral, gains.derivative]
            }
            Block::Limiter { low, high } => [*low, *high, 0],
            Block::Lag { pace, charge } => {
                states[0] = *charge;
                [*pace, 0, 0]
            }
            Block::Gain { thousandths } => [*thousandths, 0, 0],
            Block::SquareRoot | Block::Smaller | Block::Larger | Block::Sum => [0; 3],
        };
        Record::new(Loops::code(Loops::kind(block)), parameters, states)
    }
}

#[cfg(test)]
mod tests {
    use super::*;

    fn block(word: &str, parameters: Parameters) -> Block {
        let kind = Loops::kind_of_word(word).unwrap();
        assert_eq!(Loops::bad_parameter(kind, &parameters), None);
        Loops::fresh(kind, &parameters)
    }

    /// The outputs of a fresh block at each of the inputs in turn.
    fn outputs(word: &str, parameters: Parameters, inputs: &[[Number; 3]]) -> Vec<Number> {
        let mut block = block(word, parameters);
        let step = |at: &[Number; 3]| {
            let output = Loops::output(&block, at);
            block = Loops::next(&block, at);
            output
        };
        inputs.iter().map(step).collect()
    }

    fn output(word: &str, parameters: Parameters, inputs: [Number; 3]) -> Number {
        outputs(word, parameters, &[inputs])[0]
    }

    #[test]
    fn examples() {
        assert_eq!(outputs("pid", [1000, 100, 0], &[[1000, 0, 0]; 2]), [1100, 1200]);
        assert_eq!(outputs("pid", [0, 1, 0], &[[0, 1, 0]]), [-1]);
        assert_eq!(outputs("pid", [0, 0, 500], &[[0, 10, 0]; 2]), [-5, 0]);
        assert_eq!(outputs("lag", [500, 0, 0], &[[3, 0, 0]; 4]), [0, 1, 2, 2]);
    }

    #[test]
    fn tracking_example() {
        let mut controller = block("pidt", [0, 1000, 0]);
        let limiter = block("lim", [-100, 100, 0]);
        let mut seen = Vec::new();
        for a in [500, 500, -500] {
            let y = Loops::output(&controller, &[a, 0, 0]);
            let c = Loops::output(&limiter, &[y, 0, 0]);
            controller = Loops::next(&controller, &[a, 0, c]);
            seen.push(y);
        }
        assert_eq!(seen, [500, 600, -400]);
    }

    #[test]
    fn plain_blocks() {
        assert_eq!(outputs("in", [7, 0, 0], &[[1, 2, 3]; 2]), [7, 7]);
        assert_eq!(outputs("hold", [7, 0, 0], &[[1, 0, 0], [2, 0, 0], [3, 0, 0]]), [7, 1, 2]);
        assert_eq!(output("lim", [-5, 5, 0], [9, 0, 0]), 5);
        assert_eq!(output("lim", [-5, 5, 0], [-9, 0, 0]), -5);
        assert_eq!(output("lim", [-5, 5, 0], [3, 0, 0]), 3);
        assert_eq!(output("low", [0; 3], [3, -4, 9]), -4);
        assert_eq!(output("high", [0; 3], [3, -4, 9]), 3);
        assert_eq!(output("sum", [0; 3], [3, 4, 9]), -2);
        assert_eq!(output("sum", [0; 3], [900_000, 900_000, -5]), 1_000_000);
        assert_eq!(output("gain", [1500, 0, 0], [3, 0, 0]), 4);
        assert_eq!(output("gain", [1500, 0, 0], [-3, 0, 0]), -5);
        assert_eq!(output("gain", [-100_000, 0, 0], [1_000_000, 0, 0]), -1_000_000);
    }

    #[test]
    fn roots_are_exact() {
        for a in [0, 1, 2, 3, 4, 999, 250_000, 999_999, 1_000_000] {
            let y = output("root", [0; 3], [a, 0, 0]);
            assert!(y * y <= MILLION * a && MILLION * a < (y + 1) * (y + 1));
        }
        assert_eq!(output("root", [0; 3], [4, 0, 0]), 2000);
        assert_eq!(output("root", [0; 3], [-4, 0, 0]), 0);
    }

    #[test]
    fn controllers_are_limited() {
        let full = [[1_000_000, -1_000_000, 0]; 3];
        assert_eq!(outputs("pid", [100_000; 3], &full)[2], 1_000_000);
        assert_eq!(outputs("pid", [-100_000, -100_000, 0], &full)[2], -1_000_000);
        let Block::Controller { past, .. } =
            Loops::next(&block("pidt", [0, 100_000, 0]), &[1_000_000, 0, 1_000_000])
        else {
            panic!("a controller stays one")
        };
        assert_eq!(past.drive, 1_000_000_000);
        let Block::Controller { past, .. } =
            Loops::next(&block("pidt", [0, 1, 0]), &[-1, 0, -1_000_000])
        else {
            panic!("a controller stays one")
        };
        // s = -1, y = -1, u = -1 + 1000 × (-1,000,000 + 1)
        assert_eq!(past.drive, -999_999_001);
    }

    #[test]
    fn parameters() {
        let bad = |word, parameters| {
            Loops::bad_parameter(Loops::kind_of_word(word).unwrap(), &parameters)
        };
        assert_eq!(bad("in", [1_000_000, 0, 0]), None);
        assert_eq!(bad("in", [-1_000_001, 0, 0]), Some(0));
        assert_eq!(bad("in", [0, 1, 1]), Some(1));
        assert_eq!(bad("in", [0, 0, 1]), Some(2));
        assert_eq!(bad("hold", [1_000_001, 0, 0]), Some(0));
        assert_eq!(bad("pid", [100_000, -100_000, 100_001]), Some(2));
        assert_eq!(bad("pidt", [-100_001, 0, 100_001]), Some(0));
        assert_eq!(bad("lim", [5, 5, 0]), None);
        assert_eq!(bad("lim", [5, 4, 0]), Some(1));
        assert_eq!(bad("lim", [5, 4, 1]), Some(1));
        assert_eq!(bad("lim", [4, 5, 1]), Some(2));
        assert_eq!(bad("lim", [1_000_001, 4, 0]), Some(0));
        assert_eq!(bad("lim", [0, 1_000_001, 0]), Some(1));
        assert_eq!(bad("root", [1, 0, 0]), Some(0));
        assert_eq!(bad("lag", [0, 0, 0]), Some(0));
        assert_eq!(bad("lag", [1, 0, 0]), None);
        assert_eq!(bad("lag", [1000, 0, 0]), None);
        assert_eq!(bad("lag", [1001, 0, 0]), Some(0));
        assert_eq!(bad("gain", [100_001, 0, 0]), Some(0));
    }

    #[test]
    fn feeds_and_tunes() {
        let mut input = block("in", [7, 0, 0]);
        Loops::tune(&mut input, &[9, 0, 0]);
        assert_eq!(input, Block::Input { start: 9, value: 7 });
        Loops::feed(&mut input, 9_999_999);
        assert_eq!(input, Block::Input { start: 9, value: 1_000_000 });
        Loops::feed(&mut input, -9_999_999);
        assert_eq!(input, Block::Input { start: 9, value: -1_000_000 });
        let mut sum = block("sum", [0; 3]);
        assert!(Loops::takes_feed(&input) && !Loops::takes_feed(&sum));
        Loops::feed(&mut sum, 4);
        assert_eq!(sum, Block::Sum);
    }

    #[test]
    fn records_that_do_not_count() {
        let idle = Block::Input { start: 0, value: 0 };
        let pid = Record { code: 2, v: 2_000_000, u: 1_000_000_000, ..Record::default() };
        assert_eq!(Loops::to_record(&Loops::from_record(&pid)), pid);
        for wrong in [
            Record::default(),
            Record { code: 12, ..Record::default() },
            Record { v: 2_000_001, ..pid },
            Record { z: 1_000_001, ..pid },
            Record { u: -1_000_000_001, ..pid },
            Record { r: 100_001, ..pid },
            Record { code: 4, p: 1, ..Record::default() },
            Record { code: 10, z: 1, ..Record::default() },
            Record { code: 1, v: 1, ..Record::default() },
        ] {
            assert_eq!(Loops::from_record(&wrong), idle);
        }
    }
}
