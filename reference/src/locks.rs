//! Interlocks: blocks whose signals are true or false.

use crate::family::{Family, NOTHING, Number, Parameters, Port, Range, Record, first_outside};

const LONGEST: Number = 1_000_000;
const TRUTH: Range = 0..=1;

#[derive(Clone, Copy, PartialEq, Eq, Debug)]
pub enum Kind {
    In,
    And,
    Or,
    Not,
    Latch,
    Hold,
    Timer,
}

#[derive(Clone, PartialEq, Eq, Debug)]
pub enum Block {
    Input {
        start: bool,
        value: bool,
    },
    And,
    Or,
    Not,
    Latch {
        set: bool,
    },
    Hold {
        start: bool,
        value: bool,
    },
    /// True once its input has been true for `wait` scans before.
    Timer {
        wait: Number,
        count: Number,
    },
}

/// The family of interlocks.
#[derive(Clone, Copy, Debug)]
pub struct Locks;

fn parameter_range(kind: Kind) -> Range {
    match kind {
        Kind::In | Kind::Hold => TRUTH,
        Kind::Timer => 1..=LONGEST,
        Kind::And | Kind::Or | Kind::Not | Kind::Latch => NOTHING,
    }
}

fn state_range(kind: Kind) -> Range {
    match kind {
        Kind::In | Kind::Hold | Kind::Latch => TRUTH,
        Kind::Timer => 0..=LONGEST,
        Kind::And | Kind::Or | Kind::Not => NOTHING,
    }
}

/// The block of a record that counts as itself.
fn block_of(record: &Record) -> Option<Block> {
    let kind = Locks::kind_of_code(record.code)?;
    let parameters = record.parameters();
    let states = record.states();
    let ranges = [state_range(kind), NOTHING, NOTHING, NOTHING];
    if Locks::bad_parameter(kind, &parameters).is_some()
        || first_outside(&states, &ranges).is_some()
    {
        return None;
    }
    let u = states[0];
    let mut block = Locks::fresh(kind, &parameters);
    match &mut block {
        Block::Input { value, .. } | Block::Hold { value, .. } => *value = u == 1,
        Block::Latch { set } => *set = u == 1,
        Block::Timer { count, .. } => *count = u,
        Block::And | Block::Or | Block::Not => {}
    }
    Some(block)
}

impl Family for Locks {
    type Kind = Kind;
    type Block = Block;
    type Signal = bool;

    const REST: bool = false;

    const KINDS: &'static [(&'static str, Kind)] = &[
        ("in", Kind::In),
        ("and", Kind::And),
        ("or", Kind::Or),
        ("not", Kind::Not),
        ("latch", Kind::Latch),
        ("hold", Kind::Hold),
        ("timer", Kind::Timer),
    ];

    fn ports(kind: Kind) -> &'static [Port] {
        use Port::{Direct, Late};
        match kind {
            Kind::In => &[],
            Kind::Not | Kind::Timer => &[Direct],
            Kind::Hold => &[Late],
            Kind::And | Kind::Or | Kind::Latch => &[Direct, Direct],
        }
    }

    fn bad_parameter(kind: Kind, parameters: &Parameters) -> Option<usize> {
        first_outside(parameters, &[parameter_range(kind), NOTHING, NOTHING])
    }

    fn fresh(kind: Kind, parameters: &Parameters) -> Block {
        let p = parameters[0];
        match kind {
            Kind::In => Block::Input { start: p == 1, value: p == 1 },
            Kind::And => Block::And,
            Kind::Or => Block::Or,
            Kind::Not => Block::Not,
            Kind::Latch => Block::Latch { set: false },
            Kind::Hold => Block::Hold { start: p == 1, value: p == 1 },
            Kind::Timer => Block::Timer { wait: p, count: 0 },
        }
    }

    fn kind(block: &Block) -> Kind {
        match block {
            Block::Input { .. } => Kind::In,
            Block::And => Kind::And,
            Block::Or => Kind::Or,
            Block::Not => Kind::Not,
            Block::Latch { .. } => Kind::Latch,
            Block::Hold { .. } => Kind::Hold,
            Block::Timer { .. } => Kind::Timer,
        }
    }

    fn takes_feed(block: &Block) -> bool {
        matches!(block, Block::Input { .. })
    }

    fn feed(block: &mut Block, number: Number) {
        if let Block::Input { value, .. } = block {
            *value = number != 0;
        }
    }

    fn tune(block: &mut Block, &[p, _, _]: &Parameters) {
        match block {
            Block::Input { start, .. } | Block::Hold { start, .. } => *start = p == 1,
            Block::Timer { wait, .. } => *wait = p,
            Block::And | Block::Or | Block::Not | Block::Latch { .. } => {}
        }
    }

    fn output(block: &Block, &[a, b, _]: &[bool; 3]) -> bool {
        match block {
            Block::Input { value, .. } | Block::Hold { value, .. } => *value,
            Block::And => a && b,
            Block::Or => a || b,
            Block::Not => !a,
            Block::Latch { set } => (a || *set) && !b,
            Block::Timer { wait, count } => a && count >= wait,
        }
    }

    fn next(block: &Block, inputs: &[bool; 3]) -> Block {
        let a = inputs[0];
        let mut next = block.clone();
        match &mut next {
            Block::Latch { set } => *set = Locks::output(block, inputs),
            Block::Hold { value, .. } => *value = a,
            Block::Timer { wait, count } => *count = if a { (*count + 1).min(*wait) } else { 0 },
            Block::Input { .. } | Block::And | Block::Or | Block::Not => {}
        }
        next
    }

    fn number(signal: bool) -> Number {
        Number::from(signal)
    }

    fn from_record(record: &Record) -> Block {
        block_of(record).unwrap_or_else(|| Locks::fresh(Kind::In, &[0; 3]))
    }

    fn to_record(block: &Block) -> Record {
        let (p, u) = match block {
            Block::Input { start, value } | Block::Hold { start, value } => {
                (Number::from(*start), Number::from(*value))
            }
            Block::Latch { set } => (0, Number::from(*set)),
            Block::Timer { wait, count } => (*wait, *count),
            Block::And | Block::Or | Block::Not => (0, 0),
        };
        Record::new(Locks::code(Locks::kind(block)), [p, 0, 0], [u, 0, 0, 0])
    }
}

#[cfg(test)]
mod tests {
    use super::*;

    fn block(word: &str, p: Number) -> Block {
        let kind = Locks::kind_of_word(word).unwrap();
        assert_eq!(Locks::bad_parameter(kind, &[p, 0, 0]), None);
        Locks::fresh(kind, &[p, 0, 0])
    }

    /// The outputs of a block at inputs written as `1` and `0`.
    fn outputs(block: &mut Block, a: &str, b: &str) -> String {
        let step = |(a, b): (char, char)| {
            let inputs = [a == '1', b == '1', false];
            let output = Locks::output(block, &inputs);
            *block = Locks::next(block, &inputs);
            if output { '1' } else { '0' }
        };
        a.chars().zip(b.chars()).map(step).collect()
    }

    #[test]
    fn timer_example() {
        assert_eq!(outputs(&mut block("timer", 2), "111", "000"), "001");
        assert_eq!(outputs(&mut block("timer", 1), "1101101", "0000000"), "0100100");
    }

    #[test]
    fn a_timer_tuned_below_its_count() {
        let mut timer = block("timer", 5);
        assert_eq!(outputs(&mut timer, "1111", "0000"), "0000");
        Locks::tune(&mut timer, &[2, 0, 0]);
        assert_eq!(timer, Block::Timer { wait: 2, count: 4 });
        assert_eq!(Locks::from_record(&Locks::to_record(&timer)), timer);
        assert_eq!(outputs(&mut timer, "1", "0"), "1");
        assert_eq!(timer, Block::Timer { wait: 2, count: 2 });
    }

    #[test]
    fn gates() {
        assert_eq!(outputs(&mut block("and", 0), "0011", "0101"), "0001");
        assert_eq!(outputs(&mut block("or", 0), "0011", "0101"), "0111");
        assert_eq!(outputs(&mut block("not", 0), "01", "00"), "10");
        assert_eq!(outputs(&mut block("latch", 0), "0100110", "0001100"), "0110011");
        assert_eq!(outputs(&mut block("hold", 1), "0110", "0000"), "1011");
        assert_eq!(outputs(&mut block("in", 1), "00", "00"), "11");
    }

    #[test]
    fn feeds() {
        let mut input = block("in", 0);
        Locks::feed(&mut input, -7);
        assert_eq!(input, Block::Input { start: false, value: true });
        Locks::feed(&mut input, 0);
        assert_eq!(input, Block::Input { start: false, value: false });
    }

    #[test]
    fn parameters() {
        let bad = |word, parameters| {
            Locks::bad_parameter(Locks::kind_of_word(word).unwrap(), &parameters)
        };
        assert_eq!(bad("in", [1, 0, 0]), None);
        assert_eq!(bad("in", [2, 0, 0]), Some(0));
        assert_eq!(bad("hold", [-1, 0, 0]), Some(0));
        assert_eq!(bad("timer", [0, 0, 0]), Some(0));
        assert_eq!(bad("timer", [1_000_000, 0, 0]), None);
        assert_eq!(bad("timer", [1_000_001, 1, 0]), Some(0));
        assert_eq!(bad("and", [0, 0, 1]), Some(2));
    }

    #[test]
    fn records_that_do_not_count() {
        let idle = Block::Input { start: false, value: false };
        for wrong in [
            Record::default(),
            Record { code: 8, ..Record::default() },
            Record { code: 1, u: 2, ..Record::default() },
            Record { code: 5, u: -1, ..Record::default() },
            Record { code: 2, u: 1, ..Record::default() },
            Record { code: 7, p: 1, u: 1_000_001, ..Record::default() },
            Record { code: 7, u: 1, ..Record::default() },
            Record { code: 6, w: 1, ..Record::default() },
        ] {
            assert_eq!(Locks::from_record(&wrong), idle);
        }
    }
}
