//! What the two families of blocks have in common.

use std::fmt::Debug;
use std::ops::RangeInclusive;

/// Every number is wide, so that nothing overflows before it is limited.
pub type Number = i128;

/// The parameters p, q and r.
pub type Parameters = [Number; 3];

/// A range of numbers, both ends included.
pub type Range = RangeInclusive<Number>;

/// The range of a parameter or state that a kind does not have.
pub const NOTHING: Range = 0..=0;

#[derive(Clone, Copy, PartialEq, Eq, Debug)]
pub enum Port {
    /// The output depends on it in the same scan.
    Direct,
    /// It tells only in the next scan.
    Late,
}

/// A block as it lies in a row of memory: it may hold anything.
#[derive(Clone, Copy, PartialEq, Eq, Debug, Default)]
pub struct Record {
    pub code: u8,
    pub p: i32,
    pub q: i32,
    pub r: i32,
    pub u: i32,
    pub v: i32,
    pub w: i32,
    pub z: i32,
}

impl Record {
    pub fn parameters(&self) -> Parameters {
        [self.p, self.q, self.r].map(Number::from)
    }

    pub fn states(&self) -> [Number; 4] {
        [self.u, self.v, self.w, self.z].map(Number::from)
    }

    /// A record of numbers that are known to fit.
    pub fn new(code: u8, parameters: Parameters, states: [Number; 4]) -> Record {
        let [p, q, r] = parameters.map(narrow);
        let [u, v, w, z] = states.map(narrow);
        Record { code, p, q, r, u, v, w, z }
    }
}

fn narrow(n: Number) -> i32 {
    i32::try_from(n).expect("parameters and states have 32 bits")
}

/// The first of `values` that lies outside its range.
pub fn first_outside<const N: usize>(values: &[Number; N], ranges: &[Range; N]) -> Option<usize> {
    (0..N).find(|&i| !ranges[i].contains(&values[i]))
}

/// A family of blocks. A `Block` has the parameters and states of its kind
/// and no others.
pub trait Family: Clone + Debug + 'static {
    type Kind: Copy + PartialEq + Debug + 'static;
    type Block: Clone + PartialEq + Debug;
    type Signal: Copy + PartialEq + Debug;

    /// The signal at rest, which an unwired port carries.
    const REST: Self::Signal;

    /// The words of the kinds, by their codes from 1.
    const KINDS: &'static [(&'static str, Self::Kind)];

    fn ports(kind: Self::Kind) -> &'static [Port];
    /// The first parameter that the kind does not accept.
    fn bad_parameter(kind: Self::Kind, parameters: &Parameters) -> Option<usize>;
    fn fresh(kind: Self::Kind, parameters: &Parameters) -> Self::Block;

    fn kind(block: &Self::Block) -> Self::Kind;
    fn takes_feed(block: &Self::Block) -> bool;
    fn feed(block: &mut Self::Block, number: Number);
    fn tune(block: &mut Self::Block, parameters: &Parameters);

    fn output(block: &Self::Block, inputs: &[Self::Signal; 3]) -> Self::Signal;
    fn next(block: &Self::Block, inputs: &[Self::Signal; 3]) -> Self::Block;
    fn number(signal: Self::Signal) -> Number;

    /// The block that a record counts as.
    fn from_record(record: &Record) -> Self::Block;
    fn to_record(block: &Self::Block) -> Record;

    fn kind_of_word(word: &str) -> Option<Self::Kind> {
        let (_, kind) = Self::KINDS.iter().find(|(w, _)| *w == word)?;
        Some(*kind)
    }

    fn kind_of_code(code: u8) -> Option<Self::Kind> {
        let (_, kind) = Self::KINDS.get(usize::from(code).checked_sub(1)?)?;
        Some(*kind)
    }

    fn code(kind: Self::Kind) -> u8 {
        let place = Self::KINDS.iter().position(|(_, k)| *k == kind);
        1 + place.expect("every kind has a row") as u8
    }
}
