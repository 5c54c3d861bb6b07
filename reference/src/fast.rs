//! The two halves of a scan over arrays: blocks by rank, records and signals
//! by slot, one pass each.

mod locks;
mod loops;
#[cfg(test)]
mod tests;

pub use locks::LockRules;
pub use loops::LoopRules;

use crate::SLOTS;
use crate::family::Record;
use crate::refusal::Refusal;
use crate::wiring::Wiring;

/// What a scan asks of a family of blocks.
pub trait Rules {
    type Signal: Copy;
    const REST: Self::Signal;

    /// Whether the record counts as itself.
    fn counts(record: &Record) -> bool;
    /// The output of a record that counts.
    fn output(record: &Record, inputs: [Self::Signal; 3]) -> Self::Signal;
    /// The next record of one that counts.
    fn next(record: &Record, inputs: [Self::Signal; 3]) -> Record;
}

/// A fresh `in` of p 0, in both families.
const IDLE: Record = Record { code: 1, p: 0, q: 0, r: 0, u: 0, v: 0, w: 0, z: 0 };

const UNWIRED: u16 = u16::MAX;

/// A placed block and where its ports are wired from.
#[derive(Clone, Copy, Debug)]
struct Step {
    sources: [u16; 3],
    slot: u8,
}

/// The placed blocks of a wiring by rank.
#[derive(Clone, Debug)]
pub struct Plan {
    steps: Vec<Step>,
}

impl Plan {
    pub fn of(wiring: &Wiring) -> Plan {
        let step = |&slot: &usize| {
            let mut sources = [UNWIRED; 3];
            for (port, source) in wiring.direct_wires(slot).chain(wiring.late_wires(slot)) {
                sources[port] = source as u16;
            }
            Step { sources, slot: slot as u8 }
        };
        Plan { steps: wiring.order().iter().map(step).collect() }
    }

    /// Sets the signal of every placed block.
    pub fn solve<R: Rules>(
        &self,
        records: &[Record],
        signals: &mut [R::Signal],
    ) -> Result<(), Refusal> {
        let records = records.first_chunk::<SLOTS>().ok_or(Refusal::RowTooShort)?;
        let signals = signals.first_chunk_mut::<SLOTS>().ok_or(Refusal::RowTooShort)?;
        for step in &self.steps {
            let inputs = step.inputs::<R>(signals);
            let slot = usize::from(step.slot);
            signals[slot] = R::output(counted::<R>(&records[slot]), inputs);
        }
        Ok(())
    }

    /// Replaces the record of every placed block by its next one.
    pub fn settle<R: Rules>(
        &self,
        records: &mut [Record],
        signals: &[R::Signal],
    ) -> Result<(), Refusal> {
        let records = records.first_chunk_mut::<SLOTS>().ok_or(Refusal::RowTooShort)?;
        let signals = signals.first_chunk::<SLOTS>().ok_or(Refusal::RowTooShort)?;
        for step in &self.steps {
            let record = &mut records[usize::from(step.slot)];
            *record = R::next(counted::<R>(record), step.inputs::<R>(signals));
        }
        Ok(())
    }
}

impl Step {
    fn inputs<R: Rules>(&self, signals: &[R::Signal; SLOTS]) -> [R::Signal; 3] {
        self.sources.map(|source| signals.get(usize::from(source)).copied().unwrap_or(R::REST))
    }
}

fn counted<R: Rules>(record: &Record) -> &Record {
    if R::counts(record) { record } else { &IDLE }
}
