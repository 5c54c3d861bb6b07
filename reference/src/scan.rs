//! The two halves of a scan, by recursion on the wires.

use crate::SLOTS;
use crate::family::Family;
use crate::wiring::Wiring;

/// The blocks of a diagram by slot.
pub type Blocks<F> = Vec<Option<<F as Family>::Block>>;

/// The signals that are known so far, by slot.
pub type Signals<F> = Vec<Option<<F as Family>::Signal>>;

/// The signal of every placed block: each asks for those that it needs.
pub fn solve<F: Family>(wiring: &Wiring, blocks: &Blocks<F>) -> Signals<F> {
    let mut known = vec![None; SLOTS];
    for slot in 0..SLOTS {
        signal::<F>(wiring, blocks, slot, &mut known);
    }
    known
}

fn signal<F: Family>(
    wiring: &Wiring,
    blocks: &Blocks<F>,
    slot: usize,
    known: &mut Signals<F>,
) -> Option<F::Signal> {
    if known[slot].is_none() {
        let block = blocks[slot].as_ref()?;
        let mut inputs = [F::REST; 3];
        for (port, source) in wiring.direct_wires(slot) {
            inputs[port] = signal::<F>(wiring, blocks, source, known).unwrap_or(F::REST);
        }
        known[slot] = Some(F::output(block, &inputs));
    }
    known[slot]
}

/// The blocks after the scan that gave these signals.
pub fn settle<F: Family>(wiring: &Wiring, blocks: &Blocks<F>, signals: &Signals<F>) -> Blocks<F> {
    let next = |(slot, block): (usize, &Option<F::Block>)| {
        let mut inputs = [F::REST; 3];
        for (port, source) in wiring.direct_wires(slot).chain(wiring.late_wires(slot)) {
            inputs[port] = signals[source].unwrap_or(F::REST);
        }
        block.as_ref().map(|block| F::next(block, &inputs))
    };
    blocks.iter().enumerate().map(next).collect()
}
