//! The calls by which a diagram is drawn and run. The diagram here keeps its
//! rows itself, so no call meets refusal 3.

use crate::SLOTS;
use crate::family::{Family, Number, Parameters};
use crate::refusal::Refusal;
use crate::scan::{self, Blocks, Signals};
use crate::slots::{Handle, Slots};
use crate::wiring::{Fault, Wiring};

const LAST_SCAN: u32 = 1_000_000;

/// What a solve hands out and the settle of the same scan takes back.
#[derive(PartialEq, Eq, Debug)]
#[must_use]
pub struct Token(u32);

#[derive(Clone, Debug)]
pub struct Diagram<F: Family> {
    slots: Slots,
    wiring: Wiring,
    blocks: Blocks<F>,
    signals: Signals<F>,
    last_scan: u32,
    open: bool,
    /// How often a wire changed ranks.
    pub dealings: usize,
}

impl<F: Family> Default for Diagram<F> {
    fn default() -> Diagram<F> {
        Diagram {
            slots: Slots::default(),
            wiring: Wiring::default(),
            blocks: vec![None; SLOTS],
            signals: vec![None; SLOTS],
            last_scan: 0,
            open: false,
            dealings: 0,
        }
    }
}

impl From<Fault> for Refusal {
    fn from(fault: Fault) -> Refusal {
        match fault {
            Fault::NoBlock => Refusal::UnknownHandle,
            Fault::NoSuchPort => Refusal::NoSuchPort,
            Fault::PortWired => Refusal::PortWired,
            Fault::PortUnwired => Refusal::PortUnwired,
            Fault::MakesRing => Refusal::MakesRing,
            Fault::Occupied | Fault::TooManyPorts => unreachable!("a diagram never asks for this"),
        }
    }
}

impl<F: Family> Diagram<F> {
    pub fn place(
        &mut self,
        kind: Option<F::Kind>,
        parameters: &Parameters,
    ) -> Result<Handle, Refusal> {
        self.closed()?;
        let kind = kind.ok_or(Refusal::UnknownKind)?;
        accept::<F>(kind, parameters)?;
        let handle = self.slots.fill().ok_or(Refusal::NoFreeSlot)?;
        self.wiring.place(handle.slot(), F::ports(kind))?;
        self.blocks[handle.slot()] = Some(F::fresh(kind, parameters));
        self.signals[handle.slot()] = Some(F::REST);
        Ok(handle)
    }

    pub fn remove(&mut self, block: Handle) -> Result<(), Refusal> {
        self.closed()?;
        let slot = self.find(block)?;
        self.wiring.remove(slot)?;
        self.slots.empty(slot);
        self.blocks[slot] = None;
        self.signals[slot] = None;
        Ok(())
    }

    pub fn wire(&mut self, target: Handle, port: usize, source: Handle) -> Result<(), Refusal> {
        self.closed()?;
        let (target, source) = (self.find(target)?, self.find(source)?);
        let dealt = self.wiring.wire(target, port, source)?;
        self.dealings += usize::from(dealt);
        Ok(())
    }

    pub fn cut(&mut self, target: Handle, port: usize) -> Result<(), Refusal> {
        self.closed()?;
        let target = self.find(target)?;
        Ok(self.wiring.cut(target, port)?)
    }

    pub fn tune(&mut self, block: Handle, parameters: &Parameters) -> Result<(), Refusal> {
        self.closed()?;
        let block = self.block(block)?;
        accept::<F>(F::kind(block), parameters)?;
        F::tune(block, parameters);
        Ok(())
    }

    pub fn feed(&mut self, block: Handle, number: Number) -> Result<(), Refusal> {
        self.closed()?;
        let block = self.block(block)?;
        if !F::takes_feed(block) {
            return Err(Refusal::TakesNoFeed);
        }
        F::feed(block, number);
        Ok(())
    }

    pub fn solve(&mut self) -> Result<Token, Refusal> {
        self.closed()?;
        self.signals = scan::solve::<F>(&self.wiring, &self.blocks);
        self.last_scan = self.last_scan % LAST_SCAN + 1;
        self.open = true;
        Ok(Token(self.last_scan))
    }

    /// A refused settle gives its token back.
    pub fn settle(&mut self, token: Token) -> Result<(), (Refusal, Token)> {
        if !self.open || token.0 != self.last_scan {
            return Err((Refusal::WrongScan, token));
        }
        self.blocks = scan::settle::<F>(&self.wiring, &self.blocks, &self.signals);
        self.open = false;
        Ok(())
    }

    pub fn rank(&self, block: Handle) -> Result<usize, Refusal> {
        let slot = self.find(block)?;
        self.wiring.rank(slot).ok_or(Refusal::UnknownHandle)
    }

    pub fn show(&self, block: Handle) -> Result<Number, Refusal> {
        let slot = self.find(block)?;
        let signal = self.signals[slot].ok_or(Refusal::UnknownHandle)?;
        Ok(F::number(signal))
    }

    pub fn closed(&self) -> Result<(), Refusal> {
        if self.open { Err(Refusal::DiagramOpen) } else { Ok(()) }
    }

    pub fn names(&self, handle: Handle) -> bool {
        self.slots.find(handle).is_some()
    }

    /// How many blocks are placed.
    pub fn size(&self) -> usize {
        self.wiring.order().len()
    }

    /// How many slots were ever used.
    pub fn slots_used(&self) -> usize {
        self.slots.used()
    }

    pub fn wiring(&self) -> &Wiring {
        &self.wiring
    }

    pub fn blocks(&self) -> &Blocks<F> {
        &self.blocks
    }

    fn find(&self, handle: Handle) -> Result<usize, Refusal> {
        self.slots.find(handle).ok_or(Refusal::UnknownHandle)
    }

    fn block(&mut self, handle: Handle) -> Result<&mut F::Block, Refusal> {
        let slot = self.find(handle)?;
        self.blocks[slot].as_mut().ok_or(Refusal::UnknownHandle)
    }
}

fn accept<F: Family>(kind: F::Kind, parameters: &Parameters) -> Result<(), Refusal> {
    F::bad_parameter(kind, parameters).map_or(Ok(()), |bad| Err(Refusal::BadParameter(bad)))
}

#[cfg(test)]
mod tests {
    use super::*;
    use crate::loops::{Kind, Loops};

    fn diagram(kinds: &[Kind]) -> (Diagram<Loops>, Vec<Handle>) {
        let mut diagram = Diagram::default();
        let place = |&kind: &Kind| {
            let p = Number::from(kind == Kind::Lag);
            diagram.place(Some(kind), &[p, 0, 0]).unwrap()
        };
        let handles = kinds.iter().map(place).collect();
        (diagram, handles)
    }

    #[test]
    fn handles_of_removed_blocks_name_none() {
        let (mut d, h) = diagram(&[Kind::In]);
        assert_eq!(h[0], Handle(256));
        d.remove(h[0]).unwrap();
        assert_eq!(d.place(Some(Kind::Sum), &[0; 3]), Ok(Handle(512)));
        assert_eq!(d.remove(h[0]), Err(Refusal::UnknownHandle));
        assert_eq!(d.rank(h[0]), Err(Refusal::UnknownHandle));
        assert_eq!(d.show(h[0]), Err(Refusal::UnknownHandle));
        assert_eq!(d.feed(h[0], 1), Err(Refusal::UnknownHandle));
        assert_eq!(d.tune(h[0], &[9; 3]), Err(Refusal::UnknownHandle));
        assert_eq!(d.cut(h[0], 0), Err(Refusal::UnknownHandle));
        assert_eq!(d.wire(Handle(512), 0, h[0]), Err(Refusal::UnknownHandle));
        assert_eq!(d.wire(h[0], 0, Handle(512)), Err(Refusal::UnknownHandle));
    }

    #[test]
    fn an_open_diagram_is_only_looked_at() {
        let (mut d, h) = diagram(&[Kind::In, Kind::Sum]);
        d.feed(h[0], 5).unwrap();
        let token = d.solve().unwrap();
        let open = Refusal::DiagramOpen;
        assert_eq!(d.place(None, &[0; 3]), Err(open));
        assert_eq!(d.remove(Handle(0)), Err(open));
        assert_eq!(d.wire(Handle(0), 0, h[0]), Err(open));
        assert_eq!(d.cut(h[0], 0), Err(open));
        assert_eq!(d.tune(h[0], &[0; 3]), Err(open));
        assert_eq!(d.feed(h[1], 0), Err(open));
        assert_eq!(d.solve(), Err(open));
        assert_eq!(d.show(h[0]), Ok(5));
        assert_eq!(d.rank(h[1]), Ok(1));
        assert_eq!(d.settle(token), Ok(()));
        assert_eq!(d.feed(h[0], 6), Ok(()));
    }

    #[test]
    fn tokens() {
        let (mut d, _) = diagram(&[]);
        assert_eq!(d.settle(Token(0)), Err((Refusal::WrongScan, Token(0))));
        let first = d.solve().unwrap();
        assert_eq!(first, Token(1));
        assert_eq!(d.settle(Token(2)), Err((Refusal::WrongScan, Token(2))));
        assert_eq!(d.settle(first), Ok(()));
        assert_eq!(d.settle(Token(1)), Err((Refusal::WrongScan, Token(1))));
        d.last_scan = 999_999;
        let last = d.solve().unwrap();
        assert_eq!(last, Token(1_000_000));
        d.settle(last).unwrap();
        assert_eq!(d.solve(), Ok(Token(1)));
    }

    #[test]
    fn refusals_of_calls() {
        let (mut d, h) = diagram(&[Kind::In, Kind::Lim, Kind::Lag]);
        assert_eq!(d.place(None, &[9; 3]), Err(Refusal::UnknownKind));
        assert_eq!(d.place(Some(Kind::Sum), &[0, 1, 0]), Err(Refusal::BadParameter(1)));
        assert_eq!(d.tune(h[2], &[0; 3]), Err(Refusal::BadParameter(0)));
        assert_eq!(d.feed(h[1], 3), Err(Refusal::TakesNoFeed));
        assert_eq!(d.wire(h[0], 0, h[1]), Err(Refusal::NoSuchPort));
        assert_eq!(d.wire(h[1], 0, h[1]), Err(Refusal::MakesRing));
        assert_eq!(d.wire(h[2], 0, h[2]), Ok(()));
        assert_eq!(d.wire(h[2], 0, h[2]), Err(Refusal::PortWired));
        assert_eq!(d.cut(h[1], 0), Err(Refusal::PortUnwired));
        assert_eq!(d.cut(h[1], 1), Err(Refusal::NoSuchPort));
    }

    #[test]
    fn a_full_diagram() {
        let (mut d, h) = diagram(&[Kind::In; 256]);
        assert_eq!(d.place(Some(Kind::Sum), &[1; 3]), Err(Refusal::BadParameter(0)));
        assert_eq!(d.place(Some(Kind::Sum), &[0; 3]), Err(Refusal::NoFreeSlot));
        d.remove(h[3]).unwrap();
        assert_eq!(d.place(Some(Kind::Sum), &[0; 3]), Ok(Handle(515)));
        assert_eq!(d.rank(Handle(515)), Ok(255));
        assert_eq!(d.rank(h[4]), Ok(3));
    }

    #[test]
    fn a_new_block_is_at_rest() {
        let (mut d, h) = diagram(&[Kind::In]);
        d.tune(h[0], &[7, 0, 0]).unwrap();
        d.feed(h[0], 8).unwrap();
        assert_eq!(d.show(h[0]), Ok(0));
        let token = d.solve().unwrap();
        d.settle(token).unwrap();
        assert_eq!(d.show(h[0]), Ok(8));
        d.remove(h[0]).unwrap();
        let again = d.place(Some(Kind::In), &[5, 0, 0]).unwrap();
        assert_eq!(d.show(again), Ok(0));
    }
}
