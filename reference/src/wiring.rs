//! Wires between blocks, and the order in which a scan goes.

use crate::SLOTS;
use crate::family::Port;

/// Why an edit of a wiring is refused.
#[derive(Clone, Copy, PartialEq, Eq, Debug)]
pub enum Fault {
    Occupied,
    TooManyPorts,
    NoBlock,
    NoSuchPort,
    PortWired,
    PortUnwired,
    MakesRing,
}

/// A placed block as the wiring sees it.
#[derive(Clone, PartialEq, Eq, Debug)]
struct Node {
    ports: &'static [Port],
    /// The slot that each port is wired from.
    sources: Vec<Option<usize>>,
}

impl Node {
    fn source(&self, port: usize) -> Result<Option<usize>, Fault> {
        self.sources.get(port).copied().ok_or(Fault::NoSuchPort)
    }

    fn wires(&self, sort: Port) -> impl Iterator<Item = (usize, usize)> {
        let pairs = self.ports.iter().zip(&self.sources).enumerate();
        pairs.filter_map(
            move |(port, (&s, &source))| {
                if s == sort { source.map(|source| (port, source)) } else { None }
            },
        )
    }
}

#[derive(Clone, PartialEq, Eq, Debug)]
pub struct Wiring {
    nodes: Vec<Option<Node>>,
    /// The slots of the placed blocks by rank.
    order: Vec<usize>,
}

impl Default for Wiring {
    fn default() -> Wiring {
        Wiring { nodes: vec![None; SLOTS], order: Vec::new() }
    }
}

impl Wiring {
    /// The slots of the placed blocks by rank.
    pub fn order(&self) -> &[usize] {
        &self.order
    }

    pub fn rank(&self, slot: usize) -> Option<usize> {
        self.order.iter().position(|&s| s == slot)
    }

    /// Port and source of every direct wire into the block.
    pub fn direct_wires(&self, slot: usize) -> impl Iterator<Item = (usize, usize)> {
        self.nodes[slot].iter().flat_map(|node| node.wires(Port::Direct))
    }

    /// Port and source of every late wire into the block.
    pub fn late_wires(&self, slot: usize) -> impl Iterator<Item = (usize, usize)> {
        self.nodes[slot].iter().flat_map(|node| node.wires(Port::Late))
    }

    /// Places a block at the highest rank.
    pub fn place(&mut self, slot: usize, ports: &'static [Port]) -> Result<(), Fault> {
        if self.nodes[slot].is_some() {
            return Err(Fault::Occupied);
        }
        if ports.len() > 3 {
            return Err(Fault::TooManyPorts);
        }
        self.nodes[slot] = Some(Node { ports, sources: vec![None; ports.len()] });
        self.order.push(slot);
        Ok(())
    }

    /// Removes a block and all wires to it and from it.
    pub fn remove(&mut self, slot: usize) -> Result<(), Fault> {
        self.node(slot)?;
        self.nodes[slot] = None;
        self.order.retain(|&s| s != slot);
        for node in self.nodes.iter_mut().flatten() {
            for source in &mut node.sources {
                if *source == Some(slot) {
                    *source = None;
                }
            }
        }
        Ok(())
    }

    pub fn cut(&mut self, target: usize, port: usize) -> Result<(), Fault> {
        let node = self.node_mut(target)?;
        node.source(port)?.ok_or(Fault::PortUnwired)?;
        node.sources[port] = None;
        Ok(())
    }

    /// Wires a port; answers whether ranks were dealt out again.
    pub fn wire(&mut self, target: usize, port: usize, source: usize) -> Result<bool, Fault> {
        let node = self.node(target)?;
        self.node(source)?;
        if node.source(port)?.is_some() {
            return Err(Fault::PortWired);
        }
        let direct = node.ports[port] == Port::Direct;
        if direct && self.reaches(target, source) {
            return Err(Fault::MakesRing);
        }
        let dealt = direct && self.deal_again(target, source);
        self.node_mut(target)?.sources[port] = Some(source);
        Ok(dealt)
    }

    fn node(&self, slot: usize) -> Result<&Node, Fault> {
        self.nodes.get(slot).and_then(Option::as_ref).ok_or(Fault::NoBlock)
    }

    fn node_mut(&mut self, slot: usize) -> Result<&mut Node, Fault> {
        self.nodes.get_mut(slot).and_then(Option::as_mut).ok_or(Fault::NoBlock)
    }

    /// For every slot, the slots to which it has direct wires.
    fn followers(&self) -> Vec<Vec<usize>> {
        let mut followers = vec![Vec::new(); SLOTS];
        for &target in &self.order {
            for (_, source) in self.direct_wires(target) {
                followers[source].push(target);
            }
        }
        followers
    }

    /// Whether direct wires lead from one block to another or the same one.
    fn reaches(&self, from: usize, to: usize) -> bool {
        self.reached(from, |_| true)[to]
    }

    /// The blocks, itself among them, that direct wires reach from a block
    /// by way of blocks that are `allowed`.
    fn reached(&self, from: usize, allowed: impl Fn(usize) -> bool) -> Vec<bool> {
        let followers = self.followers();
        let mut seen = vec![false; SLOTS];
        seen[from] = true;
        let mut open = vec![from];
        while let Some(block) = open.pop() {
            for &next in &followers[block] {
                if allowed(next) && !seen[next] {
                    seen[next] = true;
                    open.push(next);
                }
            }
        }
        seen
    }

    /// Deals out the ranks from the target's to the source's again, first to
    /// the blocks that are not ahead, then to those ahead.
    fn deal_again(&mut self, target: usize, source: usize) -> bool {
        let (Some(low), Some(high)) = (self.rank(target), self.rank(source)) else {
            return false;
        };
        if high < low {
            return false;
        }
        let within = &self.order[..=high];
        let ahead = self.reached(target, |block| within.contains(&block));
        let between = self.order[low..=high].iter().copied();
        let (last, first): (Vec<_>, Vec<_>) = between.partition(|&block| ahead[block]);
        self.order.splice(low..=high, first.into_iter().chain(last));
        true
    }
}

#[cfg(test)]
mod tests {
    use super::*;
    use crate::random::Random;

    const DIRECT: &[Port] = &[Port::Direct; 3];
    const A: usize = 0;
    const B: usize = 1;
    const C: usize = 2;
    const D: usize = 3;
    const E: usize = 4;

    fn five() -> Wiring {
        let mut wiring = Wiring::default();
        for slot in 0..5 {
            wiring.place(slot, DIRECT).unwrap();
        }
        wiring
    }

    #[test]
    fn order_of_the_example() {
        let mut wiring = five();
        assert_eq!(wiring.wire(C, 0, A), Ok(false));
        assert_eq!(wiring.order(), [A, B, C, D, E]);
        assert_eq!(wiring.wire(B, 0, D), Ok(true));
        assert_eq!(wiring.order(), [A, C, D, B, E]);
        let before = wiring.clone();
        assert_eq!(wiring.wire(D, 0, B), Err(Fault::MakesRing));
        assert_eq!(wiring, before);
        assert_eq!(wiring.wire(A, 0, E), Ok(true));
        assert_eq!(wiring.order(), [D, B, E, A, C]);
    }

    #[test]
    fn faults_in_their_order() {
        let mut wiring = five();
        assert_eq!(wiring.place(A, &[]), Err(Fault::Occupied));
        assert_eq!(wiring.place(9, &[Port::Late; 4]), Err(Fault::TooManyPorts));
        assert_eq!(wiring.remove(9), Err(Fault::NoBlock));
        assert_eq!(wiring.cut(9, 7), Err(Fault::NoBlock));
        assert_eq!(wiring.cut(A, 3), Err(Fault::NoSuchPort));
        assert_eq!(wiring.cut(A, 0), Err(Fault::PortUnwired));
        assert_eq!(wiring.wire(A, 3, 9), Err(Fault::NoBlock));
        assert_eq!(wiring.wire(9, 0, A), Err(Fault::NoBlock));
        assert_eq!(wiring.wire(A, 3, A), Err(Fault::NoSuchPort));
        assert_eq!(wiring.wire(A, 0, A), Err(Fault::MakesRing));
        wiring.wire(A, 0, B).unwrap();
        assert_eq!(wiring.wire(A, 0, A), Err(Fault::PortWired));
    }

    #[test]
    fn removal_takes_wires_and_closes_ranks() {
        let mut wiring = five();
        wiring.wire(C, 0, B).unwrap();
        wiring.wire(D, 1, C).unwrap();
        wiring.remove(C).unwrap();
        assert_eq!(wiring.order(), [A, B, D, E]);
        assert_eq!(wiring.cut(D, 1), Err(Fault::PortUnwired));
        wiring.place(C, DIRECT).unwrap();
        assert_eq!(wiring.rank(C), Some(4));
        assert_eq!(wiring.cut(C, 0), Err(Fault::PortUnwired));
    }

    #[test]
    fn late_wires_go_round() {
        let mut wiring = Wiring::default();
        wiring.place(A, &[Port::Late]).unwrap();
        wiring.place(B, &[Port::Direct]).unwrap();
        assert_eq!(wiring.wire(A, 0, A), Ok(false));
        wiring.cut(A, 0).unwrap();
        assert_eq!(wiring.wire(B, 0, A), Ok(false));
        assert_eq!(wiring.wire(A, 0, B), Ok(false));
        assert_eq!(wiring.order(), [A, B]);
    }

    #[test]
    fn direct_wires_go_up() {
        let mut random = Random::new(3);
        for _ in 0..20 {
            let mut wiring = Wiring::default();
            for slot in 0..40 {
                wiring.place(slot, DIRECT).unwrap();
            }
            for _ in 0..200 {
                let [target, source] = [random.below(40), random.below(40)];
                let _ = wiring.wire(target, random.below(3), source);
                for &block in wiring.order() {
                    for (_, source) in wiring.direct_wires(block) {
                        assert!(wiring.rank(source) < wiring.rank(block));
                    }
                }
            }
        }
    }
}
