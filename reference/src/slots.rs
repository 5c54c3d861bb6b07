//! Slots and the handles of the blocks that stand at them.

use crate::SLOTS;

const LAST_GENERATION: u32 = 65_535;

/// Generation × 256 + slot.
#[derive(Clone, Copy, PartialEq, Eq, Debug)]
pub struct Handle(pub u32);

impl Handle {
    fn new(generation: u32, slot: usize) -> Handle {
        Handle(generation * 256 + slot as u32)
    }

    pub fn slot(self) -> usize {
        (self.0 % 256) as usize
    }

    pub fn generation(self) -> u32 {
        self.0 / 256
    }
}

#[derive(Clone, Debug)]
struct Slot {
    generation: u32,
    filled: bool,
}

/// The slots that were ever used, and those of them that are empty and not
/// worn out, the one freed last at the end.
#[derive(Clone, Debug, Default)]
pub struct Slots {
    used: Vec<Slot>,
    freed: Vec<usize>,
}

impl Slots {
    /// The handle that the next block gets.
    pub fn vacant(&self) -> Option<Handle> {
        if let Some(&slot) = self.freed.last() {
            return Some(Handle::new(self.used[slot].generation, slot));
        }
        (self.used.len() < SLOTS).then(|| Handle::new(1, self.used.len()))
    }

    /// Fills the vacant slot.
    pub fn fill(&mut self) -> Option<Handle> {
        let handle = self.vacant()?;
        match self.freed.pop() {
            Some(slot) => self.used[slot].filled = true,
            None => self.used.push(Slot { generation: 1, filled: true }),
        }
        Some(handle)
    }

    /// How many slots were ever used.
    pub fn used(&self) -> usize {
        self.used.len()
    }

    /// The slot of the placed block that the handle names.
    pub fn find(&self, handle: Handle) -> Option<usize> {
        let slot = self.used.get(handle.slot())?;
        (slot.filled && slot.generation == handle.generation()).then(|| handle.slot())
    }

    /// Empties a filled slot.
    pub fn empty(&mut self, slot: usize) {
        let emptied = &mut self.used[slot];
        emptied.filled = false;
        let worn_out = emptied.generation == LAST_GENERATION;
        emptied.generation += 1;
        if !worn_out {
            self.freed.push(slot);
        }
    }
}

#[cfg(test)]
mod tests {
    use super::*;

    #[test]
    fn first_handles() {
        let mut slots = Slots::default();
        assert_eq!(slots.fill(), Some(Handle(256)));
        slots.empty(0);
        assert_eq!(slots.find(Handle(256)), None);
        assert_eq!(slots.fill(), Some(Handle(512)));
        assert_eq!(slots.find(Handle(256)), None);
        assert_eq!(slots.find(Handle(512)), Some(0));
        assert_eq!(slots.find(Handle(257)), None);
    }

    #[test]
    fn freed_last_is_used_first() {
        let mut slots = Slots::default();
        for n in 0..5 {
            assert_eq!(slots.fill(), Some(Handle(256 + n)));
        }
        for slot in [3, 0, 4] {
            slots.empty(slot);
        }
        let next: Vec<_> = (0..4).map(|_| slots.fill().unwrap().slot()).collect();
        assert_eq!(next, [4, 0, 3, 5]);
    }

    #[test]
    fn there_are_256() {
        let mut slots = Slots::default();
        for _ in 0..256 {
            slots.fill().unwrap();
        }
        assert_eq!(slots.fill(), None);
        slots.empty(7);
        assert_eq!(slots.fill(), Some(Handle(519)));
        assert_eq!(slots.fill(), None);
    }

    #[test]
    fn a_slot_wears_out() {
        let mut slots = Slots::default();
        slots.fill();
        slots.fill();
        slots.empty(1);
        for generation in 1..=65_535 {
            assert_eq!(slots.find(Handle::new(generation, 0)), Some(0));
            slots.empty(0);
            slots.fill();
        }
        // Slot 0 is worn out, so the last fill took slot 1, freed long before.
        assert_eq!(slots.find(Handle::new(2, 1)), Some(1));
        assert_eq!(slots.find(Handle::new(65_536, 0)), None);
        assert_eq!(slots.fill(), Some(Handle::new(1, 2)));
    }
}
