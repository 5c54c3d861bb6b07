//! Loop files made from a seed.

mod draft;
mod drawings;
mod endings;
mod grammar;
mod palette;
mod sizes;

pub use endings::REFUSED;
pub use palette::Palette;

use crate::random::Random;

/// Makes one file.
type Maker = Box<dyn Fn(&mut Random) -> Vec<u8>>;

/// How often the drawings come in a round of makers.
const DRAWING_TURNS: usize = 20;

/// One maker for every sort of file, drawings more often.
pub struct Workshop {
    makers: Vec<Maker>,
    seed: u64,
}

impl Workshop {
    /// `salt` keeps the files of two programs apart.
    pub fn new<F: Palette>(seed: u64, salt: u64) -> Workshop {
        let mut makers: Vec<Maker> = Vec::new();
        for _ in 0..DRAWING_TURNS {
            for draw in drawings::all::<F>() {
                makers.push(Box::new(move |random| draw(random).into_text()));
            }
        }
        makers.extend(endings::makers::<F>());
        makers.extend(grammar::makers::<F>());
        makers.extend(sizes::makers::<F>());
        Workshop { makers, seed: Random::new(seed ^ salt).bits() }
    }

    /// How many files have every sort among them.
    pub fn round(&self) -> usize {
        self.makers.len()
    }

    /// The file of a number: it depends on the seed and the number alone.
    pub fn file(&self, number: usize) -> Vec<u8> {
        let mut random = Random::new(self.seed.wrapping_add(number as u64).rotate_left(32));
        random.bits();
        // A step that shares no factor with the round mixes the sorts.
        let place = number.wrapping_mul(7919) % self.makers.len();
        self.makers[place](&mut random)
    }
}

#[cfg(test)]
mod tests {
    use super::*;
    use crate::loops::Loops;

    #[test]
    fn files_depend_on_seed_and_number_alone() {
        let [one, same, other] = [7, 7, 8].map(|seed| Workshop::new::<Loops>(seed, 1));
        let file = one.file(5);
        let _ = same.file(4);
        assert_eq!(file, same.file(5));
        assert_ne!(file, other.file(5));
    }
}
