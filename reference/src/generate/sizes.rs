//! Files at the limits: of their size, of blocks, of the reply.
//!
//! A reply cannot fill the 32,768 bytes of the programs: a `show` of a name
//! of n bytes takes n + 6 bytes of the file and adds at most n + 10 to the
//! reply, so that 16,384 bytes of file give less than 16,384 × 11 ÷ 7, which
//! is 25,747. So refusal 17 cannot come from a file; `longest_reply` goes as
//! far as a file can.

use super::draft::Draft;
use super::drawings::{medley, sized_medley};
use super::endings::fill;
use super::grammar::comment;
use super::{Maker, Palette};
use crate::grammar::LONGEST_FILE;
use crate::random::Random;

pub fn makers<F: Palette>() -> Vec<Maker> {
    let mut makers: Vec<Maker> = Vec::new();
    for size in [0, 1, 2, 16, 1000, 60_000] {
        makers.push(Box::new(move |random| long_file::<F>(LONGEST_FILE + size, random)));
    }
    for size in [0, 0, 1] {
        makers.push(Box::new(move |random| file_of_shows::<F>(LONGEST_FILE - size, random)));
    }
    for unfit in [b"show ", b"scan 0", b"-"] as [&[u8]; 3] {
        makers.push(Box::new(move |random| long_unfit_file::<F>(LONGEST_FILE, unfit, random)));
        makers.push(Box::new(move |random| long_unfit_file::<F>(LONGEST_FILE + 1, unfit, random)));
    }
    for extra in ["", "in", "in 2000000", "none", "in 0 0 1"] {
        makers.push(Box::new(move |random| full_diagram::<F>(extra, random)));
    }
    makers.push(Box::new(freed_and_filled::<F>));
    makers.push(Box::new(longest_reply::<F>));
    makers
}

/// Fills a file to a size with comments and empty lines.
fn pad(file: &mut Vec<u8>, size: usize, random: &mut Random) {
    while file.len() < size {
        let length = (size - file.len()).min(random.between(1, 81));
        if length > 1 {
            file.extend(comment(length - 1, random));
        }
        file.push(b'\n');
    }
}

fn long_file<F: Palette>(size: usize, random: &mut Random) -> Vec<u8> {
    let mut file = medley::<F>(random).into_text();
    if file.len() < size && random.chance(50) {
        // A last line that has no end.
        pad(&mut file, size - 1, random);
        file.push(b'#');
    }
    pad(&mut file, size, random);
    file
}

/// As many shows as fit, then comments up to the size.
fn file_of_shows<F: Palette>(size: usize, random: &mut Random) -> Vec<u8> {
    let count = random.between(20, 60);
    let mut draft = sized_medley::<F>(count, random);
    while draft.room() > 100 {
        if random.chance(2) {
            draft.scan(2, random);
        }
        draft.show_some(1, random);
    }
    let mut file = draft.into_text();
    pad(&mut file, size, random);
    file
}

/// A file of the size that ends in a line that does not fit.
fn long_unfit_file<F: Palette>(size: usize, unfit: &[u8], random: &mut Random) -> Vec<u8> {
    let blocks = random.between(1, 20);
    let mut file = sized_medley::<F>(blocks, random).into_text();
    pad(&mut file, size - unfit.len(), random);
    file.extend(unfit);
    file
}

/// All 256 blocks and perhaps one more.
fn full_diagram<F: Palette>(extra: &str, random: &mut Random) -> Vec<u8> {
    let mut draft = Draft::<F>::new();
    fill(&mut draft, random);
    draft.wire_some(150, random);
    draft.scan(3, random);
    draft.show_some(100, random);
    if !extra.is_empty() {
        let line = format!("block {} {extra}", draft.new_name(random));
        draft.add_bytes(line.as_bytes());
        draft.show_some(3, random);
    }
    draft.into_text()
}

/// All 256 blocks, of which some go and others come in their place.
fn freed_and_filled<F: Palette>(random: &mut Random) -> Vec<u8> {
    let mut draft = Draft::<F>::new();
    fill(&mut draft, random);
    for _ in 0..random.between(1, 60) {
        let name = draft.old_name(random);
        draft.add(&format!("drop {name}"));
    }
    fill(&mut draft, random);
    draft.wire_some(60, random);
    draft.scan(3, random);
    draft.show_some(20, random);
    let line = format!("block {} in", draft.new_name(random));
    draft.add_bytes(line.as_bytes());
    draft.into_text()
}

/// As long a reply as a file can have.
fn longest_reply<F: Palette>(random: &mut Random) -> Vec<u8> {
    let mut draft = Draft::<F>::new();
    let least = ["-1000000", "0"].into_iter().find(|n| draft.add(&format!("block a in {n}")));
    debug_assert!(least.is_some());
    draft.scan(1, random);
    while draft.add("show a") {}
    draft.into_text()
}

#[cfg(test)]
mod tests {
    use super::*;
    use crate::loops::Loops;
    use crate::session::{Ending, REPLY_ROOM, Run};

    #[test]
    fn no_reply_is_too_long() {
        let run = Run::<Loops>::of(&longest_reply::<Loops>(&mut Random::new(1)));
        assert!(matches!(run.ending, Ending::End { .. }));
        assert_eq!(run.session.reply().len(), 25_696);
        const { assert!(LONGEST_FILE * 11 / 7 < REPLY_ROOM) };
    }

    #[test]
    fn files_have_their_sizes() {
        let mut random = Random::new(5);
        for size in [LONGEST_FILE, LONGEST_FILE + 1] {
            for _ in 0..20 {
                assert_eq!(long_file::<Loops>(size, &mut random).len(), size);
                let unfit = long_unfit_file::<Loops>(size, b"show ", &mut random);
                assert_eq!(unfit.len(), size);
            }
        }
    }
}
