//! Files whose run is refused at a line, by each command and refusal.

use super::draft::{Draft, LIMITS};
use super::drawings::{sized_medley, some_way};
use super::{Maker, Palette};
use crate::family::{Number, Parameters};
use crate::random::Random;

/// The refusals that the lines of a file can meet. A `show` cannot meet 17
/// in the programs: see `sizes`.
pub const REFUSED: [(&str, usize); 17] = [
    ("block", 7),
    ("block", 9),
    ("block", 10),
    ("block", 15),
    ("wire", 6),
    ("wire", 11),
    ("wire", 12),
    ("wire", 16),
    ("cut", 6),
    ("cut", 11),
    ("cut", 13),
    ("drop", 6),
    ("tune", 6),
    ("tune", 10),
    ("feed", 6),
    ("feed", 14),
    ("show", 6),
];

pub fn makers<F: Palette>() -> Vec<Maker> {
    let mut makers: Vec<Maker> = Vec::new();
    for (command, number) in REFUSED.into_iter().chain(REFUSED) {
        makers.push(Box::new(move |random| refused::<F>(command, number, random)));
    }
    for &(_, kind) in F::KINDS {
        for parameter in 0..3 {
            for below in [false, true] {
                makers.push(Box::new(move |random| {
                    let [bad, good] = just_outside::<F>(kind, parameter, below, random);
                    bad_parameter::<F>(kind, bad, good, random)
                }));
            }
        }
    }
    for &(_, kind) in F::KINDS {
        makers.push(Box::new(move |random| {
            let good @ [p, q, r] = F::parameters(kind, random);
            bad_parameter::<F>(kind, [q, p, r], good, random)
        }));
    }
    for _ in 0..8 {
        makers.push(Box::new(long_ring::<F>));
    }
    makers
}

/// A drawing, a line that meets the refusal, and lines after it.
fn refused<F: Palette>(command: &str, number: usize, random: &mut Random) -> Vec<u8> {
    let size = if number == 15 { 0 } else { random.between(2, 20) };
    let mut draft = sized_medley::<F>(size, random);
    draft.show_some(3, random);
    if number == 15 {
        fill(&mut draft, random);
    } else {
        stage(&mut draft, random);
    }
    let line = refused_line(&draft, command, number, random);
    draft.add_bytes(line.as_bytes());
    draft.scan(3, random);
    draft.show_some(3, random);
    draft.into_text()
}

/// Blocks among which every refusal can be met.
fn stage<F: Palette>(draft: &mut Draft<F>, random: &mut Random) {
    let source = draft.place(F::input(), random).unwrap_or_default();
    let mut end = source;
    for _ in 0..3 {
        let link = draft.place(F::link(random), random).unwrap_or_default();
        draft.wire(&link, 0, &end);
        end = link;
    }
    draft.place(F::join(random), random);
}

pub fn fill<F: Palette>(draft: &mut Draft<F>, random: &mut Random) {
    while draft.size() < 256 && draft.room() > 200 {
        draft.grow(1, random);
    }
}

/// Parameters of which one is just above or below what the kind accepts, and
/// ones that are good.
fn just_outside<F: Palette>(
    kind: F::Kind,
    parameter: usize,
    below: bool,
    random: &mut Random,
) -> [Parameters; 2] {
    let good = F::parameters(kind, random);
    let with = |n| {
        let mut parameters = good;
        parameters[parameter] = n;
        parameters
    };
    let edges = LIMITS.into_iter().chain([good[0] - 1, good[0] + 1]);
    let mut near: Vec<Number> = edges.flat_map(|n| [n, -n]).collect();
    near.sort_by_key(|n| n.abs());
    near.retain(|&n| F::bad_parameter(kind, &with(n)) == Some(parameter));
    let bad = near.iter().find(|&&n| (n < 0) == below).or(near.first());
    [with(bad.copied().unwrap_or_default()), good]
}

/// A block that is placed with bad parameters, or tuned to them.
fn bad_parameter<F: Palette>(
    kind: F::Kind,
    bad: Parameters,
    good: Parameters,
    random: &mut Random,
) -> Vec<u8> {
    let block = |[p, q, r]: Parameters| format!("block a {} {p} {q} {r}", F::word(kind));
    let mut draft = Draft::<F>::new();
    if random.chance(50) {
        draft.add_bytes(block(bad).as_bytes());
    } else {
        let [p, q, r] = bad;
        draft.add(&block(good));
        draft.add_bytes(format!("tune a {p} {q} {r}").as_bytes());
    }
    draft.into_text()
}

/// A long chain whose end goes back to its start; sometimes by a late port,
/// so that it is no ring.
fn long_ring<F: Palette>(random: &mut Random) -> Vec<u8> {
    let mut draft = Draft::<F>::new();
    let length = random.between(2, 150);
    let mut links = vec![String::new(); length];
    for place in some_way(length, random) {
        let kind = match place {
            0 => F::join(random),
            _ if random.chance(1) => F::store(random),
            _ => F::link(random),
        };
        links[place] = draft.place(kind, random).unwrap_or_default();
    }
    for place in some_way(length - 1, random) {
        draft.wire(&links[place + 1], 0, &links[place]);
    }
    draft.scan(2, random);
    draft.show_some(5, random);
    let back = if random.chance(50) { &links[length - 1] } else { random.pick(&links) };
    draft.add_bytes(format!("wire {} 1 {back}", links[0]).as_bytes());
    draft.scan(2, random);
    draft.show_some(5, random);
    draft.into_text()
}

fn refused_line<F: Palette>(
    draft: &Draft<F>,
    command: &str,
    number: usize,
    random: &mut Random,
) -> String {
    let guesses = (0..1000).map(|_| draft.guess(command, 60, random));
    let found = guesses.into_iter().find(|line| draft.outcome(line) == number);
    found.unwrap_or_else(|| format!("{command} unknown"))
}
