//! Drawings that a run accepts to the end.

use super::Palette;
use super::draft::Draft;
use super::palette::any_number;
use crate::random::Random;

pub type Drawing<F> = fn(&mut Random) -> Draft<F>;

pub fn all<F: Palette>() -> [Drawing<F>; 8] {
    [medley, medley, chain, fan, rounds, churn, ends_of_ranges, long_runs]
}

/// A number of blocks: mostly few, sometimes all that there can be.
fn some_size(random: &mut Random) -> usize {
    match random.below(10) {
        0 => 256,
        1 | 2 => random.between(60, 255),
        3..=5 => random.between(15, 60),
        _ => random.between(1, 15),
    }
}

/// A drawing at random with edits between scans.
pub fn medley<F: Palette>(random: &mut Random) -> Draft<F> {
    let size = some_size(random);
    sized_medley(size, random)
}

pub fn sized_medley<F: Palette>(size: usize, random: &mut Random) -> Draft<F> {
    let mut draft = Draft::new();
    draft.grow(size, random);
    draft.wire_some(3 * size, random);
    for _ in 0..random.between(1, 6) {
        for _ in 0..random.below(12) {
            draft.edit(random);
        }
        draft.feed_some(7, random);
        show_unscanned(&mut draft, random);
        draft.scan(6, random);
        draft.show_some(size.min(12), random);
    }
    draft
}

/// Shows what edits alone change: the signals of new blocks, which are at
/// rest, and no others.
fn show_unscanned<F: Palette>(draft: &mut Draft<F>, random: &mut Random) {
    if random.chance(50) {
        draft.show_some(4, random);
    }
}

fn shuffle<T>(items: &mut [T], random: &mut Random) {
    for last in (1..items.len()).rev() {
        items.swap(last, random.below(last + 1));
    }
}

/// A way through `count` things: forward, backward or mixed.
pub fn some_way(count: usize, random: &mut Random) -> Vec<usize> {
    let mut way: Vec<usize> = (0..count).collect();
    match random.below(3) {
        0 => {}
        1 => way.reverse(),
        _ => shuffle(&mut way, random),
    }
    way
}

/// A long chain, placed and wired forward, backward or mixed.
fn chain<F: Palette>(random: &mut Random) -> Draft<F> {
    let mut draft = Draft::new();
    let length = if random.chance(30) { 256 } else { random.between(2, 120) };
    let mut links = vec![String::new(); length];
    for place in some_way(length, random) {
        let kind = match (place, random.chance(15)) {
            (0, _) => F::input(),
            (_, true) => F::any_kind(random),
            (_, false) => F::link(random),
        };
        links[place] = draft.place(kind, random).unwrap_or_default();
    }
    for place in some_way(length - 1, random) {
        draft.wire(&links[place + 1], 0, &links[place]);
    }
    for _ in 0..random.between(1, 4) {
        draft.add(&format!("feed {} {}", links[0], any_number(random)));
        draft.scan(3, random);
        draft.add(&format!("show {}", links[length - 1]));
        draft.show_some(10, random);
        move_a_link(&mut draft, &links, random);
    }
    draft
}

/// Takes a link out of its place and wires it elsewhere.
fn move_a_link<F: Palette>(draft: &mut Draft<F>, links: &[String], random: &mut Random) {
    let link = random.pick(links);
    draft.add(&format!("cut {link} 0"));
    let source = random.pick(links);
    draft.wire(link, 0, source);
}

/// One source for many blocks, which are joined again two by two.
fn fan<F: Palette>(random: &mut Random) -> Draft<F> {
    let mut draft = Draft::new();
    let source = draft.place(F::input(), random).unwrap_or_default();
    let mut open = Vec::new();
    for _ in 0..random.between(2, 100) {
        let kind = if random.chance(70) { F::link(random) } else { F::store(random) };
        if let Some(ray) = draft.place(kind, random) {
            draft.wire(&ray, 0, &source);
            open.push(ray);
        }
    }
    while open.len() > 1 {
        let Some(join) = draft.place(F::join(random), random) else { break };
        for port in 0..2 {
            if let Some(ray) = open.pop() {
                draft.wire(&join, port, &ray);
            }
        }
        open.insert(random.below(open.len() + 1), join);
    }
    for _ in 0..random.between(1, 5) {
        draft.add(&format!("feed {source} {}", any_number(random)));
        draft.scan(5, random);
        draft.show_some(10, random);
        for end in &open {
            draft.add(&format!("show {end}"));
        }
    }
    draft
}

/// Loops that go round by way of late ports.
fn rounds<F: Palette>(random: &mut Random) -> Draft<F> {
    let mut draft = Draft::new();
    for _ in 0..random.between(1, 8) {
        let source = draft.place(F::input(), random).unwrap_or_default();
        let join = draft.place(F::join(random), random).unwrap_or_default();
        draft.wire(&join, 0, &source);
        let mut end = join.clone();
        for _ in 0..random.below(6) {
            let kind = if random.chance(60) { F::link(random) } else { F::store(random) };
            let link = draft.place(kind, random).unwrap_or_default();
            draft.wire(&link, 0, &end);
            end = link;
        }
        // Into the join's late port if it has one, else by a store.
        draft.wire(&join, 2, &end);
        let store = draft.place(F::store(random), random).unwrap_or_default();
        let back = if random.chance(10) { &store } else { &end };
        draft.wire(&store, 0, back);
        draft.wire(&join, 1, &store);
    }
    for _ in 0..random.between(1, 8) {
        draft.feed_some(7, random);
        draft.scan(20, random);
        draft.show_some(12, random);
    }
    draft
}

/// Blocks that come and go at the same slots, under old and new names.
fn churn<F: Palette>(random: &mut Random) -> Draft<F> {
    let mut draft = Draft::new();
    draft.grow(random.between(3, 30), random);
    for _ in 0..random.between(5, 40) {
        for _ in 0..random.between(1, 5) {
            let name = draft.old_name(random);
            draft.add(&format!("drop {name}"));
        }
        draft.grow(random.between(1, 5), random);
        draft.wire_some(10, random);
        draft.feed_some(7, random);
        show_unscanned(&mut draft, random);
        draft.scan(3, random);
        draft.show_some(6, random);
    }
    draft
}

/// Every kind at random parameters, every port fed at random, many times.
fn ends_of_ranges<F: Palette>(random: &mut Random) -> Draft<F> {
    let mut draft = Draft::new();
    let inputs: Vec<String> = (0..4).filter_map(|_| draft.place(F::input(), random)).collect();
    let mut tried = Vec::new();
    for &(_, kind) in F::KINDS {
        let Some(name) = draft.place(kind, random) else { continue };
        for port in 0..F::ports(kind).len() {
            let source = random.pick(&inputs);
            draft.wire(&name, port, source);
        }
        tried.push(name);
    }
    for _ in 0..random.between(5, 25) {
        for input in &inputs {
            if random.chance(60) {
                draft.add(&format!("feed {input} {}", any_number(random)));
            }
        }
        draft.tune_some(3, random);
        draft.scan(3, random);
        for name in &tried {
            draft.add(&format!("show {name}"));
        }
    }
    draft
}

/// A small drawing and some thousands of scans.
fn long_runs<F: Palette>(random: &mut Random) -> Draft<F> {
    let mut draft = if random.chance(50) {
        rounds(random)
    } else {
        sized_medley(random.between(5, 30), random)
    };
    for _ in 0..random.between(1, 5) {
        draft.feed_some(7, random);
        let count = *random.pick(&[1000, 1000, 999, 500, 77]);
        draft.add(&format!("scan {count}"));
        draft.show_some(10, random);
    }
    draft
}
