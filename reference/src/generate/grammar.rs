//! Lines that do not fit, lines that only just do, and damaged files.

use super::drawings::sized_medley;
use super::{Maker, Palette};
use crate::grammar::lines;
use crate::random::Random;

/// Lines that do not fit.
pub const UNFIT: &[&[u8]] = &[
    b"block a in  5",
    b"block  a in",
    b"block a in ",
    b" block a in",
    b" ",
    b"  ",
    b"scan 1 ",
    b"block",
    b"block a",
    b"block a in 1 2 3 4",
    b"block a in x",
    b"block A in",
    b"block a In",
    b"block 1a in",
    b"block a 1n",
    b"block a_b in",
    b"block a-b in",
    b"block abcdefghijklm in",
    b"block a abcdefghijklm",
    b"block a in -0",
    b"block a in 00",
    b"block a in 01",
    b"block a in -01",
    b"block a in 12345678",
    b"block a in -12345678",
    b"block a in 10000000",
    b"block a in +5",
    b"block a in --5",
    b"block a in -",
    b"block a in 5-",
    b"block a in 1.5",
    b"block a in 0x1",
    b"block a in 1\r",
    b"block\ta\tin",
    b"block a\tin",
    b"block a in\t",
    b"block a in\0",
    b"block a\0 in",
    b"block a\xe4 in",
    b"block \xc3\xa4 in",
    b"block a in \xd9\xa3",
    b"Block a in",
    b"BLOCK a in",
    b"bloc a in",
    b"blocks a in",
    b"blocka in",
    b"wire",
    b"wire a",
    b"wire a 0",
    b"wire a 0 b c",
    b"wire a 3 b",
    b"wire a -1 b",
    b"wire a 00 b",
    b"wire a 10 b",
    b"wire a b 0",
    b"wire a  b",
    b"wire 0 0 b",
    b"cut a",
    b"cut a 3",
    b"cut a 0 0",
    b"cut a x",
    b"cut 0",
    b"drop",
    b"drop ",
    b"drop a b",
    b"drop 7",
    b"tune a",
    b"tune a 1",
    b"tune a 1 2",
    b"tune a 1 2 3 4",
    b"tune a 1 2 -0",
    b"feed a",
    b"feed a 1 2",
    b"feed a b",
    b"feed a 00",
    b"scan",
    b"scan 0",
    b"scan 1001",
    b"scan -1",
    b"scan 01",
    b"scan 9999999",
    b"scan 10000000",
    b"scan 1 1",
    b"scan a",
    b"show",
    b"show ",
    b"show a b",
    b"show  a",
    b"show a\r",
    b"show a # so",
    b" # so",
    b"\t# so",
    b"\r",
    b"\0",
    b"\xff",
    b"in",
    b"0",
    b"stop",
    b"end 1",
];

/// Lines that fit and change nothing that is shown.
pub const FIT: &[&[u8]] = &[
    b"",
    b"#",
    b"##",
    b"# ",
    b"# block  a in -0",
    b"#\t\r\0\x0b\x7f\x80\xff\xc3",
    b"#block a in",
    b"block zzzzzzzzzzzz in 0 0 0\ndrop zzzzzzzzzzzz",
    b"block z9 in 0\nfeed z9 -9999999\nfeed z9 9999999\ndrop z9",
    b"block z in\nblock zz in\ndrop z\ndrop zz",
];

/// A comment of so many bytes, of any value but the end of a line.
pub fn comment(length: usize, random: &mut Random) -> Vec<u8> {
    let mut comment = vec![b'#'];
    while comment.len() < length {
        let byte = random.below(256) as u8;
        comment.push(if byte == b'\n' { b'#' } else { byte });
    }
    comment
}

pub fn makers<F: Palette>() -> Vec<Maker> {
    let mut makers: Vec<Maker> = Vec::new();
    for &line in UNFIT {
        makers.push(Box::new(move |random| with_lines::<F>(&[line], random)));
    }
    for _ in 0..4 {
        makers.push(Box::new(|random| with_lines::<F>(FIT, random)));
    }
    for length in [80, 80, 81, 82] {
        makers.push(Box::new(move |random| {
            let line = comment(length, random);
            with_lines::<F>(&[&line], random)
        }));
    }
    for damage in [replace_byte, insert_byte, delete_byte, cut_off, join_lines] {
        for _ in 0..4 {
            makers.push(Box::new(move |random| damaged::<F>(damage, random)));
        }
    }
    for rearrange in [swap_lines, repeat_line, leave_out_line] {
        for _ in 0..4 {
            makers.push(Box::new(move |random| rearranged::<F>(rearrange, random)));
        }
    }
    for ending in [b"\n", b"\n\n\n", b"#", b"\n#", b"\n#\n", b" \n"] as [&[u8]; 6] {
        makers.push(Box::new(move |random| [&small::<F>(random), ending].concat()));
    }
    makers.push(Box::new(|random| without_last_end(small::<F>(random))));
    makers.push(Box::new(|_| b"\n".to_vec()));
    makers.push(Box::new(|_| b"\n\n\n#".to_vec()));
    makers.push(Box::new(|_| b" ".to_vec()));
    makers.push(Box::new(|_| b"\n\n ".to_vec()));
    makers.push(Box::new(|_| Vec::new()));
    makers
}

fn small<F: Palette>(random: &mut Random) -> Vec<u8> {
    let size = random.between(1, 8);
    sized_medley::<F>(size, random).into_text()
}

fn join(lines: &[Vec<u8>]) -> Vec<u8> {
    let ended = lines.iter().map(|line| [line.as_slice(), b"\n"].concat());
    ended.collect::<Vec<_>>().concat()
}

fn split(file: &[u8]) -> Vec<Vec<u8>> {
    lines(file).into_iter().map(<[u8]>::to_vec).collect()
}

fn without_last_end(mut file: Vec<u8>) -> Vec<u8> {
    file.pop();
    file
}

/// A small file with these lines among its own; sometimes without its last
/// end of line.
fn with_lines<F: Palette>(extra: &[&[u8]], random: &mut Random) -> Vec<u8> {
    let mut lines = split(&small::<F>(random));
    for line in extra {
        lines.insert(random.below(lines.len() + 1), line.to_vec());
    }
    let file = join(&lines);
    if random.chance(30) { without_last_end(file) } else { file }
}

type Damage = fn(Vec<u8>, usize, &mut Random) -> Vec<u8>;

fn damaged<F: Palette>(damage: Damage, random: &mut Random) -> Vec<u8> {
    let mut file = small::<F>(random);
    for _ in 0..random.between(1, 2) {
        if !file.is_empty() {
            let place = random.below(file.len());
            file = damage(file, place, random);
        }
    }
    file
}

/// A byte that is often one of the grammar's own.
fn any_byte(random: &mut Random) -> u8 {
    if random.chance(80) {
        *random.pick(b"abcxyz0123456789 -\n#\t\r")
    } else {
        random.below(256) as u8
    }
}

fn replace_byte(mut file: Vec<u8>, place: usize, random: &mut Random) -> Vec<u8> {
    file[place] = any_byte(random);
    file
}

fn insert_byte(mut file: Vec<u8>, place: usize, random: &mut Random) -> Vec<u8> {
    file.insert(place, any_byte(random));
    file
}

fn delete_byte(mut file: Vec<u8>, place: usize, _: &mut Random) -> Vec<u8> {
    file.remove(place);
    file
}

fn cut_off(mut file: Vec<u8>, place: usize, _: &mut Random) -> Vec<u8> {
    file.truncate(place);
    file
}

/// Puts a space in place of an end of line.
fn join_lines(mut file: Vec<u8>, place: usize, _: &mut Random) -> Vec<u8> {
    if let Some(end) = file[place..].iter().position(|&byte| byte == b'\n') {
        file[place + end] = b' ';
    }
    file
}

type Rearrangement = fn(Vec<Vec<u8>>, &mut Random) -> Vec<Vec<u8>>;

fn rearranged<F: Palette>(rearrange: Rearrangement, random: &mut Random) -> Vec<u8> {
    join(&rearrange(split(&small::<F>(random)), random))
}

fn swap_lines(mut lines: Vec<Vec<u8>>, random: &mut Random) -> Vec<Vec<u8>> {
    let (one, other) = (random.below(lines.len()), random.below(lines.len()));
    lines.swap(one, other);
    lines
}

fn repeat_line(mut lines: Vec<Vec<u8>>, random: &mut Random) -> Vec<Vec<u8>> {
    let line = random.pick(&lines).clone();
    lines.insert(random.below(lines.len() + 1), line);
    lines
}

fn leave_out_line(mut lines: Vec<Vec<u8>>, random: &mut Random) -> Vec<Vec<u8>> {
    lines.remove(random.below(lines.len()));
    lines
}

#[cfg(test)]
mod tests {
    use super::*;
    use crate::grammar::{check, read};
    use crate::refusal::Refusal;

    #[test]
    fn unfit_lines_do_not_fit() {
        for line in UNFIT {
            assert_eq!(read(line), None, "{}", line.escape_ascii());
            let file = [b"#\n", *line, b"\n"].concat();
            assert_eq!(check(&file), Err(Refusal::BadLine(2)), "{}", line.escape_ascii());
        }
    }

    #[test]
    fn fit_lines_fit() {
        for line in FIT {
            assert!(check(line).is_ok(), "{}", line.escape_ascii());
        }
    }
}
