//! Tries a program on generated files against the reference.

mod child;
mod coverage;
mod options;
mod shrink;

pub use child::{Answer, answer};
pub use coverage::Coverage;
pub use options::Options;
pub use shrink::shrunk;

use std::fs;
use std::io;
use std::path::Path;

use crate::generate::{Palette, Workshop};
use crate::session::Run;

/// So many differing files are made smaller; the others are only kept.
const MOST_SHRUNK: usize = 10;

/// What became of a program's files.
#[derive(Debug)]
pub struct Tally {
    pub coverage: Coverage,
    pub files: usize,
    pub differ: usize,
}

/// Tries the program at `path` on its files.
pub fn try_program<F: Palette>(options: &Options, path: &Path) -> io::Result<Tally> {
    let workshop = Workshop::new::<F>(options.seed, F::KINDS.len() as u64);
    let mut tally = Tally { coverage: Coverage::new::<F>(), files: 0, differ: 0 };
    for number in 0..options.count {
        let file = workshop.file(number);
        let run = Run::<F>::of(&file);
        tally.coverage.note(&file, &run);
        tally.files += 1;
        let given = answer(path, &file)?;
        if !given.is(&run.output()) {
            tally.differ += 1;
            let stem = format!("{}-{}-{number}", F::PROGRAM, options.seed);
            keep::<F>(options, path, &stem, &file, tally.differ <= MOST_SHRUNK)?;
        }
    }
    if options.count < workshop.round() {
        println!("{}: every sort of file needs a count of {}", F::PROGRAM, workshop.round());
    }
    Ok(tally)
}

/// Whether the program answers the file in another way.
fn differs<F: Palette>(path: &Path, file: &[u8]) -> io::Result<bool> {
    Ok(!answer(path, file)?.is(&Run::<F>::of(file).output()))
}

/// Writes a differing file, and the least part of it that differs too.
fn keep<F: Palette>(
    options: &Options,
    path: &Path,
    stem: &str,
    file: &[u8],
    shrink: bool,
) -> io::Result<()> {
    fs::create_dir_all(&options.keep)?;
    let whole = options.keep.join(format!("{stem}.loop"));
    fs::write(&whole, file)?;
    println!("differs: {}", whole.display());
    if shrink {
        let part = shrunk(file, |part| differs::<F>(path, part))?;
        let small = options.keep.join(format!("{stem}-small.loop"));
        fs::write(&small, &part)?;
        println!("  smaller: {}", small.display());
        println!("  expected: {}", Run::<F>::of(&part).output().escape_ascii());
        println!("  given:    {}", answer(path, &part)?);
    }
    Ok(())
}
