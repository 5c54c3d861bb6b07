//! The programs: a loop file on standard input, the answer on standard
//! output.

use std::io::{Read, Write};

use crate::family::Family;
use crate::grammar::LONGEST_FILE;
use crate::session::Run;

/// Runs the file on standard input. A read that fails ends the file, and
/// what cannot be written is left out: the exit status is always 0.
pub fn serve<F: Family>() {
    let mut file = Vec::new();
    let longest = LONGEST_FILE as u64 + 1;
    let _ = std::io::stdin().take(longest).read_to_end(&mut file);
    let _ = std::io::stdout().write_all(&Run::<F>::of(&file).output());
}
