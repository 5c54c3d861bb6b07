//! Makes a differing file smaller.

use std::io;

/// Takes lines out, many at a time and then fewer, while the file differs.
pub fn shrunk(
    file: &[u8],
    mut differs: impl FnMut(&[u8]) -> io::Result<bool>,
) -> io::Result<Vec<u8>> {
    let mut lines: Vec<&[u8]> = file.split_inclusive(|&byte| byte == b'\n').collect();
    let mut size = lines.len().div_ceil(2).max(1);
    loop {
        let before = lines.len();
        let mut place = 0;
        while place < lines.len() {
            let end = (place + size).min(lines.len());
            let rest = [&lines[..place], &lines[end..]].concat();
            if differs(&rest.concat())? {
                lines = rest;
            } else {
                place = end;
            }
        }
        if size > 1 {
            size = size.div_ceil(2);
        } else if lines.len() == before {
            return Ok(lines.concat());
        }
    }
}

#[cfg(test)]
mod tests {
    use super::*;

    fn has(file: &[u8], line: &str) -> bool {
        file.split(|&byte| byte == b'\n').any(|l| l == line.as_bytes())
    }

    #[test]
    fn only_the_lines_that_matter_stay() {
        let file: String = (0..100).map(|n| format!("{n}\n")).collect();
        let small = shrunk(file.as_bytes(), |f| Ok(has(f, "17") && has(f, "93"))).unwrap();
        assert_eq!(small, b"17\n93\n");
        assert_eq!(shrunk(b"a\nb", |_| Ok(true)).unwrap(), b"");
        assert_eq!(shrunk(b"", |_| Ok(true)).unwrap(), b"");
    }
}
