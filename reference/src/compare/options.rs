//! The arguments of `compare`.

use std::path::PathBuf;

pub const USAGE: &str = "usage: compare --seed S --count N --loops PATH --locks PATH [--keep DIR]";

#[derive(Clone, PartialEq, Eq, Debug)]
pub struct Options {
    pub seed: u64,
    /// Files for each program.
    pub count: usize,
    pub loops: PathBuf,
    pub locks: PathBuf,
    /// Where differing files go.
    pub keep: PathBuf,
}

impl Options {
    pub fn parse(mut arguments: impl Iterator<Item = String>) -> Result<Options, String> {
        let (mut seed, mut count, mut loops, mut locks) = (None, None, None, None);
        let mut keep = PathBuf::from("compare-failures");
        while let Some(name) = arguments.next() {
            let value = arguments.next().ok_or(USAGE)?;
            match name.as_str() {
                "--seed" => seed = Some(value.parse().map_err(|_| USAGE)?),
                "--count" => count = Some(value.parse().map_err(|_| USAGE)?),
                "--loops" => loops = Some(PathBuf::from(value)),
                "--locks" => locks = Some(PathBuf::from(value)),
                "--keep" => keep = PathBuf::from(value),
                _ => return Err(USAGE.to_string()),
            }
        }
        Ok(Options {
            seed: seed.ok_or(USAGE)?,
            count: count.ok_or(USAGE)?,
            loops: loops.ok_or(USAGE)?,
            locks: locks.ok_or(USAGE)?,
            keep,
        })
    }
}

#[cfg(test)]
mod tests {
    use super::*;

    fn parse(text: &str) -> Result<Options, String> {
        Options::parse(text.split(' ').map(String::from))
    }

    #[test]
    fn arguments() {
        let options = parse("--seed 7 --count 20 --loops a/b --locks c").unwrap();
        assert_eq!((options.seed, options.count), (7, 20));
        assert_eq!(options.keep, PathBuf::from("compare-failures"));
        let with_keep = parse("--keep d --seed 7 --count 20 --loops a --locks c").unwrap();
        assert_eq!(with_keep.keep, PathBuf::from("d"));
        assert!(parse("--seed 7 --count 20 --loops a").is_err());
        assert!(parse("--seed x --count 20 --loops a --locks b").is_err());
        assert!(parse("--seed").is_err());
        assert!(parse("--other 1").is_err());
    }
}
