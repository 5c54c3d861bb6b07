//! Loop files: which lines there are and what they say.

use crate::family::{Number, Parameters};
use crate::refusal::Refusal;

pub const LONGEST_FILE: usize = 16_384;
pub const LONGEST_LINE: usize = 80;
pub const LONGEST_NAME: usize = 12;

#[derive(Clone, PartialEq, Eq, Debug)]
pub enum Command {
    Block { name: String, kind: String, parameters: Parameters },
    Wire { target: String, port: usize, source: String },
    Cut { target: String, port: usize },
    Drop { name: String },
    Tune { name: String, parameters: Parameters },
    Feed { name: String, number: Number },
    Scan { count: Number },
    Show { name: String },
}

/// The first words of the commands.
pub const COMMANDS: [&str; 8] = ["block", "wire", "cut", "drop", "tune", "feed", "scan", "show"];

impl Command {
    pub fn word(&self) -> &'static str {
        match self {
            Command::Block { .. } => "block",
            Command::Wire { .. } => "wire",
            Command::Cut { .. } => "cut",
            Command::Drop { .. } => "drop",
            Command::Tune { .. } => "tune",
            Command::Feed { .. } => "feed",
            Command::Scan { .. } => "scan",
            Command::Show { .. } => "show",
        }
    }
}

/// The lines of a file without their ends.
pub fn lines(file: &[u8]) -> Vec<&[u8]> {
    let mut lines = Vec::new();
    let mut rest = file;
    while !rest.is_empty() {
        let end = rest.iter().position(|&byte| byte == b'\n');
        lines.push(&rest[..end.unwrap_or(rest.len())]);
        rest = end.map_or(&[], |end| &rest[end + 1..]);
    }
    lines
}

/// What every line of the file says, or the refusal of the file.
pub fn check(file: &[u8]) -> Result<Vec<Option<Command>>, Refusal> {
    if file.len() > LONGEST_FILE {
        return Err(Refusal::FileTooLong);
    }
    let numbered = lines(file).into_iter().zip(1..);
    numbered.map(|(line, n)| read(line).ok_or(Refusal::BadLine(n))).collect()
}

/// What a line says: `None` if it does not fit, `Some(None)` if it says
/// nothing.
pub fn read(line: &[u8]) -> Option<Option<Command>> {
    if line.len() > LONGEST_LINE {
        return None;
    }
    match line {
        [] | [b'#', ..] => Some(None),
        _ => command(line).map(Some),
    }
}

/// Two spaces side by side, or one at an end, give an empty word, and no
/// place takes an empty word.
fn command(line: &[u8]) -> Option<Command> {
    let words: Vec<&[u8]> = line.split(|&byte| byte == b' ').collect();
    let (first, rest) = words.split_first()?;
    Some(match (*first, rest) {
        (b"block", [n, k, numbers @ ..]) => {
            Command::Block { name: name(n)?, kind: name(k)?, parameters: parameters(numbers)? }
        }
        (b"wire", [t, p, s]) => {
            Command::Wire { target: name(t)?, port: port(p)?, source: name(s)? }
        }
        (b"cut", [t, p]) => Command::Cut { target: name(t)?, port: port(p)? },
        (b"drop", [n]) => Command::Drop { name: name(n)? },
        (b"tune", [n, numbers @ ..]) if numbers.len() == 3 => {
            Command::Tune { name: name(n)?, parameters: parameters(numbers)? }
        }
        (b"feed", [n, value]) => Command::Feed { name: name(n)?, number: number(value)? },
        (b"scan", [count]) => Command::Scan { count: scans(count)? },
        (b"show", [n]) => Command::Show { name: name(n)? },
        _ => return None,
    })
}

fn name(word: &[u8]) -> Option<String> {
    let fits = word.len() <= LONGEST_NAME
        && word.first().is_some_and(u8::is_ascii_lowercase)
        && word.iter().all(|byte| byte.is_ascii_lowercase() || byte.is_ascii_digit());
    fits.then(|| word.iter().copied().map(char::from).collect())
}

fn port(word: &[u8]) -> Option<usize> {
    match word {
        b"0" => Some(0),
        b"1" => Some(1),
        b"2" => Some(2),
        _ => None,
    }
}

fn number(word: &[u8]) -> Option<Number> {
    match word {
        b"0" => Some(0),
        [b'-', digits @ ..] => positive(digits).map(|n| -n),
        digits => positive(digits),
    }
}

/// One to seven digits, of which the first is not 0.
fn positive(digits: &[u8]) -> Option<Number> {
    let fits = (1..=7).contains(&digits.len())
        && digits[0] != b'0'
        && digits.iter().all(u8::is_ascii_digit);
    fits.then(|| digits.iter().fold(0, |n, digit| 10 * n + Number::from(digit - b'0')))
}

fn scans(word: &[u8]) -> Option<Number> {
    number(word).filter(|count| (1..=1000).contains(count))
}

/// Up to three numbers; missing ones are 0.
fn parameters(words: &[&[u8]]) -> Option<Parameters> {
    let mut parameters = [0; 3];
    if words.len() > parameters.len() {
        return None;
    }
    for (parameter, word) in parameters.iter_mut().zip(words) {
        *parameter = number(word)?;
    }
    Some(parameters)
}

#[cfg(test)]
mod tests {
    use super::*;

    fn says(line: &str) -> Command {
        read(line.as_bytes()).flatten().expect("the line fits")
    }

    #[test]
    fn commands() {
        let (a, b) = ("a".to_string(), "b2".to_string());
        let block = |p, q, r| Command::Block {
            name: a.clone(),
            kind: "pid".to_string(),
            parameters: [p, q, r],
        };
        assert_eq!(says("block a pid"), block(0, 0, 0));
        assert_eq!(says("block a pid 0"), block(0, 0, 0));
        assert_eq!(says("block a pid -9999999 9999999"), block(-9_999_999, 9_999_999, 0));
        assert_eq!(says("block a pid 1 0 -3"), block(1, 0, -3));
        let wire = Command::Wire { target: a.clone(), port: 2, source: b.clone() };
        assert_eq!(says("wire a 2 b2"), wire);
        assert_eq!(says("cut b2 0"), Command::Cut { target: b.clone(), port: 0 });
        assert_eq!(says("drop b2"), Command::Drop { name: b });
        assert_eq!(says("tune a 1 2 3"), Command::Tune { name: a.clone(), parameters: [1, 2, 3] });
        assert_eq!(says("feed a -5"), Command::Feed { name: a.clone(), number: -5 });
        assert_eq!(says("scan 1"), Command::Scan { count: 1 });
        assert_eq!(says("scan 1000"), Command::Scan { count: 1000 });
        assert_eq!(says("show a"), Command::Show { name: a });
        assert_eq!(says("show show"), Command::Show { name: "show".to_string() });
    }

    #[test]
    fn lines_and_their_ends() {
        assert_eq!(lines(b""), [b""; 0]);
        assert_eq!(lines(b"\n"), [b""]);
        assert_eq!(lines(b"a"), [b"a"]);
        assert_eq!(lines(b"a\n"), [b"a"]);
        assert_eq!(lines(b"a\n\nb"), [b"a" as &[u8], b"", b"b"]);
    }

    #[test]
    fn lengths() {
        assert_eq!(read(&[b'#'; 80]), Some(None));
        assert_eq!(read(&[b'#'; 81]), None);
        assert!(read(b"show abcdefghijkl").is_some());
        assert!(read(b"show abcdefghijklm").is_none());
        assert!(check(&[b'\n'; 16_384]).is_ok());
        assert_eq!(check(&[b'\n'; 16_385]), Err(Refusal::FileTooLong));
        assert_eq!(check(&[b'x'; 16_385]), Err(Refusal::FileTooLong));
        assert_eq!(check(b"#\n\nscan 1\nscan 0\nx"), Err(Refusal::BadLine(4)));
    }

    #[test]
    fn numbers() {
        for (word, value) in [("0", 0), ("7", 7), ("-7", -7), ("1000000", 1_000_000)] {
            assert_eq!(number(word.as_bytes()), Some(value));
        }
        for word in ["", "-", "-0", "00", "01", "-01", "12345678", "+1", "1a", "--1", " 1"] {
            assert_eq!(number(word.as_bytes()), None, "{word}");
        }
    }
}
