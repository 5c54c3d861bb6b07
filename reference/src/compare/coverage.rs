//! What the files of a program reached, as the reference judges it.

use std::collections::BTreeMap;

use crate::family::Family;
use crate::generate::REFUSED;
use crate::grammar::{self, COMMANDS, Command, LONGEST_FILE, LONGEST_LINE};
use crate::session::{Ending, Run};

/// The refusals that a file can meet. Those left out need calls that no file
/// makes, and 17 a reply that no file is long enough for.
const REFUSALS: [usize; 12] = [1, 2, 6, 7, 9, 10, 11, 12, 13, 14, 15, 16];

const CASES: [&str; 13] = [
    "file of 0 bytes",
    "file of 16384 bytes, run",
    "file of 16385 bytes",
    "last line without end",
    "line of 80 bytes",
    "line of 81 bytes",
    "256 blocks at the end",
    "ranks dealt again",
    "slot used again",
    "scan 1000",
    "reply over 9000 bytes",
    "reply, then a refusal",
    "run to the end",
];

/// How often each thing was reached, by the heading it stands under.
#[derive(Clone, Debug)]
pub struct Coverage {
    tables: BTreeMap<&'static str, BTreeMap<String, usize>>,
}

impl Coverage {
    /// Everything that is to be reached, and not yet is.
    pub fn new<F: Family>() -> Coverage {
        let mut coverage = Coverage { tables: BTreeMap::new() };
        for number in REFUSALS {
            coverage.count("1 refusals", refusal_label(number), 0);
        }
        for (command, number) in REFUSED {
            coverage.count("2 refused lines", pair_label(command, number), 0);
        }
        for command in COMMANDS {
            coverage.count("3 commands", command.to_string(), 0);
        }
        for (word, _) in F::KINDS {
            coverage.count("4 kinds", word.to_string(), 0);
        }
        for case in CASES {
            coverage.count("5 cases", case.to_string(), 0);
        }
        coverage
    }

    /// Counts what a file reached.
    pub fn note<F: Family>(&mut self, file: &[u8], run: &Run<F>) {
        let commands = grammar::check(file).unwrap_or_default();
        let accepted = match run.ending {
            Ending::End { lines } => lines,
            Ending::Stop { line, refusal } => {
                self.count("1 refusals", refusal_label(refusal.number()), 1);
                line.saturating_sub(1).min(commands.len())
            }
        };
        let done: Vec<&Command> = commands[..accepted].iter().flatten().collect();
        for command in &done {
            self.count("3 commands", command.word().to_string(), 1);
            if let Command::Block { kind, .. } = command {
                self.count("4 kinds", kind.clone(), 1);
            }
        }
        if let (Ending::Stop { refusal, .. }, Some(Some(command))) =
            (run.ending, commands.get(accepted))
        {
            let pair = pair_label(command.word(), refusal.number());
            self.count("2 refused lines", pair, 1);
        }
        for (case, met) in CASES.into_iter().zip(cases(file, run, &done)) {
            self.count("5 cases", case.to_string(), usize::from(met));
        }
    }

    fn count(&mut self, table: &'static str, row: String, times: usize) {
        *self.tables.entry(table).or_default().entry(row).or_default() += times;
    }

    /// What was never reached.
    pub fn missing(&self) -> Vec<String> {
        let rows = self.tables.values().flatten();
        rows.filter(|(_, times)| **times == 0).map(|(row, _)| row.clone()).collect()
    }

    /// The counts as text.
    pub fn table(&self, program: &str) -> String {
        let mut text = String::new();
        for (title, rows) in &self.tables {
            text += &format!("{program}: {}\n", &title[2..]);
            for (row, times) in rows {
                text += &format!("  {row:<26}{times:>8}\n");
            }
        }
        text
    }
}

fn refusal_label(number: usize) -> String {
    format!("refusal {number:>2}")
}

fn pair_label(command: &str, number: usize) -> String {
    format!("{command}, refusal {number}")
}

/// Whether each of the cases was met.
fn cases<F: Family>(file: &[u8], run: &Run<F>, done: &[&Command]) -> [bool; CASES.len()] {
    let lines = grammar::lines(file);
    let checked = file.len() <= LONGEST_FILE;
    let ended = matches!(run.ending, Ending::End { .. });
    let diagram = &run.session.diagram;
    let reply = run.session.reply().len();
    let blocks = done.iter().filter(|command| command.word() == "block").count();
    let drops = done.iter().filter(|command| command.word() == "drop").count();
    [
        file.is_empty(),
        file.len() == LONGEST_FILE && ended,
        file.len() == LONGEST_FILE + 1,
        checked && file.last().is_some_and(|&byte| byte != b'\n'),
        checked && lines.iter().any(|line| line.len() == LONGEST_LINE),
        checked && lines.iter().any(|line| line.len() == LONGEST_LINE + 1),
        diagram.size() == crate::SLOTS,
        diagram.dealings > 0,
        drops > 0 && blocks > diagram.slots_used(),
        done.iter().any(|command| matches!(command, Command::Scan { count: 1000 })),
        reply > 9000,
        reply > 0 && !ended,
        ended,
    ]
}
