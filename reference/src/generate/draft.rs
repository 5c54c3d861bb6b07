//! A loop file in the making. Its lines are tried on a diagram of its own,
//! so that it knows which of them a run accepts.

use super::Palette;
use super::palette::any_number;
use crate::family::{Number, Parameters};
use crate::grammar::{self, COMMANDS, Command, LONGEST_FILE};
use crate::random::Random;
use crate::refusal::Refusal;
use crate::session::{REPLY_ROOM, Session};

#[derive(Clone)]
pub struct Draft<F: Palette> {
    session: Session<F>,
    text: Vec<u8>,
    /// The names in use with their kinds.
    placed: Vec<(String, F::Kind)>,
    /// Names that were dropped.
    dropped: Vec<String>,
}

impl<F: Palette> Draft<F> {
    pub fn new() -> Draft<F> {
        Draft {
            session: Session::new(REPLY_ROOM),
            text: Vec::new(),
            placed: Vec::new(),
            dropped: Vec::new(),
        }
    }

    pub fn into_text(self) -> Vec<u8> {
        self.text
    }

    pub fn size(&self) -> usize {
        self.placed.len()
    }

    /// How many bytes may still be added.
    pub fn room(&self) -> usize {
        LONGEST_FILE - self.text.len()
    }

    /// Adds a line if it fits and is accepted.
    pub fn add(&mut self, line: &str) -> bool {
        if line.len() + 1 > self.room() {
            return false;
        }
        let Some(Some(command)) = grammar::read(line.as_bytes()) else {
            return false;
        };
        if self.attempt(&command).is_err() {
            return false;
        }
        self.note(&command);
        self.add_bytes(line.as_bytes());
        true
    }

    /// Adds a line whatever it says, and its end.
    pub fn add_bytes(&mut self, line: &[u8]) {
        self.text.extend_from_slice(line);
        self.text.push(b'\n');
    }

    /// Scans and shows are not carried out here: the first are never
    /// refused, the second only for their names.
    fn attempt(&mut self, command: &Command) -> Result<(), Refusal> {
        match command {
            Command::Scan { .. } => Ok(()),
            Command::Show { name } => self.session.known(name).map(|_| ()),
            _ => self.session.obey(command),
        }
    }

    fn note(&mut self, command: &Command) {
        match command {
            Command::Block { name, kind, .. } => {
                self.placed.extend(F::kind_of_word(kind).map(|kind| (name.clone(), kind)));
                self.dropped.retain(|n| n != name);
            }
            Command::Drop { name } => {
                self.placed.retain(|(n, _)| n != name);
                self.dropped.push(name.clone());
            }
            _ => {}
        }
    }

    /// The number of the refusal that the line would meet now, 0 for none.
    pub fn outcome(&self, line: &str) -> usize {
        match grammar::read(line.as_bytes()) {
            None => 2,
            Some(None) => 0,
            Some(Some(command)) => {
                self.clone().attempt(&command).map_or_else(Refusal::number, |()| 0)
            }
        }
    }

    /// A name that is not in use; sometimes one that was.
    pub fn new_name(&self, random: &mut Random) -> String {
        if !self.dropped.is_empty() && random.chance(40) {
            return random.pick(&self.dropped).clone();
        }
        loop {
            let name = any_name(random);
            if self.session.known(&name).is_err() {
                return name;
            }
        }
    }

    /// A name in use, or an unknown one if there is none.
    pub fn old_name(&self, random: &mut Random) -> String {
        match self.placed.as_slice() {
            [] => any_name(random),
            placed => random.pick(placed).0.clone(),
        }
    }

    pub fn place(&mut self, kind: F::Kind, random: &mut Random) -> Option<String> {
        let name = self.new_name(random);
        let parameters = F::parameters(kind, random);
        let line = block_line(&name, F::word(kind), &parameters, random);
        self.add(&line).then_some(name)
    }

    pub fn grow(&mut self, count: usize, random: &mut Random) {
        for _ in 0..count {
            self.place(F::any_kind(random), random);
        }
    }

    pub fn wire(&mut self, target: &str, port: usize, source: &str) -> bool {
        self.add(&format!("wire {target} {port} {source}"))
    }

    /// Tries wires between random blocks.
    pub fn wire_some(&mut self, tries: usize, random: &mut Random) {
        for _ in 0..tries {
            let (target, source) = (self.old_name(random), self.old_name(random));
            self.wire(&target, random.below(3), &source);
        }
    }

    pub fn scan(&mut self, most: usize, random: &mut Random) {
        self.add(&format!("scan {}", random.between(1, most)));
    }

    pub fn show_some(&mut self, count: usize, random: &mut Random) {
        for _ in 0..count {
            let name = self.old_name(random);
            self.add(&format!("show {name}"));
        }
    }

    /// Feeds some of the inputs.
    pub fn feed_some(&mut self, most: usize, random: &mut Random) {
        for _ in 0..random.below(most + 1) {
            let line = self.guess("feed", CAREFUL, random);
            self.add(&line);
        }
    }

    /// One change of the drawing, if it is accepted.
    pub fn edit(&mut self, random: &mut Random) {
        let command = random.pick(&COMMANDS[..6]);
        let line = self.guess(command, CAREFUL, random);
        self.add(&line);
    }

    /// Tries new parameters for some blocks.
    pub fn tune_some(&mut self, tries: usize, random: &mut Random) {
        for _ in 0..tries {
            let line = self.guess("tune", CAREFUL, random);
            self.add(&line);
        }
    }

    /// A line of a command; `care` is how likely each part of it is right,
    /// in percent.
    pub fn guess(&self, command: &str, care: usize, random: &mut Random) -> String {
        let name = self.guess_name(care, random);
        let port = random.below(3);
        match command {
            "block" => self.guess_block(care, random),
            "wire" => format!("wire {name} {port} {}", self.guess_name(care, random)),
            "cut" => match self.some_wire(random) {
                Some((target, port)) if random.chance(care) => format!("cut {target} {port}"),
                _ => format!("cut {name} {port}"),
            },
            "tune" => {
                let [p, q, r] = self.guess_parameters(&name, care, random);
                format!("tune {name} {p} {q} {r}")
            }
            "feed" => {
                let input = if random.chance(care) { self.some_input(random) } else { None };
                format!("feed {} {}", input.unwrap_or(name), any_number(random))
            }
            _ => format!("{command} {name}"),
        }
    }

    fn some_input(&self, random: &mut Random) -> Option<String> {
        let inputs = self.placed.iter().filter(|(_, kind)| *kind == F::input());
        let names: Vec<&String> = inputs.map(|(name, _)| name).collect();
        (!names.is_empty()).then(|| random.pick(&names).to_string())
    }

    /// A port that is wired, if a few tries find one.
    fn some_wire(&self, random: &mut Random) -> Option<(String, usize)> {
        (0..10).find_map(|_| {
            let name = self.old_name(random);
            let slot = self.session.known(&name).ok()?.slot();
            let wiring = self.session.diagram.wiring();
            let wires = wiring.direct_wires(slot).chain(wiring.late_wires(slot));
            let ports: Vec<usize> = wires.map(|(port, _)| port).collect();
            (!ports.is_empty()).then(|| (name, *random.pick(&ports)))
        })
    }

    /// A name in use, if the guess is right.
    fn guess_name(&self, care: usize, random: &mut Random) -> String {
        if random.chance(care) { self.old_name(random) } else { self.new_name(random) }
    }

    fn guess_block(&self, care: usize, random: &mut Random) -> String {
        let name = self.guess_name(100 - care, random);
        let kind = F::any_kind(random);
        let word = if random.chance(care) { F::word(kind) } else { *random.pick(&STRANGE_KINDS) };
        block_line(&name, word, &guess_parameters::<F>(kind, care, random), random)
    }

    fn guess_parameters(&self, name: &str, care: usize, random: &mut Random) -> Parameters {
        let found = self.placed.iter().find(|(n, _)| n == name);
        let kind = found.map_or_else(|| F::any_kind(random), |(_, kind)| *kind);
        guess_parameters::<F>(kind, care, random)
    }
}

/// The care that is taken where a line ought to be accepted.
const CAREFUL: usize = 90;

/// Words that are kinds of one family only, or of none.
const STRANGE_KINDS: [&str; 16] = [
    "pid",
    "gain",
    "sum",
    "lag",
    "and",
    "latch",
    "timer",
    "not",
    "ins",
    "i",
    "pidtt",
    "inn",
    "o",
    "in0",
    "holdholdhold",
    "block",
];

/// The ends of the parameters' ranges, and what lies just outside.
pub const LIMITS: [Number; 10] = [0, 1, 2, 3, 1000, 1001, 100_000, 100_001, 1_000_000, 1_000_001];

fn guess_parameters<F: Palette>(kind: F::Kind, care: usize, random: &mut Random) -> Parameters {
    let mut parameters = F::parameters(kind, random);
    if !random.chance(care) {
        let limit = *random.pick(&LIMITS);
        parameters[random.below(3)] = if random.chance(50) { limit } else { -limit };
    }
    if !random.chance(care) {
        parameters.swap(0, 1);
    }
    parameters
}

/// A block line; zeros at its end may be left out.
fn block_line(name: &str, word: &str, parameters: &Parameters, random: &mut Random) -> String {
    let mut count = 3;
    while count > 0 && parameters[count - 1] == 0 && random.chance(80) {
        count -= 1;
    }
    let numbers = parameters[..count].iter().map(|n| format!(" {n}"));
    format!("block {name} {word}{}", numbers.collect::<String>())
}

/// A name of 1 to 12 bytes, mostly short.
pub fn any_name(random: &mut Random) -> String {
    const FIRST: &[u8] = b"abcdefghijklmnopqrstuvwxyz";
    const LATER: &[u8] = b"abcdefghijklmnopqrstuvwxyz0123456789";
    let length = match random.below(10) {
        0 => random.between(1, 12),
        1 => 12,
        _ => random.between(2, 4),
    };
    let mut name = String::new();
    name.push(char::from(*random.pick(FIRST)));
    for _ in 1..length {
        name.push(char::from(*random.pick(LATER)));
    }
    name
}
