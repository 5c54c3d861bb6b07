//! Runs of loop files.

use std::collections::HashMap;

use crate::diagram::Diagram;
use crate::family::{Family, Number};
use crate::grammar::{self, Command};
use crate::refusal::Refusal;
use crate::slots::Handle;

/// Bytes of a program's reply.
pub const REPLY_ROOM: usize = 32_768;

/// A diagram with the names of its blocks and the reply so far.
#[derive(Clone, Debug)]
pub struct Session<F: Family> {
    pub diagram: Diagram<F>,
    names: HashMap<String, Handle>,
    reply: Vec<u8>,
    room: usize,
}

/// How a run went.
#[derive(Clone, Copy, PartialEq, Eq, Debug)]
pub enum Ending {
    /// Every line was carried out.
    End { lines: usize },
    /// A line was refused; line 0 stands for the whole file.
    Stop { line: usize, refusal: Refusal },
}

impl Ending {
    /// The closing line.
    pub fn closing(self) -> String {
        match self {
            Ending::End { lines } => format!("end {lines}\n"),
            Ending::Stop { line, refusal } => format!("stop {line} {}\n", refusal.number()),
        }
    }
}

impl<F: Family> Session<F> {
    pub fn new(room: usize) -> Session<F> {
        Session { diagram: Diagram::default(), names: HashMap::new(), reply: Vec::new(), room }
    }

    pub fn reply(&self) -> &[u8] {
        &self.reply
    }

    /// Carries out a line's command.
    pub fn obey(&mut self, command: &Command) -> Result<(), Refusal> {
        if !matches!(command, Command::Show { .. }) {
            self.diagram.closed()?;
        }
        match command {
            Command::Block { name, kind, parameters } => {
                if self.known(name).is_ok() {
                    return Err(Refusal::NameInUse);
                }
                let handle = self.diagram.place(F::kind_of_word(kind), parameters)?;
                self.names.insert(name.clone(), handle);
                Ok(())
            }
            Command::Wire { target, port, source } => {
                let (target, source) = (self.known(target)?, self.known(source)?);
                self.diagram.wire(target, *port, source)
            }
            Command::Cut { target, port } => self.diagram.cut(self.known(target)?, *port),
            Command::Drop { name } => self.diagram.remove(self.known(name)?),
            Command::Tune { name, parameters } => self.diagram.tune(self.known(name)?, parameters),
            Command::Feed { name, number } => self.diagram.feed(self.known(name)?, *number),
            Command::Scan { count } => self.scan(*count),
            Command::Show { name } => self.show(name),
        }
    }

    /// The handle of a name in use.
    pub fn known(&self, name: &str) -> Result<Handle, Refusal> {
        let handle = self.names.get(name).copied().ok_or(Refusal::UnknownName)?;
        if self.diagram.names(handle) { Ok(handle) } else { Err(Refusal::UnknownName) }
    }

    fn scan(&mut self, count: Number) -> Result<(), Refusal> {
        for _ in 0..count {
            let token = self.diagram.solve()?;
            self.diagram.settle(token).map_err(|(refusal, _)| refusal)?;
        }
        Ok(())
    }

    fn show(&mut self, name: &str) -> Result<(), Refusal> {
        let number = self.diagram.show(self.known(name)?)?;
        let text = format!("{name} {number}\n");
        if self.reply.len() + text.len() > self.room {
            return Err(Refusal::BufferTooShort);
        }
        self.reply.extend_from_slice(text.as_bytes());
        Ok(())
    }

    /// Carries out the lines of a checked file until one is refused.
    pub fn run(&mut self, commands: &[Option<Command>]) -> Ending {
        for (command, line) in commands.iter().zip(1..) {
            let done = command.as_ref().map_or(Ok(()), |command| self.obey(command));
            if let Err(refusal) = done {
                return Ending::Stop { line, refusal };
            }
        }
        Ending::End { lines: commands.len() }
    }

    /// Checks a file and runs it.
    pub fn run_file(&mut self, file: &[u8]) -> Ending {
        match grammar::check(file) {
            Ok(commands) => self.run(&commands),
            Err(refusal @ Refusal::BadLine(line)) => Ending::Stop { line, refusal },
            Err(refusal) => Ending::Stop { line: 0, refusal },
        }
    }
}

/// A run on a fresh diagram, as the programs make it.
#[derive(Debug)]
pub struct Run<F: Family> {
    pub session: Session<F>,
    pub ending: Ending,
}

impl<F: Family> Run<F> {
    pub fn of(file: &[u8]) -> Run<F> {
        let mut session = Session::new(REPLY_ROOM);
        let ending = session.run_file(file);
        Run { session, ending }
    }

    /// All that a program writes.
    pub fn output(&self) -> Vec<u8> {
        [self.session.reply(), self.ending.closing().as_bytes()].concat()
    }
}

#[cfg(test)]
mod tests {
    use super::*;
    use crate::locks::Locks;
    use crate::loops::Loops;

    fn loops(file: &str) -> String {
        String::from_utf8(Run::<Loops>::of(file.as_bytes()).output()).unwrap()
    }

    fn locks(file: &str) -> String {
        String::from_utf8(Run::<Locks>::of(file.as_bytes()).output()).unwrap()
    }

    #[test]
    fn closing_lines() {
        assert_eq!(loops(""), "end 0\n");
        assert_eq!(loops("\n"), "end 1\n");
        assert_eq!(loops("#\n\n#"), "end 3\n");
        assert_eq!(loops("#\nscan 0\n"), "stop 2 2\n");
        assert_eq!(loops(&"\n".repeat(16_384)), "end 16384\n");
        assert_eq!(loops(&"\n".repeat(16_385)), "stop 0 1\n");
    }

    #[test]
    fn a_check_refuses_before_anything_is_done() {
        assert_eq!(loops("block a in 5\nshow a\nshow  a\n"), "stop 3 2\n");
    }

    #[test]
    fn a_run_stops_at_the_first_refused_line() {
        let file = "block a in 5\nscan 1\nshow a\nshow b\nshow a\n";
        assert_eq!(loops(file), "a 5\nstop 4 6\n");
    }

    #[test]
    fn refused_lines() {
        for (lines, number) in [
            ("block a none 9", 7),
            ("block c none 9 9 9", 9),
            ("block c in 2000000", 10),
            ("wire c 2 a", 6),
            ("wire a 2 c", 6),
            ("wire a 0 b", 11),
            ("wire b 0 b", 16),
            ("wire b 0 a\nwire b 0 b", 12),
            ("cut c 2", 6),
            ("cut a 0", 11),
            ("cut b 0", 13),
            ("drop c", 6),
            ("tune c 9 9 9", 6),
            ("tune b 5 4 0", 10),
            ("feed c 0", 6),
            ("feed b 0", 14),
            ("show c", 6),
            ("drop b\nshow b", 6),
        ] {
            let file = format!("block a in\nblock b lim\n{lines}\n");
            let last = file.lines().count();
            assert_eq!(loops(&file), format!("stop {last} {number}\n"), "{lines}");
        }
    }

    #[test]
    fn the_257th_block() {
        let mut file: String = (0..256).map(|n| format!("block b{n} in\n")).collect();
        assert_eq!(loops(&file), "end 256\n");
        assert_eq!(loops(&format!("{file}block b0 none")), "stop 257 7\n");
        assert_eq!(loops(&format!("{file}block b none")), "stop 257 9\n");
        assert_eq!(loops(&format!("{file}block b lag")), "stop 257 10\n");
        file += "block b in\n";
        assert_eq!(loops(&file), "stop 257 15\n");
    }

    #[test]
    fn names_come_back() {
        let file = "block a in 3\ndrop a\nblock b in 4\nblock a in 5\nscan 1\nshow a\nshow b\n";
        assert_eq!(loops(file), "a 5\nb 4\nend 7\n");
    }

    #[test]
    fn a_reply_without_room() {
        let commands = grammar::check(b"block a in -5\nscan 1\nshow a\nshow a").unwrap();
        let run = |room| {
            let mut session = Session::<Loops>::new(room);
            let ending = session.run(&commands);
            (session.reply.len(), ending)
        };
        let stop = |line| Ending::Stop { line, refusal: Refusal::BufferTooShort };
        assert_eq!(run(10), (10, Ending::End { lines: 4 }));
        assert_eq!(run(9), (5, stop(4)));
        assert_eq!(run(4), (0, stop(3)));
        assert_eq!(stop(3).closing(), "stop 3 17\n");
    }

    #[test]
    fn a_controller_that_is_limited() {
        let file = "block sp in 500\nblock c pidt 0 1000 0\nblock l lim -100 100\n\
            wire c 0 sp\nwire l 0 c\nwire c 2 l\n\
            scan 1\nshow c\nscan 1\nshow c\nfeed sp -500\nscan 1\nshow c\n";
        assert_eq!(loops(file), "c 500\nc 600\nc -400\nend 13\n");
    }

    #[test]
    fn an_interlock() {
        let file = "block a in 1\nblock t timer 2\nwire t 0 a\n\
            scan 1\nshow t\nscan 1\nshow t\nscan 1\nshow t\n\
            feed a 0\nscan 1\nshow t\nfeed a -3\nscan 3\nshow t\n";
        assert_eq!(locks(file), "t 0\nt 0\nt 1\nt 0\nt 1\nend 15\n");
        assert_eq!(locks("block a pid\n"), "stop 1 9\n");
        assert_eq!(locks("block a timer\n"), "stop 1 10\n");
    }

    #[test]
    fn late_wires_hear_this_scan() {
        let file = "block h hold 1\nblock a in 9\nwire h 0 a\nscan 1\nshow h\nscan 1\nshow h\n";
        assert_eq!(loops(file), "h 1\nh 9\nend 7\n");
    }
}
