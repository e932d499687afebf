//! The console: a paper to print on and a waiting line to read.

use crate::unit::{Answer, DONE_WITH_CHECK, Ending, Model, NOT_READY, Unit, hand_out};

pub const PAPER: usize = 2048;
pub const LINE: usize = 256;

pub struct Console {
    pub paper: Vec<u8>,
    pub line: Vec<u8>,
}

#[derive(Clone, Copy, Debug, PartialEq, Eq)]
pub enum Command {
    Write,
    Read { given: usize },
}

impl Console {
    /// A console with a waiting line; none is made with a line that is too long.
    pub fn with_line(line: &[u8]) -> Option<Unit<Console>> {
        (line.len() <= LINE).then(|| {
            Unit::with(Console {
                paper: Vec::with_capacity(PAPER),
                line: line.to_vec(),
            })
        })
    }
}

impl Model for Console {
    type Command = Command;

    fn begin(&mut self, code: u8) -> Answer<Command> {
        match code {
            0x09 if self.paper.len() == PAPER => Answer::refused(DONE_WITH_CHECK, NOT_READY),
            0x09 => Answer::Open {
                command: Command::Write,
                least: 0,
                most: (PAPER - self.paper.len()) as u32,
            },
            0x0A if self.line.is_empty() => Answer::refused(DONE_WITH_CHECK, NOT_READY),
            0x0A => Answer::of_length(Command::Read { given: 0 }, self.line.len()),
            _ => Answer::Unknown,
        }
    }

    fn give(&mut self, command: &mut Command, buffer: &mut [u8]) -> usize {
        match command {
            Command::Read { given } => hand_out(&self.line, given, buffer),
            Command::Write => 0,
        }
    }

    fn take(&mut self, command: &mut Command, bytes: &[u8]) -> usize {
        match command {
            Command::Write => {
                let moved = bytes.len().min(PAPER - self.paper.len());
                self.paper.extend_from_slice(&bytes[..moved]);
                moved
            }
            Command::Read { .. } => 0,
        }
    }

    fn end(&mut self, command: Command) -> Ending {
        if let Command::Read { .. } = command {
            self.line.clear();
        }
        Ending::GOOD
    }
}
