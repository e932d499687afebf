//! The tape: blocks, a position between them, and a block that is being written.

use crate::unit::{Answer, DONE, DONE_WITH_CHECK, Ending, Model, NOT_READY, Unit, hand_out};

pub const BLOCKS: usize = 64;
pub const BYTES: usize = 8192;
pub const LONGEST: usize = 4096;

pub struct Tape {
    pub blocks: Vec<Vec<u8>>,
    /// The number of blocks before the position.
    pub position: usize,
    /// What the open write has taken.
    pub gathered: Vec<u8>,
}

#[derive(Clone, Copy, Debug, PartialEq, Eq)]
pub enum Command {
    Write { most: usize },
    Read { given: usize },
    ReadBackward { given: usize },
}

impl Tape {
    /// A tape at position 0; none is made from blocks that do not fit.
    pub fn with_blocks(blocks: &[Vec<u8>]) -> Option<Unit<Tape>> {
        let fits = blocks.len() <= BLOCKS
            && blocks.iter().all(|b| (1..=LONGEST).contains(&b.len()))
            && blocks.iter().map(Vec::len).sum::<usize>() <= BYTES;
        fits.then(|| {
            Unit::with(Tape {
                blocks: blocks.to_vec(),
                position: 0,
                gathered: Vec::new(),
            })
        })
    }

    fn begin_write(&mut self) -> Answer<Command> {
        let before: usize = self.blocks[..self.position].iter().map(Vec::len).sum();
        let left = BYTES - before;
        if left == 0 || self.position == BLOCKS {
            return Answer::refused(DONE_WITH_CHECK, NOT_READY);
        }
        self.blocks.truncate(self.position);
        self.gathered.clear();
        let most = left.min(LONGEST);
        Answer::Open {
            command: Command::Write { most },
            least: 1,
            most: most as u32,
        }
    }
}

impl Model for Tape {
    type Command = Command;

    fn begin(&mut self, code: u8) -> Answer<Command> {
        match code {
            0x01 => self.begin_write(),
            0x02 => match self.blocks.get(self.position) {
                None => Answer::refused(DONE_WITH_CHECK, NOT_READY),
                Some(block) => Answer::of_length(Command::Read { given: 0 }, block.len()),
            },
            0x0C if self.position == 0 => Answer::refused(DONE_WITH_CHECK, NOT_READY),
            0x0C => {
                let length = self.blocks[self.position - 1].len();
                Answer::of_length(Command::ReadBackward { given: 0 }, length)
            }
            0x07 => {
                self.position = 0;
                Answer::Immediate {
                    status: DONE,
                    sense: None,
                }
            }
            _ => Answer::Unknown,
        }
    }

    fn give(&mut self, command: &mut Command, buffer: &mut [u8]) -> usize {
        match command {
            Command::Read { given } => hand_out(&self.blocks[self.position], given, buffer),
            Command::ReadBackward { given } => {
                let block = &self.blocks[self.position - 1];
                let left = block.len() - *given;
                let moved = buffer.len().min(left);
                for (to, from) in buffer
                    .iter_mut()
                    .zip(block[left - moved..left].iter().rev())
                {
                    *to = *from;
                }
                *given += moved;
                moved
            }
            Command::Write { .. } => 0,
        }
    }

    fn take(&mut self, command: &mut Command, bytes: &[u8]) -> usize {
        match command {
            Command::Write { most } => {
                let moved = bytes.len().min(*most - self.gathered.len());
                self.gathered.extend_from_slice(&bytes[..moved]);
                moved
            }
            _ => 0,
        }
    }

    fn end(&mut self, command: Command) -> Ending {
        match command {
            Command::Write { .. } => {
                if !self.gathered.is_empty() {
                    self.blocks.push(std::mem::take(&mut self.gathered));
                    self.position += 1;
                }
            }
            Command::Read { .. } => self.position += 1,
            Command::ReadBackward { .. } => self.position -= 1,
        }
        Ending::GOOD
    }
}
