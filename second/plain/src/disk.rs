//! The disk: 64 blocks of 512 bytes and a location to read or write at.

use crate::unit::{Answer, CHECK, DONE_WITH_CHECK, Ending, Model, REJECTED, Unit, hand_out};

pub const BLOCKS: usize = 64;
pub const BLOCK: usize = 512;
pub const BYTES: usize = BLOCKS * BLOCK;

#[derive(Clone, Copy, Debug, PartialEq, Eq)]
pub struct Location {
    pub first: usize,
    pub count: usize,
}

impl Location {
    fn bytes(self) -> std::ops::Range<usize> {
        BLOCK * self.first..BLOCK * (self.first + self.count)
    }

    /// The location that the argument of a locate names, if there is such a one.
    fn from_argument(argument: [u8; 4]) -> Option<Location> {
        let [c0, c1, f0, f1] = argument;
        let count = usize::from(u16::from_be_bytes([c0, c1]));
        let first = usize::from(u16::from_be_bytes([f0, f1]));
        (count > 0 && first + count <= BLOCKS).then_some(Location { first, count })
    }
}

pub struct Disk {
    pub bytes: Vec<u8>,
    pub location: Option<Location>,
}

#[derive(Clone, Copy, Debug, PartialEq, Eq)]
pub enum Command {
    Locate { argument: [u8; 4], taken: usize },
    Write { at: Location, taken: usize },
    Read { at: Location, given: usize },
}

impl Disk {
    /// A disk of exactly so many bytes.
    pub fn with_bytes(bytes: &[u8]) -> Option<Unit<Disk>> {
        (bytes.len() == BYTES).then(|| {
            Unit::with(Disk {
                bytes: bytes.to_vec(),
                location: None,
            })
        })
    }

    fn begin_at(&self, command: impl Fn(Location) -> Command) -> Answer<Command> {
        match self.location {
            None => Answer::refused(CHECK, REJECTED),
            Some(at) => Answer::of_length(command(at), BLOCK * at.count),
        }
    }
}

impl Model for Disk {
    type Command = Command;

    fn begin(&mut self, code: u8) -> Answer<Command> {
        match code {
            0x43 => Answer::of_length(
                Command::Locate {
                    argument: [0; 4],
                    taken: 0,
                },
                4,
            ),
            0x41 => self.begin_at(|at| Command::Write { at, taken: 0 }),
            0x42 => self.begin_at(|at| Command::Read { at, given: 0 }),
            _ => Answer::Unknown,
        }
    }

    fn give(&mut self, command: &mut Command, buffer: &mut [u8]) -> usize {
        match command {
            Command::Read { at, given } => hand_out(&self.bytes[at.bytes()], given, buffer),
            _ => 0,
        }
    }

    fn take(&mut self, command: &mut Command, bytes: &[u8]) -> usize {
        let (room, taken) = match command {
            Command::Locate { argument, taken } => (&mut argument[..], taken),
            Command::Write { at, taken } => (&mut self.bytes[at.bytes()], taken),
            Command::Read { .. } => return 0,
        };
        let moved = bytes.len().min(room.len() - *taken);
        room[*taken..*taken + moved].copy_from_slice(&bytes[..moved]);
        *taken += moved;
        moved
    }

    fn end(&mut self, command: Command) -> Ending {
        self.location = match command {
            Command::Locate { argument, taken: 4 } => Location::from_argument(argument),
            _ => None,
        };
        match (command, self.location) {
            (Command::Locate { .. }, None) => Ending {
                status: DONE_WITH_CHECK,
                sense: Some(REJECTED),
            },
            _ => Ending::GOOD,
        }
    }
}
