//! The channel: a step, a run of up to k steps, and a halt.

use crate::area::{BLOCK, Direction, Piece};
use crate::ccw::{Ccw, Class, Flags, Format};
use crate::device::{Begun, Device};
use crate::place::{Broken, Place, find, read};
use crate::unit::DONE;

pub const PROGRAM_CHECK: u8 = 0x20;
pub const INCORRECT_LENGTH: u8 = 0x40;

#[derive(Clone, Copy, Debug, PartialEq, Eq)]
pub struct StatusWord {
    pub ccw_address: u32,
    pub device: u8,
    pub subchannel: u8,
    pub residual: u16,
}

impl StatusWord {
    pub fn to_bytes(self) -> [u8; 8] {
        let [a0, a1, a2, a3] = self.ccw_address.to_be_bytes();
        let [r0, r1] = self.residual.to_be_bytes();
        [a0, a1, a2, a3, self.device, self.subchannel, r0, r1]
    }
}

#[derive(Clone, Copy, Debug, PartialEq, Eq)]
pub enum Program {
    Running { place: Place, owed: u32 },
    Ended(StatusWord),
}

impl Program {
    pub fn start(address: u32) -> Program {
        Program::Running {
            place: Place::start(address),
            owed: 0,
        }
    }
}

pub struct Channel<D: Device> {
    pub storage: Vec<u8>,
    pub format: Format,
    pub device: D,
    pieces: Vec<Piece>,
}

impl<D: Device> Channel<D> {
    pub fn new(storage: Vec<u8>, format: Format, device: D) -> Channel<D> {
        Channel {
            storage,
            format,
            device,
            pieces: Vec::new(),
        }
    }

    pub fn step(&mut self, program: Program) -> Program {
        let Program::Running { place, owed } = program else {
            return program;
        };
        let storage = self.storage.as_slice();
        self.pieces.clear();
        let taken_up = find(storage, self.format, place).and_then(|found| {
            let code = read(storage, found, place.command, &mut self.pieces)?;
            Ok((found, code))
        });
        match taken_up {
            Err(broken) => self.program_check(place, broken),
            Ok((found, code)) => {
                let next = found.at.wrapping_add(8);
                if place.command.is_some() {
                    return self.transfer(found.ccw, next, code, owed);
                }
                match self.device.begin(code) {
                    Begun::Open { least, .. } => self.transfer(found.ccw, next, code, least),
                    Begun::Immediate(status) => {
                        chain_command(found.ccw, next, status, false, found.ccw.count)
                    }
                }
            }
        }
    }

    /// Takes up to `most` steps; answers how many were taken.
    pub fn run(&mut self, program: &mut Program, most: u64) -> u64 {
        let mut steps = 0;
        while steps < most && matches!(program, Program::Running { .. }) {
            *program = self.step(*program);
            steps += 1;
        }
        steps
    }

    pub fn halt(&mut self, program: Program) -> StatusWord {
        match program {
            Program::Ended(status) => status,
            Program::Running { place, .. } => StatusWord {
                ccw_address: if place.first { 0 } else { place.address },
                device: self.end_command(place),
                subchannel: 0,
                residual: 0,
            },
        }
    }

    fn program_check(&mut self, place: Place, broken: Broken) -> Program {
        Program::Ended(StatusWord {
            ccw_address: broken.counts_from.wrapping_add(8),
            device: self.end_command(place),
            subchannel: PROGRAM_CHECK,
            residual: 0,
        })
    }

    fn end_command(&mut self, place: Place) -> u8 {
        match place.command {
            Some(_) => self.device.end(),
            None => 0,
        }
    }

    /// Moves the bytes of a CCW with its command open, and goes on or ends.
    fn transfer(&mut self, ccw: Ccw, next: u32, code: u8, owed: u32) -> Program {
        let moved = if !Class::of(code).is_reading() {
            self.write_out()
        } else if ccw.flags.has(Flags::SKIP) {
            self.skip(usize::from(ccw.count))
        } else {
            self.read_in(Direction::of(code))
        };
        let owed = owed.saturating_sub(moved as u32);
        let residual = ccw.count - moved as u16;
        let chains_data = ccw.flags.has(Flags::CD);
        if residual == 0 && chains_data {
            return Program::Running {
                place: Place::later(next, Some(code)),
                owed,
            };
        }
        let status = self.device.end();
        let suppressed = ccw.flags.has(Flags::SLI) && !chains_data;
        let incorrect = (residual != 0 || owed != 0) && !suppressed;
        chain_command(ccw, next, status, incorrect, residual)
    }

    fn write_out(&mut self) -> usize {
        let mut moved = 0;
        for piece in &self.pieces {
            let first = piece.first as usize;
            let length = piece.length as usize;
            let taken = self.device.take(&self.storage[first..first + length]);
            moved += taken;
            if taken < length {
                break;
            }
        }
        moved
    }

    fn skip(&mut self, count: usize) -> usize {
        let mut nowhere = [0; BLOCK as usize];
        let mut moved = 0;
        while moved < count {
            let length = nowhere.len().min(count - moved);
            let given = self.device.give(&mut nowhere[..length]);
            moved += given;
            if given < length {
                break;
            }
        }
        moved
    }

    fn read_in(&mut self, direction: Direction) -> usize {
        let mut moved = 0;
        for piece in &self.pieces {
            let lowest = piece.lowest(direction) as usize;
            let length = piece.length as usize;
            let bytes = &mut self.storage[lowest..lowest + length];
            let given = match direction {
                Direction::Upward => self.device.give(bytes),
                Direction::Downward => give_downward(&mut self.device, bytes),
            };
            moved += given;
            if given < length {
                break;
            }
        }
        moved
    }
}

/// Fills `bytes`, at most a block, from its last byte to its first.
fn give_downward<D: Device>(device: &mut D, bytes: &mut [u8]) -> usize {
    let mut buffer = [0; BLOCK as usize];
    let given = device.give(&mut buffer[..bytes.len()]);
    for (to, from) in bytes.iter_mut().rev().zip(&buffer[..given]) {
        *to = *from;
    }
    given
}

/// What follows a command that is over: the next one or the end.
fn chain_command(ccw: Ccw, next: u32, device: u8, incorrect: bool, residual: u16) -> Program {
    let chains = ccw.flags.has(Flags::CC) && !ccw.flags.has(Flags::CD);
    if chains && device == DONE && !incorrect {
        return Program::Running {
            place: Place::later(next, None),
            owed: 0,
        };
    }
    let subchannel = if incorrect { INCORRECT_LENGTH } else { 0 };
    Program::Ended(StatusWord {
        ccw_address: next,
        device,
        subchannel,
        residual,
    })
}
