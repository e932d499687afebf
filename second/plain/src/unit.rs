//! What console, tape and disk share: the sense byte, the commands 03 and 04, and that only one
//! command is open at a time.

use crate::device::{Begun, Device};

pub const DONE: u8 = 0x0C;
pub const DONE_WITH_CHECK: u8 = 0x0E;
pub const CHECK: u8 = 0x02;
pub const BUSY: u8 = 0x10;

/// Sense bytes.
pub const NOT_READY: u8 = 0x40;
pub const REJECTED: u8 = 0x80;

/// How a model answers a code other than 03 and 04.
pub enum Answer<C> {
    Unknown,
    Immediate { status: u8, sense: Option<u8> },
    Open { command: C, least: u32, most: u32 },
}

impl<C> Answer<C> {
    pub fn refused(status: u8, sense: u8) -> Answer<C> {
        Answer::Immediate {
            status,
            sense: Some(sense),
        }
    }

    pub fn of_length(command: C, length: usize) -> Answer<C> {
        Answer::Open {
            command,
            least: length as u32,
            most: length as u32,
        }
    }
}

/// How a command of a model ends.
pub struct Ending {
    pub status: u8,
    pub sense: Option<u8>,
}

impl Ending {
    pub const GOOD: Ending = Ending {
        status: DONE,
        sense: None,
    };
}

/// A device model without the part that all of them share.
pub trait Model {
    /// An open command, with how far it has got.
    type Command: Copy;

    fn begin(&mut self, code: u8) -> Answer<Self::Command>;
    fn give(&mut self, command: &mut Self::Command, buffer: &mut [u8]) -> usize;
    fn take(&mut self, command: &mut Self::Command, bytes: &[u8]) -> usize;
    fn end(&mut self, command: Self::Command) -> Ending;
}

#[derive(Clone, Copy, Debug, PartialEq, Eq)]
pub enum Open<C> {
    Sense { given: bool },
    Command(C),
}

pub struct Unit<M: Model> {
    pub sense: u8,
    pub open: Option<Open<M::Command>>,
    pub model: M,
}

impl<M: Model> Unit<M> {
    pub fn with(model: M) -> Unit<M> {
        Unit {
            sense: 0,
            open: None,
            model,
        }
    }

    fn note(&mut self, sense: Option<u8>) {
        if let Some(cause) = sense {
            self.sense = cause;
        }
    }
}

impl<M: Model> Device for Unit<M> {
    fn begin(&mut self, code: u8) -> Begun {
        if self.open.is_some() {
            return Begun::Immediate(BUSY);
        }
        match code {
            0x03 => Begun::Immediate(DONE),
            0x04 => {
                self.open = Some(Open::Sense { given: false });
                Begun::Open { least: 1, most: 1 }
            }
            _ => match self.model.begin(code) {
                Answer::Unknown => {
                    self.sense = REJECTED;
                    Begun::Immediate(CHECK)
                }
                Answer::Immediate { status, sense } => {
                    self.note(sense);
                    Begun::Immediate(status)
                }
                Answer::Open {
                    command,
                    least,
                    most,
                } => {
                    self.open = Some(Open::Command(command));
                    Begun::Open { least, most }
                }
            },
        }
    }

    fn give(&mut self, buffer: &mut [u8]) -> usize {
        match &mut self.open {
            Some(Open::Sense { given }) if !*given && !buffer.is_empty() => {
                buffer[0] = self.sense;
                *given = true;
                1
            }
            Some(Open::Command(command)) => self.model.give(command, buffer),
            _ => 0,
        }
    }

    fn take(&mut self, bytes: &[u8]) -> usize {
        match &mut self.open {
            Some(Open::Command(command)) => self.model.take(command, bytes),
            _ => 0,
        }
    }

    fn end(&mut self) -> u8 {
        match self.open.take() {
            None => 0x00,
            Some(Open::Sense { .. }) => {
                self.sense = 0;
                DONE
            }
            Some(Open::Command(command)) => {
                let ending = self.model.end(command);
                self.note(ending.sense);
                ending.status
            }
        }
    }
}

/// Copies the bytes of `list` from `*given` on into `buffer`, as many as fit or are left.
pub fn hand_out(list: &[u8], given: &mut usize, buffer: &mut [u8]) -> usize {
    let moved = buffer.len().min(list.len() - *given);
    buffer[..moved].copy_from_slice(&list[*given..*given + moved]);
    *given += moved;
    moved
}
