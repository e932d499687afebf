//! Taking up a place: finding the CCW, reading it and its area, and rules 1 to 10.

use crate::area::{Direction, Piece, cut};
use crate::ccw::{Ccw, Class, Flags, Format};
use crate::storage::Storage;

/// A CCW address, the code in force if any, and whether no CCW of the program has run before.
#[derive(Clone, Copy, Debug, PartialEq, Eq)]
pub struct Place {
    pub address: u32,
    pub command: Option<u8>,
    pub first: bool,
}

impl Place {
    pub fn start(address: u32) -> Place {
        Place {
            address,
            command: None,
            first: true,
        }
    }

    pub fn later(address: u32, command: Option<u8>) -> Place {
        Place {
            address,
            command,
            first: false,
        }
    }
}

/// A broken rule: its number, the address it names and the one a status word counts from.
#[derive(Clone, Copy, Debug, PartialEq, Eq)]
pub struct Broken {
    pub rule: u8,
    pub names: u32,
    pub counts_from: u32,
}

impl Broken {
    fn at(rule: u8, address: u32) -> Broken {
        Broken {
            rule,
            names: address,
            counts_from: address,
        }
    }
}

/// A CCW and the address it was read at.
#[derive(Clone, Copy, Debug, PartialEq, Eq)]
pub struct Found {
    pub at: u32,
    pub ccw: Ccw,
}

/// Finds the CCW of a place, through a TIC if one stands there.
pub fn find<S: Storage + ?Sized>(
    storage: &S,
    format: Format,
    place: Place,
) -> Result<Found, Broken> {
    let here = fetch(storage, format, place.address)?;
    if !here.ccw.transfers() {
        return Ok(here);
    }
    if format == Format::One && here.ccw.code != 0x08 {
        return Err(Broken::at(4, here.at));
    }
    if place.first {
        return Err(Broken::at(3, here.at));
    }
    if format == Format::One && (here.ccw.flags.0 != 0 || here.ccw.count != 0) {
        return Err(Broken::at(5, here.at));
    }
    let there = fetch(storage, format, here.ccw.address)?;
    if !there.ccw.transfers() {
        Ok(there)
    } else if format == Format::One && there.ccw.code != 0x08 {
        Err(Broken::at(4, there.at))
    } else {
        Err(Broken::at(3, there.at))
    }
}

/// Rules 1 and 2, and the CCW at an address that keeps them.
fn fetch<S: Storage + ?Sized>(storage: &S, format: Format, at: u32) -> Result<Found, Broken> {
    if !at.is_multiple_of(8) {
        return Err(Broken::at(1, at));
    }
    if u64::from(at) + 8 > u64::from(storage.limit()) {
        return Err(Broken::at(2, at));
    }
    let ccw = Ccw::from_bytes(format, storage.double_word(at));
    Ok(Found { at, ccw })
}

/// Checks the CCW found and adds the pieces of its area to `pieces`. Answers the code in force
/// with this CCW.
pub fn read<S: Storage + ?Sized>(
    storage: &S,
    found: Found,
    command: Option<u8>,
    pieces: &mut Vec<Piece>,
) -> Result<u8, Broken> {
    let Found { at, ccw } = found;
    if command.is_none() && Class::of(ccw.code) == Class::Invalid {
        return Err(Broken::at(4, at));
    }
    if ccw.flags.has(Flags::REFUSED) {
        return Err(Broken::at(5, at));
    }
    if ccw.count == 0 {
        return Err(Broken::at(6, at));
    }
    let code = command.unwrap_or(ccw.code);
    let direction = Direction::of(code);
    if ccw.flags.has(Flags::IDA) {
        read_list(storage, found, direction, pieces)?;
    } else {
        let count = u32::from(ccw.count);
        if let Some(names) = direction.first_outside(ccw.address, count, storage.limit()) {
            return Err(Broken {
                rule: 10,
                names,
                counts_from: at,
            });
        }
        cut(direction, ccw.address, count, pieces);
    }
    Ok(code)
}

/// Reads the indirect words of a CCW: rules 7 to 10.
fn read_list<S: Storage + ?Sized>(
    storage: &S,
    Found { at, ccw }: Found,
    direction: Direction,
    pieces: &mut Vec<Piece>,
) -> Result<(), Broken> {
    if !ccw.address.is_multiple_of(4) {
        return Err(Broken::at(7, at));
    }
    let limit = storage.limit();
    let broken = |rule, names| Broken {
        rule,
        names,
        counts_from: at,
    };
    let mut own = ccw.address;
    let mut left = u32::from(ccw.count);
    while left > 0 {
        if u64::from(own) + 4 > u64::from(limit) {
            return Err(broken(8, own));
        }
        let word = storage.word(own);
        if own != ccw.address && !direction.is_boundary(word) {
            return Err(broken(9, own));
        }
        let length = left.min(direction.served(word));
        if let Some(names) = direction.first_outside(word, length, limit) {
            return Err(broken(10, names));
        }
        pieces.push(Piece {
            first: word,
            length,
        });
        left -= length;
        own += 4;
    }
    Ok(())
}
