//! The walk over a guest's program before anything runs.

use crate::area::Piece;
use crate::ccw::{Ccw, Flags, Format};
use crate::map::Refusal;
use crate::place::{Broken, Found, Place, find, read};
use crate::storage::Storage;

pub const MOST_CELLS: usize = 64;
pub const MOST_WORDS: usize = 768;

/// A place that the walk met.
#[derive(Clone, Copy, Debug, PartialEq, Eq)]
pub struct Cell {
    /// The guest address of the CCW.
    pub at: u32,
    pub ccw: Ccw,
    /// The command in force when the place was taken up.
    pub command: Option<u8>,
    /// The code in force with this CCW.
    pub code: u8,
    /// The number of pieces of the cells before this one, and with it.
    pub pieces: (usize, usize),
}

pub struct Walked {
    pub cells: Vec<Cell>,
    pub pieces: Vec<Piece>,
    /// The cell at which the walk closed, if it did.
    pub closed: Option<usize>,
}

impl From<Broken> for Refusal {
    fn from(broken: Broken) -> Refusal {
        Refusal {
            number: broken.rule,
            address: broken.names,
        }
    }
}

pub fn walk<S: Storage>(storage: &S, start: u32) -> Result<Walked, Refusal> {
    let mut cells: Vec<Cell> = Vec::with_capacity(MOST_CELLS);
    let mut pieces = Vec::new();
    let mut place = Place::start(start);
    loop {
        let found = find(storage, Format::Zero, place)?;
        let met = |cell: &Cell| cell.at == found.at && cell.command == place.command;
        let closed = cells.iter().position(met);
        if closed.is_some() {
            return Ok(Walked {
                cells,
                pieces,
                closed,
            });
        }
        let cell = visit(storage, found, place.command, cells.len(), &mut pieces)?;
        cells.push(cell);
        let next = found.at.wrapping_add(8);
        if found.ccw.flags.has(Flags::CD) {
            place = Place::later(next, Some(cell.code));
        } else if found.ccw.flags.has(Flags::CC) {
            place = Place::later(next, None);
        } else {
            return Ok(Walked {
                cells,
                pieces,
                closed: None,
            });
        }
    }
}

/// Meets a place that was not met before, after `met` others.
fn visit<S: Storage>(
    storage: &S,
    found: Found,
    command: Option<u8>,
    met: usize,
    pieces: &mut Vec<Piece>,
) -> Result<Cell, Refusal> {
    let Found { at, ccw } = found;
    if met == MOST_CELLS {
        return Err(Refusal {
            number: 11,
            address: at,
        });
    }
    let before = pieces.len();
    let code = read(storage, found, command, pieces)?;
    if pieces.len() > MOST_WORDS {
        return Err(Refusal {
            number: 12,
            address: at,
        });
    }
    Ok(Cell {
        at,
        ccw,
        command,
        code,
        pieces: (before, pieces.len()),
    })
}
