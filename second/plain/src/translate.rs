//! The translator: a guest's program becomes one frame that the host's channel runs.

use crate::area::{Direction, Piece};
use crate::ccw::{Ccw, Class, Flags};
use crate::map::{MOST_PAGES, Map, PAGE, Refusal, View};
use crate::walk::{Cell, Walked, walk};

pub const FRAME: usize = 4096;
/// Where the lists of words begin in the program frame.
pub const LISTS: usize = 0x400;

/// Guest addresses as sorted ranges that do not touch one another.
#[derive(Clone, Debug, PartialEq, Eq)]
pub struct Ranges(Vec<(u32, u32)>);

impl Ranges {
    fn new(mut ranges: Vec<(u32, u32)>) -> Ranges {
        ranges.sort_unstable();
        let mut joined: Vec<(u32, u32)> = Vec::with_capacity(ranges.len());
        for (from, to) in ranges {
            match joined.last_mut() {
                Some(last) if from <= last.1 => last.1 = last.1.max(to),
                _ => joined.push((from, to)),
            }
        }
        Ranges(joined)
    }

    /// Whether an address of `from..to` is among them.
    pub fn touches(&self, from: u32, to: u32) -> bool {
        let behind = self.0.partition_point(|range| range.1 <= from);
        self.0.get(behind).is_some_and(|range| range.0 < to)
    }

    pub fn contains(&self, address: u32) -> bool {
        self.touches(address, address + 1)
    }

    pub fn iter(&self) -> impl Iterator<Item = (u32, u32)> + '_ {
        self.0.iter().copied()
    }
}

/// What is kept of an accepted program.
pub struct Translation {
    pub frame: [u8; FRAME],
    /// For each cell the guest address of its CCW.
    pub back: Vec<u32>,
    pub words: usize,
    pub own: Ranges,
    pub pages_with_data: [bool; MOST_PAGES as usize],
}

impl Translation {
    /// The guest's CCW address for one in a status word of the host's channel.
    pub fn guest_ccw_address(&self, host: u32) -> u32 {
        if !host.is_multiple_of(8) || host == 0 {
            return 0;
        }
        let cell = (host / 8 - 1) as usize;
        self.back.get(cell).map_or(0, |at| at.wrapping_add(8))
    }
}

pub fn translate<M: Map>(map: &M, host: &[u8], start: u32) -> Result<Translation, Refusal> {
    let walked = walk(&View::new(map, host), start)?;
    let own = own_bytes(&walked.cells);
    refuse_reads_over(&walked, &own)?;
    Ok(Translation {
        frame: program_frame(map, &walked)?,
        back: walked.cells.iter().map(|cell| cell.at).collect(),
        words: walked.pieces.len(),
        pages_with_data: pages_with_data(&walked),
        own,
    })
}

fn own_bytes(cells: &[Cell]) -> Ranges {
    let mut ranges = Vec::with_capacity(2 * cells.len());
    for cell in cells {
        let flags = cell.ccw.flags;
        let behind = if flags.has(Flags::CD | Flags::CC) {
            8
        } else {
            0
        };
        ranges.push((cell.at, cell.at + 8 + behind));
        if flags.has(Flags::IDA) {
            let words = (cell.pieces.1 - cell.pieces.0) as u32;
            ranges.push((cell.ccw.address, cell.ccw.address + 4 * words));
        }
    }
    Ranges::new(ranges)
}

/// The cells with the lowest and highest address of each of their pieces.
fn areas(walked: &Walked) -> impl Iterator<Item = (&Cell, impl Iterator<Item = (u32, u32)>)> {
    walked.cells.iter().map(|cell| {
        let direction = Direction::of(cell.code);
        let pieces: &[Piece] = &walked.pieces[cell.pieces.0..cell.pieces.1];
        let ends = pieces.iter().map(move |piece| {
            let lowest = piece.lowest(direction);
            (lowest, lowest + piece.length)
        });
        (cell, ends)
    })
}

/// Refusal 13.
fn refuse_reads_over(walked: &Walked, own: &Ranges) -> Result<(), Refusal> {
    for (cell, mut pieces) in areas(walked) {
        let stores = Class::of(cell.code).is_reading() && !cell.ccw.flags.has(Flags::SKIP);
        if stores && pieces.any(|(from, to)| own.touches(from, to)) {
            return Err(Refusal {
                number: 13,
                address: cell.at,
            });
        }
    }
    Ok(())
}

fn pages_with_data(walked: &Walked) -> [bool; MOST_PAGES as usize] {
    let mut pages = [false; MOST_PAGES as usize];
    for (_, pieces) in areas(walked) {
        // A piece lies inside one block, so inside one page.
        for (from, _) in pieces {
            pages[(from / PAGE) as usize] = true;
        }
    }
    pages
}

fn program_frame<M: Map>(map: &M, walked: &Walked) -> Result<[u8; FRAME], Refusal> {
    let mut frame = [0; FRAME];
    for (i, cell) in walked.cells.iter().enumerate() {
        let kept = Flags::CD | Flags::CC | Flags::SLI | Flags::SKIP;
        let translated = Ccw {
            code: cell.code,
            flags: Flags(cell.ccw.flags.0 & kept | Flags::IDA),
            count: cell.ccw.count,
            address: (LISTS + 4 * cell.pieces.0) as u32,
        };
        frame[8 * i..8 * i + 8].copy_from_slice(&translated.to_format_one());
    }
    if let Some(j) = walked.closed {
        let transfer = Ccw {
            code: 0x08,
            flags: Flags(0),
            count: 0,
            address: 8 * j as u32,
        };
        let at = 8 * walked.cells.len();
        frame[at..at + 8].copy_from_slice(&transfer.to_format_one());
    }
    for (word, piece) in frame[LISTS..].chunks_exact_mut(4).zip(&walked.pieces) {
        word.copy_from_slice(&map.place(piece.first)?.to_be_bytes());
    }
    Ok(frame)
}
