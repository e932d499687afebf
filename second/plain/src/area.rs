//! The area of a CCW: pieces of 2,048-byte blocks, upward or downward.

use crate::ccw::Class;

pub const BLOCK: u32 = 2048;

#[derive(Clone, Copy, Debug, PartialEq, Eq)]
pub enum Direction {
    Upward,
    Downward,
}

impl Direction {
    /// The direction in which the area of a command goes.
    pub fn of(code_in_force: u8) -> Direction {
        match Class::of(code_in_force) {
            Class::ReadBackward => Direction::Downward,
            _ => Direction::Upward,
        }
    }

    /// The number of bytes from `from` to the end of its block in this direction.
    pub fn served(self, from: u32) -> u32 {
        match self {
            Direction::Upward => BLOCK - from % BLOCK,
            Direction::Downward => from % BLOCK + 1,
        }
    }

    /// Whether a later indirect word stands at its block boundary.
    pub fn is_boundary(self, word: u32) -> bool {
        match self {
            Direction::Upward => word % BLOCK == 0,
            Direction::Downward => word % BLOCK == BLOCK - 1,
        }
    }

    /// The first byte outside a storage of `limit` bytes of `count` bytes from `from`, in the
    /// order of the transfer. A byte below 0 is given as FFFFFFFF.
    pub fn first_outside(self, from: u32, count: u32, limit: u32) -> Option<u32> {
        match self {
            Direction::Upward => {
                (u64::from(from) + u64::from(count) > u64::from(limit)).then_some(from.max(limit))
            }
            Direction::Downward if from >= limit => Some(from),
            Direction::Downward => (count > from + 1).then_some(u32::MAX),
        }
    }
}

/// A part of an area that lies inside one block: the first byte moved and the length.
#[derive(Clone, Copy, Debug, PartialEq, Eq)]
pub struct Piece {
    pub first: u32,
    pub length: u32,
}

impl Piece {
    /// The lowest address of the piece.
    pub fn lowest(self, direction: Direction) -> u32 {
        match direction {
            Direction::Upward => self.first,
            Direction::Downward => self.first + 1 - self.length,
        }
    }
}

/// Cuts `count` bytes from `from` on at block ends. The bytes are known to lie inside storage.
pub fn cut(direction: Direction, from: u32, count: u32, pieces: &mut Vec<Piece>) {
    let mut first = from;
    let mut left = count;
    while left > 0 {
        let length = left.min(direction.served(first));
        pieces.push(Piece { first, length });
        left -= length;
        // Behind the last piece this may leave 32 bits or fall below 0; it is not used there.
        first = match direction {
            Direction::Upward => first.wrapping_add(length),
            Direction::Downward => first.wrapping_sub(length),
        };
    }
}

#[cfg(test)]
mod tests {
    use super::*;

    fn pieces(direction: Direction, from: u32, count: u32) -> Vec<(u32, u32)> {
        let mut list = Vec::new();
        cut(direction, from, count, &mut list);
        list.iter().map(|p| (p.first, p.length)).collect()
    }

    #[test]
    fn cuts_at_block_ends() {
        assert_eq!(
            pieces(Direction::Upward, 0xFFE, 4),
            [(0xFFE, 2), (0x1000, 2)]
        );
        assert_eq!(
            pieces(Direction::Downward, 0x1001, 4),
            [(0x1001, 2), (0xFFF, 2)]
        );
        assert_eq!(pieces(Direction::Downward, 0, 1), [(0, 1)]);
    }

    #[test]
    fn at_most_33_pieces() {
        assert_eq!(pieces(Direction::Upward, 2047, 65_535).len(), 33);
        assert_eq!(pieces(Direction::Downward, 100_352, 65_535).len(), 33);
    }

    #[test]
    fn bytes_outside() {
        use Direction::*;
        assert_eq!(Upward.first_outside(0x3FFF, 1, 0x4000), None);
        assert_eq!(Upward.first_outside(0x3FFF, 2, 0x4000), Some(0x4000));
        assert_eq!(Upward.first_outside(0x5000, 4, 0x4000), Some(0x5000));
        assert_eq!(
            Upward.first_outside(u32::MAX, 65_535, 0x4000),
            Some(u32::MAX)
        );
        assert_eq!(Downward.first_outside(1, 2, 0x4000), None);
        assert_eq!(Downward.first_outside(1, 3, 0x4000), Some(u32::MAX));
        assert_eq!(Downward.first_outside(0x4001, 1, 0x4000), Some(0x4001));
        assert_eq!(Downward.first_outside(u32::MAX, 1, 0x4000), Some(u32::MAX));
    }
}
