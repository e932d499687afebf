//! What is read while a place is taken up: CCWs and indirect words of some storage.

/// Storage is addressed with 31 bits.
pub const MOST: usize = 1 << 31;

pub trait Storage {
    /// The number of bytes.
    fn limit(&self) -> u32;

    /// The 8 bytes at `address`, a multiple of 8 whose bytes are inside.
    fn double_word(&self, address: u32) -> [u8; 8];

    /// The number in the 4 bytes at `address`, a multiple of 4 whose bytes are inside.
    fn word(&self, address: u32) -> u32;
}

impl Storage for [u8] {
    fn limit(&self) -> u32 {
        self.len().min(MOST) as u32
    }

    fn double_word(&self, address: u32) -> [u8; 8] {
        let at = address as usize;
        self[at..at + 8].try_into().expect("8 bytes")
    }

    fn word(&self, address: u32) -> u32 {
        let at = address as usize;
        u32::from_be_bytes(self[at..at + 4].try_into().expect("4 bytes"))
    }
}
