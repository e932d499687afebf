//! What a channel asks of a device.

#[derive(Clone, Copy, Debug, PartialEq, Eq)]
pub enum Begun {
    /// The command is over at once, with this status.
    Immediate(u8),
    /// The command moves at most `most` bytes; fewer than `least` are an incorrect length.
    Open { least: u32, most: u32 },
}

pub trait Device {
    fn begin(&mut self, code: u8) -> Begun;

    /// Hands out bytes of the open reading command; answers how many.
    fn give(&mut self, buffer: &mut [u8]) -> usize;

    /// Accepts bytes for the open writing command; answers how many.
    fn take(&mut self, bytes: &[u8]) -> usize;

    /// Closes the open command and answers its status.
    fn end(&mut self) -> u8;
}
