//! Channel command words: the two formats, the flags and the classes of codes.

#[derive(Clone, Copy, Debug, PartialEq, Eq)]
pub enum Format {
    Zero,
    One,
}

#[derive(Clone, Copy, Debug, PartialEq, Eq)]
pub enum Class {
    Invalid,
    Sense,
    TransferInChannel,
    ReadBackward,
    Write,
    Read,
    Control,
}

impl Class {
    pub fn of(code: u8) -> Class {
        match code & 0x0F {
            0x0 => Class::Invalid,
            0x4 => Class::Sense,
            0x8 => Class::TransferInChannel,
            0xC => Class::ReadBackward,
            low => match low & 3 {
                1 => Class::Write,
                2 => Class::Read,
                _ => Class::Control,
            },
        }
    }

    /// Whether bytes go from the device into storage.
    pub fn is_reading(self) -> bool {
        matches!(self, Class::Sense | Class::Read | Class::ReadBackward)
    }
}

/// The flag byte of a CCW.
#[derive(Clone, Copy, Debug, PartialEq, Eq)]
pub struct Flags(pub u8);

impl Flags {
    pub const CD: u8 = 0x80;
    pub const CC: u8 = 0x40;
    pub const SLI: u8 = 0x20;
    pub const SKIP: u8 = 0x10;
    pub const PCI: u8 = 0x08;
    pub const IDA: u8 = 0x04;
    pub const SUSPEND: u8 = 0x02;
    pub const MIDA: u8 = 0x01;

    /// Flags that no CCW may have.
    pub const REFUSED: u8 = Flags::PCI | Flags::SUSPEND | Flags::MIDA;

    pub fn has(self, flag: u8) -> bool {
        self.0 & flag != 0
    }
}

#[derive(Clone, Copy, Debug, PartialEq, Eq)]
pub struct Ccw {
    pub code: u8,
    pub flags: Flags,
    pub count: u16,
    pub address: u32,
}

impl Ccw {
    pub fn from_bytes(format: Format, b: [u8; 8]) -> Ccw {
        match format {
            Format::Zero => Ccw {
                code: b[0],
                flags: Flags(b[4]),
                count: u16::from_be_bytes([b[6], b[7]]),
                address: u32::from_be_bytes([0, b[1], b[2], b[3]]),
            },
            Format::One => Ccw {
                code: b[0],
                flags: Flags(b[1]),
                count: u16::from_be_bytes([b[2], b[3]]),
                address: u32::from_be_bytes([b[4], b[5], b[6], b[7]]),
            },
        }
    }

    /// The 8 bytes of format 1.
    pub fn to_format_one(self) -> [u8; 8] {
        let [c0, c1] = self.count.to_be_bytes();
        let [a0, a1, a2, a3] = self.address.to_be_bytes();
        [self.code, self.flags.0, c0, c1, a0, a1, a2, a3]
    }

    /// Whether the low half of the code is 8: a TIC, or in format 1 perhaps an invalid code.
    pub fn transfers(self) -> bool {
        Class::of(self.code) == Class::TransferInChannel
    }
}

#[cfg(test)]
mod tests {
    use super::*;

    #[test]
    fn classes_by_low_half() {
        use Class::*;
        let expected = [
            Invalid,
            Write,
            Read,
            Control,
            Sense,
            Write,
            Read,
            Control,
            TransferInChannel,
            Write,
            Read,
            Control,
            ReadBackward,
            Write,
            Read,
            Control,
        ];
        for code in 0..=255u8 {
            assert_eq!(Class::of(code), expected[usize::from(code) % 16]);
        }
    }

    #[test]
    fn fields_of_both_formats() {
        let bytes = [0x0A, 0x12, 0x34, 0x56, 0x80, 0xFF, 0x01, 0x02];
        let zero = Ccw::from_bytes(Format::Zero, bytes);
        assert_eq!(zero.address, 0x123456);
        assert_eq!(zero.flags, Flags(0x80));
        assert_eq!(zero.count, 0x0102);
        let one = Ccw::from_bytes(Format::One, bytes);
        assert_eq!(one.flags, Flags(0x12));
        assert_eq!(one.count, 0x3456);
        assert_eq!(one.address, 0x80FF0102);
        assert_eq!(one.to_format_one(), bytes);
    }
}
