//! The worked examples of docs/RULES.md, section 14, and a few small ones for maps and translation.
//! Expected values are those of that page.

use crate::area::Piece;
use crate::ccw::Format;
use crate::channel::{Channel, Program};
use crate::console::Console;
use crate::device::{Begun, Device};
use crate::disk::{Disk, Location};
use crate::map::{Map, PageTable, Refusal, Run, Window};
use crate::place::{Place, find, read};
use crate::tape::Tape;
use crate::translate::translate;
use crate::unit::Unit;

const LINE: [u8; 5] = [0xC8, 0xC5, 0xD3, 0xD3, 0xD6];

/// Bytes written in hexadecimal; spaces do not count.
fn hex(text: &str) -> Vec<u8> {
    let digits: Vec<u8> = text
        .chars()
        .filter(|c| !c.is_whitespace())
        .map(|c| c.to_digit(16).expect("a hexadecimal digit") as u8)
        .collect();
    digits
        .chunks(2)
        .map(|pair| pair[0] * 16 + pair[1])
        .collect()
}

/// 16,384 bytes with these bytes at these addresses.
fn storage(parts: &[(usize, &str)]) -> Vec<u8> {
    let mut bytes = vec![0; 16_384];
    for (at, text) in parts {
        let part = hex(text);
        bytes[*at..at + part.len()].copy_from_slice(&part);
    }
    bytes
}

fn console(line: &[u8]) -> Unit<Console> {
    Console::with_line(line).expect("a short line")
}

/// Runs to the end and answers the status word.
fn status<D: Device>(channel: &mut Channel<D>, start: u32) -> Vec<u8> {
    let mut program = Program::start(start);
    channel.run(&mut program, 1000);
    match program {
        Program::Ended(word) => word.to_bytes().to_vec(),
        Program::Running { .. } => panic!("still running"),
    }
}

fn on_console(parts: &[(usize, &str)], line: &[u8]) -> Channel<Unit<Console>> {
    Channel::new(storage(parts), Format::Zero, console(line))
}

/// The answer of taking up a first place: its pieces, or rule and address.
fn taken_up(format: Format, bytes: &[u8], place: Place) -> Result<Vec<Piece>, (u8, u32)> {
    let mut pieces = Vec::new();
    find(bytes, format, place)
        .and_then(|found| read(bytes, found, place.command, &mut pieces))
        .map_err(|broken| (broken.rule, broken.names))?;
    Ok(pieces)
}

#[test]
fn a_read_longer_than_the_line() {
    let cases = [
        ("0A 000200 00 00 0008", "00000108 0C 40 0003"),
        ("0A 000200 00 00 0005", "00000108 0C 00 0000"),
        ("0A 000200 00 00 0003", "00000108 0C 40 0000"),
        ("0A 000200 20 00 0008", "00000108 0C 00 0003"),
        ("0A 000200 A0 00 0008", "00000108 0C 40 0003"),
        ("0A 000200 10 00 0008", "00000108 0C 40 0003"),
    ];
    for (ccw, expected) in cases {
        let mut channel = on_console(&[(0x100, ccw)], &LINE);
        assert_eq!(status(&mut channel, 0x100), hex(expected), "{ccw}");
        let stored = if ccw.contains(" 10 00") {
            [0; 3]
        } else {
            [0xC8, 0xC5, 0xD3]
        };
        assert_eq!(channel.storage[0x200..0x203], stored, "{ccw}");
    }
}

#[test]
fn no_line_and_a_busy_device() {
    let read = [(0x100, "0A 000200 00 00 0008")];
    let mut channel = on_console(&read, &[]);
    assert_eq!(status(&mut channel, 0x100), hex("00000108 0E 00 0008"));
    assert_eq!(channel.device.sense, 0x40);
    let mut channel = on_console(&read, &LINE);
    channel.device.begin(0x09);
    assert_eq!(status(&mut channel, 0x100), hex("00000108 10 00 0008"));
    assert!(channel.device.open.is_some());
}

#[test]
fn a_data_chain() {
    let second = (0x108, "00 000300 00 00 0002");
    let mut channel = on_console(&[(0x100, "0A 000200 80 00 0003"), second], &LINE);
    assert_eq!(status(&mut channel, 0x100), hex("00000110 0C 00 0000"));
    assert_eq!(channel.storage[0x200..0x203], LINE[..3]);
    assert_eq!(channel.storage[0x300..0x302], LINE[3..]);
    let mut channel = on_console(&[(0x100, "0A 000200 80 00 0005"), second], &LINE);
    assert_eq!(status(&mut channel, 0x100), hex("00000110 0C 40 0002"));
    let mut channel = on_console(&[second], &LINE);
    assert_eq!(status(&mut channel, 0x108), hex("00000110 00 20 0000"));
}

#[test]
fn a_transfer_first() {
    for ccw in ["08 000200 00 00 0000", "58 000200 FF 00 FFFF"] {
        let mut channel = on_console(&[(0x100, ccw)], &LINE);
        assert_eq!(status(&mut channel, 0x100), hex("00000108 00 20 0000"));
        let place = Place::start(0x100);
        assert_eq!(
            taken_up(Format::Zero, &channel.storage, place),
            Err((3, 0x100))
        );
    }
}

#[test]
fn a_loop_run_and_halted() {
    let parts = [
        (0x100, "03 000000 40 00 0001"),
        (0x108, "08 000100 00 00 0000"),
    ];
    let mut channel = on_console(&parts, &LINE);
    let mut program = Program::start(0x100);
    let before = channel.halt(program);
    assert_eq!(before.to_bytes().to_vec(), hex("00000000 00 00 0000"));
    assert_eq!(channel.run(&mut program, 3), 3);
    assert!(matches!(program, Program::Running { .. }));
    assert_eq!(
        channel.halt(program).to_bytes().to_vec(),
        hex("00000108 00 00 0000")
    );
}

#[test]
fn inside_a_data_chain() {
    let parts = [
        (0x100, "09 000200 80 00 0004"),
        (0x108, "00 000300 00 00 0000"),
    ];
    let mut channel = on_console(&parts, &LINE);
    let mut program = Program::start(0x100);
    assert_eq!(channel.run(&mut program, 1), 1);
    assert_eq!(channel.device.model.paper, [0; 4]);
    assert_eq!(
        channel.halt(program).to_bytes().to_vec(),
        hex("00000108 0C 00 0000")
    );
    let mut channel = on_console(&parts, &LINE);
    assert_eq!(status(&mut channel, 0x100), hex("00000110 0C 20 0000"));
}

#[test]
fn areas() {
    let cases = [
        ("09 000FFE 00 00 0004", "", vec![(0xFFE, 2), (0x1000, 2)]),
        ("0C 001001 00 00 0004", "", vec![(0x1001, 2), (0xFFF, 2)]),
        (
            "09 000400 04 00 0004",
            "00000FFE 00003800",
            vec![(0xFFE, 2), (0x3800, 2)],
        ),
        (
            "0C 000400 04 00 0004",
            "00001001 000027FF",
            vec![(0x1001, 2), (0x27FF, 2)],
        ),
        (
            "0C 000400 04 00 0002",
            "00001001 000027FF",
            vec![(0x1001, 2)],
        ),
    ];
    for (ccw, words, expected) in cases {
        let bytes = storage(&[(0x100, ccw), (0x400, words)]);
        let pieces = taken_up(Format::Zero, &bytes, Place::start(0x100)).expect("a CCW");
        let pairs: Vec<_> = pieces.iter().map(|p| (p.first, p.length)).collect();
        assert_eq!(pairs, expected, "{ccw}");
    }
}

#[test]
fn rules_7_to_10() {
    let cases = [
        ("01 003FFF 00 00 0001", "", None),
        ("01 003FFF 00 00 0002", "", Some((10, 0x4000))),
        ("01 005000 00 00 0004", "", Some((10, 0x5000))),
        ("0C 000001 00 00 0002", "", None),
        ("0C 000001 00 00 0003", "", Some((10, 0xFFFF_FFFF))),
        ("0C 004001 00 00 0001", "", Some((10, 0x4001))),
        ("09 000402 04 00 0001", "", Some((7, 0x100))),
        ("09 004000 04 00 0001", "", Some((8, 0x4000))),
        (
            "0C 000400 04 00 0004",
            "00001001 00002800",
            Some((9, 0x404)),
        ),
        (
            "09 000400 04 00 0004",
            "00000FFE 00004000",
            Some((10, 0x4000)),
        ),
    ];
    for (ccw, words, expected) in cases {
        let bytes = storage(&[(0x100, ccw), (0x400, words)]);
        let broken = taken_up(Format::Zero, &bytes, Place::start(0x100)).err();
        assert_eq!(broken, expected, "{ccw}");
        if expected.is_some() {
            let mut channel = Channel::new(bytes, Format::Zero, console(&LINE));
            assert_eq!(
                status(&mut channel, 0x100),
                hex("00000108 00 20 0000"),
                "{ccw}"
            );
        }
    }
}

#[test]
fn format_one() {
    let cases = [
        ("18 00 0000 00000100", (4, 0x108), "00000110 00 20 0000"),
        ("08 20 0000 00000100", (5, 0x108), "00000110 00 20 0000"),
        ("08 00 0001 00000100", (5, 0x108), "00000110 00 20 0000"),
        (
            "08 00 0000 FFFFFFF8",
            (2, 0xFFFF_FFF8),
            "00000000 00 20 0000",
        ),
        ("08 00 0000 00000104", (1, 0x104), "0000010C 00 20 0000"),
        ("08 00 0000 00000108", (3, 0x108), "00000110 00 20 0000"),
    ];
    let first = (0x100, "03 40 0001 00000000");
    for (ccw, expected, word) in cases {
        let bytes = storage(&[first, (0x108, ccw)]);
        let place = Place::later(0x108, None);
        assert_eq!(taken_up(Format::One, &bytes, place), Err(expected), "{ccw}");
        let mut channel = Channel::new(bytes, Format::One, console(&LINE));
        assert_eq!(status(&mut channel, 0x100), hex(word), "{ccw}");
    }
    let looping = storage(&[first, (0x108, "08 00 0000 00000100")]);
    let mut channel = Channel::new(looping, Format::One, console(&LINE));
    assert_eq!(channel.run(&mut Program::start(0x100), 9), 9);
    for (ccw, rule) in [("08 20 0000 00000100", 3), ("18 20 0000 00000100", 4)] {
        let bytes = storage(&[(0x100, ccw)]);
        assert_eq!(
            taken_up(Format::One, &bytes, Place::start(0x100)),
            Err((rule, 0x100))
        );
    }
}

#[test]
fn a_tape_backward_and_rewritten() {
    let mut tape = Tape::with_blocks(&[vec![1, 2, 3], vec![4]]).expect("a tape");
    assert_eq!(tape.begin(0x0C), Begun::Immediate(0x0E));
    assert_eq!(tape.begin(0x02), Begun::Open { least: 3, most: 3 });
    assert_eq!(tape.end(), 0x0C);
    assert_eq!(tape.begin(0x0C), Begun::Open { least: 3, most: 3 });
    let mut buffer = [9; 4];
    assert_eq!(tape.give(&mut buffer), 3);
    assert_eq!(buffer, [3, 2, 1, 9]);
    tape.end();
    assert_eq!(
        tape.begin(0x01),
        Begun::Open {
            least: 1,
            most: 4096
        }
    );
    assert_eq!(tape.take(&[7, 8]), 2);
    tape.end();
    assert_eq!(tape.model.blocks, [vec![7, 8]]);
    assert_eq!(tape.model.position, 1);
    assert!(Tape::with_blocks(&[vec![]]).is_none());
    assert!(Tape::with_blocks(&[vec![0; 4097]]).is_none());
    assert!(Tape::with_blocks(&vec![vec![0; 129]; 64]).is_none());
    assert!(Tape::with_blocks(&vec![vec![0; 1]; 65]).is_none());
}

#[test]
fn a_disk_located_and_written() {
    let mut disk = Disk::with_bytes(&[5; 32_768]).expect("a disk");
    assert_eq!(disk.begin(0x42), Begun::Immediate(0x02));
    assert_eq!(disk.sense, 0x80);
    disk.begin(0x43);
    assert_eq!(disk.take(&[0, 1, 0, 64, 0]), 4);
    assert_eq!(disk.end(), 0x0E);
    disk.begin(0x43);
    disk.take(&[0, 1, 0, 63]);
    assert_eq!(disk.end(), 0x0C);
    assert_eq!(
        disk.model.location,
        Some(Location {
            first: 63,
            count: 1
        })
    );
    assert_eq!(
        disk.begin(0x41),
        Begun::Open {
            least: 512,
            most: 512
        }
    );
    assert_eq!(disk.take(&[6; 600]), 512);
    assert_eq!(disk.end(), 0x0C);
    assert_eq!(disk.model.location, None);
    assert_eq!(disk.model.bytes[32_255..32_257], [5, 6]);
}

#[test]
fn maps() {
    let mut table = PageTable::new(&[3, 1], &[2]).expect("a lawful table");
    assert_eq!(table.place(0x1004), Ok(0x1004));
    assert_eq!(table.place(0x0FFF), Ok(0x3FFF));
    assert_eq!(
        table.place(0x2000),
        Err(Refusal {
            number: 16,
            address: 0x2000
        })
    );
    assert_eq!(table.home(0x3005), Some(0x0005));
    assert_eq!(table.home(0x2005), None);
    assert!(table.put(2, 2).is_err());
    assert!(table.put(0, 1).is_err());
    assert_eq!(table.put(0, 2), Ok(()));
    assert_eq!(
        (table.frame(0), table.is_free(3), table.is_free(2)),
        (2, true, false)
    );
    for (listed, free) in [
        (&[3, 3][..], &[][..]),
        (&[3], &[3]),
        (&[0], &[]),
        (&[], &[1]),
        (&[1], &[256]),
    ] {
        assert!(PageTable::new(listed, free).is_err());
    }
    assert!(Run::new(128, 128).is_ok());
    assert!(Run::new(129, 128).is_err() && Run::new(0, 1).is_err() && Run::new(1, 129).is_err());
    let window = Window::new(Run::new(4, 3).expect("a run"), 1, 2).expect("a window");
    assert_eq!(window.place(0x1FFF), Ok(0x6FFF));
    assert!(Window::new(window, 1, 2).is_err() && Window::new(window, 0, 0).is_err());
}

#[test]
fn a_translated_loop() {
    let map = Run::new(1, 2).expect("a run");
    let mut host = vec![0; 3 * 4096];
    let parts = [
        (0x1100, "09 000FFE C0 00 0004"),
        (0x1108, "00 000200 44 00 0801"),
        (0x1110, "08 000100 00 00 0000"),
        (0x1200, "000007FF 00001800"),
    ];
    for (at, text) in parts {
        let bytes = hex(text);
        host[at..at + bytes.len()].copy_from_slice(&bytes);
    }
    let kept = translate(&map, &host, 0x100).unwrap_or_else(|r| panic!("{r:?}"));
    let mut expected = vec![0; 4096];
    let cells = hex("09 C4 0004 00000400  09 44 0801 00000408  08 00 0000 00000000");
    expected[..24].copy_from_slice(&cells);
    let words = hex("00001FFE 00002000 000017FF 00002800");
    expected[0x400..0x410].copy_from_slice(&words);
    assert_eq!(kept.frame.to_vec(), expected);
    assert_eq!((kept.back.clone(), kept.words), (vec![0x100, 0x108], 4));
    assert_eq!(
        kept.own.iter().collect::<Vec<_>>(),
        [(0x100, 0x118), (0x200, 0x208)]
    );
    assert_eq!(kept.pages_with_data[..3], [true, true, false]);
    let addresses = [0, 8, 16, 24, 12].map(|host| kept.guest_ccw_address(host));
    assert_eq!(addresses, [0, 0x108, 0x110, 0, 0]);
}

#[test]
fn reads_over_the_program() {
    let map = Run::new(1, 1).expect("a run");
    let mut host = vec![0; 2 * 4096];
    for (flags, last, refused) in [
        (0x00, 0x107, true),
        (0x00, 0x0FF, false),
        (0x10, 0x107, false),
    ] {
        let count = last - 0xF0 + 1;
        host[0x1100..0x1108].copy_from_slice(&[0x02, 0, 0, 0xF0, flags, 0, 0, count as u8]);
        let answer = translate(&map, &host, 0x100).err();
        assert_eq!(
            answer,
            refused.then_some(Refusal {
                number: 13,
                address: 0x100
            })
        );
    }
}
