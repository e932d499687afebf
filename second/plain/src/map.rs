//! Maps from a guest's pages to frames of host storage, and the guest's view through one.

use crate::storage::Storage;

pub const PAGE: u32 = 4096;
pub const MOST_PAGES: u32 = 128;
pub const FRAMES: u32 = 256;

/// A refusal: its number and the address it names, 0 where it names none.
#[derive(Clone, Copy, Debug, PartialEq, Eq)]
pub struct Refusal {
    pub number: u8,
    pub address: u32,
}

impl Refusal {
    const FRAME_TAKEN: Refusal = Refusal {
        number: 19,
        address: 0,
    };
    const UNLAWFUL: Refusal = Refusal {
        number: 22,
        address: 0,
    };
}

pub trait Map {
    fn pages(&self) -> u32;

    /// The frame of a page, 0 for a page past the count.
    fn frame(&self, page: u32) -> u32;

    fn is_free(&self, frame: u32) -> bool;

    fn put(&mut self, page: u32, frame: u32) -> Result<(), Refusal>;

    /// The host address of a guest address.
    fn place(&self, guest: u32) -> Result<u32, Refusal> {
        if guest / PAGE < self.pages() {
            Ok(self.frame(guest / PAGE) * PAGE + guest % PAGE)
        } else {
            Err(Refusal {
                number: 16,
                address: guest,
            })
        }
    }

    /// The guest address of a host address, if it has one.
    fn home(&self, host: u32) -> Option<u32> {
        (0..self.pages())
            .find(|&page| self.frame(page) == host / PAGE)
            .map(|page| page * PAGE + host % PAGE)
    }
}

fn is_frame(number: u32) -> bool {
    (1..FRAMES).contains(&number)
}

#[derive(Clone)]
pub struct PageTable {
    frames: Vec<u32>,
    free: [bool; FRAMES as usize],
}

impl PageTable {
    pub fn new(listed: &[u32], free: &[u32]) -> Result<PageTable, Refusal> {
        let wanted = 1..=MOST_PAGES as usize;
        if !wanted.contains(&listed.len()) || !listed.iter().chain(free).all(|&f| is_frame(f)) {
            return Err(Refusal::UNLAWFUL);
        }
        let mut is_free = [false; FRAMES as usize];
        for &frame in free {
            is_free[frame as usize] = true;
        }
        let mut met = is_free;
        for &frame in listed {
            if std::mem::replace(&mut met[frame as usize], true) {
                return Err(Refusal::UNLAWFUL);
            }
        }
        Ok(PageTable {
            frames: listed.to_vec(),
            free: is_free,
        })
    }
}

impl Map for PageTable {
    fn pages(&self) -> u32 {
        self.frames.len() as u32
    }

    fn frame(&self, page: u32) -> u32 {
        self.frames.get(page as usize).copied().unwrap_or(0)
    }

    fn is_free(&self, frame: u32) -> bool {
        self.free.get(frame as usize).copied().unwrap_or(false)
    }

    fn put(&mut self, page: u32, frame: u32) -> Result<(), Refusal> {
        if page >= self.pages() || !self.is_free(frame) {
            return Err(Refusal::FRAME_TAKEN);
        }
        let old = std::mem::replace(&mut self.frames[page as usize], frame);
        self.free[frame as usize] = false;
        self.free[old as usize] = true;
        Ok(())
    }
}

/// Consecutive frames.
#[derive(Clone, Copy)]
pub struct Run {
    first: u32,
    count: u32,
}

impl Run {
    pub fn new(first: u32, count: u32) -> Result<Run, Refusal> {
        let fits = first >= 1 && u64::from(first) + u64::from(count) <= u64::from(FRAMES);
        if fits && (1..=MOST_PAGES).contains(&count) {
            Ok(Run { first, count })
        } else {
            Err(Refusal::UNLAWFUL)
        }
    }
}

impl Map for Run {
    fn pages(&self) -> u32 {
        self.count
    }

    fn frame(&self, page: u32) -> u32 {
        if page < self.count {
            self.first + page
        } else {
            0
        }
    }

    fn is_free(&self, _frame: u32) -> bool {
        false
    }

    fn put(&mut self, _page: u32, _frame: u32) -> Result<(), Refusal> {
        Err(Refusal::FRAME_TAKEN)
    }
}

/// Some consecutive pages of another map.
#[derive(Clone, Copy)]
pub struct Window<M: Map> {
    pub below: M,
    first: u32,
    count: u32,
}

impl<M: Map> Window<M> {
    pub fn new(below: M, first: u32, count: u32) -> Result<Window<M>, Refusal> {
        if count == 0 || u64::from(first) + u64::from(count) > u64::from(below.pages()) {
            return Err(Refusal::UNLAWFUL);
        }
        Ok(Window {
            below,
            first,
            count,
        })
    }
}

impl<M: Map> Map for Window<M> {
    fn pages(&self) -> u32 {
        self.count
    }

    fn frame(&self, page: u32) -> u32 {
        if page < self.count {
            self.below.frame(self.first + page)
        } else {
            0
        }
    }

    fn is_free(&self, frame: u32) -> bool {
        self.below.is_free(frame)
    }

    fn put(&mut self, page: u32, frame: u32) -> Result<(), Refusal> {
        if page < self.count {
            self.below.put(self.first + page, frame)
        } else {
            Err(Refusal::FRAME_TAKEN)
        }
    }
}

/// A guest's storage as it lies in host storage, which has all frames of the map.
pub struct View<'a, M: Map> {
    map: &'a M,
    host: &'a [u8],
}

impl<'a, M: Map> View<'a, M> {
    pub fn new(map: &'a M, host: &'a [u8]) -> View<'a, M> {
        View { map, host }
    }

    /// The host bytes at an address that is inside the guest, up to the end of its page.
    fn from(&self, guest: u32) -> &[u8] {
        &self.host[(self.map.frame(guest / PAGE) * PAGE + guest % PAGE) as usize..]
    }
}

impl<M: Map> Storage for View<'_, M> {
    fn limit(&self) -> u32 {
        self.map.pages() * PAGE
    }

    fn double_word(&self, address: u32) -> [u8; 8] {
        self.from(address)[..8].try_into().expect("8 bytes")
    }

    fn word(&self, address: u32) -> u32 {
        u32::from_be_bytes(self.from(address)[..4].try_into().expect("4 bytes"))
    }
}
