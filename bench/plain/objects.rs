// Objects and regions.

use crate::frames::NO_TASK;
use crate::ports::NONE;
use crate::script::Kind;

#[derive(Clone, Copy, PartialEq)]
pub enum Pager {
    Without,
    Sent,
    Ready,
}

// What is kept of a page: its frame plus 1, or 0 where it has none; whether it was ever raised there; and whether its pager is known
// not to have it.
const FRAME: u16 = 0x1fff;
const RAISED: u16 = 0x4000;
const ABSENT: u16 = 0x8000;

/// An object on a host.
pub struct Object {
    pub number: u32,
    pub control: u32,
    /// The regions and shadows over it, and one more where it stays without.
    pub references: u32,
    /// The backing object's index, and the shift to its pages.
    pub under: u32,
    pub shift: u32,
    /// The number of its pages, where it is temporary.
    pub length: u32,
    /// How many shadows are over it, and their indices, each a bit's sum without carries: of one it is its index.
    pub shadows: u32,
    pub over: u32,
    /// The index of the newest copy object of a file that still lives.
    pub newest: u32,
    // How many pages have a frame.
    resident: u32,
    // By page, as far as something is known.
    pages: Vec<u16>,
    /// The last task that began to wait for ready.
    pub waiter: u16,
    pub host: u8,
    pub kind: Kind,
    /// What the kernel knows of the pager; a control lives but where it is without.
    pub pager: Pager,
    /// Whether it stays when its last entry goes.
    pub stays: bool,
    /// Whether it is a copy object of a file.
    pub is_copy: bool,
}

impl Object {
    pub fn new(number: u32, host: u8, kind: Kind) -> Object {
        Object {
            number,
            control: 0,
            references: 0,
            under: NONE,
            shift: 0,
            length: 0,
            shadows: 0,
            over: 0,
            newest: NONE,
            resident: 0,
            pages: Vec::new(),
            waiter: NO_TASK,
            host,
            kind,
            pager: Pager::Without,
            stays: false,
            is_copy: false,
        }
    }

    /// A temporary object under one region, and over another object or none.
    pub fn temporary(number: u32, host: u8, under: u32, shift: u32, length: u32) -> Object {
        Object { references: 1, under, shift, length, ..Object::new(number, host, Kind::Temporary) }
    }

    /// A copy object of a file, under one region.
    pub fn copy_of(file: u32, number: u32, host: u8, length: u32) -> Object {
        Object { is_copy: true, ..Object::temporary(number, host, file, 0, length) }
    }

    /// Whether nothing but one shadow is over it, it never had a control, and it is no copy object.
    pub fn is_lower(&self) -> bool {
        self.references == 1 && self.shadows == 1 && self.control == 0 && !self.is_copy
    }

    fn known(&self, page: u32) -> u16 {
        self.pages.get(page as usize).copied().unwrap_or(0)
    }

    fn known_mut(&mut self, page: u32) -> &mut u16 {
        let page = page as usize;
        if page >= self.pages.len() {
            self.pages.resize(page + 1, 0);
        }
        &mut self.pages[page]
    }

    /// The frame of a page that is here or asked.
    pub fn frame(&self, page: u32) -> Option<u16> {
        (self.known(page) & FRAME).checked_sub(1)
    }

    pub fn set_frame(&mut self, page: u32, frame: u16) {
        *self.known_mut(page) |= frame + 1;
        self.resident += 1;
    }

    pub fn clear_frame(&mut self, page: u32) {
        *self.known_mut(page) &= !FRAME;
        self.resident -= 1;
    }

    /// The number of pages that are looked at to find all that have a frame.
    pub fn reach(&self) -> u32 {
        if self.resident == 0 {
            0
        } else {
            self.pages.len() as u32
        }
    }

    /// Whether the pager may have a page that has no frame.
    pub fn may_come(&self, page: u32) -> bool {
        self.pager != Pager::Without && self.known(page) & ABSENT == 0
    }

    pub fn note_absent(&mut self, page: u32) {
        *self.known_mut(page) |= ABSENT;
    }

    /// A page was returned, so its pager has it.
    pub fn note_returned(&mut self, page: u32) {
        *self.known_mut(page) &= !ABSENT;
    }

    pub fn was_raised(&self, page: u32) -> bool {
        self.known(page) & RAISED != 0
    }

    pub fn note_raised(&mut self, page: u32) {
        *self.known_mut(page) |= RAISED;
    }

    pub fn forget_pages(&mut self) {
        self.pages = Vec::new();
    }

    pub fn is_live(&self, control: u32) -> bool {
        self.pager != Pager::Without && self.control == control
    }
}

/// A region on a host; `top` is its object's index.
#[derive(Clone, Copy)]
pub struct Region {
    pub top: u32,
    pub shift: u32,
    pub pages: u32,
    pub marked: bool,
    pub entries: u32,
}
