// A host's frames, with the pages in them, and the two lists of the pages that are here.

use std::collections::VecDeque;

use crate::page::Page;

pub const NO_FRAME: u16 = u16::MAX;
pub const NO_TASK: u16 = u16::MAX;

#[derive(Clone, Copy, PartialEq)]
pub enum List {
    Neither,
    Active,
    Inactive,
}

/// A claimed frame: its page is here, or it is asked.
pub struct Frame {
    pub bytes: Page,
    /// The object's index.
    pub object: u32,
    pub page: u32,
    before: u16,
    after: u16,
    /// The last task that began to wait for the page.
    pub waiter: u16,
    list: List,
    referenced: bool,
    pub here: bool,
    pub dirty: bool,
    pub precious: bool,
    /// The prohibited accesses: 1 to read, 2 to write.
    pub lock: u8,
    pub unlock_sent: bool,
}

#[derive(Clone, Copy)]
struct Ends {
    first: u16,
    last: u16,
    count: u32,
}

const EMPTY: Ends = Ends { first: NO_FRAME, last: NO_FRAME, count: 0 };

pub struct Host {
    pub frames: Vec<Frame>,
    /// The indices in `frames` that are not in use.
    unused: Vec<u16>,
    pub free: u32,
    pub wired: u32,
    /// The number of frames that returns hold.
    pub laundry: u32,
    active: Ends,
    inactive: Ends,
    /// The tasks that want a frame.
    pub queue: VecDeque<u16>,
}

impl Host {
    pub fn new(frames: u32) -> Host {
        Host {
            frames: Vec::new(),
            unused: Vec::new(),
            free: frames,
            wired: 0,
            laundry: 0,
            active: EMPTY,
            inactive: EMPTY,
            queue: VecDeque::new(),
        }
    }

    /// Claims a free frame for a page that is asked.
    pub fn claim(&mut self, object: u32, page: u32) -> u16 {
        self.free -= 1;
        let frame = Frame {
            bytes: Page::default(),
            object,
            page,
            before: NO_FRAME,
            after: NO_FRAME,
            waiter: NO_TASK,
            list: List::Neither,
            referenced: false,
            here: false,
            dirty: false,
            precious: false,
            lock: 0,
            unlock_sent: false,
        };
        match self.unused.pop() {
            Some(at) => {
                self.frames[at as usize] = frame;
                at
            }
            None => {
                self.frames.push(frame);
                self.frames.len() as u16 - 1
            }
        }
    }

    /// Gives up the index of a page that goes; its bytes.
    pub fn leave(&mut self, at: u16) -> Page {
        self.unlink(at);
        self.unused.push(at);
        std::mem::take(&mut self.frames[at as usize].bytes)
    }

    /// A page has come: it is here, at the active back.
    pub fn put_here(&mut self, at: u16, bytes: Page) -> &mut Frame {
        self.link(at, List::Active);
        let frame = &mut self.frames[at as usize];
        frame.bytes = bytes;
        frame.here = true;
        frame
    }

    pub fn touch(&mut self, at: u16) {
        self.frames[at as usize].referenced = true;
    }

    fn ends(&mut self, list: List) -> &mut Ends {
        if list == List::Active {
            &mut self.active
        } else {
            &mut self.inactive
        }
    }

    fn link(&mut self, at: u16, list: List) {
        let ends = self.ends(list);
        let last = std::mem::replace(&mut ends.last, at);
        ends.count += 1;
        if last == NO_FRAME {
            ends.first = at;
        } else {
            self.frames[last as usize].after = at;
        }
        let frame = &mut self.frames[at as usize];
        frame.list = list;
        frame.before = last;
        frame.after = NO_FRAME;
        frame.referenced = false;
    }

    fn unlink(&mut self, at: u16) {
        let frame = &mut self.frames[at as usize];
        let (list, before, after) = (frame.list, frame.before, frame.after);
        if list == List::Neither {
            return;
        }
        frame.list = List::Neither;
        if before != NO_FRAME {
            self.frames[before as usize].after = after;
        }
        if after != NO_FRAME {
            self.frames[after as usize].before = before;
        }
        let ends = self.ends(list);
        ends.count -= 1;
        if before == NO_FRAME {
            ends.first = after;
        }
        if after == NO_FRAME {
            ends.last = before;
        }
    }

    fn move_first(&mut self, from: List, to: List) {
        let at = self.ends(from).first;
        self.unlink(at);
        self.link(at, to);
    }

    fn balance(&mut self) {
        while 3 * self.inactive.count < self.active.count + self.inactive.count {
            self.move_first(List::Active, List::Inactive);
        }
    }

    /// The page to be reclaimed: not the spared one, nor one whose unlock is outstanding.
    pub fn victim(&mut self, spared: u16) -> Option<u16> {
        self.balance();
        while self.inactive.first != NO_FRAME && self.frames[self.inactive.first as usize].referenced {
            self.move_first(List::Inactive, List::Active);
            self.balance();
        }
        [self.inactive.first, self.active.first].into_iter().find_map(|first| self.first_unskipped(first, spared))
    }

    fn first_unskipped(&self, first: u16, spared: u16) -> Option<u16> {
        let mut at = first;
        while at != NO_FRAME {
            let frame = &self.frames[at as usize];
            if at != spared && !frame.unlock_sent {
                return Some(at);
            }
            at = frame.after;
        }
        None
    }
}
