// What a host does with its pagers' messages, and how objects end.

use crate::frames::NO_TASK;
use crate::objects::Pager;
use crate::page::Page;
use crate::ports::{Message, NONE};
use crate::script::Kind;
use crate::system::{System, Want};

impl System {
    /// A host takes a message for a control of an object.
    pub fn hear(&mut self, object: usize, control: u32, message: Message) {
        if !self.objects[object].is_live(control) {
            return;
        }
        match message {
            Message::Ready { .. } => self.make_ready(object),
            Message::Supply { page, lock, bytes } => {
                if let Some(frame) = self.asked(object, page) {
                    self.fill(object, frame, bytes, lock as u8);
                }
            }
            Message::Unavailable { page } => self.lack(object, page),
            Message::Error { page } => {
                if let Some(frame) = self.asked(object, page) {
                    self.fail(object, page, frame);
                }
            }
            Message::Lock { page, count, returns, flush, lock, reply } => {
                let end = self.objects[object].reach().min(page + count);
                for page in page..end {
                    self.lock_page(object, page, returns, flush, lock);
                }
                if reply {
                    self.send_up(object, Message::Completed { control, page, count });
                }
            }
            Message::Attributes { cache } => {
                self.send_up(object, Message::Changed { control, cache });
                self.keep(object, cache);
            }
            _ => {}
        }
        self.restart();
    }

    // An object stays when its last entry goes, or no more.
    fn keep(&mut self, object: usize, stays: bool) {
        let it = &mut self.objects[object];
        if it.stays == stays {
            return;
        }
        it.stays = stays;
        if stays {
            it.references += 1;
            return;
        }
        it.references -= 1;
        if it.references == 0 {
            self.end_object(object);
        }
    }

    // The frame of a page that is asked.
    fn asked(&mut self, object: usize, page: u32) -> Option<u16> {
        let frame = self.objects[object].frame(page)?;
        (!self.frame_mut(object, frame).here).then_some(frame)
    }

    fn make_ready(&mut self, object: usize) {
        let it = &mut self.objects[object];
        it.pager = Pager::Ready;
        let waiter = std::mem::replace(&mut it.waiter, NO_TASK);
        self.wake(waiter);
    }

    // Wakes those that wait for the page of a frame.
    fn wake_page(&mut self, object: usize, frame: u16) {
        let waiter = std::mem::replace(&mut self.frame_mut(object, frame).waiter, NO_TASK);
        self.wake(waiter);
    }

    fn fill(&mut self, object: usize, frame: u16, bytes: Page, lock: u8) {
        self.put_here(object, frame, bytes).lock = lock;
        self.wake_page(object, frame);
    }

    // The pager has no such page.
    fn lack(&mut self, object: usize, page: u32) {
        let Some(frame) = self.asked(object, page) else {
            return;
        };
        if self.objects[object].kind == Kind::Temporary {
            self.wake_page(object, frame);
            self.discard(object, frame);
            self.objects[object].note_absent(page);
        } else {
            self.zeroed(object, page);
            self.fill(object, frame, Page::default(), 0);
        }
    }

    // The pager can't give a page: who waits for it ends.
    fn fail(&mut self, object: usize, page: u32, frame: u16) {
        self.wake_page(object, frame);
        self.discard(object, frame);
        for task in self.take_woken() {
            let it = &mut self.tasks[usize::from(task)];
            it.waits = false;
            let want = it.access.want;
            self.out.failed(task, self.objects[object].number, page);
            if let Want::Copy { region, .. } = want {
                self.end_region(self.index(0, region));
            }
        }
    }

    // A page of a lock request's range obeys, if it is here.
    fn lock_page(&mut self, object: usize, page: u32, returns: u32, flush: bool, lock: u32) {
        let Some(frame) = self.objects[object].frame(page) else {
            return;
        };
        let row = self.frame_mut(object, frame);
        if !row.here {
            return;
        }
        let gives_back = (returns >= 1 && row.dirty) || (returns == 2 && row.precious);
        if row.unlock_sent {
            row.unlock_sent = false;
            self.wake_page(object, frame);
        }
        match (gives_back, flush) {
            (true, true) => return self.return_page(object, frame),
            (false, true) => return self.drop_page(object, frame),
            (true, false) => self.save_page(object, page, frame),
            (false, false) => {}
        }
        if lock != 8 {
            self.frame_mut(object, frame).lock = lock as u8;
        }
    }

    // A page goes back to its pager, and stays.
    fn save_page(&mut self, object: usize, page: u32, frame: u16) {
        let row = self.frame_mut(object, frame);
        let dirty = std::mem::replace(&mut row.dirty, false);
        row.precious = false;
        row.bytes.trim();
        let bytes = row.bytes.clone();
        let it = &mut self.objects[object];
        it.note_returned(page);
        let control = it.control;
        self.send_up(object, Message::Return { control, page, dirty, keep: true, bytes });
    }

    /// A region without entries ends, and with it what loses its last reference.
    pub fn end_region(&mut self, at: usize) {
        let mut object = self.regions[at].top;
        loop {
            let it = &mut self.objects[object as usize];
            it.references -= 1;
            if it.references > 0 {
                self.losers.push(object);
                return;
            }
            self.end_object(object as usize);
            let it = &mut self.objects[object as usize];
            let under = std::mem::replace(&mut it.under, NONE);
            if under == NONE {
                return;
            }
            let lower = &mut self.objects[under as usize];
            lower.shadows -= 1;
            lower.over ^= object;
            if lower.newest == object {
                lower.newest = NONE;
            }
            object = under;
        }
    }

    /// What lost a reference in the step is merged into the one shadow over it, where there is nothing else over it, the lowest number
    /// first.
    pub fn merge(&mut self) {
        let mut losers = std::mem::take(&mut self.losers);
        losers.sort_unstable();
        for lower in losers.drain(..) {
            let it = &self.objects[lower as usize];
            if it.is_lower() && self.objects[it.over as usize].control == 0 {
                self.merge_into(it.over as usize, lower as usize);
            }
        }
        self.losers = losers;
    }

    fn merge_into(&mut self, upper: usize, lower: usize) {
        for page in 0..self.objects[lower].reach() {
            if let Some(frame) = self.objects[lower].frame(page) {
                self.move_page(upper, lower, page, frame);
            }
        }
        let it = &mut self.objects[lower];
        it.references = 0;
        it.shadows = 0;
        it.forget_pages();
        let (under, shift, number) = (std::mem::replace(&mut it.under, NONE), it.shift, it.number);
        let it = &mut self.objects[upper];
        it.under = under;
        it.shift += shift;
        let of_upper = it.number;
        if under != NONE {
            self.objects[under as usize].over ^= upper as u32 ^ lower as u32;
        }
        self.out.event("merged", [of_upper.into(), number.into()]);
    }

    // A page of the lower object goes up where the upper has a place for it, and else goes.
    fn move_page(&mut self, upper: usize, lower: usize, page: u32, frame: u16) {
        self.objects[lower].clear_frame(page);
        let it = &mut self.objects[upper];
        let host = &mut self.hosts[usize::from(it.host)];
        match page.checked_sub(it.shift) {
            Some(to) if to < it.length && it.frame(to).is_none() => {
                it.set_frame(to, frame);
                let row = &mut host.frames[usize::from(frame)];
                row.object = upper as u32;
                row.page = to;
            }
            _ => {
                host.leave(frame);
                host.free += 1;
            }
        }
    }

    fn end_object(&mut self, object: usize) {
        for page in 0..self.objects[object].reach() {
            let Some(frame) = self.objects[object].frame(page) else {
                continue;
            };
            let is_temporary = self.objects[object].kind == Kind::Temporary;
            let row = self.frame_mut(object, frame);
            if is_temporary || !(row.dirty || row.precious) {
                self.drop_page(object, frame);
            } else {
                self.return_page(object, frame);
            }
        }
        let it = &mut self.objects[object];
        it.forget_pages();
        if it.pager != Pager::Without {
            it.pager = Pager::Without;
            let control = it.control;
            self.send_up(object, Message::Terminate { control });
        }
    }
}
