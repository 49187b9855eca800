// Accesses are run, wait, are woken, and queue for frames; pages are reclaimed for them.

use crate::frames::{Frame, Host, NO_FRAME, NO_TASK};
use crate::objects::{Object, Pager, Region};
use crate::page::Page;
use crate::ports::{Message, NONE};
use crate::system::{Access, System, Want};

/// What running an access comes to.
enum Step {
    Done,
    /// It waits for the ready of an object's pager.
    Ready(usize),
    /// It waits for the page of a frame.
    Page(u16),
    /// No frame is to be had; the page in the frame is what it is to copy.
    NeedsFrame(u16),
}

/// Where the walk down a chain stops.
enum Stop {
    Here(u16),
    Asked(u16),
    MayCome,
    Nowhere,
}

// The place at which a walk stops, and whether that is the top.
struct Walk {
    object: usize,
    page: u32,
    is_top: bool,
    stop: Stop,
}

impl System {
    fn host(&self, object: usize) -> &Host {
        &self.hosts[usize::from(self.objects[object].host)]
    }

    pub fn frame_mut(&mut self, object: usize, frame: u16) -> &mut Frame {
        &mut self.hosts[usize::from(self.objects[object].host)].frames[usize::from(frame)]
    }

    /// A task's access begins.
    pub fn begin(&mut self, task: u16, access: Access) {
        self.began += 1;
        let it = &mut self.tasks[usize::from(task)];
        it.access = access;
        it.began = self.began;
        self.run_access(task);
    }

    // Runs an access that isn't in the frame queue.
    fn run_access(&mut self, task: u16) {
        let host = usize::from(self.tasks[usize::from(task)].host);
        let may_claim = self.hosts[host].queue.is_empty();
        let step = self.attempt(task, may_claim);
        if let Step::NeedsFrame(_) = step {
            self.tasks[usize::from(task)].waits = true;
            self.hosts[host].queue.push_back(task);
        } else {
            self.note(task, step);
        }
    }

    // Notes what an access waits for, or that it is done.
    fn note(&mut self, task: u16, step: Step) {
        let waiter = match step {
            Step::Done => {
                let it = &mut self.tasks[usize::from(task)];
                it.waits = false;
                if let Want::Copy { pages, region, to, .. } = it.access.want {
                    self.end_copy(task, pages, region, to);
                }
                return;
            }
            Step::Ready(object) => &mut self.objects[object].waiter,
            Step::Page(frame) => {
                let host = usize::from(self.tasks[usize::from(task)].host);
                &mut self.hosts[host].frames[usize::from(frame)].waiter
            }
            Step::NeedsFrame(_) => return,
        };
        let before = std::mem::replace(waiter, task);
        let it = &mut self.tasks[usize::from(task)];
        it.next_waiter = before;
        it.waits = true;
    }

    /// Those that wait, the last of them given, are to be run again.
    pub fn wake(&mut self, waiter: u16) {
        let mut task = waiter;
        while task != NO_TASK {
            self.woken.push(task);
            task = self.tasks[usize::from(task)].next_waiter;
        }
    }

    /// The woken ones, in the order in which they began.
    pub fn take_woken(&mut self) -> Vec<u16> {
        let mut woken = std::mem::take(&mut self.woken);
        if woken.len() > 1 {
            woken.sort_unstable_by_key(|task| self.tasks[usize::from(*task)].began);
        }
        woken
    }

    pub fn restart(&mut self) {
        if self.woken.is_empty() {
            return;
        }
        let mut woken = self.take_woken();
        for task in woken.drain(..) {
            self.run_access(task);
        }
        self.woken = woken;
    }

    /// At a step's end each host serves its frame queue.
    pub fn serve(&mut self) {
        for host in 0..self.hosts.len() {
            while let Some(task) = self.hosts[host].queue.front().copied() {
                if !self.serve_front(host, task) {
                    break;
                }
            }
        }
    }

    // Runs the front of a frame queue; whether the queue goes on.
    fn serve_front(&mut self, host: usize, task: u16) -> bool {
        match self.attempt(task, true) {
            Step::NeedsFrame(spared) => self.hosts[host].laundry == 0 && self.reclaim(host, spared) == Some(true),
            step => {
                self.hosts[host].queue.pop_front();
                self.note(task, step);
                true
            }
        }
    }

    // Runs an access, a slow copy page by page.
    fn attempt(&mut self, task: u16, may_claim: bool) -> Step {
        loop {
            let access = self.tasks[usize::from(task)].access;
            let step = self.run_once(task, &access, may_claim);
            let Want::Copy { pages, next, .. } = &mut self.tasks[usize::from(task)].access.want else {
                return step;
            };
            let Step::Done = step else {
                return step;
            };
            *next += 1;
            if next == pages {
                return Step::Done;
            }
        }
    }

    fn run_once(&mut self, task: u16, access: &Access, may_claim: bool) -> Step {
        let is_store = matches!(access.want, Want::Store { .. });
        if is_store && self.regions[access.region as usize].marked {
            self.clear_mark(access.region as usize);
        }
        let walk = self.walk(access);
        let is_top_store = is_store && walk.is_top;
        let has_frame = may_claim && self.host(walk.object).free > 0;
        match walk.stop {
            Stop::Here(frame) => {
                let row = self.frame_mut(walk.object, frame);
                if row.lock & 1 != 0 || (is_top_store && row.lock & 2 != 0) {
                    if !std::mem::replace(&mut row.unlock_sent, true) {
                        let control = self.objects[walk.object].control;
                        let access = if is_top_store { 3 } else { 1 };
                        self.send_up(walk.object, Message::Unlock { control, page: walk.page, access });
                    }
                    return Step::Page(frame);
                }
                match access.want {
                    Want::Store { .. } if !walk.is_top => self.raise(task, access, &walk, frame, has_frame),
                    Want::Store { .. } => self.write_top(task, access, &walk, frame, has_frame),
                    Want::Copy { next, target, .. } => self.copy_page(task, next, target, &walk, frame, has_frame),
                    Want::Load => {
                        self.hit(task, access, walk.object, frame);
                        Step::Done
                    }
                }
            }
            Stop::Asked(frame) => Step::Page(frame),
            Stop::MayCome if self.objects[walk.object].pager == Pager::Sent => Step::Ready(walk.object),
            _ if !has_frame => Step::NeedsFrame(NO_FRAME),
            Stop::MayCome => {
                let frame = self.claim(walk.object, walk.page);
                let control = self.objects[walk.object].control;
                let access = if is_top_store { 3 } else { 1 };
                self.send_up(walk.object, Message::Request { control, page: walk.page, access });
                Step::Page(frame)
            }
            Stop::Nowhere => {
                let (object, page) = self.top_place(access);
                let frame = self.claim(object, page);
                self.put_here(object, frame, Page::default());
                self.zeroed(object, page);
                self.hit(task, access, object, frame);
                Step::Done
            }
        }
    }

    pub fn zeroed(&mut self, object: usize, page: u32) {
        let Object { host, number, .. } = self.objects[object];
        self.out.event("zeroed", [host.into(), number.into(), page.into()]);
    }

    fn claim(&mut self, object: usize, page: u32) -> u16 {
        let it = &mut self.objects[object];
        let frame = self.hosts[usize::from(it.host)].claim(object as u32, page);
        it.set_frame(page, frame);
        frame
    }

    pub fn put_here(&mut self, object: usize, frame: u16, bytes: Page) -> &mut Frame {
        self.hosts[usize::from(self.objects[object].host)].put_here(frame, bytes)
    }

    // The place of an access in the top object of its region.
    fn top_place(&self, access: &Access) -> (usize, u32) {
        let region = &self.regions[access.region as usize];
        let next = if let Want::Copy { next, .. } = access.want { next } else { 0 };
        (region.top as usize, region.shift + access.page + next)
    }

    fn walk(&self, access: &Access) -> Walk {
        let (top, page) = self.top_place(access);
        let frames = &self.host(top).frames;
        let mut walk = Walk { object: top, page, is_top: true, stop: Stop::Nowhere };
        loop {
            let object = &self.objects[walk.object];
            if let Some(frame) = object.frame(walk.page) {
                let is_here = frames[usize::from(frame)].here;
                walk.stop = if is_here { Stop::Here(frame) } else { Stop::Asked(frame) };
                return walk;
            }
            if object.may_come(walk.page) {
                walk.stop = Stop::MayCome;
                return walk;
            }
            if object.under == NONE {
                return walk;
            }
            walk.page += object.shift;
            walk.object = object.under as usize;
            walk.is_top = false;
        }
    }

    // A marked region loses its mark: its object is its own, or it gets one.
    fn clear_mark(&mut self, at: usize) {
        self.marks -= 1;
        self.regions[at].marked = false;
        // The declared regions of all hosts but one stand in front of it besides.
        let region = at as u32 - (self.hosts.len() as u32 - 1) * self.declared;
        if self.objects[self.regions[at].top as usize].references == 1 {
            self.out.event("unmarked", [region.into()]);
            return;
        }
        let (number, old) = self.shadow(at);
        self.out.event("shadowed", [region.into(), number.into(), old.into()]);
    }

    // A region gets an object of its own over its old one; their numbers.
    fn shadow(&mut self, at: usize) -> (u32, u32) {
        let Region { top, shift, pages, .. } = self.regions[at];
        let (number, new) = (self.next_object, self.objects.len() as u32);
        self.next_object += 1;
        let old = &mut self.objects[top as usize];
        old.shadows += 1;
        old.over ^= new;
        let (host, old) = (old.host, old.number);
        self.objects.push(Object::temporary(number, host, top, shift, pages));
        self.regions[at].top = new;
        self.regions[at].shift = 0;
        (number, old)
    }

    // An access ends with a page that is here.
    fn hit(&mut self, task: u16, access: &Access, object: usize, frame: u16) {
        let Object { host, number, .. } = self.objects[object];
        let host = &mut self.hosts[usize::from(host)];
        host.touch(frame);
        let row = &mut host.frames[usize::from(frame)];
        let (at, size) = (usize::from(access.at), usize::from(access.size));
        if let Want::Store { value } = access.want {
            row.bytes.put(at, size, value);
            row.dirty = true;
            self.out.stored(task, number, row.page, at as u32, &value.to_le_bytes()[..size]);
        } else {
            let value = row.bytes.get(at, size);
            self.out.loaded(task, number, row.page, value);
        }
    }

    // The page in a frame is copied into a new page of an object; the new frame.
    fn raise_page(&mut self, from: usize, frame: u16, object: usize, page: u32) -> u16 {
        let bytes = self.frame_mut(from, frame).bytes.clone();
        let new = self.claim(object, page);
        self.put_here(object, new, bytes).dirty = true;
        new
    }

    // The page at which a walk stops, in a frame, is raised into an object; the new frame.
    fn raise_to(&mut self, walk: &Walk, frame: u16, object: usize, page: u32) -> u16 {
        let new = self.raise_page(walk.object, frame, object, page);
        self.objects[object].note_raised(page);
        let (lower, upper) = (&self.objects[walk.object], &self.objects[object]);
        let numbers = [upper.host.into(), lower.number.into(), walk.page.into(), upper.number.into(), page.into()];
        self.out.event("raised", numbers);
        new
    }

    // A store whose page is below copies it up first.
    fn raise(&mut self, task: u16, access: &Access, walk: &Walk, frame: u16, has_frame: bool) -> Step {
        if !has_frame {
            return Step::NeedsFrame(frame);
        }
        let (top, page) = self.top_place(access);
        let new = self.raise_to(walk, frame, top, page);
        self.hit(task, access, top, new);
        self.touch(top, frame);
        Step::Done
    }

    // A store whose page is in the top object; it first pushes the page to the copy object that still shares it. Where that page is asked
    // it waits for the word, which is no error: the pager never had such a page.
    fn write_top(&mut self, task: u16, access: &Access, walk: &Walk, frame: u16, has_frame: bool) -> Step {
        if let Some(copy) = self.owed_to(walk) {
            if let Some(asked) = self.objects[copy].frame(walk.page) {
                return Step::Page(asked);
            }
            if !has_frame {
                return Step::NeedsFrame(frame);
            }
            self.raise_to(walk, frame, copy, walk.page);
        }
        self.hit(task, access, walk.object, frame);
        Step::Done
    }

    // The copy object to which a store at the place at which a walk stops owes a push.
    fn owed_to(&self, walk: &Walk) -> Option<usize> {
        let newest = self.objects[walk.object].newest;
        let owes = newest != NONE && !self.objects[newest as usize].was_raised(walk.page);
        owes.then_some(newest as usize)
    }

    /// The stores that wait to push a page of a file to a copy object that isn't its newest any more are to be run again.
    pub fn wake_pushers(&mut self, file: usize, copy: usize) {
        for page in 0..self.objects[copy].reach() {
            if let Some(frame) = self.objects[copy].frame(page) {
                let waiter = std::mem::replace(&mut self.frame_mut(copy, frame).waiter, NO_TASK);
                self.wake_pushers_of(file, copy, frame, waiter);
            }
        }
    }

    // Of those that waited for the page of a frame, the last of them given, the others wait on.
    fn wake_pushers_of(&mut self, file: usize, copy: usize, frame: u16, waiter: u16) {
        let mut task = waiter;
        while task != NO_TASK {
            let it = &self.tasks[usize::from(task)];
            let (before, region) = (it.next_waiter, it.access.region as usize);
            if self.regions[region].top as usize == file {
                self.woken.push(task);
            } else {
                let last = std::mem::replace(&mut self.frame_mut(copy, frame).waiter, task);
                self.tasks[usize::from(task)].next_waiter = last;
            }
            task = before;
        }
    }

    fn touch(&mut self, object: usize, frame: u16) {
        self.hosts[usize::from(self.objects[object].host)].touch(frame);
    }

    // A slow copy copies its next page.
    fn copy_page(&mut self, task: u16, next: u32, target: u32, walk: &Walk, frame: u16, has_frame: bool) -> Step {
        if !has_frame {
            return Step::NeedsFrame(frame);
        }
        let target = target as usize;
        let new = self.raise_page(walk.object, frame, target, next);
        let (from, to) = (self.objects[walk.object].number, self.objects[target].number);
        self.out.event("copied", [task.into(), next.into(), from.into(), walk.page.into(), to.into()]);
        self.touch(target, new);
        self.touch(walk.object, frame);
        Step::Done
    }

    pub fn pageout(&mut self, host: u8, count: u32) {
        let host = usize::from(host);
        for _ in 0..count {
            let spared = self.spared(host);
            if self.reclaim(host, spared).is_none() {
                return;
            }
        }
    }

    // The frame of the page that the front of the frame queue is to copy.
    fn spared(&self, host: usize) -> u16 {
        let Some(task) = self.hosts[host].queue.front() else {
            return NO_FRAME;
        };
        let access = &self.tasks[usize::from(*task)].access;
        let walk = self.walk(access);
        match (&walk.stop, access.want) {
            (Stop::Here(frame), Want::Copy { .. }) => *frame,
            (Stop::Here(frame), Want::Store { .. }) if !walk.is_top || self.wants_to_push(&walk) => *frame,
            _ => NO_FRAME,
        }
    }

    fn wants_to_push(&self, walk: &Walk) -> bool {
        self.owed_to(walk).is_some_and(|copy| self.objects[copy].frame(walk.page).is_none())
    }

    // Reclaims a page; whether its frame is free now, and None where no page is to be had.
    fn reclaim(&mut self, host: usize, spared: u16) -> Option<bool> {
        let frame = self.hosts[host].victim(spared)?;
        let row = &self.hosts[host].frames[usize::from(frame)];
        let object = row.object as usize;
        if !row.dirty && !row.precious {
            self.drop_page(object, frame);
            return Some(true);
        }
        if self.objects[object].pager == Pager::Without {
            self.begin_control(object);
        }
        self.return_page(object, frame);
        Some(false)
    }

    /// A page goes without a word to its pager.
    pub fn drop_page(&mut self, object: usize, frame: u16) {
        let page = self.frame_mut(object, frame).page;
        self.discard(object, frame);
        let Object { host, number, .. } = self.objects[object];
        self.out.dropped(host, number, page);
    }

    /// A frame is free, and has no page any more.
    pub fn discard(&mut self, object: usize, frame: u16) {
        let it = &mut self.objects[object];
        let host = &mut self.hosts[usize::from(it.host)];
        it.clear_frame(host.frames[usize::from(frame)].page);
        host.leave(frame);
        host.free += 1;
    }

    /// A page goes back to its pager, which holds the frame until it takes the message.
    pub fn return_page(&mut self, object: usize, frame: u16) {
        let it = &mut self.objects[object];
        let host = &mut self.hosts[usize::from(it.host)];
        let Frame { page, dirty, .. } = host.frames[usize::from(frame)];
        it.clear_frame(page);
        it.note_returned(page);
        let mut bytes = host.leave(frame);
        host.laundry += 1;
        bytes.trim();
        let control = it.control;
        self.send_up(object, Message::Return { control, page, dirty, keep: false, bytes });
    }
}
