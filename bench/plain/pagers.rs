// What the pagers answer to the messages of the kernels.

use std::cmp::Reverse;
use std::collections::BinaryHeap;

use crate::page::Page;
use crate::ports::Message;
use crate::script::Kind;
use crate::shared::Directory;
use crate::system::System;

/// The paging slots of a host's default pager.
pub struct Slots {
    count: u32,
    // Slots from this one on never had a page; `freed` are those below that have none.
    fresh: u32,
    freed: BinaryHeap<Reverse<u32>>,
    pages: Vec<Page>,
    // By object and page: what is had of it.
    stored: Vec<Vec<u32>>,
}

// What the default pager has of a page: nothing, none but knows it as lost, or the number of its slot.
const NEVER: u32 = 0;
const LOST: u32 = 1;

// What is had of a page in a slot; it is torn where its last write failed.
fn in_slot(slot: u32, torn: bool) -> u32 {
    (slot << 1 | u32::from(torn)) + 2
}

fn slot_of(stored: u32) -> Option<(u32, bool)> {
    let code = stored.checked_sub(2)?;
    Some((code >> 1, code & 1 == 1))
}

impl Slots {
    pub fn new(count: u32) -> Slots {
        Slots { count, fresh: 0, freed: BinaryHeap::new(), pages: Vec::new(), stored: Vec::new() }
    }

    fn stored(&self, object: u32, page: u32) -> u32 {
        self.stored.get(object as usize).and_then(|pages| pages.get(page as usize)).copied().unwrap_or(NEVER)
    }

    fn set_stored(&mut self, object: u32, page: u32, stored: u32) {
        let (object, page) = (object as usize, page as usize);
        if self.stored.len() <= object {
            self.stored.resize_with(object + 1, Vec::new);
        }
        let pages = &mut self.stored[object];
        if pages.len() <= page {
            pages.resize(page + 1, NEVER);
        }
        pages[page] = stored;
    }

    fn lowest_free(&mut self) -> Option<u32> {
        if let Some(Reverse(slot)) = self.freed.pop() {
            return Some(slot);
        }
        if self.fresh == self.count {
            return None;
        }
        self.fresh += 1;
        self.pages.push(Page::default());
        Some(self.fresh - 1)
    }

    // Frees the slots of an object's pages.
    fn drop_object(&mut self, object: u32) {
        let stored = self.stored.get_mut(object as usize).map(std::mem::take).unwrap_or_default();
        for slot in stored.into_iter().filter_map(slot_of) {
            self.pages[slot.0 as usize] = Page::default();
            self.freed.push(Reverse(slot.0));
        }
    }
}

/// What the pager of a file knows: the control that it may ask, and the pages whose last write failed.
pub struct FilePager {
    pub name: String,
    pub known: Option<(u8, u32)>,
    lost: Vec<bool>,
}

impl FilePager {
    pub fn new(name: &str) -> FilePager {
        FilePager { name: name.into(), known: None, lost: Vec::new() }
    }

    fn is_lost(&self, page: u32) -> bool {
        self.lost.get(page as usize).copied().unwrap_or(false)
    }

    fn set_lost(&mut self, page: u32, lost: bool) {
        let page = page as usize;
        if lost && page >= self.lost.len() {
            self.lost.resize(page + 1, false);
        }
        if let Some(place) = self.lost.get_mut(page) {
            *place = lost;
        }
    }
}

impl System {
    /// The pager of an object takes a message of a host; `object` is the object's index there.
    pub fn take_up(&mut self, host: u8, object: usize, message: Message) {
        match self.objects[object].kind {
            Kind::Shared => self.take_shared(host, object, message),
            Kind::File => self.take_filed(host, object, message),
            Kind::Temporary | Kind::Wild => self.take_paged(host, object, message),
        }
    }

    fn take_paged(&mut self, host: u8, object: usize, message: Message) {
        let number = self.objects[object].number;
        match message {
            Message::Create { control } => self.send(object, control, Message::Ready { strategy: 3 }),
            Message::Request { control, page, .. } => {
                let answer = self.stored_page(host, number, page);
                self.send(object, control, answer);
            }
            Message::Return { page, bytes, .. } => self.store_page(host, number, page, bytes),
            Message::Terminate { .. } => self.slots[usize::from(host)].drop_object(number),
            _ => {}
        }
    }

    fn stored_page(&mut self, host: u8, object: u32, page: u32) -> Message {
        let slots = &self.slots[usize::from(host)];
        let stored = slots.stored(object, page);
        match slot_of(stored) {
            None if stored == NEVER => Message::Unavailable { page },
            None | Some((_, true)) => Message::Error { page },
            Some(_) if self.paging.strikes() => {
                self.out.event("device paging read", [object.into(), page.into()]);
                Message::Error { page }
            }
            Some((slot, _)) => Message::Supply { page, lock: 0, bytes: slots.pages[slot as usize].clone() },
        }
    }

    fn store_page(&mut self, host: u8, object: u32, page: u32, bytes: Page) {
        let slots = &mut self.slots[usize::from(host)];
        let slot = slot_of(slots.stored(object, page)).map(|(slot, _)| slot).or_else(|| slots.lowest_free());
        let Some(slot) = slot else {
            slots.set_stored(object, page, LOST);
            self.out.event("noslot", [object.into(), page.into()]);
            return;
        };
        let torn = self.paging.strikes();
        slots.set_stored(object, page, in_slot(slot, torn));
        if torn {
            self.out.event("device paging write", [object.into(), page.into()]);
        } else {
            slots.pages[slot as usize] = bytes;
        }
    }

    fn take_filed(&mut self, host: u8, object: usize, message: Message) {
        let number = self.objects[object].number;
        match message {
            Message::Init { control } => {
                self.send(object, control, Message::Ready { strategy: 2 });
                self.files_of[number as usize].known = Some((host, control));
            }
            Message::Request { control, page, .. } => {
                let answer = self.page_of_file(number, page);
                self.send(object, control, answer);
            }
            Message::Return { page, bytes, .. } => self.write_to_file(number, page, &bytes),
            Message::Terminate { control } => {
                let known = &mut self.files_of[number as usize].known;
                *known = known.filter(|known| *known != (host, control));
            }
            _ => {}
        }
    }

    fn page_of_file(&mut self, number: u32, page: u32) -> Message {
        let pager = &self.files_of[number as usize];
        if pager.is_lost(page) {
            return Message::Error { page };
        }
        let at = u64::from(page) * u64::from(self.size);
        let found = self.files.length(&pager.name).and_then(|length| match length {
            Some(length) if at < length => self.files.read(&pager.name, at, self.size).map(Some),
            _ => Ok(None),
        });
        match found {
            Ok(Some(bytes)) => Message::Supply { page, lock: 0, bytes: Page::of(bytes) },
            Ok(None) => Message::Unavailable { page },
            Err(_) => {
                self.out.event("device files read", [number.into(), page.into()]);
                Message::Error { page }
            }
        }
    }

    fn write_to_file(&mut self, number: u32, page: u32, bytes: &Page) {
        let pager = &mut self.files_of[number as usize];
        let mut whole = bytes.bytes().to_vec();
        whole.resize(self.size as usize, 0);
        let lost = self.files.write(&pager.name, u64::from(page) * u64::from(self.size), &whole).is_err();
        pager.set_lost(page, lost);
        if lost {
            self.out.event("device files write", [number.into(), page.into()]);
        }
    }

    fn take_shared(&mut self, host: u8, object: usize, message: Message) {
        let number = self.objects[object].number;
        let page = match message {
            Message::Request { page, .. } | Message::Unlock { page, .. } => page,
            Message::Return { page, .. } | Message::Completed { page, .. } => page,
            Message::Init { control } => return self.send(object, control, Message::Ready { strategy: 0 }),
            _ => return self.leave_shared(host, number),
        };
        let pages = &mut self.directories[number as usize];
        if pages.len() <= page as usize {
            pages.resize_with(page as usize + 1, || None);
        }
        let directory = pages[page as usize].get_or_insert_with(|| Box::new(Directory::new(page)));
        match message {
            Message::Request { control, access, .. } => directory.request(host, control, access),
            Message::Unlock { .. } => directory.unlock(host),
            Message::Return { keep, bytes, .. } => directory.returned(host, keep, bytes),
            _ => directory.completed(host),
        }
        let mut replies = std::mem::take(&mut self.replies);
        directory.serve(&mut replies);
        for (host, control, message) in replies.drain(..) {
            self.send(self.index(host, number), control, message);
        }
        self.replies = replies;
    }

    // A host's control of a shared object has ended.
    fn leave_shared(&mut self, host: u8, number: u32) {
        let mut replies = Vec::new();
        for directory in self.directories[number as usize].iter_mut().flatten() {
            directory.gone(host);
            directory.serve(&mut replies);
        }
        for (host, control, message) in replies {
            self.send(self.index(host, number), control, message);
        }
    }

    /// The pager of a file asks for its pages, where it knows a control.
    pub fn clean(&mut self, object: u32, page: u32, count: u32, flush: bool) {
        if let Some((host, control)) = self.files_of[object as usize].known {
            let message = Message::Lock { page, count, returns: 2, flush, lock: 8, reply: true };
            self.send(self.index(host, object), control, message);
        }
    }

    /// The pager of a file says whether it stays, where it knows a control.
    pub fn cache(&mut self, object: u32, cache: bool) {
        if let Some((host, control)) = self.files_of[object as usize].known {
            self.send(self.index(host, object), control, Message::Attributes { cache });
        }
    }
}
