// The commands, and why they are refused.

use crate::maps::{self, Entry, COPY, MOST_ENTRIES, SHARE};
use crate::objects::{Object, Pager, Region};
use crate::ports::NONE;
use crate::script::{Command, Kind, Range};
use crate::system::{Access, System, Want, NO_HOST};

pub enum Code {
    InvalidAddress = 1,
    ProtectionFailure = 2,
    NoSpace = 3,
    InvalidArgument = 4,
    ResourceShortage = 6,
    Blocked = 101,
    EmptyPort = 102,
    NoSuchName = 103,
    NameTaken = 104,
    WrongHost = 105,
    TableFull = 106,
}

const READ: u8 = 1;
const WRITE: u8 = 2;
const MOST_PAGES: u64 = 4096;
const MOST_REGIONS: u32 = 8192;
const MOST_OBJECTS: u32 = 8192;

fn require(holds: bool, code: Code) -> Result<(), Code> {
    if holds {
        Ok(())
    } else {
        Err(code)
    }
}

fn whole_entry(range: Range, region: u32) -> Entry {
    Entry { address: range.address, bytes: range.bytes, region, offset: 0, prot: READ | WRITE, inherit: COPY }
}

impl System {
    /// Runs a command up to the serving of the frame queues, unless it is refused.
    pub fn run(&mut self, command: &Command) -> Result<(), Code> {
        match *command {
            Command::Load { task, address, size } => self.load(task, address, size),
            Command::Store { task, address, size, value } => self.store(task, address, size, value),
            Command::Take { host, object, control } => self.take_from(host, object, control),
            Command::Settle { .. } => Ok(()),
            Command::Task { task, host } => self.make_task(task, host),
            Command::Fork { task, child } => self.fork(task, child),
            Command::Exit { task } => self.exit(task),
            Command::Allocate { task, range } => self.allocate(task, range),
            Command::Map { task, range, object, offset } => self.map(task, range, object, offset),
            Command::Deallocate { task, range } => self.deallocate(task, range),
            Command::Protect { task, range, prot } => self.protect(task, range, prot),
            Command::Inherit { task, range, inherit } => self.inherit(task, range, inherit),
            Command::Copy { task, range, target, to } => self.copy(task, range, target, to.into()),
            Command::Pageout { host, count } => {
                self.pageout(host, count);
                Ok(())
            }
            Command::Clean { object, page, count, flush } => self.clean_file(object, page, count, flush),
            Command::Cache { object, cache } => self.cache_file(object, cache),
            Command::Wire { host, count } => self.wire(host, count),
            Command::Unwire { host, count } => self.unwire(host, count),
            Command::FailFiles { count } => {
                self.files.arming.0 = count;
                Ok(())
            }
            Command::FailPaging { count } => {
                self.paging.0 = count;
                Ok(())
            }
            Command::Say { host, object } => {
                let is_live = self.objects[self.index(host, object)].pager != Pager::Without;
                Err(if is_live { Code::InvalidArgument } else { Code::NoSuchName })
            }
        }
    }

    fn lives(&self, task: u16) -> bool {
        self.tasks[usize::from(task)].host != NO_HOST
    }

    fn host_of(&self, task: u16) -> u8 {
        self.tasks[usize::from(task)].host
    }

    fn entries(&self, task: u16) -> &[Entry] {
        &self.tasks[usize::from(task)].entries
    }

    fn can_act(&self, task: u16) -> Result<(), Code> {
        require(self.lives(task), Code::NoSuchName)?;
        require(!self.tasks[usize::from(task)].waits, Code::Blocked)
    }

    fn pages_of(&self, bytes: u64) -> u64 {
        bytes / u64::from(self.size)
    }

    fn check_range(&self, range: Range) -> Result<(), Code> {
        require(range.is_whole(self.size), Code::InvalidArgument)
    }

    fn check_free(&self, task: u16, range: Range) -> Result<(), Code> {
        require(maps::met(self.entries(task), range).is_empty(), Code::NoSpace)?;
        require(self.entries(task).len() < MOST_ENTRIES, Code::TableFull)
    }

    fn check_tables(&self, regions: u32, objects: u32) -> Result<(), Code> {
        let room = self.next_region + regions <= MOST_REGIONS && self.next_object + self.marks + objects <= MOST_OBJECTS;
        require(room, Code::TableFull)
    }

    fn enter(&mut self, task: u16, entry: Entry) {
        maps::enter(&mut self.tasks[usize::from(task)].entries, entry);
        let Entry { address, bytes, region, offset, prot, inherit } = entry;
        self.out.event("entered", [task.into(), address, bytes, region.into(), offset.into(), prot.into(), inherit.into()]);
    }

    // A message is taken from the channel down to a control, or from the one up.
    fn take_from(&mut self, host: u8, object: u32, control: Option<u32>) -> Result<(), Code> {
        require(object < self.next_object && control != Some(0), Code::NoSuchName)?;
        let object = self.index(host, object);
        require(self.objects[object].host == host, Code::NoSuchName)?;
        let channel = self.ports.channel(object, control.unwrap_or(0)).ok_or(Code::NoSuchName)?;
        require(!self.ports.is_empty(channel), Code::EmptyPort)?;
        self.take(channel);
        Ok(())
    }

    fn make_task(&mut self, task: u16, host: u8) -> Result<(), Code> {
        require(!self.lives(task), Code::NameTaken)?;
        self.tasks[usize::from(task)].host = host;
        self.out.event("made", [task.into(), host.into()]);
        Ok(())
    }

    fn fork(&mut self, task: u16, child: u16) -> Result<(), Code> {
        require(self.lives(task), Code::NoSuchName)?;
        require(!self.lives(child), Code::NameTaken)?;
        self.can_act(task)?;
        let entries = self.entries(task).to_vec();
        let copied = entries.iter().filter(|entry| entry.inherit == COPY).count() as u32;
        if self.check_tables(copied, 2 * copied).is_err() {
            self.check_tables(copied, copied + self.new_sources(task))?;
        }
        let host = self.host_of(task);
        self.make_task(child, host)?;
        self.tasks[usize::from(child)].entries.reserve_exact(entries.len());
        for entry in entries {
            match entry.inherit {
                SHARE => {
                    let region = self.index(host, entry.region);
                    self.regions[region].entries += 1;
                    self.enter(child, entry);
                }
                COPY => self.enter_copy(child, entry.region, entry.offset, entry),
                _ => {}
            }
        }
        self.restart();
        Ok(())
    }

    // How many copy objects a fork makes, and regions it marks that have no mark, but for the new ones.
    fn new_sources(&self, task: u16) -> u32 {
        let copied = self.entries(task).iter().filter(|entry| entry.inherit == COPY).map(|entry| entry.region);
        let (files, mut regions): (Vec<u32>, Vec<u32>) = copied.partition(|region| *region < self.declared);
        regions.retain(|region| !self.regions[self.index(0, *region)].marked);
        regions.sort_unstable();
        regions.dedup();
        (files.len() + regions.len()) as u32
    }

    // An entry for a range is made on a copy of pages of a region.
    fn enter_copy(&mut self, task: u16, source: u32, offset: u32, entry: Entry) {
        if source < self.declared {
            self.enter_delayed(task, source, offset, entry);
        } else {
            self.enter_symmetric(task, source, offset, entry);
        }
    }

    // An entry for a range is made on a region over a new copy object of a file.
    fn enter_delayed(&mut self, task: u16, source: u32, offset: u32, entry: Entry) {
        let (region, object) = (self.next_region, self.next_object);
        let pages = self.pages_of(entry.bytes) as u32;
        let top = self.make_copy(self.index(self.host_of(task), source));
        self.next_region += 1;
        self.marks += 1;
        self.regions.push(Region { top, shift: offset, pages, marked: true, entries: 1 });
        self.out.event("delayed", [region, source, offset, pages, object].map(u64::from));
        self.enter(task, Entry { region, offset: 0, ..entry });
    }

    // A file gets a copy object, which stands under the one that was its newest; its index.
    fn make_copy(&mut self, file: usize) -> u32 {
        let (number, copy) = (self.next_object, self.objects.len() as u32);
        self.next_object += 1;
        let Object { host, number: of_file, .. } = self.objects[file];
        let pages = self.pages[of_file as usize];
        let mut new = Object::copy_of(file as u32, number, host, pages);
        let it = &mut self.objects[file];
        let older = std::mem::replace(&mut it.newest, copy);
        it.over ^= copy;
        if older == NONE {
            it.shadows += 1;
            it.references += 1;
        } else {
            it.over ^= older;
            new.over = older;
            new.shadows += 1;
            new.references += 1;
            self.objects[older as usize].under = copy;
            self.wake_pushers(file, older as usize);
        }
        self.objects.push(new);
        copy
    }

    // An entry for a range is made on a symmetric copy of pages of a temporary region.
    fn enter_symmetric(&mut self, task: u16, source: u32, offset: u32, entry: Entry) {
        let at = self.index(0, source);
        let row = &mut self.regions[at];
        self.marks += if row.marked { 1 } else { 2 };
        row.marked = true;
        let pages = entry.bytes / u64::from(self.size);
        let copy = Region { shift: row.shift + offset, pages: pages as u32, entries: 1, ..*row };
        self.objects[copy.top as usize].references += 1;
        self.regions.push(copy);
        let region = self.next_region;
        self.next_region += 1;
        self.out.event("cow", [region.into(), source.into(), offset.into(), pages]);
        self.enter(task, Entry { region, offset: 0, ..entry });
    }

    fn exit(&mut self, task: u16) -> Result<(), Code> {
        self.can_act(task)?;
        let host = self.host_of(task);
        self.tasks[usize::from(task)].host = NO_HOST;
        self.out.event("ended", [task.into()]);
        let gone = std::mem::take(&mut self.tasks[usize::from(task)].entries);
        self.release(host, gone.iter().map(|entry| entry.region));
        self.merge();
        Ok(())
    }

    // Entries on these regions have gone.
    fn release(&mut self, host: u8, regions: impl Iterator<Item = u32>) {
        for region in regions {
            let at = self.index(host, region);
            self.regions[at].entries -= 1;
            if self.regions[at].entries == 0 {
                self.end_region(at);
            }
        }
    }

    // Makes a region over a new object; their numbers.
    fn make_region(&mut self, host: u8, pages: u64, entries: u32) -> (u32, u32) {
        let (region, object) = (self.next_region, self.next_object);
        self.next_region += 1;
        self.next_object += 1;
        let (top, pages) = (self.objects.len() as u32, pages as u32);
        self.regions.push(Region { top, shift: 0, pages, marked: false, entries });
        self.objects.push(Object::temporary(object, host, NONE, 0, pages));
        (region, object)
    }

    fn allocate(&mut self, task: u16, range: Range) -> Result<(), Code> {
        self.can_act(task)?;
        self.check_range(range)?;
        let pages = self.pages_of(range.bytes);
        require(pages <= MOST_PAGES, Code::InvalidArgument)?;
        self.check_free(task, range)?;
        self.check_tables(1, 1)?;
        let (region, object) = self.make_region(self.host_of(task), pages, 1);
        self.out.event("region", [region.into(), object.into(), pages]);
        self.enter(task, whole_entry(range, region));
        Ok(())
    }

    fn map(&mut self, task: u16, range: Range, number: u32, offset: u32) -> Result<(), Code> {
        self.can_act(task)?;
        self.check_range(range)?;
        let host = self.host_of(task);
        let at = self.index(host, number);
        let pages = u64::from(offset) + self.pages_of(range.bytes);
        require(pages <= self.pages[number as usize].into(), Code::InvalidArgument)?;
        let is_file = self.objects[at].kind == Kind::File;
        let owner = self.owners[number as usize];
        require(!is_file || owner == NO_HOST || owner == host, Code::WrongHost)?;
        self.check_free(task, range)?;
        self.owners[number as usize] = host;
        if self.regions[at].entries == 0 {
            self.objects[at].references += 1;
        }
        self.regions[at].entries += 1;
        self.enter(task, Entry { offset, inherit: SHARE, ..whole_entry(range, number) });
        if self.objects[at].pager == Pager::Without {
            self.begin_control(at);
        }
        Ok(())
    }

    fn deallocate(&mut self, task: u16, range: Range) -> Result<(), Code> {
        self.can_act(task)?;
        self.check_range(range)?;
        let entries = self.entries(task);
        let met = maps::met(entries, range);
        let cuts = [maps::cut_at(entries, range.address), maps::cut_at(entries, range.end())];
        let left = entries.len() - met.len() + cuts.iter().flatten().count();
        require(left <= MOST_ENTRIES, Code::TableFull)?;
        self.cut(task, range);
        let entries = &mut self.tasks[usize::from(task)].entries;
        let met = maps::met(entries, range);
        let gone: Vec<u32> = entries.drain(met).map(|entry| entry.region).collect();
        self.out.event("removed", [task.into(), range.address, range.bytes]);
        self.release(self.host_of(task), gone.into_iter());
        self.merge();
        Ok(())
    }

    // Cuts a task's entries at the ends of a range.
    fn cut(&mut self, task: u16, range: Range) {
        let host = self.host_of(task);
        for address in [range.address, range.end()] {
            let entries = &mut self.tasks[usize::from(task)].entries;
            if let Some(at) = maps::cut_at(entries, address) {
                maps::cut(entries, at, address, self.size);
                let region = self.index(host, self.entries(task)[at].region);
                self.regions[region].entries += 1;
            }
        }
    }

    // The tests of a change of what is mapped; behind them the entries are cut.
    fn change(&mut self, task: u16, range: Range) -> Result<&mut [Entry], Code> {
        let entries = self.entries(task);
        require(maps::is_covered(entries, range), Code::InvalidAddress)?;
        let cuts = [maps::cut_at(entries, range.address), maps::cut_at(entries, range.end())];
        require(entries.len() + cuts.iter().flatten().count() <= MOST_ENTRIES, Code::TableFull)?;
        self.cut(task, range);
        let entries = &mut self.tasks[usize::from(task)].entries;
        let met = maps::met(entries, range);
        Ok(&mut entries[met])
    }

    fn protect(&mut self, task: u16, range: Range, prot: u8) -> Result<(), Code> {
        self.can_act(task)?;
        self.check_range(range)?;
        for entry in self.change(task, range)? {
            entry.prot = prot;
        }
        self.out.event("protected", [task.into(), range.address, range.bytes, prot.into()]);
        Ok(())
    }

    fn inherit(&mut self, task: u16, range: Range, inherit: u8) -> Result<(), Code> {
        self.can_act(task)?;
        self.check_range(range)?;
        let entries = self.entries(task);
        let is_shared = |entry: &Entry| self.is_shared(entry.region);
        let copies_shared = inherit == COPY && entries[maps::met(entries, range)].iter().any(is_shared);
        require(!copies_shared, Code::InvalidArgument)?;
        for entry in self.change(task, range)? {
            entry.inherit = inherit;
        }
        self.out.event("inherited", [task.into(), range.address, range.bytes, inherit.into()]);
        Ok(())
    }

    // Whether it is the region of a shared or wild object.
    fn is_shared(&self, region: u32) -> bool {
        region < self.declared && self.objects[region as usize].kind != Kind::File
    }

    // Where an access of so many bytes leads, which needs this protection.
    fn look_up(&self, task: u16, address: u64, size: u8, prot: u8) -> Result<Access, Code> {
        self.can_act(task)?;
        require(address & (u64::from(size) - 1) == 0, Code::InvalidArgument)?;
        let entry = maps::entry_at(self.entries(task), address).ok_or(Code::InvalidAddress)?;
        require(entry.prot & prot != 0, Code::ProtectionFailure)?;
        Ok(self.place(task, entry, address, size))
    }

    fn place(&self, task: u16, entry: &Entry, address: u64, size: u8) -> Access {
        let bits = self.size.trailing_zeros();
        Access {
            want: Want::Load,
            region: self.index(self.host_of(task), entry.region) as u32,
            page: entry.offset + ((address - entry.address) >> bits) as u32,
            at: (address & (u64::from(self.size) - 1)) as u16,
            size,
        }
    }

    fn load(&mut self, task: u16, address: u64, size: u8) -> Result<(), Code> {
        let access = self.look_up(task, address, size, READ)?;
        self.out.begun(task, "load", [address, size.into()]);
        self.begin(task, access);
        Ok(())
    }

    fn store(&mut self, task: u16, address: u64, size: u8, value: u64) -> Result<(), Code> {
        let access = self.look_up(task, address, size, WRITE)?;
        self.out.begun(task, "store", [address, size.into(), value]);
        self.begin(task, Access { want: Want::Store { value }, ..access });
        Ok(())
    }

    fn copy(&mut self, task: u16, range: Range, target: u16, to: u64) -> Result<(), Code> {
        require(self.lives(task) && self.lives(target), Code::NoSuchName)?;
        self.can_act(task)?;
        self.can_act(target)?;
        let room = Range { address: to, ..range };
        require(self.host_of(task) == self.host_of(target), Code::InvalidArgument)?;
        self.check_range(range)?;
        self.check_range(room)?;
        let pages = self.pages_of(range.bytes);
        require(pages <= MOST_PAGES, Code::InvalidArgument)?;
        let entry = *maps::entry_at(self.entries(task), range.address).ok_or(Code::InvalidAddress)?;
        let is_slow = self.is_shared(entry.region);
        require(!is_slow || task == target, Code::InvalidArgument)?;
        require(range.end() <= entry.end(), Code::InvalidAddress)?;
        require(entry.prot & READ != 0, Code::ProtectionFailure)?;
        self.check_free(target, room)?;
        let host = self.host_of(task);
        let is_marked = is_slow || self.regions[self.index(host, entry.region)].marked;
        self.check_tables(1, if is_marked { 1 } else { 2 })?;
        let source = self.place(task, &entry, range.address, 0);
        if !is_slow {
            self.enter_copy(target, entry.region, source.page, whole_entry(room, 0));
            self.restart();
            return Ok(());
        }
        let (region, object) = self.make_region(host, pages, 0);
        self.out.begun(task, "copy", [range.address, range.bytes, to]);
        self.out.event("region", [region.into(), object.into(), pages]);
        let target = self.index(host, object) as u32;
        self.begin(task, Access { want: Want::Copy { pages: pages as u32, next: 0, target, region, to }, ..source });
        Ok(())
    }

    /// A slow copy ends: what it filled is mapped.
    pub fn end_copy(&mut self, task: u16, pages: u32, region: u32, to: u64) {
        let at = self.index(0, region);
        self.regions[at].entries = 1;
        self.out.copy_ended(task);
        let bytes = u64::from(pages) * u64::from(self.size);
        self.enter(task, whole_entry(Range { address: to, bytes }, region));
    }

    fn clean_file(&mut self, object: u32, page: u32, count: u32, flush: bool) -> Result<(), Code> {
        let is_file = self.objects[object as usize].kind == Kind::File;
        require(is_file && count > 0 && page + count <= self.pages[object as usize], Code::InvalidArgument)?;
        self.clean(object, page, count, flush);
        Ok(())
    }

    fn cache_file(&mut self, object: u32, cache: bool) -> Result<(), Code> {
        require(self.objects[object as usize].kind == Kind::File, Code::InvalidArgument)?;
        self.cache(object, cache);
        Ok(())
    }

    fn wire(&mut self, host: u8, count: u32) -> Result<(), Code> {
        let frames = &mut self.hosts[usize::from(host)];
        require(count <= frames.free, Code::ResourceShortage)?;
        frames.free -= count;
        frames.wired += count;
        self.out.event("wired", [host.into(), frames.wired.into()]);
        Ok(())
    }

    fn unwire(&mut self, host: u8, count: u32) -> Result<(), Code> {
        let frames = &mut self.hosts[usize::from(host)];
        require(count <= frames.wired, Code::InvalidArgument)?;
        frames.free += count;
        frames.wired -= count;
        self.out.event("wired", [host.into(), frames.wired.into()]);
        Ok(())
    }
}
