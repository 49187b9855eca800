// The whole system, and its steps.

use crate::frames::Host;
use crate::maps::Entry;
use crate::objects::{Object, Pager, Region};
use crate::outside::{Arming, Files};
use crate::pagers::{FilePager, Slots};
use crate::ports::{Message, Ports};
use crate::script::{Command, Kind, Script};
use crate::shared::{Directory, Reply};
use crate::text::Out;

pub const NO_HOST: u8 = u8::MAX;
pub const MOST_TASKS: usize = 1024;

/// What an access is to do.
#[derive(Clone, Copy)]
pub enum Want {
    Load,
    Store {
        value: u64,
    },
    /// So many pages are copied into an object of that index, those in front of `next` are; `region` and
    /// `to` are of the entry that is to be made.
    Copy {
        pages: u32,
        next: u32,
        target: u32,
        region: u32,
        to: u64,
    },
}

/// A task's access: `region` is an index, `page` one of it, and `at` and `size` are a place in the page.
#[derive(Clone, Copy)]
pub struct Access {
    pub want: Want,
    pub region: u32,
    pub page: u32,
    pub at: u16,
    pub size: u8,
}

pub struct Task {
    /// `NO_HOST` where it doesn't live.
    pub host: u8,
    pub waits: bool,
    /// Of those that wait for the same, the one that began to wait before it.
    pub next_waiter: u16,
    pub began: u64,
    pub access: Access,
    pub entries: Vec<Entry>,
}

pub struct System {
    pub out: Out,
    pub size: u32,
    /// The number of declared objects, and how many pages each has.
    pub declared: u32,
    pub pages: Vec<u32>,
    pub hosts: Vec<Host>,
    // Declared objects and regions stand host by host, all others behind them by number.
    pub objects: Vec<Object>,
    pub regions: Vec<Region>,
    pub tasks: Vec<Task>,
    pub ports: Ports,
    pub slots: Vec<Slots>,
    pub paging: Arming,
    pub files: Files,
    pub files_of: Vec<FilePager>,
    /// The host that mapped a declared object first.
    pub owners: Vec<u8>,
    pub directories: Vec<Vec<Option<Box<Directory>>>>,
    pub replies: Vec<Reply>,
    pub next_object: u32,
    pub next_region: u32,
    /// Marks of regions that became no objects yet.
    pub marks: u32,
    pub began: u64,
    /// The accesses that are to be run again.
    pub woken: Vec<u16>,
    /// The indices of objects that lost a reference in the step, and have some left.
    pub losers: Vec<u32>,
}

impl System {
    pub fn new(script: &Script, out: Out) -> System {
        let declared = script.objects.len() as u32;
        let mut objects = Vec::new();
        let mut regions = Vec::new();
        for host in 0..script.frames.len() {
            for (number, object) in (0..).zip(&script.objects) {
                let (top, pages) = (objects.len() as u32, object.pages);
                regions.push(Region { top, shift: 0, pages, marked: false, entries: 0 });
                objects.push(Object::new(number, host as u8, object.kind));
            }
        }
        let access = Access { want: Want::Load, region: 0, page: 0, at: 0, size: 0 };
        let task = || Task { host: NO_HOST, waits: false, next_waiter: 0, began: 0, access, entries: Vec::new() };
        System {
            out,
            size: script.size,
            declared,
            pages: script.objects.iter().map(|object| object.pages).collect(),
            hosts: script.frames.iter().map(|frames| Host::new(*frames)).collect(),
            objects,
            regions,
            tasks: std::iter::repeat_with(task).take(MOST_TASKS).collect(),
            ports: Ports::new(),
            slots: script.frames.iter().map(|_| Slots::new(script.slots)).collect(),
            paging: Arming::default(),
            files: Files::default(),
            files_of: script.objects.iter().map(|object| FilePager::new(&object.name)).collect(),
            owners: vec![NO_HOST; script.objects.len()],
            directories: script.objects.iter().map(|_| Vec::new()).collect(),
            replies: Vec::new(),
            next_object: declared,
            next_region: declared,
            marks: 0,
            began: 0,
            woken: Vec::new(),
            losers: Vec::new(),
        }
    }

    /// Where an object or a region of a host stands among all.
    pub fn index(&self, host: u8, number: u32) -> usize {
        if number < self.declared {
            (u32::from(host) * self.declared + number) as usize
        } else {
            ((self.hosts.len() as u32 - 1) * self.declared + number) as usize
        }
    }

    pub fn is_quiet(&self) -> bool {
        self.ports.oldest().is_none()
    }

    /// Sends to an object's pager.
    pub fn send_up(&mut self, object: usize, message: Message) {
        self.send(object, 0, message);
    }

    /// Sends to a control of an object, or to its pager where that is 0.
    pub fn send(&mut self, object: usize, control: u32, message: Message) {
        if let Some(channel) = self.ports.channel(object, control) {
            self.out.sent(&self.ports.channels[channel as usize], &message, self.size);
            self.ports.send(channel, message);
        }
    }

    /// The next control of an object begins, and its pager is told.
    pub fn begin_control(&mut self, at: usize) {
        let object = &mut self.objects[at];
        object.control += 1;
        object.pager = Pager::Sent;
        let control = object.control;
        self.ports.open(object.host, object.number, at);
        let is_temporary = object.kind == Kind::Temporary;
        self.send_up(at, if is_temporary { Message::Create { control } } else { Message::Init { control } });
    }

    /// Takes the message that was sent first, in a settle.
    pub fn take_oldest(&mut self) {
        if let Some(channel) = self.ports.oldest() {
            self.take(channel);
            self.serve();
        }
    }

    pub fn take(&mut self, channel: u32) {
        let message = self.ports.take(channel);
        let from = &self.ports.channels[channel as usize];
        self.out.taken(from, &message, self.size);
        let (host, object, control) = (from.host, from.index as usize, from.control);
        if control > 0 {
            return self.hear(object, control, message);
        }
        let is_laundered = matches!(message, Message::Return { keep: false, .. });
        self.take_up(host, object, message);
        if is_laundered {
            let host = &mut self.hosts[usize::from(host)];
            host.laundry -= 1;
            host.free += 1;
        }
    }

    /// Makes one command's step; of a settle it is its line alone.
    pub fn step(&mut self, line: u32, command: &Command) {
        self.out.line(line);
        match self.run(command) {
            Err(code) => self.out.refused(code as u32),
            Ok(()) if matches!(command, Command::Settle { .. }) => {}
            Ok(()) => self.serve(),
        }
    }
}
