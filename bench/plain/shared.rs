// The shared memory server's directory of one page.

use std::collections::VecDeque;

use crate::page::Page;
use crate::ports::Message;

const HOSTS: usize = 8;

#[derive(Clone, Copy, PartialEq)]
enum Holding {
    Nothing,
    Read,
    Write,
}

#[derive(Clone, Copy, PartialEq)]
enum Awaited {
    No,
    Clean,
    Flush,
}

// A request to read or to write, or an upgrade.
#[derive(Clone, Copy)]
struct Wish {
    host: usize,
    writes: bool,
    upgrade: bool,
}

pub struct Directory {
    page: u32,
    holds: [Holding; HOSTS],
    awaits: [Awaited; HOSTS],
    /// The control of each host's last request.
    heard: [u32; HOSTS],
    line: VecDeque<Wish>,
    bytes: Page,
}

/// A message to a control of a host.
pub type Reply = (u8, u32, Message);

impl Directory {
    pub fn new(page: u32) -> Directory {
        Directory {
            page,
            holds: [Holding::Nothing; HOSTS],
            awaits: [Awaited::No; HOSTS],
            heard: [0; HOSTS],
            line: VecDeque::new(),
            bytes: Page::default(),
        }
    }

    pub fn request(&mut self, host: u8, control: u32, access: u32) {
        let host = usize::from(host);
        self.heard[host] = control;
        self.holds[host] = Holding::Nothing;
        self.line.push_back(Wish { host, writes: access == 3, upgrade: false });
    }

    pub fn unlock(&mut self, host: u8) {
        let host = usize::from(host);
        if self.holds[host] == Holding::Read && self.awaits[host] == Awaited::No {
            self.line.push_back(Wish { host, writes: true, upgrade: true });
        }
    }

    pub fn returned(&mut self, host: u8, keep: bool, bytes: Page) {
        self.bytes = bytes;
        if !keep {
            self.holds[usize::from(host)] = Holding::Nothing;
        }
    }

    pub fn completed(&mut self, host: u8) {
        let host = usize::from(host);
        match self.awaits[host] {
            Awaited::Clean if self.holds[host] == Holding::Write => self.holds[host] = Holding::Read,
            Awaited::Flush => self.holds[host] = Holding::Nothing,
            _ => {}
        }
        self.awaits[host] = Awaited::No;
    }

    pub fn gone(&mut self, host: u8) {
        self.holds[usize::from(host)] = Holding::Nothing;
        self.awaits[usize::from(host)] = Awaited::No;
    }

    /// Serves the line as far as it goes.
    pub fn serve(&mut self, replies: &mut Vec<Reply>) {
        while let Some(front) = self.line.front().copied() {
            if !front.upgrade || self.holds[front.host] == Holding::Read {
                if self.recall(front, replies) || self.awaits.iter().any(|awaited| *awaited != Awaited::No) {
                    return;
                }
                self.grant(front, replies);
            }
            self.line.pop_front();
        }
    }

    // Recalls the page from those in the way of the front; whether there were any.
    fn recall(&mut self, front: Wish, replies: &mut Vec<Reply>) -> bool {
        let before = replies.len();
        for host in 0..HOSTS {
            let is_in_the_way = self.holds[host] == Holding::Write || (front.writes && self.holds[host] == Holding::Read);
            if host == front.host || self.awaits[host] != Awaited::No || !is_in_the_way {
                continue;
            }
            let lock = if front.writes { 8 } else { 2 };
            let message = Message::Lock { page: self.page, count: 1, returns: 1, flush: front.writes, lock, reply: true };
            replies.push((host as u8, self.heard[host], message));
            self.awaits[host] = if front.writes { Awaited::Flush } else { Awaited::Clean };
        }
        replies.len() > before
    }

    fn grant(&mut self, front: Wish, replies: &mut Vec<Reply>) {
        let page = self.page;
        let message = if front.upgrade {
            Message::Lock { page, count: 1, returns: 0, flush: false, lock: 0, reply: false }
        } else {
            Message::Supply { page, lock: if front.writes { 0 } else { 2 }, bytes: self.bytes.clone() }
        };
        self.holds[front.host] = if front.writes { Holding::Write } else { Holding::Read };
        replies.push((front.host as u8, self.heard[front.host], message));
    }
}
