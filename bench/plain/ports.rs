// The channels, and the undelivered messages: those of a channel are linked, and all in the order of sending.

use crate::page::Page;

pub const NONE: u32 = u32::MAX;

pub enum Message {
    Init { control: u32 },
    Create { control: u32 },
    Request { control: u32, page: u32, access: u32 },
    Unlock { control: u32, page: u32, access: u32 },
    Return { control: u32, page: u32, dirty: bool, keep: bool, bytes: Page },
    Completed { control: u32, page: u32, count: u32 },
    Changed { control: u32, cache: bool },
    Terminate { control: u32 },
    Ready { strategy: u32 },
    Supply { page: u32, lock: u32, bytes: Page },
    Unavailable { page: u32 },
    Error { page: u32 },
    Lock { page: u32, count: u32, returns: u32, flush: bool, lock: u32, reply: bool },
    Attributes { cache: bool },
}

/// A channel of a host's object, which `index` is; up where the control is 0, and else down to that control.
pub struct Channel {
    pub host: u8,
    pub object: u32,
    pub index: u32,
    pub control: u32,
    first: u32,
    last: u32,
}

struct Letter {
    message: Message,
    channel: u32,
    // The next one of the channel; of a letter that was taken, the next such one.
    next: u32,
    before: u32,
    after: u32,
}

pub struct Ports {
    pub channels: Vec<Channel>,
    // By an object's index: the channel up, and behind it those down, by control.
    of: Vec<Vec<u32>>,
    letters: Vec<Letter>,
    taken: u32,
    first: u32,
    last: u32,
}

impl Ports {
    pub fn new() -> Ports {
        Ports { channels: Vec::new(), of: Vec::new(), letters: Vec::new(), taken: NONE, first: NONE, last: NONE }
    }

    /// Makes the channel of an object's next control, and the one up where it isn't there.
    pub fn open(&mut self, host: u8, object: u32, index: usize) {
        if self.of.len() <= index {
            self.of.resize_with(index + 1, Vec::new);
        }
        let of = &mut self.of[index];
        let first = of.len() as u32;
        for control in first..=first.max(1) {
            of.push(self.channels.len() as u32);
            self.channels.push(Channel { host, object, index: index as u32, control, first: NONE, last: NONE });
        }
    }

    /// The channel of a control of an object, or the one up for control 0.
    pub fn channel(&self, index: usize, control: u32) -> Option<u32> {
        self.of.get(index)?.get(control as usize).copied()
    }

    pub fn is_empty(&self, channel: u32) -> bool {
        self.channels[channel as usize].first == NONE
    }

    /// The channel of the message that was sent first.
    pub fn oldest(&self) -> Option<u32> {
        self.letters.get(self.first as usize).map(|letter| letter.channel)
    }

    pub fn send(&mut self, channel: u32, message: Message) {
        let letter = Letter { message, channel, next: NONE, before: self.last, after: NONE };
        let mut at = self.taken;
        if let Some(place) = self.letters.get_mut(at as usize) {
            self.taken = place.next;
            *place = letter;
        } else {
            at = self.letters.len() as u32;
            self.letters.push(letter);
        }
        match self.letters.get_mut(self.last as usize) {
            Some(last) => last.after = at,
            None => self.first = at,
        }
        self.last = at;
        let ends = &mut self.channels[channel as usize];
        match self.letters.get_mut(ends.last as usize) {
            Some(last) => last.next = at,
            None => ends.first = at,
        }
        ends.last = at;
    }

    /// Takes the first message of a channel that isn't empty.
    pub fn take(&mut self, channel: u32) -> Message {
        let ends = &mut self.channels[channel as usize];
        let at = ends.first;
        let letter = &mut self.letters[at as usize];
        let message = std::mem::replace(&mut letter.message, Message::Ready { strategy: 0 });
        let (before, after) = (letter.before, letter.after);
        ends.first = letter.next;
        if ends.first == NONE {
            ends.last = NONE;
        }
        letter.next = self.taken;
        self.taken = at;
        match self.letters.get_mut(before as usize) {
            Some(letter) => letter.after = after,
            None => self.first = after,
        }
        match self.letters.get_mut(after as usize) {
            Some(letter) => letter.before = before,
            None => self.last = before,
        }
        message
    }
}
