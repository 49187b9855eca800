// The text of events, and what is counted of them.

use std::io::{self, Write};

use crate::ports::{Channel, Message};

const HEX: [[u8; 2]; 256] = {
    let digits = b"0123456789abcdef";
    let mut pairs = [[0; 2]; 256];
    let mut byte = 0;
    while byte < 256 {
        pairs[byte] = [digits[byte >> 4], digits[byte & 15]];
        byte += 1;
    }
    pairs
};

const PAIRS: [[u8; 2]; 100] = {
    let mut pairs = [[0; 2]; 100];
    let mut number = 0;
    while number < 100 {
        pairs[number] = [b'0' + (number / 10) as u8, b'0' + (number % 10) as u8];
        number += 1;
    }
    pairs
};

#[derive(Default)]
struct Counts {
    lines: u32,
    refused: u32,
    begun: u32,
    loads: u32,
    stores: u32,
    copies: u32,
    failed: u32,
    sent: u32,
    taken: u32,
    dropped: u32,
    sum: u64,
}

pub struct Out {
    text: Vec<u8>,
    shows: bool,
    pub events: u32,
    counts: Counts,
}

impl Out {
    pub fn new(shows: bool) -> Out {
        Out { text: Vec::new(), shows, events: 0, counts: Counts::default() }
    }

    /// Writes a step's text, in one piece as the program does.
    pub fn end_step(&mut self) -> io::Result<()> {
        if self.text.is_empty() {
            return Ok(());
        }
        let mut sink = io::stdout().lock();
        sink.write_all(&self.text)?;
        self.text.clear();
        sink.flush()
    }

    pub fn summary(&self) -> String {
        let it = &self.counts;
        let ended = it.loads + it.stores + it.copies + it.failed;
        let rows = [
            ("lines", it.lines),
            ("refused", it.refused),
            ("loads", it.loads),
            ("stores", it.stores),
            ("copies", it.copies),
            ("failed", it.failed),
            ("sent", it.sent),
            ("taken", it.taken),
            ("dropped", it.dropped),
            ("waiting", it.begun - ended),
        ];
        let mut text: String = rows.iter().map(|(word, count)| format!("{word} {count}\n")).collect();
        text.push_str(&format!("sum {}\n", it.sum));
        text
    }

    fn word(&mut self, word: &str) {
        self.text.extend_from_slice(word.as_bytes());
    }

    fn number(&mut self, number: u64) {
        let pair = |number: u64| PAIRS[(number % 100) as usize];
        let ([a, b], [c, d]) = (pair(number / 100), pair(number));
        match number {
            0..=9 => self.text.push(d),
            10..=99 => self.text.extend_from_slice(&[c, d]),
            100..=999 => self.text.extend_from_slice(&[b, c, d]),
            1000..=9999 => self.text.extend_from_slice(&[a, b, c, d]),
            _ => {
                self.number(number / 10_000);
                self.text.extend_from_slice(&[a, b, c, d]);
            }
        }
    }

    fn fields<const N: usize>(&mut self, numbers: [u64; N]) {
        for number in numbers {
            self.text.push(b' ');
            self.number(number);
        }
    }

    fn hex(&mut self, bytes: &[u8]) {
        let start = self.text.len();
        self.text.resize(start + 2 * bytes.len(), 0);
        for (pair, byte) in self.text[start..].chunks_exact_mut(2).zip(bytes) {
            pair.copy_from_slice(&HEX[*byte as usize]);
        }
    }

    fn page(&mut self, bytes: &[u8]) {
        self.text.push(b' ');
        if bytes.is_empty() {
            self.text.push(b'-');
        } else {
            self.hex(bytes);
        }
    }

    /// An event that is a word and numbers.
    pub fn event<const N: usize>(&mut self, word: &str, numbers: [u64; N]) {
        self.events += 1;
        if self.shows {
            self.word(word);
            self.fields(numbers);
            self.text.push(b'\n');
        }
    }

    pub fn line(&mut self, line: u32) {
        self.counts.lines += 1;
        self.event("line", [line.into()]);
    }

    pub fn refused(&mut self, code: u32) {
        self.counts.refused += 1;
        self.event("refused", [code.into()]);
    }

    pub fn begun<const N: usize>(&mut self, task: u16, word: &str, numbers: [u64; N]) {
        self.counts.begun += 1;
        self.events += 1;
        if self.shows {
            self.word("begun");
            self.fields([task.into()]);
            self.text.push(b' ');
            self.word(word);
            self.fields(numbers);
            self.text.push(b'\n');
        }
    }

    pub fn loaded(&mut self, task: u16, object: u32, page: u32, value: u64) {
        self.counts.loads += 1;
        self.counts.sum = self.counts.sum.wrapping_add(value);
        self.event("loaded", [task.into(), object.into(), page.into(), value]);
    }

    pub fn stored(&mut self, task: u16, object: u32, page: u32, at: u32, bytes: &[u8]) {
        self.counts.stores += 1;
        self.events += 1;
        if self.shows {
            self.word("stored");
            self.fields([task.into(), object.into(), page.into(), at.into()]);
            self.text.push(b' ');
            self.hex(bytes);
            self.text.push(b'\n');
        }
    }

    pub fn copy_ended(&mut self, task: u16) {
        self.counts.copies += 1;
        self.event("copyend", [task.into()]);
    }

    pub fn failed(&mut self, task: u16, object: u32, page: u32) {
        self.counts.failed += 1;
        self.event("failed", [task.into(), object.into(), page.into()]);
    }

    pub fn dropped(&mut self, host: u8, object: u32, page: u32) {
        self.counts.dropped += 1;
        self.event("dropped", [host.into(), object.into(), page.into()]);
    }

    pub fn sent(&mut self, channel: &Channel, message: &Message, size: u32) {
        self.counts.sent += 1;
        self.letter("sent ", channel, message, size);
    }

    pub fn taken(&mut self, channel: &Channel, message: &Message, size: u32) {
        self.counts.taken += 1;
        self.letter("taken ", channel, message, size);
    }

    fn letter(&mut self, word: &str, channel: &Channel, message: &Message, size: u32) {
        self.events += 1;
        if self.shows {
            self.word(word);
            self.channel(channel);
            self.message(message, size);
            self.text.push(b'\n');
        }
    }

    fn channel(&mut self, channel: &Channel) {
        self.text.push(if channel.control == 0 { b'u' } else { b'd' });
        self.text.extend_from_slice(&[b'0' + channel.host, b'.']);
        self.number(channel.object.into());
        if channel.control > 0 {
            self.text.push(b'.');
            self.number(channel.control.into());
        }
        self.text.push(b' ');
    }

    fn says<const N: usize>(&mut self, word: &str, numbers: [u32; N]) {
        self.word(word);
        self.fields(numbers.map(u64::from));
    }

    fn message(&mut self, message: &Message, size: u32) {
        match message {
            Message::Init { control } => self.says("init", [*control, size]),
            Message::Create { control } => self.says("create", [*control, size]),
            Message::Request { control, page, access } => self.says("request", [*control, *page, *access]),
            Message::Unlock { control, page, access } => self.says("unlock", [*control, *page, *access]),
            Message::Return { control, page, dirty, keep, bytes } => {
                self.says("return", [*control, *page, u32::from(*dirty), u32::from(*keep)]);
                self.page(bytes.bytes());
            }
            Message::Completed { control, page, count } => self.says("completed", [*control, *page, *count]),
            Message::Changed { control, cache } => self.says("changed", [*control, u32::from(*cache), 2]),
            Message::Terminate { control } => self.says("terminate", [*control]),
            Message::Ready { strategy } => self.says("ready 0", [*strategy]),
            Message::Supply { page, lock, bytes } => {
                self.says("supply", [*page, *lock, 0]);
                self.page(bytes.bytes());
            }
            Message::Unavailable { page } => self.says("unavailable", [*page]),
            Message::Error { page } => self.says("error", [*page, 10]),
            Message::Lock { page, count, returns, flush, lock, reply } => {
                self.says("lock", [*page, *count, *returns, u32::from(*flush), *lock, u32::from(*reply)]);
            }
            Message::Attributes { cache } => self.says("attributes", [u32::from(*cache), 2, 1]),
        }
    }
}
