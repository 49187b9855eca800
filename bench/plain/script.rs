// The grammar of scripts.

use std::collections::HashMap;

pub const MOST_BYTES: usize = 1_048_576;
const MOST_LINES: u32 = 20_000;
const MOST_OBJECTS: u64 = 8192;
const ADDRESS_END: u64 = 1 << 32;

#[derive(Clone, Copy, Debug, PartialEq)]
pub enum Fault {
    TooLong = 1,
    UnknownWord = 2,
    BadNumber = 3,
    WrongCount = 4,
    OutOfRange = 5,
    HeaderLate = 6,
    NoHosts = 7,
}

#[derive(Clone, Copy, PartialEq)]
pub enum Kind {
    Temporary,
    File,
    Shared,
    Wild,
}

pub struct Declared {
    pub name: String,
    pub kind: Kind,
    pub pages: u32,
}

#[derive(Clone, Copy)]
pub struct Range {
    pub address: u64,
    pub bytes: u64,
}

#[derive(Clone, Copy)]
pub enum Command {
    Task { task: u16, host: u8 },
    Fork { task: u16, child: u16 },
    Exit { task: u16 },
    Allocate { task: u16, range: Range },
    Map { task: u16, range: Range, object: u32, offset: u32 },
    Deallocate { task: u16, range: Range },
    Protect { task: u16, range: Range, prot: u8 },
    Inherit { task: u16, range: Range, inherit: u8 },
    Load { task: u16, address: u64, size: u8 },
    Store { task: u16, address: u64, size: u8, value: u64 },
    Copy { task: u16, range: Range, target: u16, to: u32 },
    Take { host: u8, object: u32, control: Option<u32> },
    Settle { count: u32 },
    Pageout { host: u8, count: u32 },
    Clean { object: u32, page: u32, count: u32, flush: bool },
    Cache { object: u32, cache: bool },
    Wire { host: u8, count: u32 },
    Unwire { host: u8, count: u32 },
    FailFiles { count: u32 },
    FailPaging { count: u32 },
    Say { host: u8, object: u32 },
}

pub struct Script {
    pub size: u32,
    pub slots: u32,
    pub frames: Vec<u32>,
    pub objects: Vec<Declared>,
    pub commands: Vec<(u32, Command)>,
    /// The first line that declares a wild object.
    pub wild: Option<u32>,
}

// What the lines have said so far.
#[derive(Default)]
struct Reader<'a> {
    size: Option<u32>,
    slots: Option<u32>,
    frames: Vec<u32>,
    objects: Vec<Declared>,
    names: HashMap<&'a [u8], u32>,
    commands: Vec<(u32, Command)>,
    wild: Option<u32>,
}

// The words of a line; no more are kept than a line can have.
struct Words<'a> {
    words: [&'a [u8]; 10],
    count: usize,
}

impl<'a> Words<'a> {
    fn of(line: &'a [u8]) -> Words<'a> {
        let mut found = Words { words: [&[]; 10], count: 0 };
        for word in line.split(|byte| matches!(byte, b' ' | b'\t' | b'\r')).filter(|word| !word.is_empty()) {
            if let Some(place) = found.words.get_mut(found.count) {
                *place = word;
            }
            found.count += 1;
        }
        found
    }

    fn behind(&self, first: usize, count: usize) -> Result<Fields<'_, 'a>, Fault> {
        if self.count == first + count {
            Ok(Fields(&self.words[first..self.count.min(self.words.len())]))
        } else {
            Err(Fault::WrongCount)
        }
    }
}

// The words that are left to be read, from left to right.
struct Fields<'w, 'a>(&'w [&'a [u8]]);

impl<'a> Fields<'_, 'a> {
    fn word(&mut self) -> &'a [u8] {
        let (word, rest) = self.0.split_first().expect("the words were counted");
        self.0 = rest;
        word
    }

    fn number(&mut self, least: u64, most: u64) -> Result<u64, Fault> {
        number_in(self.word(), least, most)
    }

    fn count(&mut self, most: u64) -> Result<u32, Fault> {
        Ok(self.number(0, most)? as u32)
    }

    fn task(&mut self) -> Result<u16, Fault> {
        Ok(self.number(0, 1023)? as u16)
    }

    fn address(&mut self) -> Result<u64, Fault> {
        self.number(0, ADDRESS_END - 1)
    }

    fn range(&mut self) -> Result<Range, Fault> {
        Ok(Range { address: self.address()?, bytes: self.number(0, ADDRESS_END)? })
    }

    fn access_size(&mut self) -> Result<u8, Fault> {
        match number_of(self.word())? {
            size @ (1 | 2 | 4 | 8) => Ok(size as u8),
            _ => Err(Fault::OutOfRange),
        }
    }

    // Bytes, at most a page of them.
    fn check_bytes(&mut self, size: u32) -> Result<(), Fault> {
        let word = self.word();
        if word == b"-" {
            return Ok(());
        }
        if word.len() % 2 != 0 || !word.iter().all(|byte| matches!(byte, b'0'..=b'9' | b'a'..=b'f')) {
            return Err(Fault::BadNumber);
        }
        if word.len() / 2 > size as usize {
            Err(Fault::OutOfRange)
        } else {
            Ok(())
        }
    }
}

pub fn number_of(word: &[u8]) -> Result<u64, Fault> {
    if word.is_empty() {
        return Err(Fault::BadNumber);
    }
    word.iter().try_fold(0u64, |front, byte| {
        let digit = Some(byte.wrapping_sub(b'0')).filter(|digit| *digit < 10).ok_or(Fault::BadNumber)?;
        front.checked_mul(10).and_then(|tens| tens.checked_add(digit.into())).ok_or(Fault::BadNumber)
    })
}

pub fn number_in(word: &[u8], least: u64, most: u64) -> Result<u64, Fault> {
    let number = number_of(word)?;
    if number < least || number > most {
        Err(Fault::OutOfRange)
    } else {
        Ok(number)
    }
}

fn is_name(word: &[u8]) -> bool {
    word.len() <= 32
        && word.first().is_some_and(u8::is_ascii_lowercase)
        && word.iter().all(|byte| matches!(byte, b'a'..=b'z' | b'0'..=b'9' | b'_'))
}

// How many words stand behind the first of a command; None where it begins none.
fn words_behind(words: &Words) -> Option<usize> {
    Some(match words.words[0] {
        b"exit" | b"settle" | b"take" => 1,
        b"task" | b"fork" | b"pageout" | b"cache" | b"wire" | b"unwire" | b"fail" => 2,
        b"load" | b"allocate" | b"deallocate" => 3,
        b"store" | b"protect" | b"inherit" | b"clean" => 4,
        b"map" | b"copy" => 5,
        b"say" => 3 + words_said(words),
        _ => return None,
    })
}

// How many words stand behind a message's word; as many as there are, where it is no message.
fn words_said(words: &Words) -> usize {
    match words.words[3] {
        b"unavailable" | b"destroy" => 1,
        b"ready" | b"error" => 2,
        b"attributes" => 3,
        b"supply" => 4,
        b"lock" => 6,
        _ => words.count.saturating_sub(4),
    }
}

impl<'a> Reader<'a> {
    fn host(&self, word: &[u8]) -> Result<u8, Fault> {
        let host = number_of(word)?;
        if host < self.frames.len() as u64 {
            Ok(host as u8)
        } else {
            Err(Fault::OutOfRange)
        }
    }

    fn object(&self, word: &[u8]) -> Result<u32, Fault> {
        self.names.get(word).copied().ok_or(Fault::UnknownWord)
    }

    fn line(&mut self, number: u32, line: &'a [u8]) -> Result<(), Fault> {
        let words = Words::of(line);
        if words.count == 0 || words.words[0][0] == b'#' {
            return Ok(());
        }
        if let Some(again) = self.stands_already(words.words[0]) {
            if again || !self.commands.is_empty() {
                return Err(Fault::HeaderLate);
            }
            return self.header(number, &words);
        }
        let count = words_behind(&words).ok_or(Fault::UnknownWord)?;
        if self.frames.is_empty() {
            return Err(Fault::NoHosts);
        }
        let command = self.command(words.words[0], words.behind(1, count)?)?;
        self.commands.push((number, command));
        Ok(())
    }

    // Whether a header line that may stand once stands; None where the word begins no header line.
    fn stands_already(&self, word: &[u8]) -> Option<bool> {
        match word {
            b"hosts" => Some(!self.frames.is_empty()),
            b"page" => Some(self.size.is_some()),
            b"slots" => Some(self.slots.is_some()),
            b"frames" | b"file" | b"shared" | b"wild" => Some(false),
            _ => None,
        }
    }

    fn header(&mut self, number: u32, words: &Words<'a>) -> Result<(), Fault> {
        let word = words.words[0];
        if word == b"frames" && self.frames.is_empty() {
            return Err(Fault::NoHosts);
        }
        let mut fields = words.behind(1, if matches!(word, b"page" | b"slots") { 1 } else { 2 })?;
        match word {
            b"hosts" => {
                let hosts = fields.number(1, 8)? as usize;
                self.frames = vec![fields.number(2, 4096)? as u32; hosts];
            }
            b"frames" => {
                let host = self.host(fields.word())?;
                self.frames[usize::from(host)] = fields.number(2, 4096)? as u32;
            }
            b"page" => {
                let size = fields.number(16, 4096)? as u32;
                self.size = Some(Some(size).filter(|size| size.is_power_of_two()).ok_or(Fault::OutOfRange)?);
            }
            b"slots" => self.slots = Some(fields.count(65_536)?),
            b"file" => self.declare(Kind::File, fields)?,
            b"shared" => self.declare(Kind::Shared, fields)?,
            _ => {
                self.declare(Kind::Wild, fields)?;
                self.wild.get_or_insert(number);
            }
        }
        Ok(())
    }

    fn declare(&mut self, kind: Kind, mut fields: Fields<'_, 'a>) -> Result<(), Fault> {
        let word = fields.word();
        if !is_name(word) {
            return Err(Fault::UnknownWord);
        }
        if self.names.contains_key(word) || self.objects.len() as u64 >= MOST_OBJECTS {
            return Err(Fault::OutOfRange);
        }
        let pages = fields.number(1, 4096)? as u32;
        self.names.insert(word, self.objects.len() as u32);
        self.objects.push(Declared { name: String::from_utf8_lossy(word).into_owned(), kind, pages });
        Ok(())
    }

    fn command(&self, word: &[u8], mut it: Fields) -> Result<Command, Fault> {
        Ok(match word {
            b"load" => Command::Load { task: it.task()?, address: it.address()?, size: it.access_size()? },
            b"store" => {
                let (task, address, size) = (it.task()?, it.address()?, it.access_size()?);
                Command::Store { task, address, size, value: it.number(0, u64::MAX >> (64 - 8 * size))? }
            }
            b"settle" => Command::Settle { count: it.count(1_000_000)? },
            b"take" => self.channel(it.word())?,
            b"task" => Command::Task { task: it.task()?, host: self.host(it.word())? },
            b"fork" => Command::Fork { task: it.task()?, child: it.task()? },
            b"exit" => Command::Exit { task: it.task()? },
            b"allocate" => Command::Allocate { task: it.task()?, range: it.range()? },
            b"deallocate" => Command::Deallocate { task: it.task()?, range: it.range()? },
            b"protect" => Command::Protect { task: it.task()?, range: it.range()?, prot: it.count(3)? as u8 },
            b"inherit" => Command::Inherit { task: it.task()?, range: it.range()?, inherit: it.count(2)? as u8 },
            b"map" => {
                let (task, range, object) = (it.task()?, it.range()?, self.object(it.word())?);
                Command::Map { task, range, object, offset: it.count(4096)? }
            }
            b"copy" => {
                let (task, range, target) = (it.task()?, it.range()?, it.task()?);
                Command::Copy { task, range, target, to: it.address()? as u32 }
            }
            b"pageout" => Command::Pageout { host: self.host(it.word())?, count: it.count(4096)? },
            b"wire" => Command::Wire { host: self.host(it.word())?, count: it.count(4096)? },
            b"unwire" => Command::Unwire { host: self.host(it.word())?, count: it.count(4096)? },
            b"clean" => {
                let (object, page, count) = (self.object(it.word())?, it.count(4096)?, it.count(4096)?);
                Command::Clean { object, page, count, flush: it.count(1)? == 1 }
            }
            b"cache" => Command::Cache { object: self.object(it.word())?, cache: it.count(1)? == 1 },
            b"fail" => match it.word() {
                b"files" => Command::FailFiles { count: it.number(1, 1_000_000)? as u32 },
                b"paging" => Command::FailPaging { count: it.number(1, 1_000_000)? as u32 },
                _ => return Err(Fault::UnknownWord),
            },
            _ => {
                let (host, object) = (self.host(it.word())?, self.object(it.word())?);
                self.check_message(it)?;
                Command::Say { host, object }
            }
        })
    }

    fn channel(&self, word: &[u8]) -> Result<Command, Fault> {
        let (way, rest) = word.split_first().ok_or(Fault::UnknownWord)?;
        let mut parts = rest.split(|byte| *byte == b'.');
        let (host, object, control) = match (way, [parts.next(), parts.next(), parts.next(), parts.next()]) {
            (b'u', [Some(host), Some(object), None, None]) => (host, object, None),
            (b'd', [Some(host), Some(object), control @ Some(_), None]) => (host, object, control),
            _ => return Err(Fault::UnknownWord),
        };
        let host = self.host(host)?;
        let object = number_in(object, 0, MOST_OBJECTS - 1)? as u32;
        let control = control.map(|control| number_in(control, 0, ADDRESS_END - 1)).transpose()?;
        Ok(Command::Take { host, object, control: control.map(|control| control as u32) })
    }

    // Reads a message that is said. Nothing of it is kept, since wild objects are left out.
    fn check_message(&self, mut it: Fields) -> Result<(), Fault> {
        match it.word() {
            b"ready" => {
                it.count(1)?;
                it.count(3)?;
            }
            b"supply" => {
                it.count(4095)?;
                it.count(3)?;
                it.count(1)?;
                it.check_bytes(self.size.unwrap_or(4096))?;
            }
            b"unavailable" => {
                it.count(4095)?;
            }
            b"error" => {
                it.count(4095)?;
                it.address()?;
            }
            b"lock" => {
                for most in [4095, 4096, 2, 1] {
                    it.count(most)?;
                }
                if !matches!(number_of(it.word())?, 0..=3 | 8) {
                    return Err(Fault::OutOfRange);
                }
                it.count(1)?;
            }
            b"attributes" => {
                for most in [1, 3, 1] {
                    it.count(most)?;
                }
            }
            b"destroy" => {
                it.address()?;
            }
            _ => return Err(Fault::UnknownWord),
        }
        Ok(())
    }
}

impl Script {
    /// Reads a whole script, or gives the line of its first fault, and that fault.
    pub fn read(bytes: &[u8]) -> Result<Script, (u32, Fault)> {
        if bytes.len() > MOST_BYTES {
            return Err((0, Fault::TooLong));
        }
        let mut reader = Reader::default();
        let mut number = 1;
        let mut rest = bytes;
        while !rest.is_empty() {
            if number > MOST_LINES {
                return Err((number, Fault::TooLong));
            }
            let end = rest.iter().position(|byte| *byte == b'\n').unwrap_or(rest.len());
            reader.line(number, &rest[..end]).map_err(|fault| (number, fault))?;
            rest = rest.get(end + 1..).unwrap_or(&[]);
            number += 1;
        }
        if reader.frames.is_empty() {
            return Err((number, Fault::NoHosts));
        }
        let Reader { size, slots, frames, objects, commands, wild, .. } = reader;
        Ok(Script { size: size.unwrap_or(4096), slots: slots.unwrap_or(1024), frames, objects, commands, wild })
    }
}
