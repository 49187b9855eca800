// The files of the folder in which the program was started, and calls that are made to fail.

use std::fs::{self, File, OpenOptions};
use std::io::{self, ErrorKind, Read, Seek, SeekFrom, Write};

/// The number of the coming call that fails; 0 for none.
#[derive(Default)]
pub struct Arming(pub u32);

impl Arming {
    /// Whether the coming call fails, without being made.
    pub fn strikes(&mut self) -> bool {
        let strikes = self.0 == 1;
        self.0 = self.0.saturating_sub(1);
        strikes
    }
}

#[derive(Default)]
pub struct Files {
    pub arming: Arming,
}

impl Files {
    fn pass(&mut self) -> io::Result<()> {
        if self.arming.strikes() {
            Err(ErrorKind::Other.into())
        } else {
            Ok(())
        }
    }

    /// The length of a file, None where there is none. What is no regular file fails.
    pub fn length(&mut self, name: &str) -> io::Result<Option<u64>> {
        self.pass()?;
        length_of(name)
    }

    /// So many bytes from a place on, as far as the file reaches.
    pub fn read(&mut self, name: &str, at: u64, size: u32) -> io::Result<Vec<u8>> {
        self.pass()?;
        let mut bytes = Vec::new();
        if at < length_of(name)?.unwrap_or(0) {
            let mut file = File::open(name)?;
            file.seek(SeekFrom::Start(at))?;
            file.take(size.into()).read_to_end(&mut bytes)?;
        }
        Ok(bytes)
    }

    pub fn write(&mut self, name: &str, at: u64, bytes: &[u8]) -> io::Result<()> {
        self.pass()?;
        length_of(name)?;
        let mut file = OpenOptions::new().write(true).create(true).truncate(false).open(name)?;
        file.seek(SeekFrom::Start(at))?;
        file.write_all(bytes)
    }
}

fn length_of(name: &str) -> io::Result<Option<u64>> {
    match fs::metadata(name) {
        Ok(found) if found.is_file() => Ok(Some(found.len())),
        Ok(_) => Err(ErrorKind::Unsupported.into()),
        Err(error) if error.kind() == ErrorKind::NotFound => Ok(None),
        Err(error) => Err(error),
    }
}
