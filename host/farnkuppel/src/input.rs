//! Files that are read.

use crate::names;
use crate::stop::{of_file, trouble, Stop};
use archive::size::FILE_BYTES;
use std::ffi::OsStr;
use std::fs::File;
use std::io::{BufRead, BufReader, Read};
use std::os::unix::fs::MetadataExt;

/// The longest line of a text that is read, in bytes, and the most lines.
const LONGEST_LINE: usize = 4096;
const MOST_LINES: usize = 10_000_000;

/// An open file, with its name as it is shown and what tells it apart from every other file: its device and its number there.
pub struct Input {
    pub name: String,
    pub identity: (u64, u64),
    file: File,
}

impl Input {
    pub fn open(name: &OsStr) -> Result<Input, Stop> {
        let shown = names::file(name);
        let file = File::open(name).map_err(|error| of_file(&shown, &error))?;
        let about = file.metadata().map_err(|error| of_file(&shown, &error))?;
        if about.is_dir() {
            return Err(trouble(&format!("{shown}: is a directory")));
        }
        Ok(Input { name: shown, identity: (about.dev(), about.ino()), file })
    }

    /// The file's bytes, so many at most.
    pub fn bytes(&self, most: usize) -> Result<Vec<u8>, Stop> {
        let mut bytes = Vec::new();
        let read = (&self.file).take(most as u64).read_to_end(&mut bytes);
        read.map_err(|error| of_file(&self.name, &error))?;
        Ok(bytes)
    }

    /// The bytes of a plan. Of a file that is too long one byte more than can load is read: a load refuses the whole as it refuses those.
    pub fn plan(&self) -> Result<Vec<u8>, Stop> {
        self.bytes(FILE_BYTES + 1)
    }

    /// Gives each line of a text with its number, but for blank ones and comments. What is wrong with a line is said with its place.
    pub fn each_line(&self, mut take: impl FnMut(usize, &str) -> Result<(), String>) -> Result<(), Stop> {
        let mut reader = BufReader::new(&self.file);
        let mut number = 0;
        loop {
            let mut line = Vec::new();
            let part = (&mut reader).take(LONGEST_LINE as u64 + 1).read_until(b'\n', &mut line);
            if part.map_err(|error| of_file(&self.name, &error))? == 0 {
                return Ok(());
            }
            number += 1;
            if line.len() > LONGEST_LINE {
                return Err(self.wrong(number, &format!("longer than {LONGEST_LINE} bytes")));
            }
            if number > MOST_LINES {
                return Err(self.wrong(number, &format!("more than {MOST_LINES} lines")));
            }
            let words = String::from_utf8_lossy(&line);
            let words = words.trim();
            if !words.is_empty() && !words.starts_with('#') {
                take(number, words).map_err(|what| self.wrong(number, &what))?;
            }
        }
    }

    /// Trouble with a line.
    pub fn wrong(&self, line: usize, what: &str) -> Stop {
        Stop::Trouble(format!("{}:{line}: {what}", self.name))
    }
}
