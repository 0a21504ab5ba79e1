//! Bytes from files and from standard input.

use crate::failure::Failure;
use std::fs::File;
use std::io::{self, BufReader, Read};
use std::path::Path;
use tquery::limits;

/// The name of standard input in messages.
pub const STANDARD: &str = "standard input";

/// The bytes of a field's head, and the tag of an array.
const HEAD: usize = 3;
const ARRAY: u8 = 1;

/// A file or standard input, with its name for messages.
pub struct Source {
    pub name: String,
    reader: Box<dyn Read>,
    /// How many bytes have been read.
    at: u64,
}

impl Source {
    pub fn file(path: &Path) -> Result<Source, Failure> {
        let name = path.display().to_string();
        match File::open(path) {
            Ok(file) => Ok(Source { name, reader: Box::new(BufReader::new(file)), at: 0 }),
            Err(error) => Err(Failure::Unreadable(name, error)),
        }
    }

    pub fn standard() -> Source {
        Source { name: STANDARD.into(), reader: Box::new(io::stdin().lock()), at: 0 }
    }

    /// All bytes, or the first ones, one more than a limit: enough for the
    /// engine to see that there are too many.
    pub fn whole(mut self, limit: usize) -> Result<Vec<u8>, Failure> {
        self.bytes(limit + 1)
    }

    /// The next array, if any bytes are left.
    pub fn array(&mut self) -> Result<Option<Vec<u8>>, Failure> {
        let begin = self.at;
        let mut array = self.bytes(HEAD)?;
        let length = match array[..] {
            [] => return Ok(None),
            [ARRAY, high, low] => usize::from(u16::from_be_bytes([high, low])),
            _ => return Err(Failure::Loose(self.name.clone(), begin)),
        };
        array.extend(self.bytes(length)?);
        if array.len() < HEAD + length {
            return Err(Failure::Loose(self.name.clone(), begin));
        }
        Ok(Some(array))
    }

    /// The next bytes, as many as asked for, or those that are left.
    fn bytes(&mut self, most: usize) -> Result<Vec<u8>, Failure> {
        let mut bytes = Vec::new();
        match self.reader.by_ref().take(most as u64).read_to_end(&mut bytes) {
            Ok(read) => self.at += read as u64,
            Err(error) => return Err(Failure::Unreadable(self.name.clone(), error)),
        }
        Ok(bytes)
    }
}

/// The bytes of a query's file.
pub fn query(path: &Path) -> Result<Vec<u8>, Failure> {
    Source::file(path)?.whole(limits::QUERY)
}

/// The bytes of an array's file.
pub fn array(path: &Path) -> Result<Vec<u8>, Failure> {
    Source::file(path)?.whole(limits::ARRAY)
}
