//! Items of a stream that a reader gives, and the bytes of a stream.

use crate::ffi::RdsStream;
use crate::{Follower, Item, Refused, Rules, Totals};
use std::collections::VecDeque;
use std::fmt;
use std::io::{self, Read};
use std::ops::Range;

/// How many bytes are read at once.
const CHUNK: usize = 4096;

/// Why a stream ended early.
#[derive(Debug)]
pub enum ReadError {
    /// The reader failed.
    Io(io::Error),
    /// The library refused the bytes.
    Refused(Refused),
}

impl fmt::Display for ReadError {
    fn fmt(&self, f: &mut fmt::Formatter<'_>) -> fmt::Result {
        match self {
            ReadError::Io(error) => error.fmt(f),
            ReadError::Refused(refused) => refused.fmt(f),
        }
    }
}

impl std::error::Error for ReadError {
    fn source(&self) -> Option<&(dyn std::error::Error + 'static)> {
        match self {
            ReadError::Io(error) => Some(error),
            ReadError::Refused(refused) => Some(refused),
        }
    }
}

impl From<io::Error> for ReadError {
    fn from(error: io::Error) -> ReadError {
        ReadError::Io(error)
    }
}

impl From<Refused> for ReadError {
    fn from(refused: Refused) -> ReadError {
        ReadError::Refused(refused)
    }
}

/// The number of bytes of a stream's state.
const BYTES: usize = std::mem::size_of::<RdsStream>();

impl RdsStream {
    /// The state as bytes, in the processor's byte order: zeros before the first push. They can be stored, and after it are equal if the same
    /// bytes were heard.
    ///
    /// ```
    /// let (rules, mut follower) = (rds::Rules::default(), rds::Follower::new(&rds::Rules::default(), &[])?);
    /// follower.push(&[0x55; 100])?;
    /// let stored = follower.stream().to_bytes();
    /// let again = rds::Follower::resume(&rules, &[], rds::Stream::from_bytes(stored))?;
    /// assert_eq!(again.place(), follower.place());
    /// # Ok::<(), rds::Refused>(())
    /// ```
    pub fn to_bytes(&self) -> [u8; BYTES] {
        // SAFETY: the fields are integers, and no byte lies between two of them: `tests/test_header.py` looks.
        unsafe { std::mem::transmute(*self) }
    }

    /// The state that these bytes are. [`Follower::resume`] refuses bytes of no stream.
    pub fn from_bytes(bytes: [u8; BYTES]) -> RdsStream {
        // SAFETY: any bytes are integers.
        unsafe { std::mem::transmute(bytes) }
    }
}

/// The items of the bits that a reader gives, each as soon as it is complete. At the reader's end the group in progress comes last.
/// After `WouldBlock` and `TimedOut` the next call reads on. After any other error nothing more comes.
///
/// ```
/// let groups = rds::encode(&[[0xD393, 0x0548, 0xE100, 0x5041]; 3])?;
/// let mut items = rds::read(&groups[..], &rds::Rules::default(), &[])?;
/// let groups = items.by_ref().filter(|item| matches!(item, Ok(rds::Item::Group(_)))).count();
/// assert_eq!((groups, items.totals()?.groups), (3, 3));
/// # Ok::<(), rds::Refused>(())
/// ```
pub fn read<R: Read>(reader: R, rules: &Rules, gaps: &[Range<u64>]) -> Result<ReadItems<R>, Refused> {
    Ok(ReadItems::new(Follower::new(rules, gaps)?, reader))
}

/// The items of [`read`].
#[derive(Debug)]
pub struct ReadItems<R> {
    reader: R,
    follower: Follower,
    ready: VecDeque<Item>,
    has_ended: bool,
}

/// Whether a later read of the same reader may succeed.
fn is_passing(error: &ReadError) -> bool {
    matches!(error, ReadError::Io(error) if matches!(error.kind(), io::ErrorKind::WouldBlock | io::ErrorKind::TimedOut))
}

impl<R> ReadItems<R> {
    pub(crate) fn new(follower: Follower, reader: R) -> ReadItems<R> {
        ReadItems { reader, follower, ready: VecDeque::new(), has_ended: false }
    }

    /// The reader, and the follower, which has heard all that was read. Items that were not taken are dropped.
    pub fn into_parts(self) -> (R, Follower) {
        (self.reader, self.follower)
    }
}

impl<R: Read> ReadItems<R> {
    /// The totals of all that was read, with the group in progress.
    pub fn totals(&self) -> Result<Totals, Refused> {
        Ok(self.follower.finish()?.1)
    }

    /// Reads the next bytes.
    fn read_more(&mut self) -> Result<(), ReadError> {
        let mut bytes = [0; CHUNK];
        let len = loop {
            match self.reader.read(&mut bytes) {
                Err(error) if error.kind() == io::ErrorKind::Interrupted => {}
                answer => break answer?,
            }
        };
        if len == 0 {
            self.has_ended = true;
            self.ready.extend(self.follower.finish()?.0.map(Item::Group));
        } else {
            self.ready.extend(self.follower.push(&bytes[..len])?);
        }
        Ok(())
    }
}

impl<R: Read> Iterator for ReadItems<R> {
    type Item = Result<Item, ReadError>;

    fn next(&mut self) -> Option<Self::Item> {
        while self.ready.is_empty() && !self.has_ended {
            if let Err(error) = self.read_more() {
                self.has_ended = !is_passing(&error);
                return Some(Err(error));
            }
        }
        self.ready.pop_front().map(Ok)
    }
}

#[cfg(test)]
mod tests {
    use super::*;

    /// Gives one byte at a time, and is interrupted before each.
    struct Slow<'a>(&'a [u8], bool);

    impl Read for Slow<'_> {
        fn read(&mut self, into: &mut [u8]) -> io::Result<usize> {
            self.1 = !self.1;
            if self.1 {
                return Err(io::ErrorKind::Interrupted.into());
            }
            self.0.read(&mut into[..1])
        }
    }

    struct Broken;

    impl Read for Broken {
        fn read(&mut self, _: &mut [u8]) -> io::Result<usize> {
            Err(io::ErrorKind::BrokenPipe.into())
        }
    }

    #[test]
    fn items_are_those_of_the_whole() {
        let bytes = crate::encode(&[[0xD393, 0x0548, 0xE100, 0x5041]; 9]).unwrap();
        let bytes = &bytes[..bytes.len() - 2];
        let rules = Rules::default();
        let read: Result<Vec<Item>, ReadError> = read(Slow(bytes, false), &rules, &[]).unwrap().collect();
        let whole: Vec<Item> = crate::items(&crate::Recording::of(bytes), &rules).unwrap().collect();
        assert_eq!(read.unwrap(), whole);
    }

    #[test]
    fn an_error_is_the_last() {
        let mut items = read(Broken, &Rules::default(), &[]).unwrap();
        assert!(matches!(items.next(), Some(Err(ReadError::Io(_)))));
        assert!(items.next().is_none());
    }
}
