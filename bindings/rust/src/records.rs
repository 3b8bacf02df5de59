use crate::answers::{Error, Refusal};
use crate::{Map, Record, Step, Walker, DEFAULT_LIMIT};
use std::io::{self, Read};
use std::iter::FusedIterator;

const BUFFER: usize = 65_536;

/// The records of a WARC file, as it is read: an iterator that gives each record once its header is read, and nothing more after an error.
///
/// Between two records, [`header`](Records::header) is the record's map, and [`body`](Records::body) reads its body; what is not read is skipped.
///
/// ```
/// use bisquecrow::{Error, Records, Refusal};
///
/// let file = b"WARC/1.1\r\nContent-Length: 1\r\n\r\na\r\n\r\nWARC/1.1\r\nContent-Length: 2\r\n\r\nb";
/// let mut records = Records::new(&file[..]);
/// let first = records.next().unwrap()?;
/// assert_eq!((first.start, first.length), (0, 1));
/// assert_eq!(records.next().unwrap()?.start, 36);
/// assert!(matches!(records.next(), Some(Err(Error::Refused(Refusal::CutShort)))));
/// assert!(records.next().is_none());
/// # Ok::<(), Error>(())
/// ```
pub struct Records<R> {
    source: R,
    walker: Walker,
    buffer: Box<[u8]>,
    at: usize,
    filled: usize,
    over: bool,
}

impl<R: Read> Records<R> {
    /// The records of a file that is read from its beginning.
    pub fn new(source: R) -> Records<R> {
        Records::with(source, Walker::new())
    }

    /// The records from a position on, at which the source stands already.
    pub fn from_position(source: R, position: u64) -> Result<Records<R>, Refusal> {
        Walker::start(DEFAULT_LIMIT, position).map(|walker| Records::with(source, walker))
    }

    fn with(source: R, walker: Walker) -> Records<R> {
        Records { source, walker, buffer: vec![0; BUFFER].into_boxed_slice(), at: 0, filled: 0, over: false }
    }

    /// The header of the record that was given last.
    pub fn header(&self) -> &Map {
        self.walker.header()
    }

    /// The body of the record that was given last, or what is left of it.
    pub fn body(&mut self) -> Body<'_, R> {
        Body { records: self }
    }

    /// The position of the first octet that belongs to nothing given so far.
    pub fn position(&self) -> u64 {
        self.walker.position()
    }

    // Octets to walk over; none at the end of the file.
    fn fill(&mut self) -> io::Result<bool> {
        while self.at == self.filled {
            match self.source.read(&mut self.buffer) {
                Ok(0) => return Ok(false),
                Ok(n) => (self.at, self.filled) = (0, n),
                Err(e) if e.kind() == io::ErrorKind::Interrupted => {}
                Err(e) => return Err(e),
            }
        }
        Ok(true)
    }

    // One step over at most so many octets, and those that were taken.
    fn step(&mut self, most: usize) -> Result<(Step, std::ops::Range<usize>), Refusal> {
        let from = self.at;
        let walked = self.walker.walk(&self.buffer[from..self.filled.min(from.saturating_add(most))]);
        self.at += walked.taken;
        Ok((walked.step?, from..self.at))
    }

    fn advance(&mut self) -> Result<Option<Record>, Error> {
        while self.fill()? {
            match self.step(usize::MAX)?.0 {
                Step::Record(record) => return Ok(Some(record)),
                Step::End => return Ok(None),
                _ => {}
            }
        }
        self.walker.end()?;
        Ok(None)
    }

    fn read_body(&mut self, out: &mut [u8]) -> Result<usize, Error> {
        if out.is_empty() || self.over || self.walker.rest() == 0 {
            return Ok(0);
        }
        if !self.fill()? {
            self.walker.end()?;
            return Ok(0);
        }
        match self.step(out.len())? {
            (Step::Body, taken) => {
                out[..taken.len()].copy_from_slice(&self.buffer[taken.clone()]);
                Ok(taken.len())
            }
            _ => Ok(0),
        }
    }
}

impl<R: Read> Iterator for Records<R> {
    type Item = Result<Record, Error>;

    fn next(&mut self) -> Option<Self::Item> {
        if self.over {
            return None;
        }
        let found = self.advance();
        self.over = !matches!(found, Ok(Some(_)));
        found.transpose()
    }
}

impl<R: Read> FusedIterator for Records<R> {}

/// The body of a record: see [`Records::body`]. A file that ends inside it is an error of the kind `UnexpectedEof`.
pub struct Body<'a, R> {
    records: &'a mut Records<R>,
}

impl<R: Read> Read for Body<'_, R> {
    fn read(&mut self, out: &mut [u8]) -> io::Result<usize> {
        self.records.read_body(out).map_err(|e| match e {
            Error::Io(e) => e,
            Error::Refused(Refusal::CutShort) => io::Error::new(io::ErrorKind::UnexpectedEof, Refusal::CutShort),
            e => io::Error::new(io::ErrorKind::InvalidData, e),
        })
    }
}
