use crate::answers::{self, Refusal};
use crate::{raw, Map, RecordType, DEFAULT_LIMIT, LARGEST};

/// A record begun.
#[derive(Clone, Copy, Debug, PartialEq, Eq)]
#[non_exhaustive]
pub struct Record {
    /// The position of its header's first octet.
    pub start: u64,
    /// The position of its body's first octet.
    pub body: u64,
    /// How many octets the body has.
    pub length: u64,
    /// Its type, if a field says one.
    pub kind: Option<RecordType>,
}

/// What a walker met.
#[derive(Clone, Copy, Debug, PartialEq, Eq)]
#[non_exhaustive]
pub enum Step {
    /// More is wanted.
    More,
    /// A record begun.
    Record(Record),
    /// The octets taken are a part of the body.
    Body,
    /// The file has ended.
    End,
}

/// What a piece did.
#[derive(Clone, Copy, Debug, PartialEq, Eq)]
#[non_exhaustive]
pub struct Walked {
    /// How many of its octets were taken.
    pub taken: usize,
    /// The step.
    pub step: Result<Step, Refusal>,
}

/// A walker over the records of a WARC file that comes in pieces, with memory of its own. Where there is something to read from,
/// [`Records`](crate::Records) are handier.
///
/// ```
/// use bisquecrow::{Step, Walker};
///
/// let mut walker = Walker::new();
/// let mut piece = &b"WARC/1.1\r\nContent-Length: 5\r\n\r\nhel"[..];
/// let walked = walker.walk(piece);
/// assert!(matches!(walked.step?, Step::Record(record) if record.length == 5));
/// piece = &piece[walked.taken..];
/// let walked = walker.walk(piece);
/// assert_eq!((walked.step?, &piece[..walked.taken]), (Step::Body, &b"hel"[..]));
/// assert_eq!(walker.end(), Err(bisquecrow::Refusal::CutShort));
/// # Ok::<(), bisquecrow::Refusal>(())
/// ```
#[derive(Clone, Debug)]
pub struct Walker {
    trail: raw::Trail,
    map: Map,
}

impl Walker {
    /// A walker at a file's beginning.
    pub fn new() -> Walker {
        let mut walker = Walker { trail: [0; 4], map: Map::over(DEFAULT_LIMIT, DEFAULT_LIMIT) };
        let answer = raw::walker(&mut walker.trail, walker.map.lent(), DEFAULT_LIMIT, 0);
        debug_assert_eq!(answer, answers::DONE);
        walker
    }

    /// A walker at a position of the file, whose headers' folds have `room` octets: from [`DEFAULT_LIMIT`] to [`LARGEST`].
    pub fn start(room: usize, position: u64) -> Result<Walker, Refusal> {
        let mut walker = Walker { trail: [0; 4], map: Map::over(DEFAULT_LIMIT, room.min(LARGEST)) };
        answers::done(raw::walker(&mut walker.trail, walker.map.lent(), room, position)).map(|()| walker)
    }

    /// Walks over a piece; call again with what was not taken. A walker that was stopped by a refusal repeats it.
    pub fn walk(&mut self, piece: impl AsRef<[u8]>) -> Walked {
        let (answer, taken, record) = raw::walk(&mut self.trail, self.map.lent(), piece.as_ref());
        let [start, body, length, code] = record;
        let step = match answer {
            answers::MORE => Ok(Step::More),
            answers::RECORD => Ok(Step::Record(Record { start, body, length, kind: RecordType::of_code(code as u16) })),
            answers::BODY => Ok(Step::Body),
            answers::END => Ok(Step::End),
            n => Err(Refusal::of(n)),
        };
        Walked { taken, step }
    }

    /// The file has ended.
    pub fn end(&mut self) -> Result<(), Refusal> {
        match raw::end(&mut self.trail, self.map.lent()) {
            answers::END => Ok(()),
            n => Err(Refusal::of(n)),
        }
    }

    /// The header of the record that the walker is in; it stands until the next one's first octet.
    pub fn header(&self) -> &Map {
        &self.map
    }

    /// The position of the first octet that was not taken.
    pub fn position(&self) -> u64 {
        self.trail[0]
    }

    /// How many octets of the body are left.
    pub fn rest(&self) -> u64 {
        self.trail[1]
    }
}

impl Default for Walker {
    fn default() -> Walker {
        Walker::new()
    }
}
