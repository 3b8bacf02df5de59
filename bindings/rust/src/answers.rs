// What the library answers.
use std::{error, fmt, io};

/// The numbers by which calls refuse.
///
/// ```
/// use bisquecrow::{Flags, Map, Refusal};
///
/// let refusal = Map::begin(2, 1, Flags::PLAIN).unwrap_err();
/// assert_eq!(refusal, Refusal::BadRooms);
/// assert_eq!(refusal.to_string(), "1: limit or store room outside its range");
/// ```
#[derive(Clone, Copy, Debug, PartialEq, Eq, Hash)]
#[non_exhaustive]
pub enum Refusal {
    /// 1: limit or store room outside its range.
    BadRooms,
    /// 2: block lent shorter than limit, or store than room.
    ShortLoan,
    /// 3: bad map, or numbers that are no map's; a walker's body rest over the cap.
    BadMap,
    /// 4: the block goes on and its count equals the limit. The map is empty.
    BlockFull,
    /// 5: a 257th field is needed. Reading, the map is empty; editing, it is as it was.
    FieldsFull,
    /// 6: mark plus new octets exceed the room. As 5.
    StoreFull,
    /// 7: feed or finish on a map that is Done; any other call but begin and clear on one that is Reading.
    WrongPhase,
    /// 8: output shorter than the written form.
    ShortOutput,
    /// 9: version line is not `WARC/1.0` or `WARC/1.1`. The walker stops.
    BadVersion,
    /// 10: Content-Length absent, repeated, not one or more digits, or over 1,099,511,627,776. The walker stops.
    BadLength,
    /// 11: an octet after the body differs from CR LF CR LF. The walker stops.
    BadTrailer,
    /// 12: file ends inside a record. The walker stops.
    CutShort,
    /// 13: an octet at position 2^62 or later would be taken. The walker stops.
    TooFar,
    /// A number that this crate does not know.
    Other(u32),
}

const REFUSALS: [(Refusal, &str); 13] = [
    (Refusal::BadRooms, "limit or store room outside its range"),
    (Refusal::ShortLoan, "block lent shorter than limit, or store than room"),
    (Refusal::BadMap, "bad map"),
    (Refusal::BlockFull, "the block goes on and its count equals the limit"),
    (Refusal::FieldsFull, "a 257th field is needed"),
    (Refusal::StoreFull, "mark plus new octets exceed the room"),
    (Refusal::WrongPhase, "feed or finish on Done, or another call but begin and clear on Reading"),
    (Refusal::ShortOutput, "output shorter than the written form"),
    (Refusal::BadVersion, "version line is not WARC/1.0 or WARC/1.1"),
    (Refusal::BadLength, "Content-Length absent, repeated, not one or more digits, or over 1,099,511,627,776"),
    (Refusal::BadTrailer, "an octet after the body differs from CR LF CR LF"),
    (Refusal::CutShort, "file ends inside a record"),
    (Refusal::TooFar, "an octet at position 2^62 or later would be taken"),
];

impl Refusal {
    /// Its number.
    pub fn number(self) -> u32 {
        match self {
            Refusal::Other(n) => n,
            known => REFUSALS.iter().position(|&(e, _)| e == known).map_or(0, |i| i as u32 + 1),
        }
    }

    // An answer that is none of those that the call gives otherwise.
    pub(crate) fn of(answer: u32) -> Refusal {
        match REFUSALS.get((answer as usize).wrapping_sub(1)) {
            Some(&(e, _)) => e,
            None => Refusal::Other(answer),
        }
    }
}

impl fmt::Display for Refusal {
    fn fmt(&self, f: &mut fmt::Formatter<'_>) -> fmt::Result {
        let n = self.number();
        let text = REFUSALS.get((n as usize).wrapping_sub(1)).map_or("a number that is not known here", |&(_, text)| text);
        write!(f, "{n}: {text}")
    }
}

impl error::Error for Refusal {}

/// Why a source could not be read: it failed itself, or what it gave was refused.
#[derive(Debug)]
#[non_exhaustive]
pub enum Error {
    /// The source failed.
    Io(io::Error),
    /// The octets were refused.
    Refused(Refusal),
}

impl fmt::Display for Error {
    fn fmt(&self, f: &mut fmt::Formatter<'_>) -> fmt::Result {
        match self {
            Error::Io(e) => e.fmt(f),
            Error::Refused(e) => e.fmt(f),
        }
    }
}

impl error::Error for Error {
    fn source(&self) -> Option<&(dyn error::Error + 'static)> {
        match self {
            Error::Io(e) => Some(e),
            Error::Refused(e) => Some(e),
        }
    }
}

impl From<io::Error> for Error {
    fn from(e: io::Error) -> Error {
        Error::Io(e)
    }
}

impl From<Refusal> for Error {
    fn from(e: Refusal) -> Error {
        Error::Refused(e)
    }
}

pub(crate) const DONE: u32 = 0;
pub(crate) const MORE: u32 = 64;
pub(crate) const BLANK: u32 = 65;
pub(crate) const INPUT: u32 = 66;
pub(crate) const FOUND: u32 = 67;
pub(crate) const MISSING: u32 = 68;
pub(crate) const YES: u32 = 69;
pub(crate) const NO: u32 = 70;
pub(crate) const IN_BLOCK: u32 = 71;
pub(crate) const IN_STORE: u32 = 72;
pub(crate) const RECORD: u32 = 73;
pub(crate) const BODY: u32 = 74;
pub(crate) const END: u32 = 75;
pub(crate) const APPEND: u32 = 80;
pub(crate) const NO_TAG: u32 = 81;
pub(crate) const DIFFER: u32 = 82;
pub(crate) const NOT_PARTIAL: u32 = 83;

pub(crate) fn done(answer: u32) -> Result<(), Refusal> {
    match answer {
        DONE => Ok(()),
        n => Err(Refusal::of(n)),
    }
}

pub(crate) fn found<T>((answer, value): (u32, T)) -> Result<Option<T>, Refusal> {
    match answer {
        FOUND => Ok(Some(value)),
        MISSING => Ok(None),
        n => Err(Refusal::of(n)),
    }
}

pub(crate) fn tested(answer: u32) -> Result<bool, Refusal> {
    match answer {
        YES => Ok(true),
        NO => Ok(false),
        n => Err(Refusal::of(n)),
    }
}
