//! Reads HTTP and WARC header blocks while they arrive, edits them and writes them back; walks the records of a WARC file; says whether
//! octets may be appended to a download. The work is done by a library whose every call is proved to meet its contract; this crate is
//! the safe face of it.
//!
//! A [`Map`] is a header: fed in pieces, looked at, edited, written.
//!
//! ```
//! use bisquecrow::{Flags, Map, Progress, DEFAULT_LIMIT};
//!
//! let mut map = Map::begin(DEFAULT_LIMIT, DEFAULT_LIMIT, Flags::STATUS)?;
//! assert_eq!(map.feed("HTTP/1.1 200 OK\r\nETa").answer?, Progress::More);
//! assert_eq!(map.feed("g: \"a\"\r\n\r\n").answer?, Progress::Ended);
//!
//! assert_eq!(map.status_code()?, Some(200));
//! assert_eq!(map.get("etag")?, Some(&b"\"a\""[..]));
//! map.set("Server", "here")?;
//! assert_eq!(map.to_vec()?, b"HTTP/1.1 200 OK\r\nETag: \"a\"\r\nServer: here\r\n\r\n");
//! # Ok::<(), bisquecrow::Refusal>(())
//! ```
//!
//! [`Records`] are those of a file, as it is read.
//!
//! ```
//! use bisquecrow::{RecordType, Records};
//! use std::io::Read;
//!
//! let file = b"WARC/1.1\r\nWARC-Type: resource\r\nContent-Length: 5\r\n\r\nhello\r\n\r\n";
//! let mut records = Records::new(&file[..]);
//! while let Some(record) = records.next() {
//!     assert_eq!(record?.kind, Some(RecordType::Resource));
//!     assert_eq!(records.header().get("content-length")?, Some(&b"5"[..]));
//!     let mut body = String::new();
//!     records.body().read_to_string(&mut body)?;
//!     assert_eq!(body, "hello");
//! }
//! # Ok::<(), Box<dyn std::error::Error>>(())
//! ```
//!
//! The static library is found by the environment variable `BISQUECROW_LIB_DIR`, else beside the crate in a release, else by `pkg-config`. It is for x86-64 Linux.
#![deny(missing_docs, unsafe_code)]

mod answers;
mod kinds;
mod map;
#[allow(unsafe_code)]
mod raw;
mod records;
mod walker;

pub use answers::{Error, Refusal};
pub use kinds::RecordType;
pub use map::{Fed, Fields, Map, Parts, Progress};
pub use records::{Body, Records};
pub use walker::{Record, Step, Walked, Walker};

/// The limit that a header gets where its reader names none, as a walker's do.
pub const DEFAULT_LIMIT: usize = 32_768;

/// The largest limit and the largest store room.
pub const LARGEST: usize = 65_536;

/// What a block may look like.
#[derive(Clone, Copy, Debug, Default, PartialEq, Eq)]
pub struct Flags {
    /// A status line is expected.
    pub status: bool,
    /// Lines may end with LF alone, and a line of blanks ends the block.
    pub quirks: bool,
}

impl Flags {
    /// No status line, no quirks.
    pub const PLAIN: Flags = Flags { status: false, quirks: false };
    /// A status line, no quirks: a message of HTTP, a record of WARC.
    pub const STATUS: Flags = Flags { status: true, quirks: false };
}

/// May the second message's body be appended to the first's?
#[derive(Clone, Copy, Debug, PartialEq, Eq)]
#[non_exhaustive]
pub enum Verdict {
    /// It may.
    Append,
    /// Either message has not exactly one ETag, or an empty one.
    NoTag,
    /// The two ETags differ.
    Differ,
    /// The second status code is not 206.
    NotPartial,
}

/// The resume check over two messages whose headers are read. The first is checked whole before the second.
///
/// ```
/// use bisquecrow::{resume, Flags, Map, Verdict};
///
/// let first = Map::read_from(&mut &b"HTTP/1.1 200 OK\r\nETag: \"a\"\r\n\r\nhel"[..], Flags::STATUS)?;
/// let second = Map::read_from(&mut &b"HTTP/1.1 206 Partial Content\r\nETag: \"a\"\r\n\r\nlo"[..], Flags::STATUS)?;
/// assert_eq!(resume(&first, &second)?, Verdict::Append);
/// # Ok::<(), bisquecrow::Error>(())
/// ```
pub fn resume(first: &Map, second: &Map) -> Result<Verdict, Refusal> {
    match raw::resume(first.view(), second.view()) {
        answers::APPEND => Ok(Verdict::Append),
        answers::NO_TAG => Ok(Verdict::NoTag),
        answers::DIFFER => Ok(Verdict::Differ),
        answers::NOT_PARTIAL => Ok(Verdict::NotPartial),
        n => Err(Refusal::of(n)),
    }
}

/// Whether a block is tidy for its flags and limit: read, found clean and rebuilt, it has the same octets.
///
/// ```
/// use bisquecrow::{is_tidy, Flags};
///
/// assert_eq!(is_tidy("A: b\r\n\r\n", Flags::PLAIN, 64), Ok(true));
/// assert_eq!(is_tidy("A:b\r\n\r\n", Flags::PLAIN, 64), Ok(false));
/// ```
pub fn is_tidy(octets: impl AsRef<[u8]>, flags: Flags, limit: usize) -> Result<bool, Refusal> {
    answers::tested(raw::tidy(octets.as_ref(), flags, limit))
}

/// Whether octets are a header by the grammar of WARC 1.1.
///
/// ```
/// assert!(bisquecrow::is_grammatical("WARC/1.1\r\nWARC-Type: warcinfo\r\n\r\n"));
/// assert!(!bisquecrow::is_grammatical("HTTP/1.1 200 OK\r\n\r\n"));
/// ```
pub fn is_grammatical(octets: impl AsRef<[u8]>) -> bool {
    raw::grammatical(octets.as_ref()) == answers::YES
}
