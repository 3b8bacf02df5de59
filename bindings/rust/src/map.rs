use crate::answers::{self, Error, Refusal};
use crate::raw::{self, Lent, View};
use crate::{Flags, RecordType, DEFAULT_LIMIT, LARGEST};
use std::fmt;
use std::io::{self, BufRead};
use std::iter::FusedIterator;

// Offsets of the store begin at this number.
const STORE: u32 = 2_147_483_648;

/// How a reading goes on.
#[derive(Clone, Copy, Debug, PartialEq, Eq)]
#[non_exhaustive]
pub enum Progress {
    /// More is wanted.
    More,
    /// A blank line closed the reading.
    Ended,
}

/// What a piece did.
#[derive(Clone, Copy, Debug, PartialEq, Eq)]
#[non_exhaustive]
pub struct Fed {
    /// How many of its octets were taken.
    pub taken: usize,
    /// How the reading goes on.
    pub answer: Result<Progress, Refusal>,
}

/// What to keep of a map, or to send: its numbers, its block and its store.
#[derive(Clone, Debug, PartialEq, Eq)]
pub struct Parts {
    /// Limit, room, count, line start, mark, fields, status (kind, from, to), awaits, quirks, edited, phase.
    pub head: [u64; 13],
    /// Four numbers to a field: key from, key to, value from, value to.
    pub table: Box<[u32; 1024]>,
    /// The octets that were read.
    pub block: Vec<u8>,
    /// What folds and edits put.
    pub store: Vec<u8>,
}

/// A header's map, with memory of its own.
///
/// It is Reading from [`begin`](Map::begin) until a blank line or [`finish`](Map::finish) closes the reading, and Done from then on; calls in the
/// wrong phase are refused by [`Refusal::WrongPhase`].
#[derive(Clone)]
pub struct Map {
    head: raw::Head,
    table: Box<raw::Table>,
    block: Vec<u8>,
    store: Vec<u8>,
}

impl Map {
    /// An empty map that reads a block of at most `limit` octets; folds and edits have `room` octets, no fewer than the limit. Neither is over
    /// [`LARGEST`].
    pub fn begin(limit: usize, room: usize, flags: Flags) -> Result<Map, Refusal> {
        let mut map = Map::over(limit.min(LARGEST), room.min(LARGEST));
        map.begin_again(limit, room, flags).map(|()| map)
    }

    /// An empty map that is Done, to be filled by edits, for which it has `room` octets.
    ///
    /// ```
    /// let mut map = bisquecrow::Map::empty(64)?;
    /// map.append("X", "a\r\nb")?;
    /// assert_eq!(map.to_vec()?, b"X: a b\r\n\r\n");
    /// # Ok::<(), bisquecrow::Refusal>(())
    /// ```
    pub fn empty(room: usize) -> Result<Map, Refusal> {
        let mut map = Map::begin(0, room, Flags::PLAIN)?;
        map.clear().map(|()| map)
    }

    /// Reads a header of at most [`DEFAULT_LIMIT`] octets off a source, which then stands behind its blank line.
    ///
    /// ```
    /// use bisquecrow::{Flags, Map};
    ///
    /// let mut message = &b"A: b\r\n\r\nbody"[..];
    /// let map = Map::read_from(&mut message, Flags::PLAIN)?;
    /// assert_eq!(map.get("A")?, Some(&b"b"[..]));
    /// assert_eq!(message, b"body");
    /// # Ok::<(), bisquecrow::Error>(())
    /// ```
    pub fn read_from(source: &mut impl BufRead, flags: Flags) -> Result<Map, Error> {
        let mut map = Map::begin(DEFAULT_LIMIT, DEFAULT_LIMIT, flags)?;
        loop {
            let piece = match source.fill_buf() {
                Ok(piece) => piece,
                Err(e) if e.kind() == io::ErrorKind::Interrupted => continue,
                Err(e) => return Err(e.into()),
            };
            if piece.is_empty() {
                map.finish()?;
                return Ok(map);
            }
            let fed = map.feed(piece);
            source.consume(fed.taken);
            if fed.answer? == Progress::Ended {
                return Ok(map);
            }
        }
    }

    // A map of zeros over loans of those lengths.
    pub(crate) fn over(block: usize, store: usize) -> Map {
        Map { head: [0; 13], table: Box::new([0; 1024]), block: vec![0; block], store: vec![0; store] }
    }

    /// Makes a map that is used again an empty one that is Reading: its memory must be long enough. Refused, it is as it was.
    pub fn begin_again(&mut self, limit: usize, room: usize, flags: Flags) -> Result<(), Refusal> {
        answers::done(raw::begin(self.lent(), limit, room, flags))
    }

    /// A map from what was kept of one. Damaged numbers are refused, by [`Refusal::BadMap`], at each call over the map.
    pub fn from_parts(parts: Parts) -> Map {
        Map { head: parts.head, table: parts.table, block: parts.block, store: parts.store }
    }

    /// What to keep of a map.
    pub fn into_parts(self) -> Parts {
        Parts { head: self.head, table: self.table, block: self.block, store: self.store }
    }

    /// Feeds a piece of the block. Octets behind the blank line are not taken.
    pub fn feed(&mut self, piece: impl AsRef<[u8]>) -> Fed {
        let (answer, taken) = raw::feed(self.lent(), piece.as_ref());
        let answer = match answer {
            answers::MORE => Ok(Progress::More),
            answers::BLANK => Ok(Progress::Ended),
            n => Err(Refusal::of(n)),
        };
        Fed { taken, answer }
    }

    /// The end of input, which closes the reading.
    pub fn finish(&mut self) -> Result<(), Refusal> {
        match raw::finish(self.lent()) {
            answers::INPUT => Ok(()),
            n => Err(Refusal::of(n)),
        }
    }

    /// Makes the map an empty one that is Done.
    pub fn clear(&mut self) -> Result<(), Refusal> {
        answers::done(raw::clear(self.lent()))
    }

    /// The value of the first field that has a name. Names compare without ASCII case.
    ///
    /// ```
    /// use bisquecrow::{Flags, Map};
    ///
    /// let map = Map::read_from(&mut &b"ETag: \"a\"\r\n\r\n"[..], Flags::PLAIN)?;
    /// assert_eq!(map.get("etag")?, Some(&b"\"a\""[..]));
    /// assert_eq!(map.get(b"Server")?, None);
    /// # Ok::<(), bisquecrow::Error>(())
    /// ```
    pub fn get(&self, name: impl AsRef<[u8]>) -> Result<Option<&[u8]>, Refusal> {
        Ok(self.find(name, 0)?.map(|(_, value)| value))
    }

    /// The first field from a given number on that has a name: its number and its value.
    ///
    /// ```
    /// use bisquecrow::{Flags, Map};
    ///
    /// let map = Map::read_from(&mut &b"A: 1\r\nB: 2\r\na: 3\r\n\r\n"[..], Flags::PLAIN)?;
    /// assert_eq!(map.find("A", 1)?, Some((2, &b"3"[..])));
    /// # Ok::<(), bisquecrow::Error>(())
    /// ```
    pub fn find(&self, name: impl AsRef<[u8]>, from: usize) -> Result<Option<(usize, &[u8])>, Refusal> {
        let (answer, number, a, e) = raw::find(self.view(), name.as_ref(), from);
        Ok(self.part((answer, a, e))?.map(|value| (number, value)))
    }

    /// The value of a field, by its number.
    pub fn value(&self, number: usize) -> Result<Option<&[u8]>, Refusal> {
        self.part(raw::value(self.view(), number))
    }

    /// The key of a field, by its number.
    pub fn key(&self, number: usize) -> Result<Option<&[u8]>, Refusal> {
        self.part(raw::key(self.view(), number))
    }

    /// The status line.
    pub fn status(&self) -> Result<Option<&[u8]>, Refusal> {
        self.part(raw::status(self.view()))
    }

    /// The status code of an HTTP status line.
    pub fn status_code(&self) -> Result<Option<u16>, Refusal> {
        Ok(answers::found(raw::status_code(self.view()))?.map(|n| n as u16))
    }

    /// The reason phrase of an HTTP status line, which may be empty.
    ///
    /// ```
    /// use bisquecrow::{Flags, Map};
    ///
    /// let map = Map::read_from(&mut &b"HTTP/1.1 404 Not Found\r\n\r\n"[..], Flags::STATUS)?;
    /// assert_eq!((map.status_code()?, map.reason()?), (Some(404), Some(&b"Not Found"[..])));
    /// # Ok::<(), bisquecrow::Error>(())
    /// ```
    pub fn reason(&self) -> Result<Option<&[u8]>, Refusal> {
        self.part(raw::reason(self.view()))
    }

    /// The content length of the first field of that name: 0 where the value is no number, the largest `u64` where it is over that.
    pub fn content_length(&self) -> Result<Option<u64>, Refusal> {
        answers::found(raw::content_length(self.view()))
    }

    /// The record's type, by the first field `WARC-Type`.
    pub fn record_type(&self) -> Result<Option<RecordType>, Refusal> {
        Ok(answers::found(raw::record_type(self.view()))?.and_then(|n| RecordType::of_code(n as u16)))
    }

    /// The keys and values of all fields, in order. Nothing is allocated.
    ///
    /// ```
    /// use bisquecrow::{Flags, Map};
    ///
    /// let map = Map::read_from(&mut &b"A: 1\r\nB: 2\r\na: 3\r\n\r\n"[..], Flags::PLAIN)?;
    /// let all: Vec<_> = map.fields()?.filter(|(key, _)| key.eq_ignore_ascii_case(b"a")).map(|(_, value)| value).collect();
    /// assert_eq!(all, [b"1", b"3"]);
    /// assert_eq!(map.fields()?.len(), 3);
    /// # Ok::<(), bisquecrow::Error>(())
    /// ```
    pub fn fields(&self) -> Result<Fields<'_>, Refusal> {
        let (answer, count) = raw::fields(self.view());
        answers::done(answer).map(|()| Fields { map: self, next: 0, end: count })
    }

    /// Whether the map is clean: what it says is written, and read back, as it is.
    pub fn is_clean(&self) -> Result<bool, Refusal> {
        answers::tested(raw::clean(self.view()))
    }

    /// Whether two maps say the same: status, keys and values, by octets.
    pub fn says_the_same(&self, other: &Map) -> Result<bool, Refusal> {
        answers::tested(raw::equal(self.view(), other.view()))
    }

    /// Replaces the first field of that key and drops later ones, or appends. Texts are sanitised: trimmed, CR dropped, LF a space, and colons
    /// dropped in keys.
    pub fn set(&mut self, key: impl AsRef<[u8]>, value: impl AsRef<[u8]>) -> Result<(), Refusal> {
        answers::done(raw::set(self.lent(), key.as_ref(), value.as_ref()))
    }

    /// Appends a field. Texts are sanitised as by [`set`](Map::set).
    pub fn append(&mut self, key: impl AsRef<[u8]>, value: impl AsRef<[u8]>) -> Result<(), Refusal> {
        answers::done(raw::append(self.lent(), key.as_ref(), value.as_ref()))
    }

    /// Drops every field of that key.
    pub fn remove(&mut self, key: impl AsRef<[u8]>) -> Result<(), Refusal> {
        answers::done(raw::remove(self.lent(), key.as_ref()))
    }

    /// Sets the status line, sanitised as a key is.
    pub fn set_status(&mut self, text: impl AsRef<[u8]>) -> Result<(), Refusal> {
        answers::done(raw::set_status(self.lent(), text.as_ref()))
    }

    /// Writes the block as it was read, or the map rebuilt where it was edited or is empty; answers how many octets were written. Output past them
    /// stays.
    pub fn write(&self, out: &mut [u8]) -> Result<usize, Refusal> {
        let (answer, count) = raw::write(self.view(), out);
        answers::done(answer).map(|()| count)
    }

    /// Writes the map rebuilt.
    pub fn rebuild(&self, out: &mut [u8]) -> Result<usize, Refusal> {
        let (answer, count) = raw::rebuild(self.view(), out);
        answers::done(answer).map(|()| count)
    }

    /// What [`write`](Map::write) writes.
    pub fn to_vec(&self) -> Result<Vec<u8>, Refusal> {
        let rebuilt: usize = self.fields()?.map(|(key, value)| key.len() + value.len() + 4).sum();
        let status = self.status()?.map_or(0, <[u8]>::len);
        let read = self.head[2] as usize;
        let mut out = vec![0; read.max(status + 2 + rebuilt + 2)];
        let count = self.write(&mut out)?;
        out.truncate(count);
        Ok(out)
    }

    pub(crate) fn view(&self) -> View<'_> {
        View { head: &self.head, table: &self.table, block: &self.block, store: &self.store }
    }

    pub(crate) fn lent(&mut self) -> Lent<'_> {
        Lent { head: &mut self.head, table: &mut self.table, block: &mut self.block, store: &mut self.store }
    }

    fn part(&self, (answer, from, to): (u32, u64, u64)) -> Result<Option<&[u8]>, Refusal> {
        match answer {
            answers::IN_BLOCK => Ok(Some(&self.block[from as usize..to as usize])),
            answers::IN_STORE => Ok(Some(&self.store[from as usize..to as usize])),
            answers::MISSING => Ok(None),
            n => Err(Refusal::of(n)),
        }
    }

    // The octets that two numbers of the table say.
    fn place(&self, from: u32, to: u32) -> &[u8] {
        if from < STORE {
            &self.block[from as usize..to as usize]
        } else {
            &self.store[(from - STORE) as usize..to as usize]
        }
    }

    fn field(&self, number: usize) -> (&[u8], &[u8]) {
        let t = &self.table[4 * number..4 * number + 4];
        (self.place(t[0], t[1]), self.place(t[2], t[3]))
    }
}

impl fmt::Debug for Map {
    fn fmt(&self, f: &mut fmt::Formatter<'_>) -> fmt::Result {
        let text = |octets| String::from_utf8_lossy(octets);
        match self.fields() {
            Ok(fields) => {
                let status = self.status().ok().flatten().map(text);
                let fields: Vec<_> = fields.map(|(key, value)| (text(key), text(value))).collect();
                f.debug_struct("Map").field("status", &status).field("fields", &fields).finish()
            }
            Err(refusal) => f.debug_struct("Map").field("refusal", &refusal).finish_non_exhaustive(),
        }
    }
}

/// The keys and values of a map's fields, in order: see [`Map::fields`].
#[derive(Clone, Debug)]
pub struct Fields<'a> {
    map: &'a Map,
    next: usize,
    end: usize,
}

impl<'a> Iterator for Fields<'a> {
    type Item = (&'a [u8], &'a [u8]);

    fn next(&mut self) -> Option<Self::Item> {
        if self.next == self.end {
            return None;
        }
        self.next += 1;
        Some(self.map.field(self.next - 1))
    }

    fn size_hint(&self) -> (usize, Option<usize>) {
        (self.end - self.next, Some(self.end - self.next))
    }
}

impl DoubleEndedIterator for Fields<'_> {
    fn next_back(&mut self) -> Option<Self::Item> {
        if self.next == self.end {
            return None;
        }
        self.end -= 1;
        Some(self.map.field(self.end))
    }
}

impl ExactSizeIterator for Fields<'_> {}

impl FusedIterator for Fields<'_> {}
