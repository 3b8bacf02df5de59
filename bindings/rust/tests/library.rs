use bisquecrow::*;
use std::io::{self, Read};

const M1: &[u8] = b"HTTP/1.1 200 OK\r\nETag: \"a\"\r\n\r\n";
const M2: &[u8] = b"A: b\r\nC: d\r\n\r\n";

// What a feed took, and its answer.
fn fed(map: &mut Map, piece: &[u8]) -> (usize, Result<Progress, Refusal>) {
    let fed = map.feed(piece);
    (fed.taken, fed.answer)
}

fn read(octets: &[u8], flags: Flags) -> Map {
    let mut map = Map::begin(DEFAULT_LIMIT, DEFAULT_LIMIT, flags).unwrap();
    assert_eq!(fed(&mut map, octets), (octets.len(), Ok(Progress::Ended)));
    map
}

#[test]
fn m1_has_its_code_and_tag() {
    let map = read(M1, Flags::STATUS);
    assert_eq!(map.status_code(), Ok(Some(200)));
    assert_eq!(map.status(), Ok(Some(&b"HTTP/1.1 200 OK"[..])));
    assert_eq!(map.reason(), Ok(Some(&b"OK"[..])));
    assert_eq!(map.get(b"etag"), Ok(Some(&b"\"a\""[..])));
    assert_eq!(map.get("ETag"), Ok(Some(&b"\"a\""[..])));
    assert_eq!(map.get(String::from("ETa")), Ok(None));
    assert_eq!(map.fields().unwrap().collect::<Vec<_>>(), [(&b"ETag"[..], &b"\"a\""[..])]);
    assert_eq!((map.key(0), map.value(0)), (Ok(Some(&b"ETag"[..])), Ok(Some(&b"\"a\""[..]))));
    assert_eq!((map.key(1), map.value(usize::MAX)), (Ok(None), Ok(None)));
    assert_eq!((map.content_length(), map.record_type()), (Ok(None), Ok(None)));
    assert_eq!(format!("{map:?}"), r#"Map { status: Some("HTTP/1.1 200 OK"), fields: [("ETag", "\"a\"")] }"#);
}

#[test]
fn m1_cut_anywhere_reads_the_same() {
    let whole = read(M1, Flags::STATUS);
    for cut in 1..M1.len() {
        let mut map = Map::begin(DEFAULT_LIMIT, DEFAULT_LIMIT, Flags::STATUS).unwrap();
        assert_eq!(fed(&mut map, &M1[..cut]), (cut, Ok(Progress::More)));
        assert_eq!(map.status_code(), Err(Refusal::WrongPhase));
        assert_eq!(fed(&mut map, &M1[cut..]), (M1.len() - cut, Ok(Progress::Ended)));
        assert_eq!(map.says_the_same(&whole), Ok(true));
        assert_eq!(map.into_parts(), whole.clone().into_parts());
    }
}

#[test]
fn m2_fits_a_limit_of_14_and_not_of_13() {
    let mut map = Map::begin(14, 14, Flags::PLAIN).unwrap();
    assert_eq!(fed(&mut map, M2), (14, Ok(Progress::Ended)));
    assert_eq!(map.fields().unwrap().len(), 2);
    let mut map = Map::begin(13, 13, Flags::PLAIN).unwrap();
    assert_eq!(fed(&mut map, M2), (13, Err(Refusal::BlockFull)));
    assert_eq!(map.fields().unwrap().len(), 0);
}

#[test]
fn fields_come_from_both_ends_and_from_both_loans() {
    let map = read(b"X: 1\r\nx: 2\r\n 3\r\nWARC-Type: Revisit\r\nContent-Length: 7\r\n\r\n", Flags::PLAIN);
    let mut fields = map.fields().unwrap();
    assert_eq!(fields.next(), Some((&b"X"[..], &b"1"[..])));
    assert_eq!(fields.next_back(), Some((&b"Content-Length"[..], &b"7"[..])));
    assert_eq!(fields.len(), 2);
    assert_eq!(fields.next(), Some((&b"x"[..], &b"2 3"[..])));
    assert_eq!(fields.next(), Some((&b"WARC-Type"[..], &b"Revisit"[..])));
    assert_eq!((fields.next(), fields.next_back()), (None, None));
    assert_eq!(map.find("X", 1), Ok(Some((1, &b"2 3"[..]))));
    assert_eq!(map.find("X", 2), Ok(None));
    assert_eq!(map.record_type(), Ok(Some(RecordType::Revisit)));
    assert_eq!(map.content_length(), Ok(Some(7)));
}

#[test]
fn finish_closes_what_the_input_left_open() {
    let mut map = Map::begin(64, 64, Flags::PLAIN).unwrap();
    assert_eq!(fed(&mut map, b"A: b"), (4, Ok(Progress::More)));
    assert_eq!(map.finish(), Ok(()));
    assert_eq!(map.finish(), Err(Refusal::WrongPhase));
    assert_eq!(fed(&mut map, b"x"), (0, Err(Refusal::WrongPhase)));
    assert_eq!(map.get("a"), Ok(Some(&b"b"[..])));
    let map = Map::read_from(&mut &b"A: b"[..], Flags::PLAIN).unwrap();
    assert_eq!(map.get("a"), Ok(Some(&b"b"[..])));
}

#[test]
fn rooms_out_of_range_are_refused() {
    assert_eq!(Map::begin(65_537, 65_537, Flags::PLAIN).err(), Some(Refusal::BadRooms));
    assert_eq!(Map::begin(usize::MAX, usize::MAX, Flags::PLAIN).err(), Some(Refusal::BadRooms));
    assert_eq!(Map::begin(2, 1, Flags::PLAIN).err(), Some(Refusal::BadRooms));
    let mut map = Map::begin(16, 16, Flags::PLAIN).unwrap();
    let before = map.clone().into_parts();
    assert_eq!(map.begin_again(17, 17, Flags::PLAIN), Err(Refusal::ShortLoan));
    assert_eq!(map.into_parts(), before);
}

#[test]
fn edits_are_written() {
    let mut map = Map::empty(64).unwrap();
    map.append("X", "a\r\nb").unwrap();
    let mut out = [0xBB; 16];
    assert_eq!(map.write(&mut out), Ok(10));
    assert_eq!(&out[..], b"X: a b\r\n\r\n\xBB\xBB\xBB\xBB\xBB\xBB");
    assert_eq!(map.write(&mut out[..9]), Err(Refusal::ShortOutput));
    map.set("x", "c").unwrap();
    map.set_status("HTTP/1.1 204").unwrap();
    map.append("Y", "d").unwrap();
    map.remove(b"y").unwrap();
    assert_eq!(map.rebuild(&mut out), Err(Refusal::ShortOutput));
    assert_eq!(map.to_vec().unwrap(), b"HTTP/1.1 204\r\nx: c\r\n\r\n");
    assert_eq!((map.reason(), map.is_clean()), (Ok(None), Ok(true)));
    map.set(": a", "v").unwrap();
    assert_eq!(map.is_clean(), Ok(false));
    map.clear().unwrap();
    assert_eq!(map.to_vec().unwrap(), b"\r\n");
    // Unedited, the block as it was read.
    assert_eq!(read(b"A:b\r\n\r\n", Flags::PLAIN).to_vec().unwrap(), b"A:b\r\n\r\n");
}

#[test]
fn a_full_store_leaves_the_map_as_it_was() {
    let mut map = Map::empty(4).unwrap();
    map.append("A", "b").unwrap();
    let before = map.clone().into_parts();
    assert_eq!(map.append("C", "dd"), Err(Refusal::StoreFull));
    assert_eq!(map.into_parts(), before);
}

#[test]
fn damaged_numbers_are_refused_and_stay() {
    let good = read(M1, Flags::STATUS).into_parts();
    let mut damaged = Vec::new();
    for (at, to) in [(0, 65_537), (2, u64::MAX), (3, 31), (5, 257), (6, 3), (6, 0), (8, 31), (9, 2), (12, 2)] {
        damaged.push(good.clone());
        damaged.last_mut().unwrap().head[at] = to;
    }
    for (at, to) in [(0, 22), (1, 31), (2, 1 << 31), (3, u32::MAX)] {
        damaged.push(good.clone());
        damaged.last_mut().unwrap().table[at] = to;
    }
    for bad in damaged {
        let mut map = Map::from_parts(bad.clone());
        assert_eq!(map.get("ETag"), Err(Refusal::BadMap));
        assert_eq!((map.status(), map.reason()), (Err(Refusal::BadMap), Err(Refusal::BadMap)));
        assert_eq!(map.fields().err(), Some(Refusal::BadMap));
        assert_eq!(map.to_vec(), Err(Refusal::BadMap));
        assert_eq!(fed(&mut map, b"x"), (0, Err(Refusal::BadMap)));
        assert_eq!(map.set("A", "b"), Err(Refusal::BadMap));
        assert_eq!(map.clear(), Err(Refusal::BadMap));
        assert_eq!(format!("{map:?}"), "Map { refusal: BadMap, .. }");
        assert_eq!(map.into_parts(), bad);
    }
    let mut short = good.clone();
    short.block.pop();
    assert_eq!(Map::from_parts(short).get("ETag"), Err(Refusal::ShortLoan));
    assert_eq!(Map::from_parts(good).get("ETag"), Ok(Some(&b"\"a\""[..])));
}

#[test]
fn numbers_of_0_are_a_map_to_begin_with() {
    let parts = Parts { head: [0; 13], table: Box::new([0; 1024]), block: vec![0; 16], store: vec![0; 16] };
    let mut map = Map::from_parts(parts);
    assert_eq!(map.fields().unwrap().count(), 0);
    assert_eq!(map.status(), Ok(None));
    assert_eq!(map.begin_again(14, 14, Flags::PLAIN), Ok(()));
    assert_eq!(fed(&mut map, M2), (14, Ok(Progress::Ended)));
}

#[test]
fn tidy_and_grammatical() {
    assert_eq!(is_tidy(M1, Flags::STATUS, 30), Ok(true));
    assert_eq!(is_tidy(M1, Flags::STATUS, 29), Ok(false));
    assert_eq!(is_tidy(M1, Flags::PLAIN, 30), Ok(false));
    assert_eq!(is_tidy(M1, Flags::STATUS, 65_537), Err(Refusal::BadRooms));
    assert!(is_grammatical("WARC/1.1\r\nWARC-Type: warcinfo\r\n\r\n"));
    assert!(!is_grammatical(M1));
}

#[test]
fn refusals_say_what_they_mean() {
    assert_eq!(Refusal::TooFar.number(), 13);
    assert_eq!(Refusal::TooFar.to_string(), "13: an octet at position 2^62 or later would be taken");
    assert_eq!(Refusal::Other(14).to_string(), "14: a number that is not known here");
    assert_eq!(Error::from(Refusal::CutShort).to_string(), "12: file ends inside a record");
    for code in [2, 4, 8, 16, 32, 64, 128, 256, 32_768] {
        assert_eq!(RecordType::of_code(code).unwrap().code(), code);
    }
}

fn record(kind: &str, body: &[u8]) -> Vec<u8> {
    let mut octets = format!("WARC/1.1\r\nWARC-Type: {}\r\nContent-Length: {}\r\n\r\n", kind, body.len()).into_bytes();
    octets.extend_from_slice(body);
    octets.extend_from_slice(b"\r\n\r\n");
    octets
}

// A record's numbers.
type Numbers = (u64, u64, u64, Option<RecordType>);

fn numbers(r: Record) -> Numbers {
    (r.start, r.body, r.length, r.kind)
}

fn two_records() -> (Vec<u8>, [Numbers; 2]) {
    let first = record("warcinfo", b"one");
    let file = [first.clone(), record("response", b"")].concat();
    let (one, all) = (first.len() as u64, file.len() as u64);
    (file, [(0, one - 7, 3, Some(RecordType::Warcinfo)), (one, all - 4, 0, Some(RecordType::Response))])
}

// The records, the joined bodies and the last answer of a file that comes in pieces of so many octets.
fn walk(file: &[u8], at_once: usize) -> (Vec<Numbers>, Vec<u8>, Result<(), Refusal>) {
    let mut walker = Walker::new();
    let (mut records, mut bodies) = (Vec::new(), Vec::new());
    for mut piece in file.chunks(at_once) {
        while !piece.is_empty() {
            let walked = walker.walk(piece);
            match walked.step {
                Ok(Step::Record(r)) => {
                    assert_eq!(walker.header().record_type(), Ok(r.kind));
                    assert_eq!(walker.header().content_length(), Ok(Some(r.length)));
                    assert_eq!((walker.position(), walker.rest()), (r.body, r.length));
                    records.push(numbers(r));
                }
                Ok(Step::Body) => bodies.extend_from_slice(&piece[..walked.taken]),
                Ok(_) => {}
                Err(e) => return (records, bodies, Err(e)),
            }
            piece = &piece[walked.taken..];
        }
    }
    (records, bodies, walker.end())
}

#[test]
fn a_file_of_two_records_walks_the_same_for_any_cutting() {
    let (file, records) = two_records();
    for at_once in 1..=file.len() {
        assert_eq!(walk(&file, at_once), (records.to_vec(), b"one".to_vec(), Ok(())));
    }
    assert_eq!(walk(&file[..file.len() - 1], 5).2, Err(Refusal::CutShort));
    assert_eq!(walk(b"HTTP/1.1 200 OK\r\n\r\n", 5).2, Err(Refusal::BadVersion));
    assert_eq!(walk(b"WARC/1.1\r\n\r\n", 5).2, Err(Refusal::BadLength));
}

#[test]
fn a_stopped_walker_repeats_its_number() {
    let mut walker = Walker::default();
    assert_eq!(walker.walk("WARC/0.9\r\n\r\n").step, Err(Refusal::BadVersion));
    let again = walker.walk("WARC/1.1\r\n\r\n");
    assert_eq!((again.taken, again.step), (0, Err(Refusal::BadVersion)));
    assert_eq!(walker.end(), Err(Refusal::BadVersion));
    assert_eq!(Walker::start(1, 0).err(), Some(Refusal::BadRooms));
    let mut far = Walker::start(DEFAULT_LIMIT, 1 << 62).unwrap();
    let walked = far.walk("W");
    assert_eq!((walked.taken, walked.step), (0, Err(Refusal::TooFar)));
}

// A source that gives so many octets at once, is interrupted before each, and fails where it ends if it is to.
struct Slow<'a> {
    octets: &'a [u8],
    at_once: usize,
    fails: bool,
    turn: usize,
}

impl Read for Slow<'_> {
    fn read(&mut self, out: &mut [u8]) -> io::Result<usize> {
        self.turn += 1;
        if self.turn % 2 == 1 {
            return Err(io::ErrorKind::Interrupted.into());
        }
        if self.octets.is_empty() && self.fails {
            return Err(io::ErrorKind::ConnectionReset.into());
        }
        let n = self.at_once.min(out.len()).min(self.octets.len());
        out[..n].copy_from_slice(&self.octets[..n]);
        self.octets = &self.octets[n..];
        Ok(n)
    }
}

fn slow(octets: &[u8], at_once: usize) -> Slow<'_> {
    Slow { octets, at_once, fails: false, turn: 0 }
}

#[test]
fn records_of_a_source() {
    let (file, wanted) = two_records();
    for at_once in 1..=file.len() {
        // With the bodies read, and skipped.
        let mut records = Records::new(slow(&file, at_once));
        assert_eq!(records.body().read(&mut [0; 4]).unwrap(), 0);
        let mut bodies = String::new();
        for want in wanted {
            assert_eq!(numbers(records.next().unwrap().unwrap()), want);
            assert_eq!(records.header().record_type(), Ok(want.3));
            records.body().read_to_string(&mut bodies).unwrap();
        }
        assert!(records.next().is_none() && records.next().is_none());
        assert_eq!((bodies.as_str(), records.position()), ("one", file.len() as u64));
        let skipped: Result<Vec<_>, _> = Records::new(slow(&file, at_once)).map(|r| r.map(numbers)).collect();
        assert_eq!(skipped.unwrap(), wanted);
    }
    let mut second = Records::from_position(&file[wanted[1].0 as usize..], wanted[1].0).unwrap();
    assert_eq!(numbers(second.next().unwrap().unwrap()), wanted[1]);
    assert!(second.next().is_none());
}

#[test]
fn records_of_a_source_that_fails() {
    let file = record("resource", b"hello");
    let mut records = Records::new(slow(&file[..file.len() - 6], 3));
    records.next().unwrap().unwrap();
    let mut body = Vec::new();
    assert_eq!(records.body().read_to_end(&mut body).unwrap_err().kind(), io::ErrorKind::UnexpectedEof);
    assert_eq!(body, b"hel");
    assert!(matches!(records.next(), Some(Err(Error::Refused(Refusal::CutShort)))));
    assert!(records.next().is_none());

    let mut records = Records::new(Slow { octets: &file[..9], at_once: 9, fails: true, turn: 0 });
    assert!(matches!(records.next(), Some(Err(Error::Io(e))) if e.kind() == io::ErrorKind::ConnectionReset));
    assert!(records.next().is_none());
    let refused = Map::read_from(&mut io::BufReader::new(slow(&[b'x'; 40_000], 7)), Flags::PLAIN);
    assert!(matches!(refused, Err(Error::Refused(Refusal::BlockFull))));
}

#[test]
fn resume_answers() {
    let first = read(M1, Flags::STATUS);
    let again = |octets: &[u8]| resume(&first, &read(octets, Flags::STATUS));
    assert_eq!(again(b"HTTP/1.1 206 Partial Content\r\nETag: \"a\"\r\n\r\n"), Ok(Verdict::Append));
    assert_eq!(again(b"HTTP/1.1 206 Partial Content\r\n\r\n"), Ok(Verdict::NoTag));
    assert_eq!(again(b"HTTP/1.1 206 Partial Content\r\nETag: \"b\"\r\n\r\n"), Ok(Verdict::Differ));
    assert_eq!(again(M1), Ok(Verdict::NotPartial));
    let reading = Map::begin(16, 16, Flags::STATUS).unwrap();
    assert_eq!(resume(&first, &reading), Err(Refusal::WrongPhase));
    // The first is checked whole before the second.
    let mut parts = first.clone().into_parts();
    parts.head[0] = u64::MAX;
    let damaged = Map::from_parts(parts);
    assert_eq!(resume(&reading, &damaged), Err(Refusal::WrongPhase));
    assert_eq!(resume(&first, &damaged), Err(Refusal::BadMap));
    assert_eq!(first.says_the_same(&damaged), Err(Refusal::BadMap));
}

#[test]
fn maps_walkers_and_records_may_go_to_another_thread() {
    fn sent<T: Send + Sync>() {}
    sent::<Map>();
    sent::<Walker>();
    sent::<Records<io::Empty>>();
    sent::<Error>();
}
