//! Runs cases written one to a line, in the line format of `script`, against the Rust. A word without a counterpart in
//! the Rust answers `~`, and `!4:~` where its count of octets taken has none (it takes nothing of a refused piece). Words of its own, to show differences:
//!
//! - `p SQ LIMIT P,P,P`: the Rust's parse as it is, on the map as it stands; `_` is an empty piece, `-` no piece.
//!   Answers `ANSWERED/TAKEN`, or `!TAKEN`; TAKEN is what the reader gave away.
//! - `q Q LIMIT HEX`: record.rs's own walk over a stream; `START:TYPE:LENGTH:FIELDS` for each record, then `end` or `!`.
use oracle::pieces::Pieces;
use oracle::warc::header::{HeaderEncoding, HeaderMap, WarcHeader};
use oracle::warc::{peek, record};
use std::io::{self, BufRead, Write};
use std::sync::Arc;

/// The Rust's limit test adds the whole chunk, so a reading runs with a limit out of reach unless its pieces are such
/// that the test is exact: all of them single octets, or all of them whole lines.
const OUT_OF_REACH: usize = 1 << 20;

/// `Lost`: the Rust's map no longer stands for ours (a refusal keeps the Rust's, a damage changes ours).
#[derive(Clone, Copy, PartialEq)]
enum Phase {
    Reading,
    Done,
    Lost,
    Damaged,
}

struct Case {
    map: HeaderMap,
    phase: Phase,
    kept: Option<HeaderMap>,
    status: bool,
    quirks: bool,
    limit: usize,
    pieces: Arc<Vec<Vec<u8>>>,
}

fn unhex(s: &str) -> Vec<u8> {
    if s == "-" || s == "_" {
        return vec![];
    }
    let digit = |c: u8| if c <= b'9' { c - b'0' } else { c - b'a' + 10 };
    s.as_bytes().chunks(2).map(|p| digit(p[0]) * 16 + digit(p[1])).collect()
}

fn hex(octets: &[u8]) -> String {
    if octets.is_empty() {
        return "-".into();
    }
    let digit = |d: u8| b"0123456789abcdef"[d as usize] as char;
    octets.iter().flat_map(|&x| [digit(x >> 4), digit(x & 15)]).collect()
}

fn place(at: Option<(usize, usize)>, octets: &[u8]) -> String {
    match at {
        Some((from, to)) => format!("b{from}.{to}={}", hex(octets)),
        None => format!("o={}", hex(octets)),
    }
}

fn output(octets: Vec<u8>, len: usize) -> String {
    let count = octets.len();
    if len < count {
        return "!8".into();
    }
    let mut whole = octets;
    whole.resize(len, 0xbb);
    format!("{count}:{}", hex(&whole))
}

fn fresh() -> HeaderMap {
    HeaderMap::new(HeaderEncoding::Unicode)
}

impl Case {
    fn new() -> Self {
        let pieces = Arc::new(vec![]);
        Case { map: fresh(), phase: Phase::Done, kept: None, status: false, quirks: false, limit: 0, pieces }
    }

    fn begin(&mut self, flags: &str, limit: usize) {
        self.map = fresh();
        self.phase = Phase::Reading;
        self.status = flags.as_bytes()[0] == b'1';
        self.quirks = flags.as_bytes()[1] == b'1';
        self.limit = limit;
        self.pieces = Arc::new(vec![]);
    }

    /// A parse into a fresh map of all the pieces so far.
    fn parse(&mut self, ends: bool) -> (io::Result<usize>, Pieces) {
        let single = self.pieces.iter().all(|p| p.len() == 1);
        let lines = self.pieces.iter().all(|p| p.ends_with(if self.quirks { b"\n" } else { b"\r\n" }));
        let limit = if single || lines { self.limit } else { OUT_OF_REACH };
        self.map = fresh();
        let mut reader = Pieces::new(self.pieces.clone(), ends);
        let answer = self.map.parse_with_opts(&mut reader, self.status, limit, self.quirks);
        (answer, reader)
    }

    /// The answers to a run of `f` words. The Rust parses in one call: one parse over all pieces so far tells what each
    /// word gets, since the pieces before it are all that the parse has seen when it asks for the next.
    fn feed(&mut self, run: Vec<Vec<u8>>) -> Vec<String> {
        if self.phase != Phase::Reading {
            return vec!["~".into(); run.len()];
        }
        let mut next = self.pieces.len();
        Arc::make_mut(&mut self.pieces).extend(run.iter().filter(|p| !p.is_empty()).cloned());
        let (answer, reader) = self.parse(false);
        let stop = match &answer {
            Ok(_) => Some(format!("blank:{}", reader.taken_of_piece)),
            Err(e) if e.kind() == io::ErrorKind::WouldBlock => None,
            Err(_) if self.pieces[reader.piece].len() == 1 => Some(format!("!4:{}", reader.taken_of_piece)),
            Err(_) => Some("!4:~".into()),
        };
        let mut said = vec![];
        for piece in &run {
            let stopped = stop.is_some() && next > reader.piece;
            said.push(match &stop {
                _ if stopped => "~".into(),
                Some(last) if next == reader.piece && !piece.is_empty() => last.clone(),
                _ => format!("more:{}", piece.len()),
            });
            next += !piece.is_empty() as usize;
        }
        match answer {
            Ok(n) => {
                assert_eq!(n, reader.taken);
                self.phase = Phase::Done
            }
            Err(_) if stop.is_some() => self.phase = Phase::Lost,
            Err(_) => {}
        }
        said
    }

    fn finish(&mut self) -> String {
        let (answer, reader) = self.parse(true);
        assert_eq!(answer.unwrap(), reader.taken);
        self.phase = Phase::Done;
        "end".into()
    }

    fn dump(&self) -> String {
        let m = &self.map;
        let phase = if self.phase == Phase::Reading { 'R' } else { 'D' };
        let status = m.status_line_bytes().map_or("-".into(), |s| place(peek::status_place(m), &s));
        let fields: Vec<String> = (m.items_bytes().zip(peek::field_places(m)))
            .map(|((k, v), at)| format!("{}:{}", place(at.map(|a| a.0), &k), place(at.map(|a| a.1), &v)))
            .collect();
        let fields = if fields.is_empty() { "-".into() } else { fields.join(";") };
        format!("{phase},{},{},-,-,{status},{fields}", peek::edited(m) as u8, peek::block(m).len())
    }

    /// The Rust's lookups give values, so the number is found over its keys and held against both lookups.
    fn lookup(&self, name: &[u8], from: usize) -> String {
        let m = &self.map;
        let hits: Vec<usize> =
            m.keys_bytes().enumerate().filter(|(_, k)| k.eq_ignore_ascii_case(name)).map(|(i, _)| i).collect();
        let values: Vec<_> = hits.iter().map(|&i| m.values_bytes().nth(i).unwrap()).collect();
        assert_eq!(m.get_bytes(name), values.first().cloned());
        assert_eq!(m.get_bytes_multiple(name), values);
        assert_eq!(m.contains_key_bytes(name), !values.is_empty());
        hits.iter().find(|&&i| i >= from).map_or("none".into(), |i| i.to_string())
    }

    fn equal(&self) -> String {
        match &self.kept {
            Some(kept) => ((*kept == self.map) as u8).to_string(),
            None => "~".into(),
        }
    }

    /// Words on a map that is Done.
    fn on_done(&mut self, word: &str, a: &[&str]) -> String {
        if self.phase != Phase::Done {
            return "~".into();
        }
        let octets = |i: usize| unhex(a[i]);
        let number = |i: usize| a[i].parse::<usize>().unwrap();
        let m = &mut self.map;
        match word {
            "g" => return self.lookup(&octets(0), number(1)),
            "v" => return m.values_bytes().nth(number(0)).map_or("-".into(), |v| hex(&v)),
            "k" => return m.keys_bytes().nth(number(0)).map_or("-".into(), |k| hex(&k)),
            "t" => return m.status_line_bytes().map_or("-".into(), |s| hex(&s)),
            "w" => return output(peek::written(m), number(0)),
            "W" => return output(peek::rebuilt(m), number(0)),
            "h" => return m.status_code().map_or("none".into(), |c| c.to_string()),
            "H" => return peek::reason(m).map_or("none".into(), |r| hex(&r)),
            "y" => return m.get_bytes(WarcHeader::WarcType).map_or(0, |v| record::type_number(&v)).to_string(),
            "e" => return self.equal(),
            "s" => m.set_bytes(octets(0), octets(1)),
            "a" => m.append_bytes(octets(0), octets(1)),
            "r" => m.remove_bytes(octets(0)),
            _ => m.set_status_line_bytes(octets(0)),
        }
        "ok".into()
    }

    fn raw_parse(&mut self, a: &[&str]) -> String {
        let flags = a[0].as_bytes();
        let pieces = if a[2] == "-" { vec![] } else { a[2].split(',').map(unhex).collect() };
        let mut reader = Pieces::new(Arc::new(pieces), true);
        self.phase = Phase::Done;
        match self.map.parse_with_opts(&mut reader, flags[0] == b'1', a[1].parse().unwrap(), flags[1] == b'1') {
            Ok(n) => format!("{n}/{}", reader.taken),
            Err(_) => format!("!{}", reader.taken),
        }
    }

    fn clear(&mut self) -> String {
        if self.phase == Phase::Damaged {
            return "~".into();
        }
        self.map.clear();
        self.phase = Phase::Done;
        "c".into()
    }

    fn keep(&mut self) -> String {
        self.kept = (self.phase == Phase::Done).then(|| self.map.clone());
        if self.phase == Phase::Damaged { "~" } else { "K" }.into()
    }

    fn answer(&mut self, word: &str, a: &[&str]) -> String {
        match word {
            "b" => {
                self.begin(a[0], a[1].parse().unwrap());
                "b".into()
            }
            "F" if self.phase == Phase::Reading => self.finish(),
            "d" if self.phase == Phase::Reading || self.phase == Phase::Done => self.dump(),
            "c" => self.clear(),
            "K" => self.keep(),
            "l" => record::content_length(&unhex(a[0])).to_string(),
            "p" => self.raw_parse(a),
            "q" => record::walk(unhex(a[2]), a[0] == "1", a[1].parse().unwrap()).join("/"),
            "x" => {
                self.phase = Phase::Damaged;
                "~".into()
            }
            "F" | "d" | "m" | "C" | "T" | "G" | "R" | "ws" | "wf" | "wF" => "~".into(),
            _ => self.on_done(word, a),
        }
    }
}

fn arguments(word: &str) -> Option<usize> {
    Some(match word {
        "F" | "c" | "d" | "m" | "t" | "h" | "H" | "y" | "K" | "e" | "R" | "C" | "wF" => 0,
        "f" | "v" | "k" | "r" | "u" | "w" | "W" | "G" | "l" | "wf" => 1,
        "x" | "g" | "s" | "a" | "ws" => 2,
        "T" | "p" | "q" => 3,
        "b" => 5,
        _ => return None,
    })
}

fn answers(line: &str) -> Vec<String> {
    let words: Vec<&str> = line.split(' ').collect();
    let mut case = Case::new();
    let mut said = vec![];
    let mut at = 0;
    while at < words.len() {
        let taken = arguments(words[at]).filter(|n| at + n < words.len());
        let Some(n) = taken else {
            said.push("?".into());
            return said;
        };
        if words[at] == "f" {
            let mut run = vec![];
            while at + 1 < words.len() && words[at] == "f" {
                run.push(unhex(words[at + 1]));
                at += 2;
            }
            said.extend(case.feed(run));
        } else {
            said.push(case.answer(words[at], &words[at + 1..at + 1 + n]));
            at += 1 + n;
        }
    }
    said
}

fn main() {
    let mut out = io::BufWriter::new(io::stdout().lock());
    for line in io::stdin().lock().lines() {
        writeln!(out, "{}", answers(&line.unwrap()).join(" ")).unwrap();
    }
}
