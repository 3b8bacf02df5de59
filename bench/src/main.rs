//! One driver for three sides: the Rust's header map on a reused map (rust), this library by value, inside its own language (value), and the C library
//! that a loader links (c).
//!
//!     bench                   a line for each input and cut, then for each call: best nanoseconds of the three sides
//!     bench INPUT CUT SIDE N  N readings of one side, to count its instructions
//!     bench CALL SIDE N       N of a call on the map of the first input: find, all, set, append, write, rebuild
//!     bench walk SIDE N       N walks over a file of small records
//!     bench others            one piece: the C library, httparse and one copy of the octets, best nanoseconds
//!     bench walks             walking over files of records, beside reading the file and copying it, octets a nanosecond
use oracle::warc::header::HeaderMap;
use std::hint::black_box;
use std::io::{self, BufRead, Read, Seek, SeekFrom};
use std::time::Instant;

unsafe extern "C" {
    fn speed_read(
        pieces: usize, cut: usize, block: *mut u8, block_len: usize, store: *mut u8, store_len: usize, text: *const u8, text_len: usize,
    ) -> usize;
    fn speed_walk(
        calls: usize, cut: usize, block: *mut u8, block_len: usize, store: *mut u8, store_len: usize, file: *const u8, file_len: usize,
    ) -> u64;
    fn speed_find(
        times: usize, block: *mut u8, block_len: usize, store: *mut u8, store_len: usize, text: *const u8, text_len: usize, name: *const u8,
        name_len: usize,
    ) -> usize;
    fn speed_set(
        times: usize, block: *mut u8, block_len: usize, store: *mut u8, store_len: usize, text: *const u8, text_len: usize, key: *const u8,
        key_len: usize, value: *const u8, value_len: usize,
    ) -> usize;
    fn speed_append(
        times: usize, block: *mut u8, block_len: usize, store: *mut u8, store_len: usize, text: *const u8, text_len: usize, key: *const u8,
        key_len: usize, value: *const u8, value_len: usize,
    ) -> usize;
    fn speed_write(
        times: usize, rebuilt: bool, block: *mut u8, block_len: usize, store: *mut u8, store_len: usize, text: *const u8, text_len: usize,
        out: *mut u8, out_len: usize,
    ) -> usize;
}

unsafe extern "C" {
    fn bisquecrow_begin(
        head: *mut u64, head_len: usize, table: *const u32, table_len: usize, limit: usize, room: usize, awaits: bool, quirks: bool, block: *const u8,
        block_len: usize, store: *const u8, store_len: usize,
    ) -> u32;
    fn bisquecrow_feed(
        head: *mut u64, head_len: usize, table: *mut u32, table_len: usize, block: *mut u8, block_len: usize, store: *mut u8, store_len: usize,
        piece: *const u8, piece_len: usize, taken: *mut u64,
    ) -> u32;
    fn bisquecrow_find(
        head: *const u64, head_len: usize, table: *const u32, table_len: usize, block: *const u8, block_len: usize, store: *const u8, store_len: usize,
        name: *const u8, name_len: usize, from: usize, number: *mut u64, value_from: *mut u64, value_to: *mut u64,
    ) -> u32;
    fn bisquecrow_fields(
        head: *const u64, head_len: usize, table: *const u32, table_len: usize, block: *const u8, block_len: usize, store: *const u8, store_len: usize,
        count: *mut u64,
    ) -> u32;
    fn bisquecrow_set(
        head: *mut u64, head_len: usize, table: *mut u32, table_len: usize, block: *const u8, block_len: usize, store: *mut u8, store_len: usize,
        key: *const u8, key_len: usize, value: *const u8, value_len: usize,
    ) -> u32;
    fn bisquecrow_append(
        head: *mut u64, head_len: usize, table: *mut u32, table_len: usize, block: *const u8, block_len: usize, store: *mut u8, store_len: usize,
        key: *const u8, key_len: usize, value: *const u8, value_len: usize,
    ) -> u32;
    fn bisquecrow_remove(
        head: *mut u64, head_len: usize, table: *mut u32, table_len: usize, block: *const u8, block_len: usize, store: *const u8, store_len: usize,
        key: *const u8, key_len: usize,
    ) -> u32;
    fn bisquecrow_write(
        head: *const u64, head_len: usize, table: *const u32, table_len: usize, block: *const u8, block_len: usize, store: *const u8, store_len: usize,
        out: *mut u8, out_len: usize, count: *mut u64,
    ) -> u32;
    fn bisquecrow_rebuild(
        head: *const u64, head_len: usize, table: *const u32, table_len: usize, block: *const u8, block_len: usize, store: *const u8, store_len: usize,
        out: *mut u8, out_len: usize, count: *mut u64,
    ) -> u32;
    fn bisquecrow_walker(
        trail: *mut u64, trail_len: usize, head: *mut u64, head_len: usize, table: *const u32, table_len: usize, room: usize, position: u64,
        block: *const u8, block_len: usize, store: *const u8, store_len: usize,
    ) -> u32;
    fn bisquecrow_walk(
        trail: *mut u64, trail_len: usize, head: *mut u64, head_len: usize, table: *mut u32, table_len: usize, block: *mut u8, block_len: usize,
        store: *mut u8, store_len: usize, piece: *const u8, piece_len: usize, taken: *mut u64, record: *mut u64,
    ) -> u32;
}

/// Files are walked in pieces of so many octets, and the file of small records has so many.
const PIECE: usize = 65536;
const SMALL: usize = 20_000;

const MORE: u32 = 64;
const BLANK: u32 = 65;
const IN_STORE: u32 = 72;
const RECORD: u32 = 73;
const STORE_MARK: u32 = 1 << 31;

const NAMES: [&str; 10] = [
    "Date", "etag", "Content-Type", "content-length", "X-Request-ID", "Accept-Ranges", "Content-Range", "Transfer-Encoding", "Location", "WARC-Type",
];
const KEY: &[u8] = b"Content-Type";
const NEW: &[u8] = b"X-Checked";
const VALUE: &[u8] = b"text/plain; charset=utf-8";

/// A text handed out in pieces of `cut` octets.
struct Cut {
    text: &'static [u8],
    at: usize,
    cut: usize,
}

impl Read for Cut {
    fn read(&mut self, _: &mut [u8]) -> io::Result<usize> {
        unimplemented!()
    }
}

impl Seek for Cut {
    fn seek(&mut self, _: SeekFrom) -> io::Result<u64> {
        unimplemented!()
    }
}

impl BufRead for Cut {
    fn fill_buf(&mut self) -> io::Result<&[u8]> {
        let end = ((self.at / self.cut + 1) * self.cut).min(self.text.len());
        Ok(&self.text[self.at..end])
    }
    fn consume(&mut self, n: usize) {
        self.at += n;
    }
}

fn text_of(length: usize) -> String {
    (0..length).map(|i| b"abcdefghijklmnopqrstuvwxyz0123456789 ;=,"[(i * 7 + i / 11) % 40] as char).collect::<String>() + "zz"
}

fn inputs() -> [(&'static str, &'static [u8]); 5] {
    let http = [
        ("Date", "Sun, 15 Nov 2026 01:40:09 GMT"),
        ("Server", "Apache/2.4.57 (Debian)"),
        ("Last-Modified", "Fri, 13 Nov 2026 18:22:51 GMT"),
        ("ETag", "\"2d3f1-5f1c8a7b2e4c0\""),
        ("Accept-Ranges", "bytes"),
        ("Content-Length", "185329"),
        ("Cache-Control", "public, max-age=86400"),
        ("Expires", "Mon, 16 Nov 2026 01:40:09 GMT"),
        ("Vary", "Accept-Encoding,User-Agent"),
        ("X-Content-Type-Options", "nosniff"),
        ("X-Frame-Options", "SAMEORIGIN"),
        ("Strict-Transport-Security", "max-age=31536000"),
        ("Connection", "keep-alive"),
        ("Content-Type", "application/octet-stream"),
    ];
    let mut http600 = String::from("HTTP/1.1 200 OK\r\n");
    for (k, v) in http {
        http600 += &format!("{k}: {v}\r\n");
    }
    http600 += "X-Request-ID: ";
    while http600.len() < 596 {
        http600.push('7');
    }
    http600 += "\r\n\r\n";
    let warc = "WARC/1.1\r\nWARC-Type: response\r\nWARC-Record-ID: <urn:uuid:6a1b9f9e-3f7c-4f58-9c0e-1f4f8a0c2d11>\r\n\
        WARC-Date: 2026-11-15T01:40:09Z\r\nWARC-Target-URI: https://www.example.org/some/path/to/a/page.html?query=value\r\n\
        WARC-IP-Address: 203.0.113.17\r\nWARC-Payload-Digest: sha1:4X6DQAV3FQ2U6Q6LJXK3QH6V5S2O6ZJP\r\n\
        WARC-Block-Digest: sha1:UBQ3Q7E5V2W4JZ6MCIX5HZ7X2YVQ3F4N\r\nWARC-Concurrent-To: <urn:uuid:0c8f4c47-4d7b-4fd1-8a5c-7d7b1f1f2f60>\r\n\
        Content-Type: application/http; msgtype=response\r\nContent-Length: 18532\r\n\r\n";
    let mut big = String::from("HTTP/1.1 200 OK\r\n");
    for i in 0..60 {
        big += &format!("X-Header-Number-{i:02}: {}\r\n", text_of(112));
    }
    big += "\r\n";
    let value = format!("HTTP/1.1 200 OK\r\nSet-Cookie: {}\r\n\r\n", text_of(5000));
    let mut short = String::from("HTTP/1.1 200 OK\r\n");
    for i in 0..256 {
        short += &format!("A{i:03}: {i}\r\n");
    }
    short += "\r\n";
    [
        ("http600", http600.into_bytes().leak()),
        ("warc", warc.as_bytes()),
        ("8k60", big.into_bytes().leak()),
        ("value5k", value.into_bytes().leak()),
        ("short256", short.into_bytes().leak()),
    ]
}

/// This library by value: loops of its own, in the crate `speed`, around each call.
struct Value {
    block: Vec<u8>,
    store: Vec<u8>,
}

impl Value {
    fn read(&mut self, times: usize, cut: usize, text: &[u8]) -> usize {
        let pieces = times * text.len().div_ceil(cut);
        let (b, s) = (&mut self.block, &mut self.store);
        unsafe { speed_read(pieces, cut, b.as_mut_ptr(), b.len(), s.as_mut_ptr(), s.len(), text.as_ptr(), text.len()) }
    }

    /// One of the calls on the map of a text, so many times.
    fn call(&mut self, what: &str, times: usize, text: &[u8]) {
        let (b, s) = (&mut self.block, &mut self.store);
        let (bp, bl, sp, sl, tp, tl) = (b.as_mut_ptr(), b.len(), s.as_mut_ptr(), s.len(), text.as_ptr(), text.len());
        let (v, vl) = (VALUE.as_ptr(), VALUE.len());
        let mut out = [0u8; 4096];
        unsafe {
            match what {
                "find" => NAMES.iter().for_each(|n| {
                    black_box(speed_find(times, bp, bl, sp, sl, tp, tl, n.as_ptr(), n.len()));
                }),
                "set" => _ = black_box(speed_set(times, bp, bl, sp, sl, tp, tl, KEY.as_ptr(), KEY.len(), v, vl)),
                "append" => _ = black_box(speed_append(times, bp, bl, sp, sl, tp, tl, NEW.as_ptr(), NEW.len(), v, vl)),
                _ => _ = black_box(speed_write(times, what == "rebuild", bp, bl, sp, sl, tp, tl, out.as_mut_ptr(), out.len())),
            }
        }
    }

    /// Walks over a file of so many records with one body length, each call being handed the octets that are left, at most a piece; answers how many
    /// octets were taken.
    fn walk(&mut self, file: &[u8], count: usize, body: usize) -> u64 {
        let (b, s) = (&mut self.block, &mut self.store);
        let calls = count * (2 + body.div_ceil(PIECE));
        unsafe { speed_walk(calls, PIECE, b.as_mut_ptr(), b.len(), s.as_mut_ptr(), s.len(), file.as_ptr(), file.len()) }
    }
}

/// The C library, called as a loader calls it: a map and a walker in numbers beside the two loans.
struct C {
    trail: [u64; 4],
    head: [u64; 13],
    table: [u32; 1024],
    block: Vec<u8>,
    store: Vec<u8>,
}

impl C {
    fn begin(&mut self) {
        let (h, t, b, s) = (&mut self.head, &self.table, &self.block, &self.store);
        let answer = unsafe {
            bisquecrow_begin(h.as_mut_ptr(), 13, t.as_ptr(), 1024, b.len(), s.len(), true, false, b.as_ptr(), b.len(), s.as_ptr(), s.len())
        };
        assert_eq!(answer, 0);
    }

    fn feed(&mut self, piece: &[u8]) -> (u32, u64) {
        let (h, t, b, s, mut taken) = (&mut self.head, &mut self.table, &mut self.block, &mut self.store, 0);
        let answer = unsafe {
            bisquecrow_feed(
                h.as_mut_ptr(), 13, t.as_mut_ptr(), 1024, b.as_mut_ptr(), b.len(), s.as_mut_ptr(), s.len(), piece.as_ptr(), piece.len(), &mut taken,
            )
        };
        (answer, taken)
    }

    fn read(&mut self, times: usize, cut: usize, text: &[u8]) -> usize {
        for _ in 0..times {
            self.begin();
            for piece in black_box(text).chunks(cut) {
                let (answer, _) = self.feed(piece);
                assert!(answer == MORE || answer == BLANK);
            }
        }
        self.head[5] as usize
    }

    fn find(&self, name: &str) -> &[u8] {
        let (h, t, b, s) = (&self.head, &self.table, &self.block, &self.store);
        let (mut number, mut from, mut to) = (0, 0, 0);
        let answer = unsafe {
            bisquecrow_find(
                h.as_ptr(), 13, t.as_ptr(), 1024, b.as_ptr(), b.len(), s.as_ptr(), s.len(), name.as_ptr(), name.len(), 0, &mut number, &mut from, &mut to,
            )
        };
        if answer == IN_STORE { &s[from as usize..to as usize] } else { &b[from as usize..to as usize] }
    }

    /// A text by its two numbers, as the inline functions of the C header take it: a place of a good map lies inside its loan.
    fn text(&self, from: u32, to: u32) -> &[u8] {
        let (loan, at) = if from < STORE_MARK { (&self.block, from) } else { (&self.store, from - STORE_MARK) };
        unsafe { std::slice::from_raw_parts(loan.as_ptr().add(at as usize), (to - at) as usize) }
    }

    /// All keys and values: one call judges the map, then its table is read.
    fn all(&self) -> usize {
        let (h, t, b, s, mut count) = (&self.head, &self.table, &self.block, &self.store, 0);
        let answer =
            unsafe { bisquecrow_fields(h.as_ptr(), 13, t.as_ptr(), 1024, b.as_ptr(), b.len(), s.as_ptr(), s.len(), &mut count) };
        assert_eq!(answer, 0);
        let mut octets = 0;
        for f in t[..4 * count as usize].chunks(4) {
            octets += black_box(self.text(f[0], f[1])).len() + black_box(self.text(f[2], f[3])).len();
        }
        octets
    }

    fn set(&mut self) -> u32 {
        let (h, t, b, s) = (&mut self.head, &mut self.table, &self.block, &mut self.store);
        unsafe {
            bisquecrow_set(
                h.as_mut_ptr(), 13, t.as_mut_ptr(), 1024, b.as_ptr(), b.len(), s.as_mut_ptr(), s.len(), KEY.as_ptr(), KEY.len(), VALUE.as_ptr(), VALUE.len(),
            )
        }
    }

    fn append_and_remove(&mut self) -> u32 {
        let (h, t, b, s) = (&mut self.head, &mut self.table, &self.block, &mut self.store);
        unsafe {
            bisquecrow_append(
                h.as_mut_ptr(), 13, t.as_mut_ptr(), 1024, b.as_ptr(), b.len(), s.as_mut_ptr(), s.len(), NEW.as_ptr(), NEW.len(), VALUE.as_ptr(), VALUE.len(),
            ) | bisquecrow_remove(h.as_mut_ptr(), 13, t.as_mut_ptr(), 1024, b.as_ptr(), b.len(), s.as_ptr(), s.len(), NEW.as_ptr(), NEW.len())
        }
    }

    fn write(&self, out: &mut [u8], rebuild: bool) -> u64 {
        let (h, t, b, s, mut count) = (&self.head, &self.table, &self.block, &self.store, 0);
        let call = if rebuild { bisquecrow_rebuild } else { bisquecrow_write };
        let answer = unsafe {
            call(h.as_ptr(), 13, t.as_ptr(), 1024, b.as_ptr(), b.len(), s.as_ptr(), s.len(), out.as_mut_ptr(), out.len(), &mut count)
        };
        assert_eq!(answer, 0);
        count
    }

    /// One of the calls on the map of a text, so many times. An edit grows the store, so that the text is read anew when it is full.
    fn call(&mut self, what: &str, times: usize, text: &[u8]) {
        self.read(1, text.len(), text);
        let mut out = [0u8; 4096];
        for _ in 0..times {
            match what {
                "find" => NAMES.iter().for_each(|n| _ = black_box(black_box(&*self).find(n))),
                "all" => _ = black_box(self.all()),
                "set" => {
                    while self.set() != 0 {
                        self.read(1, text.len(), text);
                    }
                }
                "append" => {
                    while self.append_and_remove() != 0 {
                        self.read(1, text.len(), text);
                    }
                }
                _ => _ = black_box(self.write(&mut out, what == "rebuild")),
            }
        }
    }

    /// Walks over a file in pieces; answers how many records it met.
    fn walk(&mut self, file: &[u8]) -> u64 {
        let (w, h, t, b, s) = (&mut self.trail, &mut self.head, &mut self.table, &mut self.block, &mut self.store);
        let answer = unsafe {
            bisquecrow_walker(w.as_mut_ptr(), 4, h.as_mut_ptr(), 13, t.as_ptr(), 1024, s.len(), 0, b.as_ptr(), b.len(), s.as_ptr(), s.len())
        };
        assert_eq!(answer, 0);
        let (mut records, mut record) = (0, [0u64; 4]);
        for whole in black_box(file).chunks(PIECE) {
            let mut piece = whole;
            while !piece.is_empty() {
                let mut taken = 0;
                let answer = unsafe {
                    bisquecrow_walk(
                        w.as_mut_ptr(), 4, h.as_mut_ptr(), 13, t.as_mut_ptr(), 1024, b.as_mut_ptr(), b.len(), s.as_mut_ptr(), s.len(), piece.as_ptr(),
                        piece.len(), &mut taken, record.as_mut_ptr(),
                    )
                };
                assert!(answer >= MORE);
                records += (answer == RECORD) as u64;
                piece = &piece[taken as usize..];
            }
        }
        records
    }
}

fn rust_call(map: &mut HeaderMap, what: &str, times: usize, text: &'static [u8]) {
    rust(map, 1, text.len(), text);
    if what == "rebuild" {
        map.set_bytes("Connection", "keep-alive");
    }
    let mut out: Vec<u8> = Vec::with_capacity(4096);
    for _ in 0..times {
        match what {
            "find" => NAMES.iter().for_each(|n| {
                black_box(black_box(&*map).get_bytes(n).map_or(0, |v| v.len()));
            }),
            "set" => map.set_bytes(black_box(KEY), black_box(VALUE)),
            "append" => {
                map.append_bytes(black_box(NEW), black_box(VALUE));
                map.remove_bytes(black_box(NEW));
            }
            "all" => {
                let mut octets = 0;
                for (key, value) in black_box(&*map).items_bytes() {
                    octets += black_box(key).as_ref().len() + black_box(value).as_ref().len();
                }
                black_box(octets);
            }
            _ => {
                out.clear();
                black_box(black_box(&*map).write(&mut out).unwrap());
            }
        }
    }
}

fn rust(map: &mut HeaderMap, times: usize, cut: usize, text: &'static [u8]) -> usize {
    for _ in 0..times {
        let mut reader = Cut { text: black_box(text), at: 0, cut };
        map.parse_with_opts(&mut reader, true, 1 << 20, false).unwrap();
    }
    map.len()
}

/// Times a run, in nanoseconds for one of `times`, and keeps the least.
fn timed(least: &mut f64, times: usize, run: impl FnOnce()) {
    let t = Instant::now();
    run();
    *least = least.min(t.elapsed().as_nanos() as f64 / times as f64);
}

/// The best time of 60 runs.
fn best(times: usize, mut run: impl FnMut()) -> f64 {
    let mut least = f64::MAX;
    (0..60).for_each(|_| timed(&mut least, times, &mut run));
    least
}

/// httparse finds the fields and hands out parts of the text: it copies nothing, folds nothing and keeps nothing. A WARC header's first line is
/// none of its own, so there it has the lines behind it. Its array of fields is made once, outside the loop that is timed.
fn httparse_reads<'a>(name: &str, text: &'a [u8], fields: &mut [httparse::Header<'a>; 256]) -> usize {
    if name == "warc" {
        return match httparse::parse_headers(&text[10..], fields).unwrap() {
            httparse::Status::Complete((_, found)) => found.len(),
            httparse::Status::Partial => 0,
        };
    }
    let mut answer = httparse::Response::new(fields);
    answer.parse(text).unwrap();
    answer.headers.len()
}

fn others(c: &mut C) {
    let mut copy = vec![0u8; 32768];
    for (name, text) in inputs() {
        let times = 400_000 / text.len() + 1;
        let mut fields = [httparse::EMPTY_HEADER; 256];
        let parsed = best(times, || {
            for _ in 0..times {
                black_box(httparse_reads(name, black_box(text), &mut fields));
            }
        });
        let copied = best(times, || {
            for _ in 0..times {
                black_box(&mut copy)[..text.len()].copy_from_slice(black_box(text));
            }
        });
        let read = best(times, || _ = black_box(c.read(times, text.len(), text)));
        println!("{name} {} {read:.0} {parsed:.0} {copied:.0}", text.len());
    }
}

/// A file of records with bodies of one length.
fn records(count: usize, body: usize) -> Vec<u8> {
    let mut file = Vec::new();
    for i in 0..count {
        let head = format!(
            "WARC/1.1\r\nWARC-Type: response\r\nWARC-Record-ID: <urn:uuid:6a1b9f9e-3f7c-4f58-9c0e-{i:012x}>\r\nWARC-Date: 2026-11-15T01:40:09Z\r\n\
             WARC-Target-URI: https://www.example.org/scan/{i}.ply\r\nContent-Type: application/http; msgtype=response\r\nContent-Length: {body}\r\n\r\n"
        );
        file.extend_from_slice(head.as_bytes());
        file.extend((0..body).map(|k| (k * 31 + i) as u8));
        file.extend_from_slice(b"\r\n\r\n");
    }
    file
}

fn walks(value: &mut Value, c: &mut C) {
    for (name, count, body) in [("small", SMALL, 600), ("large", 4, 16 << 20)] {
        let file = records(count, body);
        let path = std::env::temp_dir().join(format!("bisquecrow-bench-{name}"));
        std::fs::write(&path, &file).unwrap();
        assert_eq!(value.walk(&file, count, body), file.len() as u64);
        assert_eq!(c.walk(&file), count as u64);
        let by_value = best(1, || _ = black_box(value.walk(black_box(&file), count, body)));
        let by_c = best(1, || _ = black_box(c.walk(&file)));
        let mut piece = vec![0u8; PIECE];
        let read = best(1, || {
            let mut f = std::fs::File::open(&path).unwrap();
            while f.read(&mut piece).unwrap() > 0 {}
        });
        let copied = best(1, || {
            for p in file.chunks(PIECE) {
                black_box(&mut piece)[..p.len()].copy_from_slice(p);
            }
        });
        let size = file.len() as f64;
        println!("{name} {} {:.2} {:.2} {:.2} {:.2}", file.len(), size / by_value, size / by_c, size / read, size / copied);
        std::fs::remove_file(&path).unwrap();
    }
}

fn main() {
    let args: Vec<String> = std::env::args().collect();
    let mut value = Value { block: vec![0; 32768], store: vec![0; 65536] };
    let mut c = C { trail: [0; 4], head: [0; 13], table: [0; 1024], block: vec![0; 32768], store: vec![0; 65536] };
    let mut map = HeaderMap::default();
    match args.get(1).map(String::as_str) {
        Some("others") => return others(&mut c),
        Some("walks") => return walks(&mut value, &mut c),
        _ => (),
    }
    if args.len() == 4 {
        let (text, times) = (inputs()[0].1, args[3].parse().unwrap());
        match (args[1].as_str(), args[2].as_str()) {
            ("walk", side) => {
                let file = records(200, 600);
                for _ in 0..times {
                    black_box(if side == "c" { c.walk(&file) } else { value.walk(&file, 200, 600) });
                }
            }
            (call, "rust") => rust_call(&mut map, call, times, text),
            (call, "c") => c.call(call, times, text),
            (call, _) => value.call(call, times, text),
        }
        return;
    }
    if args.len() == 5 {
        let (name, text) = inputs().into_iter().find(|x| x.0 == args[1]).expect("input");
        let cut = args[2].parse::<usize>().unwrap().clamp(1, text.len());
        let times: usize = args[4].parse().unwrap();
        let fields = match args[3].as_str() {
            "rust" => rust(&mut map, times, cut, text),
            "c" => c.read(times, cut, text),
            _ => value.read(times, cut, text),
        };
        println!("{name} {cut} {} {times} {fields}", args[3]);
        return;
    }
    for (name, text) in inputs() {
        for cut in [text.len(), 1460, 64] {
            if cut > text.len() {
                continue;
            }
            let times = 400_000 / text.len() + 1;
            let fields = rust(&mut map, 1, cut, text);
            assert_eq!((fields, fields), (value.read(1, cut, text), c.read(1, cut, text)));
            let mut least = [f64::MAX; 3];
            for _ in 0..60 {
                timed(&mut least[0], times, || _ = black_box(rust(&mut map, times, cut, text)));
                timed(&mut least[1], times, || _ = black_box(value.read(times, cut, text)));
                timed(&mut least[2], times, || _ = black_box(c.read(times, cut, text)));
            }
            let piece = if cut == text.len() { "whole".into() } else { cut.to_string() };
            println!("{name} {} {piece} {:.0} {:.0} {:.0}", text.len(), least[0], least[1], least[2]);
        }
    }
    for what in ["find", "all", "set", "append", "write", "rebuild"] {
        let (text, times) = (inputs()[0].1, 1000);
        let mut least = [f64::MAX; 3];
        for _ in 0..60 {
            timed(&mut least[0], times, || rust_call(&mut map, what, times, text));
            if what != "all" {
                timed(&mut least[1], times, || value.call(what, times, text));
            }
            timed(&mut least[2], times, || c.call(what, times, text));
        }
        println!("{what} - call {:.0} {:.0} {:.0}", least[0], least[1], least[2]);
    }
}
