//! The Rust header module, built unchanged, and what is needed to look into it and to feed it.
#![allow(dead_code)]
include!(concat!(env!("OUT_DIR"), "/stream_io.rs"));

pub mod warc {
    include!(concat!(env!("OUT_DIR"), "/header.rs"));

    /// Items cut out of record.rs. `detach_reader` stands in for the one that knows the decoders; it is never reached
    /// with a plain reader.
    pub mod record {
        use crate::stream_io::bufread::LimitedBufReader;
        use crate::stream_io::traits::{IntoWarcReader, WarcRead};
        use crate::warc::header::{_trim_ascii_offsets, CowHeaderValue, HeaderEncoding, HeaderMap, WarcHeader};
        use std::convert::TryFrom;
        use std::io::{self, BufRead};
        include!(concat!(env!("OUT_DIR"), "/record.rs"));

        impl WarcRecord {
            fn detach_reader(&mut self) -> Option<Box<dyn WarcRead>> {
                None
            }
        }

        pub fn content_length(value: &[u8]) -> u64 {
            _parse_content_length_bytes(value)
        }

        pub fn type_number(value: &[u8]) -> u16 {
            WarcRecordType::try_from(value).unwrap_or(WarcRecordType::Unknown) as u16
        }

        /// Every record of a stream as record.rs reads them: start, type, content length and fields of each, then
        /// `end` or `!`.
        pub fn walk(octets: Vec<u8>, quirks: bool, limit: usize) -> Vec<String> {
            let mut record = WarcRecord::new();
            record.quirks_mode = quirks;
            record.attach_reader(io::Cursor::new(octets));
            let mut said = vec![];
            let mut step = match record.parse_warc_headers_with_opts(quirks, limit) {
                Err(e) => Some(Err(e)),
                Ok(0) => None,
                Ok(_) => Some(Ok(())),
            };
            while let Some(Ok(())) = step {
                let kind = record.record_type as u16;
                said.push(format!("{}:{}:{}:{}", record.stream_pos, kind, record.content_length, record.headers.len()));
                step = record.next_inplace_impl(limit);
            }
            said.push(if step.is_none() { "end" } else { "!" }.into());
            said
        }
    }

    /// Reads what header.rs keeps `pub(super)`; sets `dirty` and `encoding` on clones only.
    pub mod peek {
        use super::header::*;

        pub fn edited(m: &HeaderMap) -> bool {
            m.dirty
        }

        pub fn block(m: &HeaderMap) -> &[u8] {
            &m.raw_header_block
        }

        /// The status's range of the block; none for owned text.
        pub fn status_place(m: &HeaderMap) -> Option<(usize, usize)> {
            match m.status_line {
                Some(CowHeaderValue::Offsets(o)) => Some(o),
                _ => None,
            }
        }

        /// Each field's ranges of the block; none for owned text.
        pub fn field_places(m: &HeaderMap) -> Vec<Option<((usize, usize), (usize, usize))>> {
            let places = |h: &CowHeaderTuple| match h {
                CowHeaderTuple::Offsets(k, v) => Some((*k, *v)),
                CowHeaderTuple::Owned(..) => None,
            };
            m.headers.iter().map(places).collect()
        }

        /// The reason's own octets: decoded as windows-1252, one to one on 256 octets, and encoded back.
        pub fn reason(m: &HeaderMap) -> Option<Vec<u8>> {
            use encoding::{EncoderTrap, Encoding, all::WINDOWS_1252};
            let mut latin = m.clone();
            latin.encoding = HeaderEncoding::Latin1;
            latin.reason_phrase().map(|r| WINDOWS_1252.encode(&r, EncoderTrap::Strict).unwrap())
        }

        pub fn written(m: &HeaderMap) -> Vec<u8> {
            let mut out = Vec::new();
            let count = m.write(&mut out).unwrap();
            assert_eq!(count, out.len());
            out
        }

        pub fn rebuilt(m: &HeaderMap) -> Vec<u8> {
            let mut edited = m.clone();
            edited.dirty = true;
            written(&edited)
        }
    }
}

pub mod pieces {
    use std::io::{self, BufRead, Read, Seek, SeekFrom};
    use std::sync::Arc;

    /// A reader that hands out one piece at each `fill_buf`. After the last comes the end of input, or an error of the
    /// kind `WouldBlock` if there may be more. An empty piece, which header.rs takes as the end, is handed out once.
    pub struct Pieces {
        pub pieces: Arc<Vec<Vec<u8>>>,
        pub ends: bool,
        pub piece: usize,
        pub taken_of_piece: usize,
        pub taken: usize,
    }

    impl Pieces {
        pub fn new(pieces: Arc<Vec<Vec<u8>>>, ends: bool) -> Self {
            Pieces { pieces, ends, piece: 0, taken_of_piece: 0, taken: 0 }
        }
    }

    impl Read for Pieces {
        fn read(&mut self, _: &mut [u8]) -> io::Result<usize> {
            unimplemented!()
        }
    }

    impl Seek for Pieces {
        fn seek(&mut self, _: SeekFrom) -> io::Result<u64> {
            unimplemented!()
        }
    }

    impl BufRead for Pieces {
        fn fill_buf(&mut self) -> io::Result<&[u8]> {
            let whole = self.pieces.get(self.piece).map_or(0, |p| p.len());
            if whole > 0 && self.taken_of_piece == whole {
                self.piece += 1;
                self.taken_of_piece = 0;
            }
            match self.pieces.get(self.piece) {
                Some(p) => Ok(&p[self.taken_of_piece..]),
                None if self.ends => Ok(&[]),
                None => Err(io::ErrorKind::WouldBlock.into()),
            }
        }

        fn consume(&mut self, n: usize) {
            self.taken_of_piece += n;
            self.taken += n;
        }
    }
}
