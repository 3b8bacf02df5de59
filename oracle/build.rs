// Points #[path] at the untouched Rust sources and cuts the items of record.rs and stream_io/mod.rs that cannot be
// compiled with their file (digests, dates, decoders) out of it, unchanged.
use std::path::PathBuf;
use std::{env, fs};

/// The lines from the only one that starts with `from`, with its doc lines and attributes, to the first line after
/// it that is the closing brace at the same depth.
fn item(text: &str, from: &str) -> String {
    let lines: Vec<&str> = text.split_inclusive('\n').collect();
    let hits: Vec<usize> = (0..lines.len()).filter(|&i| lines[i].starts_with(from)).collect();
    assert!(hits.len() == 1, "{} hits for {:?}", hits.len(), from);
    let depth = &from[..from.len() - from.trim_start().len()];
    let belongs = |l: &str| l.trim_start().starts_with("///") || l.trim_start().starts_with("#[");
    let mut first = hits[0];
    while first > 0 && belongs(lines[first - 1]) {
        first -= 1;
    }
    let last = (hits[0]..).find(|&i| lines[i].trim_end() == format!("{depth}}}")).unwrap();
    lines[first..=last].concat()
}

const RECORD_ITEMS: [&str; 8] = [
    "pub enum WarcRecordType {",
    "impl WarcRecordType {",
    "impl TryFrom<u16> for WarcRecordType {",
    "impl TryFrom<&[u8]> for WarcRecordType {",
    "pub(super) enum ReaderType {",
    "pub struct WarcRecord {",
    "fn _parse_content_length_bytes(",
    "macro_rules! get_reader_mut {",
];

const RECORD_METHODS: [&str; 7] = [
    "    pub fn new() -> Self {",
    "    pub fn attach_reader(",
    "    pub fn set_bytes_payload(",
    "    pub fn consume(",
    "    pub fn consume_n(",
    "    pub fn parse_warc_headers_with_opts(",
    "    pub(super) fn next_inplace_impl(",
];

fn main() {
    let src = env::var("ORACLE_SRC").unwrap_or("../../shared/docs/src".into());
    let src = PathBuf::from(src).join("fastwarc-rs/src").canonicalize().expect("ORACLE_SRC");
    let out = PathBuf::from(env::var("OUT_DIR").unwrap());
    println!("cargo:rerun-if-env-changed=ORACLE_SRC");
    println!("cargo:rerun-if-changed={}", src.display());
    println!("cargo:rerun-if-changed=build.rs");

    let streams = fs::read_to_string(src.join("stream_io/mod.rs")).unwrap();
    let mut text = String::new();
    for name in ["traits", "bufread"] {
        text.push_str(&format!("#[path = {:?}] pub mod {name};\n", src.join(format!("stream_io/{name}.rs"))));
    }
    text.push_str(&item(&streams, "macro_rules! impl_to_any_methods {"));
    text.push_str("pub(super) use impl_to_any_methods;\n");
    fs::write(out.join("stream_io.rs"), format!("pub mod stream_io {{\n{text}}}\n")).unwrap();

    fs::write(out.join("header.rs"), format!("#[path = {:?}] pub mod header;\n", src.join("warc/header.rs"))).unwrap();

    let record = fs::read_to_string(src.join("warc/record.rs")).unwrap();
    let items: String = RECORD_ITEMS.iter().map(|from| item(&record, from)).collect();
    let methods: String = RECORD_METHODS.iter().map(|from| item(&record, from)).collect();
    fs::write(out.join("record.rs"), format!("{items}\nimpl WarcRecord {{\n{methods}}}\n")).unwrap();
}
