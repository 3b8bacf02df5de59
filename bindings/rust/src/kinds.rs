use std::fmt;

/// A record's type, as its first field `WARC-Type` says it; case is ignored.
///
/// ```
/// use bisquecrow::RecordType;
///
/// assert_eq!(RecordType::Response.code(), 4);
/// assert_eq!(RecordType::of_code(256), Some(RecordType::Continuation));
/// assert_eq!(RecordType::of_code(0), None);
/// assert_eq!(RecordType::Revisit.to_string(), "revisit");
/// ```
#[derive(Clone, Copy, Debug, PartialEq, Eq, Hash)]
#[non_exhaustive]
pub enum RecordType {
    /// `warcinfo`, code 2.
    Warcinfo,
    /// `response`, code 4.
    Response,
    /// `resource`, code 8.
    Resource,
    /// `request`, code 16.
    Request,
    /// `metadata`, code 32.
    Metadata,
    /// `revisit`, code 64.
    Revisit,
    /// `conversion`, code 128.
    Conversion,
    /// `continuation`, code 256.
    Continuation,
    /// Another name, code 32,768.
    Other,
}

const TYPES: [(RecordType, u16, &str); 9] = [
    (RecordType::Warcinfo, 2, "warcinfo"),
    (RecordType::Response, 4, "response"),
    (RecordType::Resource, 8, "resource"),
    (RecordType::Request, 16, "request"),
    (RecordType::Metadata, 32, "metadata"),
    (RecordType::Revisit, 64, "revisit"),
    (RecordType::Conversion, 128, "conversion"),
    (RecordType::Continuation, 256, "continuation"),
    (RecordType::Other, 32_768, "other"),
];

impl RecordType {
    fn row(self) -> (RecordType, u16, &'static str) {
        TYPES.iter().copied().find(|row| row.0 == self).unwrap_or(TYPES[8])
    }

    /// The code of a type.
    pub fn code(self) -> u16 {
        self.row().1
    }

    /// The type of a code; none for 0, which says that there is no field.
    pub fn of_code(code: u16) -> Option<RecordType> {
        match code {
            0 => None,
            n => Some(TYPES.iter().find(|row| row.1 == n).map_or(RecordType::Other, |row| row.0)),
        }
    }
}

impl fmt::Display for RecordType {
    fn fmt(&self, f: &mut fmt::Formatter<'_>) -> fmt::Result {
        f.pad(self.row().2)
    }
}
