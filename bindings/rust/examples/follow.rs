//! Follows a download that arrives in pieces and breaks off, and resumes it where the answer to the second request says that its body may
//! be appended; where the ETag is another one, the two bodies are kept apart.
use bisquecrow::{resume, Flags, Map, Refusal, Verdict};
use std::io::{self, BufRead, BufReader, Read};

/// An answer as it comes over a connection: a few octets at a time, until it ends or breaks off.
struct Connection<'a> {
    octets: &'a [u8],
    at_once: usize,
}

impl Read for Connection<'_> {
    fn read(&mut self, buffer: &mut [u8]) -> io::Result<usize> {
        let n = self.at_once.min(buffer.len()).min(self.octets.len());
        buffer[..n].copy_from_slice(&self.octets[..n]);
        self.octets = &self.octets[n..];
        Ok(n)
    }
}

/// An answer's header, and what came of its body.
struct Answer {
    header: Map,
    body: Vec<u8>,
}

fn receive(mut connection: impl BufRead) -> Result<Answer, bisquecrow::Error> {
    let header = Map::read_from(&mut connection, Flags::STATUS)?;
    let mut body = Vec::new();
    connection.read_to_end(&mut body)?;
    Ok(Answer { header, body })
}

/// Appends the second body to the first if it may be.
fn follow(first: &mut Answer, second: &Answer) -> Result<Verdict, Refusal> {
    let verdict = resume(&first.header, &second.header)?;
    if verdict == Verdict::Append {
        first.body.extend_from_slice(&second.body);
    }
    Ok(verdict)
}

fn main() -> Result<(), Box<dyn std::error::Error>> {
    let broken = b"HTTP/1.1 200 OK\r\nETag: \"a\"\r\nContent-Length: 11\r\n\r\nhello ";
    let same = b"HTTP/1.1 206 Partial Content\r\nETag: \"a\"\r\nContent-Range: bytes 6-10/11\r\n\r\nworld";
    let other = b"HTTP/1.1 206 Partial Content\r\nETag: \"b\"\r\nContent-Range: bytes 6-10/11\r\n\r\nthere";

    for again in [&same[..], &other[..]] {
        let mut kept = receive(BufReader::new(Connection { octets: broken, at_once: 7 }))?;
        let wanted = kept.header.content_length()?.unwrap_or(0);
        println!("{} of {} octets, then the connection broke off", kept.body.len(), wanted);
        let next = receive(BufReader::new(Connection { octets: again, at_once: 5 }))?;
        println!("{:?}", next.header);
        match follow(&mut kept, &next)? {
            Verdict::Append => println!("appended: {}", String::from_utf8_lossy(&kept.body)),
            verdict => println!("kept apart ({verdict:?}): {}", String::from_utf8_lossy(&kept.body)),
        }
    }
    Ok(())
}
