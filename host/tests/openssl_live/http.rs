//! As much of HTTP as the transfer of CMP messages needs (RFC 9811): a POST and
//! its answer, each pair by a connection of its own on loopback.

use super::openssl::PATIENCE;
use std::io::{self, BufRead, BufReader, Read, Write};
use std::net::{Ipv4Addr, SocketAddr, TcpStream};

const MEDIA_TYPE: &str = "application/pkixcmp";

/// A request or a response.
struct Message {
    /// The request line or the status line.
    start: String,
    /// The header fields' names, in small letters, and their values.
    fields: Vec<(String, String)>,
    content: Vec<u8>,
}

impl Message {
    fn read(from: &TcpStream) -> io::Result<Message> {
        let mut from = BufReader::new(from);
        let start = line(&mut from)?;
        let mut fields = Vec::new();
        while let Some((name, value)) = line(&mut from)?.split_once(':') {
            fields.push((name.to_lowercase(), value.trim().to_owned()));
        }
        let mut message = Message {
            start,
            fields,
            content: Vec::new(),
        };
        let length = message.field("content-length").parse();
        message.content = vec![0; length.expect("it is a number")];
        from.read_exact(&mut message.content)?;
        Ok(message)
    }

    /// The value of a header field, which has to be there.
    fn field(&self, name: &str) -> &str {
        let found = self.fields.iter().find(|field| field.0 == name);
        let (_, value) = found.unwrap_or_else(|| panic!("no {name} in {}", self.start));
        value
    }

    /// The CMP message in one whose first line has these words.
    fn cmp(self, words: &str) -> Vec<u8> {
        assert!(self.start.contains(words), "{}", self.start);
        assert_eq!(self.field("content-type"), MEDIA_TYPE);
        self.content
    }
}

fn line(from: &mut impl BufRead) -> io::Result<String> {
    let mut line = String::new();
    from.read_line(&mut line)?;
    Ok(line.trim_end().to_owned())
}

/// In HTTP/1.0, where the answer ends the connection.
fn write(mut to: &TcpStream, start: &str, content: &[u8]) -> io::Result<()> {
    let length = content.len();
    let head = format!("{start}\r\nContent-Type: {MEDIA_TYPE}\r\nContent-Length: {length}\r\n\r\n");
    to.write_all(&[head.as_bytes(), content].concat())
}

fn limit_waiting(stream: &TcpStream) -> io::Result<()> {
    stream.set_nonblocking(false)?;
    stream.set_read_timeout(Some(PATIENCE))?;
    stream.set_write_timeout(Some(PATIENCE))
}

/// Answers the CMP message that a connection brings.
pub fn serve(stream: TcpStream, answer: impl FnOnce(Vec<u8>) -> Vec<u8>) -> io::Result<()> {
    limit_waiting(&stream)?;
    let request = Message::read(&stream)?.cmp("POST /pkix/ ");
    write(&stream, "HTTP/1.0 200 OK", &answer(request))
}

/// Sends a CMP message, and gives the one that answers it.
pub fn post(port: u16, content: &[u8]) -> io::Result<Vec<u8>> {
    let stream = TcpStream::connect_timeout(&loopback(port), PATIENCE)?;
    limit_waiting(&stream)?;
    write(&stream, "POST /pkix/ HTTP/1.0", content)?;
    Ok(Message::read(&stream)?.cmp(" 200 "))
}

/// An address that only this machine reaches.
pub fn loopback(port: u16) -> SocketAddr {
    (Ipv4Addr::LOCALHOST, port).into()
}
