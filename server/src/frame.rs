//! Messages in a stream: a header that tells the length of what follows it, and that.

use std::io::{self, BufRead, Error, ErrorKind, Read, Write};

/// The longest message that is read, and the longest line of a header.
const MOST_BYTES: u64 = 64 << 20;
const MOST_HEADER: u64 = 4096;

/// The next message; nothing where the stream ends between two messages. A header that tells no length is an error,
/// since nothing then says where the next message begins.
pub fn read(input: &mut impl BufRead) -> io::Result<Option<Vec<u8>>> {
    let Some(length) = read_header(input)? else {
        return Ok(None);
    };
    let mut body = Vec::new();
    input.by_ref().take(length).read_to_end(&mut body)?;
    match body.len() as u64 == length {
        true => Ok(Some(body)),
        false => Err(Error::new(
            ErrorKind::UnexpectedEof,
            "the input ends inside a message",
        )),
    }
}

/// The length that a header tells; nothing where the stream ends in front of it.
fn read_header(input: &mut impl BufRead) -> io::Result<Option<u64>> {
    let mut length = None;
    let mut is_first = true;
    loop {
        let mut line = Vec::new();
        let mut limited = input.by_ref().take(MOST_HEADER);
        limited.read_until(b'\n', &mut line)?;
        if line.is_empty() && is_first {
            return Ok(None);
        }
        let line = match line.strip_suffix(b"\n") {
            Some(line) => line.strip_suffix(b"\r").unwrap_or(line),
            None => return Err(bad("a header's line does not end")),
        };
        if line.is_empty() {
            return length
                .map(Some)
                .ok_or(bad("a header tells no Content-Length"));
        }
        length = told_length(line)?.or(length);
        is_first = false;
    }
}

/// The length that a line of a header tells, if it is that line.
fn told_length(line: &[u8]) -> io::Result<Option<u64>> {
    let line = str::from_utf8(line).map_err(|_| bad("a header is no ASCII"))?;
    let (name, value) = line
        .split_once(':')
        .ok_or(bad("a header's line has no ':'"))?;
    if !name.trim().eq_ignore_ascii_case("Content-Length") {
        return Ok(None);
    }
    match value.trim().parse() {
        Ok(length) if length <= MOST_BYTES => Ok(Some(length)),
        Ok(_) => Err(bad("a message is longer than 64 MiB")),
        Err(_) => Err(bad("a Content-Length is no number")),
    }
}

fn bad(words: &str) -> Error {
    Error::new(ErrorKind::InvalidData, words)
}

/// Writes a message.
pub fn write(output: &mut impl Write, body: &[u8]) -> io::Result<()> {
    write!(output, "Content-Length: {}\r\n\r\n", body.len())?;
    output.write_all(body)?;
    output.flush()
}

#[cfg(test)]
#[allow(clippy::unwrap_used)]
mod tests {
    use super::*;

    fn all(mut input: &[u8]) -> Result<Vec<Vec<u8>>, String> {
        let mut messages = Vec::new();
        while let Some(message) = read(&mut input).map_err(|error| error.to_string())? {
            messages.push(message);
        }
        Ok(messages)
    }

    #[test]
    fn what_is_written_is_read() {
        let mut stream = Vec::new();
        for body in ["{}", "", "\r\n\r\n°"] {
            write(&mut stream, body.as_bytes()).unwrap();
        }
        assert_eq!(
            all(&stream).unwrap(),
            [b"{}".to_vec(), b"".to_vec(), "\r\n\r\n°".into()]
        );
        let typed = b"content-length : 2\r\nContent-Type: x; charset=utf-8\r\n\r\n[]";
        assert_eq!(all(typed).unwrap(), [b"[]".to_vec()]);
    }

    #[test]
    fn what_is_no_frame_is_an_error() {
        let long = [b'a'; 5000];
        let cases: [(&[u8], &str); 8] = [
            (
                b"Content-Length: 3\r\n\r\n{}",
                "the input ends inside a message",
            ),
            (b"Content-Length: 3\r\n", "a header's line does not end"),
            (b"Content-Length: 3", "a header's line does not end"),
            (b"Type: 3\r\n\r\n{}", "a header tells no Content-Length"),
            (
                b"Content-Length: -1\r\n\r\n",
                "a Content-Length is no number",
            ),
            (
                b"Content-Length: 99999999999\r\n\r\n",
                "a message is longer than 64 MiB",
            ),
            (b"{}\r\n\r\n", "a header's line has no ':'"),
            (&long, "a header's line does not end"),
        ];
        for (stream, wanted) in cases {
            assert_eq!(all(stream).unwrap_err(), wanted);
        }
    }
}
