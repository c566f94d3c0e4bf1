//! HTTP/1.1 as far as a page needs it, with limits on everything: the head, the body, and the time that a request or its answer may take.
use std::io::{self, ErrorKind, Read, Write};
use std::net::{Shutdown, TcpStream};
use std::time::{Duration, Instant};

const HEAD: usize = 8_192;
const TARGET: usize = 4_096;
const HEADERS: usize = 64;
/// A list of every dependency fits in.
const BODY: usize = 32_768;
/// How long a connection may be open without a request.
const IDLE: Duration = Duration::from_secs(20);
const REQUEST: Duration = Duration::from_secs(5);
const ANSWER: Duration = Duration::from_secs(20);
/// How long it is waited for the end of what was sent after an answer that is the last.
pub const LAST: Duration = Duration::from_millis(300);

#[derive(Clone, Copy, Debug, PartialEq, Eq)]
pub enum Method {
    Get,
    Head,
    Post,
}

#[derive(Debug)]
pub struct Request {
    pub method: Method,
    pub path: String,
    pub query: String,
    headers: Vec<(String, String)>,
    pub body: Vec<u8>,
    /// Whether a further request may come on this connection.
    pub keep: bool,
}

impl Request {
    pub fn header(&self, name: &str) -> Option<&str> {
        self.headers.iter().find(|(header, _)| header == name).map(|(_, value)| value.as_str())
    }
}

/// Why there is no request: nobody is there any more, or what came is no request and is answered by a status.
#[derive(Debug, PartialEq, Eq)]
pub enum Unread {
    Gone,
    Bad(u16, &'static str),
}

pub struct Response {
    pub status: u16,
    pub kind: &'static str,
    pub policy: String,
    pub body: Vec<u8>,
}

impl Response {
    pub fn new(status: u16, kind: &'static str, body: impl Into<Vec<u8>>) -> Response {
        Response { status, kind, policy: "default-src 'none'; frame-ancestors 'none'".into(), body: body.into() }
    }

    pub fn words(status: u16, words: &str) -> Response {
        Response::new(status, "text/plain; charset=utf-8", format!("{words}\n"))
    }

    pub fn json(status: u16, body: String) -> Response {
        Response::new(status, "application/json", body)
    }

    fn head(&self, keep: bool) -> String {
        let reason = reason(self.status);
        let connection = if keep { "keep-alive" } else { "close" };
        format!(
            "HTTP/1.1 {} {reason}\r\nContent-Type: {}\r\nContent-Length: {}\r\nConnection: {connection}\r\n{}\r\n",
            self.status,
            self.kind,
            self.body.len(),
            guards(&self.policy)
        )
    }
}

/// The headers of every answer: nothing is kept by a cache, shown in a frame, sniffed, or lent to another site.
fn guards(policy: &str) -> String {
    format!(
        "Cache-Control: no-store\r\nContent-Security-Policy: {policy}\r\nX-Content-Type-Options: nosniff\r\nX-Frame-Options: DENY\r\n\
         Referrer-Policy: no-referrer\r\nCross-Origin-Resource-Policy: same-origin\r\nCross-Origin-Opener-Policy: same-origin\r\n"
    )
}

fn reason(status: u16) -> &'static str {
    match status {
        200 => "OK",
        400 => "Bad Request",
        401 => "Unauthorized",
        403 => "Forbidden",
        404 => "Not Found",
        405 => "Method Not Allowed",
        408 => "Request Timeout",
        409 => "Conflict",
        411 => "Length Required",
        412 => "Precondition Failed",
        413 => "Content Too Large",
        414 => "URI Too Long",
        417 => "Expectation Failed",
        421 => "Misdirected Request",
        429 => "Too Many Requests",
        431 => "Request Header Fields Too Large",
        500 => "Internal Server Error",
        503 => "Service Unavailable",
        507 => "Insufficient Storage",
        _ => "Answer",
    }
}

pub struct Connection {
    stream: TcpStream,
    /// What was read and belongs to no request yet.
    waiting: Vec<u8>,
}

impl Connection {
    pub fn new(stream: TcpStream) -> Connection {
        let _ = stream.set_nodelay(true);
        Connection { stream, waiting: vec![] }
    }

    /// Reads some more, by a deadline.
    fn more(&mut self, deadline: Instant) -> Result<(), Unread> {
        let late = Unread::Bad(408, "the request took too long");
        let mut buffer = [0; 4_096];
        loop {
            let left = deadline.saturating_duration_since(Instant::now());
            if left.is_zero() || self.stream.set_read_timeout(Some(left)).is_err() {
                return Err(late);
            }
            match self.stream.read(&mut buffer) {
                Ok(0) if self.waiting.is_empty() => return Err(Unread::Gone),
                Ok(0) => return Err(Unread::Bad(400, "the request ends too soon")),
                Ok(length) => {
                    self.waiting.extend(&buffer[..length]);
                    return Ok(());
                }
                Err(error) if error.kind() == ErrorKind::Interrupted => {}
                Err(error) if matches!(error.kind(), ErrorKind::WouldBlock | ErrorKind::TimedOut) => return Err(late),
                Err(_) => return Err(Unread::Gone),
            }
        }
    }

    /// The next request.
    pub fn request(&mut self) -> Result<Request, Unread> {
        if self.waiting.is_empty() {
            self.more(Instant::now() + IDLE).map_err(|_| Unread::Gone)?;
        }
        let deadline = Instant::now() + REQUEST;
        let end = loop {
            match end_of_head(&self.waiting)? {
                Some(end) => break end,
                None => self.more(deadline)?,
            }
        };
        let head: Vec<u8> = self.waiting.drain(..end).collect();
        let mut request = parse(&head)?;
        let length = body_length(&request)?;
        while self.waiting.len() < length {
            self.more(deadline).map_err(|unread| if unread == Unread::Gone { Unread::Bad(400, "the request ends too soon") } else { unread })?;
        }
        request.body = self.waiting.drain(..length).collect();
        Ok(request)
    }

    fn put(&mut self, bytes: &[u8]) -> io::Result<()> {
        let deadline = Instant::now() + ANSWER;
        let mut rest = bytes;
        while !rest.is_empty() {
            let left = deadline.saturating_duration_since(Instant::now());
            if left.is_zero() {
                return Err(ErrorKind::TimedOut.into());
            }
            self.stream.set_write_timeout(Some(left))?;
            match self.stream.write(rest) {
                Ok(0) => return Err(ErrorKind::WriteZero.into()),
                Ok(length) => rest = &rest[length..],
                Err(error) if error.kind() == ErrorKind::Interrupted => {}
                Err(error) => return Err(error),
            }
        }
        Ok(())
    }

    pub fn answer(&mut self, response: &Response, only_head: bool, keep: bool) -> io::Result<()> {
        let mut bytes = response.head(keep).into_bytes();
        if !only_head {
            bytes.extend(&response.body);
        }
        self.put(&bytes)
    }

    /// The head of a stream of events; each event is put after it.
    pub fn begin_events(&mut self) -> io::Result<()> {
        let guards = guards("default-src 'none'");
        self.put(format!("HTTP/1.1 200 OK\r\nContent-Type: text/event-stream\r\nConnection: close\r\n{guards}\r\nretry: 1000\n\n").as_bytes())
    }

    pub fn event(&mut self, data: &str) -> io::Result<()> {
        self.put(format!("data: {data}\n\n").as_bytes())
    }

    /// A sign of life for an idle stream.
    pub fn alive(&mut self) -> io::Result<()> {
        self.put(b": \n\n")
    }

    /// Ends the connection so that the answer comes through even if more was sent than was read: what is still to come is read for so long.
    pub fn end(mut self, time: Duration) {
        let _ = self.stream.shutdown(Shutdown::Write);
        let deadline = Instant::now() + time;
        let mut left = 16;
        while left > 0 && self.more(deadline).is_ok() {
            self.waiting.clear();
            left -= 1;
        }
    }
}

/// Where the head ends, after its empty line; none where more has to come.
fn end_of_head(bytes: &[u8]) -> Result<Option<usize>, Unread> {
    let end = bytes.windows(4).position(|four| four == b"\r\n\r\n").map(|at| at + 4);
    let head = &bytes[..end.unwrap_or(bytes.len()).min(HEAD + 1)];
    let bare = |i: usize| head[i] == b'\n' && (i == 0 || head[i - 1] != b'\r');
    if (0..head.len()).any(bare) || head.iter().any(|byte| !matches!(byte, b'\r' | b'\n' | b'\t' | b' '..=b'~')) {
        return Err(Unread::Bad(400, "the head of the request is malformed"));
    }
    if head.len() > HEAD {
        return Err(Unread::Bad(431, "the head of the request is too long"));
    }
    Ok(end)
}

fn method(word: &str) -> Result<Method, Unread> {
    match word {
        "GET" => Ok(Method::Get),
        "HEAD" => Ok(Method::Head),
        "POST" => Ok(Method::Post),
        _ => Err(Unread::Bad(405, "the method is not GET, HEAD or POST")),
    }
}

const MALFORMED: Unread = Unread::Bad(400, "the request is malformed");

/// A head, which is plain ASCII, without its body.
fn parse(head: &[u8]) -> Result<Request, Unread> {
    let head = std::str::from_utf8(head).ok().and_then(|head| head.strip_suffix("\r\n\r\n")).ok_or(MALFORMED)?;
    let mut lines = head.split("\r\n");
    let words: Vec<&str> = lines.next().unwrap_or_default().split(' ').collect();
    let [word, target, version] = words[..] else {
        return Err(MALFORMED);
    };
    let newer = match version {
        "HTTP/1.1" => true,
        "HTTP/1.0" => false,
        _ => return Err(Unread::Bad(400, "the version is not HTTP/1.1 or HTTP/1.0")),
    };
    let method = method(word)?;
    if target.len() > TARGET {
        return Err(Unread::Bad(414, "the address is too long"));
    }
    if !target.starts_with('/') || target.contains(['#', '\t']) {
        return Err(MALFORMED);
    }
    let (path, query) = target.split_once('?').unwrap_or((target, ""));
    let headers = lines.map(header).collect::<Result<Vec<_>, _>>()?;
    let mut request = Request { method, path: path.into(), query: query.into(), headers, body: vec![], keep: newer };
    checked(&request)?;
    request.keep = match request.header("connection").map(str::to_ascii_lowercase) {
        Some(words) => newer && !words.split(',').any(|word| word.trim() == "close"),
        None => newer,
    };
    Ok(request)
}

fn header(line: &str) -> Result<(String, String), Unread> {
    let (name, value) = line.split_once(':').ok_or(MALFORMED)?;
    let token = |byte: u8| byte.is_ascii_alphanumeric() || b"!#$%&'*+-.^_`|~".contains(&byte);
    if name.is_empty() || !name.bytes().all(token) || value.contains('\r') {
        return Err(MALFORMED);
    }
    Ok((name.to_ascii_lowercase(), value.trim_matches([' ', '\t']).into()))
}

/// What is asked of the headers together. Those that decide something stand once.
fn checked(request: &Request) -> Result<(), Unread> {
    if request.headers.len() > HEADERS {
        return Err(Unread::Bad(431, "the request has too many headers"));
    }
    let count = |name: &str| request.headers.iter().filter(|(header, _)| header == name).count();
    let single = ["host", "origin", "content-length", "x-conductor-secret", "x-conductor-version", "sec-fetch-site", "connection"];
    if single.iter().any(|name| count(name) > 1) {
        return Err(Unread::Bad(400, "a header is given twice"));
    }
    if count("host") == 0 {
        return Err(Unread::Bad(400, "the header Host is missing"));
    }
    if count("transfer-encoding") > 0 {
        return Err(Unread::Bad(411, "a body comes with its Content-Length"));
    }
    if count("expect") > 0 {
        return Err(Unread::Bad(417, "no expectation is met here"));
    }
    Ok(())
}

fn body_length(request: &Request) -> Result<usize, Unread> {
    let length = match request.header("content-length") {
        None if request.method == Method::Post => return Err(Unread::Bad(411, "a body comes with its Content-Length")),
        None => 0,
        Some(digits) if (1..=9).contains(&digits.len()) && digits.bytes().all(|byte| byte.is_ascii_digit()) => digits.parse().map_err(|_| MALFORMED)?,
        Some(digits) if digits.len() > 9 && digits.bytes().all(|byte| byte.is_ascii_digit()) => return Err(Unread::Bad(413, "the body is too long")),
        Some(_) => return Err(MALFORMED),
    };
    if length > BODY {
        return Err(Unread::Bad(413, "the body is too long"));
    }
    if length > 0 && request.method != Method::Post {
        return Err(Unread::Bad(400, "only POST has a body"));
    }
    Ok(length)
}

#[cfg(test)]
mod tests {
    use super::*;

    fn status(head: &str) -> u16 {
        let bytes = head.as_bytes();
        let whole = end_of_head(bytes).and_then(|end| parse(&bytes[..end.ok_or(MALFORMED)?])).and_then(|request| body_length(&request));
        match whole {
            Ok(_) => 200,
            Err(Unread::Bad(status, _)) => status,
            Err(Unread::Gone) => 0,
        }
    }

    #[test]
    fn heads() {
        let host = "Host: a\r\n";
        for (want, head) in [
            (200, format!("GET / HTTP/1.1\r\n{host}\r\n")),
            (200, format!("POST /call HTTP/1.1\r\n{host}Content-Length: 7\r\n\r\n")),
            (400, "GET / HTTP/1.1\r\n\r\n".into()),
            (400, format!("GET  / HTTP/1.1\r\n{host}\r\n")),
            (400, format!("GET / HTTP/1.1\n{host}\r\n")),
            (400, format!("GET / HTTP/2.0\r\n{host}\r\n")),
            (400, format!("GET http://a/ HTTP/1.1\r\n{host}\r\n")),
            (400, format!("GET /# HTTP/1.1\r\n{host}\r\n")),
            (400, format!("GET / HTTP/1.1\r\n{host}Host: b\r\n\r\n")),
            (400, format!("GET / HTTP/1.1\r\n{host} folded\r\n\r\n")),
            (400, format!("GET / HTTP/1.1\r\n{host}a b: c\r\n\r\n")),
            (400, format!("GET / HTTP/1.1\r\n{host}a: \u{1}\r\n\r\n")),
            (400, format!("GET / HTTP/1.1\r\n{host}Content-Length: 3\r\n\r\n")),
            (400, format!("POST / HTTP/1.1\r\n{host}Content-Length: +3\r\n\r\n")),
            (405, format!("BREW / HTTP/1.1\r\n{host}\r\n")),
            (411, format!("POST / HTTP/1.1\r\n{host}\r\n")),
            (411, format!("POST / HTTP/1.1\r\n{host}Transfer-Encoding: chunked\r\n\r\n")),
            (413, format!("POST / HTTP/1.1\r\n{host}Content-Length: 32769\r\n\r\n")),
            (413, format!("POST / HTTP/1.1\r\n{host}Content-Length: 99999999999999999999\r\n\r\n")),
            (414, format!("GET /{} HTTP/1.1\r\n{host}\r\n", "a".repeat(5_000))),
            (417, format!("POST / HTTP/1.1\r\n{host}Content-Length: 0\r\nExpect: 100-continue\r\n\r\n")),
            (431, format!("GET / HTTP/1.1\r\n{host}{}\r\n", "a: b\r\n".repeat(100))),
            (431, format!("GET / HTTP/1.1\r\n{host}a: {}", "b".repeat(9_000))),
        ] {
            assert_eq!(status(&head), want, "{head}");
        }
    }
}
