//! The program run as a pilot runs it, and requests to its server.
#![allow(dead_code)]
use std::io::{BufRead, BufReader, Read, Write};
use std::net::{Shutdown, TcpStream};
use std::path::PathBuf;
use std::process::{Child, Command, Output, Stdio};
use std::sync::atomic::{AtomicUsize, Ordering};
use std::time::Duration;

pub const Q: &str =
    "plan=1\nagents=2\nname=survey-quad-east-1\nstops=4\ngo=1@0\ngo=6@1\ngo=5@2\ngo=2@3\nname=survey-quad-east-2\nstops=3\ngo=3@0\ngo=5@4\ngo=4@5\nend=plan\n";

pub const PROGRAM: &str = env!("CARGO_BIN_EXE_conductor");

/// A folder of the test's own, gone at its end.
pub struct Folder(pub PathBuf);

impl Folder {
    pub fn new() -> Folder {
        static MADE: AtomicUsize = AtomicUsize::new(0);
        let name = format!("conductor-{}-{}", std::process::id(), MADE.fetch_add(1, Ordering::Relaxed));
        let path = std::env::temp_dir().join(name);
        std::fs::create_dir_all(&path).expect("a folder");
        Folder(path)
    }

    pub fn file(&self, name: &str, content: impl AsRef<[u8]>) -> String {
        std::fs::write(self.0.join(name), content).expect("written");
        self.path(name)
    }

    pub fn path(&self, name: &str) -> String {
        self.0.join(name).to_string_lossy().into_owned()
    }
}

impl Drop for Folder {
    fn drop(&mut self) {
        let _ = std::fs::remove_dir_all(&self.0);
    }
}

/// The program with words and an input: its status, what it printed, and what it said on standard error.
pub fn run(words: &[&str], input: &[u8]) -> (i32, String, String) {
    let mut child = Command::new(PROGRAM).args(words).stdin(Stdio::piped()).stdout(Stdio::piped()).stderr(Stdio::piped()).spawn().expect("the program");
    let mut stdin = child.stdin.take().expect("an input");
    let bytes = input.to_vec();
    let writer = std::thread::spawn(move || drop(stdin.write_all(&bytes)));
    let Output { status, stdout, stderr } = child.wait_with_output().expect("its end");
    writer.join().expect("written");
    (status.code().unwrap_or(-1), String::from_utf8(stdout).expect("text"), String::from_utf8(stderr).expect("text"))
}

/// A server on a port of its own; it is killed at its end.
pub struct Server {
    child: Child,
    pub address: String,
    pub secret: String,
    pub told: String,
}

impl Server {
    /// The server, or what it said and its status if it does not start.
    pub fn try_start(words: &[&str]) -> Result<Server, (i32, String)> {
        let mut child = Command::new(PROGRAM)
            .arg("serve")
            .args(words)
            .args(["--listen", "127.0.0.1:0"])
            .stdin(Stdio::null())
            .stdout(Stdio::piped())
            .stderr(Stdio::piped())
            .spawn()
            .expect("the program");
        let mut told = String::new();
        let mut out = BufReader::new(child.stdout.take().expect("its output"));
        while out.read_line(&mut told).expect("read") > 0 {
            if let Some((address, secret)) = told.lines().last().and_then(|line| line.strip_prefix("to fly:   http://")?.split_once("/#")) {
                let (address, secret) = (address.to_string(), secret.to_string());
                return Ok(Server { child, address, secret, told });
            }
        }
        let mut words = String::new();
        child.stderr.take().expect("its words").read_to_string(&mut words).expect("read");
        Err((child.wait().expect("its end").code().unwrap_or(-1), words))
    }

    pub fn start(words: &[&str]) -> Server {
        Server::try_start(words).unwrap_or_else(|(status, words)| panic!("it does not start: {status}: {words}"))
    }

    /// `kill -9`.
    pub fn kill(&mut self) {
        self.child.kill().expect("killed");
        self.child.wait().expect("its end");
    }

    pub fn lives(&mut self) -> bool {
        self.child.try_wait().expect("its state").is_none()
    }

    pub fn get(&self, path: &str) -> Answer {
        asked(&self.address, format!("GET {path} HTTP/1.1\r\nHost: {}\r\nConnection: close\r\n\r\n", self.address).as_bytes()).expect("an answer")
    }

    pub fn post(&self, line: &str, headers: &str) -> Option<Answer> {
        asked(&self.address, post(&self.address, line, headers, false).as_bytes())
    }

    /// A call with the secret.
    pub fn call(&self, line: &str) -> Option<Answer> {
        self.post(line, &format!("X-Conductor-Secret: {}\r\n", self.secret))
    }

    pub fn version(&self) -> u64 {
        number(&self.get("/state").text(), "version")
    }
}

impl Drop for Server {
    fn drop(&mut self) {
        let _ = self.child.kill();
        let _ = self.child.wait();
    }
}

pub fn post(address: &str, line: &str, headers: &str, keep: bool) -> String {
    let connection = if keep { "keep-alive" } else { "close" };
    format!("POST /call HTTP/1.1\r\nHost: {address}\r\n{headers}Connection: {connection}\r\nContent-Length: {}\r\n\r\n{line}", line.len())
}

/// The number after a name in JSON.
pub fn number(json: &str, name: &str) -> u64 {
    let rest = json.split_once(&format!("\"{name}\":")).unwrap_or_else(|| panic!("no {name} in {json}")).1;
    let digits: String = rest.chars().take_while(char::is_ascii_digit).collect();
    digits.parse().unwrap_or_else(|_| panic!("{name} is no number in {json}"))
}

#[derive(Debug)]
pub struct Answer {
    pub status: u16,
    pub head: String,
    pub body: Vec<u8>,
}

impl Answer {
    pub fn text(&self) -> String {
        String::from_utf8_lossy(&self.body).into_owned()
    }

    pub fn of(bytes: &[u8]) -> Option<Answer> {
        let end = bytes.windows(4).position(|four| four == b"\r\n\r\n")? + 4;
        let head = String::from_utf8_lossy(&bytes[..end]).into_owned();
        let status = head.strip_prefix("HTTP/1.1 ")?.get(..3)?.parse().ok()?;
        Some(Answer { status, head, body: bytes[end..].to_vec() })
    }
}

/// Sends a whole request and reads the answer to its end; none where the other side has gone.
pub fn asked(address: &str, request: &[u8]) -> Option<Answer> {
    answered(address, request, false)
}

/// Sends bytes, then says that nothing more comes: they may be no whole request.
pub fn exchange(address: &str, bytes: &[u8]) -> Option<Answer> {
    answered(address, bytes, true)
}

fn answered(address: &str, bytes: &[u8], ends: bool) -> Option<Answer> {
    let mut stream = TcpStream::connect(address).ok()?;
    stream.set_read_timeout(Some(Duration::from_secs(60))).ok()?;
    // a server that has answered already may take no more
    let _ = stream.write_all(bytes);
    if ends {
        let _ = stream.shutdown(Shutdown::Write);
    }
    let mut answer = Vec::new();
    let _ = stream.read_to_end(&mut answer);
    Answer::of(&answer)
}

/// A connection that stays open: one request after another.
pub struct Talk(BufReader<TcpStream>);

impl Talk {
    pub fn new(address: &str) -> Option<Talk> {
        let stream = TcpStream::connect(address).ok()?;
        stream.set_nodelay(true).ok()?;
        stream.set_read_timeout(Some(Duration::from_secs(30))).ok()?;
        Some(Talk(BufReader::new(stream)))
    }

    pub fn say(&mut self, request: &str) -> Option<Answer> {
        self.0.get_mut().write_all(request.as_bytes()).ok()?;
        let mut head = String::new();
        while !head.ends_with("\r\n\r\n") {
            if self.0.read_line(&mut head).ok()? == 0 {
                return None;
            }
        }
        let length = head.split_once("Content-Length: ")?.1.split_once("\r\n")?.0.parse().ok()?;
        let mut body = vec![0; length];
        self.0.read_exact(&mut body).ok()?;
        Answer::of(&[head.as_bytes(), &body].concat())
    }
}

/// 64 drones of 32 stops with 3,968 dependencies, as `tools/reckon.py --full` has them.
pub fn full() -> String {
    let mut text = String::from("plan=1\nagents=64\n");
    for d in 0..64 {
        text += &format!("name=survey-quad-east-{d}\nstops=32\n");
        for k in 0..32 {
            let (crossing, rest) = (k / 8, k % 8);
            let place = if rest == 4 { crossing + d / 32 * 8 } else { 100 + 32 * d + k };
            let time = if k == 0 { 0 } else { 2000 * crossing + 3 * d + if rest == 5 { 801 } else { 200 * rest } };
            text += &format!("go={place}@{time}\n");
        }
    }
    text + "end=plan\n"
}

/// A small generator of random numbers, seeded.
pub struct Random(pub u64);

impl Random {
    pub fn next(&mut self) -> u64 {
        self.0 ^= self.0 << 13;
        self.0 ^= self.0 >> 7;
        self.0 ^= self.0 << 17;
        self.0
    }

    pub fn below(&mut self, n: usize) -> usize {
        (self.next() % n as u64) as usize
    }
}
