//! The journal: the plan's text and the site's in its head, then a line for each accepted call, on disk before the call is answered.
//!
//! ```text
//! conductor journal 1
//! site 0                      the site text has so many bytes, which follow; `site none` without one
//! plan 193                    and so has the plan text
//! plan=1
//! ..
//! calls 5d0c1f4e              a checksum of all before it
//! 1 grant=0 9be2a1c3          the call's number from 1 on, the call, and a checksum of this line that goes on from the one before
//! ```
//!
//! A line is written whole or torn off somewhere; what is torn was never answered. Everything else that is not as it was written is damage, and damage is refused and left as it is.
use crate::calls::Call;
use crate::input::{Plan, Stop};
use crate::words;
use std::ffi::OsStr;
use std::fs::{File, OpenOptions, TryLockError};
use std::io::{Read, Seek, SeekFrom, Write};
use std::path::Path;

/// The usual CRC-32, going on from the one before.
fn checksum(before: u32, bytes: &[u8]) -> u32 {
    let step = |sum: u32| if sum & 1 == 1 { sum >> 1 ^ 0xedb8_8320 } else { sum >> 1 };
    !bytes.iter().fold(!before, |sum, byte| (0..8).fold(sum ^ u32::from(*byte), |sum, _| step(sum)))
}

fn text_in_head(head: &mut Vec<u8>, what: &str, text: Option<&[u8]>) {
    let length = text.map_or("none".into(), |text| text.len().to_string());
    head.extend(format!("{what} {length}\n").bytes());
    head.extend(text.unwrap_or_default());
}

/// The head of a plan's journal, and its checksum.
fn head(plan: &Plan) -> (Vec<u8>, u32) {
    let mut head = b"conductor journal 1\n".to_vec();
    text_in_head(&mut head, "site", plan.site.as_ref().map(|site| &site.bytes[..]));
    text_in_head(&mut head, "plan", Some(&plan.text.bytes));
    let sum = checksum(0, &head);
    head.extend(format!("calls {sum:08x}\n").bytes());
    (head, sum)
}

/// A call's line without its line feed, and its checksum.
fn line(number: u64, call: &Call, before: u32) -> (String, u32) {
    let line = format!("{number} {call}");
    let sum = checksum(before, line.as_bytes());
    (format!("{line} {sum:08x}"), sum)
}

/// The call in a line without its line feed, if the line is as it was written.
fn call_in(bytes: &[u8], number: u64, before: u32) -> Option<(Call, u32)> {
    let text = std::str::from_utf8(bytes).ok()?;
    let call = Call::parse(text.split(' ').nth(1)?.as_bytes()).ok().filter(Call::changes)?;
    let (written, sum) = line(number, &call, before);
    (written == text).then_some((call, sum))
}

/// Whether bytes without a line feed can be the beginning of this line, torn off before its end.
fn torn(tail: &[u8], number: u64) -> bool {
    let begin = format!("{number} ").into_bytes();
    if tail.len() <= begin.len() {
        return begin.starts_with(tail);
    }
    let Some(rest) = tail.strip_prefix(&begin[..]) else {
        return false;
    };
    let mut parts = rest.splitn(2, |byte| *byte == b' ');
    let call = parts.next().unwrap_or_default().iter().all(|byte| byte.is_ascii_lowercase() || byte.is_ascii_digit() || matches!(byte, b'=' | b','));
    let sum = parts.next().unwrap_or_default();
    call && sum.len() < 8 && sum.iter().all(u8::is_ascii_hexdigit)
}

pub struct Journal {
    file: File,
    name: String,
    /// The bytes that are known to be on disk.
    length: u64,
    calls: u64,
    sum: u32,
    /// After a line could neither be written nor taken back, nothing more is written.
    broken: bool,
}

/// What opening it found: how many calls were made again, and what is to be told.
pub struct Opened {
    pub journal: Journal,
    pub told: String,
}

impl Journal {
    /// A new journal, or the calls of the one that is there made again on the plan.
    pub fn open(path: &OsStr, plan: &mut Plan) -> Result<Opened, Stop> {
        let name = path.to_string_lossy().into_owned();
        let cannot = |error: std::io::Error| Stop::Cannot(format!("the journal {name} cannot be used: {error}"));
        let mut file = OpenOptions::new().read(true).write(true).create(true).truncate(false).open(path).map_err(cannot)?;
        locked(&file).map_err(cannot)?;
        let mut bytes = Vec::new();
        file.read_to_end(&mut bytes).map_err(cannot)?;
        let (head, sum) = head(plan);
        let mut journal = Journal { file, name: name.clone(), length: head.len() as u64, calls: 0, sum, broken: false };
        if bytes.len() < head.len() && head.starts_with(&bytes) {
            journal.begin(&head, path).map_err(cannot)?;
            let torn = if bytes.is_empty() { "" } else { " (its head was torn, and no call was in it)" };
            return Ok(Opened { journal, told: format!("journal {name}: begun{torn}") });
        }
        same_head(&bytes, &head).map_err(|why| Stop::Refused(format!("the journal {name} is left as it is: {why}")))?;
        let told = journal.replay(plan, &bytes[head.len()..], lines(&head))?;
        Ok(Opened { journal, told })
    }

    /// Writes the head; the folder that the file is new in goes to disk too.
    fn begin(&mut self, head: &[u8], path: &OsStr) -> std::io::Result<()> {
        self.file.seek(SeekFrom::Start(0))?;
        self.file.write_all(head)?;
        self.file.sync_all()?;
        let folder = Path::new(path).parent().filter(|folder| !folder.as_os_str().is_empty()).unwrap_or(Path::new("."));
        File::open(folder)?.sync_all()
    }

    /// Makes the calls again, and says what was done. The last line may want its line feed, or be torn: it is cut off then. `before` is how many lines the head has.
    fn replay(&mut self, plan: &mut Plan, rest: &[u8], before: usize) -> Result<String, Stop> {
        let mut mended = String::new();
        for piece in rest.split_inclusive(|byte| *byte == b'\n') {
            let number = self.calls + 1;
            let (bytes, closed) = piece.strip_suffix(b"\n").map_or((written_part(piece), false), |bytes| (bytes, true));
            let refused = |why: &str| {
                Stop::Refused(format!("the journal {} is left as it is: line {}: {}: {why}", self.name, before as u64 + number, bytes.escape_ascii()))
            };
            match call_in(bytes, number, self.sum) {
                Some((call, sum)) => {
                    let reply = call.make(&mut plan.field);
                    if reply.refused() {
                        return Err(refused(&words::answered(&plan.field, &call, &reply)));
                    }
                    (self.calls, self.sum, self.length) = (number, sum, self.length + bytes.len() as u64 + u64::from(closed));
                    if !closed {
                        mended = "; the last line wanted its line feed".into();
                        self.back().and_then(|()| self.put(b"\n")).map_err(|error| self.cannot(&error))?;
                    }
                }
                None if closed || !torn(bytes, number) => return Err(refused("it is damaged")),
                None => {
                    mended = format!("; the last line was torn and is cut off: {}", bytes.escape_ascii());
                    self.back().map_err(|error| self.cannot(&error))?;
                }
            }
        }
        Ok(format!("journal {}: {} made again{mended}", self.name, words::counted(self.calls as usize, "call")))
    }

    fn cannot(&self, error: &std::io::Error) -> Stop {
        Stop::Cannot(format!("the journal {} cannot be written: {error}", self.name))
    }

    pub fn calls(&self) -> u64 {
        self.calls
    }

    /// The call is on disk when this returns.
    pub fn append(&mut self, call: &Call) -> Result<(), String> {
        if self.broken {
            return Err(format!("the journal {} could not be written before: start the program again", self.name));
        }
        let (text, sum) = line(self.calls + 1, call, self.sum);
        if let Err(error) = self.put(format!("{text}\n").as_bytes()) {
            self.broken = self.back().is_err();
            return Err(format!("the journal {} cannot be written: {error}", self.name));
        }
        (self.calls, self.sum) = (self.calls + 1, sum);
        Ok(())
    }

    fn put(&mut self, bytes: &[u8]) -> std::io::Result<()> {
        self.file.seek(SeekFrom::Start(self.length))?;
        self.file.write_all(bytes)?;
        self.file.sync_data()?;
        self.length += bytes.len() as u64;
        Ok(())
    }

    /// Takes back what stands after the last whole line.
    fn back(&mut self) -> std::io::Result<()> {
        self.file.set_len(self.length)?;
        self.file.sync_data()
    }
}

/// A power cut can leave zeros where the rest of a line was to be.
fn written_part(tail: &[u8]) -> &[u8] {
    let end = tail.iter().rposition(|byte| *byte != 0).map_or(0, |last| last + 1);
    &tail[..end]
}

/// One program at a time has a journal.
#[allow(clippy::incompatible_msrv)] // the library is for older compilers too; the program wants one with locks on files
fn locked(file: &File) -> std::io::Result<()> {
    file.try_lock().map_err(|refused| match refused {
        TryLockError::WouldBlock => std::io::Error::other("it is in use: another conductor has it open"),
        TryLockError::Error(error) => error,
    })
}

fn lines(text: &[u8]) -> usize {
    text.iter().filter(|byte| **byte == b'\n').count()
}

/// Whether a journal begins with this head; if not, the first line that differs.
fn same_head(bytes: &[u8], head: &[u8]) -> Result<(), String> {
    if bytes.starts_with(head) {
        return Ok(());
    }
    if !bytes.starts_with(b"conductor journal ") {
        return Err("it is no journal of a conductor".into());
    }
    let same = bytes.iter().zip(head).take_while(|(a, b)| a == b).count();
    let start = head[..same].iter().rposition(|byte| *byte == b'\n').map_or(0, |at| at + 1);
    let ours = words::line_at(head, start);
    Err(format!("it is of another plan or site, or its head is damaged: {}, where this plan's has {ours}", words::line_at(bytes, start)))
}

#[cfg(test)]
mod tests {
    use super::*;

    #[test]
    fn the_usual_checksum() {
        assert_eq!(checksum(0, b"123456789"), 0xcbf4_3926);
        assert_eq!(checksum(checksum(0, b"12345"), b"6789"), 0xcbf4_3926);
    }

    #[test]
    fn every_beginning_of_a_line_is_torn_and_no_other_byte_is() {
        let (whole, _) = line(12, &Call::Turns(vec![1, 20]), 7);
        for cut in 0..whole.len() {
            assert!(torn(&whole.as_bytes()[..cut], 12), "{cut}");
            for other in [b'\n' ^ 0x40, b' ' ^ 0x80, b'*'] {
                let mut bytes = whole.as_bytes()[..cut].to_vec();
                bytes.push(other);
                assert!(!torn(&bytes, 12), "{cut} {other}");
            }
        }
        assert!(!torn(whole.as_bytes(), 12) && !torn(b"13 tu", 12));
    }
}
