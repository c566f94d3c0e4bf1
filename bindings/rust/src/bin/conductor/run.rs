//! `conductor run`: a line for a line, as `field` answers them, each at once.
use crate::arguments::Given;
use crate::calls::Call;
use crate::input::{self, is_standard_input, Stop, Text};
use crate::words;
use conductor::{Conductor, TEXT};
use std::io::{self, BufRead, Read, Write};

const END: &[u8] = b"end=plan\n";
/// Longer lines are no calls: a list of every dependency has 24,000 bytes.
const LINE: u64 = 65_536;

/// "The bytes through the first line `end=plan` are the plan, or all bytes if there is none." What is too long is so whatever follows, and nothing more is read.
fn plan_from(input: &mut impl BufRead) -> io::Result<Vec<u8>> {
    let mut plan = Vec::new();
    loop {
        let start = plan.len();
        let room = (TEXT + 1 - start) as u64;
        if input.by_ref().take(room).read_until(b'\n', &mut plan)? == 0 || &plan[start..] == END {
            return Ok(plan);
        }
    }
}

/// Writes the answers, and the words of refusals beside them.
struct Answers<W> {
    out: W,
    quiet: bool,
}

impl<W: Write> Answers<W> {
    fn line(&mut self, line: &str) -> Result<(), Stop> {
        self.out.write_all(line.as_bytes())?;
        self.out.write_all(b"\n")?;
        Ok(self.out.flush()?)
    }

    fn words(&self, words: &str) {
        if !self.quiet {
            crate::told(words, 0);
        }
    }

    /// One line without its line feed; the line that was malformed ends the calls.
    fn call(&mut self, field: &mut Conductor, line: &[u8], closed: bool) -> Result<(), Stop> {
        let call = match if closed { Call::parse(line) } else { Err(crate::calls::Malformed::Form) } {
            Ok(call) => call,
            Err(malformed) => {
                self.line(&format!("call={}", malformed.number()))?;
                return Err(Stop::Refused(if self.quiet { String::new() } else { format!("{}: {malformed}", line.escape_ascii()) }));
            }
        };
        let reply = call.make(field);
        self.line(&format!("{}={reply}", call.key()))?;
        if reply.refused() {
            self.words(&format!("{call}: {}", words::answered(field, &call, &reply)));
        }
        Ok(())
    }
}

fn calls(field: &mut Conductor, input: &mut impl BufRead, answers: &mut Answers<impl Write>) -> Result<(), Stop> {
    let mut line = Vec::new();
    let unread = |error| Stop::Cannot(format!("standard input cannot be read: {error}"));
    while input.by_ref().take(LINE).read_until(b'\n', &mut line).map_err(unread)? > 0 {
        let call = line.strip_suffix(b"\n");
        answers.call(field, call.unwrap_or(&line), call.is_some())?;
        line.clear();
    }
    answers.line("end=calls")
}

pub fn run(given: &Given) -> Result<(), Stop> {
    let mut input = io::stdin().lock();
    let mut answers = Answers { out: io::stdout().lock(), quiet: given.has("--quiet") };
    let source = &given.operands[0];
    let site = given.option("--site").map(|site| input::text(site)).transpose()?;
    let text = if is_standard_input(source) {
        let bytes = plan_from(&mut input).map_err(|error| Stop::Cannot(format!("standard input cannot be read: {error}")))?;
        Text { name: input::name_of(source), bytes }
    } else {
        input::text(source)?
    };
    let mut field = Box::new(Conductor::new());
    let read = input::read(&mut field, &text, site.as_ref());
    answers.line(&format!("plan={}", read.err().map_or(0, |refusal| refusal.number())))?;
    match read {
        Ok(()) => calls(&mut field, &mut input, &mut answers),
        Err(refusal) => Err(Stop::Refused(if answers.quiet { String::new() } else { words::reading(&refusal, &text, site.as_ref()) })),
    }
}
