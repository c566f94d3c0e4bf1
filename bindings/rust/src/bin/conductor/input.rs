//! What is read: plan texts and site texts, from files or from standard input, and the conductor that they make.
use crate::words;
use conductor::{Conductor, ReadRefusal, TEXT};
use std::ffi::{OsStr, OsString};
use std::fs::File;
use std::io::{self, Read};

/// Why the program stops: what was handed to it is refused (status 1), or it cannot go on (status 2).
#[derive(Debug)]
pub enum Stop {
    Refused(String),
    Cannot(String),
}

/// The end of standard output: whoever read it has gone.
impl From<io::Error> for Stop {
    fn from(error: io::Error) -> Stop {
        Stop::Cannot(format!("the answer cannot be written: {error}"))
    }
}

/// A text, and what it is called in a message.
#[derive(Clone)]
pub struct Text {
    pub name: String,
    pub bytes: Vec<u8>,
}

/// `-` is standard input.
pub fn is_standard_input(source: &OsStr) -> bool {
    source == "-"
}

pub fn name_of(source: &OsStr) -> String {
    if is_standard_input(source) {
        "standard input".into()
    } else {
        source.to_string_lossy().into_owned()
    }
}

fn opened(source: &OsStr) -> io::Result<Box<dyn Read>> {
    Ok(if is_standard_input(source) { Box::new(io::stdin()) } else { Box::new(File::open(source)?) })
}

/// A plan or site text. One byte more than the longest plan text is read: what is longer is refused by then, whatever follows.
pub fn text(source: &OsStr) -> Result<Text, Stop> {
    up_to(source, TEXT + 1)
}

/// As many bytes as there are, but no more than so many.
pub fn up_to(source: &OsStr, limit: usize) -> Result<Text, Stop> {
    let name = name_of(source);
    let mut bytes = Vec::new();
    let read = opened(source).and_then(|input| input.take(limit as u64).read_to_end(&mut bytes));
    read.map_err(|error| Stop::Cannot(format!("{name} cannot be read: {error}")))?;
    Ok(Text { name, bytes })
}

/// Reads a plan, with a site text or without.
pub fn read(field: &mut Conductor, text: &Text, site: Option<&Text>) -> Result<(), ReadRefusal> {
    match site {
        None => field.read(&text.bytes),
        Some(site) => field.read_site(&site.bytes, &text.bytes),
    }
}

/// A plan with the site text that it is read with, and the conductor that has read both.
pub struct Plan {
    pub text: Text,
    pub site: Option<Text>,
    pub field: Box<Conductor>,
}

impl Plan {
    pub fn read(plan: &OsStr, site: Option<&OsString>) -> Result<Plan, Stop> {
        let site = site.map(|site| text(site)).transpose()?;
        Plan::taken(text(plan)?, site)
    }

    /// The refusal comes in words, with the line.
    pub fn taken(text: Text, site: Option<Text>) -> Result<Plan, Stop> {
        let mut field = Box::new(Conductor::new());
        read(&mut field, &text, site.as_ref()).map_err(|refusal| Stop::Refused(words::reading(&refusal, &text, site.as_ref())))?;
        Ok(Plan { text, site, field })
    }
}
