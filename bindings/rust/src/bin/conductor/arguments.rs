//! The command line: the parts of the program, what each takes, and what was given.
use crate::help;
use std::ffi::{OsStr, OsString};

/// A part of the program: its name, its operands, its options (each with a value, but for the switches), and its help.
pub struct Part {
    pub name: &'static str,
    pub operands: &'static [&'static str],
    pub options: &'static [&'static str],
    pub switches: &'static [&'static str],
    pub help: &'static str,
}

const fn part(name: &'static str, operands: &'static [&'static str], options: &'static [&'static str], help: &'static str) -> Part {
    Part { name, operands, options, switches: &[], help }
}

pub const PARTS: [Part; 8] = [
    part("check", &["PLAN"], &["--site"], help::CHECK),
    part("show", &["PLAN"], &["--site", "--calls"], help::SHOW),
    Part { name: "picture", operands: &["PLAN"], options: &["--site", "--calls"], switches: &["--drones", "--by-number"], help: help::PICTURE },
    Part { name: "run", operands: &["PLAN"], options: &["--site"], switches: &["--quiet"], help: help::RUN },
    part("join", &["EAST", "WEST"], &["--site"], help::JOIN),
    part("best", &["PLAN"], &["--site", "--calls", "--budget"], help::BEST),
    part("small-plans", &[], &[], help::SMALL_PLANS),
    part("serve", &["PLAN"], &["--site", "--journal", "--listen", "--host", "--secret"], help::SERVE),
];

/// What was asked for.
pub enum Asked {
    Help(&'static str),
    Version,
    Do(Given),
}

/// A part with its operands and options.
pub struct Given {
    pub part: &'static Part,
    pub operands: Vec<OsString>,
    options: Vec<(&'static str, OsString)>,
}

impl Given {
    pub fn option(&self, name: &str) -> Option<&OsString> {
        self.options.iter().find(|(option, _)| *option == name).map(|(_, value)| value)
    }

    pub fn all<'a>(&'a self, name: &'a str) -> impl Iterator<Item = &'a OsString> + 'a {
        self.options.iter().filter(move |(option, _)| *option == name).map(|(_, value)| value)
    }

    pub fn has(&self, switch: &str) -> bool {
        self.option(switch).is_some()
    }

    /// Standard input can be only one of the texts.
    fn of_one_input(self) -> Result<Given, String> {
        let texts = self.operands.iter().chain(["--site", "--calls"].iter().filter_map(|name| self.option(name)));
        if texts.filter(|text| *text == "-").count() > 1 {
            return Err(wrong(self.part, "standard input (`-`) can be only one of the texts"));
        }
        Ok(self)
    }
}

fn wrong(part: &Part, why: &str) -> String {
    let usage = part.help.lines().next().unwrap_or_default();
    format!("conductor {}: {why}\nusage: {usage}\n`conductor {} --help` says more", part.name, part.name)
}

/// The words after the program's name. An error is one of usage.
pub fn parse(mut words: impl Iterator<Item = OsString>) -> Result<Asked, String> {
    let Some(first) = words.next() else {
        return Err(format!("conductor: what is to be done?\n{}", help::USAGE));
    };
    match first.to_str() {
        Some("--help" | "-h") => return Ok(Asked::Help(help::WHOLE)),
        Some("--version" | "-V") => return Ok(Asked::Version),
        Some("help") => return help_on(words.next()),
        _ => {}
    }
    let Some(part) = PARTS.iter().find(|part| first == part.name) else {
        return Err(format!("conductor: there is no part `{}`\n{}", first.to_string_lossy(), help::USAGE));
    };
    given(part, words)
}

fn help_on(name: Option<OsString>) -> Result<Asked, String> {
    match name {
        None => Ok(Asked::Help(help::WHOLE)),
        Some(name) => match PARTS.iter().find(|part| name == part.name) {
            Some(part) => Ok(Asked::Help(part.help)),
            None => Err(format!("conductor: there is no part `{}`\n{}", name.to_string_lossy(), help::USAGE)),
        },
    }
}

/// An option's name, and its value if that stands in the same word after `=`.
fn split(word: &OsStr) -> Option<(&str, Option<&str>)> {
    let word = word.to_str().filter(|word| word.starts_with("--") && word.len() > 2)?;
    Some(word.split_once('=').map_or((word, None), |(name, value)| (name, Some(value))))
}

fn given(part: &'static Part, mut words: impl Iterator<Item = OsString>) -> Result<Asked, String> {
    let mut given = Given { part, operands: vec![], options: vec![] };
    let mut only_operands = false;
    while let Some(word) = words.next() {
        match split(&word).filter(|_| !only_operands) {
            _ if !only_operands && (word == "--help" || word == "-h") => return Ok(Asked::Help(part.help)),
            _ if !only_operands && word == "--" => only_operands = true,
            Some((name, value)) => given.options.push(option(part, name, value, &given.options, &mut words)?),
            None if !only_operands && word != "-" && word.as_encoded_bytes().starts_with(b"-") => {
                return Err(wrong(part, &format!("there is no option `{}`", word.to_string_lossy())))
            }
            None => given.operands.push(word),
        }
    }
    if given.operands.len() != part.operands.len() {
        let want = if part.operands.is_empty() { "it takes no operand".into() } else { format!("it takes {}", part.operands.join(" and ")) };
        return Err(wrong(part, &want));
    }
    given.of_one_input().map(Asked::Do)
}

type Options = Vec<(&'static str, OsString)>;

fn option(
    part: &'static Part,
    name: &str,
    value: Option<&str>,
    before: &Options,
    words: &mut impl Iterator<Item = OsString>,
) -> Result<(&'static str, OsString), String> {
    if let Some(switch) = part.switches.iter().find(|switch| **switch == name) {
        return if value.is_none() { Ok((switch, OsString::new())) } else { Err(wrong(part, &format!("`{name}` takes no value"))) };
    }
    let Some(known) = part.options.iter().find(|option| **option == name) else {
        return Err(wrong(part, &format!("there is no option `{name}`")));
    };
    if name != "--host" && before.iter().any(|(option, _)| option == known) {
        return Err(wrong(part, &format!("`{name}` is given twice")));
    }
    let value = value.map(OsString::from).or_else(|| words.next()).ok_or_else(|| wrong(part, &format!("`{name}` wants a value")))?;
    Ok((known, value))
}
