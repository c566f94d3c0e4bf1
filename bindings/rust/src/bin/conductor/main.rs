//! `conductor`: what a person who flies this uses. Every call of the library from a command line, and on a page.
#![deny(unsafe_code)]
mod arguments;
mod best;
mod calls;
mod check;
mod help;
mod input;
mod join;
mod journal;
mod run;
mod serve;
mod show;
mod standing;
mod words;

use arguments::{Asked, Given};
use input::Stop;
use std::io::Write;
use std::process::ExitCode;

const REFUSED: u8 = 1;
const USAGE: u8 = 2;

fn done(given: &Given) -> Result<(), Stop> {
    match given.part.name {
        "check" => check::check(given),
        "show" => show::show(given),
        "picture" => show::picture_of(given),
        "run" => run::run(given),
        "join" => join::join(given),
        "best" => best::best(given),
        "small-plans" => best::small_plans(),
        _ => serve::serve(given),
    }
}

/// Whoever reads standard output may have gone: that is no fault of ours.
fn print(text: &str) -> Result<(), Stop> {
    let mut out = std::io::stdout().lock();
    out.write_all(text.as_bytes())?;
    Ok(out.flush()?)
}

fn status(result: Result<(), Stop>) -> ExitCode {
    match result {
        Ok(()) => ExitCode::SUCCESS,
        Err(Stop::Refused(words)) => told(&words, REFUSED),
        Err(Stop::Cannot(words)) => told(&words, USAGE),
    }
}

/// Words on standard error; where nobody can read them, the status says enough.
fn told(words: &str, status: u8) -> ExitCode {
    if !words.is_empty() {
        let _ = writeln!(std::io::stderr(), "{words}");
    }
    ExitCode::from(status)
}

fn main() -> ExitCode {
    match arguments::parse(std::env::args_os().skip(1)) {
        Ok(Asked::Help(text)) => status(print(text)),
        Ok(Asked::Version) => status(print(concat!("conductor ", env!("CARGO_PKG_VERSION"), "\n"))),
        Ok(Asked::Do(given)) => status(done(&given)),
        Err(words) => told(&words, USAGE),
    }
}
