//! The words of a number are the same from C, Rust and Python.
use conductor::meaning;

const HEADER: &str = include_str!("../../c/conductor.h");
const PYTHON: &str = include_str!("../../python/conductor/__init__.py");

/// The number and the words of each line that begins and ends so.
fn words<'a>(text: &'a str, before: &str, between: &str, after: &str) -> Vec<(usize, &'a str)> {
    let line = |line: &'a str| {
        let (number, words) = line.strip_prefix(before)?.strip_suffix(after)?.split_once(between)?;
        Some((number.parse().ok()?, words))
    };
    text.lines().filter_map(line).collect()
}

#[test]
fn the_same_words() {
    let ours: Vec<(usize, &str)> = (0..1000).filter_map(|number| Some((number, meaning(number)?))).collect();
    assert!(ours.len() > 30);
    assert_eq!(words(HEADER, "    case ", ": return \"", "\";"), ours);
    assert_eq!(words(PYTHON, "    ", ": \"", "\","), ours);
}
