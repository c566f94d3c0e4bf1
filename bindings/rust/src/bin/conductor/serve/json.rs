//! JSON, written by hand.
use std::fmt::Write;

/// A string with what JSON asks to be escaped, and besides what a browser could take for markup.
pub fn string(text: &str) -> String {
    let mut out = String::from("\"");
    for c in text.chars() {
        match c {
            '"' => out += "\\\"",
            '\\' => out += "\\\\",
            '\n' => out += "\\n",
            c if c.is_control() || matches!(c, '<' | '>' | '&' | '\u{2028}' | '\u{2029}') => {
                let _ = write!(out, "\\u{:04x}", c as u32);
            }
            c => out.push(c),
        }
    }
    out.push('"');
    out
}

/// An array of values that are JSON already.
pub fn array<T: std::fmt::Display>(values: impl IntoIterator<Item = T>) -> String {
    let mut out = String::from("[");
    for (i, value) in values.into_iter().enumerate() {
        let _ = write!(out, "{}{value}", if i > 0 { "," } else { "" });
    }
    out.push(']');
    out
}

/// An object of names that need no escape, and values that are JSON already.
pub fn object(fields: &[(&str, String)]) -> String {
    let mut out = String::from("{");
    for (i, (name, value)) in fields.iter().enumerate() {
        let _ = write!(out, "{}\"{name}\":{value}", if i > 0 { "," } else { "" });
    }
    out.push('}');
    out
}

#[cfg(test)]
mod tests {
    use super::*;

    #[test]
    fn escapes() {
        assert_eq!(string("a\"b\\c\n<\u{1}\u{2028}é"), "\"a\\\"b\\\\c\\n\\u003c\\u0001\\u2028é\"");
        assert_eq!(object(&[("a", array([1, 2])), ("b", array::<u8>([]))]), "{\"a\":[1,2],\"b\":[]}");
    }
}
