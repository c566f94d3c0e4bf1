//! Who may go and who waits for whom, and what the marks mean.
use super::draw::{colour, wide};
use super::plan::Facts;
use super::{Rows, BAR};
use std::fmt::{self, Write};
use std::format;
use std::string::String;
use std::vec::Vec;

pub(super) struct Legend {
    pub(super) body: String,
    pub(super) bottom: f64,
}

/// A mark of the legend at a place, and its words.
type Mark = (String, &'static str);

pub(super) fn legend(facts: &Facts, rows: Rows, near: bool, width: f64, y: f64) -> Result<Legend, fmt::Error> {
    let mut body = String::new();
    let words: Vec<String> = facts.drones.iter().map(|drone| format!("{}: {}", drone.name, facts.words(drone))).collect();
    let y = listed(&mut body, &words, 33.0, width, y, |svg, i, x, y| {
        let (fill, ink) = colour(i);
        write!(svg, r#"<rect x="{x:.1}" y="{y:.1}" width="26" height="{BAR}" rx="3" fill="{fill}"/>"#)?;
        writeln!(svg, r#"<text x="{:.1}" y="{:.1}" text-anchor="middle" fill="{ink}">{i}</text>"#, x + 13.0, y + 13.0)
    })?;
    let marks = marks(facts, rows, near);
    let words: Vec<&str> = marks.iter().map(|(_, words)| *words).collect();
    let bottom =
        listed(&mut body, &words, 44.0, width, y + 10.0, |svg, i, x, y| writeln!(svg, r#"<g transform="translate({x:.1} {y:.1})">{}</g>"#, marks[i].0))?;
    Ok(Legend { body, bottom: bottom + 12.0 })
}

/// Texts in columns, each with a mark before it that takes so much room; where the list ends.
fn listed<T: AsRef<str>>(
    svg: &mut String,
    words: &[T],
    mark: f64,
    width: f64,
    y: f64,
    draw: impl Fn(&mut String, usize, f64, f64) -> fmt::Result,
) -> Result<f64, fmt::Error> {
    let column = mark + 24.0 + words.iter().map(|words| wide(words.as_ref(), 12.0)).fold(0.0, f64::max);
    let columns = (((width - 40.0) / column) as usize).max(1);
    for (i, words) in words.iter().enumerate() {
        let (x, line) = (24.0 + column * (i % columns) as f64, y + 24.0 * (i / columns) as f64);
        draw(svg, i, x, line)?;
        writeln!(svg, r#"<text x="{:.1}" y="{:.1}">{}</text>"#, x + mark, line + 13.0, words.as_ref())?;
    }
    Ok(y + 24.0 * words.len().div_ceil(columns) as f64)
}

fn marks(facts: &Facts, rows: Rows, near: bool) -> Vec<Mark> {
    let arrow = |look: &str, mark: &str| format!(r#"<path d="M0 9h30" fill="none" {look} marker-end="url(#{mark})"/>"#);
    let edge = |stroke: &str, fill: &str| format!(r##"<rect x="1" y="2" width="26" height="14" rx="3" fill="{fill}" stroke="{stroke}" stroke-width="2.5"/>"##);
    let turned = if rows == Rows::Crossings { "turned, below the row" } else { "turned" };
    let mut marks: Vec<Mark> = Vec::from([
        (arrow(r##"stroke="#333""##, "planned"), "goes first → waits"),
        (arrow(r##"stroke="#333" stroke-width="2.6""##, "planned"), "thick: waited for now, and met last"),
        (arrow(r##"stroke="#b0b0b0" stroke-width="0.8""##, "met"), "met"),
        (arrow(r##"stroke="#333" stroke-dasharray="3 3""##, "planned"), "fixed: cannot be turned"),
        (arrow(r##"stroke="#c00000" stroke-width="1.6""##, "turned"), turned),
        (edge("#000", "#fff"), "held now"),
        (edge("#00a33a", "#fff"), "may go there now"),
        (edge("#d9d9d9", "#d9d9d9"), "visited"),
    ]);
    if facts.with_rounds {
        marks.push((r##"<text x="26" y="13" text-anchor="end" font-size="9" fill="#1f5fa8">+5</text>"##.into(), "rounds until it is reached"));
    }
    if near && rows == Rows::Crossings {
        let ground = r##"<rect x="0" y="2" width="28" height="14" rx="3" fill="#fff3d6"/><path d="M8 4v10" stroke="#c98500" stroke-width="2"/>"##;
        marks.push((ground.into(), "near crossings"));
    }
    marks
}
