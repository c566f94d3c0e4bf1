//! A picture of a plan and its progress, as an SVG text.
//!
//! Time goes to the right. In the first form a row for each crossing that is shared shows the stays of its drones, and an arrow for each dependency goes from who goes first to who waits; near crossings are
//! neighbours on one ground, with a bracket for each pair. In the second form, [`Rows::Drones`], a row for each drone shows its stops, and the arrows go from row to row.
//!
//! What is visited is grey, and so is the arrow of a dependency that is met; a thick arrow is the one for which a drone waits longest. What is held now has a black edge, and where a drone may go now a green one; the
//! list of drones below says who may go and who waits for whom. Once a dependency is turned or a drone is late, the rounds from now until a stop is reached, if nobody is delayed, stand beside the planned
//! times. The conductor has no clock: a drone is late where another has reached a stop that was planned for later than the next one of this drone.
//!
//! ```
//! use conductor::picture::{svg, Options, Rows};
//! let mut field = conductor::Conductor::new();
//! field.read(b"plan=1\nagents=2\nname=east\nstops=3\ngo=1@0\ngo=5@1\ngo=2@2\nname=west\nstops=3\ngo=3@0\ngo=5@4\ngo=4@5\nend=plan\n")?;
//! assert!(svg(&field, &Options::default()).contains("crossing 5"));
//! assert!(svg(&field, &Options { rows: Rows::Drones, ..Options::default() }).contains("waits at 5 for east"));
//! # Ok::<(), Box<dyn std::error::Error>>(())
//! ```
mod crossings;
mod draw;
mod drones;
mod legend;
mod plan;

use crate::Conductor;
use draw::{axis, marker, wide};
use plan::Facts;
use std::fmt::{self, Write};
use std::format;
use std::string::String;

const LEFT: f64 = 120.0;
const TOP: f64 = 70.0;
const BAR: f64 = 18.0;

/// What a row of the picture is.
#[derive(Clone, Copy, Debug, Default, PartialEq, Eq, Hash)]
pub enum Rows {
    /// A crossing that is shared, with the stays of its drones.
    #[default]
    Crossings,
    /// A drone, with its stops.
    Drones,
}

/// In which order the crossings come.
#[derive(Clone, Copy, Debug, Default, PartialEq, Eq, Hash)]
pub enum Order {
    /// By the time at which they are first visited.
    #[default]
    Time,
    /// By their numbers.
    Number,
}

/// How a plan is drawn.
#[derive(Clone, Copy, Debug, Default, PartialEq, Eq, Hash)]
pub struct Options {
    /// What a row is.
    pub rows: Rows,
    /// The order of the crossings, where each has a row.
    pub order: Order,
}

/// The picture of a plan and its progress; without a plan, one that says so.
#[must_use]
pub fn svg(field: &Conductor, options: &Options) -> String {
    drawn(field, options).unwrap_or_default()
}

/// The rows: what is drawn, how wide it is and where it ends, and what the title says of it.
struct Drawn {
    body: String,
    scale: draw::Scale,
    bottom: f64,
    shown: String,
}

fn drawn(field: &Conductor, options: &Options) -> Result<String, fmt::Error> {
    let facts = Facts::new(field);
    let rows = match options.rows {
        Rows::Crossings => crossings::rows(field, &facts, options.order)?,
        Rows::Drones => drones::rows(field, &facts)?,
    };
    let title = title(field, &facts, &rows.shown);
    let width = (rows.scale.end() + 24.0).max(760.0).max(wide(&title, 15.0) + 48.0);
    let legend = legend::legend(&facts, options.rows, field.near_pairs().count() > 0, width, rows.bottom + 24.0)?;
    let mut svg = String::new();
    writeln!(
        svg,
        r#"<svg xmlns="http://www.w3.org/2000/svg" width="{width:.0}" height="{0:.0}" viewBox="0 0 {width:.0} {0:.0}" font-family="DejaVu Sans, Verdana, sans-serif" font-size="12">"#,
        legend.bottom
    )?;
    let marks = [("planned", "#333"), ("turned", "#c00000"), ("met", "#b0b0b0")].map(|(id, fill)| marker(id, fill)).concat();
    writeln!(svg, r##"<defs>{marks}</defs><rect width="100%" height="100%" fill="#fff"/>"##)?;
    writeln!(svg, r#"<text x="24" y="26" font-size="15">{title}</text>"#)?;
    axis(&mut svg, &rows.scale, TOP - 8.0, rows.bottom)?;
    svg += &rows.body;
    svg += &legend.body;
    svg += "</svg>\n";
    Ok(svg)
}

fn title(field: &Conductor, facts: &Facts, shown: &str) -> String {
    let (Ok(cost), Ok(rounds)) = (field.cost(), field.rounds()) else { return "no plan".into() };
    let count = |of: fn(&plan::Known) -> bool| facts.dependencies.iter().filter(|known| of(known)).count();
    let (all, met, turned) = (facts.dependencies.len(), count(|known| known.met), count(|known| known.d.turned));
    format!("{} drones, {shown}{all} dependencies ({met} met, {turned} turned); cost {cost}, {rounds} rounds to fly", facts.drones.len())
}
