//! A row for each drone.
use super::draw::{bar, dashes, look, number, wide, Labels, Scale};
use super::plan::{Facts, Known, Stay};
use super::{Drawn, BAR, TOP};
use crate::{Conductor, Visit};
use std::fmt::{self, Write};
use std::format;
use std::string::{String, ToString};
use std::vec::Vec;

const APART: [f64; 2] = [72.0, 58.0]; // from row to row: with every arrow, and with some
const ARROWS: usize = 120; // more than these are not all drawn

fn label(stay: &Stay) -> String {
    stay.location.to_string()
}

/// Where so many dependencies are that their arrows would hide each other, for each drone that waits the one alone that is met last, and the turned ones that are not met.
pub(super) fn rows(_: &Conductor, facts: &Facts) -> Result<Drawn, fmt::Error> {
    let stays: Vec<Vec<Stay>> = facts.drones.iter().map(|drone| facts.stays(drone).collect()).collect();
    let names: Vec<String> = facts.drones.iter().map(|drone| format!("{} {}", drone.number, drone.name)).collect();
    let left = names.iter().map(|name| wide(name, 12.0)).fold(60.0, f64::max) + 48.0;
    let scale = Scale::new(stays.iter().flatten(), left, label);
    let (mut body, mut labels) = (String::new(), Labels::default());
    let many = facts.dependencies.len() > ARROWS;
    let at = |drone: usize| TOP + 20.0 + APART[usize::from(many)] * drone as f64;
    for (drone, name) in names.iter().enumerate() {
        let y = at(drone);
        writeln!(body, r##"<text x="{:.1}" y="{:.1}" text-anchor="end">{name}</text>"##, left - 24.0, y + 13.0)?;
        writeln!(body, r##"<line x1="{:.1}" y1="{2:.1}" x2="{1:.1}" y2="{2:.1}" stroke="#bbb"/>"##, left - 16.0, scale.end(), y + BAR / 2.0)?;
        for stay in &stays[drone] {
            bar(&mut body, &mut labels, &scale, stay, y, facts, &label(stay))?;
        }
    }
    let room = if facts.with_rounds { 13.0 } else { 0.0 };
    let mut drawn: Vec<&Known> = facts.dependencies.iter().filter(|known| !many || known.now || (known.d.turned && !known.met)).collect();
    drawn.sort_by_key(|known| (!known.met, known.now));
    for known in &drawn {
        arrow(&mut body, &mut labels, &scale, &stays, known, &|drone, below| at(drone) + if below { BAR + 1.0 + room } else { -1.0 })?;
    }
    let shown = if many { format!("{} arrows (waited for now and met last, or turned) of ", drawn.len()) } else { String::new() };
    Ok(Drawn { body, scale, bottom: at(facts.drones.len().saturating_sub(1)) + BAR + 26.0, shown })
}

/// From where who goes first has gone to where who waits comes in.
fn arrow(svg: &mut String, labels: &mut Labels, scale: &Scale, stays: &[Vec<Stay>], known: &Known, edge: &dyn Fn(usize, bool) -> f64) -> fmt::Result {
    let d = &known.d;
    let span = |visit: Visit| scale.span(&stays[visit.drone][visit.stop]);
    let (x, z) = (span(d.first).1 - 4.0, span(d.waits).0 + 4.0);
    let down = d.first.drone < d.waits.drone;
    let (y, w) = (edge(d.first.drone, down), edge(d.waits.drone, !down));
    let bend = if down { 14.0 } else { -14.0 };
    let (stroke, width, mark, words) = look(known);
    let (dashes, fixed) = (dashes(known), if d.fixed { ", fixed" } else { "" });
    writeln!(
        svg,
        r#"<path d="M{x:.1} {y:.1}C{x:.1} {:.1} {z:.1} {:.1} {z:.1} {w:.1}" fill="none" stroke="{stroke}" stroke-width="{width}"{dashes} marker-end="url(#{mark})">"#,
        y + bend,
        w - bend
    )?;
    let place =
        if d.location == d.waits_location { format!("crossing {}", d.location) } else { format!("near crossings {} and {}", d.location, d.waits_location) };
    writeln!(
        svg,
        "<title>dependency {} at {place}: drone {} goes first, drone {} waits ({words}{fixed})</title></path>",
        d.number, d.first.drone, d.waits.drone
    )?;
    // beside the arrow, to the right or to the left of it
    let beside = |t: f64, side: f64| {
        let (s, r) = ((3.0 - 2.0 * t) * t * t, 3.0 * t * (1.0 - t));
        let away = side * (wide(&d.number.to_string(), 10.0) / 2.0 + 4.0);
        (x + (z - x) * s + away, y * (1.0 - s) + w * s + r * (bend * (1.0 - t) - bend * t) + 3.5)
    };
    let places = [0.5, 0.42, 0.58, 0.34, 0.66, 0.26, 0.74, 0.18, 0.82].map(|t| [beside(t, 1.0), beside(t, -1.0)]);
    number(svg, labels, d.number, stroke, places.into_iter().flatten())
}
