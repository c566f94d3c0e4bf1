//! A row for each crossing that is shared.
use super::draw::{bar, dashes, look, number, wide, Labels, Scale};
use super::plan::{sites, Facts, Known, Row, Site, Stay};
use super::{Drawn, Order, BAR, LEFT, TOP};
use crate::{Conductor, Visit};
use std::fmt::{self, Write};
use std::format;
use std::string::{String, ToString};
use std::vec::Vec;

const NEAR: f64 = 52.0; // the least room between the rows of near crossings
const SHARES: [f64; 7] = [0.5, 0.4, 0.6, 0.3, 0.7, 0.2, 0.8]; // of the way along an arrow, for its number

fn label(stay: &Stay) -> String {
    stay.drone.to_string()
}

pub(super) fn rows(field: &Conductor, facts: &Facts, order: Order) -> Result<Drawn, fmt::Error> {
    let sites = sites(field, facts, order);
    let stays = sites.iter().flat_map(|site| &site.rows).flat_map(|row| &row.stays);
    let scale = Scale::new(stays, LEFT, label);
    let numbered = sites.iter().flat_map(|site| &site.rows).all(|row| row.stays.len() <= 6);
    let (mut body, mut labels, mut y) = (String::new(), Labels::default(), TOP);
    let mut placed = Vec::new();
    for site in &sites {
        let (ys, bottom) = places(site, facts, y);
        if site.rows.len() > 1 {
            ground(&mut body, &scale, site, &ys)?;
        }
        for (row, y) in site.rows.iter().zip(&ys) {
            bars(&mut body, &mut labels, &scale, row, *y, facts)?;
        }
        y = bottom;
        placed.push(ys);
    }
    for (site, ys) in sites.iter().zip(&placed) {
        for (row, y) in site.rows.iter().zip(ys) {
            arrows(&mut body, &mut labels, &scale, row, *y, facts, numbered)?;
        }
        arrows_across(&mut body, &mut labels, &scale, site, ys, facts, numbered)?;
    }
    let (crossings, near) = (sites.iter().map(|site| site.rows.len()).sum::<usize>(), sites.iter().map(|site| site.pairs.len()).sum::<usize>());
    let near = if near > 0 { format!(" ({near} near pairs)") } else { String::new() };
    Ok(Drawn { body, scale, bottom: y, shown: format!("{crossings} shared crossing{}{near}, ", if crossings == 1 { "" } else { "s" }) })
}

fn height(reach: usize) -> f64 {
    (6.0 + 8.0 * reach as f64).min(30.0 + 2.5 * reach as f64)
}

/// What the rounds take below a row.
fn below(facts: &Facts) -> f64 {
    if facts.with_rounds {
        13.0
    } else {
        0.0
    }
}

fn room(row: &Row, turned: bool) -> f64 {
    let reach = row.dependencies.iter().filter(|known| known.d.turned == turned).map(|known| row.reach(&known.d)).max();
    reach.map_or(0.0, |reach| height(reach) + 14.0)
}

/// Where the rows of a site lie, and where it ends.
fn places(site: &Site, facts: &Facts, mut y: f64) -> (Vec<f64>, f64) {
    let (mut ys, mut under) = (Vec::new(), 0.0);
    for row in &site.rows {
        y += f64::max(room(row, false).max(12.0), if ys.is_empty() { 0.0 } else { NEAR - under });
        ys.push(y);
        under = (room(row, true) + below(facts)).max(6.0);
        y += BAR + under;
    }
    let ground = if site.rows.len() > 1 { 14.0 } else { 0.0 };
    (ys, y + ground)
}

fn bars(svg: &mut String, labels: &mut Labels, scale: &Scale, row: &Row, y: f64, facts: &Facts) -> fmt::Result {
    let name = format!("crossing {}", row.location);
    writeln!(svg, r##"<text x="{:.1}" y="{:.1}" text-anchor="end">{name}</text>"##, LEFT - 24.0, y + 13.0)?;
    writeln!(svg, r##"<line x1="{:.1}" y1="{2:.1}" x2="{1:.1}" y2="{2:.1}" stroke="#bbb"/>"##, LEFT - 16.0, scale.end(), y + BAR / 2.0)?;
    labels.take(0.0, y, LEFT - 20.0, BAR);
    let first = scale.at(row.stays[0].from);
    if first > LEFT + 300.0 {
        writeln!(svg, r##"<text x="{:.1}" y="{:.1}" text-anchor="end" fill="#777">{name}</text>"##, first - 8.0, y + 5.0)?;
        labels.take(first - 8.0 - wide(&name, 12.0), y - 5.0, wide(&name, 12.0), 12.0);
    }
    row.stays.iter().try_for_each(|stay| bar(svg, labels, scale, stay, y, facts, &label(stay)))
}

/// Planned orders go above the row and to the right, turned ones below it and to the left.
fn arrows(svg: &mut String, labels: &mut Labels, scale: &Scale, row: &Row, y: f64, facts: &Facts, numbered: bool) -> fmt::Result {
    let mut order: Vec<&Known> = row.dependencies.iter().collect();
    order.sort_by_key(|known| (!known.met, known.now, known.d.turned, std::cmp::Reverse(row.reach(&known.d))));
    for known in order {
        let d = &known.d;
        let end = |at: Visit| {
            let stay = &row.stays[row.index(at.drone, at.stop)];
            scale.middle(stay, &label(stay))
        };
        let (x, z, reach) = (end(d.first), end(d.waits), row.reach(d));
        let (edge, way) = if d.turned { (y + BAR + 1.0 + below(facts), 1.0) } else { (y - 1.0, -1.0) };
        let (stroke, width, mark, words) = look(known);
        let faint = if d.turned || known.now || reach == 1 { 1.0 } else { (1.8 / reach as f64).clamp(0.08, 0.8) };
        let (middle, tip) = ((x + z) / 2.0, edge + way * 2.0 * height(reach));
        let (dashes, fixed) = (dashes(known), if d.fixed { ", fixed" } else { "" });
        writeln!(
            svg,
            r#"<path d="M{x:.1} {edge:.1}Q{middle:.1} {tip:.1} {z:.1} {edge:.1}" fill="none" stroke="{stroke}" stroke-width="{width}" opacity="{faint:.2}"{dashes} marker-end="url(#{mark})">"#
        )?;
        writeln!(
            svg,
            "<title>dependency {} at crossing {}: drone {} goes first, drone {} waits ({words}{fixed})</title></path>",
            d.number, row.location, d.first.drone, d.waits.drone
        )?;
        if numbered || d.turned || known.now {
            let along = |t: f64| (x + (z - x) * t, edge + way * (4.0 * t * (1.0 - t) * height(reach) + if d.turned { 11.0 } else { 3.0 }));
            number(svg, labels, d.number, stroke, SHARES.map(along))?;
        }
    }
    Ok(())
}

/// The ground of near crossings, and a bracket for each pair of them; `ys` has where the rows lie.
fn ground(svg: &mut String, scale: &Scale, site: &Site, ys: &[f64]) -> fmt::Result {
    let (top, bottom) = (ys[0] - 8.0, ys[ys.len() - 1] + BAR + 14.0);
    writeln!(svg, r##"<rect x="14" y="{top:.1}" width="{:.1}" height="{:.1}" rx="6" fill="#fff3d6"/>"##, scale.end() - 4.0, bottom - top)?;
    for (i, (a, b)) in site.pairs.iter().enumerate() {
        let (upper, lower) = (ys[*a.min(b)] + BAR / 2.0, ys[*a.max(b)] + BAR / 2.0);
        let x = LEFT - 18.0 + 3.0 * (i % 3) as f64;
        let (from, to) = (site.rows[*a].location, site.rows[*b].location);
        writeln!(
            svg,
            r##"<path d="M{x:.1} {:.1}V{:.1}" fill="none" stroke="#c98500" stroke-width="2"><title>crossings {from} and {to} are near</title></path>"##,
            upper + 4.0,
            lower - 4.0
        )?;
    }
    Ok(())
}

fn arrows_across(svg: &mut String, labels: &mut Labels, scale: &Scale, site: &Site, ys: &[f64], facts: &Facts, numbered: bool) -> fmt::Result {
    let row = |location: u16| site.rows.iter().position(|row| row.location == location).unwrap_or(0);
    for known in &site.across {
        let d = &known.d;
        let (from, to) = (row(d.location), row(d.waits_location));
        let middle = |row: usize, at: Visit| {
            let stay = &site.rows[row].stays[site.rows[row].index(at.drone, at.stop)];
            scale.middle(stay, &label(stay))
        };
        let (x, z) = (middle(from, d.first), middle(to, d.waits));
        let down = from < to;
        let edge = |row: usize, under: bool| ys[row] + if under { BAR + 1.0 + below(facts) } else { -1.0 };
        let (y, w) = (edge(from, down), edge(to, !down));
        let bend = (y + w) / 2.0;
        let (stroke, width, mark, words) = look(known);
        let (dashes, fixed) = (dashes(known), if d.fixed { ", fixed" } else { "" });
        writeln!(
            svg,
            r#"<path d="M{x:.1} {y:.1}C{x:.1} {bend:.1} {z:.1} {bend:.1} {z:.1} {w:.1}" fill="none" stroke="{stroke}" stroke-width="{width}"{dashes} marker-end="url(#{mark})">"#
        )?;
        writeln!(
            svg,
            "<title>dependency {} at near crossings: drone {} goes first at {}, drone {} waits at {} ({words}{fixed})</title></path>",
            d.number, d.first.drone, d.location, d.waits.drone, d.waits_location
        )?;
        if numbered || d.turned || known.now {
            // the curve's own points: it leaves and comes in upright
            let along = |t: f64| (x + (z - x) * (3.0 - 2.0 * t) * t * t, y + (w - y) * (1.5 * t * (1.0 - t) + t * t * t) + 3.5);
            number(svg, labels, d.number, stroke, SHARES.map(along))?;
        }
    }
    Ok(())
}
