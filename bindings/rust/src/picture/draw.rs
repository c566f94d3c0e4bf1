//! Places, colours and marks.
use super::plan::{Facts, Known, State, Stay};
use super::BAR;
use std::fmt::{self, Write};
use std::format;
use std::string::{String, ToString};
use std::{vec, vec::Vec};

/// How wide a text is, a little more than it is: digits and small letters of DejaVu Sans.
pub(super) fn wide(text: &str, size: f64) -> f64 {
    0.64 * size * text.chars().count() as f64
}

/// Times to places on the picture. A stay is wide enough for its label, and a long gap is cut short.
pub(super) struct Scale {
    pub(super) times: Vec<u32>,
    places: Vec<f64>,
    left: f64,
}

impl Scale {
    pub(super) fn new<'a>(stays: impl Iterator<Item = &'a Stay> + Clone, left: f64, label: fn(&Stay) -> String) -> Scale {
        let mut times: Vec<u32> = stays.clone().flat_map(|stay| [Some(stay.from), stay.until]).flatten().collect();
        times.sort_unstable();
        times.dedup();
        let mut ending: Vec<(u32, u32, f64)> =
            stays.filter_map(|stay| Some((stay.until?, stay.from, (wide(&label(stay), 12.0) + 7.0).max(BAR + 3.0)))).collect();
        ending.sort_unstable_by_key(|(until, ..)| *until);
        let step = (1800.0 / f64::from(times.last().copied().unwrap_or(1).max(1))).min(26.0);
        let least = (3000.0 / times.len().max(1) as f64).min(6.0);
        let mut scale = Scale { times: vec![], places: vec![], left };
        let mut open = ending.into_iter().peekable();
        for time in times {
            let straight = scale.times.last().map_or(left, |before| scale.at(*before) + (f64::from(time - before) * step).clamp(least, 60.0));
            let mut place = straight;
            while let Some((_, from, width)) = open.next_if(|(until, ..)| *until == time) {
                place = place.max(scale.at(from) + width);
            }
            scale.times.push(time);
            scale.places.push(place);
        }
        scale
    }

    pub(super) fn at(&self, time: u32) -> f64 {
        self.times.binary_search(&time).map_or(self.left, |i| self.places[i])
    }

    pub(super) fn end(&self) -> f64 {
        self.places.last().unwrap_or(&self.left) + 50.0
    }

    pub(super) fn left(&self) -> f64 {
        self.left
    }

    pub(super) fn span(&self, stay: &Stay) -> (f64, f64) {
        (self.at(stay.from), stay.until.map_or(self.end(), |until| self.at(until)))
    }

    // Where a stay has its label and its arrows: in the middle; the last stay of a drone has no end, and there it is near its beginning.
    pub(super) fn middle(&self, stay: &Stay, label: &str) -> f64 {
        let (from, until) = self.span(stay);
        if stay.until.is_some() {
            (from + until) / 2.0
        } else {
            from + (wide(label, 12.0) / 2.0 + 5.0).max(12.0)
        }
    }
}

/// What has its place already, so that no label touches another or a bar.
#[derive(Default)]
pub(super) struct Labels(Vec<[f64; 4]>);

impl Labels {
    pub(super) fn take(&mut self, x: f64, y: f64, width: f64, height: f64) {
        self.0.push([x, y, x + width, y + height]);
    }

    /// The first of some places, each the middle of a text's foot, at which the text touches nothing; it is then taken.
    pub(super) fn place(&mut self, text: &str, size: f64, places: impl IntoIterator<Item = (f64, f64)>) -> Option<(f64, f64)> {
        let half = wide(text, size) / 2.0;
        let free = |(x, y): &(f64, f64)| {
            let own = [x - half - 1.0, y - 0.85 * size, x + half + 1.0, y + 1.5];
            self.0.iter().all(|other| own[0] >= other[2] || own[2] <= other[0] || own[1] >= other[3] || own[3] <= other[1])
        };
        let (x, y) = places.into_iter().find(free)?;
        self.take(x - half, y - 0.8 * size, 2.0 * half, 0.8 * size + 1.0);
        Some((x, y))
    }
}

/// A colour for each drone: neighbours differ in hue and in lightness.
pub(super) fn colour(drone: usize) -> (String, &'static str) {
    let (hue, lightness) = ((210.0 + drone as f64 * 137.508) % 360.0, [0.40, 0.66][drone % 2]);
    let channel = |n: f64| {
        let k = (n + hue / 30.0) % 12.0;
        let value = lightness - 0.7 * f64::min(lightness, 1.0 - lightness) * (k - 3.0).min(9.0 - k).clamp(-1.0, 1.0);
        (value * 255.0).round() as u8
    };
    (format!("#{:02x}{:02x}{:02x}", channel(0.0), channel(8.0), channel(4.0)), ["#fff", "#000"][drone % 2])
}

/// The times that have room, above the rows and, where there are many rows, below them too.
pub(super) fn axis(svg: &mut String, scale: &Scale, y: f64, bottom: f64) -> fmt::Result {
    let lines = if bottom - y > 600.0 { vec![y - 6.0, bottom + 12.0] } else { vec![y - 6.0] };
    let mut free = 0.0;
    for time in &scale.times {
        let (x, half) = (scale.at(*time), wide(&time.to_string(), 12.0) / 2.0);
        if x - half < free {
            continue;
        }
        free = x + half + 8.0;
        writeln!(svg, r##"<line x1="{x:.1}" y1="{y:.1}" x2="{x:.1}" y2="{bottom:.1}" stroke="#e4e4e4"/>"##)?;
        for line in &lines {
            writeln!(svg, r##"<text x="{x:.1}" y="{line:.1}" text-anchor="middle" fill="#555">{time}</text>"##)?;
        }
    }
    lines.iter().try_for_each(|line| writeln!(svg, r##"<text x="{:.1}" y="{line:.1}" text-anchor="end" fill="#555">time</text>"##, scale.left() - 24.0))
}

/// A stay: grey once it is visited, with a black edge while it is held, and a green one where its drone may go there now.
pub(super) fn bar(svg: &mut String, labels: &mut Labels, scale: &Scale, stay: &Stay, y: f64, facts: &Facts, label: &str) -> fmt::Result {
    let ((from, until), (own, own_ink)) = (scale.span(stay), colour(stay.drone));
    let (fill, ink) = if stay.state == State::Visited { ("#d9d9d9", "#777") } else { (own.as_str(), own_ink) };
    let (edge, width) = match stay.state {
        State::Held => ("#000", 2.5),
        State::MayGo => ("#00a33a", 3.0),
        _ => ("#fff", 0.8),
    };
    let opacity = if stay.until.is_none() { 0.75 } else { 1.0 };
    let until_words = stay.until.map_or("for ever".into(), |time| format!("until {time}"));
    let name = facts.drones[stay.drone].name;
    let leg_words = if facts.form == 2 { format!(", after a leg of {}", stay.leg) } else { String::new() };
    let rounds_words = stay.rounds.map_or(String::new(), |rounds| format!(", reached {rounds} rounds from now"));
    writeln!(
        svg,
        r#"<g><title>{name} (drone {}), stop {} at {}: from {} {until_words}{leg_words}; {}{rounds_words}</title>"#,
        stay.drone,
        stay.stop,
        stay.location,
        stay.from,
        stay.state.words()
    )?;
    writeln!(
        svg,
        r#"<rect x="{from:.1}" y="{y:.1}" width="{:.1}" height="{BAR}" rx="3" fill="{fill}" fill-opacity="{opacity}" stroke="{edge}" stroke-width="{width}"/>"#,
        until - from
    )?;
    labels.take(from, y - 1.0, until - from, BAR + 2.0);
    let middle = scale.middle(stay, label);
    if until - from >= wide(label, 12.0) + 3.0 {
        writeln!(svg, r#"<text x="{middle:.1}" y="{:.1}" text-anchor="middle" fill="{ink}">{label}</text>"#, y + 13.0)?;
    }
    if let Some(rounds) = stay.rounds {
        let text = format!("+{rounds}");
        if let Some((x, y)) = labels.place(&text, 9.0, [(middle, y + BAR + 9.5)]) {
            writeln!(svg, r##"<text x="{x:.1}" y="{y:.1}" text-anchor="middle" font-size="9" fill="#1f5fa8">{text}</text>"##)?;
        }
    }
    writeln!(svg, "</g>")
}

/// How the arrow of a dependency looks: stroke, width, mark, and the words for its state.
pub(super) fn look(known: &Known) -> (&'static str, f64, &'static str, &'static str) {
    match (known.met, known.now, known.d.turned) {
        (true, _, true) => ("#e0a8a8", 1.0, "met", "turned, met"),
        (true, _, false) => ("#b0b0b0", 0.8, "met", "planned, met"),
        (false, true, true) => ("#c00000", 3.2, "turned", "turned, waited for now"),
        (false, true, false) => ("#333", 2.6, "planned", "planned, waited for now"),
        (false, false, true) => ("#c00000", 1.6, "turned", "turned"),
        (false, false, false) => ("#333", 1.0, "planned", "planned"),
    }
}

pub(super) fn dashes(known: &Known) -> &'static str {
    if known.d.fixed {
        r#" stroke-dasharray="3 3""#
    } else {
        ""
    }
}

/// The number of a dependency at the first free one of some places; none where there is no room.
pub(super) fn number(svg: &mut String, labels: &mut Labels, number: usize, stroke: &str, places: impl IntoIterator<Item = (f64, f64)>) -> fmt::Result {
    let text = number.to_string();
    if let Some((x, y)) = labels.place(&text, 10.0, places) {
        writeln!(
            svg,
            r##"<text x="{x:.1}" y="{y:.1}" text-anchor="middle" font-size="10" fill="{stroke}" stroke="#fff" stroke-width="3" paint-order="stroke">{text}</text>"##
        )?;
    }
    Ok(())
}

pub(super) fn marker(id: &str, fill: &str) -> String {
    format!(
        r#"<marker id="{id}" viewBox="0 0 8 8" refX="7" refY="4" markerWidth="7" markerHeight="7" markerUnits="userSpaceOnUse" orient="auto"><path d="M0 0L8 4L0 8z" fill="{fill}"/></marker>"#
    )
}
