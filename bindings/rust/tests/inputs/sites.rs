//! Site texts, whole and damaged, and the pairs in them: near locations where the plans go, and others where nobody comes.
use super::texts::line_starts;
use super::Random;
use crate::reckoning::plan::Plan;
use crate::reckoning::site::{of, Pairs};
use crate::reckoning::{LOCATION, PAIRS};
use std::collections::BTreeSet;

/// A pair of two different locations, the lower first.
fn pair(a: usize, b: usize) -> Option<(usize, usize)> {
    (a != b).then_some((a.min(b), a.max(b)))
}

/// 256 pairs in a row, one location near 256, all pairs among 23 locations: the shapes that are most work.
pub const SHAPES: [fn() -> Pairs; 3] = [
    || (0..PAIRS).map(|a| (a, a + 1)).collect(),
    || (1..=PAIRS).map(|b| (0, b)).collect(),
    || (0..23).flat_map(|a| (a + 1..23).map(move |b| (a, b))).collect(),
];

/// Pairs where nobody comes, a few or as many as there may be with those that are there.
fn elsewhere(r: &mut Random, pairs: &mut BTreeSet<(usize, usize)>) {
    let most = r.choice(&[1, 4, PAIRS]).max(pairs.len());
    while pairs.len() < most {
        let a = if r.one_in(4) { r.below(LOCATION) } else { 300 + r.below(1000) };
        pairs.insert((a, r.between(a + 1, LOCATION)));
    }
}

/// Near locations among the first `places`, which all drones go over, and those that are drones' own; for one plan in two there are none.
pub fn pairs(r: &mut Random, places: usize) -> Pairs {
    let mut pairs = BTreeSet::new();
    let (from, many) = (r.below(places), r.between(2, 5).min(places));
    match r.below(12) {
        0..=5 => return vec![],
        6 => pairs.extend((from..places - 1).map(|a| (a, a + 1))),
        7 => pairs.extend((0..places).filter_map(|b| pair(from, b))),
        8 => pairs.extend((0..many).flat_map(|a| (a + 1..many).map(move |b| (a, b)))),
        _ => pairs.extend((0..r.between(1, 5)).filter_map(|_| pair(r.below(places), r.below(places)))),
    }
    if r.one_in(5) {
        let own = if r.one_in(4) { 100 } else { 200 } + r.below(4);
        pairs.extend(pair(r.below(places), own));
    }
    if r.one_in(6) {
        elsewhere(r, &mut pairs);
    }
    pairs.into_iter().collect()
}

/// The plan's pairs, and two locations to which its drones go.
pub fn with_two_visited(r: &mut Random, plan: &Plan) -> Pairs {
    let visited: Vec<usize> = plan.routes.iter().flatten().map(|stop| stop.location).collect();
    let more = pair(r.choice(&visited), r.choice(&visited)).filter(|_| plan.pairs.len() < PAIRS);
    plan.pairs.iter().copied().chain(more).collect::<BTreeSet<_>>().into_iter().collect()
}

/// The site text that a plan is read with: that of its pairs, and where it has none mostly no text.
pub fn site_of(r: &mut Random, plan: &Plan) -> Option<Vec<u8>> {
    (!plan.pairs.is_empty() || r.one_in(8)).then(|| of(&plan.pairs))
}

/// One byte or one line of a site text is damaged, or all of it is gone.
pub fn damaged(r: &mut Random, site: &mut Vec<u8>) {
    if site.is_empty() {
        return;
    }
    let i = r.below(site.len());
    match r.below(16) {
        0 => drop(site.remove(i)),
        1 => site[i] = r.choice(b"0123456789=,\nanespZ \0\xff"),
        2 => site.insert(i, r.choice(b"0123456789=,\nanZ")),
        3 => site.truncate(i),
        4 => site.extend_from_slice(r.choice(&[&b"\n"[..], b"end=site\n", b"x", b"near=1,2\n", b"plan=1\n"])),
        5 => site.clear(),
        _ => damaged_line(r, site),
    }
}

/// A number as a line may have it: one in its range or the first that is not, and some that are none.
fn number(r: &mut Random, near: usize) -> Vec<u8> {
    let numbers = [near, near + 1, near.saturating_sub(1), 0, 1, 65_534, 65_535, 65_536, 9_999_999, 10_000_000, 99_999_999];
    match r.below(16) {
        0 => format!("0{near}").into_bytes(),
        1 => r.choice(&[&b""[..], b"00", b"+1", b"-1", b"1 ", b"0x1", b"65535 "]).to_vec(),
        _ => r.choice(&numbers).to_string().into_bytes(),
    }
}

fn damaged_line(r: &mut Random, site: &mut Vec<u8>) {
    let starts = line_starts(site);
    let start = r.choice(&starts);
    let end = site[start..].iter().position(|b| *b == b'\n').map_or(site.len(), |n| start + n + 1);
    let line = site[start..end].to_vec();
    let values: Vec<usize> = line.split(|b| !b.is_ascii_digit()).filter_map(|n| std::str::from_utf8(n).ok()?.parse().ok()).collect();
    let new = match (&line[..line.len().min(5)], &values[..]) {
        (b"near=", [a, b]) => match r.below(8) {
            0 => format!("near={a},{a}\n").into_bytes(),
            1 => format!("near={b},{a}\n").into_bytes(),
            2 => format!("near={b},{b}\n").into_bytes(),
            3 => format!("near={a}\n").into_bytes(),
            4 => format!("near={a},{b},{b}\n").into_bytes(),
            5 => [b"near=", &number(r, *b)[..], b",", &number(r, *a), b"\n"].concat(),
            6 => [b"near=", &number(r, *a)[..], format!(",{b}\n").as_bytes()].concat(),
            _ => [format!("near={a},").as_bytes(), &number(r, *b)[..], b"\n"].concat(),
        },
        (b"pairs", _) => {
            let count = values.first().copied().unwrap_or(0);
            let counts = [count + 1, count.saturating_sub(1), 0, 255, 256, 257, 65_536];
            let other = if r.one_in(3) { number(r, count) } else { r.choice(&counts).to_string().into_bytes() };
            [b"pairs=", &other[..], b"\n"].concat()
        }
        _ => r.choice(&[&b"site=1\n"[..], b"site=2\n", b"site=01\n", b"Site=1\n", b"end=plan\n", b"end=site\n", b"end=site \n", b"near=0,1\n"]).to_vec(),
    };
    // a line is missing, or stands twice, or another stands before it, or two stand in the other order; or it is another
    match r.below(8) {
        0 => drop(site.drain(start..end)),
        1 => drop(site.splice(start..start, line)),
        2 => drop(site.splice(start..start, new)),
        3 if start > 0 => {
            let before = starts.iter().rev().find(|s| **s < start).copied().unwrap_or(0);
            let earlier = site[before..start].to_vec();
            drop(site.splice(before..end, [line, earlier].concat()));
        }
        _ => drop(site.splice(start..end, new)),
    }
}
