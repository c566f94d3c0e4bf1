//! The site text of point 7, read and written: "`site=1`, `pairs=N` (0 to 256), lines `near=A,B` with A below B, in strictly rising order by A and then by B, then `end=site`".
use super::text::{number, Lines};
use super::{reply, Reply, LOCATION, PAIRS};

/// The pairs, the lower location of each first, in rising order.
pub type Pairs = Vec<(usize, usize)>;

/// "Two visits collide, or make a dependency, when their locations are equal or near."
pub fn meet(pairs: &Pairs, a: usize, b: usize) -> bool {
    a == b || pairs.contains(&(a.min(b), a.max(b)))
}

/// All locations that one meets: itself, and those near it, whichever of the two a pair names first.
pub fn met_from(pairs: &Pairs, location: usize) -> Vec<usize> {
    let near = |(a, b): &(usize, usize)| (*a == location).then_some(*b).or((*b == location).then_some(*a));
    std::iter::once(location).chain(pairs.iter().filter_map(near)).collect()
}

/// "A below B, in strictly rising order by A and then by B": whether the pair may stand after those before it.
pub fn in_order(before: &[(usize, usize)], pair: (usize, usize)) -> bool {
    pair.0 < pair.1 && before.last().is_none_or(|last| *last < pair)
}

/// The pairs of a site text, or 13 or 14: "a malformed, missing or surplus site line"; "a number out of its range, A not below B or a pair not above the one before, after 13 at one line"; "both carry
/// offsets as 2 and 4 do".
pub fn read(site: &[u8]) -> Result<Pairs, Reply> {
    let mut lines = Lines::of_site(site);
    lines.exactly("site=1")?;
    let (_, count) = lines.number("pairs=", 0, PAIRS)?;
    let mut pairs = Pairs::new();
    for _ in 0..count {
        let pair = near(&mut lines, &pairs)?;
        pairs.push(pair);
    }
    lines.exactly("end=site")?;
    lines.nothing_follows().map(|()| pairs)
}

fn near(lines: &mut Lines, before: &Pairs) -> Result<(usize, usize), Reply> {
    let (start, body) = lines.next("near=")?;
    let numbers: Option<Vec<usize>> = body.split(|b| *b == b',').map(number).collect();
    let Some([a, b]) = numbers.as_deref() else { return Err(reply(13, &[start])) };
    let fits = *a <= LOCATION && *b <= LOCATION && in_order(before, (*a, *b));
    if fits {
        Ok((*a, *b))
    } else {
        Err(reply(14, &[start]))
    }
}

/// The site text of pairs.
pub fn of(pairs: &[(usize, usize)]) -> Vec<u8> {
    let lines: String = pairs.iter().map(|(a, b)| format!("near={a},{b}\n")).collect();
    format!("site=1\npairs={}\n{lines}end=site\n", pairs.len()).into_bytes()
}
