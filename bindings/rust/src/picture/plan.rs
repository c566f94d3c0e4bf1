//! What is to be drawn: the stays and dependencies with their states, and the rounds.
use super::Order;
use crate::{Conductor, Drone, InForce};
use std::collections::{BTreeMap, BTreeSet};
use std::format;
use std::string::{String, ToString};
use std::{vec, vec::Vec};

#[derive(Clone, Copy, PartialEq)]
pub(super) enum State {
    Visited,
    Held,
    MayGo,
    ToCome,
}

impl State {
    pub(super) fn words(self) -> &'static str {
        match self {
            State::Visited => "visited",
            State::Held => "held now",
            State::MayGo => "its drone may go there now",
            State::ToCome => "to come",
        }
    }
}

pub(super) struct Stay {
    pub(super) drone: usize,
    pub(super) stop: usize,
    pub(super) location: u16,
    pub(super) from: u32,
    pub(super) until: Option<u32>,
    pub(super) leg: u8,
    pub(super) state: State,
    /// The rounds from now until it is reached, where they are shown.
    pub(super) rounds: Option<usize>,
}

/// A dependency: whether it is met, whether its drone waits for it now, and whether it is the one of those that is met last.
#[derive(Clone, Copy)]
pub(super) struct Known {
    pub(super) d: InForce,
    pub(super) met: bool,
    awaited: bool,
    pub(super) now: bool,
}

pub(super) struct Facts {
    pub(super) drones: Vec<Drone>,
    pub(super) dependencies: Vec<Known>,
    pub(super) form: u8,
    pub(super) with_rounds: bool,
    rounds: Vec<Vec<usize>>,
}

impl Facts {
    pub(super) fn new(field: &Conductor) -> Facts {
        // tables without a plan count no drones; what is not sound is not drawn
        let drones: Vec<Drone> = if field.cost().is_ok() { field.drones().collect() } else { vec![] };
        let known = |d: InForce| {
            let (first, waits) = (&drones[d.first.drone], &drones[d.waits.drone]);
            let met = first.withdrawn || waits.withdrawn || first.visited > d.first.stop;
            Known { d, met, awaited: !met && !waits.under_way && d.waits.stop == waits.visited + 1, now: false }
        };
        let mut dependencies: Vec<Known> = if drones.is_empty() { vec![] } else { field.dependencies().map(known).collect() };
        let rounds = reached(&drones, &dependencies);
        for drone in &drones {
            let last = |known: &&mut Known| (rounds[known.d.first.drone].get(known.d.first.stop + 1).copied(), std::cmp::Reverse(known.d.number));
            if let Some(known) = dependencies.iter_mut().filter(|known| known.awaited && known.d.waits.drone == drone.number).max_by_key(last) {
                known.now = true;
            }
        }
        let with_rounds = dependencies.iter().any(|known| known.d.turned) || late(&drones);
        Facts { drones, dependencies, form: field.form(), with_rounds, rounds }
    }

    /// The dependencies for which a drone waits now.
    pub(super) fn waits(&self, drone: usize) -> impl Iterator<Item = &Known> {
        self.dependencies.iter().filter(move |known| known.awaited && known.d.waits.drone == drone)
    }

    pub(super) fn may_go(&self, drone: &Drone) -> bool {
        !drone.withdrawn && !drone.under_way && !drone.finished() && self.waits(drone.number).next().is_none()
    }

    pub(super) fn stays<'a>(&'a self, drone: &'a Drone) -> impl Iterator<Item = Stay> + 'a {
        let may_go = self.may_go(drone);
        drone.stops.iter().enumerate().map(move |(k, stop)| {
            let state = match k {
                _ if !drone.withdrawn && (k == drone.visited || (drone.under_way && k == drone.visited + 1)) => State::Held,
                _ if k <= drone.visited => State::Visited,
                _ if may_go && k == drone.visited + 1 => State::MayGo,
                _ => State::ToCome,
            };
            let rounds = (self.with_rounds && !drone.withdrawn && k > drone.visited).then(|| self.rounds[drone.number][k]);
            let until = drone.stops.get(k + 1).map(|next| next.time);
            Stay { drone: drone.number, stop: k, location: stop.location, from: stop.time, until, leg: stop.leg, state, rounds }
        })
    }

    /// What a drone does, or for whom it waits.
    pub(super) fn words(&self, drone: &Drone) -> String {
        let next = drone.stops.get(drone.visited + 1).map_or(0, |stop| stop.location);
        if drone.withdrawn {
            return "× carried home".into();
        }
        if drone.finished() {
            return "✓ at its last stop".into();
        }
        if drone.under_way {
            return format!("→ under way to {next}");
        }
        let mut others: Vec<usize> = self.waits(drone.number).map(|known| known.d.first.drone).collect();
        others.sort_unstable();
        others.dedup();
        match others[..] {
            [] => format!("▸ may go to {next}"),
            [one] => format!("waits at {next} for {}", self.drones[one].name),
            _ => {
                let more = if others.len() > 5 { format!(" and {} more", others.len() - 5) } else { String::new() };
                let named: Vec<String> = others.iter().take(5).map(ToString::to_string).collect();
                format!("waits at {next} for {}{more}", named.join(", "))
            }
        }
    }
}

/// The rounds from now until each stop is reached, if nobody is delayed: as many as its leg has after the last stop that it awaits, its own drone's stop before it included. Nothing is awaited of a withdrawn
/// drone, and 0 stands for what is visited.
fn reached(drones: &[Drone], dependencies: &[Known]) -> Vec<Vec<usize>> {
    let mut rounds: Vec<Vec<usize>> = drones.iter().map(|drone| vec![0; drone.stops.len()]).collect();
    let mut into: BTreeMap<(usize, usize), Vec<(usize, usize)>> = BTreeMap::new();
    for known in dependencies.iter().filter(|known| !known.met) {
        into.entry((known.d.waits.drone, known.d.waits.stop)).or_default().push((known.d.first.drone, known.d.first.stop + 1));
    }
    // the order has no ring, so that this ends
    let mut changed = true;
    while changed {
        changed = false;
        for drone in drones.iter().filter(|drone| !drone.withdrawn) {
            for k in drone.visited + 1..drone.stops.len() {
                let awaited = into.get(&(drone.number, k)).into_iter().flatten().map(|(other, stop)| rounds[*other].get(*stop).copied().unwrap_or(0));
                let at = awaited.fold(rounds[drone.number][k - 1], usize::max) + usize::from(drone.stops[k].leg);
                changed |= rounds[drone.number][k] != at;
                rounds[drone.number][k] = at;
            }
        }
    }
    rounds
}

/// Whether somebody has reached a stop that was planned for later than the next one of somebody else.
fn late(drones: &[Drone]) -> bool {
    let flying = || drones.iter().filter(|drone| !drone.withdrawn);
    let reached = flying().map(|drone| drone.stops[drone.visited].time).max();
    let next = flying().filter_map(|drone| drone.stops.get(drone.visited + 1)).map(|stop| stop.time).min();
    matches!((reached, next), (Some(reached), Some(next)) if reached > next)
}

/// A crossing with the dependencies within it.
pub(super) struct Row {
    pub(super) location: u16,
    pub(super) stays: Vec<Stay>,
    pub(super) dependencies: Vec<Known>,
}

/// Crossings that near pairs connect, neighbours as far as can be, with the dependencies from one to another; a crossing that is near to no other is a site of its own.
pub(super) struct Site {
    pub(super) rows: Vec<Row>,
    pub(super) pairs: Vec<(usize, usize)>,
    pub(super) across: Vec<Known>,
}

impl Row {
    pub(super) fn index(&self, drone: usize, stop: usize) -> usize {
        self.stays.iter().position(|stay| (stay.drone, stay.stop) == (drone, stop)).unwrap_or(0)
    }

    // How many stays lie between the two of a dependency, and one more.
    pub(super) fn reach(&self, d: &InForce) -> usize {
        self.index(d.first.drone, d.first.stop).abs_diff(self.index(d.waits.drone, d.waits.stop))
    }
}

/// The shared crossings, those of a site together, by the time at which each site is first visited or by the least number in it.
pub(super) fn sites(field: &Conductor, facts: &Facts, order: Order) -> Vec<Site> {
    let mut by_location: BTreeMap<u16, Row> = BTreeMap::new();
    for stay in facts.drones.iter().flat_map(|drone| facts.stays(drone)) {
        let location = stay.location;
        by_location.entry(location).or_insert(Row { location, stays: vec![], dependencies: vec![] }).stays.push(stay);
    }
    let (within, across): (Vec<Known>, Vec<Known>) = facts.dependencies.iter().partition(|known| known.d.location == known.d.waits_location);
    let shared: BTreeSet<u16> = facts.dependencies.iter().flat_map(|known| [known.d.location, known.d.waits_location]).collect();
    for known in within {
        by_location.entry(known.d.location).and_modify(|row| row.dependencies.push(known));
    }
    by_location.retain(|location, _| shared.contains(location));
    by_location.values_mut().for_each(|row| row.stays.sort_by_key(|stay| stay.from));
    let near: Vec<(u16, u16)> = field.near_pairs().filter(|(a, b)| shared.contains(a) && shared.contains(b)).collect();
    let site = |locations: Vec<u16>| {
        let place = |location: u16| locations.iter().position(|l| *l == location);
        let pairs = near.iter().filter_map(|(a, b)| Some((place(*a)?, place(*b)?))).collect();
        let across = across.iter().filter(|known| locations.contains(&known.d.location)).copied().collect();
        Site { rows: locations.iter().filter_map(|l| by_location.remove(l)).collect(), pairs, across }
    };
    let mut sites: Vec<Site> = grounds(&shared, &near).into_iter().map(site).collect();
    match order {
        Order::Time => sites.sort_by_key(|site| site.rows.iter().map(|row| row.stays[0].from).min()),
        Order::Number => sites.sort_by_key(|site| site.rows.iter().map(|row| row.location).min()),
    }
    sites
}

/// The locations that pairs connect, each in an order of its own: from one with few near ones to one that is near it and not yet there, and where there is none, on from an earlier one.
fn grounds(shared: &BTreeSet<u16>, near: &[(u16, u16)]) -> Vec<Vec<u16>> {
    let near_to = |l: u16| near.iter().filter_map(move |(a, b)| if *a == l { Some(*b) } else { (*b == l).then_some(*a) });
    let mut left = shared.clone();
    let mut grounds = Vec::new();
    let mut by_few: Vec<u16> = shared.iter().copied().collect();
    by_few.sort_by_key(|l| near_to(*l).count());
    for first in by_few {
        let (mut order, mut open) = (Vec::new(), vec![first]);
        while let Some(l) = open.pop() {
            if left.remove(&l) {
                order.push(l);
                let mut more: Vec<u16> = near_to(l).filter(|other| left.contains(other)).collect();
                more.sort_by_key(|other| std::cmp::Reverse((near_to(*other).count(), *other)));
                open.extend(more);
            }
        }
        if !order.is_empty() {
            grounds.push(order);
        }
    }
    grounds
}

#[cfg(test)]
mod tests {
    use super::*;
    use crate::{small_plan, SMALL_PLANS};

    // The rounds of the last stops, added up, are the cost, and the most of them the rounds to fly: of every small plan, with each turn that is taken, after each grant and arrival.
    #[test]
    fn rounds_are_those_of_the_calls() {
        let mut text = [0; 128];
        for number in 0..SMALL_PLANS {
            let length = small_plan(number, &mut text).unwrap();
            let mut field = Conductor::new();
            field.read(&text[..length]).unwrap();
            for step in 0..12 {
                let _ = (field.turn(step % 3), field.grant(step % 2), step % 3 == 0 && field.arrive(step % 2).is_ok(), step == 9 && field.withdraw(1).is_ok());
                let facts = Facts::new(&field);
                let last = facts.drones.iter().filter(|drone| !drone.withdrawn).map(|drone| facts.rounds[drone.number][drone.stops.len() - 1]);
                let last: Vec<usize> = last.collect();
                assert_eq!(
                    (last.iter().sum(), last.iter().copied().max().unwrap_or(0)),
                    (field.cost().unwrap(), field.rounds().unwrap()),
                    "small plan {number}, step {step}"
                );
                for drone in &facts.drones {
                    assert_eq!(facts.may_go(drone), field.clone().grant(drone.number).is_ok(), "small plan {number}, step {step}, drone {}", drone.number);
                }
            }
        }
    }
}
