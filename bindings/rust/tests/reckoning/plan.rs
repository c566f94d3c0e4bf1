//! The plan check and the dependencies.
use super::site::{met_from, Pairs};
use super::{refused, reply, Reply, DEPENDENCIES, LEG};
use std::ops::RangeInclusive;

/// A stop, with "the leg into that stop" in rounds.
#[derive(Clone, Copy, Default, PartialEq, Debug)]
pub struct Stop {
    pub location: usize,
    pub time: usize,
    pub leg: usize,
}

/// "LEG 0 at stop 0 and 1 to 60 rounds elsewhere"; "a `plan=1` text reads as legs of one, 0 at stop 0".
pub fn legs_into(form: usize, k: usize) -> RangeInclusive<usize> {
    match (form, k) {
        (_, 0) => 0..=0,
        (1, _) => 1..=1,
        _ => 1..=LEG,
    }
}

#[derive(Clone, Default, PartialEq, Debug)]
pub struct Plan {
    /// 1 or 2, as its first line has it.
    pub form: usize,
    pub names: Vec<Vec<u8>>,
    pub routes: Vec<Vec<Stop>>,
    /// Planned first drone, its stop, planned second drone, its stop.
    pub dependencies: Vec<[usize; 4]>,
    /// The near locations of the site text that the plan was read with; none without one.
    pub pairs: Pairs,
}

impl Plan {
    /// "A drone occupies a stop's location from its time to the time of its next stop, both included. It occupies its last location for ever."
    fn span(&self, d: usize, k: usize) -> (usize, usize) {
        let route = &self.routes[d];
        (route[k].time, route.get(k + 1).map_or(usize::MAX, |next| next.time))
    }

    /// "Stop 0 has time 0 and a drone's times strictly rise. Neighbouring stops of a drone have different locations", and "each time rises by at least LEG": 7, 8, 12, 9, stop by stop.
    pub fn stop_at_fault(&self) -> Option<Reply> {
        for (d, route) in self.routes.iter().enumerate() {
            for k in 0..route.len() {
                let number = match k {
                    0 if route[0].time != 0 => 7,
                    0 => continue,
                    _ if route[k].time <= route[k - 1].time => 8,
                    _ if route[k].time - route[k - 1].time < route[k].leg => 12,
                    _ if route[k].location == route[k - 1].location => 9,
                    _ => continue,
                };
                return Some(reply(number, &[0, d, k]));
            }
        }
        None
    }

    /// "Two drones collide when two such spans at one location share a timestep", or at near ones: the first pair by lower-numbered drone, its stop, other drone, its stop.
    pub fn collision(&self) -> Option<Reply> {
        for d in 0..self.routes.len() {
            for k in 0..self.routes[d].len() {
                let (met, (from, until)) = (met_from(&self.pairs, self.routes[d][k].location), self.span(d, k));
                for e in d + 1..self.routes.len() {
                    for (l, other) in self.routes[e].iter().enumerate() {
                        if other.time <= until && from <= self.span(e, l).1 && met.contains(&other.location) {
                            return Some(reply(10, &[0, d, k, e, l]));
                        }
                    }
                }
            }
        }
        None
    }

    /// "Two visits of one location by different drones make exactly one dependency", and so do visits of near ones; in rising order.
    pub fn own_dependencies(&self) -> Vec<[usize; 4]> {
        let mut found = Vec::new();
        for (j, first) in self.routes.iter().enumerate() {
            for (s, there) in first.iter().enumerate() {
                let met = met_from(&self.pairs, there.location);
                for (i, second) in self.routes.iter().enumerate().filter(|(i, _)| *i != j) {
                    let later = |(k, here): (usize, &Stop)| (here.time > there.time && met.contains(&here.location)).then_some([j, s, i, k]);
                    found.extend(second.iter().enumerate().filter_map(later));
                }
            }
        }
        found
    }

    /// The same plan at a site with these pairs.
    pub fn at_site(self, pairs: Pairs) -> Plan {
        Plan { pairs, ..self }
    }

    /// The plan with its dependencies, or 7 to 12.
    pub fn checked(mut self) -> Result<Plan, Reply> {
        if let Some(fault) = self.stop_at_fault().or_else(|| self.collision()) {
            return Err(fault);
        }
        self.dependencies = self.own_dependencies();
        if self.dependencies.len() > DEPENDENCIES {
            Err(refused(11))
        } else {
            Ok(self)
        }
    }

    pub fn last(&self, d: usize) -> usize {
        self.routes[d].len() - 1
    }

    /// "Fixed means that the planned first stop is stop 0 or the planned second stop is the last of its drone."
    pub fn fixed(&self, p: usize) -> bool {
        let [_, s, i, k] = self.dependencies[p];
        s == 0 || k == self.last(i)
    }
}
