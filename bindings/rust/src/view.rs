use crate::conductor::Conductor;
use crate::ffi::Dependency;
use crate::refusals::Visit;
use crate::NAME;
#[cfg(feature = "alloc")]
use alloc::vec::Vec;
use core::fmt;

/// A drone's name as the tables hold it: small letters, zeros after the name. Names are compared over all their bytes.
#[derive(Clone, Copy, PartialEq, Eq, PartialOrd, Ord, Hash)]
pub struct Name([u8; NAME]);

impl Name {
    /// The name that a text spells, if it is one: 1 to 24 bytes from a-z, A-Z, 0-9 and hyphen. A capital is the same letter as its small form.
    #[must_use]
    pub fn new(text: &str) -> Option<Name> {
        let bytes = text.as_bytes();
        let fits = (1..=NAME).contains(&bytes.len()) && bytes.iter().all(|b| b.is_ascii_alphanumeric() || *b == b'-');
        fits.then(|| {
            let mut name = [0; NAME];
            name[..bytes.len()].copy_from_slice(bytes);
            name.make_ascii_lowercase();
            Name(name)
        })
    }

    /// The name without the zeros after it.
    #[must_use]
    pub fn as_str(&self) -> &str {
        let length = self.0.iter().position(|b| *b == 0).unwrap_or(NAME);
        core::str::from_utf8(&self.0[..length]).unwrap_or_default()
    }
}

impl fmt::Display for Name {
    fn fmt(&self, f: &mut fmt::Formatter) -> fmt::Result {
        f.pad(self.as_str())
    }
}

impl fmt::Debug for Name {
    fn fmt(&self, f: &mut fmt::Formatter) -> fmt::Result {
        fmt::Debug::fmt(self.as_str(), f)
    }
}

/// One stop of a route.
#[derive(Clone, Copy, Debug, PartialEq, Eq, Hash)]
pub struct Stop {
    /// The crossing.
    pub location: u16,
    /// The planned timestep.
    pub time: u32,
    /// The rounds of the leg into the stop: 0 at stop 0, elsewhere 1 in a plan of form 1 and 1 to [`LEG`](crate::LEG) in one of form 2.
    pub leg: u8,
}

/// A drone with its route and its progress.
#[cfg(feature = "alloc")]
#[derive(Clone, Debug, PartialEq, Eq)]
pub struct Drone {
    /// Its number, from 0.
    pub number: usize,
    /// Its name.
    pub name: Name,
    /// Its stops in order.
    pub stops: Vec<Stop>,
    /// Its last visited stop, 0 at first.
    pub visited: usize,
    /// Whether it is under way to the stop after that; of a withdrawn drone, whether it was.
    pub under_way: bool,
    /// Whether it is withdrawn: carried home. Its progress is what was recorded before.
    pub withdrawn: bool,
}

#[cfg(feature = "alloc")]
impl Drone {
    /// Whether it stands at its last stop.
    #[must_use]
    pub fn finished(&self) -> bool {
        self.visited + 1 >= self.stops.len()
    }

    /// The locations that it holds: that of its last visited stop and, when it is under way, the next one too. A withdrawn drone holds none.
    pub fn holds(&self) -> impl Iterator<Item = u16> + '_ {
        let end = if self.withdrawn { self.visited } else { self.visited + 1 + usize::from(self.under_way) };
        self.stops.iter().take(end).skip(self.visited).map(|stop| stop.location)
    }
}

/// A dependency in the order now in force: the drone of `waits` may enter its stop only after the drone of `first` has visited the stop after that one.
#[derive(Clone, Copy, Debug, PartialEq, Eq, Hash)]
pub struct InForce {
    /// The dependency's number, from 0.
    pub number: usize,
    /// Who goes first, and at which stop.
    pub first: Visit,
    /// Who waits, and at which stop.
    pub waits: Visit,
    /// The crossing of who goes first.
    pub location: u16,
    /// The crossing of who waits: the same, or one that is near it.
    pub waits_location: u16,
    /// Whether it is turned: planned the other way round.
    pub turned: bool,
    /// Whether it is fixed: it cannot be turned.
    pub fixed: bool,
}

impl Dependency {
    /// Bit 0 of the flags.
    #[must_use]
    pub fn turned(&self) -> bool {
        self.flags & 1 != 0
    }

    /// Bit 1 of the flags.
    #[must_use]
    pub fn fixed(&self) -> bool {
        self.flags & 2 != 0
    }
}

impl Conductor {
    /// The form in which the plan was read and is written: 1, or 2 with leg lengths; 0 without a plan.
    #[must_use]
    pub fn form(&self) -> u8 {
        self.plan.form[0]
    }

    /// How many drones the plan has; 0 without a plan.
    #[must_use]
    pub fn drone_count(&self) -> usize {
        usize::from(self.plan.drone_count[0])
    }

    /// How many dependencies the plan has.
    #[must_use]
    pub fn dependency_count(&self) -> usize {
        usize::from(self.plan.dependency_count[0])
    }

    /// The drones in the plan's order.
    #[cfg(feature = "alloc")]
    pub fn drones(&self) -> impl Iterator<Item = Drone> + '_ {
        (0..self.drone_count()).filter_map(|number| self.drone(number))
    }

    /// A drone by its number.
    #[cfg(feature = "alloc")]
    #[must_use]
    pub fn drone(&self, number: usize) -> Option<Drone> {
        (number < self.drone_count()).then(|| Drone {
            number,
            name: self.name_of(number),
            stops: self.stops(number).collect(),
            visited: usize::from(self.visited[number]),
            under_way: self.drone_flags[number] & 1 != 0,
            withdrawn: self.drone_flags[number] & 2 != 0,
        })
    }

    /// The number of the drone of this name.
    #[must_use]
    pub fn drone_named(&self, name: Name) -> Option<usize> {
        (0..self.drone_count()).find(|number| self.name_of(*number) == name)
    }

    /// The dependencies as the table holds them: in the planned order, with their flags.
    #[must_use]
    pub fn records(&self) -> &[Dependency] {
        &self.dependencies[..self.dependency_count()]
    }

    /// The dependencies in the order now in force.
    pub fn dependencies(&self) -> impl Iterator<Item = InForce> + '_ {
        self.records().iter().enumerate().map(|(number, record)| {
            let planned_first = Visit { drone: record.first_drone.into(), stop: record.first_stop.into() };
            let planned_second = Visit { drone: record.second_drone.into(), stop: record.second_stop.into() };
            let (first, waits) = if record.turned() { (planned_second, planned_first) } else { (planned_first, planned_second) };
            let location = |at: Visit| self.plan.locations[self.route(at.drone).start + at.stop];
            let (location, waits_location) = (location(first), location(waits));
            InForce { number, first, waits, location, waits_location, turned: record.turned(), fixed: record.fixed() }
        })
    }

    /// The near pairs of the site text with which the plan was read, rising, the lower location of each first; none without a site text.
    pub fn near_pairs(&self) -> impl Iterator<Item = (u16, u16)> + '_ {
        self.plan.pairs.chunks_exact(2).map(|pair| (pair[0], pair[1])).take_while(|pair| pair.1 > 0)
    }

    /// Whether two locations meet: they are equal or near.
    #[must_use]
    pub fn meets(&self, a: u16, b: u16) -> bool {
        a == b || self.near_pairs().any(|pair| pair == (a.min(b), a.max(b)))
    }

    /// The name of a drone, if there is one of this number.
    #[must_use]
    pub fn name(&self, drone: usize) -> Option<Name> {
        (drone < self.drone_count()).then(|| self.name_of(drone))
    }

    /// The stops of a drone in order; none if there is no drone of this number.
    pub fn stops(&self, drone: usize) -> impl Iterator<Item = Stop> + '_ {
        let route = if drone < self.drone_count() { self.route(drone) } else { 0..0 };
        route.map(|stop| self.stop(stop))
    }

    fn name_of(&self, number: usize) -> Name {
        let mut name = [0; NAME];
        name.copy_from_slice(&self.plan.names[number * NAME..(number + 1) * NAME]);
        Name(name)
    }

    fn stop(&self, stop: usize) -> Stop {
        Stop { location: self.plan.locations[stop], time: self.plan.times[stop], leg: self.plan.legs[stop] }
    }

    // A drone's stops in the tables of locations, times and legs, in which the stops of all drones stand one after another.
    fn route(&self, number: usize) -> core::ops::Range<usize> {
        let count = |d: &u16| usize::from(*d);
        let start = self.plan.stop_counts[..number].iter().map(count).sum();
        start..start + usize::from(self.plan.stop_counts[number])
    }
}

/// The drones' names and progress, and the dependencies; the tables themselves are long.
impl fmt::Debug for Conductor {
    fn fmt(&self, f: &mut fmt::Formatter) -> fmt::Result {
        struct Listed<I>(I);
        impl<I: Iterator<Item: fmt::Debug> + Clone> fmt::Debug for Listed<I> {
            fn fmt(&self, f: &mut fmt::Formatter) -> fmt::Result {
                f.debug_list().entries(self.0.clone()).finish()
            }
        }
        // of damaged tables too, which may count more than there is
        let drones = 0..self.drone_count().min(crate::DRONES);
        let drones = Listed(drones.map(|d| (self.name_of(d), self.plan.stop_counts[d], self.visited[d], self.drone_flags[d])));
        let records = self.dependencies.iter().take(self.dependency_count());
        f.debug_struct("Conductor").field("form", &self.form()).field("drones", &drones).field("dependencies", &Listed(records)).finish_non_exhaustive()
    }
}
