//! An independent reckoning of every call, straight from documents 01 and 02: plain, slow, and nothing of it taken from the wrapper but the layout of a record.
#![allow(dead_code)] // each test program uses its part
pub mod best;
pub mod graph;
pub mod join;
pub mod log;
pub mod plan;
pub mod site;
pub mod small;
pub mod sound;
pub mod text;

use conductor::Dependency;
use graph::Status;

// The figures of document 01's table, as point 12 has raised them.
pub const TEXT: usize = 65_536;
pub const DRONES: usize = 64;
pub const STOPS: usize = 2048;
pub const DEPENDENCIES: usize = 4096;
pub const NAME: usize = 24;
pub const LOCATION: usize = 65_535;
pub const TIME: usize = 1_000_000;
// Those of point 14.
pub const LEG: usize = 60;
// Those of point 7.
pub const PAIRS: usize = 256;

/// How many tables are lent.
pub const LENT: usize = 12;

/// "Each table carries its own full size as a fixed figure": in the order in which the tables are lent.
pub const FULL: [usize; LENT] = [1, 1, 1, DRONES * NAME, DRONES, STOPS, STOPS, STOPS, DRONES, DRONES, DEPENDENCIES, 2 * PAIRS];

/// The lent tables, of any length.
#[derive(Clone, PartialEq, Debug)]
pub struct Tables {
    pub drone_count: Vec<u16>,
    pub dependency_count: Vec<u16>,
    pub form: Vec<u8>,
    pub names: Vec<u8>,
    pub stop_counts: Vec<u16>,
    pub locations: Vec<u16>,
    pub times: Vec<u32>,
    pub legs: Vec<u8>,
    pub visited: Vec<u16>,
    pub drone_flags: Vec<u8>,
    pub dependencies: Vec<Dependency>,
    /// Two numbers for each near pair.
    pub pairs: Vec<u16>,
}

/// A reply: its number and what goes with it, in the order in which the header names it; the rest is 0.
#[derive(Clone, Copy, PartialEq, Eq, Debug)]
pub struct Reply {
    pub number: usize,
    pub values: [i64; 5],
}

pub fn reply(number: usize, values: &[usize]) -> Reply {
    let mut all = [0; 5];
    for (to, from) in all.iter_mut().zip(values) {
        *to = *from as i64;
    }
    Reply { number, values: all }
}

pub fn accepted(value: usize) -> Reply {
    reply(0, &[value])
}

pub fn refused(number: usize) -> Reply {
    reply(number, &[])
}

/// A call, and what it names.
#[derive(Clone, PartialEq, Debug)]
pub enum Call {
    Grant(usize),
    Arrive(usize),
    Withdraw(usize),
    Turn(usize),
    TurnAll(Vec<u16>),
    Preview(usize),
    PreviewAll(Vec<u16>),
    Cost,
    Rounds,
    Press(Option<usize>),
    Write,
}

impl Tables {
    pub fn zeroed(lengths: [usize; LENT]) -> Tables {
        let [a, b, c, d, e, f, g, h, i, j, k, l] = lengths;
        Tables {
            drone_count: vec![0; a],
            dependency_count: vec![0; b],
            form: vec![0; c],
            names: vec![0; d],
            stop_counts: vec![0; e],
            locations: vec![0; f],
            times: vec![0; g],
            legs: vec![0; h],
            visited: vec![0; i],
            drone_flags: vec![0; j],
            dependencies: vec![Dependency::default(); k],
            pairs: vec![0; l],
        }
    }

    pub fn lengths(&self) -> [usize; LENT] {
        let [a, b, c] = [self.drone_count.len(), self.dependency_count.len(), self.form.len()];
        let [d, e] = [self.names.len(), self.stop_counts.len()];
        let [f, g, h] = [self.locations.len(), self.times.len(), self.legs.len()];
        let [i, j, k, l] = [self.visited.len(), self.drone_flags.len(), self.dependencies.len(), self.pairs.len()];
        [a, b, c, d, e, f, g, h, i, j, k, l]
    }

    /// "41 a lent table is below full size"
    pub fn too_small(&self) -> bool {
        self.lengths().iter().zip(FULL).any(|(n, full)| *n < full)
    }

    /// "full sizes zeroed"
    pub fn zero(&mut self) {
        self.drone_count[..FULL[0]].fill(0);
        self.dependency_count[..FULL[1]].fill(0);
        self.form[..FULL[2]].fill(0);
        self.names[..FULL[3]].fill(0);
        self.stop_counts[..FULL[4]].fill(0);
        self.locations[..FULL[5]].fill(0);
        self.times[..FULL[6]].fill(0);
        self.legs[..FULL[7]].fill(0);
        self.visited[..FULL[8]].fill(0);
        self.drone_flags[..FULL[9]].fill(0);
        self.dependencies[..FULL[10]].fill(Dependency::default());
        self.pairs[..FULL[11]].fill(0);
    }

    /// "The tables show the log when each drone's progress and each dependency's bit 0 are as above"; "the tables must also mark the same drones withdrawn".
    pub fn show(&mut self, status: &Status) {
        for (d, place) in status.place.iter().enumerate() {
            self.visited[d] = *place as u16;
            self.drone_flags[d] = status.under_way[d] as u8 | (status.withdrawn[d] as u8) << 1;
        }
        for (p, turned) in status.turned.iter().enumerate() {
            self.dependencies[p].flags = self.dependencies[p].flags & !1 | *turned as u8;
        }
    }

    /// The reading: its reply, and every table after it. "Refused, line by line, after 41 and before the plan's 1: 13 .. 14 .. both .. zero every table." "A plan read without a site text behaves as
    /// before."
    pub fn read(&mut self, site: Option<&[u8]>, given: &[u8]) -> Reply {
        if self.too_small() {
            return refused(41);
        }
        let pairs = match site.map_or(Ok(vec![]), site::read) {
            Ok(pairs) => pairs,
            Err(refusal) => {
                self.zero();
                return refusal;
            }
        };
        if given.len() > TEXT {
            return reply(1, &[TEXT]);
        }
        self.zero();
        let plan = match text::read(given).and_then(|plan| plan.at_site(pairs).checked()) {
            Ok(plan) => plan,
            Err(refusal) => return refusal,
        };
        self.hold(&plan);
        accepted(0)
    }

    fn hold(&mut self, plan: &plan::Plan) {
        self.drone_count[0] = plan.routes.len() as u16;
        self.dependency_count[0] = plan.dependencies.len() as u16;
        self.form[0] = plan.form as u8;
        let mut at = 0;
        for (d, route) in plan.routes.iter().enumerate() {
            self.names[NAME * d..NAME * d + plan.names[d].len()].copy_from_slice(&plan.names[d]);
            self.stop_counts[d] = route.len() as u16;
            for stop in route {
                self.locations[at] = stop.location as u16;
                self.times[at] = stop.time as u32;
                self.legs[at] = stop.leg as u8;
                at += 1;
            }
        }
        for (i, (a, b)) in plan.pairs.iter().enumerate() {
            (self.pairs[2 * i], self.pairs[2 * i + 1]) = (*a as u16, *b as u16);
        }
        for (p, dependency) in plan.dependencies.iter().enumerate() {
            let [j, s, i, k] = *dependency;
            let flags = if plan.fixed(p) { 2 } else { 0 };
            self.dependencies[p] = Dependency { first_stop: s as u16, second_stop: k as u16, first_drone: j as u8, second_drone: i as u8, flags, reserved: 0 };
        }
    }

    /// Any other call: its reply, every table and the buffer after it. Of tables that are not sound it also says by which clause.
    pub fn call(&mut self, call: &Call, buffer: &mut [u8]) -> (Reply, Option<&'static str>) {
        if self.too_small() {
            return (refused(41), None);
        }
        let (plan, mut status) = match sound::sound(self) {
            Ok(found) => found,
            Err(clause) => return (refused(40), Some(clause)),
        };
        if let Call::Write = call {
            return (text::written(&plan, buffer), None);
        }
        let answer = status.call(&plan, call);
        self.show(&status);
        (answer, None)
    }
}
