//! `conductor check`: is the plan taken?
use crate::arguments::Given;
use crate::input::{Plan, Stop};
use crate::words::counted;
use conductor::Conductor;

/// What there is of a plan, in a line.
pub fn summary(field: &Conductor) -> String {
    let stops: usize = field.drones().map(|drone| drone.stops.len()).sum();
    let near = field.near_pairs().count();
    let pairs = if near > 0 { format!(", {}", counted(near, "near pair")) } else { String::new() };
    format!("{}, {}, {}{pairs}", counted(field.drone_count(), "drone"), counted(stops, "stop"), counted(field.dependency_count(), "dependency"))
}

pub fn check(given: &Given) -> Result<(), Stop> {
    let plan = Plan::read(&given.operands[0], given.option("--site"))?;
    crate::print(&format!("{}: taken: {}\n", plan.text.name, summary(&plan.field)))
}
