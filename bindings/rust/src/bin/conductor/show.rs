//! `conductor show` and `conductor picture`: a plan, after calls if there are some, in words and drawn.
use crate::arguments::Given;
use crate::calls::Call;
use crate::check::summary;
use crate::input::{self, Plan, Stop, Text};
use crate::standing::{open, rows, Row, Standing};
use crate::words::{self, counted};
use conductor::picture::{svg, Options, Order, Rows};
use conductor::{Conductor, Drone, InForce};
use std::fmt::Write;

/// More of a plan with its calls is not read.
const INPUT: usize = 16 << 20;

/// What stands before the end of a line, and what after it; all before it, where there is no such line.
fn split_after(text: Text, line: &[u8]) -> (Text, Text) {
    let starts = std::iter::once(0).chain(text.bytes.iter().enumerate().filter(|(_, byte)| **byte == b'\n').map(|(i, _)| i + 1));
    let end = starts.into_iter().find(|start| text.bytes[*start..].starts_with(line)).map_or(text.bytes.len(), |start| start + line.len());
    let rest = Text { name: text.name.clone(), bytes: text.bytes[end..].to_vec() };
    (Text { name: text.name, bytes: text.bytes[..end].to_vec() }, rest)
}

/// The plan after the calls that follow it, and those of `--calls`. A site text may stand before the plan.
pub fn plan_after_calls(given: &Given) -> Result<Plan, Stop> {
    let mut text = input::up_to(&given.operands[0], INPUT)?;
    let mut site = given.option("--site").map(|site| input::text(site)).transpose()?;
    if site.is_none() && text.bytes.starts_with(b"site=") {
        let (before, rest) = split_after(text, b"end=site\n");
        (site, text) = (Some(before), rest);
    }
    let (text, follows) = split_after(text, b"end=plan\n");
    let mut plan = Plan::taken(text, site)?;
    made(&mut plan.field, &follows)?;
    if let Some(source) = given.option("--calls") {
        made(&mut plan.field, &input::up_to(source, INPUT)?)?;
    }
    Ok(plan)
}

/// Makes calls line by line. A call that is refused is told and passed over; a line that is no call ends it.
fn made(field: &mut Conductor, calls: &Text) -> Result<(), Stop> {
    for line in calls.bytes.split_inclusive(|byte| *byte == b'\n') {
        let line = line.strip_suffix(b"\n").unwrap_or(line);
        let at = format!("{}: {}", calls.name, line.escape_ascii());
        let call = Call::parse(line).map_err(|malformed| Stop::Refused(format!("{at}: {malformed}")))?;
        let reply = call.make(field);
        if reply.refused() {
            crate::told(&format!("{at}: {}", words::answered(field, &call, &reply)), 0);
        }
    }
    Ok(())
}

/// A stop as the plan text has it.
fn stop(stop: &conductor::Stop, form: u8) -> String {
    if form == 2 {
        format!("{}@{}@{}", stop.location, stop.time, stop.leg)
    } else {
        format!("{}@{}", stop.location, stop.time)
    }
}

fn place(drone: &Drone, stop: usize) -> String {
    drone.stops.get(stop).map_or_else(String::new, |at| format!("stop {stop}, crossing {}", at.location))
}

fn standing(field: &Conductor, row: &Row) -> String {
    let next = place(&row.drone, row.drone.visited + 1);
    match &row.standing {
        Standing::Withdrawn => "withdrawn: it is carried home".into(),
        Standing::Finished => "it stands at its last stop".into(),
        Standing::UnderWay => format!("under way to {next}"),
        Standing::MayGo => format!("may go to {next}"),
        Standing::Waits(orders) => {
            let waits: Vec<String> = orders.iter().map(|order| words::awaited(field, order)).collect();
            format!("must wait before {next}: {}", waits.join("; "))
        }
    }
}

fn drone(out: &mut String, field: &Conductor, row: &Row) -> std::fmt::Result {
    let Drone { number, name, stops, visited, .. } = &row.drone;
    writeln!(out, "drone {number}  {name}")?;
    let route: Vec<String> = stops.iter().map(|s| stop(s, field.form())).collect();
    writeln!(out, "    {}: {}", counted(stops.len(), "stop"), route.join(" "))?;
    writeln!(out, "    at {}; {}", place(&row.drone, *visited), standing(field, row))
}

/// Who goes first and who waits, and what a turn would change or why it is refused.
fn order(out: &mut String, field: &Conductor, order: &InForce, drones: &[Drone]) -> std::fmt::Result {
    let at = |visit: conductor::Visit| format!("{} (stop {})", words::name(field, visit.drone), visit.stop);
    let turned = if order.turned { ", turned" } else { "" };
    let preview = if open(order, drones) {
        match field.preview(order.number) {
            Ok(change) => format!("turning it: {}", words::change(change)),
            Err(refusal) => format!("turning it: {refusal}"),
        }
    } else if order.fixed {
        "fixed".into()
    } else {
        "can no longer be turned".into()
    };
    writeln!(out, "{:>5}  {}: {} goes first, {} waits{turned}; {preview}", order.number, words::crossing(order), at(order.first), at(order.waits))
}

fn shown(field: &Conductor) -> Result<String, std::fmt::Error> {
    let mut out = String::new();
    let rows = rows(field);
    let (cost, rounds) = (field.cost().unwrap_or_default(), field.rounds().unwrap_or_default());
    writeln!(out, "{}", summary(field))?;
    writeln!(out, "cost {cost}; the last drone lands in at most {}", counted(rounds, "round"))?;
    writeln!(out)?;
    for row in &rows {
        drone(&mut out, field, row)?;
    }
    let drones: Vec<Drone> = rows.into_iter().map(|row| row.drone).collect();
    if field.dependency_count() > 0 {
        writeln!(out, "\ndependencies")?;
    }
    for in_force in field.dependencies() {
        order(&mut out, field, &in_force, &drones)?;
    }
    Ok(out)
}

pub fn show(given: &Given) -> Result<(), Stop> {
    let plan = plan_after_calls(given)?;
    crate::print(&shown(&plan.field).map_err(|error| Stop::Cannot(error.to_string()))?)
}

pub fn picture_of(given: &Given) -> Result<(), Stop> {
    let plan = plan_after_calls(given)?;
    let rows = if given.has("--drones") { Rows::Drones } else { Rows::Crossings };
    let order = if given.has("--by-number") { Order::Number } else { Order::Time };
    crate::print(&svg(&plan.field, &Options { rows, order }))
}
