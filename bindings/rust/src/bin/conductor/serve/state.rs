//! What the page is told, as JSON: the plan once, and after each call what can have changed.
use crate::serve::json::{array, object, string};
use crate::standing::{open, rows, Row, Standing};
use conductor::{Conductor, Drone, SAVED};

fn drone(drone: &Drone) -> String {
    let stops = array(drone.stops.iter().map(|stop| array([u32::from(stop.location), stop.time, u32::from(stop.leg)])));
    object(&[("name", string(drone.name.as_str())), ("stops", stops)])
}

/// The plan as it was read. A dependency is its two drones and stops in the planned order, and whether it is fixed.
pub fn plan(field: &Conductor, name: &str, journaled: bool, run: &str) -> String {
    let dependencies = field.records().iter().map(|record| {
        let fixed = u16::from(record.fixed());
        array([u16::from(record.first_drone), record.first_stop, u16::from(record.second_drone), record.second_stop, fixed])
    });
    object(&[
        ("run", string(run)),
        ("name", string(name)),
        ("form", field.form().to_string()),
        ("journal", journaled.to_string()),
        ("budget", conductor::BUDGET.to_string()),
        ("drones", array(field.drones().map(|d| drone(&d)))),
        ("dependencies", array(dependencies)),
    ])
}

/// A drone's last visited stop, how it stands, and the dependencies that it waits for.
fn row(row: &Row) -> String {
    let (standing, waits) = match &row.standing {
        Standing::Withdrawn => ("withdrawn", &[][..]),
        Standing::Finished => ("finished", &[][..]),
        Standing::UnderWay => ("under way", &[][..]),
        Standing::MayGo => ("may go", &[][..]),
        Standing::Waits(orders) => ("waits", &orders[..]),
    };
    let waits = array(waits.iter().map(|order| order.number));
    object(&[("visited", row.drone.visited.to_string()), ("standing", string(standing)), ("waits", waits)])
}

/// What is now.
pub fn now(field: &Conductor, version: u64, run: &str) -> String {
    let rows = rows(field);
    let standings = array(rows.iter().map(row));
    let drones: Vec<Drone> = rows.into_iter().map(|row| row.drone).collect();
    let turned = array(field.dependencies().filter(|order| order.turned).map(|order| order.number));
    let open = array(field.dependencies().filter(|order| open(order, &drones)).map(|order| order.number));
    object(&[
        ("run", string(run)),
        ("version", version.to_string()),
        ("cost", field.cost().unwrap_or_default().to_string()),
        ("rounds", field.rounds().unwrap_or_default().to_string()),
        ("drones", standings),
        ("turned", turned),
        ("open", open),
    ])
}

/// The tables as they are saved, all of them.
pub fn tables(field: &Conductor) -> Vec<u8> {
    let mut bytes = [0; SAVED];
    field.save(&mut bytes);
    bytes.to_vec()
}
