//! `conductor join`: two plans made into one.
use crate::arguments::Given;
use crate::input::{Plan, Stop};
use crate::words;

/// The text that the joined plan would have: the drones of one and then those of the other. Where one plan has legs, the other's are of one, and 0 at each first stop.
fn joined_text(east: &Plan, west: &Plan) -> Vec<u8> {
    let form = east.field.form().max(west.field.form());
    let drones = east.field.drone_count() + west.field.drone_count();
    let mut text = format!("plan={form}\nagents={drones}\n").into_bytes();
    for drone in east.field.drones().chain(west.field.drones()) {
        text.extend(format!("name={}\nstops={}\n", drone.name, drone.stops.len()).bytes());
        for stop in &drone.stops {
            let leg = if form == 2 { format!("@{}", stop.leg) } else { String::new() };
            text.extend(format!("go={}@{}{leg}\n", stop.location, stop.time).bytes());
        }
    }
    text.extend(b"end=plan\n");
    text
}

pub fn join(given: &Given) -> Result<(), Stop> {
    let site = given.option("--site");
    let east = Plan::read(&given.operands[0], site)?;
    let west = Plan::read(&given.operands[1], site)?;
    let both = east.field.join(&west.field).map_err(|refusal| Stop::Refused(words::joining(&refusal, &joined_text(&east, &west))))?;
    let text = both.text().map_err(|refusal| Stop::Refused(refusal.to_string()))?;
    crate::print(&String::from_utf8_lossy(&text))
}

#[cfg(test)]
mod tests {
    use super::*;
    use crate::input::Text;

    fn plan(text: &str) -> Plan {
        let taken = Plan::taken(Text { name: "plan".into(), bytes: text.into() }, None);
        taken.unwrap_or_else(|_| panic!("taken: {text}"))
    }

    #[test]
    fn the_text_is_that_of_the_joined_plan() {
        let east = plan("plan=1\nagents=1\nname=East\nstops=3\ngo=1@0\ngo=5@1\ngo=2@2\nend=plan\n");
        for west in ["plan=1\nagents=1\nname=west\nstops=2\ngo=3@0\ngo=5@4\nend=plan\n", "plan=2\nagents=1\nname=west\nstops=2\ngo=3@0@0\ngo=5@4@4\nend=plan\n"]
        {
            let west = plan(west);
            let both = east.field.join(&west.field).and_then(|both| both.text().map_err(|_| conductor::JoinRefusal::NotSound));
            assert_eq!(both, Ok(joined_text(&east, &west)));
        }
    }
}
