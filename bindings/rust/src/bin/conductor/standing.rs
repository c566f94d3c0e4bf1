//! Where each drone stands now, and whom it waits for.
use conductor::{Conductor, Drone, GrantRefusal, InForce};

/// What a grant of the drone would now answer, and why.
#[derive(Clone, Debug, PartialEq, Eq)]
pub enum Standing {
    Withdrawn,
    Finished,
    UnderWay,
    MayGo,
    /// The dependencies into its next stop that are not met, rising; the first is the one that a 23 names.
    Waits(Vec<InForce>),
}

pub struct Row {
    pub drone: Drone,
    pub standing: Standing,
}

/// The drones in the plan's order. What each may do is what the grant itself says, asked on a copy: a grant of one drone changes no other's.
pub fn rows(field: &Conductor) -> Vec<Row> {
    let drones: Vec<Drone> = field.drones().collect();
    let orders: Vec<InForce> = field.dependencies().filter(|order| unmet(order, &drones)).collect();
    let mut copy = field.clone();
    let standings: Vec<Standing> = drones.iter().map(|drone| standing(&mut copy, drone, &orders)).collect();
    drones.into_iter().zip(standings).map(|(drone, standing)| Row { drone, standing }).collect()
}

fn standing(copy: &mut Conductor, drone: &Drone, unmet: &[InForce]) -> Standing {
    match copy.grant(drone.number) {
        Ok(()) => Standing::MayGo,
        Err(GrantRefusal::Finished) => Standing::Finished,
        Err(GrantRefusal::UnderWay) => Standing::UnderWay,
        Err(GrantRefusal::MustWait(_)) => Standing::Waits(unmet.iter().filter(|order| order.waits.drone == drone.number).copied().collect()),
        Err(GrantRefusal::Withdrawn | GrantRefusal::NoSuchDrone | GrantRefusal::NotSound | GrantRefusal::TablesTooSmall) => Standing::Withdrawn,
    }
}

/// Whether the order holds the waiting drone back now: it is into that drone's next stop, and the drone that goes first is not yet beyond the crossing.
fn unmet(order: &InForce, drones: &[Drone]) -> bool {
    let (Some(first), Some(waits)) = (drones.get(order.first.drone), drones.get(order.waits.drone)) else {
        return false;
    };
    order.waits.stop == waits.visited + 1 && !first.withdrawn && first.visited <= order.first.stop
}

/// Whether the order passes what a turn asks of it by itself (31, 32 and 35); a ring, 34, is for the preview to say.
pub fn open(order: &InForce, drones: &[Drone]) -> bool {
    let entered = |drone: &Drone, stop: usize| stop <= drone.visited || (drone.under_way && stop == drone.visited + 1);
    match (drones.get(order.first.drone), drones.get(order.waits.drone)) {
        (Some(first), Some(waits)) => !order.fixed && !first.withdrawn && !waits.withdrawn && !entered(first, order.first.stop),
        _ => false,
    }
}

#[cfg(test)]
mod tests {
    use super::*;
    use conductor::TurnRefusal;

    /// Six drones that pass four crossings one after the other.
    fn plan() -> String {
        let mut text = String::from("plan=1\nagents=6\n");
        for d in 0..6 {
            text += &format!("name=d{d}\nstops=9\n");
            let place = |k: usize| if k % 2 == 1 { k } else { 100 + 10 * d + k };
            (0..9).for_each(|k| text += &format!("go={}@{}\n", place(k), if k == 0 { 0 } else { 10 * k + 12 * d }));
        }
        text + "end=plan\n"
    }

    /// What is shown is what the calls say: of every drone and of every dependency, after each of many calls.
    fn agrees(field: &Conductor) {
        let drones: Vec<Drone> = field.drones().collect();
        for row in rows(field) {
            let says = field.clone().grant(row.drone.number);
            let named = match &row.standing {
                Standing::Waits(orders) => Some(orders.first().map(|order| order.number)),
                _ => None,
            };
            let lowest = match says {
                Err(GrantRefusal::MustWait(dependency)) => Some(Some(dependency)),
                _ => None,
            };
            assert_eq!(named, lowest, "drone {}", row.drone.number);
            assert_eq!(says.is_ok(), row.standing == Standing::MayGo);
        }
        for order in field.dependencies() {
            let shut = matches!(field.preview(order.number), Err(TurnRefusal::Fixed | TurnRefusal::Entered | TurnRefusal::Withdrawn));
            assert_eq!(open(&order, &drones), !shut, "dependency {}", order.number);
        }
    }

    #[test]
    fn what_is_shown_is_what_the_calls_say() {
        let mut field = Box::new(Conductor::new());
        assert!(field.read(plan().as_bytes()).is_ok());
        let mut random = 88_172_645_463_325_252_u64;
        for step in 0..200 {
            random ^= random << 13;
            random ^= random >> 7;
            random ^= random << 17;
            let n = (random >> 20) as usize;
            let _ = match random % 8 {
                0..=2 => field.grant(n % 6).is_ok(),
                3..=4 => field.arrive(n % 6).is_ok(),
                5..=6 => field.turn(n % field.dependency_count()).is_ok(),
                _ => step % 50 == 7 && field.withdraw(n % 6).is_ok(),
            };
            agrees(&field);
        }
    }
}
