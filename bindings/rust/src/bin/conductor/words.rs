//! Refusals and answers in words: a line by its number and by itself, a drone by its whole name.
use crate::calls::{Call, Refusal, Reply};
use crate::input::Text;
use conductor::{meaning, Conductor, InForce, JoinRefusal, ReadRefusal, Visit};

/// More of a line than this is not shown; no line of a plan that follows the rules is longer.
const SHOWN: usize = 400;

/// A line of a text by its offset: its number, from 1, and the line as it is, with what is not plain ASCII escaped.
pub fn line_at(text: &[u8], offset: usize) -> String {
    let offset = offset.min(text.len());
    let number = 1 + text[..offset].iter().filter(|byte| **byte == b'\n').count();
    if offset == text.len() {
        return format!("line {number} is missing: the text ends before it");
    }
    let rest = &text[offset..];
    let length = rest.iter().position(|byte| *byte == b'\n');
    let line = &rest[..length.unwrap_or(rest.len())];
    let more = if line.len() > SHOWN { format!(" and {} bytes more", line.len() - SHOWN) } else { String::new() };
    let open = if length.is_none() { " (the text ends in it, without a line feed)" } else { "" };
    format!("line {number}: {}{more}{open}", line[..line.len().min(SHOWN)].escape_ascii())
}

/// What a plan text says of a drone's stop, once all its lines have passed: the name, and the line of the stop.
fn visit_in(text: &[u8], visit: Visit) -> String {
    let mut drone = None;
    let mut name = "";
    let mut first = 0;
    for (i, line) in text.split(|byte| *byte == b'\n').enumerate() {
        if let Some(rest) = line.strip_prefix(b"name=") {
            drone = Some(drone.map_or(0, |d: usize| d + 1));
            name = std::str::from_utf8(rest).unwrap_or_default();
            first = i + 2;
        } else if drone == Some(visit.drone) && i == first + visit.stop {
            return format!("{name} at its stop {}, line {}: {}", visit.stop, i + 1, line.escape_ascii());
        }
    }
    visit.to_string()
}

fn with_number(number: usize) -> String {
    format!("refused with {number}: {}", meaning(number).unwrap_or_default())
}

fn also(first: String, second: String) -> String {
    format!("    {first}\n    {second}")
}

/// Why a plan was not taken, with the line at fault, and drones by their names.
pub fn reading(refusal: &ReadRefusal, plan: &Text, site: Option<&Text>) -> String {
    let of_site = matches!(refusal, ReadRefusal::SiteForm { .. } | ReadRefusal::SiteRange { .. });
    let text = site.filter(|_| of_site).unwrap_or(plan);
    let head = format!("{}: {}", text.name, with_number(refusal.number()));
    let at = |visit: &Visit| visit_in(&text.bytes, *visit);
    match refusal {
        ReadRefusal::TooLong { .. } | ReadRefusal::TooManyDependencies | ReadRefusal::TablesTooSmall => head,
        ReadRefusal::StartsLate(visit) | ReadRefusal::NotRising(visit) | ReadRefusal::LegTooLong(visit) | ReadRefusal::SameLocation(visit) => {
            format!("{head}\n    {}", at(visit))
        }
        ReadRefusal::Collision(visit, other) => format!("{head}\n{}", also(at(visit), at(other))),
        _ => format!("{head}\n    {}", line_at(&text.bytes, refusal.offset().unwrap_or(0))),
    }
}

/// Why two plans were not joined. The line is that of the joined text.
pub fn joining(refusal: &JoinRefusal, joined: &[u8]) -> String {
    let head = with_number(refusal.number());
    match refusal {
        JoinRefusal::Collision(visit, other) => format!("{head}\n{}", also(visit_in(joined, *visit), visit_in(joined, *other))),
        JoinRefusal::TooManyDrones { offset } | JoinRefusal::SameName { offset } | JoinRefusal::TooManyStops { offset } => {
            format!("{head}\n    of the joined text {}", line_at(joined, *offset))
        }
        _ => head,
    }
}

/// A drone's name, or what stands for it where there is none.
pub fn name(field: &Conductor, drone: usize) -> String {
    field.drone(drone).map_or_else(|| format!("drone {drone}"), |drone| drone.name.to_string())
}

fn order(field: &Conductor, dependency: usize) -> Option<InForce> {
    field.dependencies().nth(dependency)
}

/// Where the two drones of an order meet.
pub fn crossing(order: &InForce) -> String {
    if order.location == order.waits_location {
        format!("crossing {}", order.location)
    } else {
        format!("the near crossings {} and {}", order.location, order.waits_location)
    }
}

/// An order in force: who goes first, who waits.
pub fn in_force(field: &Conductor, order: &InForce) -> String {
    format!("at {} {} goes first, {} waits", crossing(order), name(field, order.first.drone), name(field, order.waits.drone))
}

/// What a drone waits for.
pub fn awaited(field: &Conductor, order: &InForce) -> String {
    let next = order.first.stop + 1;
    let place = field.drone(order.first.drone).and_then(|drone| drone.stops.get(next).map(|stop| format!(", crossing {}", stop.location)));
    format!(
        "{} goes first at {} and has not reached its stop {next}{} (dependency {})",
        name(field, order.first.drone),
        crossing(order),
        place.unwrap_or_default(),
        order.number
    )
}

/// By how much the cost changes.
pub fn change(rounds: i64) -> String {
    match rounds {
        0 => "no round more or less".into(),
        -1 => "1 round less".into(),
        1 => "1 round more".into(),
        less if less < 0 => format!("{} rounds less", -less),
        more => format!("{more} rounds more"),
    }
}

pub fn counted(count: usize, one: &str) -> String {
    let plural = one.strip_suffix('y').map_or_else(|| format!("{one}s"), |stem| format!("{stem}ies"));
    if count == 1 {
        format!("1 {one}")
    } else {
        format!("{count} {plural}")
    }
}

fn names(field: &Conductor, drones: impl Iterator<Item = usize>) -> String {
    drones.map(|drone| name(field, drone)).collect::<Vec<String>>().join(", ")
}

/// A refused grant, arrival, withdrawal or press of one drone.
fn refused_drone(field: &Conductor, drone: usize, refusal: &Refusal) -> String {
    let who = name(field, drone);
    match refusal.number {
        20 => format!("there is no drone {drone}; the last one is {}", field.drone_count().saturating_sub(1)),
        21 => format!("{who} stands at its last stop"),
        22 => format!("{who} is already under way"),
        23 => match refusal.detail.and_then(|dependency| order(field, dependency)) {
            Some(order) => format!("{who} must wait: {}", awaited(field, &order)),
            None => format!("{who} must wait"),
        },
        24 => format!("{who} is not under way"),
        25 => format!("{who} is withdrawn"),
        other => meaning(other).unwrap_or_default().into(),
    }
}

/// A refused turn or preview of one dependency, or of the first one of a list that does not pass.
fn refused_turn(field: &Conductor, dependency: usize, number: usize) -> String {
    let Some(order) = order(field, dependency) else {
        return format!("there is no dependency {dependency}; there are {}", field.dependency_count());
    };
    let who = in_force(field, &order);
    let withdrawn = [order.first.drone, order.waits.drone].into_iter().filter(|drone| field.drone(*drone).is_some_and(|drone| drone.withdrawn));
    match number {
        31 => format!("dependency {dependency} is fixed, {who}: it begins at a first stop or ends at a last one"),
        32 => format!("dependency {dependency}, {who}: {} has already entered the crossing", name(field, order.first.drone)),
        35 => format!("dependency {dependency}, {who}: {} is withdrawn", names(field, withdrawn)),
        34 => format!("dependency {dependency}, {who}: turned, drones would wait for each other in a ring"),
        other => meaning(other).unwrap_or_default().into(),
    }
}

fn refused_list(field: &Conductor, list: &[u16], number: usize) -> String {
    let same = |dependency: &&u16| field.preview(usize::from(**dependency)).is_err_and(|refusal| refusal.number() == number);
    match (number, list.iter().find(same)) {
        (30 | 31 | 32 | 35, Some(dependency)) => refused_turn(field, usize::from(*dependency), number),
        (34, _) => format!("with dependencies {} turned, drones would wait for each other in a ring", crate::calls::commas(list)),
        _ => meaning(number).unwrap_or_default().into(),
    }
}

fn refused(field: &Conductor, call: &Call, refusal: &Refusal) -> String {
    match call {
        Call::Grant(drone) | Call::Arrive(drone) | Call::Withdraw(drone) | Call::Press(Some(drone)) => refused_drone(field, *drone, refusal),
        Call::Turn(dependency) | Call::Preview(dependency) => refused_turn(field, *dependency, refusal.number),
        Call::Turns(list) | Call::Previews(list) => refused_list(field, list, refusal.number),
        Call::Best(budget) if refusal.number == 37 => {
            format!("there are more choices than the budget of {budget}; a larger one may be enough, up to {}", conductor::BUDGET)
        }
        _ => meaning(refusal.number).unwrap_or_default().into(),
    }
}

/// Where a drone is under way to.
fn under_way(field: &Conductor, drone: usize) -> String {
    let next = field
        .drone(drone)
        .and_then(|drone| drone.stops.get(drone.visited + 1).map(|stop| format!(" to its stop {}, crossing {}", drone.visited + 1, stop.location)));
    format!("{} is under way{}", name(field, drone), next.unwrap_or_default())
}

fn stands(field: &Conductor, drone: usize) -> String {
    let at = field
        .drone(drone)
        .and_then(|drone| drone.stops.get(drone.visited).map(|stop| format!(" has come to its stop {}, crossing {}", drone.visited, stop.location)));
    format!("{}{}", name(field, drone), at.unwrap_or_default())
}

fn pressed(field: &Conductor, reported: Option<usize>, granted: conductor::Granted) -> String {
    let arrived = reported.map_or_else(String::new, |drone| format!("{}; ", stands(field, drone)));
    let count = granted.drones().count();
    match count {
        0 => format!("{arrived}nobody else may go now"),
        _ => format!("{arrived}granted: {}", names(field, granted.drones())),
    }
}

/// What a best order would save, in words.
pub fn best(field: &Conductor, best: &conductor::BestOrder) -> String {
    let now = field.cost().unwrap_or(best.cost);
    let tried = counted(best.count, "choice");
    if best.turns.is_empty() {
        return format!("the order in force is the best: cost {now} ({tried} entered)");
    }
    format!(
        "cost {} in place of {now}, {}, by turning {} ({tried} entered)",
        best.cost,
        change(best.cost as i64 - now as i64),
        counted(best.turns.len(), "dependency")
    )
}

fn accepted(field: &Conductor, call: &Call, reply: &Reply) -> String {
    match (call, reply) {
        (Call::Grant(drone), _) => under_way(field, *drone),
        (Call::Arrive(drone), _) => stands(field, *drone),
        (Call::Withdraw(drone), _) => format!("{} is withdrawn: nobody waits for it any more", name(field, *drone)),
        (Call::Turn(dependency), _) => {
            order(field, *dependency).map_or_else(String::new, |order| format!("dependency {dependency} is turned: {}", in_force(field, &order)))
        }
        (Call::Turns(list), _) => format!("{} turned: {}", counted(list.len(), "dependency"), crate::calls::commas(list)),
        (Call::Press(reported), Reply::Granted(granted)) => pressed(field, *reported, *granted),
        (Call::Preview(_) | Call::Previews(_), Reply::Change(rounds)) => change(*rounds),
        (Call::Best(_), Reply::Best(order)) => best(field, order),
        (_, reply) => reply.to_string(),
    }
}

/// What a call answered, in words; the conductor is as the call left it.
pub fn answered(field: &Conductor, call: &Call, reply: &Reply) -> String {
    match reply {
        Reply::Refused(refusal) => format!("refused with {}: {}", refusal.number, refused(field, call, refusal)),
        done => accepted(field, call, done),
    }
}

#[cfg(test)]
mod tests {
    use super::*;

    #[test]
    fn lines_by_their_offset() {
        let text = b"plan=1\nagents=2\nname=\xff\r\nend";
        assert_eq!(line_at(text, 0), "line 1: plan=1");
        assert_eq!(line_at(text, 7), "line 2: agents=2");
        assert_eq!(line_at(text, 16), "line 3: name=\\xff\\r");
        assert_eq!(line_at(text, 24), "line 4: end (the text ends in it, without a line feed)");
        assert_eq!(line_at(b"plan=1\n", 7), "line 2 is missing: the text ends before it");
        assert_eq!(line_at(b"", 0), "line 1 is missing: the text ends before it");
        assert_eq!(line_at(&[b'a'; 500], 0), format!("line 1: {} and 100 bytes more (the text ends in it, without a line feed)", "a".repeat(400)));
    }
}
