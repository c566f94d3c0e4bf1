//! When tables are sound, clause by clause.
use super::graph::{has_cycle, in_force, Status};
use super::plan::{legs_into, Plan, Stop};
use super::site::{in_order, Pairs};
use super::text::is_name;
use super::{Tables, DRONES, FULL, NAME, STOPS, TIME};

type Clause = &'static str;

fn holds(condition: bool, clause: Clause) -> Result<(), Clause> {
    if condition {
        Ok(())
    } else {
        Err(clause)
    }
}

/// The plan and the status of sound tables of full size, or the first clause that fails.
pub fn sound(t: &Tables) -> Result<(Plan, Status), Clause> {
    let plan = plan_of(t)?.at_site(pairs_of(t)?);
    unused_zero(t, &plan)?;
    let plan = accepted_plan(plan)?;
    let turned = dependencies(t, &plan)?;
    let withdrawn: Vec<bool> = t.drone_flags[..plan.routes.len()].iter().map(|flags| flags & 2 != 0).collect();
    holds(!has_cycle(&plan, &turned, &withdrawn), "cycle")?;
    let status = progress(t, &plan, turned, withdrawn)?;
    // "passes over its own waits", and nobody waits for a withdrawn drone
    for p in (0..status.turned.len()).filter(|p| !status.aside(&plan, *p)) {
        let [a, s, b, k] = in_force(&plan, &status.turned, p);
        holds(!status.entered(b, k) || s < status.place[a], "wait kept")?;
    }
    Ok((plan, status))
}

/// What the tables hold as a plan: counts, form, names and stops in their ranges. "Sound tables of a `plan=1` form have just these legs."
fn plan_of(t: &Tables) -> Result<Plan, Clause> {
    let drones = usize::from(t.drone_count[0]);
    holds((1..=DRONES).contains(&drones), "drone count")?;
    let form = usize::from(t.form[0]);
    holds(form == 1 || form == 2, "form")?;
    let mut plan = Plan { form, ..Plan::default() };
    let mut at = 0;
    for d in 0..drones {
        let field = &t.names[NAME * d..NAME * d + NAME];
        let length = field.iter().position(|b| *b == 0).unwrap_or(NAME);
        holds(is_name(&field[..length]) && field[length..].iter().all(|b| *b == 0), "name")?;
        holds(!plan.names.iter().any(|name| name == &field[..length]), "same name")?;
        plan.names.push(field[..length].to_vec());
        let stops = usize::from(t.stop_counts[d]);
        holds((1..=STOPS).contains(&stops), "stop count")?;
        holds(at + stops <= STOPS, "stops of all")?;
        plan.routes.push((at..at + stops).map(|n| Stop { location: t.locations[n].into(), time: t.times[n] as usize, leg: t.legs[n].into() }).collect());
        at += stops;
    }
    holds(plan.routes.iter().flatten().all(|stop| stop.time <= TIME), "time range")?;
    holds(plan.routes.iter().all(|route| route.iter().enumerate().all(|(k, stop)| legs_into(form, k).contains(&stop.leg))), "leg")?;
    Ok(plan)
}

/// The site pairs: "they must be a list that a site text could give", and the entries after them zero. The last entry that is not zero belongs to the last pair.
fn pairs_of(t: &Tables) -> Result<Pairs, Clause> {
    let numbers: Vec<usize> = t.pairs[..FULL[11]].iter().map(|n| usize::from(*n)).collect();
    let count = numbers.iter().rposition(|n| *n > 0).map_or(0, |last| last / 2 + 1);
    let mut pairs = Pairs::new();
    for pair in numbers.chunks(2).take(count).map(|two| (two[0], two[1])) {
        holds(pair != (0, 0), "gap in the pairs")?;
        holds(pair.0 < pair.1, "A not below B")?;
        holds(in_order(&pairs, pair), "pair not above the one before")?;
        pairs.push(pair);
    }
    Ok(pairs)
}

/// "unused entries are zero"
fn unused_zero(t: &Tables, plan: &Plan) -> Result<(), Clause> {
    let (n, stops) = (plan.routes.len(), plan.routes.iter().map(Vec::len).sum());
    holds(t.names[NAME * n..FULL[3]].iter().all(|b| *b == 0), "unused name")?;
    holds(t.stop_counts[n..FULL[4]].iter().all(|m| *m == 0), "unused stop count")?;
    holds(t.locations[stops..FULL[5]].iter().all(|l| *l == 0), "unused location")?;
    holds(t.times[stops..FULL[6]].iter().all(|time| *time == 0), "unused time")?;
    holds(t.legs[stops..FULL[7]].iter().all(|leg| *leg == 0), "unused leg")?;
    holds(t.visited[n..FULL[8]].iter().all(|v| *v == 0), "unused progress")?;
    holds(t.drone_flags[n..FULL[9]].iter().all(|f| *f == 0), "unused drone flags")?;
    let used = usize::from(t.dependency_count[0]).min(FULL[10]);
    let zero = |r: &conductor::Dependency| r.first_stop == 0 && r.second_stop == 0 && r.first_drone == 0 && r.second_drone == 0 && r.flags == 0;
    holds(t.dependencies[used..FULL[10]].iter().all(zero), "unused dependency")
}

/// "the plan in them would be accepted"
fn accepted_plan(plan: Plan) -> Result<Plan, Clause> {
    plan.checked().map_err(|refusal| match refusal.number {
        7 => "check 7",
        8 => "check 8",
        12 => "check 12",
        9 => "check 9",
        10 => "check 10",
        _ => "check 11",
    })
}

/// "the dependencies are exactly its own, in order, with right fixed bits and none of the fixed ones turned": which are turned.
fn dependencies(t: &Tables, plan: &Plan) -> Result<Vec<bool>, Clause> {
    holds(usize::from(t.dependency_count[0]) == plan.dependencies.len(), "dependency count")?;
    let mut turned = Vec::new();
    for (p, own) in plan.dependencies.iter().enumerate() {
        let r = t.dependencies[p];
        let held: [usize; 4] = [r.first_drone.into(), r.first_stop.into(), r.second_drone.into(), r.second_stop.into()];
        holds(held == *own, "dependency")?;
        holds(r.flags & !3 == 0, "other bits")?;
        holds((r.flags & 2 != 0) == plan.fixed(p), "fixed bit")?;
        holds(r.flags != 3, "fixed turned")?;
        turned.push(r.flags & 1 != 0);
    }
    Ok(turned)
}

/// "nobody is past or under way beyond a last stop"; of a withdrawn drone too
fn progress(t: &Tables, plan: &Plan, turned: Vec<bool>, withdrawn: Vec<bool>) -> Result<Status, Clause> {
    let mut status = Status { turned, withdrawn, ..Status::at_start(plan) };
    for d in 0..plan.routes.len() {
        holds(t.drone_flags[d] <= 3, "drone flags")?;
        status.place[d] = t.visited[d].into();
        status.under_way[d] = t.drone_flags[d] & 1 != 0;
        holds(status.place[d] <= plan.last(d), "past a last stop")?;
        holds(!status.under_way[d] || status.place[d] < plan.last(d), "under way beyond a last stop")?;
    }
    Ok(status)
}
