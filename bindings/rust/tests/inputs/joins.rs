//! The plans of two planners, mostly such as can be joined.
use super::{plans, sites, Random};
use crate::reckoning::plan::{legs_into, Plan, Stop};
use crate::reckoning::text::{self, of as text_of};
use crate::reckoning::PAIRS;

/// The plan in a form: legs that the form does not have are of one.
pub fn in_form(plan: Plan, form: usize) -> Plan {
    let stop = |k: usize, stop: Stop| Stop { leg: stop.leg.clamp(*legs_into(form, k).start(), *legs_into(form, k).end()), ..stop };
    let routes = plan.routes.into_iter().map(|route| route.into_iter().enumerate().map(|(k, s)| stop(k, s)).collect()).collect();
    Plan { form, routes, ..plan }
}

/// The drones of a plan for which `which` holds, as a plan at the same site.
pub fn part(whole: &Plan, which: impl Fn(usize) -> bool) -> Plan {
    let kept = |d: &usize| which(*d);
    let names = (0..whole.names.len()).filter(kept).map(|d| whole.names[d].clone()).collect();
    let routes = (0..whole.routes.len()).filter(kept).map(|d| whole.routes[d].clone()).collect();
    Plan { form: whole.form, names, routes, ..Plan::default() }.at_site(whole.pairs.clone())
}

/// The drones of one plan for two planners, in any way but that one has none; each plan is of any form.
fn parted(r: &mut Random) -> [Plan; 2] {
    let whole = loop {
        let plan = plans::plan(r);
        if plan.routes.len() > 1 {
            break plan;
        }
    };
    let drones = whole.routes.len();
    let mut east: Vec<bool> = (0..drones).map(|_| r.one_in(2)).collect();
    let (mine, theirs) = (r.below(drones), r.between(1, drones - 1));
    (east[mine], east[(mine + theirs) % drones]) = (true, false);
    [part(&whole, |d| east[d]), part(&whole, |d| !east[d])].map(|plan| in_form(plan, r.choice(&[1, 2, 2])))
}

/// Two plans that were made apart, at one site: they may well collide.
fn apart(r: &mut Random) -> [Plan; 2] {
    let (first, mut second) = (plans::plan(r), plans::plan(r));
    let far = r.choice(&[0, 3, 400]);
    for (d, name) in second.names.iter_mut().enumerate() {
        *name = format!("west-{d}").into_bytes();
    }
    second.routes.iter_mut().flatten().for_each(|stop| stop.location += far);
    second.pairs = first.pairs.clone();
    [first, second]
}

fn taken(plan: &Plan) -> bool {
    text::read(&text_of(plan)).and_then(|read| read.at_site(plan.pairs.clone()).checked()).is_ok()
}

/// A name of the first plan in the second too, in capitals or not.
fn share_a_name(r: &mut Random, [first, second]: &mut [Plan; 2]) {
    let (name, d) = (r.choice(&first.names), r.below(second.names.len()));
    second.names[d] = if r.one_in(2) { name.to_ascii_uppercase() } else { name };
}

/// Other pairs for one of the two: one less, one more, or none.
fn other_pairs(r: &mut Random, plan: &mut Plan) {
    match r.below(3) {
        0 if !plan.pairs.is_empty() => drop(plan.pairs.remove(r.below(plan.pairs.len()))),
        1 if plan.pairs.len() < PAIRS => plan.pairs = sites::with_two_visited(r, plan),
        _ => plan.pairs.clear(),
    }
}

/// Many drones that meet nobody, as many as there may be or more.
fn many(r: &mut Random) -> [Plan; 2] {
    let [first, second] = [(); 2].map(|()| (0..r.between(30, 40)).map(|_| r.between(1, 3)).collect::<Vec<_>>());
    let forms = [r.between(1, 2), r.between(1, 2)];
    [alone(r, forms[0], 0, &first), alone(r, forms[1], first.len(), &second)]
}

/// Two plans, each of which is taken by itself.
pub fn two_plans(r: &mut Random) -> [Plan; 2] {
    loop {
        let mut both = match r.below(60) {
            0 => many(r),
            1..=10 => apart(r),
            _ => parted(r),
        };
        if r.one_in(12) {
            share_a_name(r, &mut both);
        }
        if r.one_in(10) {
            let which = r.below(2);
            other_pairs(r, &mut both[which]);
        }
        if both.iter().all(taken) {
            return both;
        }
    }
}

/// Drones that meet nobody, numbered from some one on; each goes to and fro between two locations of its own, at least sixty timesteps from one to the other, so that every leg fits. The lines are long.
pub fn alone(r: &mut Random, form: usize, from: usize, stops: &[usize]) -> Plan {
    let time = |k: usize| if k == 0 { 0 } else { 800_000 + 60 * k };
    let route = |d: usize, stops: usize| (0..stops).map(|k| (20_000 + 2 * d + k % 2, time(k))).collect();
    let routes: Vec<Vec<(usize, usize)>> = stops.iter().enumerate().map(|(d, stops)| route(from + d, *stops)).collect();
    let mut plan = plans::plan_in(r, form, &routes);
    plan.names = (from..from + stops.len()).map(|d| format!("survey-quad-{d}").into_bytes()).collect();
    plan
}

/// The plan's text gets this many bytes shorter: five digits of a location are four, in as many lines. No line has another length after that.
pub fn shortened(plan: &mut Plan, bytes: usize) {
    let stops = plan.routes.iter_mut().flatten().skip(1).take(bytes);
    assert_eq!(stops.map(|stop| stop.location -= 18_000).count(), bytes, "as many stops as bytes");
}
