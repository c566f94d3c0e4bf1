//! Plans of both forms, at sites with near locations and without, mostly such as are taken.
use super::{sites, Random};
use crate::reckoning::plan::{legs_into, Plan, Stop};
use crate::reckoning::site::{meet, Pairs};
use crate::reckoning::{LEG, TIME};

/// Locations and times; the legs come last.
type Route = Vec<(usize, usize)>;

fn spans(route: &Route) -> Vec<(usize, usize, usize)> {
    (0..route.len()).map(|k| (route[k].0, route[k].1, route.get(k + 1).map_or(usize::MAX, |next| next.1))).collect()
}

/// A route over few locations; a stop that would collide is put off, or the route ends before it.
fn route(r: &mut Random, d: usize, places: usize, most: usize, held: &[(usize, usize, usize)], pairs: &Pairs) -> Route {
    let mut route: Route = vec![(if r.one_in(3) { r.below(places) } else { 100 + d }, 0)];
    for _ in 1..r.between(1, most) {
        let (before, time) = route[route.len() - 1];
        let place = if r.one_in(4) { 200 + d } else { r.below(places) };
        if place != before {
            route.push((place, time + r.between(1, 9)));
        }
    }
    loop {
        let clash = |(p, from, until): &(usize, usize, usize)| held.iter().any(|(q, f, u)| from <= u && f <= until && meet(pairs, *p, *q));
        let Some(k) = spans(&route).iter().position(clash) else { return route };
        if r.one_in(200) {
            return route; // a collision stays
        }
        if k == 0 && route[0].0 != 100 + d {
            route[0].0 = 100 + d;
        } else if r.one_in(4) {
            route.truncate(k.max(1));
        } else {
            let shift = r.between(1, 30);
            route[k.max(1)..].iter_mut().for_each(|stop| stop.1 += shift);
        }
    }
}

/// Drones that pass the same crossings one behind the other: what can be turned in groups alone. Neighbouring crossings may be near.
fn corridor(r: &mut Random) -> (Vec<Route>, Pairs) {
    let (drones, length) = (r.between(2, 5), r.between(1, 5));
    let opposite = r.one_in(3);
    let pairs = if r.one_in(2) { vec![] } else { (20..20 + length).map(|a| (a, a + 1)).filter(|_| !r.one_in(4)).collect() };
    let routes = (0..drones)
        .map(|d| {
            let begin = d * (length + r.between(3, 5));
            let crossing = |k: usize| if opposite && d % 2 == 1 { 20 + length - k } else { 20 + k };
            let middle = (0..length).map(|k| (crossing(k), begin + k + 1));
            std::iter::once((100 + d, 0)).chain(middle).chain([(200 + d, begin + length + 1)]).collect()
        })
        .collect();
    (routes, pairs)
}

pub fn name(r: &mut Random, d: usize) -> Vec<u8> {
    let long = format!("{}-{d}", "survey-quad-east-of-the-farm");
    let text = match r.below(8) {
        0 => format!("{d}"),
        1 => long[long.len() - 24..].to_string(),
        2 => format!("SURVEY-Quad-{d}"),
        _ => format!("survey-quad-east-{d}"),
    };
    text.into_bytes()
}

/// A leg that the time rises by, and now and then one that is a round longer.
fn leg(r: &mut Random, rise: usize, longest: usize) -> usize {
    let fits = rise.clamp(1, longest);
    match r.below(400) {
        0 => (rise + 1).min(LEG),
        n if n < 100 => fits,
        _ => r.between(1, fits),
    }
}

/// The plan of these routes in this form. In form 2 the times may be drawn out, so that long legs fit; that changes nothing in who meets whom.
pub fn plan_in(r: &mut Random, form: usize, routes: &[Route]) -> Plan {
    let latest = routes.iter().flatten().map(|stop| stop.1).max().unwrap_or(0);
    let paces: Vec<usize> = [1, 4, 12, LEG].into_iter().filter(|pace| form == 2 && pace * latest <= TIME).collect();
    let (pace, longest) = (if paces.is_empty() { 1 } else { r.choice(&paces) }, r.choice(&[1, 3, 20, LEG, LEG]));
    let names = (0..routes.len()).map(|d| name(r, d)).collect();
    let mut stop = |route: &Route, k: usize| {
        let legs = legs_into(form, k);
        let (location, time) = (route[k].0, pace * route[k].1);
        let leg = if legs.start() == legs.end() { *legs.start() } else { leg(r, time.saturating_sub(pace * route[k - 1].1), longest) };
        Stop { location, time, leg }
    };
    let routes = routes.iter().map(|route| (0..route.len()).map(|k| stop(route, k)).collect()).collect();
    Plan { form, names, routes, ..Plan::default() }
}

/// A plan whose legs all fit its times.
pub fn fitting(r: &mut Random, form: usize, routes: &[Route]) -> Plan {
    loop {
        let plan = plan_in(r, form, routes);
        if plan.stop_at_fault().is_none() {
            return plan;
        }
    }
}

pub fn plan_of(r: &mut Random, routes: Vec<Route>) -> Plan {
    let form = r.between(1, 2);
    plan_in(r, form, &routes)
}

/// Some of 8, 12 and 9 at one stop: which of them is said is the check's own order.
fn spoil(r: &mut Random, plan: &mut Plan) {
    let d = r.below(plan.routes.len());
    let route = &mut plan.routes[d];
    if route.len() == 1 {
        return;
    }
    let k = r.between(1, route.len() - 1);
    let before = route[k - 1];
    if plan.form == 2 && r.one_in(2) {
        route[k].leg = r.between(2, LEG);
    }
    match r.below(4) {
        0 => route[k].time = before.time,
        1 => route[k].time = before.time + route[k].leg - 1,
        2 => route[k].time = before.time + route[k].leg,
        _ => {}
    }
    if r.one_in(2) {
        route[k].location = before.location;
    }
}

/// A plan that is mostly taken.
pub fn plan(r: &mut Random) -> Plan {
    let (routes, pairs) = if r.one_in(4) { corridor(r) } else { routes(r) };
    let mut plan = plan_of(r, routes).at_site(pairs);
    if r.one_in(40) {
        spoil(r, &mut plan);
    }
    plan
}

fn routes(r: &mut Random) -> (Vec<Route>, Pairs) {
    let many = r.between(34, 63);
    let drones = if r.one_in(60) { r.choice(&[32, 33, many, 64]) } else { r.choice(&[1, 2, 2, 3, 3, 4, 6, 12]) };
    let (places, most) = (r.choice(&[3, 6, 10, 40]), r.choice(&[3, 6, 12]));
    let pairs = sites::pairs(r, places);
    let (mut routes, mut held) = (Vec::new(), Vec::new());
    for d in 0..drones {
        let route = route(r, d, places, most, &held, &pairs);
        held.extend(spans(&route));
        routes.push(route);
    }
    (routes, pairs)
}

/// Drones that go over the locations 0 to `places` - 1, `visits` each, one drone after the other; the first and the last stop of each is its own.
pub fn one_by_one(r: &mut Random, drones: usize, visits: usize, places: usize) -> Vec<Route> {
    let mut routes = Vec::new();
    for d in 0..drones {
        let begin = d * (visits + 3);
        let mut route = vec![(1000 + d, 0)];
        while route.len() <= visits {
            let place = r.below(places);
            if place != route[route.len() - 1].0 {
                route.push((place, begin + route.len()));
            }
        }
        route.push((2000 + d, begin + visits + 1));
        routes.push(route);
    }
    routes
}

/// Crossings that the first drones pass one after the other, `groups` says how many at each; all other stops are a drone's own. A group of n makes n(n-1)/2 dependencies.
pub fn crossings(groups: &[usize], drones: usize, stops: usize) -> Vec<Route> {
    let begins = |c: usize, d: usize| 1 + 30_000 * c + 300 * d;
    (0..drones)
        .map(|d| {
            let mut route = vec![(1000 + 64 * d, 0)];
            for (c, _) in groups.iter().enumerate().filter(|(_, n)| d < **n) {
                route.push((c, begins(c, d)));
                route.push((1000 + 64 * d + route.len(), begins(c, d) + 100));
            }
            for k in route.len()..stops {
                route.push((1000 + 64 * d + k, begins(groups.len(), d) + 100 * k));
            }
            route
        })
        .collect()
}
