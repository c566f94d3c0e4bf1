//! "Each plan for two drones named a and b, with locations 0 to 2, one to three stops each and times up to 4, that the conductor would accept without a site text."
use super::plan::{legs_into, Plan, Stop};
use super::text;

/// All lists of `length` numbers below `base`, in order.
fn lists(length: usize, base: usize) -> Vec<Vec<usize>> {
    (0..base.pow(length as u32)).map(|n| (0..length).rev().map(|i| n / base.pow(i as u32) % base).collect()).collect()
}

/// "Route lists are ordered by length, then by locations from the first stop on, then by times."
fn routes() -> Vec<Vec<Stop>> {
    let mut all = Vec::new();
    for length in 1..=3 {
        for places in lists(length, 3) {
            let stop = |k: usize, time: usize| Stop { location: places[k], time, leg: *legs_into(1, k).start() };
            all.extend(lists(length, 5).into_iter().map(|times| times.into_iter().enumerate().map(|(k, time)| stop(k, time)).collect::<Vec<_>>()));
        }
    }
    all
}

/// "Plans are ordered by the first drone's route, then the second's"; "the box of point 9 keeps to `plan=1`". A route that fails by itself is in no plan.
pub fn every_small_plan() -> Vec<Vec<u8>> {
    let plan = |names: &[&[u8]], routes: &[&Vec<Stop>]| {
        let (names, routes) = (names.iter().map(|name| name.to_vec()).collect(), routes.iter().map(|route| route.to_vec()).collect());
        Plan { form: 1, names, routes, ..Plan::default() }.checked().ok()
    };
    let good: Vec<_> = routes().into_iter().filter(|route| plan(&[b"a"], &[route]).is_some()).collect();
    let mut texts = Vec::new();
    for first in &good {
        for second in &good {
            texts.extend(plan(&[b"a", b"b"], &[first, second]).map(|plan| text::of(&plan)));
        }
    }
    texts
}
