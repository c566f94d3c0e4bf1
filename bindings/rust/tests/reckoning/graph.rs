//! The graph, the calls on a status, rounds stop by stop and by playing, and cycles by search.
use super::plan::Plan;
use super::{accepted, refused, reply, Call, Reply};

/// The legs left in a play that is not long.
const SHORT: usize = 400;

/// Each drone's last visited stop, whether it is under way to the next, whether it is withdrawn, and which dependencies are turned.
#[derive(Clone, PartialEq, Debug)]
pub struct Status {
    pub place: Vec<usize>,
    pub under_way: Vec<bool>,
    pub withdrawn: Vec<bool>,
    pub turned: Vec<bool>,
}

/// The order now in force: who goes first at which stop, who waits at which.
pub fn in_force(plan: &Plan, turned: &[bool], p: usize) -> [usize; 4] {
    let [j, s, i, k] = plan.dependencies[p];
    if turned[p] {
        [i, k, j, s]
    } else {
        [j, s, i, k]
    }
}

/// The graph as a list for each stop of what it awaits, a drone's own stop before it included. A withdrawn drone awaits nobody, and nobody awaits it.
struct Awaits {
    of: Vec<Vec<Vec<(usize, usize)>>>,
}

impl Awaits {
    fn new(plan: &Plan, turned: &[bool], withdrawn: &[bool]) -> Awaits {
        let own = |d: usize| move |k: usize| if k == 0 { vec![] } else { vec![(d, k - 1)] };
        let mut of: Vec<Vec<Vec<_>>> = (0..plan.routes.len()).map(|d| (0..plan.routes[d].len()).map(own(d)).collect()).collect();
        for p in 0..plan.dependencies.len() {
            let [a, s, b, k] = in_force(plan, turned, p);
            if !withdrawn[a] && !withdrawn[b] {
                of[b][k].push((a, s + 1));
            }
        }
        Awaits { of }
    }

    /// A search from every stop, depth first: a stop that is met again before it is left lies on a cycle.
    fn cycle(&self) -> bool {
        let mut state: Vec<Vec<u8>> = self.of.iter().map(|route| vec![0; route.len()]).collect(); // 0 not met, 1 entered, 2 left
        for d in 0..self.of.len() {
            for k in 0..self.of[d].len() {
                if self.search(d, k, &mut state) {
                    return true;
                }
            }
        }
        false
    }

    fn search(&self, d: usize, k: usize, state: &mut [Vec<u8>]) -> bool {
        let mut path = vec![(d, k, 0)];
        while let Some((d, k, next)) = path.pop() {
            if next == 0 {
                match state[d][k] {
                    0 => state[d][k] = 1,
                    1 => return true,
                    _ => continue,
                }
            }
            match self.of[d][k].get(next) {
                None => state[d][k] = 2,
                Some((a, s)) => path.extend([(d, k, next + 1), (*a, *s, 0)]),
            }
        }
        false
    }

    fn met(&self, place: &[usize], d: usize) -> bool {
        self.of[d][place[d] + 1].iter().all(|(a, s)| place[*a] >= *s)
    }
}

pub fn has_cycle(plan: &Plan, turned: &[bool], withdrawn: &[bool]) -> bool {
    Awaits::new(plan, turned, withdrawn).cycle()
}

impl Status {
    pub fn at_start(plan: &Plan) -> Status {
        let n = plan.routes.len();
        Status { place: vec![0; n], under_way: vec![false; n], withdrawn: vec![false; n], turned: vec![false; plan.dependencies.len()] }
    }

    /// "it has visited its stops 0 to n", or is under way to the one after.
    pub fn entered(&self, d: usize, k: usize) -> bool {
        k <= self.place[d] || (self.under_way[d] && k == self.place[d] + 1)
    }

    /// "a drone of the dependency is withdrawn"
    pub fn aside(&self, plan: &Plan, p: usize) -> bool {
        let [j, _, i, _] = plan.dependencies[p];
        self.withdrawn[j] || self.withdrawn[i]
    }

    /// Each drone's remaining rounds: the round in which it reaches its last stop. A withdrawn one has none. Where a play is not long it must say the same.
    fn remaining(&self, plan: &Plan) -> Vec<usize> {
        let awaits = Awaits::new(plan, &self.turned, &self.withdrawn);
        let mut known = plan.routes.iter().map(|route| vec![None; route.len()]).collect::<Vec<_>>();
        let last = |d: usize| if self.withdrawn[d] { 0 } else { self.round(plan, &awaits, d, plan.last(d), &mut known) };
        let remaining: Vec<usize> = (0..self.place.len()).map(last).collect();
        if self.legs_left(plan) <= SHORT {
            assert_eq!(remaining, self.played(plan), "remaining rounds, stop by stop and by play");
        }
        remaining
    }

    /// "A stop is reached LEG rounds after the last stop it awaits, its own drone's stop before it included; stops visited before the count begins are reached at round 0, and a drone under way counts
    /// its full leg."
    fn round(&self, plan: &Plan, awaits: &Awaits, d: usize, k: usize, known: &mut [Vec<Option<usize>>]) -> usize {
        if k <= self.place[d] {
            return 0;
        }
        known[d][k].unwrap_or_else(|| {
            let last = awaits.of[d][k].iter().map(|(a, s)| self.round(plan, awaits, *a, *s, known)).max().unwrap_or(0);
            *known[d][k].insert(last + plan.routes[d][k].leg)
        })
    }

    /// "The sum of the unvisited stops' legs", of those not withdrawn.
    pub fn legs_left(&self, plan: &Plan) -> usize {
        let flying = (0..self.place.len()).filter(|d| !self.withdrawn[*d]);
        flying.flat_map(|d| &plan.routes[d][self.place[d] + 1..]).map(|stop| stop.leg).sum()
    }

    /// The same by play, until every drone stands at its last stop, on a copy: a drone whose next stop has all awaited stops visited at the round's start flies one round more, and visits the stop when
    /// its leg is full.
    pub fn played(&self, plan: &Plan) -> Vec<usize> {
        let awaits = Awaits::new(plan, &self.turned, &self.withdrawn);
        let (mut place, mut flown) = (self.place.clone(), vec![0; self.place.len()]);
        let mut remaining = vec![0; place.len()];
        loop {
            let unfinished: Vec<usize> = (0..place.len()).filter(|d| !self.withdrawn[*d] && place[*d] < plan.last(*d)).collect();
            if unfinished.is_empty() {
                return remaining;
            }
            let going: Vec<usize> = unfinished.iter().copied().filter(|d| awaits.met(&place, *d)).collect();
            unfinished.iter().for_each(|d| remaining[*d] += 1);
            for d in going {
                flown[d] += 1;
                if flown[d] == plan.routes[d][place[d] + 1].leg {
                    (place[d], flown[d]) = (place[d] + 1, 0);
                }
            }
        }
    }

    /// Withdrawn drones "cost nothing".
    pub fn cost(&self, plan: &Plan) -> usize {
        self.remaining(plan).iter().sum()
    }

    pub fn rounds(&self, plan: &Plan) -> usize {
        self.remaining(plan).into_iter().max().unwrap_or(0)
    }

    fn grant(&mut self, plan: &Plan, d: usize) -> Reply {
        if d >= self.place.len() {
            return refused(20);
        }
        if self.withdrawn[d] {
            return refused(25);
        }
        if self.place[d] == plan.last(d) {
            return refused(21);
        }
        if self.under_way[d] {
            return refused(22);
        }
        let unmet = |p: &usize| {
            let [a, s, b, k] = in_force(plan, &self.turned, *p);
            b == d && k == self.place[d] + 1 && self.place[a] < s + 1 && !self.withdrawn[a]
        };
        if let Some(p) = (0..self.turned.len()).find(unmet) {
            return reply(23, &[p]);
        }
        self.under_way[d] = true;
        accepted(0)
    }

    fn arrive(&mut self, d: usize) -> Reply {
        if d >= self.place.len() {
            return refused(20);
        }
        if self.withdrawn[d] {
            return refused(25);
        }
        if !self.under_way[d] {
            return refused(24);
        }
        self.under_way[d] = false;
        self.place[d] += 1;
        accepted(0)
    }

    /// "Withdrawing changes only a mark in the drone's record."
    fn withdraw(&mut self, d: usize) -> Reply {
        if d >= self.place.len() {
            return refused(20);
        }
        if self.withdrawn[d] {
            return refused(25);
        }
        self.withdrawn[d] = true;
        accepted(0)
    }

    /// "36, an empty list or one not strictly rising, after 40 and before 30; then 30 to 34 as the list is walked, with 34 last of all."
    fn turn(&mut self, plan: &Plan, list: &[usize]) -> Reply {
        if list.is_empty() || list.windows(2).any(|pair| pair[0] >= pair[1]) {
            return refused(36);
        }
        let mut turned = self.turned.clone();
        for p in list.iter().copied() {
            if p >= turned.len() {
                return refused(30);
            }
            if self.aside(plan, p) {
                return refused(35);
            }
            if plan.fixed(p) {
                return refused(31);
            }
            let [first, stop, _, _] = in_force(plan, &self.turned, p);
            if self.entered(first, stop) {
                return refused(32);
            }
            turned[p] = !turned[p];
        }
        if has_cycle(plan, &turned, &self.withdrawn) {
            return refused(34);
        }
        self.turned = turned;
        accepted(0)
    }

    /// "It equals doing the turn on a copy, and the tables are untouched."
    fn preview(&self, plan: &Plan, list: &[usize]) -> Reply {
        let mut copy = self.clone();
        let answer = copy.turn(plan, list);
        let change = if answer.number == 0 { copy.cost(plan) as i64 - self.cost(plan) as i64 } else { 0 };
        Reply { number: answer.number, values: [change, 0, 0, 0, 0] }
    }

    /// "A press takes one arrival, if one was reported, then grants every drone that may go."
    fn press(&mut self, plan: &Plan, reported: Option<usize>) -> Reply {
        if let Some(d) = reported {
            let answer = self.arrive(d);
            if answer.number != 0 {
                return answer;
            }
        }
        let granted = (0..self.place.len()).filter(|d| self.grant(plan, *d).number == 0).fold(0, |bits, d| bits | 1 << d);
        accepted(granted)
    }

    /// What a call replies, and the status after it.
    pub fn call(&mut self, plan: &Plan, call: &Call) -> Reply {
        let wide = |list: &[u16]| -> Vec<usize> { list.iter().map(|p| usize::from(*p)).collect() };
        match call {
            Call::Grant(d) => self.grant(plan, *d),
            Call::Arrive(d) => self.arrive(*d),
            Call::Withdraw(d) => self.withdraw(*d),
            Call::Turn(p) => self.turn(plan, &[*p]),
            Call::TurnAll(list) => self.turn(plan, &wide(list)),
            Call::Preview(p) => self.preview(plan, &[*p]),
            Call::PreviewAll(list) => self.preview(plan, &wide(list)),
            Call::Cost => accepted(self.cost(plan)),
            Call::Rounds => accepted(self.rounds(plan)),
            Call::Press(reported) => self.press(plan, *reported),
            Call::Write => accepted(super::text::of(plan).len()),
        }
    }
}
