//! The cheapest directions, by point 11 of document 02: the search as its sentences have it, each choice judged by itself on a plan of its own, without the dependencies that are not decided.
use super::graph::{has_cycle, in_force, Status};
use super::plan::Plan;
use super::sound::sound;
use super::{refused, reply, Reply, Tables, DEPENDENCIES};

/// "The budget is 1 to 100,000."
pub const BUDGET: usize = 100_000;

/// A choice, part-made or finished: for each dependency that is decided, in number order, whether it is turned.
type Choice = Vec<bool>;

/// "The reply is the least cost of all choices without a cycle, the earliest such choice, and the count"; the choice as "the rising list of dependencies to turn".
#[derive(Clone, PartialEq, Debug)]
pub struct Best {
    pub cost: usize,
    pub turns: Vec<usize>,
    pub count: usize,
}

pub struct Search<'a> {
    plan: &'a Plan,
    status: &'a Status,
    open: Vec<usize>,
    budget: usize,
    best: Option<(usize, Choice)>,
    count: usize,
}

impl<'a> Search<'a> {
    /// "A choice covers every dependency that passes 30 to 32 and 35, in number order."
    pub fn new(plan: &'a Plan, status: &'a Status, budget: usize) -> Search<'a> {
        let passes = |p: &usize| {
            let [first, stop, _, _] = in_force(plan, &status.turned, *p);
            !plan.fixed(*p) && !status.entered(first, stop) && !status.aside(plan, *p)
        };
        let open = (0..plan.dependencies.len()).filter(passes).collect();
        Search { plan, status, open, budget, best: None, count: 0 }
    }

    /// How many dependencies a choice covers.
    pub fn covers(&self) -> usize {
        self.open.len()
    }

    /// The cost of a choice, "the graph with the undecided ones left out"; none where it has a cycle.
    pub fn cost(&self, choice: &[bool]) -> Option<usize> {
        let (mut plan, mut status) = (self.plan.clone(), self.status.clone());
        for (p, turned) in self.open.iter().zip(choice) {
            status.turned[*p] ^= turned;
        }
        let kept: Vec<usize> = (0..plan.dependencies.len()).filter(|p| !self.open[choice.len()..].contains(p)).collect();
        plan.dependencies = kept.iter().map(|p| plan.dependencies[*p]).collect();
        status.turned = kept.iter().map(|p| status.turned[*p]).collect();
        (!has_cycle(&plan, &status.turned, &status.withdrawn)).then(|| status.cost(&plan))
    }

    /// "Enters a choice, part-made or finished, unless the graph with the undecided ones left out has a cycle, or its cost is not below the best finished choice so far." It says whether to go on: the walk
    /// ends with the first choice that is more than the budget.
    fn visit(&mut self, choice: &mut Choice) -> bool {
        let Some(cost) = self.cost(choice) else { return true };
        if self.best.as_ref().is_some_and(|(best, _)| cost >= *best) {
            return true;
        }
        if self.count == self.budget {
            return false;
        }
        self.count += 1;
        if choice.len() == self.open.len() {
            self.best = Some((cost, choice.clone()));
            return true;
        }
        // "left before turned"
        [false, true].into_iter().all(|turned| {
            choice.push(turned);
            let goes_on = self.visit(choice);
            choice.pop();
            goes_on
        })
    }

    /// What is found; none where "the full walk would enter more than the budget".
    pub fn walked(mut self) -> Option<Best> {
        if !self.visit(&mut vec![]) {
            return None;
        }
        let (cost, choice) = self.best.take().expect("the directions now in force have no cycle");
        Some(Best { cost, turns: self.turns(&choice), count: self.count })
    }

    fn turns(&self, choice: &[bool]) -> Vec<usize> {
        self.open.iter().zip(choice).filter(|(_, turned)| **turned).map(|(p, _)| *p).collect()
    }

    /// The least cost of *all* finished choices without a cycle, and the first of that cost, each of them tried: the n-th has at its first dependency the n-th's highest bit, so that left comes before
    /// turned.
    pub fn of_all(&self) -> (usize, Vec<usize>) {
        let n = self.open.len();
        let choice = |bits: usize| (0..n).map(|i| bits >> (n - 1 - i) & 1 == 1).collect::<Choice>();
        let costs = (0..1usize << n).filter_map(|bits| self.cost(&choice(bits)).map(|cost| (cost, bits)));
        let (cost, bits) = costs.min().expect("the directions now in force have no cycle");
        (cost, self.turns(&choice(bits)))
    }
}

impl Tables {
    /// The reply, and the lent list after it: "in a lent list of the dependency table's full size (41 covers it); entries past the length are zero, and a refusal leaves the list unchanged. The tables
    /// don't change." "Refused: 38, a budget out of range, after 40; 37 .. with the count equal to the budget."
    pub fn best_order(&self, list: &mut [u16], budget: usize) -> (Reply, Option<&'static str>) {
        if self.too_small() || list.len() < DEPENDENCIES {
            return (refused(41), None);
        }
        let (plan, status) = match sound(self) {
            Ok(found) => found,
            Err(clause) => return (refused(40), Some(clause)),
        };
        if !(1..=BUDGET).contains(&budget) {
            return (refused(38), None);
        }
        let Some(best) = Search::new(&plan, &status, budget).walked() else {
            return (reply(37, &[0, 0, budget]), None);
        };
        list[..DEPENDENCIES].fill(0);
        for (to, p) in list.iter_mut().zip(&best.turns) {
            *to = *p as u16;
        }
        (reply(0, &[best.cost, best.turns.len(), best.count]), None)
    }
}
