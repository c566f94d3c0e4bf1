//! The call log: the list of calls with their replies, and nothing from any table.
use super::graph::Status;
use super::plan::Plan;
use super::{Call, Reply};

pub struct Log {
    pub plan: Plan,
    pub calls: Vec<(Call, Reply)>,
}

impl Log {
    pub fn new(plan: Plan) -> Log {
        Log { plan, calls: Vec::new() }
    }

    fn count(&self, which: impl Fn(&Call) -> bool) -> usize {
        self.calls.iter().filter(|(call, answer)| answer.number == 0 && which(call)).count()
    }

    /// "With n arrivals of a drone accepted .. its place is stop n"; "under way when more grants than arrivals of it were accepted"; "turned when an odd number of
    /// accepted turns named it"; "withdrawn once a withdrawal of it was accepted".
    pub fn status(&self) -> Status {
        let arrivals = |d: usize| self.count(|call| *call == Call::Arrive(d));
        let grants = |d: usize| self.count(|call| *call == Call::Grant(d));
        let names = |p: usize| {
            self.count(|call| match call {
                Call::Turn(q) => *q == p,
                Call::TurnAll(list) => list.iter().any(|q| usize::from(*q) == p),
                _ => false,
            })
        };
        Status {
            place: (0..self.plan.routes.len()).map(arrivals).collect(),
            under_way: (0..self.plan.routes.len()).map(|d| grants(d) > arrivals(d)).collect(),
            withdrawn: (0..self.plan.routes.len()).map(|d| self.count(|call| *call == Call::Withdraw(d)) > 0).collect(),
            turned: (0..self.plan.dependencies.len()).map(|p| names(p) % 2 == 1).collect(),
        }
    }

    /// "A call gets the first of its refusals .. that holds by the log before it; if none holds, it is accepted." A press is the calls that it makes.
    pub fn call(&mut self, call: &Call) -> Reply {
        let answer = self.status().call(&self.plan, call);
        match call {
            Call::Press(reported) if answer.number == 0 => {
                reported.iter().for_each(|d| self.calls.push((Call::Arrive(*d), super::accepted(0))));
                let granted = (0..self.plan.routes.len()).filter(|d| answer.values[0] >> d & 1 == 1);
                self.calls.extend(granted.map(|d| (Call::Grant(d), super::accepted(0))));
            }
            Call::Grant(_) | Call::Arrive(_) | Call::Withdraw(_) | Call::Turn(_) | Call::TurnAll(_) => self.calls.push((call.clone(), answer)),
            _ => {}
        }
        answer
    }
}
