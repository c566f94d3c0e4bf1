//! Calls, most often such as move something.
use super::Random;
use crate::reckoning::plan::Plan;
use crate::reckoning::Call;

fn number(r: &mut Random, n: usize) -> usize {
    match r.below(24) {
        0 => n,
        1 => 65_536 + r.below(n),
        2 => (1 << 32) + r.below(n),
        3 => usize::MAX - r.below(3),
        _ => r.below(n),
    }
}

/// A list of dependencies: mostly rising, often all between two drones.
fn list(r: &mut Random, plan: &Plan) -> Vec<u16> {
    let count = plan.dependencies.len();
    let chosen = r.below(count);
    let pair = |p: &usize| plan.dependencies.get(chosen).is_some_and(|c| (c[0], c[2]) == (plan.dependencies[*p][0], plan.dependencies[*p][2]));
    let mut list: Vec<u16> = match r.below(8) {
        0 => vec![],
        1 => (0..r.between(1, 4)).map(|_| r.below(count + 1) as u16).collect(),
        2 => (0..count).filter(|_| r.one_in(3)).map(|p| p as u16).collect(),
        3 => vec![chosen as u16],
        _ => (0..count).filter(pair).filter(|p| !plan.fixed(*p)).map(|p| p as u16).collect(),
    };
    if r.one_in(12) {
        list.push(r.choice(&[0, count as u16, 2047, 2048, 4095, 4096, 65535]));
    }
    list
}

/// Any call, most often one that moves something.
pub fn call(r: &mut Random, plan: &Plan) -> Call {
    let (drones, dependencies) = (plan.routes.len(), plan.dependencies.len());
    if r.one_in(24) {
        return Call::Withdraw(number(r, drones));
    }
    match r.below(16) {
        0..=3 => Call::Grant(number(r, drones)),
        4..=6 => Call::Arrive(number(r, drones)),
        7 | 8 => Call::Turn(number(r, dependencies)),
        9 => Call::TurnAll(list(r, plan)),
        10 => Call::Preview(number(r, dependencies)),
        11 => Call::PreviewAll(list(r, plan)),
        12 => Call::Cost,
        13 => Call::Rounds,
        14 => Call::Press(if r.one_in(3) { None } else { Some(number(r, drones)) }),
        _ => Call::Write,
    }
}

pub fn kind(call: &Call) -> &'static str {
    match call {
        Call::Grant(_) => "grant",
        Call::Arrive(_) => "arrive",
        Call::Withdraw(_) => "withdraw",
        Call::Turn(_) => "turn",
        Call::TurnAll(_) => "turn_all",
        Call::Preview(_) => "preview",
        Call::PreviewAll(_) => "preview_all",
        Call::Cost => "cost",
        Call::Rounds => "rounds",
        Call::Press(_) => "press",
        Call::Write => "write",
    }
}
