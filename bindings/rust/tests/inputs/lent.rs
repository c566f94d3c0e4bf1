//! The library's calls on lent tables.
use crate::reckoning::{reply, Call, Reply, Tables};
use conductor::ffi;

fn lent(t: &Tables) -> ffi::PlanTables<'_> {
    ffi::PlanTables {
        drone_count: &t.drone_count,
        dependency_count: &t.dependency_count,
        form: &t.form,
        names: &t.names,
        stop_counts: &t.stop_counts,
        locations: &t.locations,
        times: &t.times,
        legs: &t.legs,
        pairs: &t.pairs,
    }
}

fn shared(t: &Tables) -> ffi::SharedTables<'_> {
    ffi::SharedTables { plan: lent(t), visited: &t.visited, drone_flags: &t.drone_flags, dependencies: &t.dependencies }
}

fn written(t: &mut Tables) -> ffi::Tables<'_> {
    ffi::Tables {
        drone_count: &mut t.drone_count,
        dependency_count: &mut t.dependency_count,
        form: &mut t.form,
        names: &mut t.names,
        stop_counts: &mut t.stop_counts,
        locations: &mut t.locations,
        times: &mut t.times,
        legs: &mut t.legs,
        visited: &mut t.visited,
        drone_flags: &mut t.drone_flags,
        dependencies: &mut t.dependencies,
        pairs: &mut t.pairs,
    }
}

fn read_reply(a: ffi::ReadAnswer) -> Reply {
    reply(a.number, &[a.offset, a.drone, a.stop, a.other_drone, a.other_stop])
}

fn told(a: ffi::Answer) -> Reply {
    reply(a.number, &[a.detail])
}

fn change(a: ffi::ChangeAnswer) -> Reply {
    Reply { number: a.number, values: [a.change, 0, 0, 0, 0] }
}

/// A reading by the library, with a site text or without.
pub fn read(t: &mut Tables, site: Option<&[u8]>, text: &[u8]) -> Reply {
    read_reply(match site {
        None => ffi::read(text, written(t)),
        Some(site) => ffi::read_site(site, text, written(t)),
    })
}

/// Two plans joined by the library.
pub fn join(first: &Tables, second: &Tables, joined: &mut Tables) -> Reply {
    read_reply(ffi::join(shared(first), shared(second), written(joined)))
}

/// The cheapest directions by the library, with the list after it.
pub fn best_order(t: &Tables, list: &mut [u16], budget: usize) -> Reply {
    let a = ffi::best_order(lent(t), &t.visited, &t.drone_flags, &t.dependencies, list, budget);
    reply(a.number, &[a.cost, a.length, a.count])
}

/// Any other call by the library. The tables that it only reads are lent for reading alone; those that it writes are taken out meanwhile.
pub fn make(t: &mut Tables, call: &Call, buffer: &mut [u8]) -> Reply {
    let mut visited = std::mem::take(&mut t.visited);
    let mut flags = std::mem::take(&mut t.drone_flags);
    let mut dependencies = std::mem::take(&mut t.dependencies);
    let plan = lent(t);
    let answer = match call {
        Call::Grant(d) => told(ffi::grant(plan, &visited, &mut flags, &dependencies, *d)),
        Call::Arrive(d) => told(ffi::arrive(plan, &mut visited, &mut flags, &dependencies, *d)),
        Call::Withdraw(d) => told(ffi::withdraw(plan, &visited, &mut flags, &dependencies, *d)),
        Call::Turn(p) => told(ffi::turn(plan, &visited, &flags, &mut dependencies, *p)),
        Call::TurnAll(list) => told(ffi::turn_all(plan, &visited, &flags, &mut dependencies, list)),
        Call::Preview(p) => change(ffi::preview(plan, &visited, &flags, &dependencies, *p)),
        Call::PreviewAll(list) => change(ffi::preview_all(plan, &visited, &flags, &dependencies, list)),
        Call::Cost => told(ffi::cost(plan, &visited, &flags, &dependencies)),
        Call::Rounds => told(ffi::rounds(plan, &visited, &flags, &dependencies)),
        Call::Press(reported) => told(ffi::press(plan, &mut visited, &mut flags, &dependencies, *reported)),
        Call::Write => told(ffi::write(buffer, plan, &visited, &flags, &dependencies)),
    };
    (t.visited, t.drone_flags, t.dependencies) = (visited, flags, dependencies);
    answer
}
