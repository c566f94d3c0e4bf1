//! The cheapest directions by the library, against the independent reckoning: the reply with its values, every entry of the lent list, those past its length and past its full size too, and every table,
//! which must be as it was. Then what is done with the list: the turn of it is accepted, the cost is what was said, and so is the preview.
mod inputs;
mod reckoning;

use conductor::{BestOrder, BestOrderRefusal, Conductor};
use inputs::calls::call as any_call;
use inputs::compared::{compare_call, compare_reading, taken};
use inputs::seen::Seen;
use inputs::{lent, plans, tables as altered, Random};
use reckoning::best::{Best, Search, BUDGET};
use reckoning::plan::Plan;
use reckoning::text::of as text_of;
use reckoning::{Call, Reply, Tables, DEPENDENCIES, FULL};

/// A lent list with anything in it, of its full size or longer.
fn scrawled_list(r: &mut Random) -> Vec<u16> {
    let more = if r.one_in(2) { 0 } else { r.between(1, 40) };
    (0..DEPENDENCIES + more).map(|_| r.next() as u16).collect()
}

fn compare_best(seen: &mut Seen, tables: &Tables, mut list: Vec<u16>, budget: usize) -> (Reply, Vec<u16>) {
    let (before, mut reckoned) = (tables.clone(), list.clone());
    let got = lent::best_order(tables, &mut list, budget);
    let (want, clause) = tables.best_order(&mut reckoned, budget);
    assert_eq!(got, want, "the best order within {budget} of {tables:?}");
    assert!(list == reckoned, "the list of the best order within {budget} of {tables:?}");
    assert!(*tables == before, "the tables after the best order within {budget}");
    seen.reply("best_order", want.number);
    clause.iter().for_each(|clause| seen.clause(clause));
    (want, list)
}

/// A plan read by the library, then calls: any, and then presses for which some drones never report an arrival; the others go on as far as that lets them.
fn after_calls(r: &mut Random, seen: &mut Seen) -> (Plan, Tables) {
    let (site, plan) = taken(r);
    let mut tables = Tables::zeroed(FULL);
    altered::lengthened(r, &mut tables);
    let (mut tables, _) = compare_reading(seen, tables, site.as_deref(), &text_of(&plan));
    for _ in 0..r.choice(&[0, 0, 3, 12]) {
        let call = any_call(r, &plan);
        compare_call(&mut Seen::default(), &mut tables, &call, 0);
    }
    let delayed: Vec<bool> = plan.routes.iter().map(|_| r.one_in(4)).collect();
    for _ in 0..r.choice(&[0, 0, 4, 10, 30]) {
        let under_way: Vec<usize> = (0..plan.routes.len()).filter(|d| tables.drone_flags[*d] == 1 && !delayed[*d]).collect();
        let reported = (!under_way.is_empty()).then(|| r.choice(&under_way));
        compare_call(&mut Seen::default(), &mut tables, &Call::Press(reported), 0);
    }
    (plan, tables)
}

/// What the reckoning finds within so many choices.
fn found(tables: &Tables, most: usize) -> Option<Best> {
    let (plan, status) = reckoning::sound::sound(tables).expect("sound");
    Search::new(&plan, &status, most).walked()
}

/// A budget: a small one, one out of range, or, where there are no more choices than `most`, their count itself, one less, one more, and as many as there may be.
fn budget(r: &mut Random, tables: &Tables, most: usize) -> usize {
    let count = found(tables, most).map(|best| best.count);
    match (r.below(12), count) {
        (0, _) => r.choice(&[0, BUDGET + 1, 1 << 32, usize::MAX]),
        (1 | 2, _) => r.between(1, 12),
        (3..=5, Some(count)) => count,
        (6..=8, Some(count)) => count - 1,
        (9, Some(count)) => count + 1,
        (_, Some(_)) => BUDGET,
        _ => r.between(1, most),
    }
}

/// "The pilot applies the list, if it isn't empty, through the group turn": it is accepted, the preview is the reply's cost less the cost now, and the cost is then the reply's.
fn apply(tables: &mut Tables, answer: &Reply, list: &[u16]) {
    let [cost, length, _, _, _] = answer.values;
    let (list, mut seen) = (list[..length as usize].to_vec(), Seen::default());
    let before = compare_call(&mut seen, tables, &Call::Cost, 0).values[0];
    let preview = compare_call(&mut seen, tables, &Call::PreviewAll(list.clone()), 0);
    let turn = compare_call(&mut seen, tables, &Call::TurnAll(list.clone()), 0);
    if list.is_empty() {
        assert_eq!((turn.number, before), (36, cost), "an empty list: nothing is gained");
    } else {
        assert_eq!((preview.number, preview.values[0]), (0, cost - before), "the preview of the list");
        assert_eq!(turn.number, 0, "the turn of the list");
    }
    assert_eq!(compare_call(&mut seen, tables, &Call::Cost, 0).values[0], cost, "the cost after it");
}

#[test]
fn best_orders() {
    let (mut r, mut seen, cases) = (Random::seeded(), Seen::default(), 10_000);
    let seed = r.seed();
    for _ in 0..cases {
        let (_, mut tables) = after_calls(&mut r, &mut seen);
        let most = r.choice(&[60, 60, 400]);
        for _ in 0..2 {
            let (list, budget) = (scrawled_list(&mut r), budget(&mut r, &tables, most));
            let (answer, list) = compare_best(&mut seen, &tables, list, budget);
            if answer.number == 0 {
                apply(&mut tables, &answer, &list);
            }
        }
    }
    seen.report("best_orders", seed, cases, &[("best_order", &[0, 37, 38])]);
}

/// "The least cost of all choices without a cycle, the earliest such choice": also of those that the walk never enters, each of them tried.
#[test]
fn best_orders_of_all_choices() {
    let (mut r, mut seen, mut cases) = (Random::seeded(), Seen::default(), 0);
    let seed = r.seed();
    while cases < 2_000 {
        let (plan, tables) = after_calls(&mut r, &mut seen);
        let (_, status) = reckoning::sound::sound(&tables).expect("sound");
        let search = Search::new(&plan, &status, BUDGET);
        if !(1..=8).contains(&search.covers()) {
            continue;
        }
        let (cost, turns) = search.of_all();
        let list = scrawled_list(&mut r);
        let (answer, list) = compare_best(&mut seen, &tables, list, BUDGET);
        assert_eq!((answer.number, answer.values[0], answer.values[1]), (0, cost as i64, turns.len() as i64));
        assert!(list.iter().zip(&turns).all(|(p, q)| usize::from(*p) == *q), "the list");
        cases += 1;
    }
    seen.report("best_orders_of_all_choices", seed, cases, &[("best_order", &[0])]);
}

/// Drones that fly by presses while one in four is delayed, through `Conductor`; now and then the list is turned.
#[test]
fn best_orders_on_the_way() {
    let (mut r, mut seen, cases) = (Random::seeded(), Seen::default(), 1_500);
    let seed = r.seed();
    for _ in 0..cases {
        let (site, plan) = taken(&mut r);
        let (mut c, mut tables) = (Conductor::new(), Tables::zeroed(FULL));
        match &site {
            None => c.read(&text_of(&plan)),
            Some(site) => c.read_site(site, &text_of(&plan)),
        }
        .expect("taken");
        tables.read(site.as_deref(), &text_of(&plan));
        let delayed: Vec<bool> = plan.routes.iter().map(|_| r.one_in(4)).collect();
        for _ in 0..r.between(1, 8) {
            let flying: Vec<usize> =
                c.drones().filter(|drone| drone.under_way && !drone.withdrawn && !(delayed[drone.number] && r.one_in(8))).map(|drone| drone.number).collect();
            let call = if r.one_in(30) { Call::Withdraw(r.below(plan.routes.len())) } else { Call::Press((!flying.is_empty()).then(|| r.choice(&flying))) };
            match call {
                Call::Withdraw(d) => drop(c.withdraw(d)),
                Call::Press(reported) => drop(c.press(reported)),
                _ => {}
            }
            tables.call(&call, &mut []);
            let budget = budget(&mut r, &tables, 40);
            let mut list = [0; DEPENDENCIES];
            let (want, _) = tables.best_order(&mut list, budget);
            let got = c.best_order(budget);
            let [cost, length, count, _, _] = want.values.map(|n| n as usize);
            let reckoned = match want.number {
                0 => Ok(BestOrder { cost, turns: list[..length].to_vec(), count }),
                37 => Err(BestOrderRefusal::TooMany { count }),
                _ => Err(BestOrderRefusal::BadBudget),
            };
            assert_eq!(got, reckoned, "the best order within {budget}");
            seen.reply("best_order", want.number);
            if length > 0 && r.one_in(3) {
                assert_eq!(c.turn_all(&list[..length]), Ok(()));
                tables.call(&Call::TurnAll(list[..length].to_vec()), &mut []);
            }
        }
    }
    seen.report("best_orders_on_the_way", seed, cases, &[("best_order", &[0, 37, 38])]);
}

#[test]
fn best_orders_of_damaged_tables() {
    let (mut r, mut seen, cases) = (Random::seeded(), Seen::default(), 6_000);
    let seed = r.seed();
    for _ in 0..cases {
        let (_, mut tables) = after_calls(&mut r, &mut seen);
        altered::damaged(&mut r, &mut tables);
        let (list, budget) = (scrawled_list(&mut r), r.choice(&[0, 1, 2, 5, 30, BUDGET + 1]));
        compare_best(&mut seen, &tables, list, budget);
    }
    seen.report("best_orders_of_damaged_tables", seed, cases, &[("best_order", &[0, 37, 38, 40])]);
    seen.all_clauses(&["form", "leg", "drone count", "name", "stop count", "check 9", "dependency", "fixed turned", "cycle", "wait kept"]);
}

/// A table is short, or the list, or both; the rest may be damaged, and the budget out of range.
#[test]
fn best_orders_with_a_table_or_the_list_short() {
    let (mut r, mut seen, cases) = (Random::seeded(), Seen::default(), 4_000);
    let seed = r.seed();
    for _ in 0..cases {
        let (_, mut tables) = after_calls(&mut r, &mut seen);
        let (mut list, which) = (scrawled_list(&mut r), r.below(3));
        if r.one_in(4) {
            altered::damaged(&mut r, &mut tables);
        }
        if which < 2 {
            list.truncate(if r.one_in(4) { r.below(DEPENDENCIES) } else { DEPENDENCIES - 1 });
        }
        if which > 0 {
            altered::shortened(&mut r, &mut tables);
        }
        let budget = r.choice(&[0, 1, 30, BUDGET, BUDGET + 1]);
        compare_best(&mut seen, &tables, list, budget);
    }
    seen.report("best_orders_with_a_table_or_the_list_short", seed, cases, &[("best_order", &[41])]);
}

/// Drones, groups of them at crossings, and the stops of each: up to 4,096 dependencies and 2,048 stops.
const LIMITS: [(usize, &[usize], usize); 5] =
    [(64, &[64, 64], 32), (64, &[64, 64, 11, 4, 3], 20), (2, &[2, 2, 2], 1024), (32, &[32, 32, 32, 32, 11, 4, 3, 2], 20), (64, &[7, 7, 7], 32)];

/// From the start, and in flight: all go on as far as they may but one, which stays where it is, until few dependencies are open and then none.
#[test]
fn best_orders_at_the_limits() {
    let (mut r, mut seen, mut cases) = (Random::seeded(), Seen::default(), 0);
    let seed = r.seed();
    for ((drones, groups, stops), form) in LIMITS.into_iter().flat_map(|limit| [(limit, 1), (limit, 2)]) {
        let plan = plans::fitting(&mut r, form, &plans::crossings(groups, drones, stops)).checked().expect("taken");
        let (mut tables, _) = compare_reading(&mut seen, altered::scrawled(&mut r), None, &text_of(&plan));
        let late = drones - 1 - r.below(2);
        for _ in 0..7 {
            let (list, budget) = (scrawled_list(&mut r), budget(&mut r, &tables, 20));
            let (answer, list) = compare_best(&mut seen, &tables, list, budget);
            if answer.number == 0 {
                apply(&mut tables, &answer, &list);
            }
            cases += 1;
            for _ in 0..drones.min(24) {
                lent::make(&mut tables, &Call::Press(None), &mut []);
                let flying: Vec<usize> = (0..drones).filter(|d| *d != late && tables.drone_flags[*d] == 1).collect();
                flying.into_iter().for_each(|d| assert_eq!(lent::make(&mut tables, &Call::Arrive(d), &mut []).number, 0));
            }
        }
    }
    seen.report("best_orders_at_the_limits", seed, cases, &[("best_order", &[0, 37, 38])]);
}
