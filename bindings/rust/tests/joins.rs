//! Two plans joined by the library, against the independent reckoning and against the library's own reading of the joined text: the reply with its values, and every entry of every table afterwards.
mod inputs;
mod reckoning;

use inputs::calls::call as any_call;
use inputs::compared::{compare_call, compare_reading};
use inputs::joins::{alone, in_form, part, shortened, two_plans};
use inputs::seen::Seen;
use inputs::sites::{self, site_of};
use inputs::{lent, plans, tables as altered, Random};
use reckoning::plan::Plan;
use reckoning::site::Pairs;
use reckoning::text::of as text_of;
use reckoning::{Call, Reply, Tables, FULL, TEXT};

/// What a plan is written as by the library.
fn written(tables: &Tables) -> Vec<u8> {
    let mut text = vec![0; TEXT];
    let answer = lent::make(&mut tables.clone(), &Call::Write, &mut text);
    assert_eq!(answer.number, 0, "a sound plan is written");
    text.truncate(answer.values[0] as usize);
    text
}

/// The lines of the drones in a plan's text; with legs of one, and 0 at stop 0, where it has none and the joined text has.
fn drone_lines(text: &[u8], form: u8, joined_form: u8) -> Vec<u8> {
    let lines: Vec<&[u8]> = text.split(|b| *b == b'\n').collect();
    let mut drones = Vec::new();
    for (before, line) in lines[1..].iter().zip(&lines[2..]).take_while(|(_, line)| **line != b"end=plan") {
        let leg: &[u8] = match form < joined_form && line.starts_with(b"go=") {
            true if before.starts_with(b"stops=") => b"@0",
            true => b"@1",
            false => b"",
        };
        drones.extend([line, leg, b"\n"].concat());
    }
    drones
}

/// The joined text, cut together from what the library writes of each plan, and the site text of the first one's pairs.
fn joined_text(first: &Tables, second: &Tables) -> (Vec<u8>, Vec<u8>) {
    let form = first.form[0].max(second.form[0]);
    let drones = [first, second].map(|plan| drone_lines(&written(plan), plan.form[0], form)).concat();
    let head = format!("plan={form}\nagents={}\n", first.drone_count[0] + second.drone_count[0]);
    let pairs: Pairs = first.pairs[..FULL[11]].chunks(2).map(|pair| (pair[0].into(), pair[1].into())).take_while(|pair| pair.1 > 0).collect();
    (reckoning::site::of(&pairs), [head.as_bytes(), &drones, b"end=plan\n"].concat())
}

fn compare_join(seen: &mut Seen, first: &Tables, second: &Tables, third: &mut Tables) -> Reply {
    let (first_before, second_before) = (first.clone(), second.clone());
    let (mut reckoned, mut read) = (third.clone(), third.clone());
    let got = lent::join(first, second, third);
    let (want, clause) = reckoned.join(first, second);
    assert_eq!(got, want, "joining {first:?} and {second:?}");
    assert!(*third == reckoned, "tables after joining {first:?} and {second:?}");
    assert!(*first == first_before && *second == second_before, "the plans that were joined");
    if ![41, 40, 16].contains(&want.number) {
        let (site, text) = joined_text(first, second);
        assert_eq!(got, lent::read(&mut read, Some(&site), &text), "joining, and reading {}", String::from_utf8_lossy(&text));
        assert!(*third == read, "tables after joining, and after reading {}", String::from_utf8_lossy(&text));
        assert!(want.number != 0 || written(third) == text, "the joined plan is written as {}", String::from_utf8_lossy(&text));
    }
    seen.reply("join", want.number);
    clause.iter().for_each(|clause| seen.clause(clause));
    if want.number == 0 {
        seen.form(third.form[0]);
    }
    want
}

/// The plan read by the library; the tables may be longer than their full size.
fn read(r: &mut Random, plan: &Plan) -> Tables {
    let mut tables = Tables::zeroed(FULL);
    altered::lengthened(r, &mut tables);
    let site = site_of(r, plan);
    let (tables, answer) = compare_reading(&mut Seen::default(), tables, site.as_deref(), &text_of(plan));
    assert_eq!(answer.number, 0, "taken by itself");
    tables
}

/// Tables for the joined plan: with anything in them, or with what is there already.
fn third(r: &mut Random, before: Tables) -> Tables {
    if r.one_in(3) {
        return before;
    }
    let mut tables = altered::scrawled(r);
    altered::lengthened(r, &mut tables);
    tables
}

/// Calls on the joined plan, or on what a refusal has left: "Demand 3 speaks of a joined plan as of any other."
fn calls_on(r: &mut Random, seen: &mut Seen, tables: &mut Tables, most: usize) {
    let plan = reckoning::sound::sound(tables).map_or_else(|_| Plan::default(), |(plan, _)| plan);
    for _ in 0..r.between(1, most) {
        let call = any_call(r, &plan);
        compare_call(seen, tables, &call, 0);
    }
}

/// A few calls on a plan before it is joined: it may have started after them.
fn some_calls(r: &mut Random, tables: &mut Tables, plan: &Plan) {
    let plan = plan.clone().checked().expect("taken");
    for _ in 0..r.between(1, 4) {
        let call = if r.one_in(2) { Call::Turn(r.below(plan.dependencies.len())) } else { any_call(r, &plan) };
        compare_call(&mut Seen::default(), tables, &call, 0);
    }
}

#[test]
fn joins() {
    let (mut r, mut seen, cases) = (Random::seeded(), Seen::default(), 15_000);
    let seed = r.seed();
    let mut joined = Tables::zeroed(FULL);
    for _ in 0..cases {
        let plans = two_plans(&mut r);
        let mut tables = [read(&mut r, &plans[0]), read(&mut r, &plans[1])];
        if r.one_in(5) {
            let which = r.below(2);
            some_calls(&mut r, &mut tables[which], &plans[which]);
        }
        joined = third(&mut r, joined);
        let second = if r.one_in(40) { &tables[0] } else { &tables[1] };
        compare_join(&mut seen, &tables[0], second, &mut joined);
        calls_on(&mut r, &mut Seen::default(), &mut joined, 5);
    }
    seen.report("joins", seed, cases, &[("join", &[0, 4, 5, 10, 16])]);
}

/// One entry of either plan's tables is damaged, and then perhaps one of the other's.
#[test]
fn joins_of_damaged_tables() {
    let (mut r, mut seen, cases) = (Random::seeded(), Seen::default(), 15_000);
    let seed = r.seed();
    for _ in 0..cases {
        let plans = two_plans(&mut r);
        let mut tables = [read(&mut r, &plans[0]), read(&mut r, &plans[1])];
        let which = r.below(2);
        if r.one_in(4) {
            some_calls(&mut r, &mut tables[which], &plans[which]);
        }
        altered::damaged(&mut r, &mut tables[which]);
        if r.one_in(8) {
            altered::damaged(&mut r, &mut tables[1 - which]);
        }
        let mut joined = third(&mut r, Tables::zeroed(FULL));
        compare_join(&mut seen, &tables[0], &tables[1], &mut joined);
    }
    seen.report("joins_of_damaged_tables", seed, cases, &[("join", &[0, 4, 5, 10, 16, 40])]);
    seen.all_clauses(&[
        "form",
        "leg",
        "check 12",
        "gap in the pairs",
        "drone count",
        "name",
        "stop count",
        "check 9",
        "dependency",
        "fixed turned",
        "cycle",
        "wait kept",
    ]);
}

/// One table of the three sets is short; the rest may be damaged or may have started.
#[test]
fn joins_of_short_tables() {
    let (mut r, mut seen, cases) = (Random::seeded(), Seen::default(), 6_000);
    let seed = r.seed();
    for _ in 0..cases {
        let plans = two_plans(&mut r);
        let mut sets = [read(&mut r, &plans[0]), read(&mut r, &plans[1]), altered::scrawled(&mut r)];
        let (started, damaged, short) = (r.below(6), r.below(6), r.below(3));
        if started < 2 {
            some_calls(&mut r, &mut sets[started], &plans[started]);
        }
        if damaged < 2 {
            altered::damaged(&mut r, &mut sets[damaged]);
        }
        altered::shortened(&mut r, &mut sets[short]);
        let [first, second, mut joined] = sets;
        compare_join(&mut seen, &first, &second, &mut joined);
    }
    seen.report("joins_of_short_tables", seed, cases, &[("join", &[41])]);
}

/// Two plans at the limits, in each of the forms, then calls on the joined one.
fn at_a_limit(r: &mut Random, seen: &mut Seen, [first, second]: [&Plan; 2], number: usize) {
    for forms in [[1, 1], [1, 2], [2, 1], [2, 2]] {
        let (first, second) = (read(r, &in_form(first.clone(), forms[0])), read(r, &in_form(second.clone(), forms[1])));
        let mut joined = altered::scrawled(r);
        assert_eq!(compare_join(seen, &first, &second, &mut joined).number, number);
        calls_on(r, &mut Seen::default(), &mut joined, 10);
    }
}

/// A list of drones with so many stops each.
fn each(drones: usize, stops: usize) -> Vec<usize> {
    vec![stops; drones]
}

#[test]
fn joined_drones_and_stops_at_the_limits() {
    let (mut r, mut seen) = (Random::seeded(), Seen::default());
    let seed = r.seed();
    let one_more = |drones: usize, stops: usize| [each(drones - 1, stops), vec![stops + 1]].concat();
    let sizes = [
        (each(32, 32), each(32, 32), 0),
        (each(63, 1), each(1, 1985), 0),
        (each(1, 1), each(63, 32), 0),
        (each(1, 1024), each(1, 1024), 0),
        (each(33, 1), each(32, 1), 4),
        (each(32, 1), each(33, 1), 4),
        (each(64, 1), each(1, 1), 4),
        (each(1, 1), each(64, 32), 4),
        (each(64, 32), each(64, 1), 4),
        (each(32, 32), one_more(32, 32), 6),
        (each(1, 2048), each(1, 1), 6),
        (each(1, 1), each(1, 2048), 6),
        (each(2, 1024), each(3, 100), 6),
        (each(30, 40), each(30, 40), 6),
    ];
    let cases = 4 * sizes.len();
    for (first, second, number) in sizes {
        let plans = [alone(&mut r, 2, 0, &first), alone(&mut r, 2, first.len(), &second)];
        at_a_limit(&mut r, &mut seen, [&plans[0], &plans[1]], number);
    }
    seen.report("joined_drones_and_stops_at_the_limits", seed, cases, &[("join", &[0, 4, 6])]);
}

fn length_of(first: &Plan, second: &Plan) -> usize {
    text_of(&reckoning::join::joined(first, second)).len()
}

/// Two plans whose text may be too long, and then the same after a grant: 16 comes before 1.
fn too_long_or_not(r: &mut Random, seen: &mut Seen, plans: &[Plan; 2]) {
    let (length, mut tables) = (length_of(&plans[0], &plans[1]), [read(r, &plans[0]), read(r, &plans[1])]);
    let mut joined = altered::scrawled(r);
    let answer = compare_join(seen, &tables[0], &tables[1], &mut joined);
    assert_eq!(answer.number == 1, length > TEXT, "a text of {length} bytes");
    calls_on(r, &mut Seen::default(), &mut joined, 3);
    compare_call(&mut Seen::default(), &mut tables[r.below(2)], &Call::Grant(0), 0);
    assert_eq!(compare_join(seen, &tables[0], &tables[1], &mut joined).number, 16);
}

/// Joined texts of 65,536 bytes and of one more, and of others. A text so long has too many stops: where it is not too long it gets 6, or 4, or 5 where a name is shared before that.
#[test]
fn joined_texts_at_the_limits() {
    let (mut r, mut seen) = (Random::seeded(), Seen::default());
    let (seed, mut cases) = (r.seed(), 0);
    for forms in [[1, 1], [1, 2], [2, 1], [2, 2]] {
        for (first, second) in [(each(1, 2048), each(1, 2048)), (each(64, 32), each(40, 51)), (each(2, 1024), each(3, 682))] {
            let (first, mut second) = (alone(&mut r, forms[0], 0, &first), alone(&mut r, forms[1], first.len(), &second));
            let mut length = length_of(&first, &second);
            while length > TEXT + 500 {
                second.routes.iter_mut().max_by_key(|route| route.len()).map(Vec::pop);
                length = length_of(&first, &second);
            }
            for (wanted, name_shared) in [TEXT - 1, TEXT, TEXT + 1, length].into_iter().flat_map(|wanted| [(wanted, false), (wanted, true)]) {
                let mut shorter = [first.clone(), second.clone()];
                let at_first = r.below(length - wanted + 1);
                shortened(&mut shorter[0], at_first);
                shortened(&mut shorter[1], length - wanted - at_first);
                if name_shared {
                    shorter[1].names[0] = shorter[0].names[first.names.len() - 1].clone();
                }
                too_long_or_not(&mut r, &mut seen, &shorter);
                cases += 1;
            }
        }
    }
    seen.report("joined_texts_at_the_limits", seed, cases, &[("join", &[1, 4, 5, 6, 16])]);
}

/// Drones, groups of them at crossings, the stops of each drone, and the reply: 4,032, 4,093 and 4,096 dependencies, one more, and 4,133.
const DEPENDENT: [(usize, &[usize], usize, usize); 5] = [
    (64, &[64, 64], 32, 0),
    (64, &[64, 64, 11, 4], 20, 0),
    (64, &[64, 64, 11, 4, 3], 20, 0),
    (64, &[64, 64, 11, 4, 3, 2], 20, 11),
    (62, &[62, 62, 27], 33, 11),
];

/// The drones of such plans for two planners: the first ones for the first, every second one, and all but one.
#[test]
fn joined_dependencies_at_the_limits() {
    let (mut r, mut seen) = (Random::seeded(), Seen::default());
    let seed = r.seed();
    for (drones, groups, stops, number) in DEPENDENT {
        let whole = plans::fitting(&mut r, 2, &plans::crossings(groups, drones, stops));
        let ways: [&dyn Fn(usize) -> bool; 3] = [&|d| d < drones / 2, &|d| d % 2 == 1, &|d| d != drones / 3];
        for east in ways {
            at_a_limit(&mut r, &mut seen, [&part(&whole, east), &part(&whole, |d| !east(d))], number);
        }
    }
    seen.report("joined_dependencies_at_the_limits", seed, 12 * DEPENDENT.len(), &[("join", &[0, 11])]);
}

/// Drones, and how often each goes to a location of the site.
const NEAR: [(usize, usize); 5] = [(64, 1), (64, 4), (64, 30), (32, 62), (2, 1022)];

/// 256 pairs in a row, one location near 256 and all pairs among 23 locations.
#[test]
fn joined_near_at_the_limits() {
    let (mut r, mut seen) = (Random::seeded(), Seen::default());
    let (seed, mut cases) = (r.seed(), 0);
    for ((drones, visits), shape) in NEAR.into_iter().flat_map(|size| sites::SHAPES.map(|shape| (size, shape))) {
        let pairs: Pairs = shape();
        let places = pairs.iter().map(|pair| pair.1).max().unwrap_or(0) + 1;
        let routes = plans::one_by_one(&mut r, drones, visits, places);
        let whole = plans::fitting(&mut r, 2, &routes).at_site(pairs);
        let east = |d: usize| d < drones / 2;
        let parts = [part(&whole, east), part(&whole, |d| !east(d))];
        if parts.iter().all(|plan| plan.clone().checked().is_ok()) {
            let number = whole.checked().map_or_else(|refusal| refusal.number, |_| 0);
            at_a_limit(&mut r, &mut seen, [&parts[0], &parts[1]], number);
            cases += 4;
        }
    }
    seen.report("joined_near_at_the_limits", seed, cases, &[("join", &[0, 11])]);
}
