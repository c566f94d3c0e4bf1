//! The library against the independent reckoning: every reply with its values, and every entry of every table afterwards, those past a full size too.
mod inputs;
mod reckoning;

use conductor::Conductor;
use inputs::calls::{call as any_call, kind};
use inputs::compared::{buffer_length, compare_call, compare_reading, taken};
use inputs::seen::Seen;
use inputs::sites::{self, site_of};
use inputs::{joins, plans, tables as altered, texts, Random};
use reckoning::log::Log;
use reckoning::plan::{Plan, Stop};
use reckoning::site::Pairs;
use reckoning::text::of as text_of;
use reckoning::{Call, Reply, Tables, FULL};

const READ: &[usize] = &[0, 2, 3, 4, 5, 6, 7, 8, 9, 10, 12];
const READ_SITE: &[usize] = &[0, 1, 2, 3, 4, 5, 6, 7, 8, 9, 10, 12, 13, 14];
const EVERY: [&str; 11] = ["grant", "arrive", "withdraw", "turn", "turn_all", "preview", "preview_all", "cost", "rounds", "press", "write"];

/// What each call replies on sound tables of full size.
const SOUND: [(&str, &[usize]); 11] = [
    ("grant", &[0, 20, 21, 22, 23, 25]),
    ("arrive", &[0, 20, 24, 25]),
    ("withdraw", &[0, 20, 25]),
    ("turn", &[0, 30, 31, 32, 34, 35]),
    ("turn_all", &[0, 30, 31, 32, 34, 35, 36]),
    ("preview", &[0, 30, 31, 32, 34, 35]),
    ("preview_all", &[0, 30, 31, 32, 34, 35, 36]),
    ("cost", &[0]),
    ("rounds", &[0]),
    ("press", &[0, 20, 24, 25]),
    ("write", &[0, 42]),
];

#[test]
fn texts_whole_and_damaged() {
    let (mut r, mut seen, cases) = (Random::seeded(), Seen::default(), 45_000);
    let seed = r.seed();
    for _ in 0..cases {
        let plan = plans::plan(&mut r);
        let (mut site, mut text) = (site_of(&mut r, &plan), text_of(&plan));
        for _ in 0..r.below(3) {
            if !text.is_empty() {
                texts::damaged(&mut r, &mut text);
            }
        }
        for _ in 0..r.choice(&[0, 0, 1, 2]) {
            site.iter_mut().for_each(|site| sites::damaged(&mut r, site));
        }
        if site.is_some() && r.one_in(30) {
            text.resize(reckoning::TEXT + 1, b'\n');
        }
        let mut tables = altered::scrawled(&mut r);
        altered::lengthened(&mut r, &mut tables);
        compare_reading(&mut seen, tables, site.as_deref(), &text);
    }
    seen.report("texts_whole_and_damaged", seed, cases, &[("read", READ), ("read_site", READ_SITE)]);
}

/// Site texts, whole and damaged, for plans at near locations, and calls after each on what is then in the tables: nothing of a refused site or plan is left there, and after a text too long all that was
/// before. Now and then two locations more of the plan are near.
#[test]
fn sites_whole_and_damaged() {
    let (mut r, mut seen, cases) = (Random::seeded(), Seen::default(), 20_000);
    let seed = r.seed();
    let (mut tables, mut at_hand) = (Tables::zeroed(FULL), Plan::default());
    for _ in 0..cases {
        let mut plan = loop {
            let (_, plan) = taken(&mut r);
            if !plan.pairs.is_empty() || r.one_in(20) {
                break plan;
            }
        };
        if r.one_in(4) {
            plan.pairs = sites::with_two_visited(&mut r, &plan);
        }
        let mut site = reckoning::site::of(&plan.pairs);
        (0..r.below(3)).for_each(|_| sites::damaged(&mut r, &mut site));
        let text = if r.one_in(12) { vec![b'a'; reckoning::TEXT + r.below(3)] } else { text_of(&plan) };
        let (after, answer) = compare_reading(&mut seen, tables, Some(&site), &text);
        tables = after;
        match answer.number {
            0 => at_hand = reckoning::site::read(&site).and_then(|pairs| plan.at_site(pairs).checked()).expect("taken"),
            1 => {}
            _ => at_hand = Plan::default(),
        }
        let mut seen_after = Seen::default();
        for call in [Call::Cost, any_call(&mut r, &at_hand), any_call(&mut r, &at_hand)] {
            compare_call(&mut seen_after, &mut tables, &call, 0);
        }
    }
    seen.report("sites_whole_and_damaged", seed, cases, &[("read_site", &[0, 1, 2, 10, 13, 14])]);
}

#[test]
fn calls_on_tables() {
    let (mut r, mut seen, cases) = (Random::seeded(), Seen::default(), 15_000);
    let seed = r.seed();
    for _ in 0..cases {
        let (site, plan) = taken(&mut r);
        let mut tables = Tables::zeroed(FULL);
        altered::lengthened(&mut r, &mut tables);
        let (mut tables, _) = compare_reading(&mut seen, tables, site.as_deref(), &text_of(&plan));
        for _ in 0..r.below(30) {
            let call = any_call(&mut r, &plan);
            let length = buffer_length(&mut r, &call, &plan);
            compare_call(&mut seen, &mut tables, &call, length);
        }
    }
    seen.report("calls_on_tables", seed, cases, &SOUND);
}

#[test]
fn tables_damaged_in_one_entry() {
    let (mut r, mut seen, cases) = (Random::seeded(), Seen::default(), 30_000);
    let seed = r.seed();
    for _ in 0..cases {
        let (site, plan) = taken(&mut r);
        let mut tables = Tables::zeroed(FULL);
        altered::lengthened(&mut r, &mut tables);
        tables.read(site.as_deref(), &text_of(&plan));
        for _ in 0..r.below(12) {
            let call = any_call(&mut r, &plan);
            tables.call(&call, &mut []);
        }
        altered::damaged(&mut r, &mut tables);
        for _ in 0..6 {
            let call = any_call(&mut r, &plan);
            let length = buffer_length(&mut r, &call, &plan);
            compare_call(&mut seen, &mut tables, &call, length);
        }
    }
    let with_40: Vec<(&str, Vec<usize>)> = SOUND.iter().map(|(kind, numbers)| (*kind, [numbers, &[40][..]].concat())).collect();
    let with_40: Vec<(&str, &[usize])> = with_40.iter().map(|(kind, numbers)| (*kind, &numbers[..])).collect();
    seen.report("tables_damaged_in_one_entry", seed, cases, &with_40);
    seen.all_clauses(&["form", "leg", "unused leg", "check 12", "gap in the pairs", "A not below B", "pair not above the one before"]);
    seen.all_clauses(&[
        "drone count",
        "name",
        "same name",
        "stop count",
        "stops of all",
        "time range",
        "unused name",
        "unused stop count",
        "unused location",
        "unused time",
    ]);
    seen.all_clauses(&[
        "unused progress",
        "unused drone flags",
        "unused dependency",
        "check 7",
        "check 8",
        "check 9",
        "check 10",
        "dependency count",
        "dependency",
    ]);
    seen.all_clauses(&["other bits", "fixed bit", "fixed turned", "cycle", "drone flags", "past a last stop", "under way beyond a last stop", "wait kept"]);
}

#[test]
fn tables_too_short() {
    let (mut r, mut seen, cases) = (Random::seeded(), Seen::default(), 10_000);
    let seed = r.seed();
    for _ in 0..cases {
        let (mut site, plan) = taken(&mut r);
        let mut tables = Tables::zeroed(FULL);
        tables.read(site.as_deref(), &text_of(&plan));
        altered::shortened(&mut r, &mut tables);
        let text = if r.one_in(4) { vec![b'a'; reckoning::TEXT + 1] } else { text_of(&plan) };
        if r.one_in(4) {
            site.iter_mut().for_each(|site| sites::damaged(&mut r, site));
        }
        compare_reading(&mut seen, tables.clone(), site.as_deref(), &text);
        for _ in 0..4 {
            let call = any_call(&mut r, &plan);
            compare_call(&mut seen, &mut tables, &call, 64);
        }
    }
    let expected: Vec<(&str, &[usize])> = EVERY.iter().map(|kind| (*kind, &[41][..])).chain([("read", &[41][..]), ("read_site", &[41][..])]).collect();
    seen.report("tables_too_short", seed, cases, &expected);
}

/// Drones, groups of them at crossings, the stops of each drone, the reply to the reading, and the dependencies: 2,048 stops; 4,093 to 4,096 dependencies, and one more; before them the same of
/// the limits that held until point 12, with one more of each taken now.
const LIMITS: [(usize, &[usize], usize, usize, u16); 11] = [
    (32, &[32, 32, 32, 32], 32, 0, 1984),
    (32, &[32, 32, 32, 32, 11, 4, 3], 20, 0, 2048),
    (32, &[32, 32, 32, 32, 11, 4, 3, 2], 20, 0, 2049),
    (33, &[33, 33], 31, 0, 1056),
    (32, &[32, 32], 33, 0, 992),
    (64, &[64, 64], 32, 0, 4032),
    (64, &[64, 64, 11, 4], 20, 0, 4093),
    (64, &[64, 64, 11, 4, 2], 20, 0, 4094),
    (64, &[64, 64, 11, 4, 2, 2], 20, 0, 4095),
    (64, &[64, 64, 11, 4, 3], 20, 0, 4096),
    (64, &[64, 64, 11, 4, 3, 2], 20, 11, 0),
];

#[test]
fn at_the_limits() {
    let (mut r, mut seen) = (Random::seeded(), Seen::default());
    let seed = r.seed();
    let mut cases = 0;
    for ((drones, groups, stops, number, count), form) in LIMITS.into_iter().flat_map(|limit| [(limit, 1), (limit, 2)]) {
        let routes = plans::crossings(groups, drones, stops);
        let near = plans::fitting(&mut r, form, &split(&routes, groups.len())).at_site((0..groups.len()).map(|c| (c, 500 + c)).collect());
        let (near_tables, answer) = compare_reading(&mut seen, Tables::zeroed(FULL), Some(&reckoning::site::of(&near.pairs)), &text_of(&near));
        assert_eq!((answer.number, near_tables.dependency_count[0]), (number, count));
        let plan = plans::fitting(&mut r, form, &routes);
        let (mut tables, answer) = compare_reading(&mut seen, Tables::zeroed(FULL), None, &text_of(&plan));
        assert_eq!((answer.number, tables.dependency_count[0]), (number, count));
        assert!(number != 0 || tables.dependencies == near_tables.dependencies, "the same dependencies at near crossings as at equal ones");
        let plan = plan.checked().unwrap_or_default();
        let long = [Call::TurnAll((0..=65535).collect()), Call::PreviewAll((0..=65535).collect()), Call::TurnAll((0..=65535).rev().collect())];
        let calls = if number == 0 { 60 } else { 0 };
        for call in (0..calls).map(|_| any_call(&mut r, &plan)).chain(long).collect::<Vec<_>>() {
            let length = buffer_length(&mut r, &call, &plan);
            compare_call(&mut seen, &mut tables, &call, length);
            cases += 1;
        }
    }
    cases += texts_at_the_limits(&mut r, &mut seen);
    seen.report("at_the_limits", seed, cases, &[("read", &[0, 1, 2, 6, 11]), ("read_site", &[0, 1, 2, 6, 11, 13])]);
}

/// Each crossing is two locations, half of the drones going to the one and half to the other.
fn split(routes: &[Vec<(usize, usize)>], crossings: usize) -> Vec<Vec<(usize, usize)>> {
    let place = |d: usize, place: usize| if place < crossings && d % 2 == 1 { 500 + place } else { place };
    routes.iter().enumerate().map(|(d, route)| route.iter().map(|(p, time)| (place(d, *p), *time)).collect()).collect()
}

/// Drones, and how often each goes to a location of the site: none of them, some, and more than there may be dependencies.
const NEAR: [(usize, usize); 9] = [(64, 0), (64, 1), (64, 4), (64, 11), (64, 30), (32, 2), (32, 62), (2, 1022), (1, 2046)];

/// 256 pairs in a row, one location near 256 and all pairs among 23 locations, at the limits; besides, the same plans without a site.
#[test]
fn near_at_the_limits() {
    let (mut r, mut seen) = (Random::seeded(), Seen::default());
    let (seed, mut cases) = (r.seed(), 0);
    for ((drones, visits), shape) in NEAR.into_iter().flat_map(|size| sites::SHAPES.map(|shape| (size, shape))) {
        let pairs: Pairs = shape();
        let places = pairs.iter().map(|pair| pair.1).max().unwrap_or(0) + 1;
        let routes = plans::one_by_one(&mut r, drones, visits, places);
        let form = r.between(1, 2);
        let plan = plans::fitting(&mut r, form, &routes);
        let site = reckoning::site::of(&pairs);
        compare_reading(&mut seen, Tables::zeroed(FULL), None, &text_of(&plan));
        let (mut tables, answer) = compare_reading(&mut seen, altered::scrawled(&mut r), Some(&site), &text_of(&plan));
        let plan = plan.at_site(pairs).checked().unwrap_or_default();
        for _ in 0..if answer.number == 0 { 30 } else { 1 } {
            let call = any_call(&mut r, &plan);
            compare_call(&mut seen, &mut tables, &call, 0);
            cases += 1;
        }
    }
    seen.report("near_at_the_limits", seed, cases, &[("read_site", &[0, 11])]);
}

/// One stop too many; texts of 65,536 bytes and of more, and of the limit that held until point 12; each without a site text, with one, and with a site text that is far longer and refused.
fn texts_at_the_limits(r: &mut Random, seen: &mut Seen) -> usize {
    let mut routes = plans::crossings(&[64], 64, 32);
    routes[63].push((60_000, 900_000));
    let mut texts: Vec<Vec<u8>> = [1, 2].map(|form| text_of(&plans::plan_in(r, form, &routes))).into();
    for length in [32_768, 32_769, 65_535, 65_536, 65_537, 80_000] {
        for beginning in [&b""[..], b"plan=1\nagents=1\nname=a\nstops=1\ngo=1@0\nend=plan\n", b"plan=2\nagents=1\nname=a\nstops=1\ngo=1@0@0\nend=plan\n"] {
            let mut text = beginning.to_vec();
            text.resize(length, b'\n');
            texts.push(text);
        }
    }
    let whole = reckoning::site::of(&sites::SHAPES[1]());
    let long = [&whole[..], &vec![b'\n'; 1 << 20]].concat();
    for site in [None, Some(&whole[..]), Some(&long)] {
        texts.iter().for_each(|text| drop(compare_reading(seen, altered::scrawled(r), site, text)));
    }
    3 * texts.len()
}

/// Drones one after the other: each has at its stop 1 the last crossing of the one before it, where it may come only when that one has landed. Every stop's leg is on the longest chain.
fn one_after_the_other(drones: usize, stops: usize) -> Vec<Vec<(usize, usize)>> {
    let shared = |d: usize, k: usize| if k == 1 && d > 0 { d } else { d + 1 };
    let place = |d: usize, k: usize| if k == stops - 2 || (k == 1 && d > 0) { shared(d, k) } else { 1000 + 64 * d + k };
    (0..drones).map(|d| (0..stops).map(|k| (place(d, k), if k == 0 { 0 } else { 12_000 * d + 60 * k })).collect()).collect()
}

/// The library's rounds and cost against a play, with long legs at full size, before and while somebody flies. Of drones one after the other the rounds are the bound itself: "the sum of the unvisited
/// stops' legs".
#[test]
fn rounds_by_play() {
    let (mut r, mut seen) = (Random::seeded(), Seen::default());
    let (seed, mut cases) = (r.seed(), 0);
    let crossing: [(usize, &[usize], usize); 4] = [(64, &[64, 64], 32), (64, &[64, 64, 11, 4, 3], 20), (2, &[2, 2, 2], 1024), (32, &[32, 32, 32, 32], 64)];
    let crossing = crossing.map(|(drones, groups, stops)| (plans::crossings(groups, drones, stops), false));
    let chains = [one_after_the_other(64, 32), one_after_the_other(1, 2048)].map(|routes| (routes, true));
    for ((routes, chain), form) in crossing.iter().chain(&chains).flat_map(|routes| [(routes, 1), (routes, 2)]) {
        let plan = plans::fitting(&mut r, form, routes).checked().expect("taken");
        let (mut tables, _) = compare_reading(&mut seen, Tables::zeroed(FULL), None, &text_of(&plan));
        for step in 0..4 {
            let (_, status) = reckoning::sound::sound(&tables).expect("sound");
            let (played, left) = (status.played(&plan), status.legs_left(&plan));
            let (most, sum) = (played.iter().copied().max().unwrap_or(0), played.iter().sum());
            assert_eq!(compare_call(&mut seen, &mut tables, &Call::Rounds, 0), reckoning::accepted(most), "the rounds by play");
            assert_eq!(compare_call(&mut seen, &mut tables, &Call::Cost, 0), reckoning::accepted(sum), "the cost by play");
            assert!(most <= left && (step > 0 || !chain || most == left), "the bound");
            for _ in 0..60 {
                let (d, p) = (r.below(routes.len()), r.below(plan.dependencies.len()));
                let call = match r.below(40) {
                    0 => Call::Withdraw(d),
                    1..=9 => Call::Arrive(d),
                    10..=19 => Call::Turn(p),
                    20..=29 => Call::Press(None),
                    _ => Call::Press(Some(d)),
                };
                compare_call(&mut seen, &mut tables, &call, 0);
            }
            cases += 1;
        }
    }
    seen.report("rounds_by_play", seed, cases, &[("rounds", &[0]), ("cost", &[0])]);
}

/// Plans flown to the end by presses, each of a drone that is under way, with turns between them; every press is compared.
#[test]
fn flown_by_presses() {
    let (mut r, mut seen, cases) = (Random::seeded(), Seen::default(), 2_000);
    let seed = r.seed();
    for _ in 0..cases {
        let (site, plan) = taken(&mut r);
        let (mut tables, _) = compare_reading(&mut seen, Tables::zeroed(FULL), site.as_deref(), &text_of(&plan));
        let mut reported = None;
        let mut presses = 0;
        loop {
            if r.one_in(3) {
                compare_call(&mut seen, &mut tables, &Call::Turn(r.below(plan.dependencies.len())), 0);
            }
            compare_call(&mut seen, &mut tables, &Call::Press(reported), 0);
            presses += 1;
            let under_way: Vec<usize> = (0..plan.routes.len()).filter(|d| tables.drone_flags[*d] == 1).collect();
            if under_way.is_empty() {
                break;
            }
            reported = Some(r.choice(&under_way));
        }
        let arrivals: usize = (0..plan.routes.len()).map(|d| plan.last(d)).sum();
        assert_eq!(presses, arrivals + 1, "each press but the first takes one arrival, until nobody is left to arrive");
        assert_eq!(compare_call(&mut seen, &mut tables, &Call::Rounds, 0), reckoning::accepted(0));
    }
    seen.report("flown_by_presses", seed, cases, &[("press", &[0]), ("turn", &[0, 30, 31, 32, 34])]);
}

/// Plans flown by presses until nobody is under way, drones being carried home on the way: every drone then stands at its last stop or is withdrawn.
#[test]
fn flown_and_carried_home() {
    let (mut r, mut seen, cases) = (Random::seeded(), Seen::default(), 2_000);
    let seed = r.seed();
    for _ in 0..cases {
        let (site, plan) = taken(&mut r);
        let (mut tables, _) = compare_reading(&mut seen, Tables::zeroed(FULL), site.as_deref(), &text_of(&plan));
        let mut reported = None;
        loop {
            if r.one_in(8) {
                compare_call(&mut seen, &mut tables, &Call::Withdraw(r.below(plan.routes.len())), 0);
            }
            // the arrival of a drone that was withdrawn meanwhile is refused and grants nothing: the next press reports none
            if compare_call(&mut seen, &mut tables, &Call::Press(reported), 0).number != 0 {
                reported = None;
                continue;
            }
            let under_way: Vec<usize> = (0..plan.routes.len()).filter(|d| tables.drone_flags[*d] == 1).collect();
            if under_way.is_empty() {
                break;
            }
            reported = Some(r.choice(&under_way));
        }
        for d in 0..plan.routes.len() {
            assert!(tables.drone_flags[d] & 2 != 0 || usize::from(tables.visited[d]) == plan.last(d), "everybody else has landed");
        }
        assert_eq!(compare_call(&mut seen, &mut tables, &Call::Cost, 0), reckoning::accepted(0));
    }
    seen.report("flown_and_carried_home", seed, cases, &[("press", &[0, 25]), ("withdraw", &[0, 25])]);
}

// ---- whole lists of calls, through `Conductor` and by the log alone

fn through(c: &mut Conductor, call: &Call) -> Reply {
    fn all<T, R>(result: Result<T, R>, value: fn(T) -> i64, number: fn(&R) -> (usize, i64)) -> Reply {
        let (number, value) = result.map_or_else(|refusal| number(&refusal), |done| (0, value(done)));
        Reply { number, values: [value, 0, 0, 0, 0] }
    }
    let none = |()| 0;
    let count = |n: usize| n as i64;
    match call {
        Call::Grant(d) => all(c.grant(*d), none, |e| match e {
            conductor::GrantRefusal::MustWait(p) => (e.number(), *p as i64),
            _ => (e.number(), 0),
        }),
        Call::Arrive(d) => all(c.arrive(*d), none, |e| (e.number(), 0)),
        Call::Withdraw(d) => all(c.withdraw(*d), none, |e| (e.number(), 0)),
        Call::Turn(p) => all(c.turn(*p), none, |e| (e.number(), 0)),
        Call::TurnAll(list) => all(c.turn_all(list), none, |e| (e.number(), 0)),
        Call::Preview(p) => all(c.preview(*p), |change| change, |e| (e.number(), 0)),
        Call::PreviewAll(list) => all(c.preview_all(list), |change| change, |e| (e.number(), 0)),
        Call::Cost => all(c.cost(), count, |e| (e.number(), 0)),
        Call::Rounds => all(c.rounds(), count, |e| (e.number(), 0)),
        Call::Press(reported) => all(c.press(*reported), |granted| granted.0 as i64, |e| (e.number(), 0)),
        Call::Write => all(c.text(), |text| text.len() as i64, |e| (e.number(), 0)),
    }
}

/// What the conductor shows must be what the log says: the plan with its form, legs and near pairs, places, who is under way, who is withdrawn, what is turned, who goes first.
fn shows(c: &Conductor, log: &Log) {
    let status = log.status();
    assert_eq!(usize::from(c.form()), log.plan.form);
    assert_eq!(c.near_pairs().map(|(a, b)| (a.into(), b.into())).collect::<Pairs>(), log.plan.pairs);
    for (d, drone) in c.drones().enumerate() {
        assert_eq!((drone.number, drone.visited, drone.under_way, drone.withdrawn), (d, status.place[d], status.under_way[d], status.withdrawn[d]));
        assert_eq!(drone.name.as_str().as_bytes(), log.plan.names[d]);
        assert_eq!(c.drone_named(drone.name), Some(d));
        let stop = |stop: &conductor::Stop| Stop { location: stop.location.into(), time: stop.time as usize, leg: stop.leg.into() };
        assert_eq!(drone.stops.iter().map(stop).collect::<Vec<_>>(), log.plan.routes[d]);
    }
    assert_eq!(c.dependency_count(), log.plan.dependencies.len());
    for (p, dependency) in c.dependencies().enumerate() {
        let [a, s, b, k] = reckoning::graph::in_force(&log.plan, &status.turned, p);
        assert_eq!([dependency.first.drone, dependency.first.stop, dependency.waits.drone, dependency.waits.stop], [a, s, b, k]);
        assert_eq!((dependency.number, dependency.turned, dependency.fixed), (p, status.turned[p], log.plan.fixed(p)));
        assert_eq!(usize::from(dependency.location), log.plan.routes[a][s].location);
        assert_eq!(usize::from(dependency.waits_location), log.plan.routes[b][k].location);
    }
}

/// No two drones hold equal or near locations; while a drone is unfinished somebody is under way or a grant would be accepted; and after a press somebody is under way. All that among
/// those not withdrawn.
fn safe(c: &Conductor, pairs: &Pairs) {
    let flying = |drone: conductor::Drone| drone.under_way && !drone.withdrawn;
    let held: Vec<Vec<u16>> = c.drones().map(|drone| drone.holds().collect()).collect();
    for (d, own) in held.iter().enumerate() {
        for (a, b) in own.iter().flat_map(|a| held[..d].iter().flatten().map(move |b| (*a, *b))) {
            let met = reckoning::site::meet(pairs, a.into(), b.into());
            assert!(!met, "two drones hold locations {a} and {b}, which are equal or near");
            assert_eq!(c.meets(a, b), met);
        }
    }
    let waiting = c.drones().any(|drone| !drone.finished() && !drone.withdrawn);
    let moving = c.drones().any(flying) || (0..c.drone_count()).any(|d| c.clone().grant(d).is_ok());
    assert!(!waiting || moving, "nobody can go");
    let mut pressed = c.clone();
    pressed.press(None).expect("a press without a report is accepted");
    assert!(!waiting || pressed.drones().any(flying), "nobody goes after a press");
}

fn hold(c: &mut Conductor, site: Option<&[u8]>, plan: &Plan) {
    let text = text_of(plan);
    match site {
        None => c.read(&text),
        Some(site) => c.read_site(site, &text),
    }
    .expect("a plan that the reckoning takes");
}

/// The plan's drones in two plans, which are joined: "Demand 3 speaks of a joined plan as of any other."
fn joined(r: &mut Random, site: Option<&[u8]>, plan: &Plan) -> Conductor {
    let (mut first, mut second, here) = (Conductor::new(), Conductor::new(), r.between(1, plan.routes.len() - 1));
    hold(&mut first, site, &joins::part(plan, |d| d < here));
    hold(&mut second, site, &joins::part(plan, |d| d >= here));
    first.join(&second).unwrap_or_else(|refusal| panic!("{refusal}"))
}

#[test]
fn lists_of_calls() {
    let (mut r, mut seen, cases) = (Random::seeded(), Seen::default(), 10_000);
    let seed = r.seed();
    let mut c = Conductor::new();
    for case in 0..cases {
        let (site, plan) = taken(&mut r);
        if plan.routes.len() > 1 && r.one_in(4) {
            c = joined(&mut r, site.as_deref(), &plan);
        } else {
            hold(&mut c, site.as_deref(), &plan);
        }
        seen.form(c.form());
        let mut log = Log::new(plan);
        let calls: Vec<Call> = (0..r.below(40)).map(|_| any_call(&mut r, &log.plan)).collect();
        let replies: Vec<Reply> = calls.iter().map(|call| through(&mut c, call)).collect();
        let reckoned: Vec<Reply> = calls.iter().map(|call| log.call(call)).collect();
        assert_eq!(replies, reckoned, "{calls:?}");
        calls.iter().zip(&reckoned).for_each(|(call, answer)| seen.reply(kind(call), answer.number));
        shows(&c, &log);
        if case % 10 == 0 {
            safe(&c, &log.plan.pairs);
        }
    }
    let expected: Vec<(&str, &[usize])> = SOUND.iter().map(|(kind, n)| (*kind, if *kind == "write" { &[0][..] } else { n })).collect();
    seen.report("lists_of_calls", seed, cases, &expected);
}

#[test]
fn every_small_plan() {
    let mut seen = Seen::default();
    let texts = reckoning::small::every_small_plan();
    assert_eq!(texts.len(), conductor::SMALL_PLANS);
    let mut cases = 0;
    for number in (0..texts.len() + 3).chain([65_536, 1 << 32, usize::MAX]) {
        for length in [0, 1, 50, 128].into_iter().chain(texts.get(number).iter().flat_map(|text| [text.len() - 1, text.len(), text.len() + 1])) {
            let (mut buffer, mut reckoned) = (vec![0xa5; length], vec![0xa5; length]);
            let got = conductor::small_plan(number, &mut buffer).map_or_else(|e| reckoning::refused(e.number()), reckoning::accepted);
            let want = texts.get(number).map_or(reckoning::refused(15), |text| reckoning::text::copied(text, &mut reckoned));
            assert_eq!((got, &buffer), (want, &reckoned), "small plan {number} in {length} bytes");
            seen.reply("small_plan", want.number);
            cases += 1;
        }
    }
    seen.report("every_small_plan", 0, cases, &[("small_plan", &[0, 15, 42])]);
}
