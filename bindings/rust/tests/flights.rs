//! The customer's flights: document 01's "Flights to try" and those of the requests that have landed.
use conductor::*;

const Q: &str =
    "plan=1\nagents=2\nname=survey-quad-east-1\nstops=4\ngo=1@0\ngo=6@1\ngo=5@2\ngo=2@3\nname=survey-quad-east-2\nstops=3\ngo=3@0\ngo=5@4\ngo=4@5\nend=plan\n";

/// The text of drones named a, b, .. on these routes.
fn text(routes: &[&[(u32, u32)]]) -> String {
    let mut text = format!("plan=1\nagents={}\n", routes.len());
    for (d, route) in routes.iter().enumerate() {
        text += &format!("name=drone-{d}\nstops={}\n", route.len());
        route.iter().for_each(|(location, time)| text += &format!("go={location}@{time}\n"));
    }
    text + "end=plan\n"
}

/// The same with legs, in form 2.
fn text_with_legs(routes: &[&[(u32, u32, u32)]]) -> String {
    let mut text = format!("plan=2\nagents={}\n", routes.len());
    for (d, route) in routes.iter().enumerate() {
        text += &format!("name=drone-{d}\nstops={}\n", route.len());
        route.iter().for_each(|(location, time, leg)| text += &format!("go={location}@{time}@{leg}\n"));
    }
    text + "end=plan\n"
}

fn taken(text: &str) -> Conductor {
    let mut c = Conductor::new();
    c.read(text.as_bytes()).expect("taken");
    c
}

fn refusal(text: &str) -> ReadRefusal {
    let mut c = taken(Q);
    let refusal = c.read(text.as_bytes()).expect_err("refused");
    assert!(matches!(refusal, ReadRefusal::TooLong { .. }) || c == Conductor::new(), "the tables are zeroed");
    refusal
}

fn p() -> Conductor {
    taken(&text(&[&[(10, 0), (20, 1), (30, 2), (40, 3)], &[(11, 0), (20, 3), (30, 4), (41, 5)]]))
}

#[test]
fn input_q() {
    let mut c = taken(Q);
    assert_eq!(c.cost(), Ok(8));
    assert_eq!(c.grant(1), Err(GrantRefusal::MustWait(0)));
    assert_eq!(c.turn(0), Ok(()));
    assert_eq!(c.cost(), Ok(6));
    assert_eq!((c.grant(1), c.grant(0)), (Ok(()), Ok(())));
    assert_eq!(c.arrive(1), Ok(()));
    assert_eq!(c.arrive(1), Err(ArriveRefusal::NotUnderWay));
}

#[test]
fn q_and_a_collision() {
    let at_3 = Q.replace("go=5@4", "go=5@3");
    assert_eq!(refusal(&at_3), ReadRefusal::Collision(Visit { drone: 0, stop: 2 }, Visit { drone: 1, stop: 1 }));
    assert_eq!(refusal(&at_3).to_string(), "refused with 10: two drones collide: drone 0 at its stop 2, and drone 1 at its stop 1");
}

#[test]
fn p_alone_and_both_turned() {
    let mut c = p();
    assert_eq!((c.dependency_count(), c.cost()), (2, Ok(8)));
    assert_eq!((c.turn(0), c.turn(1)), (Err(TurnRefusal::Cycle), Err(TurnRefusal::Cycle)));
    assert_eq!(c.preview_all(&[0, 1]), Ok(0));
    assert_eq!(c.turn_all(&[0, 1]), Ok(()));
    assert_eq!(c.cost(), Ok(8));
    assert!(c.dependencies().all(|d| d.turned && d.first.drone == 1));
    assert_eq!(
        (c.turn_all(&[]), c.turn_all(&[1, 0]), c.turn_all(&[0, 0])),
        (Err(TurnAllRefusal::ListNotRising), Err(TurnAllRefusal::ListNotRising), Err(TurnAllRefusal::ListNotRising))
    );
    assert_eq!(c.turn_all(&[0, 2]), Err(TurnAllRefusal::NoSuchDependency));
}

#[test]
fn fixed_dependencies() {
    for routes in [[&[(5, 0), (6, 1)][..], &[(3, 0), (5, 2), (4, 3)]], [&[(1, 0), (5, 1), (2, 2)][..], &[(3, 0), (5, 3)]]] {
        let mut c = taken(&text(&routes));
        assert_eq!(c.turn(0), Err(TurnRefusal::Fixed));
        assert!(c.dependencies().all(|d| d.fixed && !d.turned));
    }
}

#[test]
fn under_way_and_the_turn() {
    let mut c = taken(Q);
    c.grant(0).unwrap();
    assert_eq!(c.clone().turn(0), Ok(()));
    c.arrive(0).unwrap();
    c.grant(0).unwrap();
    assert_eq!(c.turn(0), Err(TurnRefusal::Entered));
    assert_eq!(c.turn(0).unwrap_err().number(), 32);
}

#[test]
fn one_drone_one_stop() {
    let mut c = taken(&text(&[&[(7, 0)]]));
    assert_eq!((c.cost(), c.rounds(), c.grant(0)), (Ok(0), Ok(0), Err(GrantRefusal::Finished)));
}

#[test]
fn texts_at_their_limits() {
    assert_eq!(refusal(""), ReadRefusal::Form { offset: 0 });
    let many = |n: u32| text(&(0..n).map(|d| vec![(d, 0)]).collect::<Vec<_>>().iter().map(|r| &r[..]).collect::<Vec<_>>());
    assert_eq!((taken(&many(32)).drone_count(), taken(&many(33)).drone_count(), taken(&many(64)).drone_count()), (32, 33, 64));
    assert_eq!(refusal(&many(65)), ReadRefusal::Range { offset: 7 });
    let named = |name: &str| format!("plan=1\nagents=1\nname={name}\nstops=1\ngo=0@0\nend=plan\n");
    assert_eq!(taken(&named(&"a".repeat(24))).drone(0).unwrap().name.as_str().len(), 24);
    assert_eq!(refusal(&named(&"a".repeat(25))), ReadRefusal::Name { offset: 16 });
    let place_and_time = |line: &str| format!("plan=1\nagents=1\nname=a\nstops=2\ngo=0@0\ngo={line}\nend=plan\n");
    assert_eq!(refusal(&place_and_time("65536@1")), ReadRefusal::Range { offset: 38 });
    assert_eq!(taken(&place_and_time("65535@1000000")).drone(0).unwrap().stops[1], Stop { location: 65535, time: 1_000_000, leg: 1 });
    assert_eq!(refusal(&" ".repeat(65_536)), ReadRefusal::Form { offset: 0 });
    assert_eq!(refusal(&" ".repeat(65_537)), ReadRefusal::TooLong { offset: 65_536 });
}

#[test]
fn names_are_told_apart_by_all_their_bytes() {
    let c = taken(Q);
    let (east_1, east_2) = (Name::new("survey-quad-east-1").unwrap(), Name::new("Survey-QUAD-east-2").unwrap());
    assert!(east_1 != east_2);
    assert_eq!((c.drone_named(east_1), c.drone_named(east_2), c.drone_named(Name::new("survey-quad-east").unwrap())), (Some(0), Some(1), None));
    assert_eq!((Name::new(""), Name::new(&"a".repeat(25)), Name::new("a_b")), (None, None, None));
}

#[test]
fn request_2_preview() {
    let c = taken(Q);
    assert_eq!((c.preview(0), c.preview(1)), (Ok(-2), Err(TurnRefusal::NoSuchDependency)));
    assert!(c == taken(Q), "nothing changes");
}

#[test]
fn request_5_capitals() {
    let capitals = Q.replace("survey-quad-east-2", "SURVEY-Quad-East-2");
    assert_eq!(taken(&capitals).text().unwrap(), Q.as_bytes());
    assert_eq!(refusal(&capitals.replace("East-2", "East-1")).number(), 5);
    assert_eq!(refusal(&Q.replace("name=", "Name=")), ReadRefusal::Form { offset: 16 });
    assert_eq!(taken(&Q.replace("survey-quad-east-1", "ABCDEFGHIJKLMNOPQRSTUVWX")).drone(0).unwrap().name.to_string(), "abcdefghijklmnopqrstuvwx");
}

#[test]
fn request_8_handset() {
    let mut c = taken(Q);
    assert_eq!(c.press(Some(0)), Err(ArriveRefusal::NotUnderWay));
    assert_eq!(c.press(Some(2)), Err(ArriveRefusal::NoSuchDrone));
    let mut granted: Vec<usize> = c.press(None).unwrap().drones().collect();
    let mut presses = 1;
    assert_eq!(granted, [0]);
    let under_way = |c: &Conductor| c.drones().find(|drone| drone.under_way).map(|drone| drone.number);
    while let Some(drone) = under_way(&c) {
        granted.extend(c.press(Some(drone)).unwrap().drones());
        presses += 1;
    }
    assert_eq!((granted, presses), (vec![0, 0, 0, 1, 1], 6));
    assert!(c.drones().all(|drone| drone.finished()));
}

#[test]
fn request_9_small_plans() {
    let mut buffer = [0; 128];
    let length = small_plan(0, &mut buffer).unwrap();
    assert_eq!(&buffer[..length], b"plan=1\nagents=2\nname=a\nstops=1\ngo=0@0\nname=b\nstops=1\ngo=1@0\nend=plan\n");
    assert_eq!(small_plan(378, &mut buffer), Err(SmallPlanRefusal::NoSuchPlan));
    assert_eq!(small_plan(377, &mut buffer[..9]), Err(SmallPlanRefusal::BufferTooShort));
}

/// Drones of two stops each, every one alone.
fn alone(drones: u32) -> Conductor {
    let routes: Vec<Vec<(u32, u32)>> = (0..drones).map(|d| vec![(d, 0), (1000 + d, 1)]).collect();
    taken(&text(&routes.iter().map(|route| &route[..]).collect::<Vec<_>>()))
}

#[test]
fn request_12_sixty_four_drones() {
    let mut c = alone(64);
    assert_eq!((c.cost(), c.press(None)), (Ok(64), Ok(Granted(u64::MAX))));
    assert_eq!((c.press(Some(63)), c.press(Some(64))), (Ok(Granted(0)), Err(ArriveRefusal::NoSuchDrone)));
    assert_eq!(alone(33).press(None).unwrap().drones().collect::<Vec<_>>(), (0..33).collect::<Vec<_>>());
    assert_eq!((LEG * DRONES * (STOPS - DRONES), NAME * DRONES), (COST, 1536));
}

/// One drone has a long way, and all the others wait at its last crossing but one, in a row: as many rounds as there can be, and nearly the greatest cost.
#[test]
fn request_12_a_great_cost() {
    let way = (STOPS - 3 * DRONES) as u32;
    let runner: Vec<(u32, u32)> = (0..=way).map(|k| (20_000 + k, k)).chain([(7, way + 1), (8, way + 2)]).collect();
    let others = (1..DRONES as u32).map(|d| vec![(30_000 + d, 0), (7, way + 3 * d + 2), (31_000 + d, way + 3 * d + 3)]);
    let routes: Vec<Vec<(u32, u32)>> = std::iter::once(runner).chain(others).collect();
    let c = taken(&text(&routes.iter().map(|route| &route[..]).collect::<Vec<_>>()));
    assert_eq!((c.dependency_count(), c.rounds(), c.cost()), (2016, Ok(STOPS - DRONES), Ok(122_944)));
    let best = (0..c.dependency_count()).filter_map(|p| c.preview(p).ok()).min();
    assert!(best.is_some_and(|change| change < 0 && change > -(COST as i64)), "{best:?}");
}

#[test]
fn request_10_withdraw() {
    let mut c = taken(Q);
    assert_eq!((c.grant(1), c.cost(), c.rounds()), (Err(GrantRefusal::MustWait(0)), Ok(8), Ok(5)));
    assert_eq!((c.withdraw(0), c.withdraw(0), c.withdraw(2)), (Ok(()), Err(WithdrawRefusal::Withdrawn), Err(WithdrawRefusal::NoSuchDrone)));
    assert_eq!((c.cost(), c.rounds()), (Ok(2), Ok(2)));
    assert_eq!((c.grant(0), c.arrive(0), c.press(Some(0))), (Err(GrantRefusal::Withdrawn), Err(ArriveRefusal::Withdrawn), Err(ArriveRefusal::Withdrawn)));
    assert_eq!((c.turn(0), c.turn_all(&[0, 7]), c.preview(0)), (Err(TurnRefusal::Withdrawn), Err(TurnAllRefusal::Withdrawn), Err(TurnRefusal::Withdrawn)));
    assert_eq!((c.turn(1), c.turn(0).unwrap_err().number()), (Err(TurnRefusal::NoSuchDependency), 35));
    assert_eq!(c.press(None).unwrap().drones().collect::<Vec<_>>(), [1]);
    let east = c.drone(0).unwrap();
    assert_eq!((east.withdrawn, east.under_way, east.visited, east.holds().count()), (true, false, 0, 0));
    assert_eq!(c.text().unwrap(), Q.as_bytes());
    // under way to location 5, where the other drone goes next
    let mut c = taken(Q);
    assert_eq!((c.grant(0), c.arrive(0), c.grant(0), c.grant(1)), (Ok(()), Ok(()), Ok(()), Err(GrantRefusal::MustWait(0))));
    assert_eq!((c.withdraw(0), c.grant(1), c.arrive(0)), (Ok(()), Ok(()), Err(ArriveRefusal::Withdrawn)));
    assert_eq!((c.withdraw(1), c.cost(), c.rounds(), c.press(None)), (Ok(()), Ok(0), Ok(0), Ok(Granted(0))));
    c.read(Q.as_bytes()).unwrap();
    assert!(c.drones().all(|drone| !drone.withdrawn), "a reading leaves nobody withdrawn");
}

#[test]
fn request_13_rounds() {
    assert_eq!(taken(Q).rounds(), Ok(5));
}

/// Flight Q in form 2, with these legs into drone 0's stops 1 to 3 and drone 1's stops 1 and 2, and times that rise by them.
fn q_with_legs(legs: [u32; 5]) -> String {
    let [a, b, c, d, e] = legs;
    let leaves = a + b + c;
    text_with_legs(&[&[(1, 0, 0), (6, a, a), (5, a + b, b), (2, leaves, c)], &[(3, 0, 0), (5, leaves + d, d), (4, leaves + d + e, e)]])
}

#[test]
fn request_14_legs_of_one() {
    let (mut plain, mut legs) = (taken(Q), taken(&q_with_legs([1; 5])));
    assert_eq!((plain.form(), legs.form()), (1, 2));
    assert!(plain.drones().zip(legs.drones()).all(|(p, l)| p.stops == l.stops));
    assert_eq!(legs.drones().flat_map(|drone| drone.stops).map(|stop| stop.leg).collect::<Vec<_>>(), [0, 1, 1, 1, 0, 1, 1]);
    let replies = |c: &mut Conductor| (c.cost(), c.rounds(), c.grant(1), c.preview(0), c.turn(0), c.cost(), c.grant(1), c.grant(0), c.arrive(1), c.arrive(1));
    assert_eq!(replies(&mut plain), replies(&mut legs));
}

#[test]
fn request_14_a_long_leg() {
    // drone 0 into its stop 2 in three rounds: it reaches its stops at 1, 4 and 5, and drone 1, which may enter 5 only after that, at 6 and 7
    let mut c = taken(&q_with_legs([1, 3, 1, 1, 1]));
    assert_eq!((c.cost(), c.rounds(), c.preview(0)), (Ok(12), Ok(7), Ok(-4)));
    // under way it counts its full leg, and what it has flown of it makes no difference
    assert_eq!((c.grant(0), c.cost(), c.arrive(0), c.cost(), c.grant(0), c.cost()), (Ok(()), Ok(12), Ok(()), Ok(10), Ok(()), Ok(10)));
    // turned, drone 1 lands after 2 rounds; only then drone 0 flies the three rounds of its leg
    let mut c = taken(&q_with_legs([1, 3, 1, 1, 1]));
    assert_eq!((c.turn(0), c.cost(), c.rounds()), (Ok(()), Ok(8), Ok(6)));
    assert_eq!((c.withdraw(0), c.cost(), c.rounds()), (Ok(()), Ok(2), Ok(2)));
    assert_eq!(taken(&q_with_legs([60; 5])).cost(), Ok(8 * 60));
}

#[test]
fn request_14_written_as_read() {
    let text = q_with_legs([7, 3, 60, 1, 12]);
    assert_eq!(taken(&text).text().unwrap(), text.as_bytes());
    assert_eq!(taken(Q).text().unwrap(), Q.as_bytes());
    assert_eq!(taken(&text).drone(0).unwrap().stops.iter().map(|stop| stop.leg).collect::<Vec<_>>(), [0, 7, 3, 60]);
}

#[test]
fn request_14_refusals() {
    let with = |line: &str| text_with_legs(&[&[(1, 0, 0), (6, 10, 10), (5, 20, 10)]]).replace("go=5@20@10", line);
    let at = Visit { drone: 0, stop: 2 };
    // 8, 12 and 9 at one stop, in this order
    assert_eq!(refusal(&with("go=6@10@1")), ReadRefusal::NotRising(at));
    assert_eq!(refusal(&with("go=6@19@10")), ReadRefusal::LegTooLong(at));
    assert_eq!(refusal(&with("go=6@20@10")), ReadRefusal::SameLocation(at));
    assert_eq!(refusal(&with("go=5@69@60")), ReadRefusal::LegTooLong(at));
    assert_eq!(refusal(&with("go=5@69@60")).to_string(), "refused with 12: the time rises by less than the leg: drone 0 at its stop 2");
    assert_eq!((taken(&with("go=5@70@60")).cost(), taken(&with("go=5@11@1")).cost()), (Ok(70), Ok(11)));
    // a leg out of range, and another number of numbers
    let offset = with("").find("go=6@10@10\n").unwrap() + "go=6@10@10\n".len();
    for line in ["go=5@99@0", "go=5@99@61", "go=5@99@256", "go=65536@99@60", "go=5@1000001@60"] {
        assert_eq!(refusal(&with(line)), ReadRefusal::Range { offset }, "{line}");
    }
    for line in ["go=5@99", "go=5@99@", "go=5@99@1@1", "go=65536@99", "go=65536@99@01", "go=5@99@-1"] {
        assert_eq!(refusal(&with(line)), ReadRefusal::Form { offset }, "{line}");
    }
    assert_eq!(refusal(&text_with_legs(&[&[(1, 0, 1)]])), ReadRefusal::Range { offset: 37 });
    assert_eq!(refusal("plan=1\nagents=1\nname=drone-0\nstops=1\ngo=1@0@0\nend=plan\n"), ReadRefusal::Form { offset: 37 });
    for line in ["plan=0", "plan=3", "plan=01", "plan=12", "plan="] {
        assert_eq!(refusal(&Q.replace("plan=1", line)), ReadRefusal::Form { offset: 0 }, "{line}");
    }
}

/// The great cost of request 12 with the longest legs: sixty times as much, and previews that go nearly as far either way.
#[test]
fn request_14_a_great_cost() {
    let way = (STOPS - 3 * DRONES) as u32;
    let long = |k: u32| if k == 0 { 0 } else { LEG as u32 };
    let runner: Vec<(u32, u32, u32)> = (0..=way).map(|k| (20_000 + k, 60 * k, long(k))).chain([(7, 60 * (way + 1), 60), (8, 60 * (way + 2), 60)]).collect();
    let others = (1..DRONES as u32).map(|d| vec![(30_000 + d, 0, 0), (7, 60 * (way + 3 * d + 2), 60), (31_000 + d, 60 * (way + 3 * d + 3), 60)]);
    let routes: Vec<Vec<(u32, u32, u32)>> = std::iter::once(runner).chain(others).collect();
    let mut c = taken(&text_with_legs(&routes.iter().map(|route| &route[..]).collect::<Vec<_>>()));
    assert_eq!((c.dependency_count(), c.rounds(), c.cost()), (2016, Ok(LEG * (STOPS - DRONES)), Ok(LEG * 122_944)));
    // with the runner last of all the others land within 126 legs, and it waits for nobody
    let runner_first: Vec<u16> = c.dependencies().filter(|d| d.first.drone == 0).map(|d| d.number as u16).collect();
    assert_eq!((c.preview_all(&runner_first), c.turn_all(&runner_first), c.preview_all(&runner_first)), (Ok(-7_023_240), Ok(()), Ok(7_023_240)));
    assert_eq!((c.cost(), c.rounds()), (Ok(353_400), Ok(LEG * (way as usize + 2))));
}

/// The site text of these pairs.
fn site(pairs: &[(u32, u32)]) -> String {
    let lines: String = pairs.iter().map(|(a, b)| format!("near={a},{b}\n")).collect();
    format!("site=1\npairs={}\n{lines}end=site\n", pairs.len())
}

fn taken_at(pairs: &[(u32, u32)], text: &str) -> Conductor {
    let mut c = Conductor::new();
    c.read_site(site(pairs).as_bytes(), text.as_bytes()).expect("taken");
    c
}

fn refusal_at(site: &str, text: &str) -> ReadRefusal {
    let mut c = taken_at(&[(5, 6), (7, 8)], Q);
    let before = c.clone();
    let refusal = c.read_site(site.as_bytes(), text.as_bytes()).expect_err("refused");
    assert!(c == if refusal.number() == 1 { before } else { Conductor::new() }, "the tables are zeroed, or as before with 1");
    refusal
}

#[test]
fn request_7_near_at_one_time() {
    let routes: [&[(u32, u32)]; 2] = [&[(1, 0), (5, 1), (2, 2)], &[(3, 0), (6, 1), (4, 2)]];
    assert_eq!(taken(&text(&routes)).dependency_count(), 0);
    assert_eq!(taken_at(&[], &text(&routes)).dependency_count(), 0);
    assert_eq!(taken_at(&[(5, 7)], &text(&routes)).dependency_count(), 0);
    let collision = refusal_at(&site(&[(5, 6)]), &text(&routes));
    assert_eq!(collision, ReadRefusal::Collision(Visit { drone: 0, stop: 1 }, Visit { drone: 1, stop: 1 }));
    // whichever of the two comes to the lower location
    let turned: [&[(u32, u32)]; 2] = [routes[1], routes[0]];
    assert_eq!(refusal_at(&site(&[(5, 6)]), &text(&turned)), collision);
    // one timestep after the other has gone
    let later: [&[(u32, u32)]; 2] = [routes[0], &[(3, 0), (6, 3), (4, 4)]];
    assert_eq!(taken_at(&[(5, 6)], &text(&later)).dependency_count(), 1);
}

#[test]
fn request_7_q_with_6_near_4() {
    let mut c = taken_at(&[(4, 6)], Q);
    let order: Vec<_> = c.dependencies().map(|d| (d.first.stop, d.waits.stop, d.location, d.waits_location, d.fixed)).collect();
    assert_eq!(order, [(1, 2, 6, 4, true), (2, 1, 5, 5, false)]);
    // the last stop of drone 1 is at 4: it stays there, and the dependency is fixed
    assert_eq!((c.turn(0), c.turn(1)), (Err(TurnRefusal::Fixed), Err(TurnRefusal::Cycle)));
    assert_eq!((c.cost(), c.rounds()), (Ok(8), Ok(5)));
}

#[test]
fn request_7_q_with_5_and_6_near() {
    let mut c = taken_at(&[(5, 6)], Q);
    assert_eq!((c.dependency_count(), c.cost(), c.grant(1)), (2, Ok(8), Err(GrantRefusal::MustWait(0))));
    assert_eq!((c.turn(0), c.turn(1), c.preview(0)), (Err(TurnRefusal::Cycle), Err(TurnRefusal::Cycle), Err(TurnRefusal::Cycle)));
    assert_eq!((c.preview_all(&[0, 1]), c.turn_all(&[0, 1]), c.cost()), (Ok(-1), Ok(()), Ok(7)));
    assert_eq!((c.grant(0), c.grant(1)), (Err(GrantRefusal::MustWait(0)), Ok(())));
    assert_eq!(c.text().unwrap(), Q.as_bytes());
}

#[test]
fn request_7_three_in_a_row() {
    // 20 is near 21 and 21 near 22, but 20 is not near 22
    let routes: [&[(u32, u32)]; 3] = [&[(1, 0), (20, 1), (2, 2)], &[(3, 0), (21, 4), (4, 5)], &[(5, 0), (22, 1), (6, 2)]];
    let c = taken_at(&[(20, 21), (21, 22)], &text(&routes));
    assert_eq!(c.dependencies().map(|d| (d.first.drone, d.waits.drone)).collect::<Vec<_>>(), [(0, 1), (2, 1)]);
    assert_eq!((c.meets(20, 21), c.meets(21, 20), c.meets(22, 22), c.meets(20, 22)), (true, true, true, false));
    assert_eq!(c.near_pairs().collect::<Vec<_>>(), [(20, 21), (21, 22)]);
    assert_eq!((c.cost(), c.rounds()), (Ok(8), Ok(4)));
}

#[test]
fn request_7_only_different_drones_are_compared() {
    // one drone goes from a location to one near it; to the same it may not
    let c = taken_at(&[(20, 21)], &text(&[&[(20, 0), (21, 1), (20, 2)]]));
    assert_eq!((c.dependency_count(), c.cost()), (0, Ok(2)));
    assert_eq!(refusal_at(&site(&[(20, 21)]), &text(&[&[(20, 0), (21, 1), (21, 2)]])), ReadRefusal::SameLocation(Visit { drone: 0, stop: 2 }));
}

#[test]
fn request_7_a_site_and_none() {
    let mut c = taken_at(&[(5, 6)], Q);
    c.read(Q.as_bytes()).unwrap();
    assert!(c == taken(Q) && c == taken_at(&[], Q), "a reading without a site leaves no pairs");
    let all: Vec<(u32, u32)> = (0..256).map(|a| (a, 65_535 - a)).collect();
    assert_eq!(taken_at(&all, Q).near_pairs().count(), PAIRS);
}

#[test]
fn request_7_refusals() {
    let first = 15; // the offset of the first line `near=`
    let form = |offset| ReadRefusal::SiteForm { offset };
    let range = |offset| ReadRefusal::SiteRange { offset };
    assert_eq!(refusal_at("", Q), form(0));
    assert_eq!(
        refusal_at("", Q).to_string(),
        "refused with 13: a line of the site text is malformed, out of order, missing or surplus: the line at byte 0 of the site text"
    );
    for line in ["site=2", "site=01", "Site=1", "site=1 ", "plan=1", "site="] {
        assert_eq!(refusal_at(&site(&[]).replace("site=1", line), Q), form(0), "{line}");
    }
    for line in ["pairs=", "pairs=00", "pairs=+1", "pairs=00000001", "Pairs=0", "near=5,6"] {
        assert_eq!(refusal_at(&site(&[]).replace("pairs=0", line), Q), form(7), "{line}");
    }
    for line in ["pairs=257", "pairs=65536", "pairs=9999999"] {
        assert_eq!(refusal_at(&site(&[]).replace("pairs=0", line), Q), range(7), "{line}");
    }
    let with = |line: &str| site(&[(5, 6)]).replace("near=5,6", line);
    for line in
        ["near=5", "near=5,", "near=,6", "near=5,6,7", "near=5,06", "near=65536,06", "near=5@6", "near=5, 6", "near=12345678,6", "near=6,5 ", "near=-5,6", ""]
    {
        assert_eq!(refusal_at(&with(line), Q), form(first), "{line}");
    }
    for line in ["near=6,5", "near=5,5", "near=0,0", "near=5,65536", "near=65536,65537", "near=9999999,6"] {
        assert_eq!(refusal_at(&with(line), Q), range(first), "{line}");
    }
    let two = |line: &str| site(&[(5, 6), (7, 8)]).replace("near=7,8", line);
    for line in ["near=5,6", "near=4,65535", "near=5,5", "near=6,6"] {
        assert_eq!(refusal_at(&two(line), Q), range(first + 9), "{line}");
    }
    // a line missing or surplus, and bytes after the last
    assert_eq!(refusal_at("site=1\npairs=2\nnear=5,6\nend=site\n", Q), form(first + 9));
    assert_eq!(refusal_at("site=1\npairs=1\nnear=5,6\nnear=7,8\nend=site\n", Q), form(first + 9));
    assert_eq!(refusal_at("site=1\npairs=1\nnear=5,6\n", Q), form(first + 9));
    assert_eq!(refusal_at("site=1\npairs=1\nnear=5,6", Q), form(first));
    assert_eq!(refusal_at(&(site(&[(5, 6)]) + "\n"), Q), form(first + 18));
    // before the plan's own refusals, and after 41 alone
    let long = " ".repeat(65_537);
    assert_eq!(refusal_at(&with("near=6,5"), &long), range(first));
    assert_eq!(refusal_at(&site(&[(5, 6)]), &long), ReadRefusal::TooLong { offset: 65_536 });
    assert_eq!(refusal_at(&with("near=6,5"), ""), range(first));
    assert_eq!(refusal_at(&site(&[(5, 6)]), ""), ReadRefusal::Form { offset: 0 });
    assert_eq!(refusal_at(&site(&[(1, 3)]), Q), ReadRefusal::Collision(Visit { drone: 0, stop: 0 }, Visit { drone: 1, stop: 0 }));
}

/// Drones of a plan in a plan of their own: their lines in its text, from one on up to another.
fn planned(text: &str, from: usize, until: usize) -> String {
    let starts: Vec<usize> = text.match_indices("name=").map(|(at, _)| at).chain([text.len() - "end=plan\n".len()]).collect();
    format!("{}agents={}\n{}end=plan\n", &text[..7], until - from, &text[starts[from]..starts[until]])
}

/// Why two plans are not joined.
fn apart(first: &Conductor, second: &Conductor) -> JoinRefusal {
    let before = (first.clone(), second.clone());
    let refusal = first.join(second).expect_err("refused");
    assert!((first, second) == (&before.0, &before.1), "the plans that are joined do not change");
    refusal
}

#[test]
fn request_1_q_by_two_planners() {
    let (east, west) = (taken(&planned(Q, 0, 1)), taken(&planned(Q, 1, 2)));
    let mut both = east.join(&west).expect("joined");
    assert!(both == taken(Q), "the tables of Q, entry for entry");
    assert_eq!((both.cost(), both.rounds(), both.grant(1), both.preview(0)), (Ok(8), Ok(5), Err(GrantRefusal::MustWait(0)), Ok(-2)));
    assert_eq!(both.text().unwrap(), Q.as_bytes());
    // the other planner's drone first: it is drone 0, and the dependency is between the same stops
    let other = west.join(&east).expect("joined");
    let record = other.records()[0];
    assert_eq!((record.first_drone, record.first_stop, record.second_drone, record.second_stop), (1, 2, 0, 1));
    assert_eq!((other.cost(), other.drone(0).unwrap().name.as_str()), (Ok(8), "survey-quad-east-2"));
    // a joined plan is a plan as any other, and is joined again
    let north = taken(&text(&[&[(9, 0), (10, 1)]]));
    assert_eq!(east.join(&north).ok().and_then(|two| two.join(&west).ok()).map(|three| (three.drone_count(), three.cost())), Some((3, Ok(9))));
}

#[test]
fn request_1_a_name_shared() {
    let (east, namesake) = (taken(&planned(Q, 0, 1)), taken(&planned(Q, 1, 2).replace("survey-quad-east-2", "Survey-Quad-EAST-1")));
    assert_eq!(apart(&east, &namesake), JoinRefusal::SameName { offset: Q.rfind("name=").unwrap() });
    assert_eq!(apart(&east, &namesake).to_string(), "refused with 5: a name is that of an earlier drone: the line at byte 76 of the joined text");
    assert_eq!(apart(&east, &east), JoinRefusal::SameName { offset: 76 });
    // in form 2 the first plan's lines are longer, each stop's by its leg
    let legs = taken("plan=2\nagents=1\nname=survey-quad-east-1\nstops=1\ngo=9@0@0\nend=plan\n");
    assert_eq!(apart(&east, &legs), JoinRefusal::SameName { offset: 76 + 4 * 2 });
}

/// Drones of so many stops each, which meet nobody, numbered from some one on.
fn many(from: u32, drones: u32, stops: u32) -> Conductor {
    let mut text = format!("plan=1\nagents={drones}\n");
    for d in from..from + drones {
        text += &format!("name=d{d}\nstops={stops}\n");
        (0..stops).for_each(|k| text += &format!("go={}@{}\n", 20_000 + 2 * d + k % 2, if k == 0 { 0 } else { 900_000 + k }));
    }
    taken(&(text + "end=plan\n"))
}

#[test]
fn request_1_over_a_limit() {
    assert_eq!(many(0, 32, 32).join(&many(32, 32, 32)).map(|both| (both.drone_count(), both.cost())), Ok((64, Ok(64 * 31))));
    assert_eq!(apart(&many(0, 33, 1), &many(33, 32, 1)), JoinRefusal::TooManyDrones { offset: 7 });
    assert_eq!(apart(&many(0, 1, 1), &many(1, 64, 1)), JoinRefusal::TooManyDrones { offset: 7 });
    // 2,048 lines of the first plan, of which the first is shorter, and the lines before them and after
    let too_many = apart(&many(0, 1, 2048), &many(1, 1, 1));
    assert_eq!(too_many, JoinRefusal::TooManyStops { offset: 16 + 8 + 11 + 2047 * 16 + 11 + 8 });
    assert_eq!(too_many.to_string(), "refused with 6: the stops of all drones are more than 2,048: the line at byte 32806 of the joined text");
    assert_eq!(apart(&many(0, 1, 2048), &many(1, 1, 2048)), JoinRefusal::TooLong { offset: 65_536 });
    assert_eq!(apart(&many(0, 1, 2048), &many(1, 1, 2048)).to_string(), "refused with 1: the text is longer than 65,536 bytes");
    // thirty-two drones make 496 dependencies at each of three crossings, sixty-four 2,016
    let at_crossings = |from: u32| {
        let route = |d: u32| [(200 + d, 0)].into_iter().chain((0..3).flat_map(move |c| [(c, 1 + 1000 * c + 3 * d), (100 + d, 2 + 1000 * c + 3 * d)]));
        let routes: Vec<Vec<(u32, u32)>> = (from..from + 32).map(|d| route(d).collect()).collect();
        taken(&text(&routes.iter().map(|route| &route[..]).collect::<Vec<_>>()).replace("drone", &format!("from-{from}")))
    };
    assert_eq!(at_crossings(0).dependency_count(), 3 * 496);
    assert_eq!(apart(&at_crossings(0), &at_crossings(32)), JoinRefusal::TooManyDependencies);
}

#[test]
fn request_1_a_collision() {
    // two drones that meet nobody, and one that comes to 5 while Q's second drone is there: they are drones 0 to 2, Q's are drones 3 and 4
    let north = taken(&text(&[&[(9, 0)], &[(10, 0)], &[(8, 0), (7, 1), (5, 5)]]));
    let [at, other] = [Visit { drone: 2, stop: 2 }, Visit { drone: 4, stop: 1 }];
    assert_eq!(apart(&north, &taken(Q)), JoinRefusal::Collision(at, other));
    assert_eq!(apart(&north, &taken(Q)).to_string(), "refused with 10: two drones collide: drone 2 at its stop 2, and drone 4 at its stop 1");
    assert_eq!(apart(&taken(Q), &north), JoinRefusal::Collision(Visit { drone: 1, stop: 1 }, Visit { drone: 4, stop: 2 }));
}

#[test]
fn request_1_too_late() {
    let (q, north) = (taken(Q), taken(&text(&[&[(9, 0), (10, 1)]])));
    let after = |c: &Conductor, calls: fn(&mut Conductor)| {
        let mut c = c.clone();
        calls(&mut c);
        c
    };
    let started: [fn(&mut Conductor); 4] = [
        |c| c.grant(0).unwrap(),
        |c| assert_eq!((c.grant(0), c.arrive(0)), (Ok(()), Ok(()))),
        |c| c.withdraw(0).unwrap(),
        |c| c.press(None).map(drop).unwrap(),
    ];
    for calls in started {
        assert_eq!((apart(&after(&q, calls), &north), apart(&q, &after(&north, calls))), (JoinRefusal::Started, JoinRefusal::Started));
    }
    assert_eq!(apart(&after(&q, |c| c.turn(0).unwrap()), &north), JoinRefusal::Started);
    assert_eq!(apart(&north, &after(&q, |c| c.turn_all(&[0]).unwrap())), JoinRefusal::Started);
    let turned_twice = after(&q, |c| assert_eq!((c.turn(0), c.turn(0)), (Ok(()), Ok(()))));
    assert!(turned_twice.join(&north).ok() == q.join(&north).ok(), "turned twice is not turned");
    assert_eq!(
        apart(&after(&q, |c| c.withdraw(1).unwrap()), &north).to_string(),
        "refused with 16: a plan to be joined has started, has a turned dependency or a withdrawn drone, or the near pairs differ"
    );
    // 16 before 1, 4, 5 and 10, and after 40
    let long = after(&many(0, 1, 2048), |c| c.grant(0).unwrap());
    assert_eq!((apart(&long, &many(0, 1, 2048)), apart(&after(&q, |c| c.grant(0).unwrap()), &q)), (JoinRefusal::Started, JoinRefusal::Started));
    assert_eq!((apart(&long, &Conductor::new()), apart(&Conductor::new(), &q)), (JoinRefusal::NotSound, JoinRefusal::NotSound));
}

#[test]
fn request_1_and_7_near_pairs() {
    let parts = |pairs: &[(u32, u32)]| (taken_at(pairs, &planned(Q, 0, 1)), taken_at(pairs, &planned(Q, 1, 2)));
    let (near, other, none) = (parts(&[(5, 6)]), parts(&[(5, 7)]), parts(&[]));
    assert!(near.0.join(&near.1).ok() == Some(taken_at(&[(5, 6)], Q)), "the joined plan keeps them");
    for (first, second) in [(&near.0, &other.1), (&near.0, &none.1), (&none.0, &near.1), (&near.0, &taken(&planned(Q, 1, 2)))] {
        assert_eq!(apart(first, second), JoinRefusal::Started);
    }
    assert!(none.0.join(&taken(&planned(Q, 1, 2))).ok() == Some(taken(Q)), "no site text and one without pairs are the same");
    // 1 and 3 are near: both drones are there from the start
    let (east, west) = parts(&[(1, 3)]);
    assert_eq!(apart(&east, &west), JoinRefusal::Collision(Visit { drone: 0, stop: 0 }, Visit { drone: 1, stop: 0 }));
}

#[test]
fn request_1_and_14_one_of_each_form() {
    let legs = q_with_legs([7, 3, 60, 1, 12]);
    let (plain, long) = (taken(&text(&[&[(30, 0), (31, 4), (32, 9)]]).replace("drone-0", "plain")), taken(&legs));
    let both = plain.join(&long).expect("joined");
    let written = legs.replace("agents=2\n", "agents=3\nname=plain\nstops=3\ngo=30@0@0\ngo=31@4@1\ngo=32@9@1\n");
    assert_eq!((both.form(), both.text().unwrap()), (2, written.clone().into_bytes()));
    assert!(both == taken(&written));
    assert_eq!((long.join(&plain).map(|c| c.form()), plain.join(&taken(Q)).map(|c| c.form())), (Ok(2), Ok(1)));
    assert_eq!(
        both.drones().map(|drone| drone.stops.iter().map(|stop| stop.leg).collect()).collect::<Vec<Vec<u8>>>(),
        [vec![0, 1, 1], vec![0, 7, 3, 60], vec![0, 1, 12]]
    );
}

fn best(c: &Conductor) -> (usize, Vec<u16>, usize) {
    let best = c.best_order(BUDGET).expect("found");
    assert_eq!(c.best_order(best.count), Ok(best.clone()), "the budget may be the count itself");
    if best.count > 1 {
        let one_less = BestOrderRefusal::TooMany { count: best.count - 1 };
        assert_eq!(c.best_order(best.count - 1), Err(one_less), "one less is too few");
    }
    (best.cost, best.turns, best.count)
}

/// The list, if it is not empty, is accepted as a list of turns; its preview, and the cost after it, are as was said.
fn applied(mut c: Conductor) -> Conductor {
    let (before, best) = (c.cost().expect("a cost") as i64, c.best_order(BUDGET).expect("found"));
    if best.turns.is_empty() {
        assert_eq!((c.turn_all(&best.turns), before), (Err(TurnAllRefusal::ListNotRising), best.cost as i64));
        return c;
    }
    assert_eq!(c.preview_all(&best.turns), Ok(best.cost as i64 - before));
    assert_eq!((c.turn_all(&best.turns), c.cost()), (Ok(()), Ok(best.cost)));
    let after = c.best_order(BUDGET).expect("found");
    assert_eq!((after.cost, after.turns), (best.cost, vec![]), "nothing more can be gained");
    c
}

#[test]
fn request_11_q_and_p() {
    // the empty choice, the dependency left, and it turned
    assert_eq!(best(&taken(Q)), (6, vec![0], 3));
    assert_eq!(best(&applied(taken(Q))), (6, vec![], 2));
    // both left; both turned cost as much and come later, and a part with one turned is not below them
    assert_eq!(best(&p()), (8, vec![], 3));
    let mut both_turned = p();
    both_turned.turn_all(&[0, 1]).expect("accepted");
    assert_eq!(best(&both_turned), (8, vec![], 3));
    applied(p());
}

/// Three drones at one crossing: four of the six orders cost 14. The earliest of them turns 1 and 2.
#[test]
fn request_11_three_at_one_crossing() {
    let three = || taken(&text(&[&[(1, 0), (2, 1), (9, 2), (3, 3)], &[(11, 0), (9, 5), (13, 6)], &[(21, 0), (9, 8), (23, 9), (24, 10), (25, 11)]]));
    assert_eq!((three().cost(), best(&three())), (Ok(17), (14, vec![1, 2], 8)));
    applied(three());
    for (list, cost) in [(&[2][..], 17), (&[0], 14), (&[0, 1], 14), (&[0, 1, 2], 14), (&[1, 2], 14)] {
        let mut c = three();
        assert_eq!((c.turn_all(list), c.cost()), (Ok(()), Ok(cost)));
    }
    // the first drone is under way to the crossing: its two dependencies are no longer open
    let mut c = three();
    assert_eq!((c.grant(0), c.arrive(0), c.grant(0)), (Ok(()), Ok(()), Ok(())));
    assert_eq!(best(&c), (14, vec![], 2));
    // and without the second nothing is: one choice, the cost now
    c.withdraw(1).expect("carried home");
    assert_eq!(best(&c), (8, vec![], 1));
}

#[test]
fn request_11_legs_and_near_crossings() {
    assert_eq!(best(&taken(&q_with_legs([1, 3, 1, 1, 1]))), (8, vec![0], 3));
    let near = taken_at(&[(5, 6)], Q);
    assert_eq!(best(&near), (7, vec![0, 1], 5));
    applied(near);
}

#[test]
fn request_11_refusals() {
    let c = taken(Q);
    for budget in [0, BUDGET + 1, usize::MAX] {
        assert_eq!(c.best_order(budget), Err(BestOrderRefusal::BadBudget));
    }
    assert_eq!(c.best_order(1), Err(BestOrderRefusal::TooMany { count: 1 }));
    assert_eq!(c.best_order(2).unwrap_err().to_string(), "refused with 37: there are more choices than the budget: 2 were entered");
    assert_eq!(c.best_order(0).unwrap_err().to_string(), "refused with 38: the budget is not 1 to 100,000");
    assert_eq!(Conductor::new().best_order(0), Err(BestOrderRefusal::NotSound));
    assert_eq!(BestOrderRefusal::TooMany { count: 2 }.meaning(), "there are more choices than the budget");
    assert_eq!([BestOrderRefusal::TablesTooSmall, BestOrderRefusal::NotSound, BestOrderRefusal::BadBudget].map(|refusal| refusal.number()), [41, 40, 38]);
    assert!(c == taken(Q), "the tables don't change");
}

#[test]
fn without_a_plan() {
    let mut c = Conductor::new();
    assert_eq!(c.form(), 0);
    assert_eq!((c.cost(), c.grant(0), c.write(&mut [])), (Err(CostRefusal::NotSound), Err(GrantRefusal::NotSound), Err(WriteRefusal::NotSound)));
    assert_eq!(c.grant(0).unwrap_err().to_string(), "refused with 40: the tables hold no accepted plan");
    assert_eq!((c.drones().count(), c.dependencies().count()), (0, 0));
}

#[test]
fn every_number_has_a_meaning() {
    let told: Vec<usize> = (0..64).filter(|n| meaning(*n).is_some()).collect();
    assert_eq!(told, [1, 2, 3, 4, 5, 6, 7, 8, 9, 10, 11, 12, 13, 14, 15, 16, 20, 21, 22, 23, 24, 25, 30, 31, 32, 34, 35, 36, 37, 38, 40, 41, 42]);
    assert_eq!((TurnRefusal::Cycle.number(), TurnRefusal::Cycle.meaning()), (34, "drones would wait for each other in a ring"));
    let thousands = |n: usize| format!("{},{:03}", n / 1000, n % 1000);
    for (number, figure) in [(1, TEXT), (6, STOPS), (11, DEPENDENCIES), (38, BUDGET)] {
        assert!(meaning(number).unwrap().contains(&thousands(figure)), "the meaning of {number} names {figure}");
    }
}
