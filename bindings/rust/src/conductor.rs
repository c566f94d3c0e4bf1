use crate::ffi::{self, Dependency, PlanTables, SharedTables, Tables};
use crate::refusals::*;
#[cfg(feature = "alloc")]
use crate::TEXT;
use crate::{DEPENDENCIES, DRONES, NAME, PAIRS, STOPS};
#[cfg(feature = "alloc")]
use alloc::{vec, vec::Vec};

// The tables that a reading or a join alone writes.
#[derive(Clone, PartialEq, Eq)]
pub(crate) struct OwnPlan {
    pub(crate) drone_count: [u16; 1],
    pub(crate) dependency_count: [u16; 1],
    pub(crate) form: [u8; 1],
    pub(crate) names: [u8; DRONES * NAME],
    pub(crate) stop_counts: [u16; DRONES],
    pub(crate) locations: [u16; STOPS],
    pub(crate) times: [u32; STOPS],
    pub(crate) legs: [u8; STOPS],
    pub(crate) pairs: [u16; 2 * PAIRS],
}

impl OwnPlan {
    fn lent(&self) -> PlanTables<'_> {
        PlanTables {
            drone_count: &self.drone_count,
            dependency_count: &self.dependency_count,
            form: &self.form,
            names: &self.names,
            stop_counts: &self.stop_counts,
            locations: &self.locations,
            times: &self.times,
            legs: &self.legs,
            pairs: &self.pairs,
        }
    }
}

/// The conductor with tables of its own, all at full size, so that 41 never comes. Before a plan is read, and after one is refused by another number than 1, every call but a reading answers 40; 1 leaves the plan that was there.
#[derive(Clone, PartialEq, Eq)]
pub struct Conductor {
    pub(crate) plan: OwnPlan,
    pub(crate) visited: [u16; DRONES],
    pub(crate) drone_flags: [u8; DRONES],
    pub(crate) dependencies: [Dependency; DEPENDENCIES],
}

/// The cheapest directions from where the drones now are.
#[cfg(feature = "alloc")]
#[derive(Clone, Debug, PartialEq, Eq, Hash)]
pub struct BestOrder {
    /// The least cost of all choices without a cycle.
    pub cost: usize,
    /// The dependencies to turn for it, rising: of the choices of that cost the earliest. Empty where nothing can be gained; any other list is accepted by [`turn_all`](Conductor::turn_all).
    pub turns: Vec<u16>,
    /// How many choices the search entered, part-made ones and the empty one included.
    pub count: usize,
}

/// The drones that a press granted, one bit for each, bit 0 for drone 0.
#[derive(Clone, Copy, Debug, PartialEq, Eq, Hash)]
pub struct Granted(pub u64);

impl Granted {
    /// The granted drones, rising.
    pub fn drones(self) -> impl Iterator<Item = usize> {
        (0..DRONES).filter(move |d| self.0 >> d & 1 == 1)
    }
}

impl Default for Conductor {
    fn default() -> Conductor {
        Conductor::new()
    }
}

impl Conductor {
    /// A conductor without a plan.
    #[must_use]
    pub const fn new() -> Conductor {
        const UNUSED: Dependency = Dependency { first_stop: 0, second_stop: 0, first_drone: 0, second_drone: 0, flags: 0, reserved: 0 };
        Conductor {
            plan: OwnPlan {
                drone_count: [0],
                dependency_count: [0],
                form: [0],
                names: [0; DRONES * NAME],
                stop_counts: [0; DRONES],
                locations: [0; STOPS],
                times: [0; STOPS],
                legs: [0; STOPS],
                pairs: [0; 2 * PAIRS],
            },
            visited: [0; DRONES],
            drone_flags: [0; DRONES],
            dependencies: [UNUSED; DEPENDENCIES],
        }
    }

    /// Reads a plan text, with leg lengths (`plan=2`) or without (`plan=1`), and without a site text: only equal locations meet. The plan and the site that were held before are gone, unless the text is
    /// too long.
    pub fn read(&mut self, text: &[u8]) -> Result<(), ReadRefusal> {
        ReadRefusal::of(ffi::read(text, self.lent()))
    }

    /// Reads a plan text with a site text, which lists the pairs of locations that are near each other: two drones collide, or one waits for the other, where their locations are equal or near. An empty
    /// site text is refused; a plan without near crossings has a site text with `pairs=0`, or is read by [`read`](Conductor::read).
    ///
    /// ```
    /// let site = "site=1\npairs=1\nnear=5,6\nend=site\n";
    /// let text = "plan=1\nagents=2\nname=east\nstops=3\ngo=1@0\ngo=5@1\ngo=2@2\nname=west\nstops=3\ngo=3@0\ngo=6@4\ngo=4@5\nend=plan\n";
    /// let mut field = conductor::Conductor::new();
    /// field.read_site(site.as_bytes(), text.as_bytes())?;
    /// assert_eq!(field.grant(1).unwrap_err().to_string(), "refused with 23: the drone must wait: dependency 0 is not met");
    /// # Ok::<(), Box<dyn std::error::Error>>(())
    /// ```
    pub fn read_site(&mut self, site: &[u8], text: &[u8]) -> Result<(), ReadRefusal> {
        ReadRefusal::of(ffi::read_site(site, text, self.lent()))
    }

    /// Two plans made into one: this one's drones come first, then the other's, and times are kept. Neither may have started, and both must have been read with the same near pairs, which the joined plan
    /// keeps. It is what reading its own text would give, and of form 2 if either plan is. Neither of the two changes.
    ///
    /// ```
    /// let (mut east, mut west) = (conductor::Conductor::new(), conductor::Conductor::new());
    /// east.read(b"plan=1\nagents=1\nname=east\nstops=3\ngo=1@0\ngo=5@1\ngo=2@2\nend=plan\n")?;
    /// west.read(b"plan=1\nagents=1\nname=west\nstops=3\ngo=3@0\ngo=5@4\ngo=4@5\nend=plan\n")?;
    /// let mut both = east.join(&west)?;
    /// assert_eq!(both.grant(1).unwrap_err().to_string(), "refused with 23: the drone must wait: dependency 0 is not met");
    /// assert_eq!(east.join(&east).map(drop).unwrap_err().to_string(), "refused with 5: a name is that of an earlier drone: the line at byte 55 of the joined text");
    /// # Ok::<(), Box<dyn std::error::Error>>(())
    /// ```
    pub fn join(&self, other: &Conductor) -> Result<Conductor, JoinRefusal> {
        let mut joined = Conductor::new();
        JoinRefusal::of(ffi::join(self.shared(), other.shared(), joined.lent()))?;
        Ok(joined)
    }

    fn shared(&self) -> SharedTables<'_> {
        SharedTables { plan: self.plan.lent(), visited: &self.visited, drone_flags: &self.drone_flags, dependencies: &self.dependencies }
    }

    fn lent(&mut self) -> Tables<'_> {
        Tables {
            drone_count: &mut self.plan.drone_count,
            dependency_count: &mut self.plan.dependency_count,
            form: &mut self.plan.form,
            names: &mut self.plan.names,
            stop_counts: &mut self.plan.stop_counts,
            locations: &mut self.plan.locations,
            times: &mut self.plan.times,
            legs: &mut self.plan.legs,
            visited: &mut self.visited,
            drone_flags: &mut self.drone_flags,
            dependencies: &mut self.dependencies,
            pairs: &mut self.plan.pairs,
        }
    }

    /// Writes the plan's text in the form in which it was read, names in small letters and without its site text, and returns its length; bytes past it are as before.
    pub fn write(&self, buffer: &mut [u8]) -> Result<usize, WriteRefusal> {
        detail(ffi::write(buffer, self.plan.lent(), &self.visited, &self.drone_flags, &self.dependencies), WriteRefusal::of)
    }

    /// The plan's text.
    #[cfg(feature = "alloc")]
    pub fn text(&self) -> Result<Vec<u8>, WriteRefusal> {
        let mut text = vec![0; TEXT];
        let length = self.write(&mut text)?;
        text.truncate(length);
        Ok(text)
    }

    /// The drone becomes under way to its next stop.
    pub fn grant(&mut self, drone: usize) -> Result<(), GrantRefusal> {
        GrantRefusal::of(ffi::grant(self.plan.lent(), &self.visited, &mut self.drone_flags, &self.dependencies, drone))
    }

    /// The drone has come to its next stop.
    pub fn arrive(&mut self, drone: usize) -> Result<(), ArriveRefusal> {
        ArriveRefusal::of(ffi::arrive(self.plan.lent(), &mut self.visited, &mut self.drone_flags, &self.dependencies, drone).number)
    }

    /// The drone is carried home: it holds nothing, costs nothing and nobody waits for it any more. Nothing but a reading takes that back.
    pub fn withdraw(&mut self, drone: usize) -> Result<(), WithdrawRefusal> {
        WithdrawRefusal::of(ffi::withdraw(self.plan.lent(), &self.visited, &mut self.drone_flags, &self.dependencies, drone).number)
    }

    /// The order of a dependency's two drones is turned round.
    pub fn turn(&mut self, dependency: usize) -> Result<(), TurnRefusal> {
        TurnRefusal::of(ffi::turn(self.plan.lent(), &self.visited, &self.drone_flags, &mut self.dependencies, dependency).number)
    }

    /// A strictly rising list of dependencies is turned all at once.
    pub fn turn_all(&mut self, list: &[u16]) -> Result<(), TurnAllRefusal> {
        TurnAllRefusal::of(ffi::turn_all(self.plan.lent(), &self.visited, &self.drone_flags, &mut self.dependencies, list).number)
    }

    /// By how much a turn would change the cost (less is better), or what it would be refused by.
    pub fn preview(&self, dependency: usize) -> Result<i64, TurnRefusal> {
        change(ffi::preview(self.plan.lent(), &self.visited, &self.drone_flags, &self.dependencies, dependency), TurnRefusal::of)
    }

    /// The same of a list.
    pub fn preview_all(&self, list: &[u16]) -> Result<i64, TurnAllRefusal> {
        change(ffi::preview_all(self.plan.lent(), &self.visited, &self.drone_flags, &self.dependencies, list), TurnAllRefusal::of)
    }

    /// The drones' remaining rounds, added up, at most [`COST`](crate::COST). A stop is reached as many rounds as its leg has after the last stop that it awaits, its own drone's stop before it
    /// included; a drone under way counts its full leg.
    pub fn cost(&self) -> Result<usize, CostRefusal> {
        detail(ffi::cost(self.plan.lent(), &self.visited, &self.drone_flags, &self.dependencies), CostRefusal::of)
    }

    /// The undelayed rounds until every drone stands at its last stop.
    pub fn rounds(&self) -> Result<usize, CostRefusal> {
        detail(ffi::rounds(self.plan.lent(), &self.visited, &self.drone_flags, &self.dependencies), CostRefusal::of)
    }

    /// The cheapest directions: which dependencies to turn so that the cost is least, without a ring. The search enters at most `budget` choices, 1 to [`BUDGET`](crate::BUDGET). Nothing is turned by it.
    ///
    /// ```
    /// let mut field = conductor::Conductor::new();
    /// field.read(b"plan=1\nagents=2\nname=east\nstops=4\ngo=1@0\ngo=6@1\ngo=5@2\ngo=2@3\nname=west\nstops=3\ngo=3@0\ngo=5@4\ngo=4@5\nend=plan\n")?;
    /// let best = field.best_order(conductor::BUDGET)?;
    /// assert_eq!((field.cost()?, best.cost, &best.turns[..], best.count), (8, 6, &[0][..], 3));
    /// field.turn_all(&best.turns)?;
    /// assert_eq!(field.cost()?, 6);
    /// assert_eq!(field.best_order(1).unwrap_err().to_string(), "refused with 37: there are more choices than the budget: 1 were entered");
    /// # Ok::<(), Box<dyn std::error::Error>>(())
    /// ```
    #[cfg(feature = "alloc")]
    pub fn best_order(&self, budget: usize) -> Result<BestOrder, BestOrderRefusal> {
        let mut list = [0; DEPENDENCIES];
        let answer = ffi::best_order(self.plan.lent(), &self.visited, &self.drone_flags, &self.dependencies, &mut list, budget);
        BestOrderRefusal::of(answer, &list)
    }

    /// One press of the handset: takes the arrival that was reported, if one was, then grants every drone that may go.
    pub fn press(&mut self, reported: Option<usize>) -> Result<Granted, ArriveRefusal> {
        let answer = ffi::press(self.plan.lent(), &mut self.visited, &mut self.drone_flags, &self.dependencies, reported);
        detail(answer, ArriveRefusal::of).map(|bits| Granted(bits as u64))
    }
}

/// Writes a small plan for the bench by its number, 0 to 377, and returns its length; bytes past it are as before.
pub fn small_plan(number: usize, buffer: &mut [u8]) -> Result<usize, SmallPlanRefusal> {
    detail(ffi::small_plan(number, buffer), SmallPlanRefusal::of)
}
