//! Why a call was refused: an enum for each kind of call, with document 01's number and, by `Display`, words for a pilot.
#[cfg(feature = "alloc")]
use crate::conductor::BestOrder;
#[cfg(feature = "alloc")]
use crate::ffi::OrderAnswer;
use crate::ffi::{Answer, ChangeAnswer, ReadAnswer};
use core::error::Error;
use core::fmt;

/// One stop of one drone, both numbered from 0.
#[derive(Clone, Copy, Debug, PartialEq, Eq, Hash)]
pub struct Visit {
    /// The drone.
    pub drone: usize,
    /// Its stop.
    pub stop: usize,
}

impl fmt::Display for Visit {
    fn fmt(&self, f: &mut fmt::Formatter) -> fmt::Result {
        write!(f, "drone {} at its stop {}", self.drone, self.stop)
    }
}

/// What a refusal number means, in the words of the pilots' page; none for a number that no call answers.
#[must_use]
pub fn meaning(number: usize) -> Option<&'static str> {
    Some(match number {
        1 => "the text is longer than 65,536 bytes",
        2 => "a line is malformed, out of order, missing or surplus",
        3 => "a name is not 1 to 24 letters, digits and hyphens",
        4 => "a number is outside its range",
        5 => "a name is that of an earlier drone",
        6 => "the stops of all drones are more than 2,048",
        7 => "a drone's first stop is not at time 0",
        8 => "a stop's time is not after that of the stop before it",
        9 => "a stop has the location of the stop before it",
        10 => "two drones collide",
        11 => "the plan has more than 4,096 dependencies",
        12 => "the time rises by less than the leg",
        13 => "a line of the site text is malformed, out of order, missing or surplus",
        14 => "a number of the site text is outside its range, or a pair is not in order",
        15 => "there is no small plan of this number",
        16 => "a plan to be joined has started, has a turned dependency or a withdrawn drone, or the near pairs differ",
        20 => "there is no such drone",
        21 => "the drone stands at its last stop",
        22 => "the drone is already under way",
        23 => "the drone must wait",
        24 => "the drone is not under way",
        25 => "the drone is withdrawn",
        30 => "there is no such dependency",
        31 => "the dependency is fixed: it begins at a first stop or ends at a last one",
        32 => "the drone that goes first has already entered the crossing",
        34 => "drones would wait for each other in a ring",
        35 => "a drone of the dependency is withdrawn",
        36 => "the list is empty or does not rise",
        37 => "there are more choices than the budget",
        38 => "the budget is not 1 to 100,000",
        40 => "the tables hold no accepted plan",
        41 => "a table is below its full size",
        42 => "the buffer is shorter than the text",
        _ => return None,
    })
}

fn told(f: &mut fmt::Formatter, number: usize) -> fmt::Result {
    write!(f, "refused with {number}: {}", meaning(number).unwrap_or_default())
}

// The contracts leave no other number; a library that says one is not the proved one.
fn unknown(number: usize) -> ! {
    panic!("libboard.a answered {number}, which this call never does")
}

// Refusals that carry nothing but their number.
macro_rules! plain {
    ($(#[$doc:meta])* $name:ident { $($(#[$case_doc:meta])* $case:ident = $number:literal),+ $(,)? }) => {
        $(#[$doc])*
        #[derive(Clone, Copy, Debug, PartialEq, Eq, Hash)]
        pub enum $name {
            $($(#[$case_doc])* $case = $number),+
        }

        impl $name {
            /// The reply of a number that the library answered.
            pub fn of(number: usize) -> Result<(), $name> {
                match number {
                    0 => Ok(()),
                    $($number => Err($name::$case),)+
                    other => unknown(other),
                }
            }

            /// The refusal's number.
            #[must_use]
            pub fn number(&self) -> usize {
                *self as usize
            }

            /// What the number means.
            #[must_use]
            pub fn meaning(&self) -> &'static str {
                meaning(self.number()).unwrap_or_default()
            }
        }

        impl fmt::Display for $name {
            fn fmt(&self, f: &mut fmt::Formatter) -> fmt::Result {
                told(f, self.number())
            }
        }

        impl Error for $name {}
    };
}

plain! {
    /// Why an arrival, or a press of the handset, was refused.
    ArriveRefusal {
        /// 41: a table is below its full size.
        TablesTooSmall = 41,
        /// 40: the tables hold no accepted plan.
        NotSound = 40,
        /// 20: there is no such drone.
        NoSuchDrone = 20,
        /// 25: the drone is withdrawn.
        Withdrawn = 25,
        /// 24: the drone is not under way.
        NotUnderWay = 24,
    }
}

plain! {
    /// Why a drone was not withdrawn.
    WithdrawRefusal {
        /// 41: a table is below its full size.
        TablesTooSmall = 41,
        /// 40: the tables hold no accepted plan.
        NotSound = 40,
        /// 20: there is no such drone.
        NoSuchDrone = 20,
        /// 25: the drone is withdrawn.
        Withdrawn = 25,
    }
}

plain! {
    /// Why one dependency is not turned, or would not be.
    TurnRefusal {
        /// 41: a table is below its full size.
        TablesTooSmall = 41,
        /// 40: the tables hold no accepted plan.
        NotSound = 40,
        /// 30: there is no such dependency.
        NoSuchDependency = 30,
        /// 35: a drone of the dependency is withdrawn.
        Withdrawn = 35,
        /// 31: the dependency is fixed: it begins at a first stop or ends at a last one.
        Fixed = 31,
        /// 32: the drone that goes first has already entered the crossing.
        Entered = 32,
        /// 34: drones would wait for each other in a ring.
        Cycle = 34,
    }
}

plain! {
    /// Why a list of dependencies is not turned, or would not be.
    TurnAllRefusal {
        /// 41: a table is below its full size.
        TablesTooSmall = 41,
        /// 40: the tables hold no accepted plan.
        NotSound = 40,
        /// 36: the list is empty or does not rise.
        ListNotRising = 36,
        /// 30: there is no such dependency.
        NoSuchDependency = 30,
        /// 35: a drone of the dependency is withdrawn.
        Withdrawn = 35,
        /// 31: the dependency is fixed: it begins at a first stop or ends at a last one.
        Fixed = 31,
        /// 32: the drone that goes first has already entered the crossing.
        Entered = 32,
        /// 34: drones would wait for each other in a ring.
        Cycle = 34,
    }
}

plain! {
    /// Why there is no cost, and no number of rounds.
    CostRefusal {
        /// 41: a table is below its full size.
        TablesTooSmall = 41,
        /// 40: the tables hold no accepted plan.
        NotSound = 40,
    }
}

plain! {
    /// Why a plan was not written.
    WriteRefusal {
        /// 41: a table is below its full size.
        TablesTooSmall = 41,
        /// 40: the tables hold no accepted plan.
        NotSound = 40,
        /// 42: the buffer is shorter than the text.
        BufferTooShort = 42,
    }
}

plain! {
    /// Why a small plan was not written.
    SmallPlanRefusal {
        /// 15: there is no small plan of this number.
        NoSuchPlan = 15,
        /// 42: the buffer is shorter than the text.
        BufferTooShort = 42,
    }
}

/// Why a drone was not granted.
#[derive(Clone, Copy, Debug, PartialEq, Eq, Hash)]
pub enum GrantRefusal {
    /// 41: a table is below its full size.
    TablesTooSmall,
    /// 40: the tables hold no accepted plan.
    NotSound,
    /// 20: there is no such drone.
    NoSuchDrone,
    /// 25: the drone is withdrawn.
    Withdrawn,
    /// 21: the drone stands at its last stop.
    Finished,
    /// 22: the drone is already under way.
    UnderWay,
    /// 23: the drone must wait. With the lowest dependency that is not met.
    MustWait(usize),
}

impl GrantRefusal {
    /// The reply of an answer of the library.
    pub fn of(answer: Answer) -> Result<(), GrantRefusal> {
        Err(match answer.number {
            0 => return Ok(()),
            41 => GrantRefusal::TablesTooSmall,
            40 => GrantRefusal::NotSound,
            20 => GrantRefusal::NoSuchDrone,
            25 => GrantRefusal::Withdrawn,
            21 => GrantRefusal::Finished,
            22 => GrantRefusal::UnderWay,
            23 => GrantRefusal::MustWait(answer.detail),
            other => unknown(other),
        })
    }

    /// The refusal's number.
    #[must_use]
    pub fn number(&self) -> usize {
        match self {
            GrantRefusal::TablesTooSmall => 41,
            GrantRefusal::NotSound => 40,
            GrantRefusal::NoSuchDrone => 20,
            GrantRefusal::Withdrawn => 25,
            GrantRefusal::Finished => 21,
            GrantRefusal::UnderWay => 22,
            GrantRefusal::MustWait(_) => 23,
        }
    }

    /// What the number means.
    #[must_use]
    pub fn meaning(&self) -> &'static str {
        meaning(self.number()).unwrap_or_default()
    }
}

impl fmt::Display for GrantRefusal {
    fn fmt(&self, f: &mut fmt::Formatter) -> fmt::Result {
        told(f, self.number())?;
        match self {
            GrantRefusal::MustWait(dependency) => write!(f, ": dependency {dependency} is not met"),
            _ => Ok(()),
        }
    }
}

impl Error for GrantRefusal {}

/// Why a plan text was not taken. The offset is that of the line at fault, from the plan text's first byte, with [`SiteForm`](ReadRefusal::SiteForm) and [`SiteRange`](ReadRefusal::SiteRange) from the site
/// text's. A collision is at equal or near locations.
#[derive(Clone, Copy, Debug, PartialEq, Eq, Hash)]
pub enum ReadRefusal {
    /// 41: a table is below its full size.
    TablesTooSmall,
    /// 13: a line of the site text is malformed, out of order, missing or surplus.
    SiteForm {
        /// Where the line begins, in the site text.
        offset: usize,
    },
    /// 14: a number of the site text is outside its range, or a pair is not in order.
    SiteRange {
        /// Where the line begins, in the site text.
        offset: usize,
    },
    /// 1: the text is longer than 65,536 bytes.
    TooLong {
        /// Where the text was to end: 65,536.
        offset: usize,
    },
    /// 2: a line is malformed, out of order, missing or surplus.
    Form {
        /// Where the line begins.
        offset: usize,
    },
    /// 3: a name is not 1 to 24 letters, digits and hyphens.
    Name {
        /// Where the line begins.
        offset: usize,
    },
    /// 4: a number is outside its range.
    Range {
        /// Where the line begins.
        offset: usize,
    },
    /// 5: a name is that of an earlier drone.
    SameName {
        /// Where the line begins.
        offset: usize,
    },
    /// 6: the stops of all drones are more than 2,048.
    TooManyStops {
        /// Where the line begins.
        offset: usize,
    },
    /// 7: a drone's first stop is not at time 0.
    StartsLate(Visit),
    /// 8: a stop's time is not after that of the stop before it.
    NotRising(Visit),
    /// 12: the time rises by less than the leg.
    LegTooLong(Visit),
    /// 9: a stop has the location of the stop before it.
    SameLocation(Visit),
    /// 10: two drones collide.
    Collision(Visit, Visit),
    /// 11: the plan has more than 4,096 dependencies.
    TooManyDependencies,
}

impl ReadRefusal {
    /// The reply of an answer of the library.
    pub fn of(a: ReadAnswer) -> Result<(), ReadRefusal> {
        let (offset, at) = (a.offset, Visit { drone: a.drone, stop: a.stop });
        Err(match a.number {
            0 => return Ok(()),
            41 => ReadRefusal::TablesTooSmall,
            13 => ReadRefusal::SiteForm { offset },
            14 => ReadRefusal::SiteRange { offset },
            1 => ReadRefusal::TooLong { offset },
            2 => ReadRefusal::Form { offset },
            3 => ReadRefusal::Name { offset },
            4 => ReadRefusal::Range { offset },
            5 => ReadRefusal::SameName { offset },
            6 => ReadRefusal::TooManyStops { offset },
            7 => ReadRefusal::StartsLate(at),
            8 => ReadRefusal::NotRising(at),
            12 => ReadRefusal::LegTooLong(at),
            9 => ReadRefusal::SameLocation(at),
            10 => ReadRefusal::Collision(at, Visit { drone: a.other_drone, stop: a.other_stop }),
            11 => ReadRefusal::TooManyDependencies,
            other => unknown(other),
        })
    }

    /// The refusal's number.
    #[must_use]
    pub fn number(&self) -> usize {
        match self {
            ReadRefusal::TablesTooSmall => 41,
            ReadRefusal::SiteForm { .. } => 13,
            ReadRefusal::SiteRange { .. } => 14,
            ReadRefusal::TooLong { .. } => 1,
            ReadRefusal::Form { .. } => 2,
            ReadRefusal::Name { .. } => 3,
            ReadRefusal::Range { .. } => 4,
            ReadRefusal::SameName { .. } => 5,
            ReadRefusal::TooManyStops { .. } => 6,
            ReadRefusal::StartsLate(_) => 7,
            ReadRefusal::NotRising(_) => 8,
            ReadRefusal::LegTooLong(_) => 12,
            ReadRefusal::SameLocation(_) => 9,
            ReadRefusal::Collision(..) => 10,
            ReadRefusal::TooManyDependencies => 11,
        }
    }

    /// What the number means.
    #[must_use]
    pub fn meaning(&self) -> &'static str {
        meaning(self.number()).unwrap_or_default()
    }

    /// The byte offset of the line at fault: in the plan text with 2 to 6, in the site text with 13 and 14; with 1 the limit of the text.
    #[must_use]
    pub fn offset(&self) -> Option<usize> {
        match *self {
            ReadRefusal::TooLong { offset } | ReadRefusal::Form { offset } | ReadRefusal::Name { offset } => Some(offset),
            ReadRefusal::Range { offset } | ReadRefusal::SameName { offset } | ReadRefusal::TooManyStops { offset } => Some(offset),
            ReadRefusal::SiteForm { offset } | ReadRefusal::SiteRange { offset } => Some(offset),
            _ => None,
        }
    }
}

impl fmt::Display for ReadRefusal {
    fn fmt(&self, f: &mut fmt::Formatter) -> fmt::Result {
        told(f, self.number())?;
        match self {
            ReadRefusal::StartsLate(at) | ReadRefusal::NotRising(at) | ReadRefusal::LegTooLong(at) | ReadRefusal::SameLocation(at) => write!(f, ": {at}"),
            ReadRefusal::Collision(at, other) => write!(f, ": {at}, and {other}"),
            ReadRefusal::TooLong { .. } => Ok(()),
            ReadRefusal::SiteForm { offset } | ReadRefusal::SiteRange { offset } => write!(f, ": the line at byte {offset} of the site text"),
            _ => self.offset().map_or(Ok(()), |offset| write!(f, ": the line at byte {offset}")),
        }
    }
}

impl Error for ReadRefusal {}

/// Why two plans were not joined. `Started` is said where a drone of either has visited its stop 1, is under way or withdrawn, or a dependency of either is turned, or the near pairs differ. The offset is
/// that of the line at fault in the joined plan's own text, or 65,536, the limit, of `TooLong`, and a collision has the drones as the joined plan numbers them: those of the first plan, then those of the second.
#[derive(Clone, Copy, Debug, PartialEq, Eq, Hash)]
pub enum JoinRefusal {
    /// 41: a table is below its full size.
    TablesTooSmall,
    /// 40: the tables hold no accepted plan.
    NotSound,
    /// 16: a plan to be joined has started, has a turned dependency or a withdrawn drone, or the near pairs differ.
    Started,
    /// 1: the text is longer than 65,536 bytes.
    TooLong {
        /// Where the text was to end: 65,536.
        offset: usize,
    },
    /// 4: a number is outside its range.
    TooManyDrones {
        /// Where the line begins, in the joined plan's own text.
        offset: usize,
    },
    /// 5: a name is that of an earlier drone.
    SameName {
        /// Where the line begins, in the joined plan's own text.
        offset: usize,
    },
    /// 6: the stops of all drones are more than 2,048.
    TooManyStops {
        /// Where the line begins, in the joined plan's own text.
        offset: usize,
    },
    /// 10: two drones collide.
    Collision(Visit, Visit),
    /// 11: the plan has more than 4,096 dependencies.
    TooManyDependencies,
}

impl JoinRefusal {
    /// The reply of an answer of the library.
    pub fn of(a: ReadAnswer) -> Result<(), JoinRefusal> {
        let offset = a.offset;
        Err(match a.number {
            0 => return Ok(()),
            41 => JoinRefusal::TablesTooSmall,
            40 => JoinRefusal::NotSound,
            16 => JoinRefusal::Started,
            1 => JoinRefusal::TooLong { offset },
            4 => JoinRefusal::TooManyDrones { offset },
            5 => JoinRefusal::SameName { offset },
            6 => JoinRefusal::TooManyStops { offset },
            10 => JoinRefusal::Collision(Visit { drone: a.drone, stop: a.stop }, Visit { drone: a.other_drone, stop: a.other_stop }),
            11 => JoinRefusal::TooManyDependencies,
            other => unknown(other),
        })
    }

    /// The refusal's number.
    #[must_use]
    pub fn number(&self) -> usize {
        match self {
            JoinRefusal::TablesTooSmall => 41,
            JoinRefusal::NotSound => 40,
            JoinRefusal::Started => 16,
            JoinRefusal::TooLong { .. } => 1,
            JoinRefusal::TooManyDrones { .. } => 4,
            JoinRefusal::SameName { .. } => 5,
            JoinRefusal::TooManyStops { .. } => 6,
            JoinRefusal::Collision(..) => 10,
            JoinRefusal::TooManyDependencies => 11,
        }
    }

    /// What the number means.
    #[must_use]
    pub fn meaning(&self) -> &'static str {
        meaning(self.number()).unwrap_or_default()
    }

    /// The byte offset of the line at fault in the joined plan's own text.
    #[must_use]
    pub fn offset(&self) -> Option<usize> {
        match *self {
            JoinRefusal::TooLong { offset } | JoinRefusal::TooManyDrones { offset } => Some(offset),
            JoinRefusal::SameName { offset } | JoinRefusal::TooManyStops { offset } => Some(offset),
            _ => None,
        }
    }
}

impl fmt::Display for JoinRefusal {
    fn fmt(&self, f: &mut fmt::Formatter) -> fmt::Result {
        told(f, self.number())?;
        match self {
            JoinRefusal::Collision(at, other) => write!(f, ": {at}, and {other}"),
            JoinRefusal::TooLong { .. } => Ok(()),
            _ => self.offset().map_or(Ok(()), |offset| write!(f, ": the line at byte {offset} of the joined text")),
        }
    }
}

impl Error for JoinRefusal {}

/// Why no cheapest order was found. `TooMany` has the budget, which is how many choices were entered: the full walk would enter more. The pilot then raises the budget, if it is below
/// [`BUDGET`](crate::BUDGET), or flies on and asks again when fewer dependencies are open.
#[derive(Clone, Copy, Debug, PartialEq, Eq, Hash)]
pub enum BestOrderRefusal {
    /// 41: a table is below its full size.
    TablesTooSmall,
    /// 40: the tables hold no accepted plan.
    NotSound,
    /// 38: the budget is not 1 to 100,000.
    BadBudget,
    /// 37: there are more choices than the budget.
    TooMany {
        /// How many were entered: the budget.
        count: usize,
    },
}

impl BestOrderRefusal {
    /// The reply of an answer of the library, with the list that was lent to it.
    #[cfg(feature = "alloc")]
    pub fn of(a: OrderAnswer, list: &[u16]) -> Result<BestOrder, BestOrderRefusal> {
        Err(match a.number {
            0 => return Ok(BestOrder { cost: a.cost, turns: list[..a.length].to_vec(), count: a.count }),
            41 => BestOrderRefusal::TablesTooSmall,
            40 => BestOrderRefusal::NotSound,
            38 => BestOrderRefusal::BadBudget,
            37 => BestOrderRefusal::TooMany { count: a.count },
            other => unknown(other),
        })
    }

    /// The refusal's number.
    #[must_use]
    pub fn number(&self) -> usize {
        match self {
            BestOrderRefusal::TablesTooSmall => 41,
            BestOrderRefusal::NotSound => 40,
            BestOrderRefusal::BadBudget => 38,
            BestOrderRefusal::TooMany { .. } => 37,
        }
    }

    /// What the number means.
    #[must_use]
    pub fn meaning(&self) -> &'static str {
        meaning(self.number()).unwrap_or_default()
    }
}

impl fmt::Display for BestOrderRefusal {
    fn fmt(&self, f: &mut fmt::Formatter) -> fmt::Result {
        told(f, self.number())?;
        match self {
            BestOrderRefusal::TooMany { count } => write!(f, ": {count} were entered"),
            _ => Ok(()),
        }
    }
}

impl Error for BestOrderRefusal {}

/// What a preview replies: the change of the cost, or why the turn would be refused.
pub(crate) fn change<R>(answer: ChangeAnswer, of: fn(usize) -> Result<(), R>) -> Result<i64, R> {
    of(answer.number).map(|()| answer.change)
}

/// A reply with a value: the detail of an answer that is no refusal.
pub(crate) fn detail<R>(answer: Answer, of: fn(usize) -> Result<(), R>) -> Result<usize, R> {
    of(answer.number).map(|()| answer.detail)
}
