//! The sixteen calls over lent slices of any length, as `bindings/c/conductor.h` declares them: safe functions, and the only unsafe code of this crate.
//!
//! The library asks that each pointer is valid for its number of entries and that no table that it writes overlaps another. Slices and the rules of borrowing give both:
//!
//! ```compile_fail,E0502
//! use conductor::ffi::{arrive, PlanTables};
//! let mut words = [0u16; conductor::STOPS];
//! let plan = PlanTables { drone_count: &words, dependency_count: &words, form: &[], names: &[], stop_counts: &words, locations: &words, times: &[], legs: &[], pairs: &words };
//! let _ = arrive(plan, &mut words, &mut [], &[], 0); // the visited stops are lent for writing and for reading at once
//! ```

/// A dependency: the planned first drone and its stop, the planned second drone and its stop. `reserved` is zero in the first [`DEPENDENCIES`](crate::DEPENDENCIES) after a reading or a join that wrote the tables (any reply but 41, 40, 16 and 1), a turn keeps it, and no call looks at it.
#[repr(C)]
#[derive(Clone, Copy, Debug, Default, PartialEq, Eq, Hash)]
pub struct Dependency {
    pub first_stop: u16,
    pub second_stop: u16,
    pub first_drone: u8,
    pub second_drone: u8,
    pub flags: u8,
    pub reserved: u8,
}

/// Number 0: done. The detail is the dependency of a 23, the cost, the rounds, the length of the text, the granted drones; else 0.
#[repr(C)]
#[derive(Clone, Copy, Debug, PartialEq, Eq, Hash)]
#[must_use = "its number says whether the call was done"]
pub struct Answer {
    pub number: usize,
    pub detail: usize,
}

/// Number 0: the turn would be done, and `change` is the cost after it less the cost now; else 0.
#[repr(C)]
#[derive(Clone, Copy, Debug, PartialEq, Eq, Hash)]
#[must_use = "its number says whether the call was done"]
pub struct ChangeAnswer {
    pub number: usize,
    pub change: i64,
}

/// Number 0: the least cost, how many dependencies are to be turned for it, and how many choices were entered. 37: the count is the budget, the rest is 0; any other refusal: the rest is 0.
#[repr(C)]
#[derive(Clone, Copy, Debug, PartialEq, Eq, Hash)]
#[must_use = "its number says whether the call was done"]
pub struct OrderAnswer {
    pub number: usize,
    pub cost: usize,
    pub length: usize,
    pub count: usize,
}

/// Number 0: taken. 1 to 6 come with an offset in the plan text, or in the joined text, 13 and 14 with one in the site text, 7 to 9 and 12 with a drone and its stop, 10 with two of each; the rest is 0.
#[repr(C)]
#[derive(Clone, Copy, Debug, PartialEq, Eq, Hash)]
#[must_use = "its number says whether the call was done"]
pub struct ReadAnswer {
    pub number: usize,
    pub offset: usize,
    pub drone: usize,
    pub stop: usize,
    pub other_drone: usize,
    pub other_stop: usize,
}

// The layout that the library has too, as the header states it: where each field lies, how wide it is, and how large the whole is.
macro_rules! layout {
    ($($whole:ident $bytes:literal { $($field:ident: $T:ty = $at:literal),+ })+) => {
        const _: () = {
            use core::mem::{offset_of, size_of};
            $(assert!(size_of::<$whole>() == $bytes);
            $(assert!(offset_of!($whole, $field) == $at);
            let _: fn(&$whole) -> &$T = |of| &of.$field;)+)+
        };
    };
}

const _: () = assert!(core::mem::size_of::<usize>() == 8 && core::mem::align_of::<Dependency>() == 2);

layout! {
    Dependency 8 { first_stop: u16 = 0, second_stop: u16 = 2, first_drone: u8 = 4, second_drone: u8 = 5, flags: u8 = 6, reserved: u8 = 7 }
    Answer 16 { number: usize = 0, detail: usize = 8 }
    ChangeAnswer 16 { number: usize = 0, change: i64 = 8 }
    OrderAnswer 32 { number: usize = 0, cost: usize = 8, length: usize = 16, count: usize = 24 }
    ReadAnswer 48 { number: usize = 0, offset: usize = 8, drone: usize = 16, stop: usize = 24, other_drone: usize = 32, other_stop: usize = 40 }
}

/// The tables that a reading or a join alone writes. Their full sizes: 1, 1 and 1, [`NAME`](crate::NAME) bytes for each of [`DRONES`](crate::DRONES), that many, three times [`STOPS`](crate::STOPS), and two
/// numbers for each of [`PAIRS`](crate::PAIRS).
///
/// The form is that of the plan's first line, 1 or 2, and 0 where there is no plan. A leg is that into the stop, in rounds: 0 at each drone's stop 0, elsewhere 1 in a plan of form 1 and 1 to
/// [`LEG`](crate::LEG) in one of form 2. The pairs are those of the site text with which the plan was read, the lower location of each first, and zeros after them; all zero without a site text.
#[derive(Clone, Copy, Debug)]
pub struct PlanTables<'a> {
    pub drone_count: &'a [u16],
    pub dependency_count: &'a [u16],
    pub form: &'a [u8],
    pub names: &'a [u8],
    pub stop_counts: &'a [u16],
    pub locations: &'a [u16],
    pub times: &'a [u32],
    pub legs: &'a [u8],
    pub pairs: &'a [u16],
}

/// All twelve tables, lent for reading alone: a plan that is to be joined with another. The full sizes are those of [`Tables`].
#[derive(Clone, Copy, Debug)]
pub struct SharedTables<'a> {
    pub plan: PlanTables<'a>,
    pub visited: &'a [u16],
    pub drone_flags: &'a [u8],
    pub dependencies: &'a [Dependency],
}

/// All twelve tables in the library's order, lent to a reading, or to a join for the joined plan. Those that are not in [`PlanTables`] have full sizes [`DRONES`](crate::DRONES), as many, and [`DEPENDENCIES`](crate::DEPENDENCIES).
#[derive(Debug)]
pub struct Tables<'a> {
    pub drone_count: &'a mut [u16],
    pub dependency_count: &'a mut [u16],
    pub form: &'a mut [u8],
    pub names: &'a mut [u8],
    pub stop_counts: &'a mut [u16],
    pub locations: &'a mut [u16],
    pub times: &'a mut [u32],
    pub legs: &'a mut [u8],
    pub visited: &'a mut [u16],
    pub drone_flags: &'a mut [u8],
    pub dependencies: &'a mut [Dependency],
    pub pairs: &'a mut [u16],
}

// The four marks say, as the header does, which tables of a set a call writes: those of the plan with the pairs; visited; drone_flags; dependencies.
macro_rules! declare {
    ($(fn $call:ident($($before:ident: $B:ty),*; $(*$plan:tt *$visited:tt *$flags:tt *$dependencies:tt),+; $($after:ident: $A:ty),*) -> $Answer:ty;)*) => {
        extern "C" {
            $(fn $call(
                $($before: $B,)*
                $(drone_count: *$plan u16, drone_count_n: usize,
                dependency_count: *$plan u16, dependency_count_n: usize,
                form: *$plan u8, form_n: usize,
                names: *$plan u8, names_n: usize,
                stop_counts: *$plan u16, stop_counts_n: usize,
                locations: *$plan u16, locations_n: usize,
                times: *$plan u32, times_n: usize,
                legs: *$plan u8, legs_n: usize,
                visited: *$visited u16, visited_n: usize,
                drone_flags: *$flags u8, drone_flags_n: usize,
                dependencies: *$dependencies Dependency, dependencies_n: usize,
                pairs: *$plan u16, pairs_n: usize,)+
                $($after: $A),*
            ) -> $Answer;)*
            fn conductor_lent_small_plan(number: usize, buffer: *mut u8, buffer_n: usize) -> Answer;
        }
    };
}

declare! {
    fn conductor_lent_read(text: *const u8, text_n: usize; *mut *mut *mut *mut;) -> ReadAnswer;
    fn conductor_lent_read_site(site: *const u8, site_n: usize, text: *const u8, text_n: usize; *mut *mut *mut *mut;) -> ReadAnswer;
    fn conductor_lent_join(; *const *const *const *const, *const *const *const *const, *mut *mut *mut *mut;) -> ReadAnswer;
    fn conductor_lent_write(buffer: *mut u8, buffer_n: usize; *const *const *const *const;) -> Answer;
    fn conductor_lent_grant(; *const *const *mut *const; drone: usize) -> Answer;
    fn conductor_lent_arrive(; *const *mut *mut *const; drone: usize) -> Answer;
    fn conductor_lent_withdraw(; *const *const *mut *const; drone: usize) -> Answer;
    fn conductor_lent_turn(; *const *const *const *mut; dependency: usize) -> Answer;
    fn conductor_lent_turn_all(; *const *const *const *mut; list: *const u16, list_n: usize) -> Answer;
    fn conductor_lent_preview(; *const *const *const *const; dependency: usize) -> ChangeAnswer;
    fn conductor_lent_preview_all(; *const *const *const *const; list: *const u16, list_n: usize) -> ChangeAnswer;
    fn conductor_lent_cost(; *const *const *const *const;) -> Answer;
    fn conductor_lent_rounds(; *const *const *const *const;) -> Answer;
    fn conductor_lent_press(; *const *mut *mut *const; reported: usize, drone: usize) -> Answer;
    fn conductor_lent_best_order(; *const *const *const *const; list: *mut u16, list_n: usize, budget: usize) -> OrderAnswer;
}

// A slice as the library takes it: its pointer and its length.
trait Lent {
    type Pointer;
    fn lent(self) -> (Self::Pointer, usize);
}

impl<T> Lent for &[T] {
    type Pointer = *const T;
    fn lent(self) -> (*const T, usize) {
        (self.as_ptr(), self.len())
    }
}

impl<T> Lent for &mut [T] {
    type Pointer = *mut T;
    fn lent(self) -> (*mut T, usize) {
        (self.as_mut_ptr(), self.len())
    }
}

// A call with one set of tables, or with several, each under a name of its own.
macro_rules! lend {
    ($call:ident, ($($before:expr),*), $plan:ident, $visited:expr, $flags:expr, $dependencies:expr, ($($after:expr),*)) => {
        lend!($call, ($($before),*), [$plan = $plan, $visited, $flags, $dependencies], ($($after),*))
    };
    ($call:ident, ($($before:expr),*), $([$set:ident = $plan:expr, $visited:expr, $flags:expr, $dependencies:expr]),+, ($($after:expr),*)) => {{
        $(let $set = (
            ($plan.drone_count.lent(), $plan.dependency_count.lent(), $plan.form.lent(), $plan.names.lent(), $plan.stop_counts.lent()),
            ($plan.locations.lent(), $plan.times.lent(), $plan.legs.lent()),
            ($visited.lent(), $flags.lent(), $dependencies.lent(), $plan.pairs.lent()),
        );)+
        // SAFETY: every pointer comes from a slice with that slice's length. What is written is borrowed for writing, so that nothing overlaps it; no pointer is kept.
        unsafe {
            $call(
                $($before,)*
                $($set.0.0.0, $set.0.0.1, $set.0.1.0, $set.0.1.1, $set.0.2.0, $set.0.2.1, $set.0.3.0, $set.0.3.1, $set.0.4.0, $set.0.4.1,
                $set.1.0.0, $set.1.0.1, $set.1.1.0, $set.1.1.1, $set.1.2.0, $set.1.2.1,
                $set.2.0.0, $set.2.0.1, $set.2.1.0, $set.2.1.1, $set.2.2.0, $set.2.2.1, $set.2.3.0, $set.2.3.1,)+
                $($after),*
            )
        }
    }};
}

/// Reads a plan text, of form 1 or 2, without a site text: there are no pairs. 41; 1; 2, 4, 3, 5, 6 by line; 7, 8, 12, 9 by stop; 10 (at equal locations); 11. After 41 and 1 the tables are as before,
/// after any other refusal their full sizes are zeroed.
pub fn read(text: &[u8], tables: Tables) -> ReadAnswer {
    lend!(conductor_lent_read, (text.as_ptr(), text.len()), tables, tables.visited, tables.drone_flags, tables.dependencies, ())
}

/// Reads a plan text with a site text, which lists the pairs of locations that are near each other. 41; 13, 14 by line of the site text; then as [`read`], with 10 at equal or near locations. After 41 and
/// 1 the tables are as before, the pairs too; after any other refusal their full sizes are zeroed, the pairs too. A site text may be of any length.
pub fn read_site(site: &[u8], text: &[u8], tables: Tables) -> ReadAnswer {
    lend!(conductor_lent_read_site, (site.as_ptr(), site.len(), text.as_ptr(), text.len()), tables, tables.visited, tables.drone_flags, tables.dependencies, ())
}

/// Joins two plans, neither of them started, into one in a third set of tables: the first plan's drones come first, times are kept, and so are the near pairs. The reply, and what is then in the third
/// tables, are those of reading the joined plan's own text, which is of form 2 if either plan is; no such text is made. 41 (a table of any of the three sets); 40 (of either plan); 16 (a drone of either
/// has visited its stop 1, is under way or withdrawn, or a dependency of either is turned, or the near pairs differ); then as reading the joined text: 1; 4, 5, 6 by line; 10; 11. After 41, 40, 16 and 1
/// the third tables are as before, after any other refusal their full sizes are zeroed.
///
/// The two plans may be the same tables; the third set is lent for writing, and so can be neither of them:
///
/// ```compile_fail,E0502
/// use conductor::ffi::{join, PlanTables, SharedTables, Tables};
/// let mut words = [0u16; conductor::STOPS];
/// let plan = PlanTables { drone_count: &words, dependency_count: &words, form: &[], names: &[], stop_counts: &words, locations: &words, times: &[], legs: &[], pairs: &words };
/// let both = SharedTables { plan, visited: &words, drone_flags: &[], dependencies: &[] };
/// let third = Tables {
///     drone_count: &mut words, dependency_count: &mut [], form: &mut [], names: &mut [], stop_counts: &mut [], locations: &mut [],
///     times: &mut [], legs: &mut [], visited: &mut [], drone_flags: &mut [], dependencies: &mut [], pairs: &mut [],
/// };
/// let _ = join(both, both, third);
/// ```
pub fn join(first: SharedTables, second: SharedTables, joined: Tables) -> ReadAnswer {
    lend!(
        conductor_lent_join,
        (),
        [one = first.plan, first.visited, first.drone_flags, first.dependencies],
        [two = second.plan, second.visited, second.drone_flags, second.dependencies],
        [three = joined, joined.visited, joined.drone_flags, joined.dependencies],
        ()
    )
}

/// Writes the plan's text in the form in which it was read, without its site text; the detail is its length, bytes past it are as before. 41, 40, 42.
pub fn write(buffer: &mut [u8], plan: PlanTables, visited: &[u16], drone_flags: &[u8], dependencies: &[Dependency]) -> Answer {
    lend!(conductor_lent_write, (buffer.as_mut_ptr(), buffer.len()), plan, visited, drone_flags, dependencies, ())
}

/// The drone becomes under way to its next stop. 41, 40, 20, 25, 21, 22, 23 with the lowest dependency unmet.
pub fn grant(plan: PlanTables, visited: &[u16], drone_flags: &mut [u8], dependencies: &[Dependency], drone: usize) -> Answer {
    lend!(conductor_lent_grant, (), plan, visited, drone_flags, dependencies, (drone))
}

/// The drone has come to its next stop. 41, 40, 20, 25, 24.
pub fn arrive(plan: PlanTables, visited: &mut [u16], drone_flags: &mut [u8], dependencies: &[Dependency], drone: usize) -> Answer {
    lend!(conductor_lent_arrive, (), plan, visited, drone_flags, dependencies, (drone))
}

/// The drone is carried home: it holds nothing, costs nothing and nobody waits for it any more. Only its mark in `drone_flags` changes, and nothing but a reading or a join into its tables takes it back. 41, 40, 20, 25.
pub fn withdraw(plan: PlanTables, visited: &[u16], drone_flags: &mut [u8], dependencies: &[Dependency], drone: usize) -> Answer {
    lend!(conductor_lent_withdraw, (), plan, visited, drone_flags, dependencies, (drone))
}

/// The order of a dependency's two drones is turned round. 41, 40, 30, 35, 31, 32, 34.
pub fn turn(plan: PlanTables, visited: &[u16], drone_flags: &[u8], dependencies: &mut [Dependency], dependency: usize) -> Answer {
    lend!(conductor_lent_turn, (), plan, visited, drone_flags, dependencies, (dependency))
}

/// A strictly rising list of dependencies is turned all at once. 41, 40, 36, then 30, 35, 31, 32 as the list is walked, then 34.
pub fn turn_all(plan: PlanTables, visited: &[u16], drone_flags: &[u8], dependencies: &mut [Dependency], list: &[u16]) -> Answer {
    lend!(conductor_lent_turn_all, (), plan, visited, drone_flags, dependencies, (list.as_ptr(), list.len()))
}

/// What [`turn`] would answer, and by how much the cost would change. No table changes.
pub fn preview(plan: PlanTables, visited: &[u16], drone_flags: &[u8], dependencies: &[Dependency], dependency: usize) -> ChangeAnswer {
    lend!(conductor_lent_preview, (), plan, visited, drone_flags, dependencies, (dependency))
}

/// What [`turn_all`] would answer, likewise.
pub fn preview_all(plan: PlanTables, visited: &[u16], drone_flags: &[u8], dependencies: &[Dependency], list: &[u16]) -> ChangeAnswer {
    lend!(conductor_lent_preview_all, (), plan, visited, drone_flags, dependencies, (list.as_ptr(), list.len()))
}

/// The drones' remaining rounds, added up. A stop is reached as many rounds as its leg has after the last stop that it awaits, its own drone's stop before it included; a drone under way counts its
/// full leg. 41, 40.
pub fn cost(plan: PlanTables, visited: &[u16], drone_flags: &[u8], dependencies: &[Dependency]) -> Answer {
    lend!(conductor_lent_cost, (), plan, visited, drone_flags, dependencies, ())
}

/// The undelayed rounds until every drone stands at its last stop. 41, 40.
pub fn rounds(plan: PlanTables, visited: &[u16], drone_flags: &[u8], dependencies: &[Dependency]) -> Answer {
    lend!(conductor_lent_rounds, (), plan, visited, drone_flags, dependencies, ())
}

/// The cheapest directions: the least cost of all choices without a cycle, and how many choices the search entered; the earliest such choice is in the list, as the rising dependencies to turn, `length`
/// of them, and zeros after them up to [`DEPENDENCIES`](crate::DEPENDENCIES). No table changes. 41 (the list too), 40, 38 (the budget is not 1 to [`BUDGET`](crate::BUDGET)), 37 (more choices than the
/// budget, which is the count then); a refusal leaves the list as it is.
pub fn best_order(plan: PlanTables, visited: &[u16], drone_flags: &[u8], dependencies: &[Dependency], list: &mut [u16], budget: usize) -> OrderAnswer {
    lend!(conductor_lent_best_order, (), plan, visited, drone_flags, dependencies, (list.as_mut_ptr(), list.len(), budget))
}

/// One press of the handset: the arrival of the drone that was reported, if one was, then a grant of every drone that may go. 41, 40, then the arrival's own 20, 25 or 24.
pub fn press(plan: PlanTables, visited: &mut [u16], drone_flags: &mut [u8], dependencies: &[Dependency], reported: Option<usize>) -> Answer {
    lend!(conductor_lent_press, (), plan, visited, drone_flags, dependencies, (reported.is_some() as usize, reported.unwrap_or(0)))
}

/// Writes a small plan for the bench by its number, 0 to 377; the detail is its length, bytes past it are as before. 15, 42.
pub fn small_plan(number: usize, buffer: &mut [u8]) -> Answer {
    // SAFETY: pointer and length are those of one slice, borrowed for writing; the pointer is not kept.
    unsafe { conductor_lent_small_plan(number, buffer.as_mut_ptr(), buffer.len()) }
}
