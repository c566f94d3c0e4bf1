//! The field conductor for Rust: the proved calls of `libboard.a`, safe by their types.
//!
//! [`Conductor`] owns its tables and has a method for each call; a refusal is an enum with its number and plain words. [`ffi`] has the same calls over lent slices of any length.
//!
//! ```
//! let text = "plan=1\nagents=2\nname=east\nstops=3\ngo=1@0\ngo=5@1\ngo=2@2\nname=west\nstops=3\ngo=3@0\ngo=5@4\ngo=4@5\nend=plan\n";
//! let mut field = conductor::Conductor::new();
//! field.read(text.as_bytes())?;
//! assert_eq!(field.cost()?, 6);
//! assert_eq!(field.grant(1).unwrap_err().to_string(), "refused with 23: the drone must wait: dependency 0 is not met");
//! # Ok::<(), Box<dyn std::error::Error>>(())
//! ```
//!
//! # Without the standard library
//!
//! The features are `std`, which is the default and has `alloc` in it, and `alloc`. With `default-features = false` the crate is `no_std` and allocates nothing: [`Conductor`] with all its calls, saving and
//! restoring, refusals and [`ffi`]. With `alloc` come the views with a vector in them ([`Drone`], [`Conductor::text`], [`Conductor::best_order`]; [`ffi::best_order`] has a lent list), with `std` the [`picture`].
//!
//! # Where the archive comes from
//!
//! The build script links the `libboard.a` that `CONDUCTOR_ARCHIVE` names, or else the repository's own, `crates/board/out/libboard.a`, which it has `rt lib` prove and make there if it is not there or
//! older than the crates. It says so, and which crate is being proved, on cargo's standard error while it does.
#![no_std]
#![deny(unsafe_code, missing_docs)]
#![warn(missing_debug_implementations, clippy::must_use_candidate)]

#[cfg(feature = "alloc")]
extern crate alloc;
#[cfg(feature = "std")]
extern crate std;

mod conductor;
#[allow(unsafe_code, missing_docs)]
pub mod ffi;
#[cfg(feature = "std")]
pub mod picture;
mod refusals;
mod saved;
mod view;

#[cfg(feature = "alloc")]
pub use conductor::BestOrder;
pub use conductor::{small_plan, Conductor, Granted};
pub use ffi::Dependency;
pub use refusals::*;
pub use saved::{RestoreRefusal, LAYOUT, SAVED};
#[cfg(feature = "alloc")]
pub use view::Drone;
pub use view::{InForce, Name, Stop};

/// Full size of the tables with an entry for each drone.
pub const DRONES: usize = 64;
/// Bytes of one name in the table of names.
pub const NAME: usize = 24;
/// Full size of the tables with an entry for each stop.
pub const STOPS: usize = 2048;
/// Full size of the table of dependencies.
pub const DEPENDENCIES: usize = 4096;
/// The most pairs of a site text; their table has two numbers for each.
pub const PAIRS: usize = 256;
/// The most bytes of a plan text.
pub const TEXT: usize = 65536;
/// The most rounds of a leg.
pub const LEG: usize = 60;
/// The most that a cost can be; the change of a preview goes as far either way.
pub const COST: usize = 7_618_560;
/// The most choices that the search for the best order may be allowed to enter.
pub const BUDGET: usize = 100_000;
/// The number of small plans for the bench.
pub const SMALL_PLANS: usize = 378;
