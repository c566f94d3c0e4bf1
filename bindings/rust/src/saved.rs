//! The tables as plain bytes: to be kept over a loss of power, and to go on from.
use crate::conductor::Conductor;
use crate::ffi::Dependency;
use crate::{DEPENDENCIES, DRONES, NAME, PAIRS, STOPS};
use core::error::Error;
use core::fmt;

/// The number of the layout of the saved bytes: another one whenever they mean something else.
pub const LAYOUT: u32 = 1;
/// How many bytes are saved: the layout and the length of the tables, in 32 bits each, and then the tables as a `conductor_tables` of C lies in memory.
pub const SAVED: usize = 8 + TABLES;
const TABLES: usize = 8 + 5 * DRONES + 7 * STOPS + DRONES * NAME + 8 * DEPENDENCIES + 4 * PAIRS;

/// Why saved bytes were not taken.
#[derive(Clone, Copy, Debug, PartialEq, Eq, Hash)]
pub enum RestoreRefusal {
    /// There are not [`SAVED`] bytes, or they say that the tables have another length.
    Length,
    /// They are of another layout than [`LAYOUT`].
    Layout(u32),
    /// 40: the tables hold no accepted plan with a possible progress.
    NotSound,
}

impl fmt::Display for RestoreRefusal {
    fn fmt(&self, f: &mut fmt::Formatter) -> fmt::Result {
        match self {
            RestoreRefusal::Length => write!(f, "these are not {SAVED} saved bytes"),
            RestoreRefusal::Layout(layout) => write!(f, "the saved bytes are of layout {layout}, and not {LAYOUT}"),
            RestoreRefusal::NotSound => write!(f, "refused with 40: {}", crate::meaning(40).unwrap_or_default()),
        }
    }
}

impl Error for RestoreRefusal {}

// Bytes one after another, the least of each number first: both ways, so that the order of the tables is said once.
trait Bytes {
    fn bytes<const N: usize>(&mut self, value: &mut [u8; N]);

    fn byte(&mut self, value: &mut u8) {
        let mut bytes = [*value];
        self.bytes(&mut bytes);
        [*value] = bytes;
    }

    fn half(&mut self, value: &mut u16) {
        let mut bytes = value.to_le_bytes();
        self.bytes(&mut bytes);
        *value = u16::from_le_bytes(bytes);
    }

    fn word(&mut self, value: &mut u32) {
        let mut bytes = value.to_le_bytes();
        self.bytes(&mut bytes);
        *value = u32::from_le_bytes(bytes);
    }

    // One byte after the form and two at the end are nobody's.
    fn tables(&mut self, of: &mut Conductor) {
        self.half(&mut of.plan.drone_count[0]);
        self.half(&mut of.plan.dependency_count[0]);
        of.plan.stop_counts.iter_mut().chain(&mut of.plan.locations).chain(&mut of.visited).for_each(|n| self.half(n));
        of.plan.times.iter_mut().for_each(|n| self.word(n));
        of.plan.names.iter_mut().chain(&mut of.plan.legs).chain(&mut of.drone_flags).chain(&mut of.plan.form).for_each(|n| self.byte(n));
        self.byte(&mut 0);
        of.dependencies.iter_mut().for_each(|record| self.record(record));
        of.plan.pairs.iter_mut().for_each(|n| self.half(n));
        self.half(&mut 0);
    }

    fn record(&mut self, record: &mut Dependency) {
        self.half(&mut record.first_stop);
        self.half(&mut record.second_stop);
        self.byte(&mut record.first_drone);
        self.byte(&mut record.second_drone);
        self.byte(&mut record.flags);
        self.byte(&mut record.reserved);
    }
}

struct Out<'a>(&'a mut [u8]);

impl Bytes for Out<'_> {
    fn bytes<const N: usize>(&mut self, value: &mut [u8; N]) {
        let (here, rest) = core::mem::take(&mut self.0).split_at_mut(N);
        here.copy_from_slice(value);
        self.0 = rest;
    }
}

struct In<'a>(&'a [u8]);

impl Bytes for In<'_> {
    fn bytes<const N: usize>(&mut self, value: &mut [u8; N]) {
        let (here, rest) = self.0.split_at(N);
        value.copy_from_slice(here);
        self.0 = rest;
    }
}

impl Conductor {
    /// Saves the plan and its progress as plain bytes, which C and Python read too.
    ///
    /// ```
    /// let mut field = conductor::Conductor::new();
    /// field.read(b"plan=1\nagents=1\nname=east\nstops=2\ngo=1@0\ngo=5@1\nend=plan\n")?;
    /// field.grant(0)?;
    /// let mut saved = [0; conductor::SAVED];
    /// field.save(&mut saved);
    /// let restored = conductor::Conductor::restore(&saved)?;
    /// assert!(restored == field);
    /// # Ok::<(), Box<dyn std::error::Error>>(())
    /// ```
    pub fn save(&self, to: &mut [u8; SAVED]) {
        let mut out = Out(to);
        out.word(&mut LAYOUT.clone());
        out.word(&mut (TABLES as u32));
        out.tables(&mut self.clone());
    }

    /// A conductor that goes on from what was saved. What comes back is guarded as 40 guards the calls: the bytes are taken only if they hold an accepted plan with a possible progress. That they are
    /// yesterday's, or another sound plan's, is not seen.
    pub fn restore(from: &[u8]) -> Result<Conductor, RestoreRefusal> {
        let (mut layout, mut length) = (0, 0);
        if from.len() != SAVED {
            return Err(RestoreRefusal::Length);
        }
        let mut bytes = In(from);
        bytes.word(&mut layout);
        bytes.word(&mut length);
        if layout != LAYOUT {
            return Err(RestoreRefusal::Layout(layout));
        }
        if length as usize != TABLES {
            return Err(RestoreRefusal::Length);
        }
        let mut restored = Conductor::new();
        bytes.tables(&mut restored);
        restored.cost().map_err(|_| RestoreRefusal::NotSound)?;
        Ok(restored)
    }
}
