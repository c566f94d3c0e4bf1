//! The conductor that everybody sees: calls one after another, each on disk before it counts, and whoever waits is told.
use crate::calls::{Call, Reply};
use crate::journal::Journal;
use crate::serve::state;
use crate::words;
use conductor::picture::{svg, Options, Rows};
use conductor::Conductor;
use std::sync::{Arc, Condvar, Mutex, MutexGuard, PoisonError};
use std::time::Duration;

struct State {
    field: Box<Conductor>,
    /// How many accepted calls have changed the tables since the plan was read.
    version: u64,
    journal: Option<Journal>,
}

/// What a call came to.
pub enum Outcome {
    Answered {
        reply: Reply,
        words: String,
        version: u64,
    },
    /// It turns orders that were looked at before somebody else's call.
    Meanwhile,
    NotWritten(String),
}

/// What was made of one version, so that it is made once for all who ask.
type Made = Mutex<Option<(u64, Arc<str>)>>;

pub struct Live {
    state: Mutex<State>,
    changed: Condvar,
    shown: Made,
    /// A row for each crossing, and a row for each drone.
    pictures: [Made; 2],
    search: Mutex<()>,
    pub journaled: bool,
    /// Tells this run of the program from another.
    pub run: String,
}

/// A panic in another thread leaves nothing half done: the conductor is replaced as a whole.
fn locked<T>(mutex: &Mutex<T>) -> MutexGuard<'_, T> {
    mutex.lock().unwrap_or_else(PoisonError::into_inner)
}

impl Live {
    pub fn new(field: Box<Conductor>, journal: Option<Journal>, run: String) -> Live {
        let version = journal.as_ref().map_or(0, Journal::calls);
        let journaled = journal.is_some();
        let state = Mutex::new(State { field, version, journal });
        Live { state, changed: Condvar::new(), shown: Mutex::new(None), pictures: [Mutex::new(None), Mutex::new(None)], search: Mutex::new(()), journaled, run }
    }

    /// A copy of what is now, and its version.
    pub fn now(&self) -> (Box<Conductor>, u64) {
        let state = locked(&self.state);
        (state.field.clone(), state.version)
    }

    pub fn version(&self) -> u64 {
        locked(&self.state).version
    }

    /// Makes a call: on a copy first, which takes the conductor's place once the call is in the journal. `seen` is the version that a turn was looked at in.
    pub fn call(&self, call: &Call, seen: Option<u64>) -> Outcome {
        if !call.changes() {
            return self.ask(call);
        }
        let mut state = locked(&self.state);
        if call.turns() && seen.is_some_and(|seen| seen != state.version) {
            return Outcome::Meanwhile;
        }
        let mut after = state.field.clone();
        let reply = call.make(&mut after);
        let words = words::answered(&after, call, &reply);
        if !reply.refused() {
            if let Some(Err(why)) = state.journal.as_mut().map(|journal| journal.append(call)) {
                return Outcome::NotWritten(why);
            }
            state.field = after;
            state.version += 1;
            self.changed.notify_all();
        }
        Outcome::Answered { reply, words, version: state.version }
    }

    /// A call that changes nothing is made on a copy, so that nobody waits for it.
    fn ask(&self, call: &Call) -> Outcome {
        let (field, version) = self.now();
        let reply = call.ask(&field);
        let words = words::answered(&field, call, &reply);
        Outcome::Answered { reply, words, version }
    }

    /// Only one search for the best order goes on at a time.
    pub fn searching(&self) -> Option<MutexGuard<'_, ()>> {
        match self.search.try_lock() {
            Ok(guard) => Some(guard),
            Err(std::sync::TryLockError::Poisoned(poisoned)) => Some(poisoned.into_inner()),
            Err(std::sync::TryLockError::WouldBlock) => None,
        }
    }

    /// Waits until the version is another than the one that was seen, or some time.
    pub fn wait(&self, seen: Option<u64>, time: Duration) -> u64 {
        let state = locked(&self.state);
        let waited = self.changed.wait_timeout_while(state, time, |state| Some(state.version) == seen);
        waited.unwrap_or_else(PoisonError::into_inner).0.version
    }

    fn made(&self, kept: &Made, make: impl FnOnce(&Conductor, u64) -> String) -> (u64, Arc<str>) {
        let mut kept = locked(kept);
        if let Some((version, text)) = kept.as_ref().filter(|(version, _)| *version == self.version()) {
            return (*version, text.clone());
        }
        let (field, version) = self.now();
        let text: Arc<str> = make(&field, version).into();
        *kept = Some((version, text.clone()));
        (version, text)
    }

    /// What the page shows, and its version.
    pub fn shown(&self) -> (u64, Arc<str>) {
        self.made(&self.shown, |field, version| state::now(field, version, &self.run))
    }

    pub fn picture(&self, rows: Rows) -> Arc<str> {
        let kept = &self.pictures[usize::from(rows == Rows::Drones)];
        self.made(kept, |field, _| svg(field, &Options { rows, ..Options::default() })).1
    }
}
