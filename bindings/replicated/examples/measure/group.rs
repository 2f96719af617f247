//! Changes of many threads under one flush.

use dilluvas::{Db, Error};
use std::sync::{Condvar, Mutex};

/// Threads whose changes one flush makes durable: whoever finds no flush under way makes one for all that are there.
pub struct Group<'a> {
    db: &'a Db,
    state: Mutex<State>,
    changed: Condvar,
}

#[derive(Default)]
struct State {
    // How many threads make a change, the last change that was made, and the last that is durable.
    changing: u32,
    last: u64,
    durable: u64,
    is_flushing: bool,
}

impl Group<'_> {
    pub fn new(db: &Db) -> Group<'_> {
        Group {
            db,
            state: Mutex::default(),
            changed: Condvar::new(),
        }
    }

    /// Makes a change, and answers once it is durable.
    pub fn change(&self, change: impl FnOnce()) -> Result<(), Error> {
        self.state.lock().unwrap().changing += 1;
        change();
        let mut state = self.state.lock().unwrap();
        state.changing -= 1;
        self.changed.notify_all();
        state.last += 1;
        let mine = state.last;
        while state.durable < mine {
            if state.is_flushing || state.changing > 0 {
                state = self.changed.wait(state).unwrap();
                continue;
            }
            state.is_flushing = true;
            let last = state.last;
            drop(state);
            let flushed = self.db.flush();
            state = self.state.lock().unwrap();
            state.is_flushing = false;
            self.changed.notify_all();
            flushed?;
            state.durable = last;
        }
        Ok(())
    }
}
