//! Steps of a program over maps, as good as random, and which states a crash may leave of them.

use crate::seed::Seed;
use dilluvas::{Access, Db, Error, Map};
use std::collections::BTreeMap;

const NAMES: [&str; 2] = ["a", "b"];

/// The pairs of all maps, by the numbers of these.
pub type Model = BTreeMap<(usize, Vec<u8>), Vec<u8>>;

#[derive(Clone, Debug)]
pub enum Change {
    Set(usize, Vec<u8>, Vec<u8>),
    Delete(usize, Vec<u8>),
}

#[derive(Clone, Debug)]
pub enum Step {
    One(Change),
    Batch(Vec<Change>),
    GenerateId,
    Flush,
}

pub fn some_step(seed: &mut Seed) -> Step {
    let change = |seed: &mut Seed| {
        let name = seed.below(NAMES.len());
        match seed.below(3) {
            0 => Change::Delete(name, seed.key()),
            _ => Change::Set(name, seed.key(), seed.value()),
        }
    };
    match seed.below(20) {
        0..3 => Step::GenerateId,
        3..6 => Step::Flush,
        6..9 => Step::Batch((0..seed.below(30)).map(|_| change(seed)).collect()),
        _ => Step::One(change(seed)),
    }
}

impl Change {
    fn make<A: Access>(&self, map: impl Fn(&str) -> Map<A>) -> Result<(), Error> {
        match self {
            Change::Set(name, key, value) => map(NAMES[*name]).set(key, value).map(drop),
            Change::Delete(name, key) => map(NAMES[*name]).delete(key).map(drop),
        }
    }

    fn model(&self, model: &mut Model) {
        match self {
            Change::Set(name, key, value) => {
                drop(model.insert((*name, key.clone()), value.clone()))
            }
            Change::Delete(name, key) => drop(model.remove(&(*name, key.clone()))),
        }
    }
}

/// Makes a step, and answers the id that was generated, or 0.
pub fn make(db: &Db, step: &Step) -> Result<u64, Error> {
    match step {
        Step::One(change) => change.make(|name| db.map(name))?,
        Step::Batch(changes) => db
            .batch(|batch| {
                let mut changes = changes.iter();
                changes.try_for_each(|change| change.make(|name| batch.map(name)))
            })
            .map_err(|refused| refused.error)?,
        Step::GenerateId => return db.generate_id(),
        Step::Flush => drop(db.flush()?),
    }
    Ok(0)
}

/// Whether a crash may have left this of steps, of which each has its answer, and the last one maybe none.
pub fn is_permitted(history: &[(Step, Option<u64>)], found: &Model) -> bool {
    let is_durable =
        |(step, answer): &(Step, Option<u64>)| matches!(step, Step::Flush) && answer.is_some();
    let least = history.iter().rposition(is_durable).map_or(0, |at| at + 1);
    let mut model = Model::new();
    for (at, (step, _)) in history.iter().enumerate() {
        if at >= least && model == *found {
            return true;
        }
        match step {
            Step::One(change) => change.model(&mut model),
            Step::Batch(changes) => changes.iter().for_each(|change| change.model(&mut model)),
            _ => {}
        }
    }
    model == *found
}

/// All pairs that a store has.
pub fn read(db: &Db) -> Model {
    let mut model = Model::new();
    for (number, name) in NAMES.iter().enumerate() {
        for pair in &db.map(name) {
            let (key, value) = pair.unwrap();
            model.insert((number, key), value);
        }
    }
    model
}

#[test]
fn what_is_lost_is_seen() {
    let set = |key: u8| Change::Set(0, vec![key], Vec::new());
    let permits = |steps: &[Step], keys: &[u8]| {
        let history: Vec<_> = steps.iter().map(|step| (step.clone(), Some(0))).collect();
        let found = keys
            .iter()
            .map(|key| ((0, vec![*key]), Vec::new()))
            .collect();
        is_permitted(&history, &found)
    };
    let flushed = [
        Step::One(set(1)),
        Step::Flush,
        Step::One(set(2)),
        Step::One(set(3)),
    ];
    assert!(permits(&flushed, &[1]) && permits(&flushed, &[1, 2]) && permits(&flushed, &[1, 2, 3]));
    assert!(!permits(&flushed, &[]) && !permits(&flushed, &[1, 3]));
    let batch = [Step::One(set(1)), Step::Batch(vec![set(2), set(3)])];
    assert!(permits(&batch, &[1]) && permits(&batch, &[1, 2, 3]) && !permits(&batch, &[1, 2]));
}
