//! Ordered maps by names: `Db`, `Map` and what they answer.

mod batches;
mod causes;
mod disk;
mod failing;
#[path = "../folder/mod.rs"]
mod folder;
mod iterators;
mod lists;
mod meanwhile;
#[path = "../refused/mod.rs"]
mod refused;
#[path = "../seed/mod.rs"]
mod seed;
mod space;
mod steps;
mod threads;
mod values;

use dilluvas::{Access, FileSettings, Map};
use std::collections::BTreeMap;

type Pairs = BTreeMap<Vec<u8>, Vec<u8>>;

// Pages leave memory, and each write is short.
const SMALL: FileSettings = FileSettings {
    cache_capacity: 256,
    idgen_persist_interval: 2,
    segment_size: 200,
};

// All that a map has, by its iterator.
fn contents<A: Access>(map: &Map<A>) -> Pairs {
    map.iter().map(Result::unwrap).collect()
}

fn pair(key: &[u8], value: &[u8]) -> (Vec<u8>, Vec<u8>) {
    (key.to_vec(), value.to_vec())
}
