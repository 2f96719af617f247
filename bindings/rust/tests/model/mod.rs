//! What the pages and names of a cache have to be: changes of them that are as good as random, and what a store that was cut short may hold.
#![allow(dead_code)] // each test that includes it uses a part

mod run;

pub use run::{Run, Told, read};

use std::collections::{BTreeMap, BTreeSet};

pub type Pairs = BTreeMap<Vec<u8>, Vec<u8>>;

/// No page has this number or a greater one.
pub const PAGES: u64 = 40;

/// Numbers as good as random.
pub struct Seed(pub u64);

impl Seed {
    pub fn below(&mut self, limit: usize) -> usize {
        self.0 = self
            .0
            .wrapping_mul(6364136223846793005)
            .wrapping_add(1442695040888963407);
        (self.0 >> 33) as usize % limit
    }

    fn key(&mut self) -> Vec<u8> {
        vec![b'a' + self.below(6) as u8]
    }

    // Most values are short, and some are longer than a segment.
    fn value(&mut self) -> Vec<u8> {
        let most = if self.below(40) == 0 { 3000 } else { 60 };
        vec![self.below(256) as u8; self.below(most)]
    }

    fn pairs(&mut self) -> Pairs {
        let count = self.below(4);
        (0..count).map(|_| (self.key(), self.value())).collect()
    }
}

/// A change of a page or a name, or another call of a script.
#[derive(Clone, Debug)]
pub enum Change {
    Allocate(Pairs),
    Set(u64, Vec<u8>, Vec<u8>),
    Del(u64, Vec<u8>),
    Replace(u64, Pairs),
    Free(u64),
    CasRoot(u8, Option<u64>),
    GenerateId,
    Pin,
    Seal,
    Cancel,
    Flush,
    Compact,
}

/// What one change changes.
#[derive(Clone, Copy, PartialEq, Eq, PartialOrd, Ord)]
pub enum Place {
    Page(u64),
    Name(u8),
}

/// The pages and the roots of names, which are bytes of a letter.
#[derive(Clone, Debug, Default, PartialEq, Eq)]
pub struct Model {
    pub pages: BTreeMap<u64, Pairs>,
    pub roots: BTreeMap<u8, u64>,
}

pub const NAMES: [u8; 3] = *b"xyz";

impl Model {
    /// Some change, which a cache that holds this answers by success.
    pub fn some_change(&self, seed: &mut Seed, is_batch: bool) -> Change {
        let kind = seed.below(20);
        let page = self.pages.keys().nth(seed.below(self.pages.len().max(1)));
        let Some(&page) = page else {
            return Change::Allocate(seed.pairs());
        };
        match kind {
            0..3 if (self.pages.len() as u64) < PAGES - 4 => Change::Allocate(seed.pairs()),
            0..4 => Change::Free(page),
            4..10 => Change::Set(page, seed.key(), seed.value()),
            10..12 => Change::Del(page, seed.key()),
            12..14 => Change::Replace(page, seed.pairs()),
            14..16 => {
                let name = NAMES[seed.below(NAMES.len())];
                Change::CasRoot(name, (seed.below(3) > 0).then_some(page))
            }
            16 if !is_batch => Change::GenerateId,
            16..18 if !is_batch => Change::Pin,
            16..18 => Change::Set(page, seed.key(), seed.value()),
            18 if is_batch => Change::Cancel,
            _ if is_batch => Change::Seal,
            18 => Change::Flush,
            _ => Change::Compact,
        }
    }

    /// Makes a change that was answered by a number, and tells its place.
    pub fn change(&mut self, change: &Change, answer: u64) -> Option<Place> {
        match change {
            Change::Allocate(pairs) => {
                self.pages.insert(answer, pairs.clone());
                Some(Place::Page(answer))
            }
            Change::Set(page, key, value) => {
                let pairs = self.pages.get_mut(page).expect("it is there");
                pairs.insert(key.clone(), value.clone());
                Some(Place::Page(*page))
            }
            Change::Del(page, key) => {
                self.pages.get_mut(page).expect("it is there").remove(key);
                Some(Place::Page(*page))
            }
            Change::Replace(page, pairs) => {
                self.pages.insert(*page, pairs.clone());
                Some(Place::Page(*page))
            }
            Change::Free(page) => {
                self.pages.remove(page);
                Some(Place::Page(*page))
            }
            Change::CasRoot(name, root) => {
                self.roots.remove(name);
                self.roots.extend(root.map(|root| (*name, root)));
                Some(Place::Name(*name))
            }
            _ => None,
        }
    }

    fn is_same_at(&self, other: &Model, place: Place) -> bool {
        match place {
            Place::Page(page) => self.pages.get(&page) == other.pages.get(&page),
            Place::Name(name) => self.roots.get(&name) == other.roots.get(&name),
        }
    }

    fn places(&self) -> impl Iterator<Item = Place> {
        let pages = self.pages.keys().copied().map(Place::Page);
        pages.chain(self.roots.keys().copied().map(Place::Name))
    }
}

/// The changes that were begun, each with what it was answered. All but the last one have an answer.
pub type History = Vec<(Change, Option<u64>)>;

/// Whether a store that held `start`, and was cut short behind these changes, may hold what was found: what a first part of them leaves,
/// which has all that was flushed and no batch in part.
pub fn is_permitted(start: &Model, history: &History, found: &Model) -> bool {
    let flushed = |(change, answer): &(Change, Option<u64>)| {
        matches!(change, Change::Flush | Change::Compact) && answer.is_some()
    };
    let least = history.iter().rposition(flushed).map_or(0, |at| at + 1);
    let parts = parts_of_batches(history);
    let mut model = start.clone();
    let mut differing: BTreeSet<Place> = model.places().chain(found.places()).collect();
    differing.retain(|place| !model.is_same_at(found, *place));
    for (at, (change, answer)) in history.iter().enumerate() {
        if at >= least && !parts.contains(&at) && differing.is_empty() {
            return true;
        }
        // of one that wasn't answered the page isn't known
        let answer = answer.or_else(|| {
            let mut pages = found.pages.keys().copied();
            pages.find(|page| !model.pages.contains_key(page))
        });
        if let Some(place) = model.change(change, answer.unwrap_or(0)) {
            differing.remove(&place);
            differing.extend((!model.is_same_at(found, place)).then_some(place));
        }
    }
    !parts.contains(&history.len()) && differing.is_empty()
}

// How many changes are cut off within a batch, of which no part may be left: one that is sealed, or open at the end.
fn parts_of_batches(history: &History) -> BTreeSet<usize> {
    let mut parts = BTreeSet::new();
    let mut pinned = None;
    for (at, (change, _)) in history.iter().enumerate() {
        match change {
            Change::Pin => pinned = Some(at + 1),
            Change::Seal => parts.extend(pinned.take().expect("a batch is open") + 1..=at),
            Change::Cancel => pinned = None,
            _ => {}
        }
    }
    parts.extend(pinned.into_iter().flat_map(|pin| pin + 1..=history.len()));
    parts
}
