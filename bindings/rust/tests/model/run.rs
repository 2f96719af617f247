//! Changes of a cache beside its model.

use super::{Change, Model, NAMES, PAGES, Seed};
use dilluvas::{Batch, Cache, Error, Page, Swap, Token};
use std::collections::BTreeMap;

/// All that a cache holds.
pub fn read(cache: &mut Cache) -> Result<Model, Error> {
    let mut model = Model::default();
    let mut page = Page::empty();
    for number in 2..PAGES {
        if cache.get_into(number, &mut page)? {
            let owned = |(key, value): (&[u8], &[u8])| (key.to_vec(), value.to_vec());
            model
                .pages
                .insert(number, page.pairs().map(owned).collect());
        }
    }
    for name in NAMES {
        let root = cache.root([name])?;
        model.roots.extend(root.map(|root| (name, root)));
    }
    Ok(model)
}

/// A run of changes of one cache.
pub struct Run<T> {
    pub model: Model,
    // Those of the pages that the run has met.
    tokens: BTreeMap<u64, Token>,
    seed: Seed,
    left: u64,
    pub told: T,
}

/// What hears of a run.
pub trait Told {
    /// The change is made next.
    fn begun(&mut self, change: &Change);

    /// It was answered so.
    fn answered(&mut self, answer: u64);

    /// It was refused. True: it is made again.
    fn is_made_again(&mut self, cache: &mut Cache, model: &Model, error: &Error) -> bool;
}

impl<T: Told> Run<T> {
    /// A run of so many changes. Behind them a batch that is open is sealed, and all is flushed.
    pub fn new(model: Model, seed: u64, left: u64, told: T) -> Run<T> {
        Run {
            model,
            tokens: BTreeMap::new(),
            seed: Seed(seed),
            left,
            told,
        }
    }

    /// Makes all changes, up to one that is refused.
    pub fn go_on(&mut self, cache: &mut Cache) -> Result<(), Error> {
        loop {
            let is_last = self.left == 0;
            let change = self.begin(false);
            if let Change::Pin = change {
                let batch = cache.pin()?;
                self.answer(&change, 0);
                self.go_on_in_batch(batch)?;
            } else {
                self.make(cache, &change)?;
            }
            if is_last {
                return Ok(());
            }
        }
    }

    fn go_on_in_batch(&mut self, mut batch: Batch<'_>) -> Result<(), Error> {
        loop {
            let change = self.begin(true);
            match change {
                Change::Seal => batch.seal()?,
                Change::Cancel => drop(batch),
                change => {
                    self.make(&mut batch, &change)?;
                    continue;
                }
            }
            self.answer(&change, 0);
            return Ok(());
        }
    }

    fn begin(&mut self, is_batch: bool) -> Change {
        let change = match self.left {
            0 if is_batch => Change::Seal,
            0 => Change::Flush,
            _ => self.model.some_change(&mut self.seed, is_batch),
        };
        self.left = self.left.saturating_sub(1);
        self.told.begun(&change);
        change
    }

    fn make(&mut self, cache: &mut Cache, change: &Change) -> Result<(), Error> {
        loop {
            match self.call(cache, change) {
                Ok(answer) => {
                    self.answer(change, answer);
                    return Ok(());
                }
                Err(error) if self.told.is_made_again(cache, &self.model, &error) => {}
                Err(error) => return Err(error),
            }
        }
    }

    fn answer(&mut self, change: &Change, answer: u64) {
        self.model.change(change, answer);
        self.told.answered(answer);
    }

    // A file is rewritten, and of another device all is flushed.
    fn compact(&mut self, cache: &mut Cache) -> Result<u64, Error> {
        match cache.compact() {
            Err(Error::NoFile) => return cache.flush().map(|_| 0),
            done => done?,
        }
        self.tokens.clear();
        Ok(0)
    }

    // The page of one that was allocated, the id that was generated, or 0.
    fn call(&mut self, cache: &mut Cache, change: &Change) -> Result<u64, Error> {
        let token_of = |page: &u64| self.tokens.get(page).copied().unwrap_or(unread(*page));
        let swap = match change {
            Change::Allocate(pairs) => {
                let token = cache.allocate(pairs)?;
                assert!(token.page < PAGES && !self.model.pages.contains_key(&token.page));
                self.tokens.insert(token.page, token);
                return Ok(token.page);
            }
            Change::Set(page, key, value) => cache.set(token_of(page), key, value)?,
            Change::Del(page, key) => cache.del(token_of(page), key)?,
            Change::Replace(page, pairs) => cache.replace(token_of(page), pairs)?,
            Change::Free(page) => cache.free(token_of(page))?,
            Change::CasRoot(name, root) => {
                let old = self.model.roots.get(name).copied();
                let given = cache.cas_root([*name], old, *root)?;
                assert_eq!(given, Ok(()), "no other call changed the name");
                return Ok(0);
            }
            Change::GenerateId => return cache.generate_id(),
            Change::Flush => return cache.flush().map(|_| 0),
            Change::Compact => return self.compact(cache),
            Change::Pin | Change::Seal | Change::Cancel => unreachable!("made by a batch"),
        };
        let (Swap::Done(token) | Swap::Stale(token)) = swap else {
            panic!("{change:?} found no page");
        };
        let before = self.tokens.insert(token.page, token);
        match swap {
            Swap::Stale(_) if before.is_none() => self.call(cache, change),
            swap => {
                assert_eq!(swap, Swap::Done(token), "no other call changed the page");
                Ok(0)
            }
        }
    }
}

// What a page has that was opened, or never: then it is told the present one.
fn unread(page: u64) -> Token {
    Token { page, stamp: 0 }
}
