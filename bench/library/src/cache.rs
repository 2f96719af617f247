//! The cache.

use crate::store::{FIRST, Pages, Pairs, Store};
use dilluvas::{Cache, Page, Swap, Token};

/// A cache, and the tokens of its pages.
pub struct Cached {
    cache: Cache,
    tokens: Vec<Token>,
    page: Page,
}

impl Cached {
    pub fn over(cache: Cache) -> Cached {
        Cached {
            cache,
            tokens: Vec::new(),
            page: Page::empty(),
        }
    }

    /// Rewrites the file. The stamps begin anew then.
    pub fn compact(&mut self) {
        self.cache.compact().expect("it is rewritten");
        self.tokens.iter_mut().for_each(|token| token.stamp = 0);
    }

    fn token(&mut self, page: u64) -> &mut Token {
        &mut self.tokens[(page - FIRST) as usize]
    }
}

fn done(swap: Swap) -> Token {
    match swap {
        Swap::Done(token) => token,
        other => panic!("the page was changed by another: {other:?}"),
    }
}

impl Pages for Cached {
    fn allocate(&mut self, pairs: &Pairs) -> u64 {
        let token = self
            .cache
            .allocate(pairs.iter().copied())
            .expect("it is allocated");
        self.tokens.push(token);
        token.page
    }

    fn read(&mut self, page: u64) -> usize {
        self.cache
            .get_into(page, &mut self.page)
            .expect("the page is read");
        self.page
            .pairs()
            .map(|(key, value)| key.len() + value.len())
            .sum()
    }

    fn flush(&mut self) {
        self.cache.flush().expect("it is flushed");
    }
}

impl Store for Cached {
    fn value(&mut self, page: u64, key: &[u8], value: &mut Vec<u8>) {
        let found = self
            .cache
            .value_into(page, key, value)
            .expect("the page is read");
        assert!(found.is_some());
    }

    fn set(&mut self, page: u64, key: &[u8], value: &[u8]) {
        let token = *self.token(page);
        *self.token(page) = done(self.cache.set(token, key, value).expect("the key is set"));
    }

    fn replace(&mut self, page: u64, pairs: &Pairs) {
        let token = *self.token(page);
        let swap = self.cache.replace(token, pairs.iter().copied());
        *self.token(page) = done(swap.expect("the page is replaced"));
    }
}
