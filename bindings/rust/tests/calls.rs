//! Each method once, and answers that aren't `Ok`.

use dilluvas::{Amplification, Cache, Error, NO_PAIRS, Page, Settings, Swap, Token};
use std::collections::BTreeMap;

fn open() -> Cache {
    Cache::in_memory(&Settings::default()).expect("these settings are allowed")
}

fn done(swap: Swap) -> Token {
    swap.done().expect("the token is the page's")
}

#[test]
fn settings_are_tested() {
    let settings = Settings {
        cache_capacity: 255,
        ..Settings::default()
    };
    let error = Cache::in_memory(&settings).map(drop).unwrap_err();
    assert_eq!(error, Error::CapacityTooSmall);
    assert_eq!(error.status(), 102);
    assert_eq!(error.to_string(), "the capacity of the cache is below 256");
}

#[test]
fn each_error_has_a_number_and_a_text() {
    for status in 0..=300 {
        let error = Error::Unknown(status);
        assert_eq!(error.status(), status);
        assert!(!error.to_string().is_empty(), "{status}");
    }
    assert_eq!(Error::LinkRefused.status(), 203);
}

#[test]
fn pages_have_stamps() -> Result<(), Error> {
    let mut cache = open();
    let old = cache.allocate(NO_PAIRS)?;
    assert_eq!(old, Token { page: 2, stamp: 1 });
    let token = done(cache.set(old, b"b", b"v")?);
    assert_eq!(cache.set(old, b"b", b"w")?, Swap::Stale(token));
    let absent = Token { page: 9, stamp: 1 };
    assert_eq!(cache.set(absent, b"b", b"w")?, Swap::Gone);
    let reserved = Token { page: 0, stamp: 1 };
    assert_eq!(cache.set(reserved, b"b", b"w"), Err(Error::ReservedId));
    let token = done(cache.del(token, b"b")?);
    let freed = done(cache.free(token)?);
    assert_eq!(cache.get(2)?, None);
    let again = Token {
        page: 2,
        stamp: freed.stamp + 1,
    };
    assert_eq!(cache.allocate(NO_PAIRS)?, again);
    Ok(())
}

#[test]
fn pairs_come_back() -> Result<(), Error> {
    let mut cache = open();
    let long = vec![7; 5000];
    let pairs = [(&b""[..], &long[..]), (b"b", b"v")];
    let token = cache.allocate(pairs)?;
    let page = cache.get(2)?.expect("it is there");
    assert_eq!(
        (page.token(), page.len(), page.is_index()),
        (token, 2, false)
    );
    assert!(page.pairs().eq(pairs));
    let mut value = b"before ".to_vec();
    assert_eq!(cache.value_into(2, b"b", &mut value)?, Some(token));
    assert_eq!(cache.value_into(2, b"c", &mut value)?, None);
    assert_eq!(value, b"before v");
    let token = done(cache.replace(token, [(&b"x"[..], &b"1"[..]), (b"y", b"")])?);
    assert_eq!(cache.get(2)?.expect("it is there").len(), 2);
    let falling = [("y", ""), ("x", "")];
    assert_eq!(cache.replace(token, falling), Err(Error::Arguments));
    Ok(())
}

#[test]
fn pairs_are_counted_and_searched() -> Result<(), Error> {
    let mut cache = open();
    let map = BTreeMap::from([("a", vec![1]), ("c", vec![]), ("d", vec![4; 300])]);
    let token = cache.allocate(&map)?;
    let page = cache.get(token.page)?.expect("it is there");
    let mut pairs = page.into_iter();
    for left in (0..map.len()).rev() {
        assert!(pairs.next().is_some());
        assert_eq!(pairs.len(), left);
    }
    assert_eq!((pairs.next(), pairs.next(), pairs.len()), (None, None, 0));
    for key in ["", "a", "b", "c", "d", "da"] {
        assert_eq!(page.get(key), map.get(key).map(Vec::as_slice), "{key}");
    }
    let copied = cache.allocate(&page)?;
    assert_eq!(cache.get(copied.page)?.expect("it is there").len(), 3);
    assert_eq!(Page::default().pairs().len(), 0);
    assert_eq!(Page::default().get(""), None);
    Ok(())
}

#[test]
fn a_page_that_is_used_again_keeps_nothing() -> Result<(), Error> {
    let mut cache = open();
    let long = cache.allocate([("key", "a long value")])?.page;
    let short = cache.allocate([("k", "v")])?.page;
    let mut page = Page::empty();
    assert!(cache.get_into(long, &mut page)?);
    assert!(cache.get_into(short, &mut page)?);
    assert_eq!(Some(&page), cache.get(short)?.as_ref());
    assert!(!cache.get_into(9, &mut page)?);
    assert_eq!(page, Page::empty());
    assert!(cache.get_into(long, &mut page)?);
    assert_eq!(cache.get_into(0, &mut page), Err(Error::ReservedId));
    assert_eq!((page.len(), page.token().page), (0, 0));
    Ok(())
}

#[test]
fn names_have_roots() -> Result<(), Error> {
    let mut cache = open();
    assert_eq!(cache.root(b"t")?, None);
    let root = cache.open_tree(b"t")?;
    assert_eq!(cache.cas_root(b"t", None, Some(2))?, Err(Some(root)));
    assert_eq!(cache.cas_root(b"t", Some(root), None)?, Ok(()));
    assert_eq!(cache.cas_root(b"t", Some(root), None)?, Err(None));
    for (old, new) in [(None, Some(0)), (Some(0), None)] {
        assert_eq!(cache.cas_root(b"t", old, new), Err(Error::ReservedId));
    }
    assert_eq!(cache.root(b"t")?, None);
    let page = cache.get(root)?.expect("it is there");
    assert!(page.is_index() && !page.is_empty());
    let set = cache.set(page.token(), b"k", b"v");
    assert_eq!(set, Err(Error::LinkRefused));
    let value = cache.value_into(root, b"k", &mut Vec::new());
    assert_eq!(value, Err(Error::Index));
    Ok(())
}

#[test]
fn batches_are_sealed_or_cancelled() -> Result<(), Error> {
    let mut cache = open();
    let mut batch = cache.pin()?;
    let token = batch.allocate(NO_PAIRS)?;
    assert_eq!(batch.flush(), Err(Error::BatchOpen));
    batch.seal()?;
    drop(cache.pin()?);
    assert!(cache.flush()? > 0);
    assert!(cache.get(token.page)?.is_some());
    Ok(())
}

#[test]
fn the_log_is_asked() -> Result<(), Error> {
    let mut cache = open();
    assert_eq!((cache.generate_id()?, cache.generate_id()?), (0, 1));
    let log = cache.size()?;
    let Amplification { log: same, pages } = cache.amplification()?;
    assert!(same == log && pages > 4096);
    assert!(!cache.attempt_gc()?);
    assert!(!cache.was_recovered()?);
    Ok(())
}

#[test]
fn caches_are_moved_and_many() -> Result<(), Error> {
    let mut caches: Vec<Cache> = (0..10).map(|_| open()).collect();
    for cache in &mut caches {
        cache.allocate(NO_PAIRS)?;
    }
    caches.rotate_left(3);
    for mut cache in caches {
        assert_eq!(cache.allocate(NO_PAIRS)?.page, 3);
    }
    Ok(())
}

#[test]
fn a_batch_whose_cache_was_swapped_away_is_refused() -> Result<(), Error> {
    let (mut cache, mut other) = (open(), open());
    let mut batch = cache.pin()?;
    std::mem::swap(&mut *batch, &mut other);
    assert_eq!(batch.seal(), Err(Error::NoBatch));
    assert_eq!(other.pin().map(drop), Err(Error::BatchOpen));
    Ok(())
}

#[test]
fn a_cache_goes_to_another_thread() -> Result<(), Error> {
    let mut cache = open();
    let token = cache.allocate(NO_PAIRS)?;
    let changed = std::thread::spawn(move || {
        cache.set(token, b"k", b"v").map(done)?;
        Ok::<Cache, Error>(cache)
    });
    let mut cache = changed.join().expect("it doesn't panic")?;
    assert_eq!(cache.get(token.page)?.expect("it is there").len(), 1);
    Ok(())
}
