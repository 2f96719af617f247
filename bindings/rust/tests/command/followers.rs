//! Copies that are brought up to date, while another process changes the file, and copiers that are killed.

use crate::copies::{SMALL, Writer, keys_of};
use crate::folder::Folder;
use crate::run::{Store, program, run};
use crate::seed::Seed;
use dilluvas::Db;
use std::fs;
use std::path::Path;
use std::sync::atomic::Ordering;
use std::thread;
use std::time::{Duration, Instant};

const COPIES: usize = 100;
const KEYS_A_COPY: u64 = 20;

#[test]
fn an_older_copy_is_given_what_it_lacks() {
    let store = Store::new("follow");
    let other = store.folder.path().join("other");
    let other = other.to_str().unwrap();
    for value in ["one", "two"] {
        store.run(&["set", "m", "k", value]).done();
        store.run(&["copy", other]).done();
        assert_eq!(run(&[other, "get", "m", "k"]).done(), value);
        assert_eq!(
            fs::read(other).unwrap(),
            fs::read(store.folder.file()).unwrap()
        );
        // and once more, which has nothing to do
        store.run(&["copy", other]).done();
    }
    // one that was changed is none
    run(&[other, "set", "m", "k", "mine"]).done();
    store.run(&["set", "m", "k", "three"]).done();
    let line = store.run(&["copy", other]).refused(3);
    assert!(line.contains("is no older copy"), "{line}");
    assert_eq!(run(&[other, "get", "m", "k"]).done(), "mine");
    // nor is one of what was rewritten
    fs::remove_file(other).unwrap();
    store.run(&["copy", other]).done();
    store.run(&["compact"]).done();
    store.run(&["copy", other]).refused(3);
    assert_eq!(run(&[other, "get", "m", "k"]).done(), "three");
    // one that is open is left alone
    let _db = Db::open(other).unwrap();
    let line = store.run(&["copy", other]).refused(3);
    assert!(
        line.contains("the file is open in another process"),
        "{line}"
    );
}

#[test]
fn a_follower_keeps_up_with_a_writer() {
    let folder = Folder::in_memory("command-follower");
    let (path, other) = (folder.file(), folder.path().join("other"));
    let db = Db::open_with(&path, &SMALL).unwrap();
    let writer = Writer::default();
    let mut begun_anew = 0;
    thread::scope(|scope| {
        scope.spawn(|| writer.write(&db));
        for copy in 0..COPIES {
            let flushed = writer.flushed.load(Ordering::SeqCst);
            writer.wanted.fetch_add(KEYS_A_COPY, Ordering::Relaxed);
            let words = [path.to_str().unwrap(), "copy", other.to_str().unwrap()];
            let copied = run(&words);
            if copied.code != 0 {
                // the file was rewritten
                fs::remove_file(&other).unwrap();
                run(&words).done();
                begun_anew += 1;
            }
            let begun = writer.begun.load(Ordering::SeqCst);
            if copy % 10 == 0 {
                let told = run(&[other.to_str().unwrap(), "verify"]).done();
                assert!(told.ends_with("are whole\n"), "{told}");
            }
            // it is opened each time, which may have to say that a batch was abandoned
            let found = keys_of(&other);
            assert!(
                (flushed..=begun).contains(&found),
                "{flushed} {found} {begun}"
            );
        }
        writer.is_ended.store(true, Ordering::Relaxed);
    });
    println!("{COPIES} copies, of which {begun_anew} were begun anew");
    assert!(begun_anew < COPIES / 10);
}

// How many keys the map of a copy has, which are the first ones.
fn first_keys_of(copy: &Path) -> u64 {
    let db = Db::open_existing(copy).unwrap();
    let mut keys = 0u64;
    for pair in &db.map("m") {
        assert_eq!(pair.unwrap().0, keys.to_be_bytes());
        keys += 1;
    }
    keys
}

#[test]
fn a_copier_that_is_killed_leaves_the_older_copy_or_the_newer() {
    let store = Store::new("follow-killed");
    let (path, other) = (store.path(), store.folder.path().join("other"));
    let words = [&path, "copy", other.to_str().unwrap()];
    let db = Db::open(store.folder.file()).unwrap();
    db.set_compact_at(None).unwrap();
    let mut moments = Seed(9);
    let (mut keys, mut ended, mut took) = (0u64, [0; 2], 0);
    for kill in 0..24u64 {
        for _ in 0..500 {
            db.map("m").set(keys.to_be_bytes(), [7; 500]).unwrap();
            keys += 1;
        }
        db.flush().unwrap();
        // every fourth one isn't killed
        if kill % 4 == 0 {
            let start = Instant::now();
            run(&words).done();
            took = start.elapsed().as_micros() as usize;
            assert_eq!(first_keys_of(&other), keys);
            continue;
        }
        let mut child = program(&words).spawn().unwrap();
        thread::sleep(Duration::from_micros(moments.below(took * 3 / 2) as u64));
        child.kill().unwrap();
        child.wait().unwrap();
        let found = first_keys_of(&other);
        assert!(
            found <= keys && found.is_multiple_of(500),
            "{found} of {keys}"
        );
        ended[usize::from(found == keys)] += 1;
    }
    let [older, newer] = ended;
    println!("{older} kills left an older copy, {newer} the newer one");
    assert!(older > 0);
}
