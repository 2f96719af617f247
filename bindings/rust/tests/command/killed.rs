//! Commands that are killed.

use crate::run::{Store, program};
use crate::seed::Seed;
use dilluvas::Db;
use std::fs;
use std::io::Write;
use std::thread;
use std::time::Duration;

const HEAD: &[u8] = b"VERSION=3\nformat=print\ndatabase=m\ntype=btree\nHEADER=END\n";

fn keys_of(store: &Store) -> u64 {
    Db::open_existing(store.folder.file())
        .unwrap()
        .map("m")
        .len()
        .unwrap()
}

#[test]
fn a_load_that_is_killed_leaves_nothing() {
    let store = Store::new("killed-load");
    store.run(&["set", "m", "first", "1"]).done();
    let mut moments = Seed(5);
    let mut grown = 0;
    for kill in 0..20 {
        let before = fs::metadata(store.folder.file()).unwrap().len();
        let path = store.path();
        let mut child = program(&[&path, "load"]).spawn().unwrap();
        let mut stdin = child.stdin.take().unwrap();
        let feeding = thread::spawn(move || {
            let mut text = HEAD.to_vec();
            for key in 0u64.. {
                text.extend(format!(" {key}\n {}\n", "v".repeat(500)).into_bytes());
                if text.len() > 10_000 && stdin.write_all(&text).is_err() {
                    return;
                }
                if text.len() > 10_000 {
                    text.clear();
                }
            }
        });
        let len = || fs::metadata(store.folder.file()).unwrap().len();
        // every other one is killed when a part is written
        while kill % 2 == 0 && len() <= before {
            thread::sleep(Duration::from_millis(1));
        }
        thread::sleep(Duration::from_micros(moments.below(100_000) as u64));
        child.kill().unwrap();
        child.wait().unwrap();
        feeding.join().unwrap();
        grown += u64::from(len() > before);
        assert_eq!(keys_of(&store), 1);
    }
    assert!(grown >= 10);
    // and one that isn't killed is there
    store
        .with_input(&["load"], &[HEAD, b" k\n v\nDATA=END\n"].concat())
        .done();
    assert_eq!(keys_of(&store), 2);
}

#[test]
fn a_compact_that_is_killed_leaves_the_maps() {
    let store = Store::new("killed-compact");
    let db = Db::open(store.folder.file()).unwrap();
    for round in 0..4u8 {
        for key in 0..2000u32 {
            db.map("m").set(key.to_be_bytes(), [round; 50]).unwrap();
        }
    }
    db.flush().unwrap();
    drop(db);
    let full = fs::read(store.folder.file()).unwrap();
    let dump = store.run(&["dump"]).done();
    let mut moments = Seed(6);
    let mut ended = [0; 2];
    for _ in 0..20 {
        fs::write(store.folder.file(), &full).unwrap();
        let path = store.path();
        let mut child = program(&[&path, "compact"]).spawn().unwrap();
        thread::sleep(Duration::from_micros(moments.below(60_000) as u64));
        child.kill().unwrap();
        child.wait().unwrap();
        let len = fs::metadata(store.folder.file()).unwrap().len();
        ended[usize::from(len < full.len() as u64)] += 1;
        assert_eq!(store.run(&["dump"]).done(), dump);
    }
    println!(
        "{} were killed before the new file had its name, {} behind",
        ended[0], ended[1]
    );
    // what they left beside is in nobody's way
    store.run(&["compact"]).done();
    assert_eq!(store.run(&["dump"]).done(), dump);
    assert_eq!(fs::read_dir(store.folder.path()).unwrap().count(), 1);
}
