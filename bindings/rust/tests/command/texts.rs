//! `dump` and `load`, and LMDB's `mdb_dump` and `mdb_load`.

use crate::run::{Store, run, with_input};
use crate::seed::Seed;
use dilluvas::Db;
use std::collections::BTreeMap;
use std::fs;
use std::path::Path;
use std::process::Command;

type Maps = BTreeMap<Vec<u8>, BTreeMap<Vec<u8>, Vec<u8>>>;

fn maps_of(path: &Path) -> Maps {
    let db = Db::open_existing(path).unwrap();
    let pairs = |name: &Vec<u8>| db.map(name).iter().map(Result::unwrap).collect();
    let names = db.map_names().unwrap();
    names
        .iter()
        .map(|name| (name.clone(), pairs(name)))
        .collect()
}

fn put(path: &Path, maps: &Maps) {
    let db = Db::open(path).unwrap();
    for (name, pairs) in maps {
        for (key, value) in pairs {
            db.map(name).set(key, value).unwrap();
        }
    }
    db.flush().unwrap();
}

#[test]
fn the_text_is_that_of_lmdb() {
    let store = Store::new("text");
    for (map, key, value) in [
        ("b", "lime", "gr\\00en"),
        ("b", "apple", "a b\\5c"),
        ("a\\0a", "", ""),
    ] {
        store.run(&["set", map, key, value]).done();
    }
    let section = |name: &str, lines: &str| {
        format!(
            "VERSION=3\nformat=print\ndatabase={name}\ntype=btree\nHEADER=END\n{lines}DATA=END\n"
        )
    };
    let (a, b) = (
        section("a\\0a", " \n \n"),
        section("b", " apple\n a b\\5c\n lime\n gr\\00en\n"),
    );
    assert_eq!(store.run(&["dump"]).done(), format!("{a}{b}"));
    assert_eq!(store.run(&["dump", "b"]).done(), b);
    let line = store.run(&["dump", "c"]).refused(1);
    assert!(line.ends_with(": there is no map c"), "{line}");
}

#[test]
fn what_is_dumped_is_loaded_again() {
    let mut seed = Seed(7);
    for round in 0..10 {
        let (store, other) = (
            Store::new(&format!("round-{round}")),
            Store::new(&format!("again-{round}")),
        );
        let mut maps = Maps::new();
        for _ in 0..seed.below(6) + 1 {
            let name = seed.key();
            for _ in 0..seed.below(200) + 1 {
                let len = seed.below(40);
                let value = (0..len).map(|_| seed.below(256) as u8).collect();
                maps.entry(name.clone())
                    .or_default()
                    .insert(seed.key(), value);
            }
        }
        put(&store.folder.file(), &maps);
        let dump = store.run(&["dump"]).done();
        assert!(dump.is_ascii());
        other.with_input(&["load"], dump.as_bytes()).done();
        assert_eq!(maps_of(&other.folder.file()), maps);
        assert_eq!(other.run(&["dump"]).done(), dump);
    }
}

#[test]
fn a_dump_is_loaded_into_the_map_that_is_named() {
    let (store, other) = (Store::new("into"), Store::new("into-other"));
    store.run(&["set", "fruit", "lime", "green"]).done();
    other.run(&["set", "nuts", "hazel", "small"]).done();
    other.run(&["set", "nuts", "lime", "old"]).done();
    let dump = store.run(&["dump", "fruit"]).done();
    other.with_input(&["load", "nuts"], dump.as_bytes()).done();
    assert_eq!(
        other.run(&["scan", "nuts"]).done(),
        "hazel\tsmall\nlime\tgreen\n"
    );
    assert_eq!(other.run(&["maps"]).done(), "nuts\n");
    // one that names no map, in the other form
    let plain = "VERSION=3\nformat=bytevalue\ntype=btree\nmapsize=1048576\nHEADER=END\n 6b\n 00fF\nDATA=END\n";
    let line = other.with_input(&["load"], plain.as_bytes()).refused(3);
    assert!(
        line.contains("line 5 of the input: a MAP is required"),
        "{line}"
    );
    other.with_input(&["load", "m"], plain.as_bytes()).done();
    assert_eq!(other.run(&["scan", "m"]).done(), "k\t\\00\\ff\n");
    other.with_input(&["load"], b"").done();
}

#[test]
fn a_text_that_is_refused_changes_nothing() {
    let store = Store::new("refused");
    store.run(&["set", "m", "k", "v"]).done();
    let before = maps_of(&store.folder.file());
    let head = "VERSION=3\nformat=print\ndatabase=m\ntype=btree\nHEADER=END\n";
    let many: String = (0..3000).map(|key| format!(" {key}\n value\n")).collect();
    let rows = [
        ("VERSION=2\n".to_owned(), 1, "a dump begins with VERSION=3"),
        ("\n".to_owned(), 1, "a dump begins with VERSION=3"),
        ("VERSION=3".to_owned(), 1, "the line is cut off"),
        ("VERSION=3\nformat=text\n".to_owned(), 2, "the format is"),
        ("VERSION=3\ntype=hash\n".to_owned(), 2, "the type is"),
        (
            "VERSION=3\nduplicates=1\n".to_owned(),
            2,
            "a key of a map has one value",
        ),
        (
            "VERSION=3\nintegerkey=1\n".to_owned(),
            2,
            "the keys of a map are in the order",
        ),
        ("VERSION=3\nwhat\n".to_owned(), 2, "a header has lines"),
        ("VERSION=3\ndatabase=\\g\n".to_owned(), 2, "a backslash"),
        ("VERSION=3\n".to_owned(), 2, "the text ends in a header"),
        (
            format!("{head}{many}"),
            6006,
            "the text ends before DATA=END",
        ),
        (
            format!("{head}{many} k\nDATA=END\n"),
            6007,
            "a key has no value",
        ),
        (
            format!("{head}{many}k\n"),
            6006,
            "a key or a value begins with a space",
        ),
        (format!("{head}{many} \\zz\n"), 6006, "a backslash"),
        (format!("{head}{many} k"), 6006, "the line is cut off"),
        (
            format!("{head}{many}DATA=END\nDATA=END\n"),
            6007,
            "a dump begins with VERSION=3",
        ),
        (
            format!(
                "{head}DATA=END\n{}",
                head.replace("print", "bytevalue") + " 6\n"
            ),
            12,
            "two hexadecimal digits",
        ),
    ];
    for (text, number, why) in rows {
        let line = store.with_input(&["load"], text.as_bytes()).refused(3);
        let told = format!(": line {number} of the input: {why}");
        assert!(
            line.contains(&told) && line.ends_with("; nothing was loaded"),
            "{line}"
        );
        assert_eq!(maps_of(&store.folder.file()), before, "{why}");
    }
}

// Whether LMDB's programs are there.
fn has_lmdb() -> bool {
    let is_there = Command::new("mdb_dump").arg("-V").output().is_ok();
    if !is_there {
        println!("LMDB's programs aren't there: nothing is compared");
    }
    is_there
}

fn lmdb(program: &str, words: &[&str]) -> String {
    let output = Command::new(program).args(words).output().unwrap();
    assert!(
        output.status.success(),
        "{}",
        String::from_utf8_lossy(&output.stderr)
    );
    String::from_utf8(output.stdout).unwrap()
}

// Names, and keys of one to 100 bytes, as LMDB has them.
fn some_maps(seed: &mut Seed, most: usize) -> Maps {
    let mut some = |least: usize, most: usize| -> Vec<u8> {
        (0..least + seed.below(most))
            .map(|_| (256 - 1 - seed.below(256)) as u8)
            .collect()
    };
    let pairs = |some: &mut dyn FnMut(usize, usize) -> Vec<u8>| {
        (0..300).map(|_| (some(1, most), some(0, most))).collect()
    };
    ["fruit", "a name"]
        .map(|name| (name.as_bytes().to_vec(), pairs(&mut some)))
        .into()
}

#[test]
fn lmdb_reads_what_is_dumped() {
    if !has_lmdb() {
        return;
    }
    let store = Store::new("lmdb");
    let maps = some_maps(&mut Seed(3), 100);
    put(&store.folder.file(), &maps);
    let (text, place) = (
        store.folder.path().join("text"),
        store.folder.path().join("lmdb"),
    );
    fs::write(&text, store.run(&["dump"]).done()).unwrap();
    fs::create_dir(&place).unwrap();
    let (text, place) = (text.to_str().unwrap(), place.to_str().unwrap());
    lmdb("mdb_load", &["-f", text, place]);
    // in hexadecimal digits, as some versions write a backslash as it is
    let back = lmdb("mdb_dump", &["-a", place]);
    let other = store.folder.path().join("other");
    with_input(&[other.to_str().unwrap(), "load"], back.as_bytes()).done();
    assert_eq!(maps_of(&other), maps);
}

#[test]
fn the_text_is_what_lmdb_writes() {
    if !has_lmdb() {
        return;
    }
    let store = Store::new("lmdb-same");
    let mut maps = some_maps(&mut Seed(4), 50);
    for pairs in maps.values_mut() {
        let of = |bytes: &Vec<u8>| bytes.iter().map(|byte| byte & !4).collect::<Vec<u8>>();
        // no byte is a backslash then
        *pairs = pairs
            .iter()
            .map(|(key, value)| (of(key), of(value)))
            .collect();
    }
    put(&store.folder.file(), &maps);
    let (text, place) = (
        store.folder.path().join("text"),
        store.folder.path().join("lmdb"),
    );
    let dump = store.run(&["dump"]).done();
    fs::write(&text, &dump).unwrap();
    fs::create_dir(&place).unwrap();
    lmdb(
        "mdb_load",
        &["-f", text.to_str().unwrap(), place.to_str().unwrap()],
    );
    let theirs = lmdb("mdb_dump", &["-p", "-a", place.to_str().unwrap()]);
    let is_of_both = |line: &&str| {
        !["mapsize=", "maxreaders=", "db_pagesize="]
            .iter()
            .any(|name| line.starts_with(name))
    };
    let theirs: Vec<&str> = theirs.lines().filter(is_of_both).collect();
    assert_eq!(theirs, dump.lines().collect::<Vec<_>>());
    let _ = run(&["--version"]);
}
