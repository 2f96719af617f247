//! What is done with a whole file: `stat`, `verify` and `compact`.

use crate::run::Store;
use crate::seed::Seed;
use dilluvas::{Cache, Db, FileSettings, NO_PAIRS};
use std::fs;

// Keys and values of two maps, of which each was set five times.
fn filled(name: &str) -> Store {
    let store = Store::new(name);
    let db = Db::open(store.folder.file()).unwrap();
    for _ in 0..5 {
        for key in 0..1000u32 {
            db.map("numbers").set(key.to_be_bytes(), [7; 10]).unwrap();
        }
        db.map("names").set("anna", "").unwrap();
        db.flush().unwrap();
    }
    drop(db);
    store
}

// The number behind a name in what `stat` tells.
fn row(told: &str, name: &str) -> u64 {
    let mut rows = told.lines().filter_map(|line| line.split_once('\t'));
    let (_, number) = rows.find(|(row, _)| *row == name).expect("it is told");
    number.parse().unwrap()
}

#[test]
fn stat_tells_what_a_file_holds() {
    let store = filled("stat");
    let told = store.run(&["stat"]).done();
    assert_eq!(row(&told, "maps"), 2);
    assert_eq!(row(&told, "keys"), 1001);
    assert_eq!(row(&told, "bytes of keys"), 4004);
    assert_eq!(row(&told, "bytes of values"), 10_000);
    let len = fs::metadata(store.folder.file()).unwrap().len();
    assert_eq!(row(&told, "bytes of the file"), len);
    // each key was set five times
    assert!(row(&told, "bytes that compact spares") > len / 2);
    // a leaf of short pairs has some tens
    let pages = row(&told, "pages");
    assert!((20..200).contains(&pages), "{pages}");
    let mut cache = Cache::open(store.folder.file(), &FileSettings::default()).unwrap();
    let found = (2..10_000).filter(|page| cache.get(*page).unwrap().is_some());
    assert_eq!(pages, found.count() as u64);
    let takes = cache.amplification().unwrap();
    let held = row(&told, "bytes of the pages");
    assert_eq!(
        held,
        takes.pages - FileSettings::default().segment_size as u64
    );
    assert!(held > 128 * pages + 10_000 && held < len / 2);
}

#[test]
fn stat_of_a_store_of_nothing_is_zeros() {
    let store = Store::new("stat-empty");
    drop(Db::open(store.folder.file()).unwrap());
    let told = store.run(&["stat"]).done();
    for name in ["maps", "keys", "bytes of keys", "bytes of values", "pages"] {
        assert_eq!(row(&told, name), 0, "{name}");
    }
    // the counter of ids
    assert_eq!(row(&told, "bytes of the pages"), 8);
    assert_eq!(store.run(&["maps"]).done(), "");
    assert_eq!(store.run(&["dump"]).done(), "");
    assert_eq!(
        store.run(&["verify"]).done(),
        "0 pages and 0 keys are whole\n"
    );
}

#[test]
fn a_file_is_as_old_as_its_last_rewriting() {
    let store = filled("age");
    let birth = |store: &Store| {
        let told = store.run(&["stat"]).done();
        let line = told
            .lines()
            .find(|line| line.starts_with("last rewritten\t"));
        line.expect("it is told").to_owned()
    };
    let before = birth(&store);
    if before.ends_with("unknown") {
        return println!("the file system keeps no birth of a file");
    }
    assert_eq!(before, birth(&store));
    std::thread::sleep(std::time::Duration::from_millis(1100));
    store.run(&["compact"]).done();
    assert!(birth(&store) > before);
}

#[test]
fn compact_leaves_the_maps_and_gives_space_back() {
    let store = filled("compact");
    let (dump, before) = (
        store.run(&["dump"]).done(),
        fs::metadata(store.folder.file()).unwrap(),
    );
    let spared = row(&store.run(&["stat"]).done(), "bytes that compact spares");
    store.run(&["compact"]).done();
    let after = fs::metadata(store.folder.file()).unwrap();
    let given_back = before.len() - after.len();
    assert!(
        spared.abs_diff(given_back) < before.len() / 10,
        "{spared} {given_back}"
    );
    assert!(
        after.len() < before.len() / 3,
        "{} of {}",
        after.len(),
        before.len()
    );
    assert_eq!(store.run(&["dump"]).done(), dump);
    assert_eq!(fs::read_dir(store.folder.path()).unwrap().count(), 1);
}

#[test]
fn ids_go_on_behind_those_of_a_compacted_file() {
    let store = Store::new("ids");
    let mut most = 0;
    for _ in 0..3 {
        let db = Db::open(store.folder.file()).unwrap();
        for _ in 0..50 {
            let id = db.generate_id().unwrap();
            assert!(most == 0 || id > most, "{id} isn't above {most}");
            most = id;
        }
        drop(db);
        store.run(&["compact"]).done();
    }
}

#[test]
fn verify_names_each_damaged_page_and_goes_on() {
    let store = Store::new("verify");
    let mut cache = Cache::open(store.folder.file(), &FileSettings::default()).unwrap();
    let mut places = Vec::new();
    for number in 0..20 {
        let name = format!("page number {number}");
        let token = cache.allocate([("name", name.as_str())]).unwrap();
        places.push((token.page, name));
    }
    let gone = cache.allocate(NO_PAIRS).unwrap();
    assert!(cache.free(gone).unwrap().done().is_some());
    cache.flush().unwrap();
    drop(cache);
    assert_eq!(
        store.run(&["verify"]).done(),
        "20 pages and 0 keys are whole\n"
    );
    let mut bytes = fs::read(store.folder.file()).unwrap();
    for (_, name) in [&places[3], &places[11]] {
        let name = name.as_bytes();
        let at = bytes
            .windows(name.len())
            .position(|window| window == name)
            .unwrap();
        // the length of the value passes the end of its page
        bytes[at - 1] = 200;
    }
    fs::write(store.folder.file(), &bytes).unwrap();
    let said = store.run(&["verify"]);
    assert_eq!((said.code, said.err.as_str()), (1, ""));
    let told = String::from_utf8(said.out).unwrap();
    let lines: Vec<&str> = told.lines().collect();
    assert_eq!(lines.len(), 3, "{told}");
    assert!(
        lines[0].starts_with(&format!("page {}: ", places[3].0)),
        "{told}"
    );
    assert!(
        lines[1].starts_with(&format!("page {}: ", places[11].0)),
        "{told}"
    );
    assert_eq!(lines[2], "18 pages and 0 keys are whole");
    assert_eq!(fs::read(store.folder.file()).unwrap(), bytes);
}

#[test]
fn verify_names_a_map_whose_pages_are_damaged() {
    let store = Store::new("verify-map");
    let db = Db::open(store.folder.file()).unwrap();
    db.map("fruit")
        .set("lime", "a value of the damaged page")
        .unwrap();
    db.map("nuts").set("hazel", "small").unwrap();
    db.flush().unwrap();
    drop(db);
    assert!(
        store
            .run(&["verify"])
            .done()
            .ends_with(" and 2 keys are whole\n")
    );
    let mut bytes = fs::read(store.folder.file()).unwrap();
    let value = b"a value of the damaged page";
    let at = bytes
        .windows(value.len())
        .position(|window| window == value)
        .unwrap();
    bytes[at - 1] = 200;
    fs::write(store.folder.file(), &bytes).unwrap();
    let said = store.run(&["verify"]);
    let told = String::from_utf8(said.out).unwrap();
    assert_eq!(said.code, 1, "{told}");
    assert!(
        told.contains("\nmap fruit: ") && !told.contains("map nuts"),
        "{told}"
    );
    assert!(told.ends_with(" and 1 keys are whole\n"), "{told}");
    // a damaged page is an error of the others
    store.run(&["get", "fruit", "lime"]).refused(3);
    assert_eq!(store.run(&["get", "nuts", "hazel"]).done(), "small");
}

#[test]
fn verify_tells_of_a_file_that_is_cut() {
    let store = filled("cut");
    let bytes = fs::read(store.folder.file()).unwrap();
    let mut seed = Seed(1);
    for _ in 0..20 {
        let len = 8 + seed.below(bytes.len() - 8);
        fs::write(store.folder.file(), &bytes[..len]).unwrap();
        let said = store.run(&["verify"]);
        assert_eq!((said.code, said.err.as_str()), (1, ""), "{len} bytes");
        assert!(!said.out.is_empty());
        store.run(&["dump"]).refused(3);
    }
}
