//! A file on a disk that gets full: what doesn't fit is refused before it is begun, and all else goes on.
//!
//! The disk is a file system in memory, which only root may mount. Where it can't be mounted the tests say so, and look at nothing.

mod folder;

use dilluvas::{Cache, CompactAt, Db, Error, FileSettings, Map, NO_PAIRS};
use folder::Folder;
use std::error::Error as _;
use std::fmt::Write as _;
use std::fs;
use std::io::Write as _;
use std::path::{Path, PathBuf};
use std::process::{Command, Stdio};

// A file system of so many kilobytes, which is gone behind its test.
struct Disk {
    folder: Folder,
    place: PathBuf,
}

impl Disk {
    fn new(name: &str, kilobytes: u32) -> Option<Disk> {
        let folder = Folder::new(&format!("full-disk-{name}"));
        let place = folder.path().join("disk");
        fs::create_dir(&place).unwrap();
        let size = format!("size={kilobytes}k");
        let mounted = Command::new("mount")
            .args(["-t", "tmpfs", "-o", &size, "none"])
            .arg(&place)
            .output();
        if mounted.is_ok_and(|output| output.status.success()) {
            return Some(Disk { folder, place });
        }
        println!("no file system can be mounted: nothing is looked at");
        None
    }

    fn file(&self) -> PathBuf {
        self.place.join("pages")
    }

    fn set_size(&self, kilobytes: u32) {
        let size = format!("remount,size={kilobytes}k");
        let mounted = Command::new("mount")
            .args(["-o", &size])
            .arg(&self.place)
            .status();
        assert!(mounted.unwrap().success());
    }

    // A place on another disk.
    fn elsewhere(&self) -> PathBuf {
        self.folder.path().join("elsewhere")
    }
}

impl Drop for Disk {
    fn drop(&mut self) {
        let _ = Command::new("umount").arg("-l").arg(&self.place).status();
    }
}

fn disk_full() -> Error {
    Error::DiskFull(std::sync::Arc::new(std::io::Error::other("any")))
}

fn value_of(key: u32, len: usize) -> Vec<u8> {
    key.to_le_bytes().repeat(len / 4)
}

// Sets key by key until one is refused: how many were set.
fn fill(db: &Db, from: u32, len: usize) -> u32 {
    for key in from.. {
        match db.map("m").set(key.to_be_bytes(), value_of(key, len)) {
            Ok(_) => {}
            Err(error) => {
                assert_eq!(error, disk_full());
                return key;
            }
        }
        if key % 64 == 0 {
            db.flush().unwrap();
        }
    }
    unreachable!()
}

fn check(map: &Map, keys: u32, len: usize) {
    let mut found = 0u32;
    for pair in map {
        let (key, value) = pair.unwrap();
        assert_eq!(key, found.to_be_bytes());
        assert_eq!(value, value_of(found, len));
        found += 1;
    }
    assert_eq!(found, keys);
}

// The store of a path, which was flushed with these keys.
fn check_file(path: &Path, keys: u32, len: usize) {
    check(&Db::open(path).unwrap().map("m"), keys, len);
}

const SMALL: FileSettings = FileSettings {
    cache_capacity: 4096,
    idgen_persist_interval: 10,
    segment_size: 4096,
};

// Fills a disk, and goes on when it has become larger.
fn full_and_larger(name: &str, settings: &FileSettings, len: usize) {
    let Some(disk) = Disk::new(name, 8 << 10) else {
        return;
    };
    let db = Db::open_with(disk.file(), settings).unwrap();
    let keys = fill(&db, 0, len);
    assert!(keys > 0);
    let map = db.map("m");
    // reads go on, and so does a flush of all that was set
    check(&map, keys, len);
    for _ in 0..3 {
        assert_eq!(fill(&db, keys, len), keys);
        db.flush().unwrap();
        check(&map, keys, len);
    }
    assert_eq!(
        db.batch(|batch| batch.map("m").set("k", "v"))
            .unwrap_err()
            .error,
        disk_full()
    );
    // a process that is killed leaves what is there now
    dilluvas::copy_file(disk.file(), disk.elsewhere()).unwrap();
    check_file(&disk.elsewhere(), keys, len);

    disk.set_size(64 << 10);
    let more = keys + 100;
    for key in keys..more {
        map.set(key.to_be_bytes(), value_of(key, len)).unwrap();
    }
    db.flush().unwrap();
    check(&map, more, len);
    db.compact().unwrap();
    check(&map, more, len);
    drop((map, db));
    check_file(&disk.file(), more, len);
}

#[test]
fn a_store_goes_on_once_there_is_room() {
    full_and_larger("usual", &FileSettings::default(), 1000);
}

#[test]
fn one_of_small_segments_goes_on_too() {
    full_and_larger("small", &SMALL, 100);
}

#[test]
fn one_of_long_values_goes_on_too() {
    full_and_larger("long", &SMALL, 20_000);
}

#[test]
fn a_rewriting_without_room_leaves_the_store() {
    let Some(disk) = Disk::new("compact", 4 << 10) else {
        return;
    };
    let db = Db::open_with(disk.file(), &SMALL).unwrap();
    let keys = fill(&db, 0, 1000);
    for _ in 0..3 {
        assert_eq!(db.compact(), Err(disk_full()));
        assert_eq!(fs::read_dir(&disk.place).unwrap().count(), 1);
        check(&db.map("m"), keys, 1000);
    }
    db.flush().unwrap();
    // on another disk there is room
    let path = disk.elsewhere();
    dilluvas::copy_file(disk.file(), &path).unwrap();
    let other = Db::open_with(&path, &SMALL).unwrap();
    other.compact().unwrap();
    other
        .map("m")
        .set(keys.to_be_bytes(), value_of(keys, 1000))
        .unwrap();
    other.flush().unwrap();
    check(&other.map("m"), keys + 1, 1000);
}

// A rewriting that is on its way is given up before a change is refused.
#[test]
fn steps_of_a_rewriting_leave_the_room_to_changes() {
    let Some(disk) = Disk::new("steps", 24 << 10) else {
        return;
    };
    let db = Db::open_with(disk.file(), &SMALL).unwrap();
    let steps = CompactAt {
        times: 2,
        least: 0,
        most: u64::MAX,
        step: 1 << 20,
    };
    db.set_compact_at(Some(steps)).unwrap();
    let other = disk.file().with_extension("dilluvas-new");
    let mut was_on_its_way = 0;
    let mut keys = 0u32;
    while let Ok(_) = db.map("m").set(keys.to_be_bytes(), value_of(keys, 400)) {
        // each value is written twice, so that there is something to rewrite
        db.map("m")
            .set(keys.to_be_bytes(), value_of(keys, 400))
            .ok();
        keys += 1;
        if keys % 64 == 0 {
            db.flush().unwrap();
            was_on_its_way += usize::from(other.exists());
        }
    }
    assert!(was_on_its_way > 0);
    assert!(!other.exists());
    check_told(&db);
    check(&db.map("m"), keys, 400);
    db.flush().unwrap();
    drop(db);
    check_file(&disk.file(), keys, 400);
}

// A rewriting ends by then, whatever a step is.
const MOST_FLUSHES: u32 = 100_000;

// That the last rewriting by a flush had no room.
fn check_told(db: &Db) {
    let told = db.rewriting_failure().unwrap().expect("it failed");
    assert_eq!(told, disk_full());
    let cause = told.source().expect("the system caused it");
    let cause: &std::io::Error = cause.downcast_ref().unwrap();
    assert_eq!(cause.kind(), std::io::ErrorKind::StorageFull);
}

#[test]
fn a_rewriting_by_flushes_that_has_no_room_is_told() {
    let Some(disk) = Disk::new("told", 6 << 10) else {
        return;
    };
    let steps = CompactAt {
        times: 2,
        least: 0,
        most: u64::MAX,
        step: 1,
    };
    let other = disk.file().with_extension("dilluvas-new");
    let db = Db::open_with(disk.file(), &SMALL).unwrap();
    db.set_compact_at(None).unwrap();
    for key in (0..400u32).cycle().take(1600) {
        let value = value_of(key, 400);
        db.map("m").set(key.to_be_bytes(), value).unwrap();
    }
    db.flush().unwrap();
    assert_eq!(db.rewriting_failure(), Ok(None));
    // none is begun
    db.set_compact_at(Some(steps)).unwrap();
    assert_eq!(db.flush(), Ok(0));
    assert!(!other.exists());
    check_told(&db);
    // a step finds none
    disk.set_size(64 << 10);
    db.set_compact_at(Some(steps)).unwrap();
    assert_eq!(db.flush(), Ok(0));
    assert!(other.exists());
    check_told(&db);
    let filler = disk.place.join("filler");
    let mut file = fs::File::create(&filler).unwrap();
    while file.write_all(&[0; 4096]).is_ok() {}
    drop(file);
    let is_ended = |_| {
        assert_eq!(db.flush(), Ok(0));
        !other.exists()
    };
    assert!((0..MOST_FLUSHES).any(is_ended));
    check_told(&db);
    check(&db.map("m"), 400, 400);
    // until one has replaced the file
    fs::remove_file(filler).unwrap();
    let before = db.size_on_disk().unwrap();
    db.set_compact_at(Some(steps)).unwrap();
    assert!((0..MOST_FLUSHES).any(is_ended));
    assert_eq!(db.rewriting_failure(), Ok(None));
    assert!(db.size_on_disk().unwrap() < before);
    check(&db.map("m"), 400, 400);
}

#[test]
fn what_others_give_back_is_used() {
    let Some(disk) = Disk::new("others", 6 << 10) else {
        return;
    };
    let other = disk.place.join("other");
    fs::write(&other, vec![7; 3 << 20]).unwrap();
    let db = Db::open_with(disk.file(), &SMALL).unwrap();
    let keys = fill(&db, 0, 400);
    fs::remove_file(&other).unwrap();
    let more = fill(&db, keys, 400);
    assert!(more > keys + 1000, "{keys} {more}");
    db.flush().unwrap();
    drop(db);
    // it opens while the disk is full, and is read
    let db = Db::open_with(disk.file(), &SMALL).unwrap();
    check(&db.map("m"), more, 400);
}

#[test]
fn pages_are_refused_and_read_too() {
    let Some(disk) = Disk::new("pages", 2 << 10) else {
        return;
    };
    let mut cache = Cache::open(disk.file(), &SMALL).unwrap();
    let mut pages = Vec::new();
    let refused = loop {
        match cache.allocate([("key", vec![7; 500])]) {
            Ok(token) => pages.push(token),
            Err(error) => break error,
        }
    };
    assert_eq!(refused, disk_full());
    assert_eq!(cache.set(pages[0], "k", "v"), Err(disk_full()));
    assert_eq!(cache.free(pages[0]), Err(disk_full()));
    assert_eq!(cache.allocate(NO_PAIRS), Err(disk_full()));
    assert_eq!(cache.pin().unwrap_err(), disk_full());
    cache.flush().unwrap();
    for token in &pages {
        assert_eq!(cache.get(token.page).unwrap().unwrap().token(), *token);
    }
    disk.set_size(8 << 10);
    assert!(cache.free(pages[0]).unwrap().done().is_some());
    cache.flush().unwrap();
}

#[test]
fn the_room_behind_the_end_goes_back() {
    let Some(disk) = Disk::new("back", 16 << 10) else {
        return;
    };
    let taken = || {
        use std::os::unix::fs::MetadataExt;
        fs::metadata(disk.file()).unwrap().blocks() * 512
    };
    let db = Db::open(disk.file()).unwrap();
    db.map("m").set("k", "v").unwrap();
    db.flush().unwrap();
    assert!(taken() > 1 << 20, "a segment may be pending");
    drop(db);
    assert!(taken() <= 8192, "{} bytes", taken());
    check_pair(&disk);
}

fn check_pair(disk: &Disk) {
    check_pair_of(&Db::open(disk.file()).unwrap());
}

#[test]
fn a_load_without_room_leaves_nothing_of_it() {
    let Some(disk) = Disk::new("load", 4 << 10) else {
        return;
    };
    assert_eq!(
        Db::open(disk.file()).unwrap().map("m").set("k", "v"),
        Ok(false)
    );
    let mut text = "VERSION=3\nformat=print\ndatabase=m\ntype=btree\nHEADER=END\n".to_owned();
    for key in 0..20_000 {
        writeln!(text, " {key}\n {}", "v".repeat(400)).unwrap();
    }
    let mut child = Command::new(env!("CARGO_BIN_EXE_dilluvas"))
        .arg(disk.file())
        .arg("load")
        .stdin(Stdio::piped())
        .stderr(Stdio::piped())
        .spawn()
        .unwrap();
    // it ends before it has read all
    let _ = child.stdin.take().unwrap().write_all(text.as_bytes());
    let said = child.wait_with_output().unwrap();
    let line = String::from_utf8(said.stderr).unwrap();
    assert_eq!(said.status.code(), Some(3), "{line}");
    assert!(line.contains("the disk has no room"), "{line}");
    let db = Db::open(disk.file()).unwrap();
    assert_eq!(db.map("m").len(), Ok(1));
    db.compact().unwrap();
    check_pair_of(&db);
}

fn check_pair_of(db: &Db) {
    assert_eq!(db.map("m").get("k").unwrap().unwrap(), b"v");
}

#[test]
fn what_is_too_long_wants_no_room() {
    let Some(disk) = Disk::new("too-long", 8 << 10) else {
        return;
    };
    let db = Db::open_with(disk.file(), &SMALL).unwrap();
    let map = db.map("m");
    let long = vec![0; 1 << 31];
    assert_eq!(map.set(&long, "v"), Err(Error::KeyTooLong));
    assert_eq!(map.set("k", &long), Err(Error::ValueTooLong));
    // nor does any later change
    map.set("k", "v").unwrap();
    check_pair_of(&db);
}

#[test]
fn a_rewriting_takes_the_room_that_was_kept() {
    let Some(disk) = Disk::new("kept", 8 << 10) else {
        return;
    };
    const LEN: usize = 64 << 10;
    let db = Db::open_with(disk.file(), &SMALL).unwrap();
    db.set_compact_at(None).unwrap();
    let map = db.map("m");
    for key in 0..24u32 {
        map.set(key.to_be_bytes(), value_of(key, LEN)).unwrap();
    }
    // what is needless takes all the room but that which is kept
    let again = |key: u32| map.set(key.to_be_bytes(), value_of(key, LEN));
    let refused = (0..1000u32).find_map(|turn| again(turn % 24).err());
    assert_eq!(refused, Some(disk_full()));
    db.compact().unwrap();
    check(&map, 24, LEN);
    again(0).unwrap();
    db.flush().unwrap();
    drop((map, db));
    check_file(&disk.file(), 24, LEN);
}
