//! Two writers of one log.

use crate::servers::Pair;
use dilluvas::{Db, Device, Error, FileSettings};
use dilluvas_replicated::{Place, Refusal};
use std::path::Path;
use std::process::{Child, Command, Stdio};
use std::time::Duration;
use std::{env, fs, io, thread};

// The variable by which this program knows that it counts until it may not: a file, and the connection.
const COUNT: &str = "DILLUVAS_REPLICATED_COUNT";

fn open(place: &Place) -> Db {
    Db::on_device(place.open_or_make().unwrap(), &FileSettings::default()).unwrap()
}

// Why a call failed, by the name of the error and the refusal that caused it.
pub fn cause_of<T: std::fmt::Debug>(answer: Result<T, Error>) -> (u32, Refusal) {
    let error = answer.unwrap_err();
    let refusal = Refusal::of(&error);
    (
        error.status(),
        refusal.unwrap_or_else(|| panic!("{error:?}")).clone(),
    )
}

pub const READ: u32 = 17;
pub const WRITE: u32 = 18;

/// The older one of two fails at its next sync, and its reads do; what it hadn't flushed is nowhere.
pub fn the_newer_one_goes_on(pair: &Pair) {
    let place = Place::new(pair.primary.conninfo(), "two writers");
    let old = open(&place);
    old.map("m").set("k", "old, flushed").unwrap();
    old.flush().unwrap();
    old.map("m").set("k", "old").unwrap();
    let new = open(&place);
    assert_eq!(new.map("m").get("k").unwrap().unwrap(), b"old, flushed");
    let superseded = Refusal::Superseded { ours: 1, theirs: 2 };
    assert_eq!(cause_of(old.flush()), (WRITE, superseded.clone()));
    assert_eq!(cause_of(old.flush()), (WRITE, superseded.clone()));
    new.map("m").set("k", "new").unwrap();
    new.flush().unwrap();
    for key in 0..200u32 {
        new.map("m").set(key.to_be_bytes(), [7; 100]).unwrap();
    }
    new.flush().unwrap();
    drop((old, new));
    // one that was just opened has no page in memory, so it reads
    let old = open(&place);
    drop(open(&place));
    let superseded = Refusal::Superseded { ours: 3, theirs: 4 };
    assert_eq!(cause_of(old.map("m").len()), (READ, superseded));
}

/// More than a transaction takes, as a rewriting writes it before its sync.
pub fn much_is_written_before_a_sync(pair: &Pair) {
    let place = Place::new(pair.primary.conninfo(), "much").piece(1 << 16);
    let mut device = place.open_or_make().unwrap();
    let bytes: Vec<u8> = (0..40u32 << 20).map(|place| (place / 7777) as u8).collect();
    for (number, part) in bytes.chunks(50_000).enumerate() {
        device.write_at(number as u64 * 50_000, part).unwrap();
    }
    let length = "SELECT length FROM dilluvas_log WHERE name = 'much'";
    let sent: usize = pair.primary.query(length).unwrap().parse().unwrap();
    assert!((32 << 20..33 << 20).contains(&sent), "{sent}");
    let mut read = vec![0; bytes.len()];
    device.read_at(0, &mut read).unwrap();
    assert!(read == bytes);
    device.sync().unwrap();
    drop(device);
    let mut device = place.open().unwrap();
    device.read_at(0, &mut read).unwrap();
    assert!(read == bytes);
    // one that is superseded fails as it writes
    drop(place.open().unwrap());
    let mut parts = bytes.chunks(1 << 20).zip((0..).step_by(1 << 20));
    let written = parts.try_for_each(|(part, at)| device.write_at(at, part));
    let cause = written.unwrap_err();
    assert_eq!(cause.kind(), io::ErrorKind::StaleNetworkFileHandle);
    place.remove().unwrap();
}

/// Many openings at once: each has an epoch of its own, and one of them alone goes on.
pub fn openings_race(pair: &Pair) {
    let place = Place::new(pair.primary.conninfo(), "race");
    drop(open(&place));
    let openings: Vec<_> = (0..8)
        .map(|_| {
            let place = place.clone();
            thread::spawn(move || place.open())
        })
        .collect();
    let (mut epochs, mut writes) = (Vec::new(), 0);
    let opened: Vec<_> = openings
        .into_iter()
        .map(|opening| opening.join().unwrap())
        .collect();
    for answer in opened {
        match answer {
            Ok(device) => {
                epochs.push(device.epoch());
                let db = Db::on_device(device, &FileSettings::default());
                writes += u32::from(db.is_ok());
            }
            Err(refusal) => assert!(matches!(refusal, Refusal::Superseded { .. }), "{refusal}"),
        }
    }
    epochs.sort_unstable();
    assert!(epochs.windows(2).all(|two| two[0] < two[1]), "{epochs:?}");
    assert_eq!(
        writes, 1,
        "the last one alone can write, as a cache does where it opens"
    );
}

/// Flushes a count for ever, and says why it ended.
pub fn count(words: &str) {
    let (file, conninfo) = words.split_once('|').unwrap();
    let db = open(&Place::new(conninfo, "stopped"));
    for count in 0u64.. {
        let set = db.map("m").set("count", count.to_be_bytes());
        if let Err(error) = set.and_then(|_| db.flush()) {
            return end(file, count, &error);
        }
        fs::write(format!("{file}.count"), count.to_string()).unwrap();
    }
}

fn end(file: &str, count: u64, error: &Error) {
    fs::write(
        file,
        format!("{} {count} {:?}", error.status(), Refusal::of(error)),
    )
    .unwrap();
}

fn signal(child: &Child, name: &str) {
    let status = Command::new("kill")
        .args([name, &child.id().to_string()])
        .status();
    assert!(status.unwrap().success());
}

fn start_count(file: &Path, conninfo: &str) -> Child {
    Command::new(env::current_exe().unwrap())
        .args(["scenarios", "--exact", "--nocapture"])
        .env(COUNT, format!("{}|{conninfo}", file.display()))
        .stdout(Stdio::null())
        .spawn()
        .unwrap()
}

/// The words by which this program was started to count, where it was.
pub fn words() -> Option<String> {
    env::var(COUNT).ok()
}

/// A writer is stopped in the middle of its work, another one takes over, and the first is woken.
pub fn one_that_was_stopped_fails(pair: &Pair) {
    for round in 0..5 {
        let file = pair.folder().join(format!("stopped-{round}"));
        let mut child = start_count(&file, &pair.primary.conninfo());
        let counted = file.with_extension("count");
        crate::servers::wait_until("it counts", || counted.exists() || file.exists());
        thread::sleep(Duration::from_millis(7 * round));
        signal(&child, "-STOP");
        let new = open(&Place::new(pair.primary.conninfo(), "stopped"));
        let there = new.map("m").get("count").unwrap().unwrap();
        let there = u64::from_be_bytes(there.try_into().unwrap());
        new.map("m").set("new", [round as u8]).unwrap();
        new.flush().unwrap();
        signal(&child, "-CONT");
        assert!(child.wait().unwrap().success());
        let told = fs::read_to_string(&file).unwrap();
        assert!(
            told.starts_with("18 ") && told.contains("Superseded"),
            "{told}"
        );
        let confirmed: u64 = fs::read_to_string(&counted).unwrap().parse().unwrap();
        assert!(
            there == confirmed || there == confirmed + 1,
            "{there} {confirmed}"
        );
        // it changed nothing once it was woken
        new.map("m").set("more", [round as u8]).unwrap();
        new.flush().unwrap();
        drop(new);
        let db = open(&Place::new(pair.primary.conninfo(), "stopped"));
        assert_eq!(
            db.map("m").get("count").unwrap().unwrap(),
            there.to_be_bytes()
        );
        assert_eq!(db.map("m").get("more").unwrap().unwrap(), [round as u8]);
    }
}
