//! A standby that doesn't answer, and what comes of a commit that waits for it.

use crate::servers::{Pair, wait_until};
use crate::writers::{WRITE, cause_of};
use dilluvas::{Db, Device, Error, FileSettings};
use dilluvas_replicated::{Place, Refusal, Servers};
use std::thread;
use std::time::Duration;

fn open(place: &Place) -> Db {
    Db::on_device(place.open_or_make().unwrap(), &FileSettings::default()).unwrap()
}

// Flushes a change while the standby is stopped, and does something once the commit waits: what the flush answered.
fn flush_and(pair: &Pair, name: &str, act: impl FnOnce(&str)) -> Result<usize, Error> {
    let db = open(&Place::new(pair.primary.conninfo(), name));
    db.map("m").set("k", "v").unwrap();
    pair.standby.signal("-STOP");
    let flushing = thread::spawn(move || db.flush());
    let waiting = "SELECT pid FROM pg_stat_activity WHERE wait_event = 'SyncRep'";
    let mut pid = String::new();
    wait_until("the commit waits", || {
        pid = pair.primary.query(waiting).unwrap();
        !pid.is_empty()
    });
    act(&pid);
    pair.standby.signal("-CONT");
    flushing.join().unwrap()
}

/// A commit whose wait is cancelled is durable on the primary alone: a write error.
pub fn a_cancelled_wait_is_a_write_error(pair: &Pair) {
    let cancelled = flush_and(pair, "cancelled", |pid| {
        pair.primary
            .query(&format!("SELECT pg_cancel_backend({pid})"))
            .unwrap();
        thread::sleep(Duration::from_millis(200));
    });
    let (status, refusal) = cause_of(cancelled);
    assert_eq!(status, WRITE);
    let Refusal::Warned(state, text) = refusal else {
        panic!("{refusal:?}");
    };
    println!("cancelled: {state} {text}");
    assert_eq!(state, "01000");
    pair.wait();
    let ended = flush_and(pair, "ended", |pid| {
        pair.primary
            .query(&format!("SELECT pg_terminate_backend({pid})"))
            .unwrap();
        thread::sleep(Duration::from_millis(200));
    });
    pair.wait();
    let (status, refusal) = cause_of(ended);
    println!("ended: {refusal}");
    assert!(
        status == WRITE && matches!(refusal, Refusal::Lost(_)),
        "{refusal:?}"
    );
}

/// A commit that fails at its end, once the statement has its answer, is a write error, and nothing was committed.
pub fn a_commit_that_fails_late_is_a_write_error(pair: &Pair) {
    let place = Place::new(pair.primary.conninfo(), "late");
    let db = open(&place);
    let make = "CREATE FUNCTION refuse() RETURNS trigger LANGUAGE plpgsql AS $$BEGIN RAISE 'late'; END$$;
        CREATE CONSTRAINT TRIGGER late AFTER UPDATE OF length ON dilluvas_log DEFERRABLE INITIALLY DEFERRED
        FOR EACH ROW EXECUTE FUNCTION refuse()";
    pair.primary.query(make).unwrap();
    db.map("m").set("k", "v").unwrap();
    let (status, refusal) = cause_of(db.flush());
    let is_late =
        matches!(&refusal, Refusal::Server(state, text) if state == "P0001" && text == "late");
    assert!(status == WRITE && is_late, "{refusal:?}");
    pair.primary.query("DROP FUNCTION refuse CASCADE").unwrap();
    assert_eq!(open(&place).map("m").get("k").unwrap(), None);
}

/// A standby that is gone: the wait ends, and nothing was confirmed.
pub fn no_standby_no_answer(pair: &Pair) {
    let place = Place::new(pair.primary.conninfo(), "no answer").wait(Duration::from_millis(300));
    let db = open(&place);
    db.map("m").set("k", "v").unwrap();
    pair.standby.signal("-STOP");
    let (status, refusal) = cause_of(db.flush());
    assert!(
        status == WRITE && matches!(refusal, Refusal::NoAnswer(_)),
        "{refusal:?}"
    );
    pair.standby.signal("-CONT");
    pair.wait();
}

/// The engine confirms a commit that waits where the setting is emptied: what this crate can't see. The next sync sees it.
pub fn an_emptied_setting_is_seen_by_the_next_sync(pair: &Pair) {
    let set = |value: &str| {
        pair.primary
            .query(&format!("ALTER SYSTEM {value}"))
            .unwrap();
        pair.primary.query("SELECT pg_reload_conf()").unwrap();
        thread::sleep(Duration::from_millis(300));
    };
    let place = Place::new(pair.primary.conninfo(), "emptied");
    let db = open(&place);
    db.map("m").set("k", "v").unwrap();
    set("SET synchronous_standby_names = ''");
    assert_eq!(cause_of(db.flush()), (WRITE, Refusal::NoStandby));
    assert_eq!(place.open().err(), Some(Refusal::NoStandby));
    let one = place.clone().servers(Servers::One);
    drop(open(&one));
    set("RESET synchronous_standby_names");
    let released = flush_and(pair, "released", |_| {
        set("SET synchronous_standby_names = ''")
    });
    println!("released: {released:?}");
    assert_eq!(
        cause_of(released),
        (WRITE, Refusal::NoStandby),
        "its second sync sees it"
    );
    set("RESET synchronous_standby_names");
    pair.wait();
    let db = open(&place);
    db.map("m").set("k", "v").unwrap();
    set("SET fsync = off");
    assert_eq!(cause_of(db.flush()), (WRITE, Refusal::NoFsync));
    assert_eq!(place.open().err(), Some(Refusal::NoFsync));
    set("RESET fsync");
}

/// The standby is promoted while the primary goes on, as where a network parts them: the writer there is confirmed nothing.
pub fn a_primary_without_its_standby_confirms_nothing(pair: &Pair) {
    let place = Place::new(pair.primary.conninfo(), "parted").wait(Duration::from_millis(500));
    let old = open(&place);
    old.map("m").set("k", "flushed").unwrap();
    old.flush().unwrap();
    pair.standby.promote();
    old.map("m").set("k", "old").unwrap();
    let (status, refusal) = cause_of(old.flush());
    assert!(
        status == WRITE && matches!(refusal, Refusal::NoAnswer(_)),
        "{refusal:?}"
    );
    let place = Place::new(pair.standby.conninfo(), "parted").servers(Servers::One);
    let new = open(&place);
    assert_eq!(new.map("m").get("k").unwrap().unwrap(), b"flushed");
    new.map("m").set("k", "new").unwrap();
    new.flush().unwrap();
}

// All bytes of a log.
fn read_all(place: &Place) -> Vec<u8> {
    let mut device = place.open().unwrap();
    let mut bytes = vec![0; device.size().unwrap() as usize];
    device.read_at(0, &mut bytes).unwrap();
    bytes
}

/// The primary is killed while a commit waits, and starts again: the commit is there, which no standby has. What an opening reads of it then is
/// on the standby too.
#[test]
fn what_an_opening_reads_is_on_the_standby() {
    let mut pair = Pair::start("restarted");
    let place = Place::new(pair.primary.conninfo(), "restarted");
    let mut device = place.open_or_make().unwrap();
    device.write_at(0, b"one").unwrap();
    device.sync().unwrap();
    pair.standby.signal("-STOP");
    device.write_at(3, b"two").unwrap();
    let syncing = thread::spawn(move || device.sync());
    let waiting = "SELECT count(*) FROM pg_stat_activity WHERE wait_event = 'SyncRep'";
    wait_until("the commit waits", || {
        pair.primary.query(waiting).unwrap() == "1"
    });
    pair.primary.kill();
    assert!(syncing.join().unwrap().is_err());
    pair.primary.start_again();
    pair.primary.wait();
    // it can't be opened while no standby confirms that
    let refused = place.clone().wait(Duration::from_millis(300)).open().err();
    assert!(matches!(refused, Some(Refusal::NoAnswer(_))), "{refused:?}");
    pair.standby.signal("-CONT");
    pair.wait();
    assert_eq!(read_all(&place), b"onetwo");
    pair.primary.kill();
    pair.standby.promote();
    let place = Place::new(pair.standby.conninfo(), "restarted").servers(Servers::One);
    assert_eq!(read_all(&place), b"onetwo");
}
