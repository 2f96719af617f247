//! A network that cuts and stalls at each byte of a sync.

use crate::proxy::{Action, Proxy, Way};
use crate::servers::Pair;
use crate::writers::{WRITE, cause_of};
use dilluvas::{Db, Error, FileSettings};
use dilluvas_replicated::{Place, Refusal};
use std::time::Duration;
use std::{env, thread};

const WAIT: Duration = Duration::from_millis(400);

// How far the bytes are apart at which something is done.
fn step() -> u64 {
    env::var("DILLUVAS_REPLICATED_STEP").map_or(61, |step| step.parse().unwrap())
}

fn open(port: u16) -> Db {
    let place = Place::new(crate::servers::conninfo(port), "network").wait(WAIT);
    Db::on_device(place.open_or_make().unwrap(), &FileSettings::default()).unwrap()
}

// What came of a flush while the network failed.
#[derive(Default, Debug)]
struct Outcomes {
    confirmed: u32,
    refused: u32,
    // refused, and durable all the same
    unknown: u32,
}

// Makes a batch and flushes it while something is done after some bytes, and opens the log again over a network that is whole.
fn try_once(
    pair: &Pair,
    proxy: &Proxy,
    way: &Way,
    after: u64,
    action: Action,
    outcomes: &mut Outcomes,
) {
    let db = open(proxy.port());
    let before = db.map("m").get("k").unwrap();
    let value = outcomes.confirmed + outcomes.refused + 1;
    db.batch(|batch| {
        batch.map("m").set("k", value.to_be_bytes())?;
        batch.map("n").set("k", value.to_be_bytes())
    })
    .unwrap();
    way.arm(after, action);
    let flushed = db.flush();
    way.disarm();
    let told = format!("{action:?} after {after} bytes: {flushed:?}");
    if let Err(error) = &flushed {
        assert_is_lost(&db, error, &told);
    }
    drop(db);
    let db = open(pair.primary.port());
    let [m, n] = ["m", "n"].map(|name| db.map(name).get("k").unwrap());
    assert_eq!(m, n, "{told}: the batch is whole");
    let is_there = m == Some(value.to_be_bytes().to_vec());
    assert!(is_there || flushed.is_err() && m == before, "{told}: {m:?}");
    match flushed {
        Ok(_) => outcomes.confirmed += 1,
        Err(_) => outcomes.refused += 1,
    }
    outcomes.unknown += u32::from(flushed.is_err() && is_there);
}

// It never connects again.
fn assert_is_lost(db: &Db, error: &Error, told: &str) {
    assert_eq!(error.status(), WRITE, "{told}");
    let refusal = Refusal::of(error);
    let is_lost = matches!(refusal, Some(Refusal::Lost(_) | Refusal::NoAnswer(_)));
    assert!(is_lost, "{told}");
    assert_eq!(db.flush().unwrap_err().status(), WRITE);
    assert_eq!(db.map("m").set("k", "x").unwrap_err().status(), WRITE);
}

/// The connection is cut at bytes of the requests and of the answers of both syncs of a flush, until none of them is reached.
pub fn cuts_are_write_errors(pair: &Pair) {
    let proxy = Proxy::new(pair.primary.port(), Duration::ZERO);
    for (way, step) in [(&proxy.requests, step()), (&proxy.answers, step().min(7))] {
        let mut outcomes = Outcomes::default();
        let mut after = 0;
        while outcomes.confirmed == 0 {
            try_once(pair, &proxy, way, after, Action::Cut, &mut outcomes);
            after += step;
        }
        println!("cut within {after} bytes: {outcomes:?}");
        assert!(outcomes.refused > 0);
    }
}

/// A network that stalls: the wait ends, and the connection is given up.
pub fn stalls_are_write_errors(pair: &Pair) {
    let proxy = Proxy::new(pair.primary.port(), Duration::ZERO);
    for way in [&proxy.requests, &proxy.answers] {
        let mut outcomes = Outcomes::default();
        for after in [0, 1, 30] {
            try_once(pair, &proxy, way, after, Action::Stall, &mut outcomes);
        }
        println!("stalled: {outcomes:?}");
        assert_eq!(outcomes.refused, 3);
    }
}

/// A sync's request is held by the network while another writer takes over, and is delivered then: it changes nothing.
pub fn a_late_request_changes_nothing(pair: &Pair) {
    let proxy = Proxy::new(pair.primary.port(), Duration::ZERO);
    for after in [0, 1, 30, 100] {
        let open = |port| {
            let place = Place::new(crate::servers::conninfo(port), "late request");
            Db::on_device(place.open_or_make().unwrap(), &FileSettings::default()).unwrap()
        };
        let old = open(proxy.port());
        old.map("m").set("k", "old").unwrap();
        proxy.requests.arm(after, Action::Hold);
        let flushing = thread::spawn(move || old.flush());
        thread::sleep(Duration::from_millis(50));
        let new = open(pair.primary.port());
        new.map("m").set("k", "new").unwrap();
        new.flush().unwrap();
        proxy.requests.disarm();
        let (status, refusal) = cause_of(flushing.join().unwrap());
        let is_superseded = matches!(refusal, Refusal::Superseded { .. });
        assert!(
            status == WRITE && is_superseded,
            "after {after}: {refusal:?}"
        );
        drop(new);
        let db = open(pair.primary.port());
        assert_eq!(db.map("m").get("k").unwrap().unwrap(), b"new");
    }
}
