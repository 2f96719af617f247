//! How many changes a second threads make durable.

use crate::group::Group;
use crate::{Wired, set};
use dilluvas::Db;
use std::path::Path;
use std::sync::atomic::{AtomicU64, Ordering};
use std::thread;
use std::time::{Duration, Instant};

// How many changes a second threads make durable, each by its own flush or in a group.
fn rate(db: &Db, threads: u64, in_group: bool) -> f64 {
    let group = Group::new(db);
    rate_of(threads, |number| {
        if in_group {
            group.change(|| set(db, number)).unwrap();
        } else {
            set(db, number);
            db.flush().unwrap();
        }
    })
}

// How many calls a second threads make.
fn rate_of(threads: u64, call: impl Fn(u64) + Sync) -> f64 {
    let (start, made) = (Instant::now(), AtomicU64::new(0));
    thread::scope(|scope| {
        for thread in 0..threads {
            let (call, made) = (&call, &made);
            scope.spawn(move || {
                let mut number = thread << 40;
                while start.elapsed() < Duration::from_secs(2) {
                    number += 1;
                    call(number);
                    made.fetch_add(1, Ordering::Relaxed);
                }
            });
        }
    });
    made.load(Ordering::Relaxed) as f64 / start.elapsed().as_secs_f64()
}

const THREADS: [u64; 6] = [1, 2, 4, 8, 16, 32];

fn print_rates(name: &str, how: &str, rate: impl Fn(u64) -> f64) {
    let rates = THREADS.map(|threads| format!("{:.0}", rate(threads)));
    println!("| {name} | {how} | {} |", rates.join(" | "));
}

fn rates(name: &str, db: &Db) {
    print_rates(name, "one log, each its own flush", |threads| {
        rate(db, threads, false)
    });
    print_rates(name, "one log, one flush for a group", |threads| {
        rate(db, threads, true)
    });
}

// Each thread has a log of its own.
fn rates_of_logs(name: &str, open: impl Fn(u64) -> Db) {
    let logs: Vec<_> = (0..32).map(open).collect();
    print_rates(name, "a log for each thread", |threads| {
        rate_of(threads, |number| {
            let db = &logs[(number >> 40) as usize];
            set(db, number);
            db.flush().unwrap();
        })
    });
}

pub fn all_rates(folder: &Path, wired: &[(String, Wired)]) {
    println!("\n| where | who flushes | 1 | 2 | 4 | 8 | 16 | 32 threads |");
    let file = |name: String| Db::open(folder.join(name)).unwrap();
    rates("a file", &file("rates".to_string()));
    rates_of_logs("files", |number| file(format!("rates {number}")));
    for (name, wired) in wired {
        rates(name, &wired.open("rates", 1 << 13));
        rates_of_logs(name, |number| {
            wired.open(&format!("rates {number}"), 1 << 13)
        });
    }
}
