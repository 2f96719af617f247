//! A queue of jobs that a file keeps: `cargo run --example job_queue -- FILE put JOB..`, or `FILE work`.
//!
//! A job waits, or a worker has it, and a crash leaves it in one of the two maps. Many threads may work on one `Db`.

use dilluvas::{Db, Error, Pair};
use std::{env, process};

/// Puts a job behind those that wait. It is durable then.
pub fn put(db: &Db, job: &str) -> Result<(), Error> {
    let id = db.generate_id()?;
    db.map("waiting").set(id.to_be_bytes(), job)?;
    db.flush().map(drop)
}

/// Lets the jobs wait again, in front of all others, that were taken and not finished as the program ended.
pub fn recover(db: &Db) -> Result<bool, Error> {
    Ok(db.batch(|batch| {
        for pair in &batch.map("taken") {
            let (id, job) = pair?;
            batch.map("waiting").set(id, job)?;
        }
        batch.drop_map("taken")
    })?)
}

/// Takes the first job that waits, with its id, which no other worker is given.
pub fn take(db: &Db) -> Result<Option<Pair>, Error> {
    Ok(db.batch(|batch| {
        let first = batch.map("waiting").pop_first()?;
        if let Some((id, job)) = &first {
            batch.map("taken").set(id, job)?;
        }
        Ok(first)
    })?)
}

/// Does the jobs that wait, and makes durable that each is done: one is done again where a crash comes before.
pub fn work(db: &Db, done: impl Fn(&[u8])) -> Result<(), Error> {
    while let Some((id, job)) = take(db)? {
        done(&job);
        db.map("taken").delete(id)?;
        db.flush()?;
    }
    Ok(())
}

fn main() -> Result<(), Error> {
    let words: Vec<String> = env::args().skip(1).collect();
    let [file, command, jobs @ ..] = words.as_slice() else {
        eprintln!("FILE put JOB.. | FILE work");
        process::exit(2);
    };
    let db = Db::open(file)?;
    if command == "put" {
        return jobs.iter().try_for_each(|job| put(&db, job));
    }
    recover(&db)?;
    work(&db, |job| println!("{}", job.escape_ascii()))
}
