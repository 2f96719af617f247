//! The example, over one file, and killed in its work.

#[path = "../examples/job_queue.rs"]
#[allow(dead_code)] // its main
mod example;
mod folder;
mod seed;

use dilluvas::{Db, Error};
use folder::Folder;
use seed::Seed;
use std::fs::{self, File};
use std::os::unix::process::ExitStatusExt;
use std::path::{Path, PathBuf};
use std::process::Command;
use std::sync::Mutex;
use std::time::Duration;
use std::{env, thread};

#[test]
fn each_job_is_done_once_and_in_its_order() -> Result<(), Error> {
    let folder = Folder::new("jobs");
    let db = Db::open(folder.file())?;
    for job in ["one", "two", "three"] {
        example::put(&db, job)?;
    }
    drop(db);
    // a worker takes one, and ends
    let db = Db::open(folder.file())?;
    let (_, job) = example::take(&db)?.expect("three wait");
    assert_eq!(job, b"one");
    db.flush()?;
    drop(db);

    let db = Db::open(folder.file())?;
    assert_eq!(db.map("waiting").len()?, 2);
    assert!(example::recover(&db)? && !example::recover(&db)?);
    let done = Mutex::new(Vec::new());
    example::work(&db, |job| done.lock().unwrap().push(job.to_vec()))?;
    assert_eq!(done.into_inner().unwrap(), [&b"one"[..], b"two", b"three"]);
    assert!(db.map("waiting").is_empty()? && db.map("taken").is_empty()?);
    Ok(())
}

#[test]
fn many_workers_share_the_jobs() {
    let db = Db::in_memory().unwrap();
    for job in 0..200 {
        example::put(&db, &format!("{job:03}")).unwrap();
    }
    let done = Mutex::new(Vec::new());
    let done_one = |job: &[u8]| {
        done.lock()
            .unwrap()
            .push(String::from_utf8(job.to_vec()).unwrap())
    };
    thread::scope(|scope| {
        let workers = [(); 8].map(|()| scope.spawn(|| example::work(&db, done_one)));
        for worker in workers {
            worker.join().unwrap().unwrap();
        }
    });
    let mut done = done.into_inner().unwrap();
    done.sort();
    let all: Vec<_> = (0..200).map(|job| format!("{job:03}")).collect();
    assert_eq!(done, all);
}

// It stands beside the folder of this program where all examples were built.
fn program() -> Option<PathBuf> {
    let test = env::current_exe().unwrap();
    let program = test.ancestors().nth(2).unwrap().join("examples/job_queue");
    program.exists().then_some(program)
}

#[test]
fn the_program_runs() {
    let Some(program) = program() else {
        return;
    };
    let folder = Folder::new("jobs-program");
    let run = |words: &[&str]| {
        let mut command = Command::new(&program);
        command.arg(folder.file()).args(words).output().unwrap()
    };
    assert!(run(&["put", "first", "second job"]).status.success());
    assert_eq!(run(&["work"]).stdout, b"first\nsecond job\n");
    assert_eq!(run(&["work"]).stdout, b"");
    assert_eq!(run(&[]).status.code(), Some(2));
}

const KILLS: usize = 20;
const JOBS_A_KILL: usize = 40;

// Lets the program work until it is killed, once it has begun so many jobs and a while more: the jobs that it told, and whether it was still
// at work then.
fn jobs_of_one_killed(
    program: &Path,
    folder: &Folder,
    begun: usize,
    more: Duration,
) -> (Vec<usize>, bool) {
    let out = folder.path().join("out");
    let mut child = Command::new(program)
        .arg(folder.file())
        .arg("work")
        .stdout(File::create(&out).unwrap())
        .spawn()
        .unwrap();
    while jobs_of(&fs::read(&out).unwrap()).len() < begun && child.try_wait().unwrap().is_none() {
        thread::sleep(Duration::from_micros(200));
    }
    thread::sleep(more);
    child.kill().unwrap();
    let status = child.wait().unwrap();
    assert!(status.success() || status.signal() == Some(9), "{status}");
    (jobs_of(&fs::read(out).unwrap()), status.signal() == Some(9))
}

fn jobs_of(out: &[u8]) -> Vec<usize> {
    let lines = out.split_inclusive(|byte| *byte == b'\n');
    let whole = lines.filter_map(|line| line.strip_suffix(b"\n"));
    whole
        .map(|line| str::from_utf8(line).unwrap().parse().unwrap())
        .collect()
}

#[test]
fn no_job_is_lost_and_none_that_was_finished_is_done_again() {
    let Some(program) = program() else {
        return;
    };
    let folder = Folder::new("jobs-killed");
    let (mut put, mut next, mut again, mut killed) = (0, 0, 0, 0);
    let mut moments = Seed(3);
    for _ in 0..KILLS {
        let db = Db::open(folder.file()).unwrap();
        while put < next + JOBS_A_KILL {
            example::put(&db, &put.to_string()).unwrap();
            put += 1;
        }
        drop(db);
        let (begun, more) = (moments.below(JOBS_A_KILL / 4), moments.below(4_000));
        let more = Duration::from_micros(more as u64);
        let (told, was_killed) = jobs_of_one_killed(&program, &folder, begun, more);
        killed += usize::from(was_killed);
        let Some(&first) = told.first() else {
            continue;
        };
        // the last one that it had begun may not have been finished
        assert!(first == next || first + 1 == next, "{first} behind {next}");
        again += usize::from(first != next);
        next = first + told.len();
        assert!(told.into_iter().eq(first..next));
    }
    println!("{killed} kills, {next} jobs, of which {again} were done again");
    assert!(killed > 0, "each ended before it was killed");
    let rest = Command::new(&program)
        .arg(folder.file())
        .arg("work")
        .output();
    let rest = jobs_of(&rest.unwrap().stdout);
    let first = rest.first().copied().unwrap_or(put);
    assert!(first == next || first + 1 == next);
    assert!(rest.into_iter().eq(first..put));
}
