//! Kills a process that changes a file, at a random moment, and opens the file again: it holds what a first part of the changes left that the
//! process had begun, with all that was flushed and no batch in part, and no id comes twice. Where it doesn't, the seed is told, and the file
//! stays, with the log of the changes.

mod folder;
mod model;

use dilluvas::{Cache, Error, FileSettings};
use folder::Folder;
use model::{Change, History, Model, Pairs, Run, Seed, Told, is_permitted, read};
use std::collections::BTreeSet;
use std::fs::{self, File};
use std::io::Write;
use std::os::unix::process::ExitStatusExt;
use std::process::{Command, Stdio};
use std::time::Duration;
use std::{env, thread};

const STORES: u64 = 5;
const KILLS: u64 = 20;

// The variable by which this program knows that it is to be killed: the seed of its changes.
const SEED: &str = "DILLUVAS_KILLED_SEED";

// Batches have ten segments and more, or segments are longer than what is flushed at once.
fn settings_of(store: u64) -> FileSettings {
    FileSettings {
        cache_capacity: 1024,
        idgen_persist_interval: 3,
        segment_size: 32 << (2 * store),
    }
}

// Tells of each change in a file, which outlives the process. Before some it rests: else nearly all would be killed in a sync.
struct Log {
    file: File,
    rests: Seed,
}

impl Told for Log {
    fn begun(&mut self, _: &Change) {
        if self.rests.below(8) == 0 {
            thread::sleep(Duration::from_micros(100));
        }
        self.file.write_all(b"b").unwrap();
    }

    fn answered(&mut self, answer: u64) {
        let mut line = [b'a'; 9];
        line[1..].copy_from_slice(&answer.to_le_bytes());
        self.file.write_all(&line).unwrap();
    }

    fn is_made_again(&mut self, _: &mut Cache, _: &Model, _: &Error) -> bool {
        false
    }
}

fn change_until_killed(seed: u64) {
    let mut cache = Cache::open("pages", &settings_of(seed / KILLS)).unwrap();
    let model = read(&mut cache).unwrap();
    let log = Log {
        file: File::create("log").unwrap(),
        rests: Seed(seed),
    };
    let mut run = Run::new(model, seed, u64::MAX, log);
    run.go_on(&mut cache).unwrap();
}

// Lets this program change the file for a while, or begin to, and kills it: what it had told.
fn log_of_one_killed(folder: &Folder, seed: u64, after: Duration, has_begun: bool) -> Vec<u8> {
    let log = folder.path().join("log");
    let _ = fs::remove_file(&log);
    let mut child = Command::new(env::current_exe().unwrap())
        .args(["what_was_flushed_survives_each_kill", "--exact"])
        .arg("--nocapture")
        .env(SEED, seed.to_string())
        .current_dir(folder.path())
        .stdout(Stdio::null())
        .spawn()
        .unwrap();
    while has_begun && !log.exists() && child.try_wait().unwrap().is_none() {
        thread::sleep(Duration::from_micros(500));
    }
    thread::sleep(after);
    child.kill().unwrap();
    let status = child.wait().unwrap();
    assert_eq!(status.signal(), Some(9), "it was killed, and did not fail");
    fs::read(log).unwrap_or_default()
}

// The changes of which a log tells: they come from the seed alone, and what they were answered from the log.
fn history_of(start: &Model, seed: u64, log: &[u8]) -> History {
    let (mut model, mut seed) = (start.clone(), Seed(seed));
    let (mut history, mut is_batch) = (History::new(), false);
    let mut rest = log;
    while let Some((b'b', behind)) = rest.split_first() {
        let change = model.some_change(&mut seed, is_batch);
        let Some((&[b'a', answer @ ..], behind)) = behind.split_first_chunk::<9>() else {
            // it was killed at this one
            history.push((change, None));
            return history;
        };
        rest = behind;
        let answer = u64::from_le_bytes(answer);
        model.change(&change, answer);
        is_batch = match change {
            Change::Pin => true,
            Change::Seal | Change::Cancel => false,
            _ => is_batch,
        };
        history.push((change, Some(answer)));
    }
    assert!(rest.is_empty(), "the log has what it was given");
    history
}

// Where the closed gate of a file stands, by the lengths of its frames.
fn end_of(bytes: &[u8]) -> usize {
    let mut at = 8;
    while bytes.get(at).is_some_and(|gate| *gate != 0) {
        let length: [u8; 8] = bytes[at + 1..at + 9].try_into().unwrap();
        at += 9 + u64::from_le_bytes(length) as usize;
    }
    at
}

// Opens the cache over a file, and tells whether that ended inside a batch: then the opening says so, by a frame of 34 bytes.
fn opened(folder: &Folder, store: u64) -> (Cache, bool) {
    let end = end_of(&fs::read(folder.file()).unwrap());
    let cache = Cache::open(folder.file(), &settings_of(store)).unwrap();
    let added = end_of(&fs::read(folder.file()).unwrap()) - end;
    (cache, added == 34)
}

// Kills many processes one after another over one file: how many changes they made, and how many of them left it inside a batch.
fn changes_of_many_killed(store: u64) -> (usize, usize) {
    let folder = Folder::new(&format!("killed-{store}"));
    let (mut model, mut ids) = (Model::default(), BTreeSet::new());
    let (mut moments, mut changes, mut abandoned) = (Seed(store), 0, 0);
    for kill in 0..KILLS {
        let seed = store * KILLS + kill;
        // the first ones while it starts, and makes the file or opens it
        let has_begun = kill >= KILLS / 3;
        let most = if has_begun { 120_000 } else { 8_000 };
        let after = Duration::from_micros(moments.below(most) as u64);
        let log = log_of_one_killed(&folder, seed, after, has_begun);
        let history = history_of(&model, seed, &log);
        if !folder.file().exists() {
            assert!(model == Model::default() && history.is_empty());
            continue;
        }
        let (mut cache, is_abandoned) = opened(&folder, store);
        abandoned += usize::from(is_abandoned);
        let found = read(&mut cache).unwrap();
        let is_kept = is_permitted(&model, &history, &found);
        let told = format!("seed {seed}, {} changes", history.len());
        assert!(is_kept, "{told}: no first part of them left what is there");
        for (change, answer) in &history {
            if let (Change::GenerateId, Some(id)) = (change, answer) {
                assert!(ids.insert(*id), "{told}: id {id} came twice");
            }
        }
        changes += history.len();
        model = found;
    }
    (changes, abandoned)
}

#[test]
fn what_was_flushed_survives_each_kill() {
    if let Ok(seed) = env::var(SEED) {
        return change_until_killed(seed.parse().unwrap());
    }
    let stores: Vec<_> = (0..STORES).map(changes_of_many_killed).collect();
    let changes: usize = stores.iter().map(|store| store.0).sum();
    let abandoned: usize = stores.iter().map(|store| store.1).sum();
    let kills = STORES * KILLS;
    println!("{kills} kills, {changes} changes, {abandoned} files left inside a batch");
    assert!(changes as u64 > kills && abandoned > 0);
}

#[test]
fn what_is_lost_is_seen() {
    let some = |page: u64| (Change::Allocate(Pairs::new()), Some(page));
    let ended = |change| (change, Some(0));
    let of = |pages: &[u64]| Model {
        pages: pages.iter().map(|page| (*page, Pairs::new())).collect(),
        ..Model::default()
    };
    let permits = |history: &History, pages: &[u64]| is_permitted(&of(&[]), history, &of(pages));

    let flushed = vec![some(2), ended(Change::Flush), some(3), some(4)];
    assert!(permits(&flushed, &[2]) && permits(&flushed, &[2, 3]));
    assert!(permits(&flushed, &[2, 3, 4]));
    assert!(!permits(&flushed, &[]) && !permits(&flushed, &[2, 4]));

    let mut batch = vec![some(2), ended(Change::Pin), some(3), some(4)];
    let is_whole = |batch: &History| !permits(batch, &[2, 3]) && permits(batch, &[2]);
    assert!(is_whole(&batch) && !permits(&batch, &[2, 3, 4]));
    batch.push((Change::Seal, None));
    assert!(is_whole(&batch) && permits(&batch, &[2, 3, 4]));
    batch[4] = (Change::Cancel, None);
    assert!(permits(&batch, &[2, 3]));

    let unanswered = vec![(Change::Allocate(Pairs::new()), None)];
    assert!(permits(&unanswered, &[]) && permits(&unanswered, &[2]));
    assert!(!permits(&unanswered, &[2, 3]));
}
