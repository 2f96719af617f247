//! Kills a process that changes maps in a file, at a random moment, and opens the file again: it holds what a first part of the changes left that
//! the process had begun, with all that was flushed and no sealed batch in part, and no id comes twice.

mod folder;
mod seed;

use dilluvas::{Access, CompactAt, Db, Error, FileSettings, Map};
use folder::Folder;
use seed::Seed;
use std::collections::{BTreeMap, BTreeSet};
use std::fs::{self, File};
use std::io::Write;
use std::os::unix::process::ExitStatusExt;
use std::process::{Command, Stdio};
use std::time::Duration;
use std::{env, thread};

const STORES: u64 = 4;
const KILLS: u64 = 20;
const NAMES: [&str; 3] = ["a", "b", "c"];

// The variable by which this program knows that it is to be killed: the seed of its changes.
const SEED: &str = "DILLUVAS_MAPS_KILLED_SEED";

// Batches have ten segments and more, or segments are longer than what is flushed at once.
fn settings_of(store: u64) -> FileSettings {
    FileSettings {
        cache_capacity: 4096,
        idgen_persist_interval: 3,
        segment_size: 32 << (3 * store),
    }
}

// The pairs of all maps, by their names: what maps have no pair isn't told.
type Model = BTreeMap<(usize, Vec<u8>), Vec<u8>>;

// A change of one map, whole or not at all.
#[derive(Clone, Debug)]
enum Change {
    Set(usize, Vec<u8>, Vec<u8>),
    Delete(usize, Vec<u8>),
    Drop(usize),
}

// What is done at once.
#[derive(Clone, Debug)]
enum Step {
    One(Change),
    Sealed(Vec<Change>),
    Cancelled(Vec<Change>),
    GenerateId,
    Flush,
    Compact,
}

fn some_change(seed: &mut Seed) -> Change {
    let name = seed.below(NAMES.len());
    match seed.below(60) {
        0 => Change::Drop(name),
        1..20 => Change::Delete(name, seed.key()),
        _ => Change::Set(name, seed.key(), seed.value()),
    }
}

fn some_step(seed: &mut Seed) -> Step {
    let changes = |seed: &mut Seed| (0..seed.below(40)).map(|_| some_change(seed)).collect();
    match seed.below(80) {
        0..65 => Step::One(some_change(seed)),
        65..70 => Step::Sealed(changes(seed)),
        70..73 => Step::Cancelled(changes(seed)),
        73..76 => Step::GenerateId,
        76..79 => Step::Flush,
        _ => Step::Compact,
    }
}

impl Change {
    fn make<A: Access>(
        &self,
        map: impl Fn(&str) -> Map<A>,
        drop: impl Fn(&str) -> Result<bool, Error>,
    ) -> Result<(), Error> {
        match self {
            Change::Set(name, key, value) => map(NAMES[*name]).set(key, value).map(|_| ()),
            Change::Delete(name, key) => map(NAMES[*name]).delete(key).map(|_| ()),
            Change::Drop(name) => drop(NAMES[*name]).map(|_| ()),
        }
    }

    fn model(&self, model: &mut Model) {
        match self {
            Change::Set(name, key, value) => {
                drop(model.insert((*name, key.clone()), value.clone()))
            }
            Change::Delete(name, key) => drop(model.remove(&(*name, key.clone()))),
            Change::Drop(name) => model.retain(|(of, _), _| of != name),
        }
    }
}

// Makes a step, and answers the id that was generated, or 0.
fn make(db: &Db, step: &Step) -> Result<u64, Error> {
    let in_batch = |changes: &[Change], answer: Result<(), Error>| {
        db.batch(|batch| {
            let mut changes = changes.iter();
            changes.try_for_each(|change| {
                change.make(|name| batch.map(name), |name| batch.drop_map(name))
            })?;
            answer
        })
    };
    match step {
        Step::One(change) => change.make(|name| db.map(name), |name| db.drop_map(name))?,
        Step::Sealed(changes) => in_batch(changes, Ok(()))?,
        Step::Cancelled(changes) => {
            let told = in_batch(changes, Err(Error::Index)).unwrap_err().error;
            assert_eq!(told, Error::Index);
        }
        Step::GenerateId => return db.generate_id(),
        Step::Flush => drop(db.flush()?),
        Step::Compact => db.compact()?,
    }
    Ok(0)
}

// Tells of each step in a file, which outlives the process. Before some it rests: else nearly all would be killed in a sync.
fn change_until_killed(seed: u64) {
    let store = seed / KILLS;
    let db = Db::open_with("pages", &settings_of(store)).unwrap();
    if store % 2 == 1 {
        // flushes rewrite the file too
        let compact_at = CompactAt {
            times: 2,
            least: 0,
            most: u64::MAX,
            // at once, or in a few steps
            step: [0, 1, 20_000][seed as usize % 3],
        };
        db.set_compact_at(Some(compact_at)).unwrap();
    }
    let mut log = File::create("log").unwrap();
    let (mut seed, mut rests) = (Seed(seed), Seed(seed));
    loop {
        let step = some_step(&mut seed);
        if rests.below(8) == 0 {
            thread::sleep(Duration::from_micros(100));
        }
        log.write_all(b"b").unwrap();
        let answer = make(&db, &step).unwrap();
        log.write_all(&answer.to_le_bytes()).unwrap();
    }
}

// Lets this program change the file for a while, or begin to, and kills it: what it had told.
fn log_of_one_killed(folder: &Folder, seed: u64, after: Duration, has_begun: bool) -> Vec<u8> {
    let log = folder.path().join("log");
    let _ = fs::remove_file(&log);
    let mut child = Command::new(env::current_exe().unwrap())
        .args(["what_was_flushed_survives_each_kill", "--exact"])
        .arg("--nocapture")
        .env(SEED, seed.to_string())
        .current_dir(folder.path())
        .stdout(Stdio::null())
        .spawn()
        .unwrap();
    while has_begun && !log.exists() && child.try_wait().unwrap().is_none() {
        thread::sleep(Duration::from_micros(500));
    }
    thread::sleep(after);
    child.kill().unwrap();
    let status = child.wait().unwrap();
    assert_eq!(status.signal(), Some(9), "it was killed, and did not fail");
    fs::read(log).unwrap_or_default()
}

// The steps of which a log tells, each with what it was answered: the last one may have no answer.
fn history_of(seed: u64, mut log: &[u8]) -> Vec<(Step, Option<u64>)> {
    let mut seed = Seed(seed);
    let mut history = Vec::new();
    while let Some((b'b', rest)) = log.split_first() {
        let step = some_step(&mut seed);
        let Some((answer, rest)) = rest.split_first_chunk() else {
            history.push((step, None));
            return history;
        };
        history.push((step, Some(u64::from_le_bytes(*answer))));
        log = rest;
    }
    assert!(log.is_empty(), "the log has what it was given");
    history
}

// Whether a file that held this, and whose process was killed behind these steps, may hold what was found.
fn is_permitted(start: &Model, history: &[(Step, Option<u64>)], found: &Model) -> bool {
    let is_durable = |(step, answer): &(Step, Option<u64>)| {
        matches!(step, Step::Flush | Step::Compact) && answer.is_some()
    };
    let least = history.iter().rposition(is_durable).map_or(0, |at| at + 1);
    let mut model = start.clone();
    for (at, (step, _)) in history.iter().enumerate() {
        if at >= least && model == *found {
            return true;
        }
        let (changes, is_whole): (&[Change], _) = match step {
            Step::One(change) => (std::slice::from_ref(change), true),
            Step::Sealed(changes) => (changes, true),
            Step::Cancelled(changes) => (changes, false),
            _ => (&[], true),
        };
        for change in changes {
            change.model(&mut model);
            if !is_whole && at >= least && model == *found {
                return true;
            }
        }
    }
    model == *found
}

fn read(db: &Db) -> Model {
    let mut model = Model::new();
    for name in db.map_names().unwrap() {
        let number = NAMES
            .iter()
            .position(|known| known.as_bytes() == name)
            .unwrap();
        for pair in &db.map(name) {
            let (key, value) = pair.unwrap();
            model.insert((number, key), value);
        }
    }
    model
}

// Kills many processes one after another over one file: how many steps they made.
fn steps_of_many_killed(store: u64) -> usize {
    let folder = Folder::new(&format!("maps-killed-{store}"));
    let (mut model, mut ids) = (Model::new(), BTreeSet::new());
    let (mut moments, mut steps) = (Seed(store), 0);
    for kill in 0..KILLS {
        let seed = store * KILLS + kill;
        // the first ones while it starts, and makes the file or opens it
        let has_begun = kill >= KILLS / 4;
        let most = if has_begun { 120_000 } else { 8_000 };
        let after = Duration::from_micros(moments.below(most) as u64);
        let log = log_of_one_killed(&folder, seed, after, has_begun);
        let history = history_of(seed, &log);
        if !folder.file().exists() {
            assert!(model.is_empty() && history.is_empty());
            continue;
        }
        let found = read(&Db::open_with(folder.file(), &settings_of(store)).unwrap());
        let told = format!("seed {seed}, {} steps", history.len());
        let is_kept = is_permitted(&model, &history, &found);
        assert!(is_kept, "{told}: no first part of them left what is there");
        for (step, answer) in &history {
            if let (Step::GenerateId, Some(id)) = (step, answer) {
                assert!(ids.insert(*id), "{told}: id {id} came twice");
            }
        }
        steps += history.len();
        model = found;
    }
    steps
}

#[test]
fn what_was_flushed_survives_each_kill() {
    if let Ok(seed) = env::var(SEED) {
        return change_until_killed(seed.parse().unwrap());
    }
    let steps: usize = (0..STORES).map(steps_of_many_killed).sum();
    println!("{} kills, {steps} steps", STORES * KILLS);
    assert!(steps as u64 > STORES * KILLS);
}

#[test]
fn what_is_lost_is_seen() {
    let set = |key: u8| Change::Set(0, vec![key], Vec::new());
    let of = |keys: &[u8]| {
        keys.iter()
            .map(|key| ((0, vec![*key]), Vec::new()))
            .collect::<Model>()
    };
    let permits = |steps: &[Step], keys: &[u8]| {
        let history: Vec<_> = steps.iter().map(|step| (step.clone(), Some(0))).collect();
        is_permitted(&of(&[]), &history, &of(keys))
    };
    let one = |key| Step::One(set(key));
    let flushed = [one(1), Step::Flush, one(2), one(3)];
    assert!(permits(&flushed, &[1]) && permits(&flushed, &[1, 2]) && permits(&flushed, &[1, 2, 3]));
    assert!(!permits(&flushed, &[]) && !permits(&flushed, &[1, 3]));
    let sealed = [one(1), Step::Sealed(vec![set(2), set(3)])];
    assert!(permits(&sealed, &[1]) && permits(&sealed, &[1, 2, 3]) && !permits(&sealed, &[1, 2]));
    let cancelled = [one(1), Step::Cancelled(vec![set(2), set(3)])];
    assert!(permits(&cancelled, &[1, 2]) && !permits(&cancelled, &[1, 3]));
}
