//! Programs that open, make and rewrite one file at the same time, each of which stops before each of its calls of the system while others go
//! on, or are killed: what one of them flushed is there.
#![cfg(all(target_os = "linux", target_env = "gnu"))]

mod folder;
mod hooks;

use dilluvas::{Cache, Device, Error, FileSettings};
use folder::Folder;
use hooks::{Call, forked, hooked};
use std::fs::{self, File, OpenOptions};
use std::io;
use std::os::unix::fs::{FileExt, MetadataExt};
use std::path::{Path, PathBuf};
use std::sync::Arc;
use std::sync::atomic::{AtomicBool, Ordering};
use std::sync::mpsc;
use std::thread;

const EPERM: i32 = 1;

#[derive(Clone, Copy, Debug, PartialEq, Eq)]
enum Program {
    Opens,
    Rewrites,
    /// One that makes a file in its place, and writes to it there, as `sledpc file` does.
    InPlace,
}

#[derive(Clone, Copy, Debug, PartialEq, Eq)]
enum Start {
    Absent,
    Empty,
    Made,
}

const STARTS: [Start; 3] = [Start::Absent, Start::Empty, Start::Made];

// What a program has done that was told by a name.
#[derive(Clone, Debug, PartialEq, Eq)]
enum Done {
    Flushed,
    Refused(Error),
}

struct Place {
    folder: Folder,
    path: PathBuf,
}

impl Place {
    fn new(name: &str) -> Place {
        let folder = Folder::in_memory(name);
        let path = folder.file();
        Place { folder, path }
    }

    fn begin(&self, start: Start) {
        for entry in fs::read_dir(self.folder.path()).unwrap() {
            fs::remove_file(entry.unwrap().path()).unwrap();
        }
        match start {
            Start::Absent => {}
            Start::Empty => drop(File::create(&self.path).unwrap()),
            Start::Made => assert_eq!(
                hooked(without_syncs, || run(Program::Opens, &self.path, "start")),
                Done::Flushed
            ),
        }
    }

    // What was flushed is there, nothing else is, and each program that was refused was so since another had the file.
    fn judge(&self, start: Start, told: &str, done: &[(&str, Done)]) {
        let mut cache = hooked(without_syncs, || open(&self.path)).expect(told);
        if start == Start::Made {
            assert!(has(&mut cache, "start"), "{told}: start is lost");
        }
        for (name, done) in done {
            match done {
                Done::Flushed => assert!(has(&mut cache, name), "{told}: {name} is lost"),
                Done::Refused(error) => assert_eq!(*error, Error::Held, "{told}: {name}"),
            }
        }
    }

    fn has_one_file(&self, told: &str) {
        let files = fs::read_dir(self.folder.path()).unwrap().count();
        assert_eq!(files, 1, "{told}: a file stays");
    }
}

fn open(path: &Path) -> Result<Cache, Error> {
    Cache::open(path, &FileSettings::default())
}

fn has(cache: &mut Cache, name: &str) -> bool {
    cache.root(name).unwrap().is_some()
}

fn flush(mut cache: Cache, name: &str) -> Result<(), Error> {
    let token = cache.allocate([(name, "")])?;
    cache.cas_root(name, None, Some(token.page))?.unwrap();
    cache.flush()?;
    Ok(())
}

fn run(program: Program, path: &Path, name: &str) -> Done {
    let done = match program {
        Program::Opens => open(path).and_then(|cache| flush(cache, name)),
        Program::Rewrites => open(path).and_then(|mut cache| {
            cache.compact()?;
            flush(cache, name)
        }),
        Program::InPlace => run_in_place(path, name),
    };
    match done {
        Ok(()) => Done::Flushed,
        Err(error) => Done::Refused(error),
    }
}

// A file that another program has locked.
struct InPlace(File);

impl Device for InPlace {
    fn size(&mut self) -> io::Result<u64> {
        Ok(self.0.metadata()?.len())
    }

    fn read_at(&mut self, at: u64, into: &mut [u8]) -> io::Result<()> {
        self.0.read_exact_at(into, at)
    }

    fn write_at(&mut self, at: u64, bytes: &[u8]) -> io::Result<()> {
        self.0.write_all_at(bytes, at)
    }

    fn sync(&mut self) -> io::Result<()> {
        self.0.sync_data()
    }
}

impl Drop for InPlace {
    fn drop(&mut self) {
        self.0.unlock().unwrap();
    }
}

fn run_in_place(path: &Path, name: &str) -> Result<(), Error> {
    let mut options = OpenOptions::new();
    options.read(true).write(true).create(true).truncate(false);
    let file = options.open(path).unwrap();
    if file.try_lock().is_err() {
        return Err(Error::Held);
    }
    let file = InPlace(file);
    let found = file.0.metadata().unwrap();
    let is_there = fs::metadata(path)
        .is_ok_and(|present| (present.dev(), present.ino()) == (found.dev(), found.ino()));
    if !is_there {
        return Err(Error::Held);
    }
    if found.len() == 0 {
        file.0.write_all_at(b"SLPCLOG1\0", 0).unwrap();
        file.0.sync_data().unwrap();
    }
    let cache = Cache::on_device(file, &FileSettings::default())?;
    flush(cache, name)
}

fn without_syncs(call: &'static str) -> Call {
    match call {
        "fsync" | "fdatasync" => Call::IsPassed,
        _ => Call::IsMade,
    }
}

// Does something once before a call with a number, where it comes to that. What power would take isn't seen here, so that no sync is made or
// counted; and of calls that only look at a file one after another the first one is.
fn before(
    number: usize,
    is_linked: bool,
    stop: impl FnOnce() + 'static,
) -> (impl FnMut(&'static str) -> Call + 'static, Arc<AtomicBool>) {
    let (mut calls, mut last) = (0, "");
    let (mut stop, has_stopped) = (Some(stop), Arc::new(AtomicBool::new(false)));
    let is_told = has_stopped.clone();
    let hook = move |call| {
        if without_syncs(call) == Call::IsPassed {
            return Call::IsPassed;
        }
        if call != "statx" || last != "statx" {
            if calls == number
                && let Some(stop) = stop.take()
            {
                is_told.store(true, Ordering::Relaxed);
                stop();
            }
            calls += 1;
        }
        last = call;
        match call {
            "linkat" if !is_linked => Call::Fails(EPERM),
            _ => Call::IsMade,
        }
    };
    (hook, has_stopped)
}

// The first program stops before a call, until the second one has ended, or stops before one of its own; that goes on once the first has
// ended. Whether each of them came to its call.
fn let_two_run(
    place: &Place,
    programs: [Program; 2],
    calls: [usize; 2],
    is_linked: bool,
) -> ([Done; 2], [bool; 2]) {
    // where a thread has ended, the other end of its channels is closed
    let (start, is_started) = mpsc::channel::<()>();
    let (go_on, goes_on) = mpsc::channel::<()>();
    let (end, is_ended) = mpsc::channel::<()>();
    let path = &place.path;
    thread::scope(|scope| {
        let one = scope.spawn(move || {
            let _end = end;
            let (hook, has_stopped) = before(calls[0], is_linked, move || {
                start.send(()).unwrap();
                let _ = goes_on.recv();
            });
            let done = hooked(hook, || run(programs[0], path, "one"));
            (done, has_stopped.load(Ordering::Relaxed))
        });
        let other = scope.spawn(move || {
            let _ = is_started.recv();
            let (hook, has_stopped) = before(calls[1], is_linked, move || {
                let _ = go_on.send(());
                let _ = is_ended.recv();
            });
            let done = hooked(hook, || run(programs[1], path, "other"));
            (done, has_stopped.load(Ordering::Relaxed))
        });
        let (one, other) = (one.join().unwrap(), other.join().unwrap());
        ([one.0, other.0], [one.1, other.1])
    })
}

fn let_each_two_run(name: &str, start: Start, programs: [Program; 2], is_linked: bool) {
    let place = Place::new(name);
    for first in 0.. {
        for second in 0.. {
            place.begin(start);
            let (done, have_stopped) = let_two_run(&place, programs, [first, second], is_linked);
            let told = format!("{start:?}, {programs:?} before {first} and {second}, {done:?}");
            place.judge(
                start,
                &told,
                &[("one", done[0].clone()), ("other", done[1].clone())],
            );
            place.has_one_file(&told);
            // where the other one has come and gone, nobody holds the file: one that makes it in its place gives up where it was replaced
            if !have_stopped[1] && programs[0] != Program::InPlace {
                assert_eq!(done[0], Done::Flushed, "{told}");
            }
            if !have_stopped[0] {
                assert!(first > 4, "{told}");
                return;
            }
            if !have_stopped[1] {
                break;
            }
        }
    }
}

#[test]
fn two_programs_lose_nothing() {
    use Program::{InPlace, Opens, Rewrites};
    let pairs = [
        [Opens, Opens],
        [Opens, Rewrites],
        [Opens, InPlace],
        [Rewrites, Opens],
        [Rewrites, Rewrites],
        [Rewrites, InPlace],
        [InPlace, Opens],
        [InPlace, Rewrites],
    ];
    for start in STARTS {
        for programs in pairs {
            let_each_two_run("two", start, programs, true);
        }
    }
}

#[test]
fn nor_do_they_where_no_file_has_a_second_name() {
    use Program::{InPlace, Opens};
    for programs in [[Opens, Opens], [Opens, InPlace], [InPlace, Opens]] {
        let_each_two_run("two-unlinked", Start::Absent, programs, false);
    }
}

// Before a call of a program another one is killed before one of its own, and a third opens what is there, or doesn't.
fn let_one_be_killed(start: Start, programs: [Program; 2], has_third: bool) {
    let place = Place::new("killed");
    for first in 0.. {
        for second in 0.. {
            place.begin(start);
            let (path, ended) = (place.path.clone(), Arc::new(AtomicBool::new(false)));
            let third = Arc::new(AtomicBool::new(false));
            let (is_ended, is_flushed) = (ended.clone(), third.clone());
            let (hook, has_stopped) = before(first, true, move || {
                let status = forked(|| {
                    let (hook, _) = before(second, true, || hooks::end(1));
                    hooked(hook, || run(programs[1], &path, "killed"));
                    0
                });
                is_ended.store(status == 0, Ordering::Relaxed);
                if has_third {
                    let done = hooked(without_syncs, || run(Program::Opens, &path, "third"));
                    is_flushed.store(done == Done::Flushed, Ordering::Relaxed);
                }
            });
            let done = hooked(hook, || run(programs[0], &place.path, "one"));
            let told = format!("{start:?}, {programs:?} before {first} and {second}, {done:?}");
            let mut all = vec![("one", done.clone())];
            if third.load(Ordering::Relaxed) {
                all.push(("third", Done::Flushed));
            }
            place.judge(start, &told, &all);
            // what was killed holds nothing
            assert_eq!(done, Done::Flushed, "{told}");
            if !has_stopped.load(Ordering::Relaxed) {
                assert!(first > 4, "{told}");
                return;
            }
            if ended.load(Ordering::Relaxed) {
                break;
            }
        }
    }
}

#[test]
fn nothing_is_lost_where_one_is_killed() {
    use Program::{InPlace, Opens, Rewrites};
    for start in STARTS {
        for one in [Opens, Rewrites] {
            for killed in [Opens, Rewrites, InPlace] {
                for has_third in [false, true] {
                    let_one_be_killed(start, [one, killed], has_third);
                }
            }
        }
    }
}
