//! Threads that change a store on a small disk, whose process is killed again and again, and copiers of it that are killed too.

use crate::folder::Folder;
use crate::run::{program, run};
use crate::seed::Seed;
use dilluvas::{CompactAt, Db, Error, FileSettings};
use std::fs::{self, File, OpenOptions};
use std::io::Write;
use std::os::unix::process::ExitStatusExt;
use std::path::{Path, PathBuf};
use std::process::{Child, Command, Stdio};
use std::time::Duration;
use std::{env, thread};

const KILLS: u64 = 20;
const THREADS: u8 = 3;
const KEYS: u64 = 300;

// What a store lies on, and how many maps a change is made in: a batch that finds no room for a part of it stands in part.
#[derive(Clone, Copy)]
struct Attack {
    name: &'static str,
    kilobytes: u32,
    maps: u8,
}

const LARGE: Attack = Attack {
    name: "attacked::nothing_that_was_flushed_is_lost",
    kilobytes: 100 << 10,
    maps: 2,
};
const FULL: Attack = Attack {
    name: "attacked::nor_is_it_on_a_disk_that_is_full",
    kilobytes: 900,
    maps: 1,
};

// The variable by which this program knows that it is to be killed.
const WRITES: &str = "DILLUVAS_ATTACKED";

const SETTINGS: FileSettings = FileSettings {
    cache_capacity: 4096,
    idgen_persist_interval: 10,
    segment_size: 4096,
};

fn open(path: &Path) -> Db {
    let db = Db::open_with(path, &SETTINGS).unwrap();
    let compact_at = CompactAt {
        times: 2,
        least: 1 << 14,
        most: u64::MAX,
        step: 1 << 14,
    };
    db.set_compact_at(Some(compact_at)).unwrap();
    db
}

fn value_of(number: u64) -> Vec<u8> {
    number.to_be_bytes().repeat(10 + number as usize % 20)
}

impl Attack {
    // Each change of a thread sets one key to the number of the change, in each map by one batch.
    fn change(self, db: &Db, of: u8, number: u64) -> Result<(), Error> {
        let key = (number % KEYS).to_be_bytes();
        if self.maps == 1 {
            db.map([of, 0]).set(key, value_of(number))?;
            return Ok(());
        }
        db.batch(|batch| {
            for map in 0..self.maps {
                batch.map([of, map]).set(key, value_of(number))?;
            }
            Ok(())
        })?;
        Ok(())
    }

    // How many changes a thread made, by what they left, which is all that they would have.
    fn changes_of(self, db: &Db, of: u8) -> u64 {
        let first = db.map([of, 0]);
        for other in 1..self.maps {
            let other = db.map([of, other]);
            assert!(first.iter().eq(other.iter()), "a batch is there in part");
        }
        let (mut numbers, mut next) = (Vec::new(), 0);
        for pair in &first {
            let (key, value) = pair.unwrap();
            let number = u64::from_be_bytes(*value.first_chunk().unwrap());
            assert_eq!((number % KEYS).to_be_bytes(), key[..]);
            assert!(value == value_of(number));
            next = next.max(number + 1);
            numbers.push(number);
        }
        numbers.sort();
        assert!(numbers.into_iter().eq(next.saturating_sub(KEYS)..next));
        next
    }

    fn check(self, db: &Db, told: &[u64]) -> Vec<u64> {
        let found: Vec<_> = (0..THREADS).map(|of| self.changes_of(db, of)).collect();
        let is_kept = found.iter().zip(told).all(|(found, told)| found >= told);
        assert!(is_kept, "{told:?} were flushed, and {found:?} are there");
        found
    }

    // Changes until it is killed, and tells of what was flushed.
    fn write(self, path: &Path, folder: &Path) {
        let db = open(path);
        thread::scope(|scope| {
            for of in 0..THREADS {
                let db = &db;
                scope.spawn(move || {
                    let mut told = OpenOptions::new();
                    let told = told.create(true).append(true).open(told_of(folder, of));
                    self.write_one(db, of, told.unwrap());
                });
            }
        });
    }

    fn write_one(self, db: &Db, of: u8, mut told: File) {
        for number in self.changes_of(db, of).. {
            while let Err(error) = self.change(db, of, number) {
                // a rewriting may give room back
                assert!(matches!(error, Error::DiskFull(_)), "{error:?}");
                fs::write("refused", "").unwrap();
                let _ = db.compact();
                thread::sleep(Duration::from_millis(1));
            }
            if number % 5 == u64::from(of) {
                db.flush().unwrap();
                told.write_all(&(number + 1).to_be_bytes()).unwrap();
            }
        }
    }

    // Lets processes change the file and kills them: all changes that were made, and how many copies were looked into.
    fn make(self, folder: &Folder) -> (Vec<u64>, usize) {
        let disk = Disk::new(folder, self.kilobytes);
        let path = disk.0.join("pages");
        let (mut moments, mut copies) = (Seed(1), 0);
        let mut made = vec![0; THREADS.into()];
        for _ in 0..KILLS {
            let mut writer = Writer::begun(self, &path, folder);
            thread::sleep(Duration::from_micros(moments.below(150_000) as u64));
            if path.exists() && moments.below(2) == 0 {
                self.follow(&path, folder, &mut moments);
                copies += 1;
            }
            writer.kill();
            if path.exists() {
                let found = self.check(&open(&path), &told(folder.path()));
                let is_more = found.iter().zip(&made).all(|(found, made)| found >= made);
                assert!(is_more, "{made:?} were found, and {found:?} are there");
                made = found;
            }
        }
        (made, copies)
    }

    // Copies the file while it is changed, is killed in that now and then, and looks into the copy.
    fn follow(self, path: &Path, folder: &Folder, moments: &mut Seed) {
        let other = folder.path().join("other");
        let words = [path, Path::new("copy"), &other];
        if moments.below(2) == 0 {
            let mut copier = program(&words).spawn().unwrap();
            thread::sleep(Duration::from_micros(moments.below(10_000) as u64));
            copier.kill().unwrap();
            copier.wait().unwrap();
        }
        let told = told(folder.path());
        if run(&words).code != 0 {
            // the file was rewritten since
            let _ = fs::remove_file(&other);
            run(&words).done();
        }
        self.check(&Db::open_existing(&other).unwrap(), &told);
    }
}

fn told_of(folder: &Path, of: u8) -> PathBuf {
    folder.join(format!("told-{of}"))
}

// How many changes of each thread were told to be durable.
fn told(folder: &Path) -> Vec<u64> {
    let last_of = |of| {
        let bytes = fs::read(told_of(folder, of)).unwrap_or_default();
        let (numbers, _) = bytes.as_chunks::<8>();
        numbers.last().map_or(0, |last| u64::from_be_bytes(*last))
    };
    (0..THREADS).map(last_of).collect()
}

// A disk of so many kilobytes, where one can be mounted.
struct Disk(PathBuf);

impl Disk {
    fn new(folder: &Folder, kilobytes: u32) -> Disk {
        let place = folder.path().join("disk");
        fs::create_dir(&place).unwrap();
        let size = format!("size={kilobytes}k");
        let mounted = Command::new("mount")
            .args(["-t", "tmpfs", "-o", &size, "none"])
            .arg(&place)
            .stderr(Stdio::null())
            .status();
        if !mounted.is_ok_and(|status| status.success()) {
            println!("no file system can be mounted: the disk gets never full");
        }
        Disk(place)
    }
}

impl Drop for Disk {
    fn drop(&mut self) {
        let mut unmount = Command::new("umount");
        unmount.arg("-l").arg(&self.0).stderr(Stdio::null());
        let _ = unmount.status();
    }
}

// A process that doesn't outlive the test, where that fails.
struct Writer(Child);

impl Writer {
    // This program, which changes the file.
    fn begun(attack: Attack, path: &Path, folder: &Folder) -> Writer {
        let child = Command::new(env::current_exe().unwrap())
            .args([attack.name, "--exact", "--nocapture"])
            .env(WRITES, path)
            .current_dir(folder.path())
            .stdout(Stdio::null())
            .spawn();
        Writer(child.unwrap())
    }

    fn kill(&mut self) {
        let _ = self.0.kill();
        let status = self.0.wait().unwrap();
        assert_eq!(status.signal(), Some(9), "it was killed, and did not fail");
    }
}

impl Drop for Writer {
    fn drop(&mut self) {
        let _ = self.0.kill();
    }
}

#[test]
fn nothing_that_was_flushed_is_lost() {
    attack(LARGE);
}

#[test]
fn nor_is_it_on_a_disk_that_is_full() {
    attack(FULL);
}

fn attack(attack: Attack) {
    if let Some(path) = env::var_os(WRITES) {
        return attack.write(Path::new(&path), Path::new("."));
    }
    let folder = Folder::new(&format!("command-attacked-{}", attack.maps));
    let (made, copies) = attack.make(&folder);
    let is_refused = folder.path().join("refused").exists();
    println!("{KILLS} kills, {made:?} changes, {copies} copies, full: {is_refused}");
    assert!(copies > 0 && made.iter().all(|made| *made > 0));
}
