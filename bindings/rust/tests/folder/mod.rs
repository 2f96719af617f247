//! A folder that is gone behind its test, and stays where that fails.

use std::fs;
use std::path::{Path, PathBuf};
use std::thread;

pub struct Folder(PathBuf);

#[allow(dead_code)] // each test that includes it uses a part
impl Folder {
    pub fn new(name: &str) -> Folder {
        Folder::within(&std::env::temp_dir(), name)
    }

    /// One in memory, where the system has a place for that.
    pub fn in_memory(name: &str) -> Folder {
        let place = Path::new("/dev/shm");
        match place.is_dir() {
            true => Folder::within(place, name),
            false => Folder::new(name),
        }
    }

    fn within(place: &Path, name: &str) -> Folder {
        let path = place.join(format!("dilluvas-{}-{name}", std::process::id()));
        fs::create_dir(&path).unwrap();
        Folder(path)
    }

    pub fn path(&self) -> &Path {
        &self.0
    }

    /// The file of a cache in it.
    pub fn file(&self) -> PathBuf {
        self.0.join("pages")
    }
}

impl Drop for Folder {
    fn drop(&mut self) {
        if thread::panicking() {
            eprintln!("its files stay in {}", self.0.display());
        } else {
            let _ = fs::remove_dir_all(&self.0);
        }
    }
}
