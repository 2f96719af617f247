//! The least that reading pages from a file can cost: the pairs of each page, one page after the other, and a read of its bytes for each
//! page that is read.

use crate::store::{FIRST, Pages, Pairs};
use std::fs::File;
use std::io::Write;
use std::os::unix::fs::FileExt;
use std::path::Path;

/// A file that is written once, and where each of its pages ends.
pub struct PlainFile {
    file: File,
    pending: Vec<u8>,
    ends: Vec<u64>,
    page: Vec<u8>,
}

impl PlainFile {
    pub fn open(path: &Path) -> PlainFile {
        let file = File::options()
            .read(true)
            .append(true)
            .create_new(true)
            .open(path);
        PlainFile {
            file: file.expect("a file is made"),
            pending: Vec::new(),
            ends: vec![0],
            page: Vec::new(),
        }
    }
}

impl Pages for PlainFile {
    fn allocate(&mut self, pairs: &Pairs) -> u64 {
        let start = self.pending.len();
        for (key, value) in pairs {
            self.pending.extend_from_slice(key);
            self.pending.extend_from_slice(value);
        }
        let len = (self.pending.len() - start) as u64;
        self.ends.push(self.ends[self.ends.len() - 1] + len);
        FIRST + self.ends.len() as u64 - 2
    }

    fn read(&mut self, page: u64) -> usize {
        let at = (page - FIRST) as usize;
        let (start, end) = (self.ends[at], self.ends[at + 1]);
        self.page.resize((end - start) as usize, 0);
        self.file
            .read_exact_at(&mut self.page, start)
            .expect("it is read");
        self.page.len()
    }

    fn flush(&mut self) {
        self.file.write_all(&self.pending).expect("it is written");
        self.file.sync_data().expect("it is synced");
        self.pending.clear();
    }
}
