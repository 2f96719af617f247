//! Copies of a file that is written meanwhile.

use super::*;
use std::borrow::Cow;
use std::cell::Cell;

// A file that goes on by so many moments at each read.
struct Written<'a> {
    moments: Cow<'a, [Vec<u8>]>,
    at: Cell<usize>,
    by: usize,
}

impl<'a> Written<'a> {
    fn from(moments: &'a [Vec<u8>], start: usize, by: usize) -> Written<'a> {
        Written {
            moments: moments.into(),
            at: Cell::new(start),
            by,
        }
    }

    fn still(bytes: &[u8]) -> Written<'static> {
        Written {
            moments: vec![bytes.to_vec()].into(),
            at: Cell::new(0),
            by: 0,
        }
    }
}

impl FileExt for Written<'_> {
    fn read_at(&self, into: &mut [u8], at: u64) -> io::Result<usize> {
        let moment = self.at.get().min(self.moments.len() - 1);
        self.at.set(moment + self.by);
        let bytes = self.moments[moment].get(at as usize..).unwrap_or_default();
        let len = bytes.len().min(into.len());
        into[..len].copy_from_slice(&bytes[..len]);
        Ok(len)
    }

    fn write_at(&self, _: &[u8], _: u64) -> io::Result<usize> {
        Err(io::ErrorKind::Unsupported.into())
    }
}

// A file in memory, and what it was at each sync and before the writes behind the last one.
#[derive(Default)]
struct Bytes {
    now: Vec<u8>,
    synced: Vec<u8>,
    writes: Vec<(usize, Vec<u8>)>,
}

impl Bytes {
    fn of(bytes: &[u8]) -> Bytes {
        Bytes {
            now: bytes.to_vec(),
            synced: bytes.to_vec(),
            writes: Vec::new(),
        }
    }

    // What a crash may leave: some of the writes since the last sync, and of each a part.
    fn crashed(&self) -> Vec<Vec<u8>> {
        let mut left = vec![self.synced.clone()];
        for (at, bytes) in &self.writes {
            for part in [bytes.len() / 2, bytes.len()] {
                let more: Vec<_> = left
                    .iter()
                    .map(|file| written(file, *at, &bytes[..part]))
                    .collect();
                left.extend(more);
            }
        }
        left
    }
}

fn written(file: &[u8], at: usize, bytes: &[u8]) -> Vec<u8> {
    let mut file = file.to_vec();
    file.resize(file.len().max(at + bytes.len()), 0);
    file[at..at + bytes.len()].copy_from_slice(bytes);
    file
}

// Up to the first gate that is closed.
fn shown(file: &[u8]) -> Vec<u8> {
    let mut shown = Vec::new();
    let file = Written::still(file);
    let gate = Frames::of(&file)
        .unwrap()
        .each_piece(|_, bytes| {
            shown.extend_from_slice(bytes);
            Ok(())
        })
        .unwrap();
    assert_eq!(gate, shown.len() as u64);
    shown.push(0);
    shown
}

// Tells of each moment what a crash may leave then.
struct Crashing<'a>(Bytes, &'a mut (dyn FnMut(&[u8]) + Send));

impl Device for Crashing<'_> {
    fn size(&mut self) -> io::Result<u64> {
        Ok(self.0.now.len() as u64)
    }

    fn read_at(&mut self, at: u64, into: &mut [u8]) -> io::Result<()> {
        into.copy_from_slice(&self.0.now[at as usize..][..into.len()]);
        Ok(())
    }

    fn write_at(&mut self, at: u64, bytes: &[u8]) -> io::Result<()> {
        self.0.now = written(&self.0.now, at as usize, bytes);
        self.0.writes.push((at as usize, bytes.to_vec()));
        for file in self.0.crashed() {
            (self.1)(&file);
        }
        Ok(())
    }

    fn sync(&mut self) -> io::Result<()> {
        for (at, bytes) in mem::take(&mut self.0.writes) {
            self.0.synced = written(&self.0.synced, at, &bytes);
        }
        Ok(())
    }
}

type Moments = Vec<Vec<u8>>;

// What a file holds as frames are written to it: what is flushed, and each moment with how many of these are.
fn history() -> (Moments, Moments, Vec<usize>) {
    let mut file = [&b"SLPCLOG1"[..], &[0]].concat();
    let (mut flushed, mut moments, mut counts) = (vec![file.clone()], vec![file.clone()], vec![0]);
    for length in [1u64, 300, 2, 70] {
        let gate = file.len() - 1;
        let frame = [
            &length.to_le_bytes()[..],
            &vec![length as u8; length as usize],
            &[0],
        ]
        .concat();
        for written in [5, frame.len() / 2 + 4, frame.len()] {
            moments.push([&file[..], &frame[..written]].concat());
            counts.push(flushed.len() - 1);
        }
        file.extend(frame);
        file[gate] = 1;
        flushed.push(file.clone());
        moments.push(file.clone());
        counts.push(flushed.len() - 1);
    }
    (flushed, moments, counts)
}

#[test]
fn a_copy_is_a_file_that_was_flushed_whatever_is_written_meanwhile() {
    let (flushed, moments, counts) = history();
    for (start, least) in counts.iter().enumerate() {
        for by in 0..moments.len() {
            let from = Written::from(&moments, start, by);
            let mut to = Crashing(Bytes::default(), &mut |_| {});
            let copied = copy_all(&from, &mut to, &mut |_| {});
            assert_eq!(copied, Ok(to.0.now.len() as u64));
            assert!(
                flushed[*least..].contains(&to.0.synced),
                "from {start} by {by}"
            );
        }
    }
}

#[test]
fn an_older_copy_becomes_a_newer_one_or_stays() {
    let (flushed, moments, counts) = history();
    for (start, least) in counts.iter().enumerate() {
        for by in 0..moments.len() {
            for older in &flushed[..=*least] {
                let from = Written::from(&moments, start, by);
                let end = end_of_copy(&from, &Written::still(older)).unwrap();
                let mut left = Vec::new();
                let mut keep = |file: &[u8]| left.push(shown(file));
                let mut to = Crashing(Bytes::of(older), &mut keep);
                copy_behind(&from, &mut to, end, &mut |_| {}).unwrap();
                let newer = to.0.synced;
                assert!(flushed[*least..].contains(&newer), "from {start} by {by}");
                assert!(left.iter().all(|file| [older, &newer].contains(&file)));
            }
        }
    }
}

#[test]
fn a_gate_that_a_failed_sync_let_go_is_written_again() {
    let (flushed, moments, _) = history();
    for start in 0..moments.len() {
        let from = Written::from(&moments, start, 0);
        let newest = shown(&moments[start]);
        let olders = flushed.iter().filter(|file| file.len() <= newest.len());
        for older in olders.skip(1) {
            // the system shows the last gate open, and the device has it closed
            let mut to = Crashing(Bytes::of(older), &mut |_| {});
            let end = end_of_copy(&from, &Written::still(older)).unwrap();
            to.0.synced[end.last_open.unwrap() as usize] = 0;
            copy_behind(&from, &mut to, end, &mut |_| {}).unwrap();
            assert_eq!(shown(&to.0.synced), newest);
        }
    }
}

#[test]
fn that_a_batch_was_abandoned_in_a_copy_is_taken_back() {
    let (flushed, moments, _) = history();
    let from = Written::from(&moments, moments.len() - 1, 0);
    for older in &flushed {
        let mut opened = older.clone();
        *opened.last_mut().unwrap() = 1;
        opened.extend(25u64.to_le_bytes());
        opened.extend([14; 25]);
        opened.push(0);
        let end = end_of_copy(&from, &Written::still(&opened)).unwrap();
        let mut left = Vec::new();
        let mut keep = |file: &[u8]| left.push(shown(file));
        let mut to = Crashing(Bytes::of(&opened), &mut keep);
        copy_behind(&from, &mut to, end, &mut |_| {}).unwrap();
        let newer = shown(&to.0.synced);
        assert_eq!(newer, flushed[flushed.len() - 1]);
        let all = [older, &opened, &newer];
        assert!(left.iter().all(|file| all.contains(&file)));
    }
}

#[test]
fn what_a_killed_copier_left_behind_the_end_is_written_over() {
    let (flushed, moments, _) = history();
    let from = Written::from(&moments, moments.len() - 1, 0);
    let last = flushed.last().unwrap();
    for older in &flushed {
        for left in [&last[older.len()..], b"left", &[1; 400]] {
            let older = [older, left].concat();
            let end = end_of_copy(&from, &Written::still(&older)).unwrap();
            let mut to = Crashing(Bytes::of(&older), &mut |_| {});
            copy_behind(&from, &mut to, end, &mut |_| {}).unwrap();
            assert_eq!(shown(&to.0.synced), *last);
        }
    }
}

#[test]
fn what_is_no_older_copy_is_refused() {
    let (flushed, moments, _) = history();
    let from = Written::from(&moments, 0, 0);
    let newest = Written::from(&moments, moments.len() - 1, 0);
    for newer in &flushed[1..] {
        assert!(end_of_copy(&from, &Written::still(newer)).is_err());
        for at in 0..newer.len() - 1 {
            let mut changed = newer.clone();
            changed[at] ^= 0x40;
            let is_refused = end_of_copy(&newest, &Written::still(&changed)).is_err();
            assert!(is_refused, "{at}");
            let is_cut = end_of_copy(&newest, &Written::still(&newer[..at])).is_err();
            assert!(is_cut, "{at}");
        }
    }
}
