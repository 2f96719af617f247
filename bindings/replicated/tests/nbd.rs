//! Logs on block devices of nbdkit.

use dilluvas::{Db, Device, Error, FileSettings};
use dilluvas_replicated::{NbdDevice, Refusal};
use std::os::unix::net::UnixStream;
use std::path::{Path, PathBuf};
use std::process::{Child, Command, Stdio};
use std::time::Duration;
use std::{env, fs, io, process, thread};

/// A server, which is killed where it is dropped.
struct Server {
    child: Child,
    folder: PathBuf,
}

impl Server {
    fn start(name: &str, words: &[&str]) -> Server {
        let place =
            env::var_os("DILLUVAS_REPLICATED_FOLDER").map_or_else(env::temp_dir, PathBuf::from);
        let folder = place.join(format!("nbd-{}-{name}", process::id()));
        fs::create_dir_all(&folder).unwrap();
        Server::start_in(folder, words)
    }

    fn start_in(folder: PathBuf, words: &[&str]) -> Server {
        let _ = fs::remove_file(folder.join("socket"));
        let mut command = Command::new("nbdkit");
        command
            .args(["-f", "-U"])
            .arg(folder.join("socket"))
            .args(words)
            .current_dir(&folder);
        let child = command.stderr(Stdio::null()).spawn().unwrap();
        for _ in 0..1000 {
            if UnixStream::connect(folder.join("socket")).is_ok() {
                break;
            }
            thread::sleep(Duration::from_millis(5));
        }
        Server { child, folder }
    }

    fn uri(&self) -> String {
        format!(
            "nbd+unix:///?socket={}",
            self.folder.join("socket").display()
        )
    }

    // Kills it, and starts another one over the same folder.
    fn restart(mut self, words: &[&str]) -> Server {
        self.stop();
        let folder = self.folder.clone();
        self.folder = PathBuf::new();
        Server::start_in(folder, words)
    }

    fn stop(&mut self) {
        let _ = self.child.kill();
        self.child.wait().unwrap();
    }
}

impl Drop for Server {
    fn drop(&mut self) {
        self.stop();
        if self.folder != Path::new("") {
            let _ = fs::remove_dir_all(&self.folder);
        }
    }
}

fn make(server: &Server) -> Db {
    Db::on_device(
        NbdDevice::make(&server.uri()).unwrap(),
        &FileSettings::default(),
    )
    .unwrap()
}

fn open(server: &Server) -> Db {
    Db::on_device(
        NbdDevice::open(&server.uri()).unwrap(),
        &FileSettings::default(),
    )
    .unwrap()
}

const FILE: [&str; 4] = ["--filter=log", "file", "disk", "logfile=log"];

fn disk(name: &str, bytes: &[u8]) -> Server {
    let mut server = Server::start(name, &["null"]);
    server.stop();
    fs::write(server.folder.join("disk"), bytes).unwrap();
    server.restart(&FILE)
}

fn refusal<T>(answer: Result<T, Refusal>) -> Refusal {
    answer.err().expect("it is refused")
}

#[test]
fn what_was_flushed_is_there_when_the_server_was_killed() {
    let server = disk("killed", &[0; 1 << 23]);
    let db = make(&server);
    for key in 0..1000u32 {
        db.map("m").set(key.to_be_bytes(), [7; 100]).unwrap();
    }
    db.flush().unwrap();
    db.map("m").set("k", "not flushed").unwrap();
    let count = |word: &str| {
        let log = fs::read_to_string(server.folder.join("log")).unwrap();
        log.matches(word).count()
    };
    // two to make the log, and two of the flush
    assert_eq!(count(" Flush "), 4 + 2, "with the two pages of a new cache");
    let server = server.restart(&FILE);
    assert!(matches!(db.flush(), Err(Error::Write(_))));
    assert!(matches!(db.map("m").set("k", "v"), Err(Error::Write(_))));
    drop(db);
    let db = open(&server);
    assert_eq!(db.map("m").len().unwrap(), 1000);
    // the device is larger than the log, and no more of it is read than a piece after its end
    let log = fs::read_to_string(server.folder.join("log")).unwrap();
    let (_, since) = log.rsplit_once(" Connect ").unwrap();
    let number = |line: &str, name: &str| {
        let (_, rest) = line.split_once(name).unwrap();
        u64::from_str_radix(rest.split(' ').next().unwrap(), 16).unwrap()
    };
    let reads = since.lines().filter(|line| line.contains(" Read "));
    let ends = reads.map(|line| number(line, "offset=0x") + number(line, "count=0x"));
    let most = ends.max().unwrap();
    assert!(most <= db.size_on_disk().unwrap() + 65536, "{most}");
}

#[test]
fn what_follows_the_log_is_any_bytes() {
    let server = disk("garbage", &[0; 1 << 22]);
    let db = make(&server);
    db.map("m").set("k", "v").unwrap();
    db.flush().unwrap();
    let end = db.size_on_disk().unwrap() as usize;
    drop(db);
    let path = server.folder.join("disk");
    let mut bytes = fs::read(&path).unwrap();
    assert!(
        bytes[end..].iter().all(|byte| *byte == 0) && bytes[end - 1] == 0,
        "the closed gate"
    );
    bytes[end..].fill(0xab);
    fs::write(&path, &bytes).unwrap();
    let server = server.restart(&FILE);
    let db = open(&server);
    assert_eq!(db.map("m").get("k").unwrap().unwrap(), b"v");
    db.map("m").set("k", "w").unwrap();
    db.flush().unwrap();
    drop(db);
    assert_eq!(open(&server).map("m").get("k").unwrap().unwrap(), b"w");
    // an open gate that leads past the end
    let mut bytes = fs::read(&path).unwrap();
    let at = bytes.iter().rposition(|byte| *byte != 0xab).unwrap();
    bytes[at] = 1;
    fs::write(&path, &bytes).unwrap();
    let server = server.restart(&FILE);
    let opened = Db::on_device(
        NbdDevice::open(&server.uri()).unwrap(),
        &FileSettings::default(),
    );
    assert_eq!(opened.err(), Some(Error::Corruption));
    assert_eq!(fs::read(&path).unwrap(), bytes, "nothing was written");
}

#[test]
fn a_full_device_refuses_changes_and_goes_on() {
    let server = Server::start("full", &["memory", "1M"]);
    let settings = FileSettings {
        segment_size: 4096,
        ..FileSettings::default()
    };
    let db = Db::on_device(NbdDevice::make(&server.uri()).unwrap(), &settings).unwrap();
    let mut last = 0u32;
    let refused = loop {
        match db.map("m").set(last.to_be_bytes(), [7; 1000]) {
            Ok(_) => last += 1,
            Err(error) => break error,
        }
    };
    assert!(matches!(&refused, Error::DiskFull(_)), "{refused:?}");
    assert_eq!(Refusal::of(&refused), Some(&Refusal::Full(1 << 20)));
    db.flush().unwrap();
    drop(db);
    let db = Db::on_device(NbdDevice::open(&server.uri()).unwrap(), &settings).unwrap();
    assert_eq!(db.map("m").len().unwrap(), u64::from(last));
    assert!(matches!(
        db.map("m").set("k", [7; 1000]),
        Err(Error::DiskFull(_))
    ));
    let other = Server::start("other", &["memory", "16M"]);
    db.compact_to(NbdDevice::make(&other.uri()).unwrap())
        .unwrap();
    db.map("m").set("k", [7; 1000]).unwrap();
    db.flush().unwrap();
    drop(db);
    let db = Db::on_device(NbdDevice::open(&other.uri()).unwrap(), &settings).unwrap();
    assert_eq!(db.map("m").len().unwrap(), u64::from(last) + 1);
}

#[test]
fn other_servers_are_refused() {
    let refused = |words: &str| {
        let server = Server::start("refused", &words.split('|').collect::<Vec<_>>());
        refusal(NbdDevice::make(&server.uri()))
    };
    let no_flush = "eval|get_size=echo 1048576|pread=head -c $3 /dev/zero|pwrite=cat >/dev/null|can_write=exit 0|can_flush=exit 3";
    assert_eq!(refused(no_flush), Refusal::NoFlush);
    assert_eq!(refused("-r|memory|1M"), Refusal::ReadOnly);
    let blocks =
        "--filter=blocksize-policy|memory|1M|blocksize-minimum=512|blocksize-error-policy=error";
    assert_eq!(refused(blocks), Refusal::BlockSize(512));
    let nobody = refusal(NbdDevice::open("nbd+unix:///?socket=/no/such/socket"));
    assert!(matches!(nobody, Refusal::Lost(_)), "{nobody:?}");
}

#[test]
fn a_log_is_made_once_and_opened_where_it_is() {
    let server = Server::start("zeros", &["memory", "4M"]);
    assert_eq!(refusal(NbdDevice::open(&server.uri())), Refusal::NotALog);
    drop(make(&server));
    assert_eq!(refusal(NbdDevice::make(&server.uri())), Refusal::NotEmpty);
    drop(open(&server));
    let server = Server::start("tiny", &["memory", "8"]);
    assert_eq!(refusal(NbdDevice::open(&server.uri())), Refusal::NotALog);
    let device = NbdDevice::make(&server.uri()).unwrap();
    let cause = Db::on_device(device, &FileSettings::default()).unwrap_err();
    assert_eq!(Refusal::of(&cause), Some(&Refusal::Full(8)), "{cause:?}");
}

// What a file system has, or a crash of a making may leave.
#[test]
fn only_zeros_are_made_a_log() {
    let with = |at: usize, bytes: &[u8]| {
        let mut all = vec![0; 1 << 22];
        all[at..at + bytes.len()].copy_from_slice(bytes);
        all
    };
    for (at, is_refused) in [
        (8, true),
        (1080, true),
        (65600, true),
        ((1 << 22) - 1, true),
    ] {
        let server = disk("marks", &with(at, &[0x53]));
        assert_eq!(NbdDevice::make(&server.uri()).is_err(), is_refused, "{at}");
    }
    for torn in [&b"SLP"[..], b"\0LP\0L", b"\0\0\0\0\0\0\x001", b"SLPCLOG"] {
        let server = disk("torn", &with(0, torn));
        drop(make(&server));
        assert_eq!(open(&server).map_names().unwrap(), Vec::<Vec<u8>>::new());
    }
    let server = disk("mark", &with(0, b"SLQ"));
    assert_eq!(refusal(NbdDevice::make(&server.uri())), Refusal::NotEmpty);
}

#[test]
fn what_is_not_there_cannot_be_read() {
    let server = Server::start("ends", &["memory", "2M"]);
    let mut device = NbdDevice::make(&server.uri()).unwrap();
    assert_eq!(device.size().unwrap(), 0);
    let long = vec![7; (1 << 20) + 77];
    device.write_at(3, &long).unwrap();
    let mut read = vec![0; long.len()];
    device.read_at(3, &mut read).unwrap();
    assert_eq!(read, long);
    let error = device.read_at((2 << 20) - 1, &mut [0; 2]).unwrap_err();
    assert_eq!(error.kind(), io::ErrorKind::UnexpectedEof);
    let error = device.write_at(u64::MAX, &[0; 2]).unwrap_err();
    assert_eq!(error.kind(), io::ErrorKind::StorageFull);
    device.sync().unwrap();
}
