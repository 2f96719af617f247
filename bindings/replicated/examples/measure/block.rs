//! Flushes over a file that nbdkit serves.

use crate::{flushes, percentiles};
use dilluvas::{Db, FileSettings};
use dilluvas_replicated::NbdDevice;
use std::fs::File;
use std::os::unix::net::UnixStream;
use std::path::Path;
use std::process::Command;

pub fn flush_of_a_block_device(folder: &Path) {
    let (disk, socket) = (folder.join("disk"), folder.join("socket"));
    File::create(&disk).unwrap().set_len(1 << 30).unwrap();
    let mut command = Command::new("nbdkit");
    command
        .args(["-f", "-U"])
        .arg(&socket)
        .arg("file")
        .arg(&disk);
    let mut server = command.spawn().unwrap();
    while UnixStream::connect(&socket).is_err() {
        assert!(server.try_wait().unwrap().is_none(), "nbdkit ended");
    }
    let uri = format!("nbd+unix:///?socket={}", socket.display());
    let device = NbdDevice::make(&uri).unwrap();
    let db = Db::on_device(device, &FileSettings::default()).unwrap();
    let mut number = 0;
    for changes in [1, 10, 1000] {
        let times = flushes(&db, changes, 100, &mut number);
        println!("| nbdkit | - | {changes} | {} | | | |", percentiles(&times));
    }
    drop(db);
    server.kill().unwrap();
    server.wait().unwrap();
}
