//! A cache over a file of the system.

mod folder;
mod refused;

use dilluvas::{Cache, Error, FileSettings, NO_PAIRS, Swap};
use folder::Folder;
use std::fs::{self, Permissions};
use std::os::unix::fs::{PermissionsExt, symlink};
use std::path::{Path, PathBuf};
use std::process::Command;

const SETTINGS: FileSettings = FileSettings {
    cache_capacity: 4096,
    idgen_persist_interval: 10,
    segment_size: 4096,
};

#[test]
fn what_was_flushed_is_found_again() -> Result<(), Error> {
    let folder = Folder::new("found");
    let mut cache = Cache::open(folder.file(), &SETTINGS)?;
    assert!(!cache.was_recovered()?);
    let mut tokens = Vec::new();
    for _ in 0..200 {
        tokens.push(cache.allocate(NO_PAIRS)?);
    }
    for round in 0..5u8 {
        for token in &mut tokens {
            let Swap::Done(next) = cache.set(*token, b"key", [round; 100])? else {
                unreachable!("no other call changed the page")
            };
            *token = next;
        }
    }
    let id = cache.generate_id()?;
    cache.flush()?;
    drop(cache);
    let mut cache = Cache::open(folder.file(), &SETTINGS)?;
    assert!(cache.was_recovered()?);
    for token in tokens {
        let page = cache.get(token.page)?.expect("it was flushed");
        assert_eq!(page.pairs().next(), Some((&b"key"[..], &[4; 100][..])));
    }
    assert!(cache.generate_id()? > id);
    assert_eq!(cache.attempt_gc(), Err(Error::NotOverFile));
    Ok(())
}

#[test]
fn what_is_no_file_is_told() {
    let folder = Folder::new("told");
    let opened = |path: PathBuf| Cache::open(path, &SETTINGS).map(|_| ());
    assert_eq!(opened(folder.path().into()), Err(Error::NoFile));
    assert_eq!(opened("/dev/null".into()), Err(Error::NoFile));
    assert_eq!(
        opened(folder.path().join("absent/pages")),
        Err(refused::no_access())
    );
    let cache = Cache::open(folder.file(), &SETTINGS).unwrap();
    assert_eq!(opened(folder.file()), Err(Error::Held));
    drop(cache);
    assert_eq!(opened(folder.file()), Ok(()));
    fs::write(folder.file(), b"no cache wrote this").unwrap();
    assert_eq!(opened(folder.file()), Err(Error::Corruption));
    assert_eq!(fs::read(folder.file()).unwrap(), b"no cache wrote this");
    fs::write(folder.file(), b"").unwrap();
    assert_eq!(opened(folder.file()), Ok(()));
    assert_eq!(fs::read_dir(folder.path()).unwrap().count(), 1);
}

#[test]
fn what_stands_at_the_path_is_left_as_it_is() {
    let folder = Folder::new("left");
    let at = |name: &str| folder.path().join(name);
    let opened = |path: &Path| Cache::open(path, &SETTINGS).map(drop);

    // a link that leads to no file, and one that leads to an empty one
    symlink(at("led-to"), at("link")).unwrap();
    assert_eq!(opened(&at("link")), Err(refused::no_access()));
    assert!(!at("led-to").exists());
    fs::write(at("led-to"), b"").unwrap();
    fs::set_permissions(at("led-to"), Permissions::from_mode(0o640)).unwrap();
    assert_eq!(opened(&at("link")), Ok(()));
    assert!(fs::symlink_metadata(at("link")).unwrap().is_symlink());
    let made = fs::metadata(at("led-to")).unwrap();
    assert!(made.len() > 0);
    assert_eq!(made.permissions().mode() & 0o777, 0o640);

    // a link by the name that a file has while it is made
    fs::write(at("other"), b"another's").unwrap();
    symlink(at("other"), at("new.dilluvas-new")).unwrap();
    assert_eq!(opened(&at("new")), Err(refused::no_access()));
    assert_eq!(fs::read(at("other")).unwrap(), b"another's");

    // a pipe, which isn't waited for, and no path
    let made = Command::new("mkfifo").arg(at("pipe")).status().unwrap();
    assert!(made.success());
    assert_eq!(opened(&at("pipe")), Err(Error::NoFile));
    assert_eq!(opened(Path::new("")), Err(refused::no_access()));
}
