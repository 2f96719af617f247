//! Words that ask for nothing that is there.

use crate::run::{Store, run, with_input};
use std::ffi::OsStr;
use std::fs;
use std::os::unix::ffi::OsStrExt;

#[test]
fn help_and_version_are_told() {
    for word in ["--help", "-h"] {
        let help = run(&[word]).done();
        assert!(help.starts_with("usage: dilluvas FILE COMMAND\n"));
        for command in [
            "get", "set", "del", "scan", "maps", "stat", "verify", "compact", "copy", "dump",
            "load",
        ] {
            let line = format!("\n  {command} ");
            assert!(help.contains(&line), "{command}");
        }
    }
    for word in ["--version", "-V"] {
        let version = format!("dilluvas {}\n", env!("CARGO_PKG_VERSION"));
        assert_eq!(run(&[word]).done(), version);
    }
}

#[test]
fn bad_words_are_refused() {
    let store = Store::new("words");
    let file = store.path();
    let rows: [(&[&str], &str); 22] = [
        (&[], "a FILE and a COMMAND"),
        (&[""], "the name of FILE is empty"),
        (
            &["--halp"],
            "--halp is not an option; for a file of that name write ./--halp",
        ),
        (&["--help", "get"], "this option takes no arguments"),
        (&["--version", "get"], "this option takes no arguments"),
        (&[":memory:", "maps"], "maps in memory end with the command"),
        (&[&file], "a COMMAND is required after FILE"),
        (&[&file, "got"], "got is not a command"),
        (&[&file, "a\nb"], "a\\0ab is not a command"),
        (&[&file, "get", "m"], "get takes MAP KEY"),
        (&[&file, "get", "m", "k", "v"], "get takes MAP KEY"),
        (&[&file, "set", "m", "k"], "set takes MAP KEY VALUE"),
        (&[&file, "del"], "del takes MAP KEY"),
        (&[&file, "scan"], "scan takes MAP [FROM [TO]]"),
        (
            &[&file, "scan", "m", "a", "b", "c"],
            "scan takes MAP [FROM [TO]]",
        ),
        (&[&file, "maps", "m"], "maps takes no arguments"),
        (&[&file, "stat", "m"], "stat takes no arguments"),
        (&[&file, "copy"], "copy takes TO"),
        (&[&file, "copy", ""], "copy takes TO"),
        (&[&file, "dump", "m", "n"], "dump takes [MAP]"),
        (
            &[&file, "get", "m", "a\\"],
            "in a\\ a backslash is not followed by two",
        ),
        (
            &[&file, "set", "m", "k", "\\0g"],
            "in \\0g a backslash is not followed by two",
        ),
    ];
    for (words, why) in rows {
        let line = run(words).refused(2);
        assert!(
            line.starts_with(&format!("dilluvas: {why}")),
            "{words:?}: {line}"
        );
        assert!(!store.folder.file().exists());
    }
}

#[test]
fn a_word_may_be_any_bytes() {
    let store = Store::new("bytes");
    let path = store.path();
    let odd = [path.as_bytes(), b"\xff\n"].concat();
    let words = |rest: &[&'static str]| -> Vec<Vec<u8>> {
        [
            vec![odd.clone()],
            rest.iter().map(|word| word.as_bytes().to_vec()).collect(),
        ]
        .concat()
    };
    let run = |words: Vec<Vec<u8>>| {
        let words: Vec<&OsStr> = words.iter().map(|word| OsStr::from_bytes(word)).collect();
        with_input(&words, b"")
    };
    let absent = run(words(&["maps"])).refused(3);
    assert!(absent.contains("\\ff\\0a: "), "{absent}");
    run(words(&["set", "é", "k", "v"])).done();
    // the one letter is two bytes of UTF-8
    assert_eq!(run(words(&["maps"])).done(), "\\c3\\a9\n");
    let mut key = words(&["set", "é"]);
    key.extend([b"\xfe".to_vec(), b"\\fd".to_vec()]);
    run(key).done();
    assert_eq!(
        run(words(&["scan", "\\c3\\a9"])).done(),
        "k\tv\n\\fe\t\\fd\n"
    );
}

#[test]
fn a_file_that_is_absent_is_made_by_a_change_alone() {
    let store = Store::new("absent");
    let rows: [&[&str]; 9] = [
        &["get", "m", "k"],
        &["del", "m", "k"],
        &["scan", "m"],
        &["maps"],
        &["stat"],
        &["verify"],
        &["compact"],
        &["dump"],
        &["copy", "nowhere"],
    ];
    for words in rows {
        let line = store.run(words).refused(3);
        assert!(line.contains(&store.path()), "{words:?}: {line}");
        assert_eq!(
            fs::read_dir(store.folder.path()).unwrap().count(),
            0,
            "{words:?}"
        );
    }
    store.with_input(&["load"], b"garbage\n").refused(3);
    assert_eq!(fs::read_dir(store.folder.path()).unwrap().count(), 0);
    store.run(&["set", "m", "k", "v"]).done();
    assert!(store.folder.file().exists());
}

#[test]
fn what_is_no_store_stays_as_it_is() {
    let store = Store::new("other");
    let all: [&[&str]; 10] = [
        &["get", "m", "k"],
        &["set", "m", "k", "v"],
        &["del", "m", "k"],
        &["scan", "m"],
        &["maps"],
        &["stat"],
        &["verify"],
        &["compact"],
        &["copy", "/nowhere/at/all"],
        &["dump"],
    ];
    for bytes in [&b"a text of somebody else\n"[..], b"SLPCLOG", b"\0"] {
        fs::write(store.folder.file(), bytes).unwrap();
        for words in all {
            store.run(words).refused(3);
            assert_eq!(fs::read(store.folder.file()).unwrap(), bytes, "{words:?}");
        }
        store.with_input(&["load"], b"").refused(3);
        assert_eq!(fs::read(store.folder.file()).unwrap(), bytes);
    }
    fs::remove_file(store.folder.file()).unwrap();
    fs::create_dir(store.folder.file()).unwrap();
    for words in all {
        store.run(words).refused(3);
    }
}

#[test]
fn an_empty_file_is_filled_by_a_change_alone() {
    let store = Store::new("empty");
    fs::write(store.folder.file(), b"").unwrap();
    for words in [
        &["maps"][..],
        &["get", "m", "k"],
        &["dump"],
        &["verify"],
        &["compact"],
    ] {
        store.run(words).refused(3);
        assert_eq!(fs::read(store.folder.file()).unwrap(), b"", "{words:?}");
    }
    store.run(&["set", "m", "k", "v"]).done();
    assert_eq!(store.run(&["get", "m", "k"]).done(), "v");
}
