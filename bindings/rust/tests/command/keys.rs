//! Keys and values by the command.

use crate::run::{Said, Store};
use dilluvas::Db;

#[test]
fn keys_are_set_read_and_taken_out() {
    let store = Store::new("keys");
    store.run(&["set", "fruit", "lime", "green"]).done();
    store.run(&["set", "fruit", "apple", "red"]).done();
    assert_eq!(store.run(&["get", "fruit", "lime"]).done(), "green");
    store.run(&["set", "fruit", "lime", "yellow"]).done();
    assert_eq!(store.run(&["get", "fruit", "lime"]).done(), "yellow");
    store.run(&["get", "fruit", "plum"]).absent();
    store.run(&["get", "nuts", "lime"]).absent();
    store.run(&["del", "fruit", "plum"]).absent();
    store.run(&["del", "fruit", "lime"]).done();
    store.run(&["get", "fruit", "lime"]).absent();
    store.run(&["del", "fruit", "lime"]).absent();
    assert_eq!(store.run(&["scan", "fruit"]).done(), "apple\tred\n");
}

#[test]
fn a_value_is_any_bytes() {
    let store = Store::new("values");
    let bytes: Vec<u8> = (0..=255).cycle().take(100_000).collect();
    for value in [&b""[..], b"-", b"\\41\n", &bytes] {
        store.with_input(&["set", "m", "k", "-"], value).done();
        let said = store.run(&["get", "m", "k"]);
        assert_eq!(
            said,
            Said {
                code: 0,
                out: value.to_vec(),
                err: String::new()
            }
        );
    }
    store.run(&["set", "m", "k", "a\\41\\\\\\00\\fF"]).done();
    assert_eq!(store.run(&["get", "m", "k"]).out, b"aA\\\0\xff");
    store.run(&["set", "m", "k", "\\2d"]).done();
    assert_eq!(store.run(&["get", "m", "k"]).out, b"-");
    store.run(&["set", "", "", ""]).done();
    assert_eq!(store.run(&["get", "", ""]).done(), "");
    assert_eq!(store.run(&["maps"]).done(), "\nm\n");
}

#[test]
fn pairs_are_listed_between_bounds() {
    let store = Store::new("scan");
    let db = Db::open(store.folder.file()).unwrap();
    let map = db.map("m");
    for key in [&b"a"[..], b"b", b"c", b"d", b"\t", b"\xff", b"a b\\"] {
        map.set(key, [key, b"="].concat()).unwrap();
    }
    db.map("empty").set("k", "v").unwrap();
    db.map("empty").delete("k").unwrap();
    db.flush().unwrap();
    drop((map, db));
    let rows: [(&[&str], &str); 7] = [
        (
            &["scan", "m"],
            "\\09\t\\09=\na\ta=\na b\\5c\ta b\\5c=\nb\tb=\nc\tc=\nd\td=\n\\ff\t\\ff=\n",
        ),
        (&["scan", "m", "b"], "b\tb=\nc\tc=\nd\td=\n\\ff\t\\ff=\n"),
        (&["scan", "m", "b", "d"], "b\tb=\nc\tc=\n"),
        (&["scan", "m", "", "a"], "\\09\t\\09=\n"),
        (&["scan", "m", "d", "b"], ""),
        (&["scan", "m", "\\ff"], "\\ff\t\\ff=\n"),
        (&["scan", "empty"], ""),
    ];
    for (words, out) in rows {
        assert_eq!(store.run(words).done(), out, "{words:?}");
    }
    let line = store.run(&["scan", "n\n"]).refused(1);
    assert!(line.ends_with(": there is no map n\\0a"), "{line}");
    assert_eq!(store.run(&["maps"]).done(), "empty\nm\n");
}

#[test]
fn a_file_that_is_held_is_left_alone() {
    let store = Store::new("held");
    let db = Db::open(store.folder.file()).unwrap();
    db.map("m").set("k", "v").unwrap();
    db.flush().unwrap();
    let rows: [&[&str]; 9] = [
        &["get", "m", "k"],
        &["set", "m", "k", "w"],
        &["del", "m", "k"],
        &["scan", "m"],
        &["maps"],
        &["stat"],
        &["verify"],
        &["compact"],
        &["dump"],
    ];
    for words in rows {
        let line = store.run(words).refused(3);
        assert!(
            line.ends_with("the file is open in another process, or already open in this one"),
            "{line}"
        );
    }
    store.with_input(&["load"], b"").refused(3);
    assert_eq!(db.map("m").get("k").unwrap().unwrap(), b"v");
    drop(db);
    assert_eq!(store.run(&["get", "m", "k"]).done(), "v");
}

#[test]
fn an_output_that_is_closed_ends_the_command() {
    let store = Store::new("closed");
    let db = Db::open(store.folder.file()).unwrap();
    for key in 0..20_000u32 {
        db.map("m").set(key.to_be_bytes(), [7; 20]).unwrap();
    }
    db.flush().unwrap();
    drop(db);
    for command in [&["scan", "m"][..], &["dump"]] {
        let path = store.path();
        let words = [&[path.as_str()], command].concat();
        let mut child = crate::run::program(&words).spawn().unwrap();
        drop(child.stdout.take());
        let output = child.wait_with_output().unwrap();
        assert_eq!((output.status.code(), output.stderr.len()), (Some(0), 0));
    }
}
