//! The example, command by command, over one file.

#[path = "../examples/key_value.rs"]
#[allow(dead_code)] // its main
mod example;
mod folder;

use dilluvas::Db;
use folder::Folder;
use std::process::Command;

// What a command writes, or why it was refused.
fn answer_of(folder: &Folder, words: &[&str]) -> Result<String, String> {
    let file = folder.file();
    let mut all = vec![file.to_str().unwrap()];
    all.extend(words);
    let mut written = Vec::new();
    let ran = example::run(&all, &mut written);
    ran.map_err(|refused| example::told(&*refused))?;
    Ok(String::from_utf8(written).unwrap())
}

#[test]
fn keys_are_kept_over_runs() {
    let folder = Folder::new("key-value");
    let answer = |words: &[&str]| answer_of(&folder, words);
    let no_key = Err("there is no such key".to_string());
    assert_eq!(answer(&["list"]), Ok(String::new()));
    assert_eq!(answer(&["get", "a"]), no_key);
    for key in 0..100 {
        let key = key.to_string();
        assert_eq!(answer(&["set", &key, "old"]), Ok(String::new()));
    }
    assert_eq!(answer(&["set", "7", "new"]), Ok(String::new()));
    assert_eq!(answer(&["get", "7"]), Ok("new\n".to_string()));
    assert_eq!(answer(&["rename", "7", "seven"]), Ok(String::new()));
    assert_eq!(answer(&["rename", "7", "seven"]), no_key);
    for key in 9..100 {
        assert_eq!(answer(&["del", &key.to_string()]), Ok(String::new()));
    }
    assert_eq!(answer(&["del", "9"]), no_key);
    let list = answer(&["list"]).unwrap();
    let mut left: Vec<String> = (0..9).map(|key| format!("{key} old")).collect();
    left[7] = "8 old".into();
    left[8] = "seven new".into();
    assert_eq!(list.lines().collect::<Vec<_>>(), left);
    assert_eq!(answer(&["rename", "seven", "seven"]), Ok(String::new()));
    assert_eq!(answer(&["get", "seven"]), Ok("new\n".to_string()));
}

#[test]
fn what_is_refused_is_told() {
    let folder = Folder::new("key-value-refused");
    let told = |words: &[&str]| answer_of(&folder, words).unwrap_err();
    assert!(told(&["put", "a", "b"]).starts_with("FILE set"));
    assert!(!folder.file().exists());
    let db = Db::open(folder.file()).unwrap();
    assert!(told(&["list"]).starts_with("Held: "));
    drop(db);
    assert_eq!(told(&["get", "a"]), "there is no such key");
}

// It stands beside the folder of this program where all examples were built.
#[test]
fn the_program_runs() {
    let program = std::env::current_exe().unwrap();
    let program = program
        .ancestors()
        .nth(2)
        .unwrap()
        .join("examples/key_value");
    if !program.exists() {
        return;
    }
    let folder = Folder::new("key-value-program");
    let run = |words: &[&str]| {
        let mut command = Command::new(&program);
        command.arg(folder.file()).args(words).output().unwrap()
    };
    assert!(run(&["set", "key", "value"]).status.success());
    assert_eq!(run(&["get", "key"]).stdout, b"value\n");
    let refused = run(&["get", "other"]);
    assert_eq!(refused.status.code(), Some(1));
    assert_eq!(refused.stderr, b"there is no such key\n");
}
