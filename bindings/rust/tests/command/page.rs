//! The page of the command, whose examples are run.

use crate::folder::Folder;
use std::path::Path;
use std::process::Command;
use std::{env, fs};

// The commands of a page, each with what it writes.
fn examples_of(page: &str) -> Vec<(String, String)> {
    let mut examples: Vec<(String, String)> = Vec::new();
    let mut is_example = false;
    for line in page.lines() {
        if line.starts_with("```") {
            is_example = !is_example && line == "```console";
        } else if !is_example {
        } else if let Some(command) = line.strip_prefix("$ ") {
            examples.push((command.to_owned(), String::new()));
        } else if let Some((_, output)) = examples.last_mut() {
            *output += line;
            *output += "\n";
        }
    }
    examples
}

#[test]
fn the_examples_of_the_pages_are_what_is_answered() {
    for (name, least) in [("COMMAND.md", 20), ("BACKUP.md", 10), ("SPACE.md", 3)] {
        let path = Path::new(env!("CARGO_MANIFEST_DIR")).join("../../docs");
        let Ok(page) = fs::read_to_string(path.join(name)) else {
            return println!("{name} isn't there: the crate is that of a release");
        };
        let examples = examples_of(&page);
        assert!(examples.len() >= least, "{name}");
        run_all(&examples);
    }
}

// Runs commands one behind another, in a folder of their own.
fn run_all(examples: &[(String, String)]) {
    let folder = Folder::new("command-page");
    let program = Path::new(env!("CARGO_BIN_EXE_dilluvas"));
    let paths = format!(
        "{}:{}",
        program.parent().unwrap().display(),
        env::var("PATH").unwrap()
    );
    for (command, output) in examples {
        let script = format!("{{ {command}\n}} 2>&1");
        let mut shell = Command::new("sh");
        shell
            .args(["-c", &script])
            .current_dir(folder.path())
            .env("PATH", &paths);
        let said = shell.output().unwrap();
        let said = String::from_utf8(said.stdout).unwrap();
        assert_eq!(&said, output, "{command}");
    }
}
