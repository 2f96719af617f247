//! The arguments of the command.

use crate::bytes;
use std::ffi::{OsStr, OsString};
use std::os::unix::ffi::OsStrExt;
use std::path::PathBuf;

/// What `--help` writes.
pub const HELP: &str = "\
usage: dilluvas FILE COMMAND

  get MAP KEY           write the value of a key, as it is
  set MAP KEY VALUE     set the value of a key; VALUE - is read from standard
                        input
  del MAP KEY           delete a key
  scan MAP [FROM [TO]]  list the pairs with keys from FROM to below TO, in key
                        order: one line each, with the key, a tab and the value
  maps                  list the names of the maps
  stat                  show what FILE holds, and how much space that takes
  verify                read every page and map, and report what is damaged
  compact               rewrite FILE without what later changes made obsolete
  copy TO               copy what is flushed to the new file TO, or to an older
                        copy; another process may have FILE open
  dump [MAP]            write one map, or all, as text
  load [MAP]            load what dump wrote into the maps: all or nothing

set and load create FILE if it is missing or empty; the others need one.
In MAP, KEY, VALUE, FROM and TO, and in listings, \\xx is the byte with these two
hexadecimal digits; in an argument \\\\ is one backslash.

exit status: 0 done; 1 absent, or for verify: damaged; 2 invalid arguments;
3 an error, reported in one line on standard error
";

/// What the arguments ask for.
pub enum Request {
    Help,
    Version,
    Run { file: PathBuf, command: Command },
}

/// What to do with a file.
pub enum Command {
    Get {
        map: Vec<u8>,
        key: Vec<u8>,
    },
    Set {
        map: Vec<u8>,
        key: Vec<u8>,
        value: Value,
    },
    Delete {
        map: Vec<u8>,
        key: Vec<u8>,
    },
    Scan {
        map: Vec<u8>,
        from: Option<Vec<u8>>,
        to: Option<Vec<u8>>,
    },
    Maps,
    Stat,
    Verify,
    Compact,
    Copy {
        to: PathBuf,
    },
    Dump {
        map: Option<Vec<u8>>,
    },
    Load {
        map: Option<Vec<u8>>,
    },
}

/// The value to set.
pub enum Value {
    Given(Vec<u8>),
    StandardInput,
}

/// Parses the arguments, or returns why they are invalid.
pub fn parse(words: impl Iterator<Item = OsString>) -> Result<Request, String> {
    let words: Vec<OsString> = words.collect();
    let Some((file, rest)) = words.split_first() else {
        return Err("a FILE and a COMMAND are required".to_owned());
    };
    match file.as_bytes() {
        b"--help" | b"-h" => return alone(rest, Request::Help),
        b"--version" | b"-V" => return alone(rest, Request::Version),
        b"" => return Err("the name of FILE is empty".to_owned()),
        b":memory:" => return Err("maps in memory end with the command".to_owned()),
        [b'-', ..] => {
            let name = bytes::text_of(file.as_bytes());
            return Err(format!(
                "{name} is not an option; for a file of that name write ./{name}"
            ));
        }
        _ => {}
    }
    let Some((command, rest)) = rest.split_first() else {
        return Err("a COMMAND is required after FILE".to_owned());
    };
    let file = PathBuf::from(file);
    let command = command_of(command, rest)?;
    Ok(Request::Run { file, command })
}

fn alone(rest: &[OsString], request: Request) -> Result<Request, String> {
    match rest {
        [] => Ok(request),
        _ => Err("this option takes no arguments".to_owned()),
    }
}

fn command_of(command: &OsStr, rest: &[OsString]) -> Result<Command, String> {
    Ok(match (command.as_bytes(), rest) {
        (b"get", [map, key]) => Command::Get {
            map: bytes_of(map)?,
            key: bytes_of(key)?,
        },
        (b"set", [map, key, value]) => Command::Set {
            map: bytes_of(map)?,
            key: bytes_of(key)?,
            value: value_of(value)?,
        },
        (b"del", [map, key]) => Command::Delete {
            map: bytes_of(map)?,
            key: bytes_of(key)?,
        },
        (b"scan", [map, bounds @ ..]) if bounds.len() <= 2 => {
            let bound = |at: usize| bounds.get(at).map(bytes_of).transpose();
            Command::Scan {
                map: bytes_of(map)?,
                from: bound(0)?,
                to: bound(1)?,
            }
        }
        (b"maps", []) => Command::Maps,
        (b"stat", []) => Command::Stat,
        (b"verify", []) => Command::Verify,
        (b"compact", []) => Command::Compact,
        (b"copy", [to]) if !to.is_empty() => Command::Copy {
            to: PathBuf::from(to),
        },
        (b"dump", []) => Command::Dump { map: None },
        (b"dump", [map]) => Command::Dump {
            map: Some(bytes_of(map)?),
        },
        (b"load", []) => Command::Load { map: None },
        (b"load", [map]) => Command::Load {
            map: Some(bytes_of(map)?),
        },
        (command, _) => return Err(refusal_of(command)),
    })
}

fn refusal_of(command: &[u8]) -> String {
    let wanted = match command {
        b"get" | b"del" => "MAP KEY",
        b"set" => "MAP KEY VALUE",
        b"scan" => "MAP [FROM [TO]]",
        b"maps" | b"stat" | b"verify" | b"compact" => "no arguments",
        b"copy" => "TO",
        b"dump" | b"load" => "[MAP]",
        _ => return format!("{} is not a command", bytes::text_of(command)),
    };
    format!("{} takes {wanted}", bytes::text_of(command))
}

fn bytes_of(word: &OsString) -> Result<Vec<u8>, String> {
    bytes::bytes_of(word.as_bytes()).ok_or_else(|| {
        let word = word.to_string_lossy();
        let word: String = word
            .chars()
            .map(|c| if c.is_control() { '?' } else { c })
            .collect();
        format!("in {word} a backslash is not followed by two hexadecimal digits")
    })
}

fn value_of(word: &OsString) -> Result<Value, String> {
    match word.as_bytes() {
        b"-" => Ok(Value::StandardInput),
        _ => bytes_of(word).map(Value::Given),
    }
}
