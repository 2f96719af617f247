//! Bytes as text: each printable ASCII byte except the backslash as it is, and any other byte as a backslash and two hexadecimal digits. Two
//! backslashes are read as one.

use std::io::{self, Write};
use std::os::unix::ffi::OsStrExt;
use std::path::Path;

/// Writes the text of bytes.
pub fn write_text(out: &mut impl Write, bytes: &[u8]) -> io::Result<()> {
    let mut rest = bytes;
    while !rest.is_empty() {
        let plain = rest.iter().take_while(|byte| is_plain(**byte)).count();
        let (as_it_is, behind) = rest.split_at(plain);
        out.write_all(as_it_is)?;
        rest = behind;
        if let Some((byte, behind)) = rest.split_first() {
            write!(out, "\\{byte:02x}")?;
            rest = behind;
        }
    }
    Ok(())
}

/// The text of bytes.
pub fn text_of(bytes: &[u8]) -> String {
    let mut text = Vec::new();
    // nothing fails in memory
    let _ = write_text(&mut text, bytes);
    String::from_utf8_lossy(&text).into_owned()
}

/// A path in one line: most paths are unchanged.
pub fn text_of_path(path: &Path) -> String {
    match path.to_str() {
        Some(text) if !text.contains(char::is_control) => text.to_owned(),
        _ => text_of(path.as_os_str().as_bytes()),
    }
}

/// The bytes of a text, or `None` if a backslash is followed by neither two hexadecimal digits nor another backslash. Any other byte is itself.
pub fn bytes_of(text: &[u8]) -> Option<Vec<u8>> {
    let mut bytes = Vec::with_capacity(text.len());
    let mut rest = text;
    while let Some((byte, behind)) = rest.split_first() {
        rest = behind;
        match (byte, behind) {
            (b'\\', [b'\\', behind @ ..]) => {
                bytes.push(b'\\');
                rest = behind;
            }
            (b'\\', [high, low, behind @ ..]) => {
                bytes.push(byte_of(*high, *low)?);
                rest = behind;
            }
            (b'\\', _) => return None,
            _ => bytes.push(*byte),
        }
    }
    Some(bytes)
}

/// The bytes of pairs of hexadecimal digits, or `None` if the text has anything else.
pub fn bytes_of_digits(text: &[u8]) -> Option<Vec<u8>> {
    let (pairs, []) = text.as_chunks::<2>() else {
        return None;
    };
    pairs
        .iter()
        .map(|[high, low]| byte_of(*high, *low))
        .collect()
}

fn is_plain(byte: u8) -> bool {
    matches!(byte, b' '..=b'~') && byte != b'\\'
}

fn byte_of(high: u8, low: u8) -> Option<u8> {
    let digit = |digit: u8| char::from(digit).to_digit(16);
    u8::try_from(digit(high)? * 16 + digit(low)?).ok()
}
