//! Bytes as text that keeps to one line: notes, and the names of files.

use std::ffi::OsStr;

/// A byte as \xNN.
fn escaped(byte: u8) -> String {
    format!("\\x{byte:02X}")
}

/// The bytes of a note: printable ASCII as it is, all else and the backslash as \xNN, so that the bytes can be read back.
pub fn note(bytes: &[u8]) -> String {
    let shown = |byte: &u8| match byte {
        b'\\' => escaped(*byte),
        b' '..=b'~' => char::from(*byte).to_string(),
        _ => escaped(*byte),
    };
    bytes.iter().map(shown).collect()
}

/// A letter as it is, a control character by its bytes.
fn letter(of: char) -> String {
    match of.is_control() {
        true => of.to_string().bytes().map(escaped).collect(),
        false => of.to_string(),
    }
}

/// Any bytes as they are, but for control characters and bytes that are no UTF-8.
fn line(bytes: &OsStr) -> String {
    let mut shown = String::new();
    for part in bytes.as_encoded_bytes().utf8_chunks() {
        shown.extend(part.valid().chars().map(letter));
        shown.extend(part.invalid().iter().map(|byte| escaped(*byte)));
    }
    shown
}

/// A word of the command line, in quotes.
pub fn word(word: &OsStr) -> String {
    format!("'{}'", line(word))
}

/// The name of a file, in quotes where it is empty.
pub fn file(name: &OsStr) -> String {
    match name.is_empty() {
        true => word(name),
        false => line(name),
    }
}

#[cfg(test)]
mod tests {
    use super::*;
    use std::os::unix::ffi::OsStrExt;

    #[test]
    fn a_note_keeps_printable_ascii_alone() {
        assert_eq!(note(b"a ~"), "a ~");
        assert_eq!(note(b"\\n\x1f\x7f\xC3\n"), "\\x5Cn\\x1F\\x7F\\xC3\\x0A");
    }

    #[test]
    fn a_name_is_one_line_of_utf8() {
        assert_eq!(file(OsStr::from_bytes(b"a\nb\xFF")), "a\\x0Ab\\xFF");
        assert_eq!(file(OsStr::new("hügel.wpl")), "hügel.wpl");
        assert_eq!(file(OsStr::new("")), "''");
        assert_eq!(word(OsStr::new("")), "''");
    }
}
