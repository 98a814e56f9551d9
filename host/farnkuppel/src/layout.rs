//! The layout of a plan file's bytes (docs/RULES.md has the whole format). Whether a file is right the library decides; what is read here is
//! what it has loaded.

const MARK: &[u8] = b"WPL";
const VERSION: usize = MARK.len();
const SERIAL: usize = VERSION + 2;
const AREA: usize = SERIAL + 4;
const RECORDS: usize = AREA + 2;

/// The kinds of records.
pub const POINT: u8 = 1;
pub const RADIUS: u8 = 2;
pub const COURSE: u8 = 3;
pub const NOTE: u8 = 128;
pub const SPEED: u8 = 129;

/// A record of a file.
#[derive(Debug, PartialEq)]
pub struct Record<'a> {
    pub kind: u8,
    pub body: &'a [u8],
}

/// The version of a file that loads.
pub fn version(file: &[u8]) -> u16 {
    u16::from_be_bytes([file[VERSION], file[VERSION + 1]])
}

/// The records of a file that loads, in their order.
pub fn records(file: &[u8]) -> Vec<Record<'_>> {
    let mut records = Vec::new();
    let mut rest = file.get(RECORDS..).unwrap_or(&[]);
    while let [kind, length, behind @ ..] = rest {
        let (body, next) = behind.split_at(usize::from(*length).min(behind.len()));
        records.push(Record { kind: *kind, body });
        rest = next;
    }
    records
}

/// A file that grows record by record.
pub struct Draft {
    bytes: Vec<u8>,
}

impl Draft {
    pub fn new(version: u16, serial: u32) -> Draft {
        let mut bytes = MARK.to_vec();
        bytes.extend(version.to_be_bytes());
        bytes.extend(serial.to_be_bytes());
        bytes.extend([0; RECORDS - AREA]);
        Draft { bytes }
    }

    /// Puts a record behind the others, and gives its offset.
    pub fn put(&mut self, kind: u8, body: &[u8]) -> usize {
        let offset = self.bytes.len();
        self.bytes.extend([kind, body.len() as u8]);
        self.bytes.extend(body);
        offset
    }

    /// The file. An area that its length has no room for is longer than any that loads, and is refused with the greatest length too.
    pub fn file(mut self) -> Vec<u8> {
        let area = u16::try_from(self.bytes.len() - RECORDS).unwrap_or(u16::MAX);
        self.bytes[AREA..RECORDS].copy_from_slice(&area.to_be_bytes());
        self.bytes
    }
}

#[cfg(test)]
mod tests {
    use super::*;

    #[test]
    fn a_file_has_its_records() {
        let mut draft = Draft::new(2, 0x01020304);
        assert_eq!(draft.put(RADIUS, &[0, 200]), 11);
        assert_eq!(draft.put(NOTE, b"hill"), 15);
        let file = draft.file();
        assert_eq!(file, *b"WPL\x00\x02\x01\x02\x03\x04\x00\x0A\x02\x02\x00\xC8\x80\x04hill");
        assert_eq!(version(&file), 2);
        let expected = [Record { kind: 2, body: &[0, 200] }, Record { kind: 128, body: b"hill" }];
        assert_eq!(records(&file), expected);
    }
}
