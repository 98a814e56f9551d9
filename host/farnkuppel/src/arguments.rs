//! The words behind a command's name.

use crate::names;
use crate::stop::{trouble, Answered, Stop};
use archive::number::NEWEST;
use std::ffi::{OsStr, OsString};
use std::fmt::Display;
use std::io::Write;
use std::str::FromStr;

/// A command: its name, the names of its files, its options as the usage line has them, what it does in a few words, its help, and the function
/// that does it.
pub struct Command {
    pub name: &'static str,
    pub files: &'static [&'static str],
    pub options: &'static [&'static str],
    pub does: &'static str,
    pub help: &'static str,
    pub run: fn(&Call, &mut dyn Write) -> Answered,
}

/// What a command is called with.
#[derive(Debug, PartialEq)]
pub struct Call {
    pub files: Vec<OsString>,
    pub reader: u32,
    pub bits: bool,
    pub refused: bool,
}

/// A call, or a question for help.
#[derive(Debug, PartialEq)]
pub enum Asked {
    Call(Call),
    Help,
}

impl Command {
    /// The line that says how the command is called.
    pub fn usage(&self) -> String {
        let options = self.options.iter().map(|option| format!(" [{option}]"));
        let files = self.files.iter().map(|file| format!(" {file}"));
        format!("farnkuppel {}{}", self.name, files.chain(options).collect::<String>())
    }

    fn wrong(&self, what: &str) -> Stop {
        trouble(&format!("{}: {what}; usage: {}", self.name, self.usage()))
    }

    /// Whether an option of the command begins with this word.
    fn takes(&self, word: &str) -> bool {
        self.options.iter().any(|option| option.split(' ').next() == Some(word))
    }

    /// One option, with the words behind it.
    fn option<'a>(
        &self,
        word: &OsStr,
        rest: &mut impl Iterator<Item = &'a OsString>,
        call: &mut Call,
    ) -> Result<(), Stop> {
        let known = word.to_str().filter(|word| self.takes(word));
        match known {
            Some("--reader") => {
                let value = rest.next().ok_or_else(|| self.wrong("--reader is followed by a version"))?;
                let reader = value.to_str().and_then(whole);
                call.reader = reader.ok_or_else(|| {
                    self.wrong(&format!("{} is no version of a reader, 0 to {}", names::word(value), u32::MAX))
                })?;
            }
            Some("--bits") => call.bits = true,
            Some("--refused") => call.refused = true,
            _ => return Err(self.wrong(&format!("no option {}", names::word(word)))),
        }
        Ok(())
    }

    /// What the words ask for. Options stand anywhere before `--`; a single `-` is a file's name like any other.
    pub fn asked(&self, words: &[OsString]) -> Result<Asked, Stop> {
        let mut call = Call { files: Vec::new(), reader: NEWEST, bits: false, refused: false };
        let mut rest = words.iter();
        let mut options_end = false;
        while let Some(word) = rest.next() {
            let dashed = word.as_encoded_bytes().starts_with(b"-") && word.len() > 1;
            match word.to_str() {
                _ if options_end || !dashed => call.files.push(word.clone()),
                Some("--") => options_end = true,
                Some("--help" | "-h") => return Ok(Asked::Help),
                _ => self.option(word, &mut rest, &mut call)?,
            }
        }
        if let Some(missing) = self.files.get(call.files.len()) {
            return Err(self.wrong(&format!("{missing} is missing")));
        }
        match call.files.get(self.files.len()) {
            Some(spare) => Err(self.wrong(&format!("{} is one too many", names::word(spare)))),
            None => Ok(Asked::Call(call)),
        }
    }
}

/// The whole number that a word is, in decimal digits behind at most a minus.
pub fn whole<T: FromStr>(word: &str) -> Option<T> {
    Some(word).filter(|word| !word.starts_with('+'))?.parse().ok()
}

/// The number that a word is, or what is wrong with it, by its name.
pub fn number_of<T: FromStr + Display>(name: &str, word: &str, least: T, most: T) -> Result<T, String> {
    whole(word)
        .ok_or_else(|| format!("{name} {} is no whole number from {least} to {most}", names::word(word.as_ref())))
}

#[cfg(test)]
mod tests {
    use super::*;
    use crate::stop::Status;

    const FLY: Command = Command {
        name: "fly",
        files: &["PLAN", "FIXES"],
        options: &["--reader V", "--bits"],
        does: "",
        help: "",
        run: |_, _| Ok(Status::Done),
    };

    fn asked(words: &[&str]) -> Result<Asked, String> {
        let words: Vec<OsString> = words.iter().map(OsString::from).collect();
        FLY.asked(&words).map_err(|stop| format!("{stop:?}"))
    }

    #[test]
    fn options_stand_anywhere() {
        let call = Call { files: vec!["a".into(), "-b".into()], reader: 1, bits: true, refused: false };
        assert_eq!(asked(&["--bits", "a", "--reader", "1", "--", "-b"]), Ok(Asked::Call(call)));
        assert_eq!(asked(&["a", "--help"]), Ok(Asked::Help));
    }

    #[test]
    fn words_that_are_not_taken() {
        for words in [
            &["a"][..],
            &["a", "b", "c"],
            &["a", "b", "--refused"],
            &["a", "b", "--reader"],
            &["a", "b", "--reader", "+1"],
            &["a", "b", "--reader", "4294967296"],
        ] {
            assert!(asked(words).is_err(), "{words:?}");
        }
    }
}
