//! The run of notes and their counts, and its comparison.

use crate::chance::Chance;
use crate::compare::{Case, Tally, BYTE_PATTERN, PATTERN, SPARE};
use crate::files::{noted_file, random_file};
use compiled::calls::{self, MISFIT, NOTES_WORDS, NOTE_BYTES, NOTE_WORDS};
use compiled::words::hex_of_bytes;
use reference::file::NEWEST;
use reference::{load, note, notes};

/// How the notes came out.
#[derive(Default)]
pub struct Notes {
    pub asked: u64,
    /// By their lengths, from 1.
    found: [u64; NOTE_BYTES],
    missing: u64,
    of_refused_files: u64,
    misfits: u64,
    /// The most that a file had.
    most: usize,
}

impl Notes {
    pub fn counts(&self) -> String {
        let Notes { found, missing, of_refused_files, misfits, most, .. } = self;
        let (all, least) = (found.iter().sum::<u64>(), found.iter().min().unwrap_or(&0));
        format!("notes found {all} (of each length at least {least}) missing {missing} of refused files {of_refused_files} misfits {misfits} most in a file {most}")
    }

    fn count(&mut self, file: &[u8], length: usize, fits: bool) {
        self.asked += 1;
        if !fits {
            self.misfits += 1;
        } else if load(file, NEWEST).is_err() {
            self.of_refused_files += 1;
        } else if length == 0 {
            self.missing += 1;
        } else {
            self.found[length - 1] += 1;
        }
    }
}

/// What is asked of a file: a note's number, into so many bytes, with so many words for the answer.
struct Question {
    number: u32,
    room: usize,
    words: usize,
}

fn random_question(c: &mut Chance) -> Question {
    let number = match c.below(10) {
        0 => 0,
        1 => c.pick(&[255, 256, 257, 65_535, 65_536, 65_537, 0x8000_0001, u32::MAX]),
        _ => c.between(1, 8) as u32,
    };
    let room = match c.below(4) {
        0 => NOTE_BYTES + c.below(4 * NOTE_BYTES),
        1 => c.below(2 * NOTE_BYTES),
        _ => NOTE_BYTES,
    };
    let words = if c.one_in(10) { c.below(NOTE_WORDS + SPARE) } else { NOTE_WORDS };
    Question { number, room, words }
}

/// Compares the result, the lent memory and what lies behind it.
fn compare(tally: &mut Tally, case: Case, file: &[u8], question: &Question) {
    let Question { number, room, words } = *question;
    let wanted = &file[note(file, number as usize)];
    let fits = room >= NOTE_BYTES && words >= NOTE_WORDS;
    let result_wanted = if fits { 0 } else { MISFIT };
    let mut buffer = vec![BYTE_PATTERN; room + SPARE];
    let mut buffer_wanted = buffer.clone();
    let mut answer = [PATTERN; NOTE_WORDS + 2 * SPARE];
    let mut answer_wanted = answer;
    if fits {
        buffer_wanted[..wanted.len()].copy_from_slice(wanted);
        answer_wanted[0] = wanted.len() as u32;
    }
    let result = calls::note(file, number, &mut buffer[..room], &mut answer[..words]);
    tally.notes.count(file, wanted.len(), fits);
    if (result, answer) != (result_wanted, answer_wanted) || buffer != buffer_wanted {
        let (file, wanted, got) = (hex_of_bytes(file), hex_of_bytes(wanted), hex_of_bytes(&buffer));
        tally.disagree(
            case,
            format!("note {number} room {room} words {words} reference {wanted} compiled {result} {answer:?} {got} file {file}"),
        );
    }
}

/// How many notes there are, with as much lent as for the note.
fn compare_count(tally: &mut Tally, case: Case, file: &[u8], words: usize) {
    let count = notes(file);
    let mut answer = [PATTERN; NOTES_WORDS + 2 * SPARE];
    let mut answer_wanted = answer;
    let mut result_wanted = MISFIT;
    if words >= NOTES_WORDS {
        (result_wanted, answer_wanted[0]) = (0, count as u32);
    }
    let result = calls::notes(file, &mut answer[..words]);
    tally.notes.most = tally.notes.most.max(count);
    if (result, answer) != (result_wanted, answer_wanted) {
        let file = hex_of_bytes(file);
        tally.disagree(case, format!("notes {count} words {words} compiled {result} {answer:?} file {file}"));
    }
}

pub fn run(tally: &mut Tally, n: u64, seed: u64) {
    for number in 0..n {
        let case = Case { part: "note", seed, number };
        let c = &mut Chance::new(seed, number);
        let file = if c.one_in(4) { random_file(c) } else { noted_file(c) };
        let question = random_question(c);
        compare(tally, case, &file, &question);
        compare_count(tally, case, &file, question.words);
    }
}
