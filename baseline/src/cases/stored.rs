//! Stored cases: what a test program reads, and what it must print. A number is eight bytes, high first; a part is a number, its length, and
//! so many bytes. First comes the number of cases.

use crate::refusal::Reply;
use std::path::Path;
use std::process::ExitCode;
use std::{env, fs, io};

#[derive(Clone, Debug, Default, PartialEq, Eq)]
pub struct Stored {
    pub input: Vec<u8>,
    pub output: Vec<u8>,
}

impl Stored {
    /// The cases below `count`, each added by a call with its number.
    pub fn of(count: u64, add: impl Fn(&mut Stored, u64)) -> Self {
        let mut stored = Stored::default();
        stored.number(count as usize);
        (0..count).for_each(|case| add(&mut stored, case));
        stored
    }

    pub fn number(&mut self, number: usize) {
        self.input.extend((number as u64).to_be_bytes());
    }

    pub fn part(&mut self, bytes: &[u8]) {
        self.number(bytes.len());
        self.input.extend_from_slice(bytes);
    }

    /// One line: the number, then the values.
    pub fn reply(&mut self, reply: &Reply) {
        let words = std::iter::once(usize::from(reply.number)).chain(reply.values.iter().copied());
        let words: Vec<String> = words.map(|word| word.to_string()).collect();
        self.text(format!("{}\n", words.join(" ")).as_bytes());
    }

    pub fn text(&mut self, text: &[u8]) {
        self.output.extend_from_slice(text);
    }

    fn write(&self, folder: &Path) -> io::Result<()> {
        fs::write(folder.join("stdin"), &self.input)?;
        fs::write(folder.join("stdout"), &self.output)
    }
}

/// The program NAME SEED COUNT FOLDER, which writes FOLDER/stdin and FOLDER/stdout. `add` takes the seed and a case's number.
pub fn run(name: &str, add: impl Fn(&mut Stored, u64, u64)) -> ExitCode {
    let words: Vec<String> = env::args().skip(1).collect();
    let numbers: Vec<u64> = words.iter().take(2).filter_map(|word| word.parse().ok()).collect();
    let (&[seed, count], Some(folder)) = (&numbers[..], words.get(2)) else {
        eprintln!("usage: {name} SEED COUNT FOLDER");
        return ExitCode::from(2);
    };
    match Stored::of(count, |stored, case| add(stored, seed, case)).write(Path::new(folder)) {
        Ok(()) => ExitCode::SUCCESS,
        Err(error) => {
            eprintln!("{name}: {error}");
            ExitCode::FAILURE
        }
    }
}
