//! Prints chart texts made from a seed, or writes them to a folder, one file a case.
//!
//!     cases SEED COUNT            every text on standard output, after a line with its number, name and length
//!     cases SEED COUNT FOLDER     FOLDER/0000-name.txt and so on

use baseline::cases::text_case;
use std::io::{self, Write};
use std::path::Path;
use std::process::ExitCode;

fn main() -> ExitCode {
    let words: Vec<String> = std::env::args().skip(1).collect();
    let numbers: Vec<u64> = words.iter().take(2).filter_map(|word| word.parse().ok()).collect();
    let (&[seed, count], 2..=3) = (&numbers[..], words.len()) else {
        eprintln!("usage: cases SEED COUNT [FOLDER]");
        return ExitCode::from(2);
    };
    let written = match words.get(2) {
        Some(folder) => to_folder(seed, count, Path::new(folder)),
        None => to_output(seed, count),
    };
    match written {
        Ok(()) => ExitCode::SUCCESS,
        Err(error) => {
            eprintln!("cases: {error}");
            ExitCode::FAILURE
        }
    }
}

fn to_folder(seed: u64, count: u64, folder: &Path) -> io::Result<()> {
    std::fs::create_dir_all(folder)?;
    for number in 0..count {
        let case = text_case(seed, number);
        std::fs::write(folder.join(format!("{number:04}-{}.txt", case.name)), case.text)?;
    }
    Ok(())
}

fn to_output(seed: u64, count: u64) -> io::Result<()> {
    let mut out = io::stdout().lock();
    for number in 0..count {
        let case = text_case(seed, number);
        writeln!(out, "# {number:04} {} {}", case.name, case.text.len())?;
        out.write_all(&case.text)?;
    }
    Ok(())
}
