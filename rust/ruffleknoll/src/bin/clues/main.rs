//! `clues DIRECTORY`: each grid entry of a puzzle with its clue, then the entries without a clue and the clues without
//! an entry. The directory has `entries.txt` and `clues.txt`.

mod files;
mod report;

use std::io::Write;
use std::path::Path;
use std::process::ExitCode;

fn main() -> ExitCode {
    let words: Vec<_> = std::env::args_os().skip(1).collect();
    let [directory] = &words[..] else {
        eprintln!("usage: clues DIRECTORY, with entries.txt and clues.txt in it");
        return ExitCode::from(2);
    };
    // All is known before anything is printed.
    match report(Path::new(directory)).and_then(|report| print(&report)) {
        Ok(()) => ExitCode::SUCCESS,
        Err(message) => {
            eprintln!("{message}");
            ExitCode::FAILURE
        }
    }
}

fn report(directory: &Path) -> Result<String, String> {
    let entries = files::entries(&directory.join("entries.txt"))?;
    let clues = files::clues(&directory.join("clues.txt"))?;
    report::report(&entries, &clues)
        .map_err(|refusal| format!("{}: {refusal}", directory.display()))
}

fn print(report: &str) -> Result<(), String> {
    std::io::stdout().write_all(report.as_bytes()).map_err(|error| error.to_string())
}
