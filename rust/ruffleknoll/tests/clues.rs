//! The program `clues`: on the sample what it prints, on bad input one line that says where, and nothing printed.

use std::path::{Path, PathBuf};
use std::process::{Command, Output};
use std::{fs, str};

const ENTRIES: &str = "Number | Direction | Row | Column | Answer\n1 | across | 1 | 1 | KNOLL\n";
const CLUES: &str = "Number | Direction | Text\n1 | across | Small hill\n";

fn clues(words: &[&Path]) -> Output {
    Command::new(env!("CARGO_BIN_EXE_clues")).args(words).output().unwrap()
}

/// A directory that is gone at the end of its test.
struct Issue(PathBuf);

impl Issue {
    fn new(name: &str, entries: &[u8], clues: &[u8]) -> Issue {
        let own = format!("ruffleknoll-clues-{name}-{}", std::process::id());
        let directory = std::env::temp_dir().join(own);
        fs::create_dir(&directory).unwrap();
        fs::write(directory.join("entries.txt"), entries).unwrap();
        fs::write(directory.join("clues.txt"), clues).unwrap();
        Issue(directory)
    }
}

impl Drop for Issue {
    fn drop(&mut self) {
        let _ = fs::remove_dir_all(&self.0);
    }
}

/// What is printed for a good issue.
fn printed(name: &str, entries: &str, clues_text: &str) -> String {
    let issue = Issue::new(name, entries.as_bytes(), clues_text.as_bytes());
    let output = clues(&[&issue.0]);
    assert_eq!(str::from_utf8(&output.stderr), Ok(""));
    assert!(output.status.success());
    String::from_utf8(output.stdout).unwrap()
}

/// The one line for a bad issue, without the directory in front.
fn complaint(name: &str, entries: &[u8], clues_text: &[u8]) -> String {
    let issue = Issue::new(name, entries, clues_text);
    complained(&issue.0)
}

fn complained(directory: &Path) -> String {
    let output = clues(&[directory]);
    assert_eq!(output.status.code(), Some(1));
    assert_eq!(str::from_utf8(&output.stdout), Ok(""), "as if it had worked");
    let message = String::from_utf8(output.stderr).unwrap();
    let line = message.strip_suffix('\n').unwrap();
    assert!(!line.contains('\n'), "{line}");
    let start = format!("{}/", directory.display());
    line.strip_prefix(&start).unwrap_or(line).to_string()
}

fn entries_complaint(name: &str, row: &str) -> String {
    complaint(name, format!("{ENTRIES}{row}\n").as_bytes(), CLUES.as_bytes())
}

#[test]
fn the_sample_is_reported() {
    let directory = Path::new(env!("CARGO_MANIFEST_DIR")).join("../../examples/crossword");
    let output = clues(&[&directory]);
    assert!(output.status.success());
    let expected = fs::read_to_string(directory.join("expected.txt")).unwrap();
    assert_eq!(str::from_utf8(&output.stdout), Ok(expected.as_str()));
}

#[test]
fn nothing_lacking_is_said_so() {
    let expected = "\
Entries with their clues
  Number  Direction  Row  Column  Answer  Text
       1  across       1       1  KNOLL   Small hill

Entries without a clue: none

Clues without an entry: none

1 entry with a clue, 0 without; 0 clues without an entry
";
    assert_eq!(printed("whole", ENTRIES, CLUES), expected);
}

#[test]
fn the_direction_counts() {
    let report = printed("direction", ENTRIES, &CLUES.replace("across", "down"));
    assert!(report.ends_with("0 entries with a clue, 1 without; 1 clue without an entry\n"));
    assert!(report.starts_with("Entries with their clues: none\n\nEntries without a clue\n"));
}

#[test]
fn a_table_may_have_no_rows() {
    let report = printed("empty", "Number|Direction|Row|Column|Answer\n\n", CLUES);
    assert!(report.ends_with("0 entries with a clue, 0 without; 1 clue without an entry\n"));
}

#[test]
fn a_missing_file_is_named() {
    let issue = Issue::new("missing", ENTRIES.as_bytes(), b"");
    fs::remove_file(issue.0.join("clues.txt")).unwrap();
    assert_eq!(complained(&issue.0), "clues.txt: No such file or directory (os error 2)");
}

#[test]
fn a_missing_directory_is_named() {
    let line = complained(Path::new("/nowhere/at/all"));
    assert_eq!(line, "entries.txt: No such file or directory (os error 2)");
}

#[test]
fn a_wrong_column_count_is_placed() {
    let line = entries_complaint("few", "2 | down | 1");
    assert_eq!(line, "entries.txt, line 3, column Column: missing (3 columns of 5)");
    let line = entries_complaint("many", "\n2 | down | 1 | 3 | OMEGA | x");
    assert_eq!(line, "entries.txt, line 4, column 6: too many (6 columns, not 5)");
    let line = complaint("none", b"", CLUES.as_bytes());
    assert_eq!(line, "entries.txt, line 1, column Direction: missing (1 columns of 5)");
}

#[test]
fn a_number_out_of_range_is_placed() {
    for (name, number) in
        [("zero", "0"), ("large", "1000"), ("bits", "4294967297"), ("minus", "-1")]
    {
        let line = entries_complaint(name, &format!("{number} | down | 1 | 3 | OMEGA"));
        let expected = format!("entries.txt, line 3, column Number: {number} is outside 1 to 999");
        assert_eq!(line, expected);
    }
    let line = entries_complaint("row", "2 | down | 100 | 3 | OMEGA");
    assert_eq!(line, "entries.txt, line 3, column Row: 100 is outside 1 to 99");
    let line = entries_complaint("word", "2a | down | 1 | 3 | OMEGA");
    assert_eq!(line, "entries.txt, line 3, column Number: \"2a\" is not a number");
}

#[test]
fn other_bad_cells_are_placed() {
    let line = entries_complaint("diagonal", "2 | diagonal | 1 | 3 | OMEGA");
    assert_eq!(line, "entries.txt, line 3, column Direction: \"diagonal\" is not across or down");
    let line = entries_complaint("blank", "2 | down | 1 | 3 |");
    assert_eq!(line, "entries.txt, line 3, column Answer: empty");
    let line = entries_complaint("double", "01 | across | 1 | 3 | OMEGA");
    let key = "columns Number and Direction: 01 across stands above";
    assert_eq!(line, format!("entries.txt, line 3, {key}"));
    let long = format!("{CLUES}2 | down | {}", "x".repeat(256));
    let line = complaint("long", ENTRIES.as_bytes(), long.as_bytes());
    assert_eq!(line, "clues.txt, line 3, column Text: 256 bytes, and at most 255 are allowed");
    let names = CLUES.replace("Text", "Clue");
    let line = complaint("names", ENTRIES.as_bytes(), names.as_bytes());
    assert_eq!(line, "clues.txt, line 1, column Text: the first line calls it \"Clue\"");
    let line = complaint("bytes", ENTRIES.as_bytes(), b"Number | Direction | Text\n1|across|\xff");
    assert_eq!(line, "clues.txt, line 2, column 3: not UTF-8");
}

/// More than one call takes: the refusal itself is told.
#[test]
fn too_much_text_is_told() {
    let row = |number: usize| format!("{number} | down | {number} {}\n", "x".repeat(240));
    let many: String = (1..=200).map(row).collect();
    let issue = Issue::new("much", ENTRIES.as_bytes(), format!("{CLUES}{many}").as_bytes());
    let line = complained(&issue.0);
    assert!(line.ends_with("bytes: at most 32768 fit one call"), "{line}");
    assert!(line.starts_with(&format!("{}: the texts take 4", issue.0.display())), "{line}");
}

#[test]
fn its_use_is_told() {
    let output = clues(&[]);
    assert_eq!((output.status.code(), output.stdout.len()), (Some(2), 0));
    assert!(output.stderr.starts_with(b"usage: clues DIRECTORY"));
}
