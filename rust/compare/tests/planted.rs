//! Every mode passes over the model, and notices every planted mistake.

use compare::planted::MISTAKES;
use std::process::Command;

const MODES: [(&str, &str); 3] = [("drawn", "1000"), ("hostile", "2000"), ("grown", "300")];

/// Whether the program ends well, and its last line.
fn run(words: &[&str]) -> (bool, String) {
    let output = Command::new(env!("CARGO_BIN_EXE_compare")).args(words).output().unwrap();
    let told = String::from_utf8_lossy(&output.stdout).into_owned();
    (output.status.success(), told.lines().last().unwrap_or("").into())
}

#[test]
fn the_model_itself_passes() {
    for (mode, count) in MODES {
        let expected = format!("{mode}: {count} calls, 0 differ");
        assert_eq!(run(&[mode, "9", count]), (true, expected));
    }
}

#[test]
fn every_mistake_is_noticed() {
    for (mode, count) in MODES {
        for (mistake, _) in MISTAKES {
            let (is_well, line) = run(&[mode, "9", count, "--plant", mistake]);
            assert!(!is_well && line.starts_with(mode), "{mode} {mistake}: {line}");
            assert!(!line.ends_with(" 0 differ"), "{mode} {mistake}: {line}");
        }
    }
}

/// A host that ends at once, and one that greets, with all calls, and ends
/// when it is asked.
#[test]
fn a_host_that_ends_is_told() {
    let greeting = format!("printf '{}'", [r"\0".repeat(8), r"\377".repeat(8)].concat());
    for (mode, count) in MODES {
        assert!(!run(&[mode, "9", count, "--", "true"]).0);
        let words = [mode, "9", count, "--", "sh", "-c", &greeting];
        let output = Command::new(env!("CARGO_BIN_EXE_compare")).args(words).output().unwrap();
        let told = String::from_utf8_lossy(&output.stderr).into_owned();
        assert!(!output.status.success() && told.contains("the host ended"), "{mode}: {told}");
    }
}

#[test]
fn unknown_words_are_refused() {
    for line in [
        "drown",
        "",
        "drawn x",
        "drawn 1 1 --plant x",
        "drawn 1 1 --plant",
        "drawn 1 1 --",
        "drawn 1 1 --linked -- true",
    ] {
        let words: Vec<&str> = line.split_whitespace().collect();
        assert!(!run(&words).0, "{line}");
    }
}

/// The model doesn't stand in for what was not linked.
#[cfg(not(feature = "linked"))]
#[test]
fn nothing_stands_in_for_the_linked_library() {
    assert_eq!(run(&["drawn", "9", "100", "--linked"]), (false, String::new()));
}
