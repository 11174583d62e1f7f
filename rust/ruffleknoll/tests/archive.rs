//! `src/archive.rs` declares the calls of `include/ruffleknoll.h`, and passes each buffer where the header has it. On a
//! processor that can't link the archive nothing else would notice a mistake there.

use std::collections::BTreeMap;
use std::fmt::Write;
use std::path::{Path, PathBuf};
use std::process::Command;
use std::{env, fs};

/// A call's parameters, each with its name and its type as Rust has it, and what it returns.
type Calls = BTreeMap<String, (Vec<(String, String)>, String)>;

fn in_crate(path: &str) -> PathBuf {
    Path::new(env!("CARGO_MANIFEST_DIR")).join(path)
}

fn read(path: &str) -> String {
    fs::read_to_string(in_crate(path)).unwrap()
}

/// The pieces of `text` that end with `end`, each from its last `start` on.
fn declarations<'a>(text: &'a str, start: &'a str, end: &'a str) -> impl Iterator<Item = &'a str> {
    text.split(end).filter_map(move |piece| piece.rfind(start).map(|at| &piece[at..]))
}

fn split_call(declaration: &str) -> Option<(&str, &str, &str)> {
    let (before, rest) = declaration.split_once('(')?;
    let (parameters, after) = rest.rsplit_once(')')?;
    Some((before, parameters, after))
}

fn without_comments(text: &str) -> String {
    text.split("/*").map(|piece| piece.split_once("*/").map_or(piece, |(_, rest)| rest)).collect()
}

/// The header's calls, in the types of Rust.
fn in_header() -> Calls {
    let text = without_comments(&read("../../include/ruffleknoll.h"));
    let mut calls = Calls::new();
    for declaration in text.split(';') {
        let Some((before, parameters, "")) = split_call(declaration.trim()) else { continue };
        let words: Vec<&str> = before.split_whitespace().collect();
        let [.., gives, name] = words[..] else { continue };
        let parameters = parameters.split(',').map(|parameter| c_parameter(parameter.trim()));
        calls.insert(name.to_string(), (parameters.collect(), gives.to_string()));
    }
    calls
}

fn c_parameter(parameter: &str) -> (String, String) {
    let types = [
        ("const uint64_t *", "*const u64"),
        ("const uint8_t *", "*const u8"),
        ("uint64_t *", "*mut u64"),
        ("uint8_t *", "*mut u8"),
        ("uint64_t ", "u64"),
    ];
    let found = types.iter().find_map(|(c, rust)| Some((parameter.strip_prefix(c)?, rust)));
    let (name, rust) = found.unwrap_or_else(|| panic!("{parameter}"));
    (name.to_string(), rust.to_string())
}

fn in_archive() -> Calls {
    let text = read("src/archive.rs");
    let (_, block) = text.split_once("extern \"C\" {").unwrap();
    let (block, _) = block.split_once("\n}").unwrap();
    let mut calls = Calls::new();
    for declaration in declarations(block, "fn ", ";") {
        let (before, parameters, after) = split_call(declaration).unwrap();
        let gives = match after.trim() {
            "-> u64" => "uint64_t",
            "-> Answer" => "ruffleknoll_answer",
            other => panic!("{other}"),
        };
        let parameters = parameters.split(',').map(str::trim).filter(|part| !part.is_empty());
        let parameters = parameters.map(|part| part.split_once(": ").unwrap());
        let parameters = parameters.map(|(name, rust)| (name.to_string(), rust.to_string()));
        let name = before.trim_start_matches("fn ").to_string();
        calls.insert(name, (parameters.collect(), gives.to_string()));
    }
    calls
}

#[test]
fn the_externs_are_the_headers() {
    let (header, archive) = (in_header(), in_archive());
    assert!(header.len() == 15, "{:?}", header.keys());
    for (name, declared) in &archive {
        assert_eq!(Some(declared), header.get(name), "{name}");
    }
    // A row of a table is a part of a `Vec` here, so that call has no use.
    let missing: Vec<_> = header.keys().filter(|name| !archive.contains_key(*name)).collect();
    assert_eq!(missing, ["ruffleknoll_row"]);
}

/// What the program lends for a parameter of the header, as the recorder prints it.
fn lent(parameter: &str) -> &'static str {
    match parameter {
        "columns" | "left_columns" => "[1 1]",
        "right_columns" => "[2 2 2 2]",
        "rows" | "row" | "left_rows" | "first" | "old_rows" => "[3]",
        "right_rows" | "second" | "new_rows" => "[4 4]",
        "column_list" => "[5]",
        "sets" => "[6 6]",
        "condition" | "old_condition" => "[7]",
        "new_condition" => "[8 8]",
        "left_name" => "[9]",
        "right_name" => "[10 10]",
        "text" => "[11 11 11]",
        "used" => "2",
        "output" => "[0 0 0 0 0]",
        other => panic!("{other}"),
    }
}

/// The header's calls in C. Each prints what it was lent, writes 77 where it may write, and answers 1, 2, 3, 4.
fn recorder(calls: &Calls) -> String {
    let mut source = String::from("#include \"recorder.h\"\n");
    for (name, (parameters, gives)) in calls {
        let c_types = parameters.iter().map(|(name, rust)| format!("{}{name}", c_type(rust)));
        let c_types = c_types.collect::<Vec<_>>().join(", ");
        let gives_number = gives == "uint64_t";
        let kind = if gives_number { "" } else { "struct " };
        write!(source, "{kind}{gives} {name}({c_types}) {{ printf(\"{name}\");").unwrap();
        for (number, (name, rust)) in parameters.iter().enumerate() {
            if rust.starts_with('*') {
                let length = &parameters[number + 1].0;
                write!(source, " SLICE({name}, {length});").unwrap();
                if rust.starts_with("*mut") {
                    write!(source, " {name}[0] = 77;").unwrap();
                }
            } else if name == "used" {
                source.push_str(" NUMBER(used);");
            }
        }
        let answer = if gives_number { "3" } else { "(struct ruffleknoll_answer){1, 2, 3, 4}" };
        writeln!(source, " printf(\"\\n\"); fflush(stdout); return {answer}; }}").unwrap();
    }
    source
}

fn c_type(rust: &str) -> &'static str {
    match rust {
        "*const u64" => "const uint64_t *",
        "*const u8" => "const uint8_t *",
        "*mut u64" => "uint64_t *",
        "*mut u8" => "uint8_t *",
        _ => "uint64_t ",
    }
}

fn expected(calls: &Calls) -> String {
    let mut lines = String::new();
    for (name, (parameters, _)) in calls {
        lines.push_str(name);
        for (name, rust) in parameters {
            if rust.starts_with('*') || name == "used" {
                write!(lines, " {name}={}", lent(name)).unwrap();
            }
        }
        lines.push('\n');
    }
    lines
}

fn run(command: &mut Command) -> String {
    let output = command.output().unwrap();
    assert!(output.status.success(), "{command:?}: {}", String::from_utf8_lossy(&output.stderr));
    String::from_utf8(output.stdout).unwrap()
}

#[test]
fn each_buffer_goes_where_the_header_has_it() {
    let mut calls = in_header();
    calls.remove("ruffleknoll_row");
    let directory = PathBuf::from(env!("CARGO_TARGET_TMPDIR"));
    let path = |name: &str| directory.join(name);
    fs::write(path("recorder.c"), recorder(&calls)).unwrap();
    let mut compiler = Command::new("cc");
    compiler.args(["-Wall", "-Werror", "-c", "-I"]).arg(in_crate("../../include"));
    compiler.arg("-I").arg(in_crate("tests/archive"));
    run(compiler.arg(path("recorder.c")).arg("-o").arg(path("recorder.o")));
    let mut rustc = Command::new(env::var_os("RUSTC").unwrap_or("rustc".into()));
    rustc.args(["--edition", "2021", "-D", "warnings"]).arg(in_crate("tests/archive/program.rs"));
    rustc.arg("-C").arg(format!("link-arg={}", path("recorder.o").display()));
    run(rustc.arg("-o").arg(path("program")));
    let said = run(&mut Command::new(path("program")));
    let mut lines: Vec<&str> = said.lines().collect();
    lines.sort_unstable();
    let expected = expected(&calls);
    let mut expected: Vec<&str> = expected.lines().collect();
    expected.sort_unstable();
    assert_eq!(lines, expected);
}
