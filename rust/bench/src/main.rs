//! `bench [table|grow|check COUNT|only NUMBER SECONDS]`: measures msi, this library and SQLite on the same work, or the
//! library at three sizes, or checks the archive, or runs one task of the library over and over for a profile.

mod check;
mod lent;
mod library;
mod report;
#[cfg(feature = "sqlite")]
mod sqlite;
mod tasks;

use library::Ruffleknoll;
use std::process::ExitCode;
use std::time::Duration;
use tasks::Named;
use work::Side;

/// The calls that the archive must answer right before it is measured.
const CHECKED: usize = 20_000;

fn main() -> ExitCode {
    let words: Vec<String> = std::env::args().skip(1).collect();
    match run(&words) {
        Ok(()) => ExitCode::SUCCESS,
        Err(message) => {
            eprintln!("{message}");
            ExitCode::FAILURE
        }
    }
}

fn run(words: &[String]) -> Result<(), String> {
    let words: Vec<&str> = words.iter().map(String::as_str).collect();
    match words[..] {
        [] | ["table"] => {
            println!("{}", check::check(CHECKED)?);
            report::report(&sides()?, &tasks::tasks())
        }
        ["grow"] => {
            let sides: Vec<Box<dyn Side>> = vec![unchecked(), Box::new(Ruffleknoll)];
            report::report(&sides, &tasks::growing())
        }
        ["check", count] => {
            let count = count.parse().map_err(|_| "check takes a count")?;
            println!("{}", check::check(count)?);
            Ok(())
        }
        ["only", number, seconds] => {
            let number: usize = number.parse().map_err(|_| "no number")?;
            let seconds = seconds.parse().map_err(|_| "no seconds")?;
            let tasks = tasks::tasks();
            only(tasks.get(number).ok_or("no such task")?, Duration::from_secs(seconds))
        }
        _ => Err("bench [table | grow | check COUNT | only NUMBER SECONDS]".to_string()),
    }
}

fn unchecked() -> Box<dyn Side> {
    Box::new(msi_unchecked::Msi { name: "msi" })
}

/// All that are compared; the builds of msi are what they are called.
fn sides() -> Result<Vec<Box<dyn Side>>, String> {
    std::panic::set_hook(Box::new(|_| {}));
    let builds = (msi::has_overflow_checks(), msi_unchecked::has_overflow_checks());
    let _ = std::panic::take_hook();
    if builds != (true, false) {
        return Err(
            "the two builds of msi are not those with and without overflow checks".to_string()
        );
    }
    #[allow(unused_mut)]
    let mut sides: Vec<Box<dyn Side>> = vec![
        unchecked(),
        Box::new(msi::Msi { name: "msi, overflow checks" }),
        Box::new(Ruffleknoll),
    ];
    #[cfg(feature = "sqlite")]
    {
        println!("SQLite {}", sqlite::version());
        for (name, has_automatic_index) in [("SQLite", false), ("SQLite, automatic index", true)] {
            sides.push(Box::new(sqlite::Sqlite { name, has_automatic_index }));
        }
    }
    #[cfg(not(feature = "sqlite"))]
    println!("SQLite can't be linked here: left out");
    Ok(sides)
}

/// Runs one task of the library for so long.
fn only(named: &Named, long: Duration) -> Result<(), String> {
    let mut ready = Ruffleknoll.ready(&named.task).ok_or("no such work")?;
    let (mut spent, mut runs, mut turn) = (Duration::ZERO, 0, 1);
    while spent < long {
        let time = ready.time(turn);
        spent += time;
        runs += turn;
        // Long turns, so that reading the clock weighs nothing.
        if time < Duration::from_millis(10) {
            turn *= 2;
        }
    }
    println!("{}: {runs} runs, {:?} each", named.name, spent / runs);
    Ok(())
}
