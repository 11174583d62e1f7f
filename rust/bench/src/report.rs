//! Interleaved runs, the least time of each, and a table of them.

use crate::tasks::Named;
use std::time::Duration;
use work::{Ready, Side};

/// Rounds are short and many, so that some fall between what else the machine does; fewer where one run takes long.
const ROUNDS: usize = 40;
const FEW_ROUNDS: usize = 7;

/// A round of one side takes about so long, or one run where that takes longer.
const ROUND: Duration = Duration::from_millis(4);
const LONG: f64 = 0.1;

/// A task on one side: how many runs make a round, and the least time of one run.
struct Measured {
    ready: Box<dyn Ready>,
    runs: u32,
    least: f64,
}

impl Measured {
    fn new(mut ready: Box<dyn Ready>) -> Measured {
        let mut runs = 1;
        // The first runs also warm up.
        while runs < 1 << 24 {
            let time = ready.time(runs);
            if time >= ROUND / 2 {
                break;
            }
            runs *= 2;
        }
        Measured { ready, runs, least: f64::INFINITY }
    }

    fn round(&mut self) {
        let time = self.ready.time(self.runs).as_secs_f64() / f64::from(self.runs);
        self.least = self.least.min(time);
    }
}

/// Prints a line a task: the time on each side, and how many times Ruffleknoll's it is.
pub fn report(sides: &[Box<dyn Side>], tasks: &[Named]) -> Result<(), String> {
    let own = sides.iter().position(|side| side.name() == "Ruffleknoll").ok_or("no own side")?;
    let names: Vec<&str> = sides.iter().map(|side| side.name()).collect();
    println!("\n| | {} |", names.join(" | "));
    println!("|---|{}", "---|".repeat(names.len()));
    for named in tasks {
        let times = measured(sides, named)?;
        let own = times[own].ok_or("no own time")?;
        let cells: Vec<String> = times.iter().map(|time| shown(*time, own)).collect();
        println!("| {} | {} |", named.name, cells.join(" | "));
    }
    println!("\nLeast of {ROUNDS} rounds by turns, {FEW_ROUNDS} where a run takes over 100 ms; in parentheses how many times Ruffleknoll's.");
    Ok(())
}

/// The least time on each side that has such work, once all of them agree on the answer.
fn measured(sides: &[Box<dyn Side>], named: &Named) -> Result<Vec<Option<f64>>, String> {
    let mut ready: Vec<Option<Box<dyn Ready>>> =
        sides.iter().map(|side| side.ready(&named.task)).collect();
    let mut answers = ready.iter_mut().flatten().map(|ready| ready.answer());
    let first = answers.next().ok_or("no side has this work")?;
    if answers.any(|answer| answer != first) {
        return Err(format!("{}: the sides disagree", named.name));
    }
    let mut all: Vec<Option<Measured>> =
        ready.into_iter().map(|ready| ready.map(Measured::new)).collect();
    for round in 0..ROUNDS {
        let is_long = all.iter().flatten().any(|one| one.least.is_finite() && one.least > LONG);
        if is_long && round >= FEW_ROUNDS {
            break;
        }
        all.iter_mut().flatten().for_each(Measured::round);
    }
    Ok(all.iter().map(|one| one.as_ref().map(|one| one.least)).collect())
}

fn shown(time: Option<f64>, own: f64) -> String {
    match time {
        None => "–".to_string(),
        Some(time) if time == own => length(time),
        Some(time) => format!("{} ({}×)", length(time), ratio(time / own)),
    }
}

fn ratio(ratio: f64) -> String {
    if ratio < 10.0 {
        format!("{ratio:.2}")
    } else {
        format!("{ratio:.0}")
    }
}

fn length(seconds: f64) -> String {
    let (value, unit) = match seconds {
        s if s < 1e-6 => (s * 1e9, "ns"),
        s if s < 1e-3 => (s * 1e6, "µs"),
        s => (s * 1e3, "ms"),
    };
    let places = if value < 10.0 {
        2
    } else if value < 100.0 {
        1
    } else {
        0
    };
    format!("{value:.places$} {unit}")
}
