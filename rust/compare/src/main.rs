//! `compare MODE [SEED [COUNT]] [--plant MISTAKE] [--linked | -- HOST ..]`,
//! where MODE is drawn, hostile or grown, and HOST the command of the process
//! with the archive. With neither `--linked` nor HOST the model stands in, to
//! try the comparison itself.

use compare::host::Host;
use compare::library::{lacking, Library};
use compare::planted::{Planted, MISTAKES};
use compare::stand_in::StandIn;
use compare::tally::Tally;
use compare::{drawn, grown, hostile};
use std::process::ExitCode;

/// Of what differs, so much is shown.
const SHOWN: usize = 5;

type Compare = fn(&mut dyn Library, u64, usize) -> Result<Tally, String>;

/// A mode's name, what it does, and how many calls it makes by itself.
const MODES: &[(&str, Compare, usize)] = &[
    ("drawn", drawn::compare, 200_000),
    ("hostile", hostile::compare, 1_000_000),
    ("grown", grown::compare, 20_000),
];

fn main() -> ExitCode {
    let words: Vec<String> = std::env::args().skip(1).collect();
    match run(&words) {
        Ok(0) => ExitCode::SUCCESS,
        Ok(_) => ExitCode::FAILURE,
        Err(message) => {
            eprintln!("{message}");
            ExitCode::FAILURE
        }
    }
}

/// How many differ.
fn run(words: &[String]) -> Result<usize, String> {
    let usage =
        "compare drawn|hostile|grown [SEED [COUNT]] [--plant MISTAKE] [--linked | -- HOST ..]";
    let (words, host) = cut(words, "--");
    let (words, linked) = cut(words, "--linked");
    let (words, mistake) = cut(words, "--plant");
    let mode = MODES.iter().find(|mode| words.first().is_some_and(|word| word == mode.0));
    let &(name, compare, count) = mode.ok_or(usage)?;
    let seed = number(words.get(1), 1)?;
    let count = number(words.get(2), count as u64)? as usize;
    let library = match (linked, host) {
        ([], []) => Box::new(StandIn),
        ([_], []) => linked_library()?,
        ([], [_, command @ ..]) => Box::new(Host::start(command)?),
        _ => return Err(usage.into()),
    };
    let mut library = match mistake {
        [] => library,
        [_, name] => planted(library, name)?,
        _ => return Err(usage.into()),
    };
    let tally = compare(&mut *library, seed, count)?;
    tell(name, &*library, &tally);
    Ok(tally.differences.len())
}

/// The words before the first such word, and from it on.
fn cut<'a>(words: &'a [String], at: &str) -> (&'a [String], &'a [String]) {
    words.split_at(words.iter().position(|word| word == at).unwrap_or(words.len()))
}

fn number(word: Option<&String>, otherwise: u64) -> Result<u64, String> {
    word.map_or(Ok(otherwise), |word| word.parse().map_err(|_| format!("{word} is no number")))
}

#[cfg(feature = "linked")]
fn linked_library() -> Result<Box<dyn Library>, String> {
    Ok(Box::<compare::linked::Linked>::default())
}

#[cfg(not(feature = "linked"))]
fn linked_library() -> Result<Box<dyn Library>, String> {
    Err("built without the feature that links the library".into())
}

fn planted(library: Box<dyn Library>, name: &str) -> Result<Box<dyn Library>, String> {
    let found = MISTAKES.iter().find(|mistake| mistake.0 == name);
    let &(_, mistake) = found.ok_or(format!("no mistake is called {name}"))?;
    Ok(Box::new(Planted { library, mistake }))
}

fn tell(mode: &str, library: &dyn Library, tally: &Tally) {
    println!("{tally}");
    let lacking = lacking(library);
    if !lacking.is_empty() {
        println!("left out, since the archive lacks them: {}", lacking.join(", "));
    }
    tally.differences.iter().take(SHOWN).for_each(|difference| println!("{difference}"));
    println!("{mode}: {} calls, {} differ", tally.total(), tally.differences.len());
}
