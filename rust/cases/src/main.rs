//! `cases write DIR [SEED]`, `cases compare SEED COUNT`, `cases check DIR`,
//! `cases sizes DIR`, `cases refusals DIR`, `cases sources DIR`,
//! `cases show DIR LAYER [NUMBER]`.

use cases::format::FROM_MODEL;
use cases::generate::LAYERS;
use cases::original::originals;
use cases::random::Random;
use cases::sample::{answered, differences, read_layer, shown, sizes, write_sample, SEED};
use cases::seen::SecondOpinion;
use cases::sources::page;
use std::collections::BTreeMap;
use std::path::Path;
use std::process::ExitCode;

/// Those who answer beside the model.
fn second_opinions() -> Vec<Box<dyn SecondOpinion>> {
    originals()
}

fn main() -> ExitCode {
    let arguments: Vec<String> = std::env::args().skip(1).collect();
    let arguments: Vec<&str> = arguments.iter().map(String::as_str).collect();
    let result = match arguments[..] {
        ["write", directory] => write(directory, SEED),
        ["write", directory, seed] => match seed.parse() {
            Ok(seed) => write(directory, seed),
            Err(_) => Err("a seed is a number".into()),
        },
        ["compare", seed, count] => match (seed.parse(), count.parse()) {
            (Ok(seed), Ok(count)) => compare(seed, count),
            _ => Err("a seed and a count are numbers".into()),
        },
        ["check", directory] => check(directory),
        ["sizes", directory] => show_sizes(directory),
        ["refusals", directory] => show_refusals(directory),
        ["sources", directory] => show_sources(directory),
        ["show", directory, layer] => show(directory, layer, None),
        ["show", directory, layer, number] => show(directory, layer, number.parse().ok()),
        _ => Err("cases write|compare|check|sizes|refusals|sources|show ..".into()),
    };
    match result {
        Ok(()) => ExitCode::SUCCESS,
        Err(message) => {
            eprintln!("{message}");
            ExitCode::FAILURE
        }
    }
}

fn write(directory: &str, seed: u64) -> Result<(), String> {
    for tally in write_sample(Path::new(directory), seed, &second_opinions())? {
        let (file, seconded) = (tally.file, tally.seconded);
        println!("{file}: {} cases, {} bytes, {seconded} seconded", tally.cases, tally.bytes);
    }
    Ok(())
}

/// Asks all about so many drawn calls of each kind, and stores none. One line
/// a layer: its cases, and how many a second opinion has answered alike.
fn compare(seed: u64, count: usize) -> Result<(), String> {
    let opinions = second_opinions();
    let mut random = Random::new(seed);
    for layer in LAYERS {
        let mut seconded = 0;
        for draw in layer.draws {
            for _ in 0..count {
                let case = answered(draw(&mut random), &opinions)?;
                seconded += usize::from(case.sources != FROM_MODEL);
            }
        }
        println!("{}: {} cases, {seconded} seconded", layer.name, count * layer.draws.len());
    }
    Ok(())
}

/// One line a layer: its name, its cases, and how many differ.
fn check(directory: &str) -> Result<(), String> {
    // A panic counts as a difference and needs no words of its own.
    std::panic::set_hook(Box::new(|_| {}));
    let mut all = 0;
    for layer in LAYERS {
        let cases = read_layer(Path::new(directory), layer.name)?;
        let differing = differences(&cases);
        println!("{} {} {}", layer.name, cases.len(), differing.len());
        all += differing.len();
    }
    if all > 0 {
        return Err(format!("{all} cases differ"));
    }
    Ok(())
}

fn show_sizes(directory: &str) -> Result<(), String> {
    for layer in LAYERS {
        let cases = read_layer(Path::new(directory), layer.name)?;
        println!("{} {:?}", layer.name, sizes(&cases));
    }
    Ok(())
}

/// How often each call gets each refusal, and is accepted (0).
fn show_refusals(directory: &str) -> Result<(), String> {
    for layer in LAYERS {
        let mut counts = BTreeMap::new();
        for case in read_layer(Path::new(directory), layer.name)? {
            *counts.entry((case.call.number, case.answer.number)).or_insert(0) += 1;
        }
        println!("{}", layer.name);
        for ((call, refusal), count) in counts {
            println!("  call {call} refusal {refusal}: {count}");
        }
    }
    Ok(())
}

fn show_sources(directory: &str) -> Result<(), String> {
    let mut layers = Vec::new();
    for layer in LAYERS {
        layers.push((layer.name, read_layer(Path::new(directory), layer.name)?));
    }
    print!("{}", page(&layers));
    Ok(())
}

fn show(directory: &str, layer: &str, number: Option<usize>) -> Result<(), String> {
    let cases = read_layer(Path::new(directory), layer)?;
    for (index, case) in cases.iter().enumerate() {
        if number.is_none_or(|wanted| wanted == index) {
            println!("{index} {}", shown(case));
        }
    }
    Ok(())
}
