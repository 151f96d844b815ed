//! Compares the exports of libavarezhu.a with a second implementation of the same rules.

mod cases;
mod chance;
mod compare;
mod counts;
mod damage;
mod expected;
mod gradient;
mod grid;
mod layout;
mod layouts;
mod library;
mod pictures;
mod pixels;
mod placing;
mod png;
mod reading;
mod repeat_counts;
mod repeats;
mod report;
mod sines;
mod spelling;
mod strip_counts;
mod strips;
mod sweeps;
mod texts;
mod words;
mod worked;

use std::process::ExitCode;

use cases::{some_box, text_case};
use chance::Chance;
use compare::Compare;

const HELP: &str = "host [--seed N] [--texts N] [--case N]
  --seed N   start of the random numbers (20240229)
  --texts N  number of random texts (200000)
  --case N   run random text N of the seed alone
The status is 0 if the library agrees everywhere and every reply, clause and pair of refusals was reached.";

struct Options {
    seed: u64,
    texts: u64,
    case: Option<u64>,
}

fn options() -> Result<Option<Options>, String> {
    let mut options = Options { seed: 20_240_229, texts: 200_000, case: None };
    let mut words = std::env::args().skip(1);
    while let Some(word) = words.next() {
        if word == "--help" {
            return Ok(None);
        }
        let value = words.next().ok_or(format!("{word} needs a number"))?;
        let number: u64 = value.parse().map_err(|_| format!("{word} needs a number, not {value}"))?;
        match word.as_str() {
            "--seed" => options.seed = number,
            "--texts" => options.texts = number,
            "--case" => options.case = Some(number),
            _ => return Err(format!("no option {word}")),
        }
    }
    Ok(Some(options))
}

fn random_text(compare: &mut Compare, case: u64) -> Result<(), String> {
    compare.place.part = "random text";
    compare.place.number = case;
    let mut chance = Chance::new(compare.place.seed, case);
    let text = damage::text(&mut chance);
    let area = some_box(&mut chance);
    text_case(compare, &mut chance, &text, area)?;
    strips::text_case(compare, &mut chance, &text, area)
}

fn run(options: &Options) -> Result<(), String> {
    let mut compare = Compare::new(options.seed);
    worked::model()?;
    if let Some(case) = options.case {
        return random_text(&mut compare, case);
    }
    worked::library(&mut compare)?;
    compare.place.number = 0;
    sweeps::all(&mut compare)?;
    repeats::flags(&mut compare)?;
    strips::refusals(&mut compare)?;
    strips::large(&mut compare)?;
    repeats::pictures(&mut compare)?;
    for case in 1..=options.texts {
        random_text(&mut compare, case)?;
    }
    pictures::all(&mut compare)?;
    compare.counts.print();
    let missing = compare.counts.missing();
    if missing.is_empty() {
        return Ok(());
    }
    Err(format!("never reached: {}\n", missing.join("; ")))
}

fn main() -> ExitCode {
    let options = match options() {
        Ok(Some(options)) => options,
        Ok(None) => {
            println!("{HELP}");
            return ExitCode::SUCCESS;
        }
        Err(message) => {
            eprintln!("{message}\n{HELP}");
            return ExitCode::FAILURE;
        }
    };
    println!("seed {}", options.seed);
    match run(&options) {
        Ok(()) => {
            println!("all agree");
            ExitCode::SUCCESS
        }
        Err(message) => {
            eprint!("{message}");
            ExitCode::FAILURE
        }
    }
}
