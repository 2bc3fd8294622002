//! Compares egg's own files, a plain reading of document 01, and the library, on inputs made from a seed.

mod agreement;
mod case;
mod differences;
mod kinds;
mod library;
mod make;
mod oracle;
mod reading;
mod run;
mod sample;
mod shrink;
mod tally;

use kinds::KINDS;
use make::rng::Rng;
use run::Run;
use sample::Sample;
use std::process::ExitCode;
use std::time::Instant;

const USAGE: &str = "compare [--seed N] [--rounds N] [--first N] [--only KIND] [--sample FILE]
compare --differences

--seed N       the seed of all inputs, 1 if not given
--rounds N     the rounds of a kind, 1000 if not given; kinds with long rounds make fewer
--first N      the first round's number, 0 if not given
--only KIND    one of: numbers tables patterns searches multis wide apply maps rules limits
--sample FILE  also writes a sample of the cases and their answers
--differences  shows where egg and document 01 differ, and compares nothing";

/// What the command line asks for.
struct Asked {
    seed: u64,
    rounds: u64,
    first: u64,
    only: Option<String>,
    sample: Option<String>,
    differences: bool,
}

/// What the command line asks for, or what is wrong with it.
fn asked() -> Result<Asked, String> {
    let mut asked = Asked { seed: 1, rounds: 1000, first: 0, only: None, sample: None, differences: false };
    let mut arguments = std::env::args().skip(1);
    while let Some(name) = arguments.next() {
        if name == "--differences" {
            asked.differences = true;
            continue;
        }
        let value = arguments.next().ok_or(format!("{name} needs a value"))?;
        let number = || value.parse::<u64>().map_err(|_| format!("{name} needs a number"));
        match name.as_str() {
            "--seed" => asked.seed = number()?,
            "--rounds" => asked.rounds = number()?,
            "--first" => asked.first = number()?,
            "--only" if KINDS.iter().any(|kind| kind.name == value) => asked.only = Some(value),
            "--sample" => asked.sample = Some(value),
            _ => return Err(format!("no option {name} {value}")),
        }
    }
    Ok(asked)
}

/// Runs the kinds that are asked for; false if there was a mismatch.
fn compared(asked: &Asked) -> bool {
    let mut run = Run { sample: asked.sample.as_ref().map(|_| Sample::default()), ..Run::default() };
    for (stream, kind) in (0u64..).zip(KINDS) {
        if asked.only.as_ref().is_some_and(|only| only != kind.name) {
            continue;
        }
        run.kind = kind.name;
        let start = Instant::now();
        let rounds = asked.rounds.div_ceil(kind.weight);
        for round in asked.first..asked.first + rounds {
            run.place = format!("--seed {} --only {} --first {round} --rounds 1", asked.seed, kind.name);
            let mut rng = Rng::new(asked.seed, stream << 48 | round);
            if let Err(mismatch) = (kind.round)(&mut rng, &mut run) {
                println!("{}", mismatch.0);
                return false;
            }
        }
        println!("{}: {rounds} rounds, {:.1} s", kind.name, start.elapsed().as_secs_f64());
    }
    println!("\n{}", run.tally);
    if let (Some(file), Some(sample)) = (&asked.sample, &run.sample) {
        std::fs::write(file, sample.text()).expect("the sample's file can be written");
    }
    true
}

fn main() -> ExitCode {
    let asked = match asked() {
        Ok(asked) => asked,
        Err(what) => {
            eprintln!("{what}\n\n{USAGE}");
            return ExitCode::from(2);
        }
    };
    run::keep_panics();
    if asked.differences {
        differences::show();
        return ExitCode::SUCCESS;
    }
    println!("seed {}, {} rounds", asked.seed, asked.rounds);
    match library::linked()[..] {
        [] => println!("NO LIBRARY IS LINKED: only egg and the reading are compared"),
        ref names => println!("linked: {}", names.join(" ")),
    }
    match std::panic::catch_unwind(|| compared(&asked)) {
        Ok(true) => ExitCode::SUCCESS,
        Ok(false) => ExitCode::FAILURE,
        Err(_) => {
            println!("THE TOOL ITSELF STOPPED: {}", run::last_panic());
            ExitCode::from(2)
        }
    }
}
