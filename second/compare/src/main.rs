//! Compares jointrise with the second program, and stops with the smallest differing case.

use compare::difference::Way;
use compare::kinds;
use compare::random::Random;
use compare::run::{Run, Stop};
use std::path::PathBuf;
use std::process::ExitCode;
use std::time::{Duration, Instant};

const USAGE: &str = "usage: compare [--seed N] [--long HOURS] [--program PATH | --without-program] [--entries]

  --seed N           the seed of the random cases (default 1)
  --long HOURS       after the usual cases, go on with further seeds for so many hours
  --program PATH     the listing program (default target/bin/listing)
  --without-program  leave the listing program out
  --entries          compare nothing, and print the names of the entries

JOINTRISE_BREAK=ENTRY compares the cases of that entry alone and flips one number of its outcomes, so that the comparison has to fail.";

struct Options {
    seed: u64,
    long: Duration,
    program: Option<PathBuf>,
    entries: bool,
}

fn options() -> Result<Options, String> {
    let mut options = Options {
        seed: 1,
        long: Duration::ZERO,
        program: Some(PathBuf::from("target/bin/listing")),
        entries: false,
    };
    let mut words = std::env::args().skip(1);
    while let Some(word) = words.next() {
        let mut value = || words.next().ok_or(format!("{word} wants a value"));
        match word.as_str() {
            "--seed" => options.seed = value()?.parse().map_err(|e| format!("--seed: {e}"))?,
            "--long" => {
                let hours: f64 = value()?.parse().map_err(|e| format!("--long: {e}"))?;
                options.long = Duration::try_from_secs_f64(3600.0 * hours)
                    .map_err(|e| format!("--long: {e}"))?;
            }
            "--program" => options.program = Some(value()?.into()),
            "--without-program" => options.program = None,
            "--entries" => options.entries = true,
            _ => return Err(format!("{word} isn't known")),
        }
    }
    if let Some(path) = &options.program
        && !path.is_file()
    {
        return Err(format!("{} isn't there", path.display()));
    }
    Ok(options)
}

/// The usual cases; then, if the run is to be long, the largest tables and further seeds.
fn compare_all(run: &mut Run, seed: u64, long: Duration) -> Result<(), Box<Stop>> {
    let until = Instant::now() + long;
    kinds::all(run, &mut Random::new(seed))?;
    if long > Duration::ZERO {
        kinds::long(run, &mut Random::new(seed))?;
    }
    for further in 1.. {
        if Instant::now() >= until {
            break;
        }
        kinds::again(run, &mut Random::new(seed + further))?;
    }
    Ok(())
}

fn main() -> ExitCode {
    let options = match options() {
        Ok(options) => options,
        Err(fault) => {
            eprintln!("compare: {fault}\n\n{USAGE}");
            return ExitCode::from(2);
        }
    };
    let way = Way {
        program: options.program,
        broken: std::env::var("JOINTRISE_BREAK").ok(),
    };
    if options.entries {
        way.entries().for_each(|entry| println!("{}", entry.name));
        return ExitCode::SUCCESS;
    }
    if !way.entries().any(|entry| way.tells(entry)) {
        eprintln!("compare: JOINTRISE_BREAK names no entry that is compared (--entries has them)");
        return ExitCode::from(2);
    }
    let mut run = Run::new(way);
    let done = compare_all(&mut run, options.seed, options.long);
    println!("{run}");
    if let Err(stop) = done {
        println!("\n{stop}");
        return ExitCode::FAILURE;
    }
    let unseen = run.unseen();
    if !unseen.is_empty() {
        println!("\nno case had these replies: {}", unseen.join("; "));
        return ExitCode::FAILURE;
    }
    println!("\n{} cases, no difference", run.cases());
    ExitCode::SUCCESS
}
