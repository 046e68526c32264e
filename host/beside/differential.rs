//! Compares the port with the unchanged crate and with documents 01 and 02, byte for byte, each case in both dialects.
//!
//! Arguments: the crate's sources, seconds (300), seed (1), then the kinds to run (all).

mod case;
mod compare;
#[path = "../src/ffi.rs"]
mod ffi;
mod fixed;
mod generate;
mod model;
mod oracle;
mod paragraphs;
mod port;
mod printer;
mod random;
mod reckon;
mod words;

use case::Case;
use compare::Beside;
use random::Random;
use std::path::Path;
use std::process::ExitCode;
use std::time::{Duration, Instant};
use words::Words;

/// The crate recurses without a limit, a body of 4,096 bytes some thousand calls deep.
const STACK: usize = 1 << 30;
const BATCH: u64 = 2_000;
const REPORTED: usize = 10;
/// One more than the largest number of a refusal.
const NUMBERS: usize = 16;

type Make = Box<dyn Fn(u64) -> Option<Case>>;

struct Kind {
    name: &'static str,
    make: Make,
    next: u64,
    /// Whether the kind has no last case.
    endless: bool,
    over: bool,
    /// How often each number is expected, in the old dialect and in the strict one.
    numbers: [[u64; NUMBERS]; 2],
    mismatches: u64,
}

fn fixed_kind(name: &'static str, make: impl Fn(u64) -> Option<Case> + 'static) -> Kind {
    Kind {
        name,
        make: Box::new(make),
        next: 0,
        endless: false,
        over: false,
        numbers: [[0; NUMBERS]; 2],
        mismatches: 0,
    }
}

fn random_kind(
    name: &'static str,
    seed: u64,
    words: &'static Words,
    make: fn(&mut Random, &Words) -> Case,
) -> Kind {
    let make = move |index| Some(make(&mut Random::new(seed, name, index), words));
    Kind {
        endless: true,
        ..fixed_kind(name, make)
    }
}

fn fixed_kinds(words: &'static Words) -> Vec<Kind> {
    vec![
        fixed_kind("commands", |index| fixed::command(words, index)),
        fixed_kind("short bytes", fixed::short_bytes),
        fixed_kind("short documents", fixed::short_documents),
        fixed_kind("short pages", fixed::short_pages),
        fixed_kind("line ends", fixed::line_ends),
        fixed_kind("nuls", fixed::nuls),
        fixed_kind("characters", fixed::character),
        fixed_kind("scripts", fixed::scripts),
        fixed_kind("strict bodies", fixed::strict_bodies),
        fixed_kind("strict documents", fixed::strict_documents),
        fixed_kind("tokens", fixed::tokens),
    ]
}

fn random_kinds(seed: u64, words: &'static Words) -> Vec<Kind> {
    vec![
        random_kind("grammar", seed, words, generate::grammar),
        random_kind("bytes", seed, words, generate::bytes),
        random_kind("damaged", seed, words, generate::damaged),
        random_kind("documents", seed, words, generate::documents),
        random_kind("pages", seed, words, generate::pages),
        random_kind("sizes", seed, words, generate::sizes),
        random_kind("deep", seed, words, generate::deep),
        random_kind("long", seed, words, generate::long),
    ]
}

struct Run {
    beside: Beside,
    end: Instant,
    reported: usize,
}

impl Run {
    /// The next cases of a kind, fewer where time or the kind runs out.
    fn batch(&mut self, kind: &mut Kind, count: u64) {
        for _ in 0..count {
            let Some(case) = (kind.make)(kind.next) else {
                kind.over = true;
                return;
            };
            if !self.beside.agrees(&case) {
                kind.mismatches += 1;
                self.report(kind, &case);
            }
            for (numbers, number) in kind.numbers.iter_mut().zip(self.beside.numbers) {
                numbers[number as usize] += 1;
            }
            kind.next += 1;
        }
    }

    fn report(&mut self, kind: &Kind, case: &Case) {
        if self.reported == REPORTED {
            return;
        }
        self.reported += 1;
        let numbers = self.beside.numbers;
        let small = self.beside.shrink(case);
        let words = self.beside.report(&small);
        println!("MISMATCH in {} {}: {words}", kind.name, kind.next);
        self.beside.numbers = numbers;
    }

    fn in_time(&self) -> bool {
        Instant::now() < self.end
    }

    /// Fixed kinds one behind the other, then the random ones in turn until the time is up.
    fn all(&mut self, fixed: &mut [Kind], random: &mut [Kind]) {
        for kind in fixed {
            while !kind.over && self.in_time() {
                self.batch(kind, BATCH);
            }
        }
        while self.in_time() && !random.is_empty() {
            for kind in random.iter_mut() {
                let count = match kind.name {
                    "long" => BATCH / 200,
                    "deep" => BATCH / 20,
                    _ => BATCH,
                };
                self.batch(kind, count);
            }
        }
    }
}

/// A row for each dialect.
fn print_table(kinds: &[Kind]) {
    print!(
        "{:<18}{:<8}{:>10}{:>10}",
        "kind", "dialect", "cases", "accepted"
    );
    for number in 1..NUMBERS {
        print!("{number:>9}");
    }
    println!();
    for kind in kinds {
        for (dialect, numbers) in ["old", "strict"].into_iter().zip(kind.numbers) {
            print!("{:<18}{dialect:<8}{:>10}", kind.name, kind.next);
            print!("{:>10}", numbers[0]);
            for count in &numbers[1..] {
                print!("{count:>9}");
            }
            println!();
        }
    }
}

fn summary(run: &Run, kinds: &[Kind], seed: u64, begin: Instant) -> bool {
    print_table(kinds);
    let cut = |kind: &&Kind| !kind.over && (!kind.endless || kind.next == 0);
    for kind in kinds.iter().filter(cut) {
        println!("cut short by the time given: {}", kind.name);
    }
    let cases: u64 = kinds.iter().map(|kind| kind.next).sum();
    let mismatches: u64 = kinds.iter().map(|kind| kind.mismatches).sum();
    let reckoner = &run.beside.reckoner;
    for fault in reckoner.faults.iter().take(REPORTED) {
        println!("RECKONING: {fault}");
    }
    println!(
        "documents and paragraphs that the crate's own replace confirmed: {}; bodies with an escape undone: {}",
        reckoner.confirmed, reckoner.undone
    );
    println!(
        "bodies that document 02 takes out of the comparison with the crate: {}, {} of them accepted",
        reckoner.left, reckoner.left_accepted
    );
    println!(
        "seed {seed}, {} seconds: {cases} cases, {} answers compared, {mismatches} mismatches, {} faults of the reckoning",
        begin.elapsed().as_secs(),
        run.beside.answers,
        reckoner.faults.len()
    );
    cases > 0 && mismatches == 0 && reckoner.faults.is_empty()
}

fn differential(arguments: &[String]) -> Result<bool, String> {
    let sources = arguments.first().ok_or("the crate's sources are missing")?;
    let number = |at: usize, otherwise: u64| match arguments.get(at) {
        Some(text) => text.parse().map_err(|_| format!("not a number: {text}")),
        None => Ok(otherwise),
    };
    let (seconds, seed) = (number(1, 300)?, number(2, 1)?);
    let words = Words::read(Path::new(sources)).map_err(|error| error.to_string())?;
    println!("{} commands in token.rs", words.all.len());
    let words: &'static Words = Box::leak(Box::new(words));
    let wanted = |kind: &Kind| arguments.len() < 4 || arguments[3..].iter().any(|k| k == kind.name);
    let mut fixed = fixed_kinds(words);
    let mut random = random_kinds(seed, words);
    fixed.retain(wanted);
    random.retain(wanted);
    let begin = Instant::now();
    let mut run = Run {
        beside: Beside::default(),
        end: begin + Duration::from_secs(seconds),
        reported: 0,
    };
    oracle::silence_panics();
    run.all(&mut fixed, &mut random);
    fixed.append(&mut random);
    Ok(summary(&run, &fixed, seed, begin))
}

fn main() -> ExitCode {
    let work = || {
        let arguments: Vec<String> = std::env::args().skip(1).collect();
        differential(&arguments)
    };
    let thread = std::thread::Builder::new().stack_size(STACK).spawn(work);
    match thread.map(|thread| thread.join()) {
        Ok(Ok(Ok(true))) => ExitCode::SUCCESS,
        Ok(Ok(Err(message))) => {
            eprintln!("differential: {message}");
            ExitCode::from(2)
        }
        Ok(Ok(Ok(false))) => ExitCode::FAILURE,
        _ => {
            eprintln!("differential: the run ended early");
            ExitCode::from(2)
        }
    }
}
