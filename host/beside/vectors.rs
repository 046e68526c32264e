//! Writes the stored list of crates/vectors to standard output, from the unchanged crate and from documents 01 and 02.
//!
//! Argument: the crate's sources. The port has no part in it, so no expected answer comes from the code under test.

mod answers;
#[allow(dead_code)]
mod case;
mod document01;
mod document02;
mod document02_strict;
#[allow(dead_code)]
mod fixed;
#[allow(dead_code)]
mod generate;
mod inputs;
#[allow(dead_code)]
mod model;
mod oracle;
mod paragraphs;
#[allow(dead_code)]
mod printer;
mod random;
mod stored;
#[allow(dead_code)]
mod words;

use case::Manner;
use std::collections::HashSet;
use std::io::Write;
use std::path::Path;
use std::process::ExitCode;
use stored::{Ask, Lent, Stored};
use words::Words;

/// The crate recurses without a limit.
const STACK: usize = 1 << 28;

/// The lines, without a case that came before.
fn lines(cases: Vec<Stored>) -> Vec<u8> {
    let mut seen = HashSet::new();
    let mut lines = Vec::new();
    for case in cases {
        if seen.insert((case.ask, case.manner, case.lent, case.input.clone())) {
            lines.extend(case.line());
        }
    }
    lines
}

/// Where the crate or the model decides as well, it must give what is written by hand; neither has a length, nor what is lent.
fn agree(case: &Stored) -> bool {
    let Ok(text) = std::str::from_utf8(&case.input) else {
        return true;
    };
    if case.lent != Lent::default() || case.number == 1 {
        return true;
    }
    if case.ask == Ask::Both && case.number == 10 {
        return model::read(text).number() == 10;
    }
    let made = match case.ask {
        Ask::Both => answers::body(case.manner, text),
        Ask::Document => answers::document(case.manner, text),
        Ask::Page if case.manner.strict => document01::page(case.manner, &case.input),
        _ => None,
    };
    made.map_or(true, |answer| answer.answers_as(case))
}

/// The strict answer, where it is not the old one.
fn otherwise(made: impl Fn(Manner) -> Option<Stored>) -> Option<Stored> {
    let strict = made(Manner::STRICT)?;
    let same = made(Manner::OLD).is_some_and(|old| old.answers_as(&strict));
    (!same).then_some(strict)
}

/// The inputs in the old dialect, then the strict answers: to each arm, and to every other input that has another one.
fn made(words: &Words) -> Vec<Stored> {
    let mut cases = Vec::new();
    let body = |latex: &str, manner| answers::body(manner, latex);
    let document = |text: &str, manner| answers::document(manner, text);
    let page = |text: &[u8], manner| document01::page(manner, text);
    cases.extend(inputs::bodies(words).filter_map(|latex| body(&latex, Manner::OLD)));
    cases.extend(inputs::documents(words).filter_map(|text| document(&text, Manner::OLD)));
    cases.extend(inputs::pages(words).filter_map(|text| page(&text, Manner::OLD)));
    cases.extend(inputs::arms(words).filter_map(|latex| body(&latex, Manner::STRICT)));
    cases.extend(inputs::bodies(words).filter_map(|latex| otherwise(|m| body(&latex, m))));
    cases.extend(inputs::documents(words).filter_map(|text| otherwise(|m| document(&text, m))));
    cases.extend(inputs::pages(words).filter_map(|text| otherwise(|m| page(&text, m))));
    cases
}

fn write_list() -> Result<(), String> {
    let sources = std::env::args()
        .nth(1)
        .ok_or("the crate's sources are missing")?;
    let words = Words::read(Path::new(&sources)).map_err(|error| error.to_string())?;
    oracle::silence_panics();
    let mut cases = document01::cases();
    cases.extend(document02::cases());
    cases.extend(document02_strict::cases());
    if let Some(case) = cases.iter().find(|case| !agree(case)) {
        return Err(format!("what is written by hand is not made: {case:?}"));
    }
    cases.extend(made(&words));
    let mut out = std::io::stdout().lock();
    out.write_all(&lines(cases))
        .map_err(|error| error.to_string())
}

fn main() -> ExitCode {
    let thread = std::thread::Builder::new()
        .stack_size(STACK)
        .spawn(write_list);
    match thread.map(|thread| thread.join()) {
        Ok(Ok(Ok(()))) => ExitCode::SUCCESS,
        Ok(Ok(Err(message))) => {
            eprintln!("vectors: {message}");
            ExitCode::from(2)
        }
        _ => {
            eprintln!("vectors: the run ended early");
            ExitCode::from(2)
        }
    }
}
