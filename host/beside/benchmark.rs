//! The crate and the port in turn on the same inputs, the port's buffers lent once; best of several rounds.
//! Built with `--cfg before`, the port before a change takes its turn too.
//!
//! Arguments: the crate's sources, the number of rounds (60), and a part of the names of the rows to run (all).

mod archive;
#[allow(dead_code)]
#[path = "../src/ffi.rs"]
mod ffi;

use archive::Archive;
use latex2mathml::DisplayStyle;
use std::hint::black_box;
use std::process::ExitCode;
use std::time::{Duration, Instant};

const EXAMPLES: [&str; 3] = [
    include_str!("../../examples/gate.txt"),
    include_str!("../../examples/stops.txt"),
    include_str!("../../examples/slip.txt"),
];
/// Every body of 4,096 bytes has room for its records.
const STORE: usize = 2 * 4_096 * 24;
const TEXT: usize = 1 << 20;
/// One timing lasts about as long: the clock's own cost does not show, and other work on the machine spares some of them.
const TIMING: Duration = Duration::from_millis(2);

#[derive(Clone, Copy, PartialEq)]
enum Operation {
    Body,
    Replacement,
    Page,
}

#[derive(Clone)]
struct Row {
    name: &'static str,
    operation: Operation,
    /// One call of the row takes them one by one.
    inputs: Vec<String>,
    /// The most that the port's time may be of the crate's; none where the growth is looked at.
    bar: Option<f64>,
}

impl Row {
    fn bytes(&self) -> usize {
        self.inputs.iter().map(String::len).sum()
    }
}

/// The buffers of the port, and of the port before the change: the same, so that their place in memory favours neither.
struct Lent {
    store: Vec<u8>,
    work: Vec<u8>,
    output: Vec<u8>,
}

impl Lent {
    fn new() -> Lent {
        Lent {
            store: vec![0; STORE],
            work: vec![0; TEXT],
            output: vec![0; TEXT],
        }
    }

    /// The number, and the length of the output.
    fn call(&mut self, archive: &Archive, operation: Operation, input: &[u8]) -> (u32, usize) {
        let mut length = 0;
        let number = match operation {
            Operation::Body => self.body(archive, input, &mut length),
            Operation::Replacement => self.replacement(archive, input, &mut length),
            Operation::Page => self.page(archive, input, &mut length),
        };
        (number, length as usize)
    }

    fn body(&mut self, archive: &Archive, input: &[u8], length: &mut u64) -> u32 {
        // SAFETY: each pointer is to a buffer of the length passed with it, and none overlap.
        unsafe {
            (archive.body)(
                input.as_ptr(),
                input.len(),
                true,
                self.store.as_mut_ptr(),
                STORE,
                self.output.as_mut_ptr(),
                TEXT,
                length,
            )
        }
    }

    fn replacement(&mut self, archive: &Archive, input: &[u8], length: &mut u64) -> u32 {
        // SAFETY: as in `body`.
        unsafe {
            (archive.replacement)(
                input.as_ptr(),
                input.len(),
                self.store.as_mut_ptr(),
                STORE,
                self.work.as_mut_ptr(),
                TEXT,
                self.output.as_mut_ptr(),
                TEXT,
                length,
            )
        }
    }

    fn page(&mut self, archive: &Archive, input: &[u8], length: &mut u64) -> u32 {
        let (mut paragraphs, mut left) = (0, 0);
        // SAFETY: as in `body`.
        unsafe {
            (archive.page)(
                input.as_ptr(),
                input.len(),
                self.store.as_mut_ptr(),
                STORE,
                self.work.as_mut_ptr(),
                TEXT,
                self.output.as_mut_ptr(),
                TEXT,
                length,
                &mut paragraphs,
                &mut left,
            )
        }
    }
}

/// Where the first break begins, found by the fast search for one character.
fn break_of(text: &str) -> Option<usize> {
    let mut from = 0;
    loop {
        let at = from + text[from..].find('\n')?;
        if text[at + 1..].starts_with('\n') {
            return Some(at);
        }
        from = at + 1;
    }
}

fn crate_paragraph(page: &mut String, paragraph: &str) {
    match latex2mathml::replace(paragraph) {
        Ok(text) => page.push_str(&text),
        Err(_) => page.push_str(paragraph),
    }
}

/// The crate has no pages: each paragraph is replaced, and stands as typed where that fails.
fn crate_page(document: &str) -> String {
    let mut page = String::new();
    let mut rest = document;
    while let Some(at) = break_of(rest) {
        crate_paragraph(&mut page, &rest[..at]);
        let behind = rest[at..].trim_start_matches('\n');
        page.push_str(&rest[at..rest.len() - behind.len()]);
        rest = behind;
    }
    crate_paragraph(&mut page, rest);
    page
}

fn crate_call(operation: Operation, input: &str) -> Option<String> {
    match operation {
        Operation::Body => latex2mathml::latex_to_mathml(input, DisplayStyle::Block).ok(),
        Operation::Replacement => latex2mathml::replace(input).ok(),
        Operation::Page => Some(crate_page(input)),
    }
}

// ---- the timing

enum Side {
    Crate,
    /// As one archive has it.
    Port(Archive),
}

impl Side {
    fn run(&self, row: &Row, lent: &mut Lent) {
        for input in &row.inputs {
            let input = black_box(input);
            match self {
                Side::Crate => drop(black_box(crate_call(row.operation, input))),
                Side::Port(archive) => {
                    black_box(lent.call(archive, row.operation, input.as_bytes()));
                }
            }
        }
    }

    /// The text, where the input is accepted.
    fn text(&self, operation: Operation, input: &str, lent: &mut Lent) -> Option<Vec<u8>> {
        match self {
            Side::Crate => crate_call(operation, input).map(String::into_bytes),
            Side::Port(archive) => {
                let (number, length) = lent.call(archive, operation, input.as_bytes());
                (number == 0).then(|| lent.output[..length].to_vec())
            }
        }
    }
}

/// The crate, the port, and the port before the change where there is one: the order of the times of a row.
fn sides() -> Vec<Side> {
    let mut sides = vec![Side::Crate, Side::Port(archive::PORT)];
    sides.extend(archive::BEFORE.map(Side::Port));
    sides
}

/// The time of one call in nanoseconds.
fn time(calls: u32, mut call: impl FnMut()) -> f64 {
    let begin = Instant::now();
    for _ in 0..calls {
        call();
    }
    begin.elapsed().as_secs_f64() * 1e9 / f64::from(calls)
}

/// How many calls take about as long as a timing should last.
fn calls_for(mut call: impl FnMut()) -> u32 {
    let mut calls = 1;
    loop {
        let taken = time(calls, &mut call) * f64::from(calls);
        if taken * 2.0 > TIMING.as_secs_f64() * 1e9 || calls > 1 << 24 {
            return calls;
        }
        calls *= 2;
    }
}

/// Each side's best time of one call in nanoseconds, the sides in turn in every round.
fn measure(row: &Row, sides: &[Side], lent: &mut Lent, rounds: u32) -> Vec<f64> {
    let calls_of = |side: &Side| calls_for(|| side.run(row, lent));
    let calls: Vec<u32> = sides.iter().map(calls_of).collect();
    let mut best = vec![f64::MAX; sides.len()];
    for _ in 0..rounds {
        for (at, side) in sides.iter().enumerate() {
            best[at] = best[at].min(time(calls[at], || side.run(row, lent)));
        }
    }
    best
}

/// A timing counts only where all sides accept each input and give the same text.
fn same(row: &Row, sides: &[Side], lent: &mut Lent) -> bool {
    row.inputs.iter().all(|input| {
        let mut text = |side: &Side| side.text(row.operation, input, lent);
        let first = text(&sides[0]);
        first.is_some() && sides[1..].iter().all(|side| text(side) == first)
    })
}

// ---- the inputs

fn formula(copies: usize) -> String {
    let text = r"p_i = k \left( h_i - b \right) + \frac{v^2}{2 a} \sqrt{1 - \bar{s}} + \sum_{i=1}^{3} s_i, \quad ";
    text.repeat(copies)
}

fn small_matrices(copies: usize) -> String {
    r"\begin{pmatrix} p_1 & 2.5 \\ h_2 & k \end{pmatrix} ".repeat(copies)
}

fn large_matrix(rows: usize) -> String {
    let rows = r"p_1 & 2.842 & h_2 & k \\ ".repeat(rows);
    format!(r"\begin{{matrix}}{rows}\end{{matrix}}")
}

fn prose(copies: usize) -> String {
    let text = "The stops are entered from the sill upwards, in pulses. The switch at a stop closes early, so the count \
        is put back by hand after every lift, and the rope is looked at once a week.\n\n";
    text.repeat(copies)
}

/// Prose with a formula of one letter so often that a dollar stands in every `apart` bytes, in all 16 KB at most.
fn spaced(apart: usize) -> String {
    let sentence = "The stops are entered from the sill upwards, in pulses. ";
    let letters = sentence.chars().cycle().take(2 * apart - 3);
    let text: String = letters.chain("$k$".chars()).collect();
    text.repeat(16_384 / text.len())
}

/// The three examples behind one another, the one with a stray dollar among them.
fn handbook(copies: usize) -> String {
    (EXAMPLES.join("\n") + "\n").repeat(copies)
}

/// The two examples that are replaced as a whole.
fn replaced(copies: usize) -> String {
    (EXAMPLES[..2].join("\n") + "\n").repeat(copies)
}

/// Such as stand within the lines of a handbook: lifts, stops, pulses per millimetre and slip.
fn short_bodies() -> Vec<String> {
    let bodies = [
        r"k\cdot h",
        r"p_3 = 8847",
        r"\sqrt{2 a h}",
        r"\bar{s} = 0.002",
        r"\Delta p = m s p_3",
        r"s = 1 - \frac{k h}{p}",
        r"h_2 = 1200\,\mathrm{mm}",
        r"L = 2 h + 4 \pi d + \delta",
        r"p_i = k \left( h_i - b \right)",
        r"\bar{s} = \frac{1}{3} \sum_{i} s_i",
        r"p_i = \frac{k}{1 - \bar{s}} \cdot h_i",
        r"k = \frac{4096}{420 \pi} \approx 3.10428",
    ];
    bodies.map(str::to_owned).to_vec()
}

fn row(name: &'static str, operation: Operation, input: String, bar: f64) -> Row {
    one_by_one(name, operation, vec![input], bar)
}

fn one_by_one(name: &'static str, operation: Operation, inputs: Vec<String>, bar: f64) -> Row {
    Row {
        name,
        operation,
        inputs,
        bar: Some(bar),
    }
}

fn rows() -> Vec<Row> {
    use Operation::{Body, Page, Replacement};
    let example = || EXAMPLES[0].to_owned();
    vec![
        row("page: one example", Page, example(), 0.8),
        row("page: handbook, 8 KB", Page, handbook(4), 0.8),
        row("replacement: one example", Replacement, example(), 0.8),
        row("replacement: 8 KB", Replacement, replaced(5), 0.8),
        row("a dollar in 20 bytes", Replacement, spaced(20), 0.8),
        row("a dollar in 100 bytes", Replacement, spaced(100), 0.8),
        row("a dollar in 700 bytes", Replacement, spaced(700), 0.8),
        row("formula, 4,000 bytes", Body, formula(41), 0.8),
        one_by_one("12 bodies of 8 to 40 bytes", Body, short_bodies(), 0.6),
        row("one small matrix", Body, small_matrices(1), 0.5),
        row("many small matrices", Body, small_matrices(78), 0.5),
        row("one large matrix", Body, large_matrix(158), 0.5),
        row("page: prose, 32 KB", Page, prose(180), 1.5),
        row("replacement: prose, 32 KB", Replacement, prose(180), 1.5),
    ]
}

/// An input and its doubles, so that a cost that grows faster than the input shows.
fn doubled(name: &'static str, operation: Operation, input: impl Fn(usize) -> String) -> Vec<Row> {
    let rows = [1, 2, 4, 8].into_iter().map(|times| Row {
        name,
        operation,
        inputs: vec![input(times)],
        bar: None,
    });
    rows.collect()
}

fn growing() -> Vec<Row> {
    use Operation::{Body, Page, Replacement};
    [
        doubled("growth: page", Page, handbook),
        doubled("growth: replacement", Replacement, replaced),
        doubled("growth: formula", Body, |times| formula(5 * times)),
        doubled("growth: one matrix", Body, |times| large_matrix(19 * times)),
        doubled("growth: prose", Page, |times| prose(22 * times)),
    ]
    .concat()
}

// ---- the table

fn heading() -> String {
    let before = match archive::BEFORE {
        Some(_) => format!("{:>13}{:>13}", "before ns/B", "port/before"),
        None => String::new(),
    };
    format!(
        "{:<28}{:>7}{:>12}{:>12}{:>8}{before}  bar or growth",
        "input", "bytes", "crate ns/B", "port ns/B", "ratio"
    )
}

/// The row's line; `previous` is the name and the port's time of the row above.
fn line(row: &Row, times: &[f64], previous: (&str, f64)) -> String {
    let bytes = row.bytes();
    let (on_crate, on_port) = (times[0], times[1]);
    let ratio = on_port / on_crate;
    let before = times.get(2).map_or(String::new(), |before| {
        format!("{:>13.2}{:>13.3}", before / bytes as f64, on_port / before)
    });
    format!(
        "{:<28}{bytes:>7}{:>12.2}{:>12.2}{ratio:>8.3}{before}  {}",
        row.name,
        on_crate / bytes as f64,
        on_port / bytes as f64,
        verdict(row, ratio, on_port, previous)
    )
}

/// The last column: the bar, or how many times as long as on the row above the port takes where the input is doubled.
fn verdict(row: &Row, ratio: f64, on_port: f64, previous: (&str, f64)) -> String {
    match row.bar {
        Some(bar) if ratio <= bar => format!("{bar}"),
        Some(bar) => format!("{bar} missed"),
        None if row.name == previous.0 => format!("port x{:.2}", on_port / previous.1),
        None => String::new(),
    }
}

fn main() -> ExitCode {
    let arguments: Vec<String> = std::env::args().collect();
    let rounds = arguments.get(2).and_then(|text| text.parse().ok());
    let part = arguments.get(3).map_or("", |part| part);
    let sides = sides();
    let mut lent = Lent::new();
    let mut all_same = true;
    let mut previous = ("", 0.0);
    println!("{}", heading());
    let rows = rows().into_iter().chain(growing());
    for row in rows.filter(|row| row.name.contains(part)) {
        if !same(&row, &sides, &mut lent) {
            println!("{:<28} the sides differ", row.name);
            all_same = false;
            continue;
        }
        let times = measure(&row, &sides, &mut lent, rounds.unwrap_or(60));
        println!("{}", line(&row, &times, previous));
        previous = (row.name, times[1]);
    }
    match all_same {
        true => ExitCode::SUCCESS,
        false => ExitCode::FAILURE,
    }
}
