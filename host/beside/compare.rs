//! One case in both dialects: the expected answers and the port's, and a small input where they differ.

use crate::case::{Case, Lent, Manner, Rule, Size, Way};
use crate::port::Port;
use crate::reckon::{Expected, Reckoner};

/// A long input that differs is made small for so many tries only.
const TRIES: u32 = 20_000;

#[derive(Default)]
pub struct Beside {
    pub reckoner: Reckoner,
    port: Port,
    /// The expected numbers of the last case, in the old dialect and in the strict one.
    pub numbers: [u32; 2],
    /// How many answers of the port were compared.
    pub answers: u64,
    tries: u32,
}

/// What is lent in a dialect, and the answer that is expected.
struct Run {
    manner: Manner,
    lent: Lent,
    expected: Expected,
}

/// An answer of the port that is not the expected one.
struct Difference {
    run: Run,
    way: Way,
    what: &'static str,
}

impl Beside {
    fn reckon(&mut self, case: &Case, manner: Manner) -> Run {
        let needed = self.reckoner.needed(manner, case.operation, &case.input);
        let lent = case.rule.lent(needed);
        let expected = self
            .reckoner
            .expected(manner, case.operation, &case.input, lent);
        Run {
            manner,
            lent,
            expected,
        }
    }

    /// The first function whose answer differs; what it answered is still in the port.
    fn difference(&mut self, case: &Case) -> Option<Difference> {
        self.reckoner.begin();
        let runs = Manner::ALL.map(|manner| self.reckon(case, manner));
        self.numbers = [runs[0].expected.number, runs[1].expected.number];
        for run in runs {
            for &way in case.operation.ways(run.manner) {
                self.answers += 1;
                self.port.call(way, case.operation, &case.input, run.lent);
                let what = self
                    .port
                    .difference(case.operation, &case.input, &run.expected);
                if let Some(what) = what {
                    return Some(Difference { run, way, what });
                }
            }
        }
        None
    }

    pub fn agrees(&mut self, case: &Case) -> bool {
        self.difference(case).is_none()
    }

    /// Whether the case still differs, as long as there are tries left.
    fn still_differs(&mut self, case: &Case) -> bool {
        if self.tries == 0 {
            return false;
        }
        self.tries -= 1;
        !self.agrees(case)
    }

    pub fn report(&mut self, case: &Case) -> String {
        let shown = shown(&case.input);
        let Some(Difference { run, way, what }) = self.difference(case) else {
            return format!("\"{shown}\": the second run no longer differs");
        };
        format!(
            "{:?} {way:?} \"{shown}\" with {:?}, that is {:?}: the {what} differs\n  expected {}\n  port     {}",
            case.operation,
            case.rule,
            run.lent,
            run.expected.describe(),
            self.port.describe()
        )
    }

    /// Takes parts of the input away, then makes bytes plain, as long as the answers differ.
    pub fn shrink(&mut self, case: &Case) -> Case {
        self.tries = TRIES;
        let mut small = case.clone();
        self.plain_rule(&mut small);
        let mut width = small.input.len().max(1);
        while width > 0 {
            let mut at = 0;
            while at < small.input.len() {
                let mut fewer = small.clone();
                let end = (at + width).min(fewer.input.len());
                fewer.input.drain(at..end);
                if self.still_differs(&fewer) {
                    small = fewer;
                } else {
                    at += width;
                }
            }
            width /= 2;
        }
        self.plain_bytes(&mut small);
        small
    }

    fn plain_rule(&mut self, small: &mut Case) {
        let plain = Case {
            rule: Rule {
                store: Size::Needed(0),
                work: Size::Needed(0),
                output: Size::Needed(0),
            },
            ..small.clone()
        };
        if self.still_differs(&plain) {
            *small = plain;
        }
    }

    fn plain_bytes(&mut self, small: &mut Case) {
        for at in 0..small.input.len() {
            if small.input[at] == b'a' {
                continue;
            }
            let mut plain = small.clone();
            plain.input[at] = b'a';
            if self.still_differs(&plain) {
                *small = plain;
            }
        }
    }
}

/// Bytes in ASCII, a long run of one byte with its count.
pub fn shown(bytes: &[u8]) -> String {
    let mut text = String::new();
    for run in bytes.chunk_by(|a, b| a == b) {
        if run.len() > 16 {
            text.push_str(&format!("[{} x {}]", run[..1].escape_ascii(), run.len()));
        } else {
            text.push_str(&run.escape_ascii().to_string());
        }
    }
    text
}
