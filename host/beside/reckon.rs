//! The expected answers: the crate's where it decides, the model's where document 02 does, as for all of the strict dialect, and document 01's order of refusals around them.

use crate::case::{Lent, Manner, Operation};
use crate::compare::shown;
use crate::model::{self, Reading};
use crate::oracle::{self, Answer};
use crate::paragraphs::pieces;
use crate::printer::undo_escapes;
use std::collections::HashMap;
use std::rc::Rc;

const BODY_LIMIT: usize = 4_096;
const DOCUMENT_LIMIT: usize = 32_768;
const RECORD: usize = 24;

/// What an operation is expected to return and to leave in the lent buffers.
#[derive(Default)]
pub struct Expected {
    pub number: u32,
    pub output: Vec<u8>,
    /// What the work buffer begins with afterwards; a page's is free.
    pub work: Vec<u8>,
    pub paragraphs: u64,
    pub left: u64,
}

impl Expected {
    /// The answer in words, for a report.
    pub fn describe(&self) -> String {
        format!(
            "number {}, length {}, paragraphs {}, left {}, output \"{}\"",
            self.number,
            self.output.len(),
            self.paragraphs,
            self.left,
            shown(&self.output[..self.output.len().min(400)])
        )
    }
}

/// A body's answers in the two dialects.
struct Body {
    old: Answer,
    strict: Answer,
    /// Whether a document and not the crate decides the old one.
    ours: bool,
}

impl Body {
    fn answer(&self, manner: Manner) -> &Answer {
        if manner.strict {
            &self.strict
        } else {
            &self.old
        }
    }
}

/// Answers for one case at a time; bodies are kept, since a case asks for them more than once.
#[derive(Default)]
pub struct Reckoner {
    bodies: HashMap<(bool, String), Rc<Body>>,
    needed: Option<Lent>,
    ours: bool,
    /// Where this reckoning itself and the crate disagree.
    pub faults: Vec<String>,
    /// Bodies in which an escape was undone.
    pub undone: u64,
    /// Documents and paragraphs that the crate's own `replace` confirmed.
    pub confirmed: u64,
    /// Bodies that document 02 takes out of the comparison with the crate, and how many of them are accepted.
    pub left: u64,
    pub left_accepted: u64,
}

fn refused(number: u32) -> Expected {
    Expected {
        number,
        ..Expected::default()
    }
}

/// Where the windows of as many dollars begin, overlapping ones too.
fn dollars(text: &str, width: usize) -> Vec<usize> {
    let windows = text.as_bytes().windows(width).enumerate();
    let full = windows.filter(|(_, window)| window.iter().all(|&byte| byte == b'$'));
    full.map(|(at, _)| at).collect()
}

impl Reckoner {
    /// Forgets the bodies of the case before.
    pub fn begin(&mut self) {
        self.bodies.clear();
    }

    /// What the operation needs; without limits of what is lent the crate's `replace` is asked as well.
    pub fn needed(&mut self, manner: Manner, operation: Operation, input: &[u8]) -> Lent {
        self.needed = Some(Lent::NOTHING);
        let expected = self.expected(manner, operation, input, Lent::UNLIMITED);
        let mut needed = self.needed.take().unwrap_or(Lent::NOTHING);
        needed.output = expected.output.len();
        needed
    }

    pub fn expected(
        &mut self,
        manner: Manner,
        operation: Operation,
        input: &[u8],
        lent: Lent,
    ) -> Expected {
        match operation {
            Operation::Body { block } => self.translate(manner, input, block, lent),
            Operation::Replacement => self.replace(manner, input, lent),
            Operation::Page => self.page(manner, input, lent),
        }
    }

    /// The model's answer where a document decides, the crate's for every other body.
    fn ask(&mut self, latex: &str, block: bool) -> Body {
        let (reading, apart) = (model::read(latex), model::read_apart(latex));
        self.hold_apart(latex, block, &reading, &apart);
        let strict = apart.strict_answer(latex, block);
        let ours = reading.leaves || reading.number() == 10;
        self.left += u64::from(reading.leaves);
        self.left_accepted += u64::from(reading.leaves && reading.number() == 0);
        let old = if ours {
            reading.answer(block)
        } else {
            self.held(latex, block, &reading)
        };
        let Ok(markup) = old else {
            return Body { old, strict, ours };
        };
        let text = undo_escapes(&markup);
        let changed = text != markup;
        self.undone += u64::from(changed);
        Body {
            old: Ok(text),
            strict,
            ours: ours || changed,
        }
    }

    /// Holds the reading with `\ni` apart, and the printer of both dialects, to the other reading and the crate's printer.
    fn hold_apart(&mut self, latex: &str, block: bool, reading: &Reading, apart: &Reading) {
        if apart.old_answer(block) != reading.answer(block) {
            let body = latex.escape_debug();
            let fault = format!("body \"{body}\": the crate prints it otherwise");
            self.faults.push(fault);
        }
    }

    /// The crate's answer, to which the model's is held.
    fn held(&mut self, latex: &str, block: bool, reading: &Reading) -> Answer {
        let answer = oracle::translate(latex, block);
        if reading.answer(block) != answer {
            let (body, read) = (latex.escape_debug(), reading.number());
            let number = answer.as_ref().err().unwrap_or(&0);
            let fault = format!("body \"{body}\": read with {read}, the crate {number}");
            self.faults.push(fault);
        }
        answer
    }

    /// A body that is well formed and has no NUL: 1, 3, then the parser's refusals, and 15 behind them in the strict dialect.
    fn body(
        &mut self,
        manner: Manner,
        latex: &str,
        block: bool,
        store: usize,
    ) -> Result<Rc<Body>, u32> {
        if latex.len() > BODY_LIMIT {
            self.ours = true;
            return Err(1);
        }
        if let Some(needed) = &mut self.needed {
            needed.store = needed.store.max(2 * latex.len() * RECORD);
        }
        if store / RECORD < 2 * latex.len() {
            return Err(3);
        }
        let key = (block, latex.to_owned());
        let body = match self.bodies.get(&key) {
            Some(body) => body.clone(),
            None => {
                let body = Rc::new(self.ask(latex, block));
                self.bodies.insert(key, body.clone());
                body
            }
        };
        self.ours |= body.ours;
        match *body.answer(manner) {
            Ok(_) => Ok(body),
            Err(number) => Err(number),
        }
    }

    fn translate(&mut self, manner: Manner, latex: &[u8], block: bool, lent: Lent) -> Expected {
        if latex.len() > BODY_LIMIT {
            return refused(1);
        }
        let Ok(latex) = std::str::from_utf8(latex) else {
            return refused(2);
        };
        if latex.contains('\0') {
            return refused(14);
        }
        let body = match self.body(manner, latex, block, lent.store) {
            Ok(body) => body,
            Err(number) => return refused(number),
        };
        let markup = body.answer(manner).as_deref().unwrap_or_default();
        if markup.len() > lent.output {
            return refused(12);
        }
        Expected {
            output: markup.as_bytes().to_vec(),
            ..Expected::default()
        }
    }

    /// Translates the bodies between the marks, taken first with second, third with fourth.
    fn substitute(
        &mut self,
        manner: Manner,
        text: &str,
        marks: &[usize],
        width: usize,
        store: usize,
    ) -> Result<String, u32> {
        let mut result = String::new();
        let mut from = 0;
        for pair in marks.chunks_exact(2) {
            result.push_str(&text[from..pair[0]]);
            let body = self.body(manner, &text[pair[0] + width..pair[1]], width == 2, store)?;
            result.push_str(body.answer(manner).as_deref().unwrap_or_default());
            from = pair[1] + width;
        }
        result.push_str(&text[from..]);
        Ok(result)
    }

    fn first_pass(&mut self, manner: Manner, document: &str, store: usize) -> Result<String, u32> {
        let windows = dollars(document, 2);
        if windows.len() % 2 != 0 {
            return Err(4);
        }
        if document.contains("$$$") {
            self.ours = true;
            return Err(5);
        }
        self.substitute(manner, document, &windows, 2, store)
    }

    fn second_pass(&mut self, manner: Manner, text: &str, store: usize) -> Result<String, u32> {
        let marks = dollars(text, 1);
        if marks.len() % 2 != 0 {
            return Err(4);
        }
        self.substitute(manner, text, &marks, 1, store)
    }

    fn replace(&mut self, manner: Manner, document: &[u8], lent: Lent) -> Expected {
        if document.len() > DOCUMENT_LIMIT {
            return refused(1);
        }
        let Ok(document) = std::str::from_utf8(document) else {
            return refused(2);
        };
        if document.contains('\0') {
            return refused(14);
        }
        self.ours = false;
        let expected = self.two_passes(manner, document, lent);
        if self.needed.is_some() && !self.ours && manner == Manner::OLD {
            self.confirm(document, &expected);
        }
        expected
    }

    fn two_passes(&mut self, manner: Manner, document: &str, lent: Lent) -> Expected {
        let first = match self.first_pass(manner, document, lent.store) {
            Ok(text) => text,
            Err(number) => return refused(number),
        };
        if let Some(needed) = &mut self.needed {
            needed.work = needed.work.max(first.len());
        }
        if first.len() > lent.work {
            return refused(11);
        }
        let second = self.second_pass(manner, &first, lent.store);
        let (number, output) = match second {
            Ok(text) if text.len() > lent.output => (12, String::new()),
            Ok(text) => (0, text),
            Err(number) => (number, String::new()),
        };
        Expected {
            number,
            output: output.into_bytes(),
            work: first.into_bytes(),
            ..Expected::default()
        }
    }

    /// Holds this reckoning to the crate's own `replace` where the crate decides.
    fn confirm(&mut self, document: &str, expected: &Expected) {
        self.confirmed += 1;
        let agree = match oracle::replace(document) {
            Ok(text) => expected.number == 0 && text.as_bytes() == expected.output,
            Err(number) => expected.number == number,
        };
        if !agree {
            let document = document.escape_debug();
            let fault = format!(
                "document \"{document}\": reckoned {}, the crate another",
                expected.number
            );
            self.faults.push(fault);
        }
    }

    fn page(&mut self, manner: Manner, document: &[u8], lent: Lent) -> Expected {
        if document.len() > DOCUMENT_LIMIT {
            return refused(1);
        }
        let unlimited = Lent {
            output: usize::MAX,
            ..lent
        };
        let mut page = Expected::default();
        for (turn, piece) in pieces(document).into_iter().enumerate() {
            if turn % 2 == 1 {
                page.output.extend_from_slice(piece);
                continue;
            }
            page.paragraphs += 1;
            let replaced = self.replace(manner, piece, unlimited);
            if replaced.number == 0 {
                page.output.extend_from_slice(&replaced.output);
            } else {
                page.left += 1;
                page.output.extend_from_slice(piece);
            }
        }
        if page.output.len() > lent.output {
            return refused(12);
        }
        page
    }
}
