//! Calls of the exported functions over guarded buffers, so that every untouched byte can be looked at.

use crate::case::{Lent, Manner, Operation, Way};
use crate::compare::shown;
use crate::ffi;
use crate::reckon::Expected;

const GUARD: usize = 64;
const UNSET: u64 = 0xdead_beef_dead_beef;

/// Bytes that no markup and no text has, different from place to place.
fn pattern(at: usize) -> u8 {
    0xf5 + (at % 11) as u8
}

/// A lent slice with guards on both sides.
#[derive(Default)]
struct Region {
    bytes: Vec<u8>,
    clean: Vec<u8>,
    length: usize,
}

impl Region {
    fn grow(&mut self, length: usize) {
        self.length = length;
        let whole = length + 2 * GUARD;
        while self.clean.len() < whole {
            self.clean.push(pattern(self.clean.len()));
        }
        if self.bytes.len() < whole {
            self.bytes.resize(whole, 0);
        }
    }

    fn fill(&mut self, length: usize) {
        self.grow(length);
        let whole = length + 2 * GUARD;
        self.bytes[..whole].copy_from_slice(&self.clean[..whole]);
    }

    /// Fills the guards only: what a free buffer holds at the call must not matter.
    fn fill_guards(&mut self, length: usize) {
        self.grow(length);
        let end = GUARD + length;
        self.bytes[..GUARD].copy_from_slice(&self.clean[..GUARD]);
        self.bytes[end..end + GUARD].copy_from_slice(&self.clean[end..end + GUARD]);
    }

    fn hold(&mut self, input: &[u8]) {
        self.fill_guards(input.len());
        self.bytes[GUARD..GUARD + input.len()].copy_from_slice(input);
    }

    fn start(&mut self) -> *mut u8 {
        self.bytes[GUARD..].as_mut_ptr()
    }

    /// Whether the slice begins with the text and all else is as it was.
    fn begins_with(&self, text: &[u8]) -> bool {
        let end = GUARD + text.len();
        let whole = self.length + 2 * GUARD;
        text.len() <= self.length
            && self.bytes[..GUARD] == self.clean[..GUARD]
            && self.bytes[GUARD..end] == *text
            && self.bytes[end..whole] == self.clean[end..whole]
    }

    fn guards_hold(&self) -> bool {
        let end = GUARD + self.length;
        self.bytes[..GUARD] == self.clean[..GUARD]
            && self.bytes[end..end + GUARD] == self.clean[end..end + GUARD]
    }

    fn first(&self, length: usize) -> &[u8] {
        &self.bytes[GUARD..GUARD + length.min(self.length)]
    }
}

#[derive(Default)]
pub struct Port {
    input: Region,
    store: Region,
    work: Region,
    output: Region,
    number: u32,
    length: u64,
    paragraphs: u64,
    left: u64,
}

impl Port {
    pub fn call(&mut self, way: Way, operation: Operation, input: &[u8], lent: Lent) {
        self.input.hold(input);
        self.store.fill_guards(lent.store);
        self.output.fill(lent.output);
        (self.length, self.paragraphs, self.left) = (UNSET, UNSET, UNSET);
        match operation {
            Operation::Body { block } => self.body(way, block),
            Operation::Replacement => {
                self.work.fill(lent.work);
                self.replacement(way);
            }
            Operation::Page => {
                self.work.fill_guards(lent.work);
                self.page(way);
            }
        }
    }

    fn body(&mut self, way: Way, block: bool) {
        let (text, text_len) = (self.input.start(), self.input.length);
        let (store, store_len) = (self.store.start(), self.store.length);
        let (out, out_len) = (self.output.start(), self.output.length);
        let size = &mut self.length;
        // SAFETY: each pointer is to a region that has the length passed with it, and none overlap.
        self.number = unsafe {
            match way {
                Way::Plain => ffi::latex_to_mathml(
                    text, text_len, block, store, store_len, out, out_len, size,
                ),
                Way::In(Manner { strict }) => ffi::latex_to_mathml_in(
                    text, text_len, block, strict, store, store_len, out, out_len, size,
                ),
                Way::Converter => {
                    ffi::latex_convert(text, text_len, block, store, store_len, out, out_len, size)
                }
            }
        };
    }

    fn replacement(&mut self, way: Way) {
        let (text, text_len) = (self.input.start(), self.input.length);
        let (store, store_len) = (self.store.start(), self.store.length);
        let (work, work_len) = (self.work.start(), self.work.length);
        let (out, out_len) = (self.output.start(), self.output.length);
        let size = &mut self.length;
        // SAFETY: as in `body`.
        self.number = unsafe {
            match way {
                Way::Plain => ffi::latex_replace(
                    text, text_len, store, store_len, work, work_len, out, out_len, size,
                ),
                Way::In(Manner { strict }) => ffi::latex_replace_in(
                    text, text_len, strict, store, store_len, work, work_len, out, out_len, size,
                ),
                Way::Converter => unreachable!("it has bodies only"),
            }
        };
    }

    fn page(&mut self, way: Way) {
        let (text, text_len) = (self.input.start(), self.input.length);
        let (store, store_len) = (self.store.start(), self.store.length);
        let (work, work_len) = (self.work.start(), self.work.length);
        let (out, out_len) = (self.output.start(), self.output.length);
        let (size, count, left) = (&mut self.length, &mut self.paragraphs, &mut self.left);
        // SAFETY: as in `body`.
        self.number = unsafe {
            match way {
                Way::Plain => ffi::latex_page(
                    text, text_len, store, store_len, work, work_len, out, out_len, size, count,
                    left,
                ),
                Way::In(Manner { strict }) => ffi::latex_page_in(
                    text, text_len, strict, store, store_len, work, work_len, out, out_len, size,
                    count, left,
                ),
                Way::Converter => unreachable!("it has bodies only"),
            }
        };
    }

    /// What differs from the expected answer first.
    pub fn difference(
        &self,
        operation: Operation,
        input: &[u8],
        expected: &Expected,
    ) -> Option<&'static str> {
        let counts = match operation {
            Operation::Page => (expected.paragraphs, expected.left),
            _ => (UNSET, UNSET),
        };
        let work_holds = match operation {
            Operation::Body { .. } => true,
            Operation::Replacement => self.work.begins_with(&expected.work),
            Operation::Page => self.work.guards_hold(),
        };
        let checks = [
            (self.number == expected.number, "number"),
            (self.length == expected.output.len() as u64, "length"),
            (self.output.begins_with(&expected.output), "output"),
            (work_holds, "work buffer"),
            ((self.paragraphs, self.left) == counts, "counts"),
            (self.store.guards_hold(), "bytes around the store"),
            (
                self.input.guards_hold() && self.input.first(input.len()) == input,
                "input",
            ),
        ];
        checks
            .iter()
            .find(|(holds, _)| !holds)
            .map(|(_, what)| *what)
    }

    /// The answer in words, for a report.
    pub fn describe(&self) -> String {
        let count = |value: u64| match value {
            UNSET => "unset".to_owned(),
            value => value.to_string(),
        };
        format!(
            "number {}, length {}, paragraphs {}, left {}, output \"{}\"",
            self.number,
            count(self.length),
            count(self.paragraphs),
            count(self.left),
            shown(self.output.first(self.length.min(400) as usize))
        )
    }
}
