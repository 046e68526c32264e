//! Calls with patterned buffers that check, for every answer, which bytes the operation may have changed.

use host::{convert, ffi, latex_to_mathml, latex_to_mathml_in, page, page_in, replace, replace_in};
use host::{Display, Lent, Manner, Page, Refusal};

/// What an operation is expected to give: its bytes, or the number of the refusal.
pub type Expected<'e> = Result<&'e [u8], u32>;

/// How many bytes are lent.
#[derive(Clone, Copy)]
pub struct Sizes {
    pub store: usize,
    pub work: usize,
    pub output: usize,
}

impl Sizes {
    pub fn with_store(self, store: usize) -> Sizes {
        Sizes { store, ..self }
    }

    pub fn with_work(self, work: usize) -> Sizes {
        Sizes { work, ..self }
    }

    pub fn with_output(self, output: usize) -> Sizes {
        Sizes { output, ..self }
    }
}

/// Enough for every body and document within the limits that the tests have.
pub const AMPLE: Sizes = Sizes {
    store: 2 * 4_096 * 24,
    work: 65_536,
    output: 65_536,
};

pub const NOTHING: Sizes = Sizes {
    store: 0,
    work: 0,
    output: 0,
};

/// Two fills, since no answer may depend on what a buffer held before.
const FILLS: [u8; 2] = [0x80, 0xC1];

/// Bytes that no answer of the tests has at the same places.
fn pattern(size: usize, fill: u8) -> Vec<u8> {
    (0..size).map(|i| fill | (i % 61) as u8).collect()
}

/// A pattern whose first bytes are overwritten.
fn over(text: &[u8], size: usize, fill: u8) -> Vec<u8> {
    let mut bytes = pattern(size, fill);
    bytes[..text.len()].copy_from_slice(text);
    bytes
}

struct Buffers {
    store: Vec<u8>,
    work: Vec<u8>,
    output: Vec<u8>,
}

impl Buffers {
    fn new(sizes: Sizes, fill: u8) -> Buffers {
        Buffers {
            store: pattern(sizes.store, fill),
            work: pattern(sizes.work, fill),
            output: pattern(sizes.output, fill),
        }
    }

    fn lend(&mut self) -> Lent<'_> {
        Lent {
            store: &mut self.store,
            work: &mut self.work,
            output: &mut self.output,
        }
    }
}

/// An answer as bytes or number, owned so that the buffers can be read.
fn owned(answer: Result<&[u8], Refusal>) -> Result<Vec<u8>, u32> {
    answer.map(<[u8]>::to_vec).map_err(Refusal::number)
}

/// Named by its beginning, since a failure should not print a whole page.
fn short(input: &[u8]) -> String {
    let text = String::from_utf8_lossy(&input[..input.len().min(60)]).into_owned();
    format!("{text:?} ({} bytes)", input.len())
}

fn same(got: &[u8], want: &[u8], what: &str, way: Way, input: &[u8]) {
    if got != want {
        let at = got.iter().zip(want).take_while(|(g, w)| g == w).count();
        let input = short(input);
        panic!("{what} differs from byte {at} on, for {input}, {way:?}");
    }
}

fn same_answer(got: Result<Vec<u8>, u32>, want: Expected<'_>, way: Way, input: &[u8]) {
    let input = short(input);
    match (&got, want) {
        (Ok(got), Ok(want)) => {
            let texts = [got, want].map(String::from_utf8_lossy);
            assert_eq!(texts[0], texts[1], "for {input}, {way:?}");
            assert_eq!(got, want, "for {input}, {way:?}");
        }
        _ => assert_eq!(got, want.map(<[u8]>::to_vec), "for {input}, {way:?}"),
    }
}

/// Which of the functions for an operation is asked.
#[derive(Clone, Copy, Debug, PartialEq, Eq)]
pub enum Way {
    /// document 01's, in the old dialect
    Plain,
    /// the one that takes a manner
    In(Manner),
    /// the converter, which has bodies only
    Converter,
}

/// All of them.
pub const WAYS: [Way; 4] = [
    Way::Plain,
    Way::In(Manner::OLD),
    Way::In(Manner::STRICT),
    Way::Converter,
];

/// Those of a dialect.
fn ways(manner: Manner) -> &'static [Way] {
    if manner.strict {
        &WAYS[2..]
    } else {
        &WAYS[..2]
    }
}

fn translated<'l>(
    way: Way,
    latex: &[u8],
    display: Display,
    lent: &'l mut Lent<'_>,
) -> Result<&'l [u8], Refusal> {
    match way {
        Way::Plain => latex_to_mathml(latex, display, lent),
        Way::In(manner) => latex_to_mathml_in(latex, display, manner, lent),
        Way::Converter => convert(latex, display, lent),
    }
}

/// Nothing where the way has no replacement.
fn replaced<'l>(
    way: Way,
    document: &[u8],
    lent: &'l mut Lent<'_>,
) -> Option<Result<&'l [u8], Refusal>> {
    match way {
        Way::Plain => Some(replace(document, lent)),
        Way::In(manner) => Some(replace_in(document, manner, lent)),
        Way::Converter => None,
    }
}

/// Nothing where the way has no page.
fn page_made<'l>(
    way: Way,
    document: &[u8],
    lent: &'l mut Lent<'_>,
) -> Option<Result<Page<'l>, Refusal>> {
    match way {
        Way::Plain => Some(page(document, lent)),
        Way::In(manner) => Some(page_in(document, manner, lent)),
        Way::Converter => None,
    }
}

/// Body translation in each dialect, where both give the same.
pub fn body(latex: &[u8], display: Display, sizes: Sizes, want: Expected<'_>) {
    body_in(Manner::OLD, latex, display, sizes, want);
    body_in(Manner::STRICT, latex, display, sizes, want);
}

/// Body translation: its answer, an output changed only where accepted, and a work buffer that nobody touched.
pub fn body_in(manner: Manner, latex: &[u8], display: Display, sizes: Sizes, want: Expected<'_>) {
    for (way, fill) in asked(manner) {
        let mut b = Buffers::new(sizes, fill);
        let got = owned(translated(way, latex, display, &mut b.lend()));
        same_answer(got, want, way, latex);
        let written = want.unwrap_or(b"");
        same(
            &b.output,
            &over(written, sizes.output, fill),
            "the output",
            way,
            latex,
        );
        same(
            &b.work,
            &pattern(sizes.work, fill),
            "the work buffer",
            way,
            latex,
        );
    }
}

/// Every way of a dialect with every fill.
fn asked(manner: Manner) -> impl Iterator<Item = (Way, u8)> {
    ways(manner)
        .iter()
        .flat_map(|&way| FILLS.map(|fill| (way, fill)))
}

/// Replacement in each dialect, where both give the same.
pub fn replacement(document: &[u8], sizes: Sizes, want: Expected<'_>, first: Option<&[u8]>) {
    replacement_in(Manner::OLD, document, sizes, want, first);
    replacement_in(Manner::STRICT, document, sizes, want, first);
}

/// Replacement: besides, a work buffer that begins with the text of pass one, or with nothing new where `first` is none.
pub fn replacement_in(
    manner: Manner,
    document: &[u8],
    sizes: Sizes,
    want: Expected<'_>,
    first: Option<&[u8]>,
) {
    for (way, fill) in asked(manner) {
        let mut b = Buffers::new(sizes, fill);
        let Some(got) = replaced(way, document, &mut b.lend()).map(owned) else {
            continue;
        };
        same_answer(got, want, way, document);
        let written = want.unwrap_or(b"");
        same(
            &b.output,
            &over(written, sizes.output, fill),
            "the output",
            way,
            document,
        );
        let text = first.unwrap_or(b"");
        same(
            &b.work,
            &over(text, sizes.work, fill),
            "the work buffer",
            way,
            document,
        );
    }
}

/// Page in each dialect, where both give the same.
pub fn paged(document: &[u8], sizes: Sizes, want: Result<(&[u8], u64, u64), u32>) {
    paged_in(Manner::OLD, document, sizes, want);
    paged_in(Manner::STRICT, document, sizes, want);
}

/// Page: its bytes and the two counts, or a number; the work buffer is free.
pub fn paged_in(
    manner: Manner,
    document: &[u8],
    sizes: Sizes,
    want: Result<(&[u8], u64, u64), u32>,
) {
    for (way, fill) in asked(manner) {
        let mut b = Buffers::new(sizes, fill);
        let mut lent = b.lend();
        let Some(answer) = page_made(way, document, &mut lent) else {
            continue;
        };
        let counts = answer.map(|page| (page.paragraphs, page.refused));
        let got = owned(answer.map(|page| page.output));
        same_answer(got, want.map(|w| w.0), way, document);
        let counts = counts.map_err(Refusal::number);
        let input = short(document);
        assert_eq!(counts, want.map(|w| (w.1, w.2)), "for {input}, {way:?}");
        let written = want.map_or(&b""[..], |w| w.0);
        same(
            &b.output,
            &over(written, sizes.output, fill),
            "the output",
            way,
            document,
        );
    }
}

/// What the exported functions write through their references: number and length, and for a page the two counts.
#[derive(Debug, PartialEq, Eq)]
pub struct Raw {
    pub number: u32,
    pub length: u64,
    pub paragraphs: u64,
    pub refused: u64,
}

/// No answer is this long, so it shows where nothing was written.
pub const UNWRITTEN: u64 = 0xDEAD_BEEF;

pub fn raw_body(way: Way, latex: &[u8], sizes: Sizes) -> Raw {
    let mut b = Buffers::new(sizes, FILLS[0]);
    let (text, text_len) = (latex.as_ptr(), latex.len());
    let (store, store_len) = (b.store.as_mut_ptr(), b.store.len());
    let (out, out_len) = (b.output.as_mut_ptr(), b.output.len());
    let mut length = UNWRITTEN;
    let size = &mut length;
    // SAFETY: pointers and lengths of slices that are lent for the call.
    let number = unsafe {
        match way {
            Way::Plain => {
                ffi::latex_to_mathml(text, text_len, true, store, store_len, out, out_len, size)
            }
            Way::In(Manner { strict }) => ffi::latex_to_mathml_in(
                text, text_len, true, strict, store, store_len, out, out_len, size,
            ),
            Way::Converter => {
                ffi::latex_convert(text, text_len, true, store, store_len, out, out_len, size)
            }
        }
    };
    Raw {
        number,
        length,
        paragraphs: UNWRITTEN,
        refused: UNWRITTEN,
    }
}

/// Nothing where the way has no replacement.
pub fn raw_replacement(way: Way, document: &[u8], sizes: Sizes) -> Option<Raw> {
    let mut b = Buffers::new(sizes, FILLS[0]);
    let (text, text_len) = (document.as_ptr(), document.len());
    let (store, store_len) = (b.store.as_mut_ptr(), b.store.len());
    let (work, work_len) = (b.work.as_mut_ptr(), b.work.len());
    let (out, out_len) = (b.output.as_mut_ptr(), b.output.len());
    let mut length = UNWRITTEN;
    let size = &mut length;
    // SAFETY: as in `raw_body`.
    let number = unsafe {
        match way {
            Way::Plain => ffi::latex_replace(
                text, text_len, store, store_len, work, work_len, out, out_len, size,
            ),
            Way::In(Manner { strict }) => ffi::latex_replace_in(
                text, text_len, strict, store, store_len, work, work_len, out, out_len, size,
            ),
            Way::Converter => return None,
        }
    };
    Some(Raw {
        number,
        length,
        paragraphs: UNWRITTEN,
        refused: UNWRITTEN,
    })
}

/// Nothing where the way has no page.
pub fn raw_page(way: Way, document: &[u8], sizes: Sizes) -> Option<Raw> {
    let mut b = Buffers::new(sizes, FILLS[0]);
    let (text, text_len) = (document.as_ptr(), document.len());
    let (store, store_len) = (b.store.as_mut_ptr(), b.store.len());
    let (work, work_len) = (b.work.as_mut_ptr(), b.work.len());
    let (out, out_len) = (b.output.as_mut_ptr(), b.output.len());
    let (mut length, mut paragraphs, mut refused) = (UNWRITTEN, UNWRITTEN, UNWRITTEN);
    let (size, count, left) = (&mut length, &mut paragraphs, &mut refused);
    // SAFETY: as in `raw_body`.
    let number = unsafe {
        match way {
            Way::Plain => ffi::latex_page(
                text, text_len, store, store_len, work, work_len, out, out_len, size, count, left,
            ),
            Way::In(Manner { strict }) => ffi::latex_page_in(
                text, text_len, strict, store, store_len, work, work_len, out, out_len, size,
                count, left,
            ),
            Way::Converter => return None,
        }
    };
    Some(Raw {
        number,
        length,
        paragraphs,
        refused,
    })
}
