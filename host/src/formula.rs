//! Which formula of a document its replacement refuses: the bodies are translated alone, in the order of the replacement.

use crate::{latex_to_mathml_in, Display, Lent, Manner, Refusal};

/// A formula whose body is refused.
#[derive(Clone, Debug, PartialEq, Eq)]
pub struct Formula {
    /// block between double dollars, inline between single ones
    pub display: Display,
    /// its place among those of the same display, from 1
    pub number: usize,
    /// its body as the replacement reads it, so with markup where pass one has put it
    pub body: Vec<u8>,
    /// why
    pub refusal: Refusal,
}

/// The first formula that is refused in a document whose replacement is refused in a body; none where dollars do not pair.
pub fn first_refused(document: &[u8], store: &mut [u8]) -> Option<Formula> {
    first_refused_in(document, Manner::OLD, store)
}

/// The same where the document is replaced in this manner.
pub fn first_refused_in(document: &[u8], manner: Manner, store: &mut [u8]) -> Option<Formula> {
    match pass(document, Display::Block, manner, store) {
        Ok(text) => pass(&text, Display::Inline, manner, store).err().flatten(),
        Err(stop) => stop,
    }
}

/// The text after one pass, or the formula that stops it.
fn pass(
    text: &[u8],
    display: Display,
    manner: Manner,
    store: &mut [u8],
) -> Result<Vec<u8>, Option<Formula>> {
    let mark: &[u8] = match display {
        Display::Block => b"$$",
        Display::Inline => b"$",
    };
    let marks = places(text, mark);
    if marks.len() % 2 != 0 {
        return Err(None);
    }
    let mut out = Vec::new();
    let mut behind = 0;
    for (number, pair) in (1..).zip(marks.chunks_exact(2)) {
        // no slice where three dollars stand in a row and their windows overlap
        let prose = text.get(behind..pair[0]).ok_or(None)?;
        let body = text.get(pair[0] + mark.len()..pair[1]).ok_or(None)?;
        let markup = translate(body, display, manner, store).map_err(|refusal| Formula {
            display,
            number,
            body: body.to_vec(),
            refusal,
        })?;
        out.extend_from_slice(prose);
        out.extend_from_slice(&markup);
        behind = pair[1] + mark.len();
    }
    out.extend_from_slice(&text[behind..]);
    Ok(out)
}

/// Where the mark stands, overlapping places too.
fn places(text: &[u8], mark: &[u8]) -> Vec<usize> {
    let windows = text.windows(mark.len()).enumerate();
    windows
        .filter(|(_, w)| *w == mark)
        .map(|(i, _)| i)
        .collect()
}

/// A body translated alone, with an output long enough.
fn translate(
    body: &[u8],
    display: Display,
    manner: Manner,
    store: &mut [u8],
) -> Result<Vec<u8>, Refusal> {
    let mut output = vec![0; 1024];
    loop {
        let mut lent = Lent {
            store,
            work: &mut [],
            output: &mut output,
        };
        match latex_to_mathml_in(body, display, manner, &mut lent) {
            Ok(markup) => return Ok(markup.to_vec()),
            Err(Refusal::OutputTooSmall) => output.resize(2 * output.len(), 0),
            Err(refusal) => return Err(refusal),
        }
    }
}
