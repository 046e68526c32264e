//! The three operations of document 01 for a host program: body translation, replacement and page, over buffers that the
//! caller lends; and beside them the same in document 02's strict dialect, and the converter. They take about 1 MB of stack
//! at most (decision 52).

pub mod ffi;
pub mod formula;
mod manner;
pub mod paragraph;
mod refusal;

pub use manner::{convert, latex_to_mathml_in, page_in, replace_in, Manner};
pub use refusal::Refusal;

/// Buffers of any size, 0 too, that an operation works in; nothing else is allocated.
pub struct Lent<'b> {
    /// 24 bytes for a node record, of which a body needs twice as many as it has bytes; what it holds afterwards is free
    pub store: &'b mut [u8],
    /// after a replacement that got past refusal 11 it begins with the text of pass one, after a page its bytes are free
    pub work: &'b mut [u8],
    /// unchanged by a refusal
    pub output: &'b mut [u8],
}

/// How a formula is set.
#[derive(Clone, Copy, Debug, PartialEq, Eq)]
pub enum Display {
    /// on a line of its own, as between double dollars
    Block,
    /// in the text, as between single dollars
    Inline,
}

/// A page that was made.
#[derive(Clone, Copy, Debug, PartialEq, Eq)]
pub struct Page<'l> {
    /// the first bytes of the lent output
    pub output: &'l [u8],
    /// how many paragraphs the document has
    pub paragraphs: u64,
    /// how many of them were refused and so stand as typed
    pub refused: u64,
}

/// Translates one body; the work buffer is not used.
pub fn latex_to_mathml<'l>(
    latex: &[u8],
    display: Display,
    lent: &'l mut Lent<'_>,
) -> Result<&'l [u8], Refusal> {
    let mut length = 0;
    // SAFETY: each pointer and length is of one slice, never null, and the slices cannot overlap since Rust lent them.
    let number = unsafe {
        ffi::latex_to_mathml(
            latex.as_ptr(),
            latex.len(),
            display == Display::Block,
            lent.store.as_mut_ptr(),
            lent.store.len(),
            lent.output.as_mut_ptr(),
            lent.output.len(),
            &mut length,
        )
    };
    answered(number, length, lent.output)
}

/// Replaces each formula between dollars in a document.
pub fn replace<'l>(document: &[u8], lent: &'l mut Lent<'_>) -> Result<&'l [u8], Refusal> {
    let mut length = 0;
    // SAFETY: as in `latex_to_mathml`.
    let number = unsafe {
        ffi::latex_replace(
            document.as_ptr(),
            document.len(),
            lent.store.as_mut_ptr(),
            lent.store.len(),
            lent.work.as_mut_ptr(),
            lent.work.len(),
            lent.output.as_mut_ptr(),
            lent.output.len(),
            &mut length,
        )
    };
    answered(number, length, lent.output)
}

/// Makes a page: each paragraph replaced, or as typed where the replacement refuses it.
pub fn page<'l>(document: &[u8], lent: &'l mut Lent<'_>) -> Result<Page<'l>, Refusal> {
    let (mut length, mut paragraphs, mut refused) = (0, 0, 0);
    // SAFETY: as in `latex_to_mathml`.
    let number = unsafe {
        ffi::latex_page(
            document.as_ptr(),
            document.len(),
            lent.store.as_mut_ptr(),
            lent.store.len(),
            lent.work.as_mut_ptr(),
            lent.work.len(),
            lent.output.as_mut_ptr(),
            lent.output.len(),
            &mut length,
            &mut paragraphs,
            &mut refused,
        )
    };
    let output = answered(number, length, lent.output)?;
    Ok(Page {
        output,
        paragraphs,
        refused,
    })
}

/// What a number and a length say about the output; an archive of another version is not believed blindly.
fn answered(number: u32, length: u64, output: &[u8]) -> Result<&[u8], Refusal> {
    if number != 0 {
        return Err(Refusal::from_number(number));
    }
    usize::try_from(length)
        .ok()
        .and_then(|length| output.get(..length))
        .ok_or(Refusal::Unknown(0))
}

#[cfg(test)]
mod tests {
    use super::*;

    #[test]
    fn an_answer_within_the_output_is_its_first_bytes() {
        assert_eq!(answered(0, 2, b"abc"), Ok(&b"ab"[..]));
        assert_eq!(answered(0, 3, b"abc"), Ok(&b"abc"[..]));
        assert_eq!(answered(0, 0, b""), Ok(&b""[..]));
    }

    #[test]
    fn an_answer_that_no_archive_may_give_is_a_refusal() {
        assert_eq!(answered(0, 4, b"abc"), Err(Refusal::Unknown(0)));
        assert_eq!(answered(0, u64::MAX, b"abc"), Err(Refusal::Unknown(0)));
        assert_eq!(answered(99, 2, b"abc"), Err(Refusal::Unknown(99)));
    }

    #[test]
    fn a_number_refuses_whatever_the_length() {
        assert_eq!(answered(7, 3, b"abc"), Err(Refusal::MissingParensethis));
    }
}
