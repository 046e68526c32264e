//! The operations in a manner of printing that the caller chooses: document 02's strict dialect, or the crate's own.

use crate::{answered, ffi, Display, Lent, Page, Refusal};

/// How an operation prints.
#[derive(Clone, Copy, Debug, Default, PartialEq, Eq)]
pub struct Manner {
    /// whether an XML parser takes the markup of each formula: the old dialect, the crate's own, has stray `<` and `</mro>`
    pub strict: bool,
}

impl Manner {
    /// The crate's markup, as `latex_to_mathml`, `replace` and `page` print it.
    pub const OLD: Manner = Manner { strict: false };
    /// The same but for what XML asks: text escaped, tags closed by their own names, attributes quoted.
    pub const STRICT: Manner = Manner { strict: true };
}

/// Translates one body; the work buffer is not used.
pub fn latex_to_mathml_in<'l>(
    latex: &[u8],
    display: Display,
    manner: Manner,
    lent: &'l mut Lent<'_>,
) -> Result<&'l [u8], Refusal> {
    let mut length = 0;
    // SAFETY: each pointer and length is of one slice, never null, and the slices cannot overlap since Rust lent them.
    let number = unsafe {
        ffi::latex_to_mathml_in(
            latex.as_ptr(),
            latex.len(),
            display == Display::Block,
            manner.strict,
            lent.store.as_mut_ptr(),
            lent.store.len(),
            lent.output.as_mut_ptr(),
            lent.output.len(),
            &mut length,
        )
    };
    answered(number, length, lent.output)
}

/// Replaces each formula between dollars in a document; prose is copied, so the whole is well-formed only where the prose is.
pub fn replace_in<'l>(
    document: &[u8],
    manner: Manner,
    lent: &'l mut Lent<'_>,
) -> Result<&'l [u8], Refusal> {
    let mut length = 0;
    // SAFETY: as in `latex_to_mathml_in`.
    let number = unsafe {
        ffi::latex_replace_in(
            document.as_ptr(),
            document.len(),
            manner.strict,
            lent.store.as_mut_ptr(),
            lent.store.len(),
            lent.work.as_mut_ptr(),
            lent.work.len(),
            lent.output.as_mut_ptr(),
            lent.output.len(),
            &mut length,
        )
    };
    answered(number, length, lent.output)
}

/// Makes a page: each paragraph replaced, or as typed where the replacement in this manner refuses it.
pub fn page_in<'l>(
    document: &[u8],
    manner: Manner,
    lent: &'l mut Lent<'_>,
) -> Result<Page<'l>, Refusal> {
    let (mut length, mut paragraphs, mut refused) = (0, 0, 0);
    // SAFETY: as in `latex_to_mathml_in`.
    let number = unsafe {
        ffi::latex_page_in(
            document.as_ptr(),
            document.len(),
            manner.strict,
            lent.store.as_mut_ptr(),
            lent.store.len(),
            lent.work.as_mut_ptr(),
            lent.work.len(),
            lent.output.as_mut_ptr(),
            lent.output.len(),
            &mut length,
            &mut paragraphs,
            &mut refused,
        )
    };
    let output = answered(number, length, lent.output)?;
    Ok(Page {
        output,
        paragraphs,
        refused,
    })
}

/// Translates a body that stands in the old dialect into the strict one: the body again and not its markup.
pub fn convert<'l>(
    latex: &[u8],
    display: Display,
    lent: &'l mut Lent<'_>,
) -> Result<&'l [u8], Refusal> {
    let mut length = 0;
    // SAFETY: as in `latex_to_mathml_in`.
    let number = unsafe {
        ffi::latex_convert(
            latex.as_ptr(),
            latex.len(),
            display == Display::Block,
            lent.store.as_mut_ptr(),
            lent.store.len(),
            lent.output.as_mut_ptr(),
            lent.output.len(),
            &mut length,
        )
    };
    answered(number, length, lent.output)
}
