//! The functions of an archive behind pointers, so that the port and the port before a change are called alike.

use crate::ffi;

type Body = unsafe extern "C" fn(
    latex: *const u8,
    latex_len: usize,
    block: bool,
    store: *mut u8,
    store_len: usize,
    output: *mut u8,
    output_len: usize,
    length: *mut u64,
) -> u32;

type Replacement = unsafe extern "C" fn(
    document: *const u8,
    document_len: usize,
    store: *mut u8,
    store_len: usize,
    work: *mut u8,
    work_len: usize,
    output: *mut u8,
    output_len: usize,
    length: *mut u64,
) -> u32;

type Page = unsafe extern "C" fn(
    document: *const u8,
    document_len: usize,
    store: *mut u8,
    store_len: usize,
    work: *mut u8,
    work_len: usize,
    output: *mut u8,
    output_len: usize,
    length: *mut u64,
    paragraphs: *mut u64,
    refused: *mut u64,
) -> u32;

pub struct Archive {
    pub body: Body,
    pub replacement: Replacement,
    pub page: Page,
}

pub const PORT: Archive = Archive {
    body: ffi::latex_to_mathml,
    replacement: ffi::latex_replace,
    page: ffi::latex_page,
};

#[cfg(not(before))]
pub const BEFORE: Option<Archive> = None;

#[cfg(before)]
pub const BEFORE: Option<Archive> = Some(Archive {
    body: before_latex_to_mathml,
    replacement: before_latex_replace,
    page: before_latex_page,
});

// The names that `run` gives the functions of the other archive, which has them under the port's.
#[cfg(before)]
extern "C" {
    fn before_latex_to_mathml(
        latex: *const u8,
        latex_len: usize,
        block: bool,
        store: *mut u8,
        store_len: usize,
        output: *mut u8,
        output_len: usize,
        length: *mut u64,
    ) -> u32;

    fn before_latex_replace(
        document: *const u8,
        document_len: usize,
        store: *mut u8,
        store_len: usize,
        work: *mut u8,
        work_len: usize,
        output: *mut u8,
        output_len: usize,
        length: *mut u64,
    ) -> u32;

    fn before_latex_page(
        document: *const u8,
        document_len: usize,
        store: *mut u8,
        store_len: usize,
        work: *mut u8,
        work_len: usize,
        output: *mut u8,
        output_len: usize,
        length: *mut u64,
        paragraphs: *mut u64,
        refused: *mut u64,
    ) -> u32;
}
