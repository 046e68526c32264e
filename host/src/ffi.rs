//! The exported functions of `panel_c`, as the archive has them: a slice passes as a pointer and a length.

extern "C" {
    pub fn latex_to_mathml(
        latex: *const u8,
        latex_len: usize,
        block: bool,
        store: *mut u8,
        store_len: usize,
        output: *mut u8,
        output_len: usize,
        length: *mut u64,
    ) -> u32;

    pub fn latex_replace(
        document: *const u8,
        document_len: usize,
        store: *mut u8,
        store_len: usize,
        work: *mut u8,
        work_len: usize,
        output: *mut u8,
        output_len: usize,
        length: *mut u64,
    ) -> u32;

    pub fn latex_page(
        document: *const u8,
        document_len: usize,
        store: *mut u8,
        store_len: usize,
        work: *mut u8,
        work_len: usize,
        output: *mut u8,
        output_len: usize,
        length: *mut u64,
        paragraphs: *mut u64,
        refused: *mut u64,
    ) -> u32;

    pub fn latex_to_mathml_in(
        latex: *const u8,
        latex_len: usize,
        block: bool,
        strict: bool,
        store: *mut u8,
        store_len: usize,
        output: *mut u8,
        output_len: usize,
        length: *mut u64,
    ) -> u32;

    pub fn latex_replace_in(
        document: *const u8,
        document_len: usize,
        strict: bool,
        store: *mut u8,
        store_len: usize,
        work: *mut u8,
        work_len: usize,
        output: *mut u8,
        output_len: usize,
        length: *mut u64,
    ) -> u32;

    pub fn latex_page_in(
        document: *const u8,
        document_len: usize,
        strict: bool,
        store: *mut u8,
        store_len: usize,
        work: *mut u8,
        work_len: usize,
        output: *mut u8,
        output_len: usize,
        length: *mut u64,
        paragraphs: *mut u64,
        refused: *mut u64,
    ) -> u32;

    pub fn latex_convert(
        latex: *const u8,
        latex_len: usize,
        block: bool,
        store: *mut u8,
        store_len: usize,
        output: *mut u8,
        output_len: usize,
        length: *mut u64,
    ) -> u32;
}
