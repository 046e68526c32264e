//! A page cut as document 02 says: a line end is LF or CR LF, and a break is a maximal run of two or more of them.

/// Where each line end begins and ends: each has one LF, and the CR before it where there is one.
fn line_ends(document: &[u8]) -> Vec<(usize, usize)> {
    let feeds = (0..document.len()).filter(|&at| document[at] == b'\n');
    let ends = feeds.map(|at| {
        let carriage = document[..at].ends_with(b"\r");
        (at - usize::from(carriage), at + 1)
    });
    ends.collect()
}

/// The paragraphs of a page and the breaks behind them, in turn.
pub fn pieces(document: &[u8]) -> Vec<&[u8]> {
    let mut pieces = Vec::new();
    let mut begin = 0;
    let ends = line_ends(document);
    for run in ends.chunk_by(|one, next| one.1 == next.0) {
        if let [first, .., last] = run {
            pieces.push(&document[begin..first.0]);
            pieces.push(&document[first.0..last.1]);
            begin = last.1;
        }
    }
    pieces.push(&document[begin..]);
    pieces
}
