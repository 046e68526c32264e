//! The paragraphs of a document and the lines that they stand on.

/// A piece before, between or behind breaks.
#[derive(Clone, Copy, Debug, PartialEq, Eq)]
pub struct Paragraph<'d> {
    /// its bytes
    pub text: &'d [u8],
    /// the line of its first byte, from 1
    pub first_line: usize,
    /// the line of its last byte; a line end, LF or CR LF, belongs to the line that it ends
    pub last_line: usize,
}

/// Cuts a document at its breaks, the maximal runs of two or more line ends.
pub fn paragraphs(document: &[u8]) -> Vec<Paragraph<'_>> {
    let mut found = Vec::new();
    let (mut start, mut line) = (0, 1);
    for (from, to) in breaks(document) {
        found.push(paragraph(&document[start..from], line));
        line += line_feeds(&document[start..to]);
        start = to;
    }
    found.push(paragraph(&document[start..], line));
    found
}

fn paragraph(text: &[u8], first_line: usize) -> Paragraph<'_> {
    let before_the_last = &text[..text.len().saturating_sub(1)];
    Paragraph {
        text,
        first_line,
        last_line: first_line + line_feeds(before_the_last),
    }
}

/// Where each break begins and where the text goes on behind it.
fn breaks(document: &[u8]) -> Vec<(usize, usize)> {
    let mut found = Vec::new();
    let mut at = 0;
    while at < document.len() {
        let (run, ends) = line_ends(&document[at..]);
        if ends >= 2 {
            found.push((at, at + run));
        }
        at += run.max(1);
    }
    found
}

/// How many bytes at the head are line ends, and how many line ends they are; a CR alone is none.
fn line_ends(text: &[u8]) -> (usize, usize) {
    let (mut run, mut ends) = (0, 0);
    loop {
        run += match text[run..] {
            [b'\n', ..] => 1,
            [b'\r', b'\n', ..] => 2,
            _ => return (run, ends),
        };
        ends += 1;
    }
}

fn line_feeds(text: &[u8]) -> usize {
    text.iter().filter(|b| **b == b'\n').count()
}

#[cfg(test)]
mod tests {
    use super::*;

    fn cut(document: &str) -> Vec<(&str, usize, usize)> {
        paragraphs(document.as_bytes())
            .into_iter()
            .map(|p| {
                let text = std::str::from_utf8(p.text).expect("the tests are UTF-8");
                (text, p.first_line, p.last_line)
            })
            .collect()
    }

    #[test]
    fn a_document_without_a_break_is_one_paragraph() {
        assert_eq!(cut(""), [("", 1, 1)]);
        assert_eq!(cut("a"), [("a", 1, 1)]);
        assert_eq!(cut("a\nb"), [("a\nb", 1, 2)]);
    }

    #[test]
    fn a_line_feed_belongs_to_the_line_that_it_ends() {
        assert_eq!(cut("a\n"), [("a\n", 1, 1)]);
        assert_eq!(cut("\na\nb\n"), [("\na\nb\n", 1, 3)]);
        assert_eq!(cut("\n"), [("\n", 1, 1)]);
    }

    #[test]
    fn a_break_is_a_whole_run() {
        assert_eq!(
            cut("a\n\nb\nc\n\n\nd"),
            [("a", 1, 1), ("b\nc", 3, 4), ("d", 7, 7)]
        );
    }

    #[test]
    fn pieces_before_and_behind_the_breaks_may_be_empty() {
        assert_eq!(cut("\n\n"), [("", 1, 1), ("", 3, 3)]);
        assert_eq!(cut("\n\na\n\n"), [("", 1, 1), ("a", 3, 3), ("", 5, 5)]);
    }

    #[test]
    fn a_line_end_is_lf_or_cr_lf() {
        assert_eq!(cut("a\r\n\r\nb"), [("a", 1, 1), ("b", 3, 3)]);
        assert_eq!(cut("a\r\n\nb"), [("a", 1, 1), ("b", 3, 3)]);
        assert_eq!(cut("a\n\r\nb"), [("a", 1, 1), ("b", 3, 3)]);
        assert_eq!(cut("\r\n\r\n\n"), [("", 1, 1), ("", 4, 4)]);
        assert_eq!(
            cut("a\r\nb\r\n\r\nc\r\n"),
            [("a\r\nb", 1, 2), ("c\r\n", 4, 4)]
        );
    }

    #[test]
    fn a_carriage_return_alone_is_text() {
        assert_eq!(cut("a\r\rb"), [("a\r\rb", 1, 1)]);
        assert_eq!(cut("a\r\r\n\nb"), [("a\r", 1, 1), ("b", 3, 3)]);
        assert_eq!(cut("a\n\r\r\nb"), [("a\n\r\r\nb", 1, 3)]);
        assert_eq!(cut("a\n\n\rb"), [("a", 1, 1), ("\rb", 3, 3)]);
        assert_eq!(cut("a\n\r"), [("a\n\r", 1, 2)]);
    }
}
