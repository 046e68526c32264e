//! Lists each paragraph of the page on standard input that stays as typed, with its lines, the reason and the formula.

use host::formula::{first_refused, Formula};
use host::paragraph::{paragraphs, Paragraph};
use host::{page, replace, Display, Lent, Refusal};
use std::io::{self, Read, Write};
use std::process::ExitCode;

/// As many bytes as the page program reads: one more than a document may have.
const READ: u64 = 32_769;
/// The sizes that the page program lends.
const STORE: usize = 61_440;
const WORK: usize = 65_536;
const OUTPUT: usize = 65_536;
/// As many characters of a formula are shown.
const SHOWN: usize = 48;

fn main() -> ExitCode {
    match run() {
        Ok(()) => ExitCode::SUCCESS,
        Err(error) => {
            eprintln!("explain: {error}");
            ExitCode::from(2)
        }
    }
}

fn run() -> io::Result<()> {
    let mut document = Vec::new();
    io::stdin().take(READ).read_to_end(&mut document)?;
    let text = explain(&document);
    let mut out = io::stdout().lock();
    out.write_all(text.as_bytes())?;
    out.flush()
}

fn explain(document: &[u8]) -> String {
    let (mut store, mut work, mut output) = (vec![0; STORE], vec![0; WORK], vec![0; OUTPUT]);
    let mut lent = Lent {
        store: &mut store,
        work: &mut work,
        output: &mut output,
    };
    match page(document, &mut lent).map(|page| (page.refused, page.paragraphs)) {
        Err(refusal) => format!("The whole page is refused.\n    {refusal}\n"),
        Ok((0, 1)) => "Nothing stays as typed: the page has 1 paragraph.\n".to_string(),
        Ok((0, count)) => format!("Nothing stays as typed: the page has {count} paragraphs.\n"),
        Ok((refused, count)) => {
            let verb = if refused == 1 { "stays" } else { "stay" };
            let of = if count == 1 {
                "paragraph"
            } else {
                "paragraphs"
            };
            let list = list(document, &mut lent);
            format!("{list}{refused} of {count} {of} {verb} as typed.\n")
        }
    }
}

/// An entry for each paragraph that the replacement refuses.
fn list(document: &[u8], lent: &mut Lent<'_>) -> String {
    let mut text = String::new();
    for (number, paragraph) in (1..).zip(paragraphs(document)) {
        // the page was accepted, so each paragraph that is replaced fits into the output
        let Err(refusal) = replace(paragraph.text, lent) else {
            continue;
        };
        text += &format!(
            "Paragraph {number}, {}, stays as typed.\n",
            lines(&paragraph)
        );
        text += &format!("    {refusal}\n");
        if let Some(formula) = formula_of(paragraph.text, refusal, lent) {
            text += &format!("    {}\n", named(&formula));
        }
    }
    text
}

fn formula_of(text: &[u8], refusal: Refusal, lent: &mut Lent<'_>) -> Option<Formula> {
    if !refusal.is_of_a_body() {
        return None;
    }
    first_refused(text, lent.store)
}

fn lines(paragraph: &Paragraph<'_>) -> String {
    let (first, last) = (paragraph.first_line, paragraph.last_line);
    if first == last {
        format!("line {first}")
    } else {
        format!("lines {first} to {last}")
    }
}

fn named(formula: &Formula) -> String {
    let dollars = match formula.display {
        Display::Block => "double",
        Display::Inline => "single",
    };
    let text = shortened(&formula.body);
    format!(
        "Formula {} between {dollars} dollars: {text}",
        formula.number
    )
}

/// The beginning of a body on one line; control characters would change the line or the screen.
fn shortened(body: &[u8]) -> String {
    let text = String::from_utf8_lossy(body);
    let mut shown: String = text
        .chars()
        .take(SHOWN)
        .map(|c| if c.is_control() { ' ' } else { c })
        .collect();
    if text.chars().nth(SHOWN).is_some() {
        shown += "...";
    }
    shown
}
