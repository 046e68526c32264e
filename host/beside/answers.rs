//! Stored cases whose answer is the crate's, or the model's where document 02 decides a body, as it does in the strict dialect, or 14 for a NUL; an input for which document 01 decides gives none.

use crate::case::Manner;
use crate::model;
use crate::oracle::{self, Answer};
use crate::stored::{Ask, Source, Stored, BLOCK, CLOSE, INLINE};

/// Longer answers are left out of the list.
const LONGEST: usize = 20_000;

/// Whether a command has a character of 128 or above as its name, whose escape is document 01's.
pub fn escapes(text: &str) -> bool {
    let behind = |(at, _)| text[at + 1..].starts_with(|c: char| c as u32 >= 128);
    text.match_indices('\\').any(behind)
}

fn unwrapped(markup: &str, opening: &str) -> String {
    let inner = markup
        .strip_prefix(opening)
        .and_then(|rest| rest.strip_suffix(CLOSE));
    inner
        .expect("the crate's markup has its wrapper")
        .to_owned()
}

/// A body's answer and where it comes from.
fn translated(manner: Manner, latex: &str, block: bool) -> (Answer, Source) {
    if manner.strict {
        let answer = model::read_apart(latex).strict_answer(latex, block);
        return (answer, Source::Document02);
    }
    let reading = model::read(latex);
    if reading.leaves {
        (reading.answer(block), Source::Document02)
    } else if reading.number() == 10 {
        (Err(10), Source::Document01)
    } else {
        (oracle::translate(latex, block), Source::Crate)
    }
}

/// A case that a NUL refuses.
fn with_nul(manner: Manner, ask: Ask, text: &str) -> Stored {
    Stored {
        manner,
        number: 14,
        source: Source::Document02,
        ..Stored::new(ask, text)
    }
}

/// A body in both displays.
pub fn body(manner: Manner, latex: &str) -> Option<Stored> {
    if latex.contains('\0') {
        return Some(with_nul(manner, Ask::Both, latex));
    }
    let mut case = Stored::new(Ask::Both, latex);
    case.manner = manner;
    let (block, source) = translated(manner, latex, true);
    let (inline, _) = translated(manner, latex, false);
    match (block, inline) {
        (Ok(block), Ok(inline)) => {
            let markup = unwrapped(&block, BLOCK);
            assert_eq!(
                markup,
                unwrapped(&inline, INLINE),
                "the displays differ in the wrapper only"
            );
            case.output = markup.into_bytes();
        }
        (Err(number), _) => case.number = number,
        _ => unreachable!("the display does not decide a refusal"),
    }
    case.source = source;
    decided(case, escapes(latex))
}

/// The case, unless document 01 decides it in the old dialect or it is too long for the list.
fn decided(case: Stored, escapes: bool) -> Option<Stored> {
    let panics = case.number == 9 && case.source == Source::Crate;
    let ours = panics || escapes || case.source == Source::Document01;
    let decided = case.manner.strict || !ours;
    (decided && case.output.len() <= LONGEST).then_some(case)
}

/// What becomes of a document.
pub struct Replaced {
    pub answer: Answer,
    /// The text of pass one, with which the work buffer begins unless pass one is refused.
    work: String,
    /// The last of those from which its bodies' answers come.
    pub source: Source,
}

/// The text after a pass whose marks are as many dollars wide.
fn pass(manner: Manner, text: &str, width: usize, source: &mut Source) -> Answer {
    let windows = text.as_bytes().windows(width).enumerate();
    let full = windows.filter(|(_, window)| window.iter().all(|&byte| byte == b'$'));
    let marks: Vec<usize> = full.map(|(at, _)| at).collect();
    if marks.len() % 2 != 0 {
        return Err(4);
    }
    if width == 2 && text.contains("$$$") {
        return Err(5);
    }
    let (mut result, mut from) = (String::new(), 0);
    for pair in marks.chunks_exact(2) {
        let body = &text[pair[0] + width..pair[1]];
        let (markup, made_by) = translated(manner, body, width == 2);
        *source = made_by.max(*source);
        result.push_str(&text[from..pair[0]]);
        result.push_str(&markup?);
        from = pair[1] + width;
    }
    Ok(result + &text[from..])
}

/// A document by the crate's own `replace` where it decides, and by two passes over its bodies where document 02 does.
pub fn replaced(manner: Manner, text: &str) -> Replaced {
    if text.contains('\0') {
        return Replaced {
            answer: Err(14),
            work: String::new(),
            source: Source::Document02,
        };
    }
    let mut source = Source::Crate;
    let first = pass(manner, text, 2, &mut source);
    let second = first
        .as_deref()
        .map_err(|&number| number)
        .and_then(|first| pass(manner, first, 1, &mut source));
    if source == Source::Crate && !text.contains("$$$") {
        assert_eq!(second, oracle::replace(text), "the crate's own passes");
    }
    Replaced {
        answer: second,
        work: first.unwrap_or_default(),
        source,
    }
}

pub fn document(manner: Manner, text: &str) -> Option<Stored> {
    if text.contains('\0') {
        return Some(with_nul(manner, Ask::Document, text));
    }
    if text.contains("$$$") {
        return None;
    }
    let mut case = Stored::new(Ask::Document, text);
    case.manner = manner;
    let replaced = replaced(manner, text);
    match replaced.answer {
        Ok(output) => case.output = output.into_bytes(),
        Err(number) => case.number = number,
    }
    case.work = replaced.work.into_bytes();
    case.source = replaced.source;
    if manner.strict {
        case.source = Source::Document02;
    }
    decided(case, escapes(text))
}
