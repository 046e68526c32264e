//! Stored cases whose answer is written by hand from document 01 and not taken from the crate; the list marks each of them.
//!
//! They are the document's own lines and traps, and what it decides and not the crate: panics, limits and lent sizes, ill-formed
//! UTF-8, three dollars, the escapes, and all pages, which are put together from the crate's replacement of each paragraph.

use crate::answers::{escapes, replaced};
use crate::case::Manner;
use crate::inputs::{nested, LEVELS};
use crate::oracle;
use crate::paragraphs::pieces;
use crate::stored::{Ask, Lent, Source, Stored, BLOCK, CLOSE, INLINE};

const BODY: usize = 4_096;
const DOCUMENT: usize = 32_768;

/// The error text of an operand that is missing.
pub const EOF: &str = r#"<mtext>[PARSE ERROR: Undefined("EOF")]</mtext>"#;

pub fn scope(ask: Ask, input: impl AsRef<[u8]>) -> Stored {
    Stored {
        source: Source::Document01,
        ..Stored::new(ask, input)
    }
}

pub fn body(latex: impl AsRef<[u8]>, markup: impl AsRef<[u8]>) -> Stored {
    scope(Ask::Both, latex).gives(markup)
}

/// A document with its output and what the work buffer begins with.
pub fn document(
    text: impl AsRef<[u8]>,
    output: impl AsRef<[u8]>,
    work: impl AsRef<[u8]>,
) -> Stored {
    scope(Ask::Document, text).gives(output).between(work)
}

pub fn refused(ask: Ask, input: impl AsRef<[u8]>, number: u32) -> Stored {
    Stored {
        number,
        ..scope(ask, input)
    }
}

pub fn block(markup: &str) -> String {
    format!("{BLOCK}{markup}{CLOSE}")
}

pub fn inline(markup: &str) -> String {
    format!("{INLINE}{markup}{CLOSE}")
}

pub fn undefined(debug: &str) -> String {
    format!(r#"<mtext>[PARSE ERROR: Undefined("{debug}")]</mtext>"#)
}

fn letter(c: char) -> String {
    format!(r#"<mi mathvariant="normal">{c}</mi>"#)
}

/// "Marked lines (m) and others", in the document's order, without those that document 02 changes.
#[rustfmt::skip]
fn lines() -> Vec<Stored> {
    let missing = format!("<mfrac><mn>123</mn>{EOF}</mfrac>");
    let align = "<mtable columnalign=left><mtr><mtd><mi>a</mi></mtd><mtd><mi>b</mi></mtd></mtr></mtable>";
    let dollar = format!("<mi>a</mi>{}<mi>b</mi>", letter('$'));
    let program = Lent {
        store: Some(61_440),
        work: Some(65_536),
        output: Some(65_536),
    };
    let page = scope(Ask::Page, "a$$$\n\n$x$").gives("a$$$\n\n".to_owned() + &inline("<mi>x</mi>")).counts(2, 1);
    vec![
        body("", ""),
        scope(Ask::Block, "").output(72),
        refused(Ask::Block, "", 12).output(71),
        scope(Ask::Inline, "").output(73),
        refused(Ask::Inline, "", 12).output(72),
        body("\\frac123", "<mfrac><mn>1</mn><mn>23</mn></mfrac>"),
        body("\\frac 123", missing),
        body("a''", "<msup><mi>a</mi><mo>′</mo></msup><mo>'</mo>"),
        body("\\sum^n", r#"<mover><mi>n</mi><mo accent="false">∑</mo></mover>"#),
        body("\\", undefined(r#"Command(\"\\0\")"#)),
        refused(Ask::Both, "{", 6),
        refused(Ask::Both, "\\left{a\\right)", 7),
        refused(Ask::Both, "\\middle a", 9),
        refused(Ask::Document, "$$$", 5),
        refused(Ask::Document, "$$$$", 4),
        refused(Ask::Document, "$$a$b$$", 4).between(block(&dollar)),
        body("\\begin{align}a&b\\end{q}", align),
        body(nested("{", "}", 127), "<mi>a</mi>"),
        refused(Ask::Both, nested("{", "}", 128), 10),
        Stored { lent: program, ..page.clone() },
        page,
    ]
}

/// "Traps for the porter", in the document's order, without those of NUL, which document 02 refuses, with the Debug texts and the widths that it spells out.
#[rustfmt::skip]
fn traps() -> Vec<Stored> {
    vec![
        refused(Ask::Document, "$$$$x$$$$", 5),
        refused(Ask::Document, "$$\\$ $$", 4).between(block(&letter('$'))),
        document("$$ $$ $x$", block("") + " " + &inline("<mi>x</mi>"), block("") + " $x$"),
        refused(Ask::Document, "$$\\$ $$ $${$$", 6),
        body("\\\"", undefined(r#"Command(\"\\\"\")"#)),
        body("\\\t", undefined(r#"Command(\"\\t\")"#)),
        body("\\\n", undefined(r#"Command(\"\\n\")"#)),
        body("\\\r", undefined(r#"Command(\"\\r\")"#)),
        body("\\\x01", undefined(r#"Command(\"\\u{1}\")"#)),
        body("\\\x1f", undefined(r#"Command(\"\\u{1f}\")"#)),
        body("\\\x7f", undefined(r#"Command(\"\\u{7f}\")"#)),
        body("\\zz", undefined(r#"Command(\"zz\")"#)),
        body("}", undefined("RBrace")),
        body("_", undefined("Underscore")),
        body("^", undefined("Circumflex")),
        body("\\end", undefined("End")),
        body("\\right", undefined("Right")),
        body("&", "<mtext>[PARSE ERROR: Ampersand]</mtext>"),
        body("\\\\", "<mtext>[PARSE ERROR: NewLine]</mtext>"),
        body("\\sqrt12", "<msqrt><mn>1</mn></msqrt><mn>2</mn>"),
        body("\\sqrt 12", "<msqrt><mn>12</mn></msqrt>"),
        body("\\mathbf12", "<mn>1</mn><mn>2</mn>"),
        body("\\mathbf 12", "<mn>12</mn>"),
        body("\\sqrt\t12", "<msqrt><mn>12</mn></msqrt>"),
        body("\\!", r#"<mspace width="-0.16666667em"/>"#),
        body("\\,", r#"<mspace width="0.16666667em"/>"#),
        body("\\:", r#"<mspace width="0.22222222em"/>"#),
        body("\\;", r#"<mspace width="0.2777778em"/>"#),
        body("\\quad", r#"<mspace width="1em"/>"#),
        body("\\qquad", r#"<mspace width="2em"/>"#),
        body("1.2.3", "<mn>1.2</mn><mo>.</mo><mn>3</mn>"),
    ]
}

/// 9, where the crate panics, and the numbers that come before it.
#[rustfmt::skip]
fn panics() -> Vec<Stored> {
    let nines = [
        "\\middle", "\\middle a", "\\middle1", "\\middle|'", "\\middle{}", "\\middle{||}", "\\middle\\sum_a", "\\middle\\frac12",
        "\\middle\\zz",
        "\\middle&", "\\middle\\\\", "\\middle}", "\\middle\\middle|", "\\middle\\,", "\\middle\\sin", "\\middle\\text{a}",
        "\\middle\\bigl(",
        "\\left(a\\middle b\\right)", "a\\middle b{", "\\middle\\left(a\\right)", "\\middle\\mathbf a", "\\middle\\partial'",
    ];
    let mut cases: Vec<Stored> = nines.iter().map(|latex| refused(Ask::Both, latex, 9)).collect();
    cases.extend([
        refused(Ask::Both, "\\middle{", 6),
        refused(Ask::Both, "\\middle\\left a", 7),
        refused(Ask::Both, "\\middle\\begin{foo}\\end{foo}", 8),
        refused(Ask::Both, "{\\middle a", 9),
        refused(Ask::Document, "$\\middle a$", 9).between("$\\middle a$"),
        refused(Ask::Document, "$$\\middle a$$", 9),
        refused(Ask::Document, "$$\\middle$$ $${$$", 9),
        refused(Ask::Document, "$${$$ $$\\middle$$", 6),
        scope(Ask::Page, "$\\middle a$").gives("$\\middle a$").counts(1, 1),
    ]);
    cases
}

/// Three dollars in a row, and an odd number of windows before them.
#[rustfmt::skip]
fn three_dollars() -> Vec<Stored> {
    let fives = ["$$$", "a$$$", "$$$a", "$$$$$", "$$$a$$$", "$$$ $$$", "$${$$$$", "$$\\middle$$$$", "$$x$$$$", "$$$\n\n$$$", "é$$$"];
    let fours = ["$$$$", "$$a$$$", "$${$$$", "$$$$$$", "$$$$ $$$$ $$$$", "$$x$$ $$", "$$", "$$x$$$$y$$"];
    let five = fives.iter().map(|text| refused(Ask::Document, text, 5));
    five.chain(fours.iter().map(|text| refused(Ask::Document, text, 4))).collect()
}

/// A character of 128 or above stands as itself in Debug text.
fn characters() -> Vec<Stored> {
    let command = |c: char| undefined(&format!(r#"Command(\"{c}\")"#));
    let all = "\u{80}\u{9f}\u{a0}\u{ad}éλЯ\u{301}日\u{200b}\u{2028}\u{feff}\u{fffd}\u{fffe}😀\u{e0001}\u{10ffff}";
    let mut cases: Vec<Stored> = all
        .chars()
        .map(|c| body(format!("\\{c}"), command(c)))
        .collect();
    let text = format!("$$\\\u{301}$$ $\\é$");
    let first = block(&command('\u{301}'));
    let second = inline(&command('é'));
    cases.push(body("\\éa", command('é') + "<mi>a</mi>"));
    cases.push(document(
        &text,
        format!("{first} {second}"),
        format!("{first} $\\é$"),
    ));
    cases
}

/// Bytes that are not well-formed UTF-8, by the Unicode standard's table.
#[rustfmt::skip]
fn ill_formed() -> Vec<Stored> {
    let bytes: [&[u8]; 24] = [
        b"\x80", b"\xbf", b"\xc0\x80", b"\xc1\xbf", b"\xc2", b"\xc2a", b"\xc2\xc2\x80", b"\xe0\x80\x80", b"\xe0\x9f\xbf", b"\xe1\x80",
        b"\xe1\x80a", b"\xed\xa0\x80",
        b"\xed\xbf\xbf", b"\xef\xbf", b"\xf0\x80\x80\x80", b"\xf0\x8f\xbf\xbf", b"\xf0\x90\x80", b"\xf1\x80\x80a", b"\xf4\x90\x80\x80",
        b"\xf5\x80\x80\x80", b"\xf8\x88\x80\x80\x80", b"\xfe", b"\xff", b"a\xe2\x88",
    ];
    let mut cases = Vec::new();
    for text in bytes {
        cases.push(refused(Ask::Both, text, 2));
        cases.push(refused(Ask::Document, text, 2));
        cases.push(scope(Ask::Page, text).gives(text).counts(1, 1));
    }
    for c in ['\u{80}', '\u{7ff}', '\u{800}', '\u{d7ff}', '\u{e000}', '\u{ffff}', '\u{10000}', '\u{10ffff}'] {
        cases.push(body(c.to_string(), letter(c)));
    }
    cases
}

/// The longest body and document, and one byte more.
#[rustfmt::skip]
fn lengths() -> Vec<Stored> {
    let (most, more) = ("a".repeat(BODY), "a".repeat(BODY + 1));
    let markup = "<mi>a</mi>".repeat(BODY);
    let prose = "p".repeat(DOCUMENT);
    let page = "$x$\n\n".repeat(6_553) + "abc";
    vec![
        body(&most, &markup),
        refused(Ask::Both, &more, 1),
        refused(Ask::Both, " ".repeat(BODY + 1), 1),
        body(" ".repeat(BODY), ""),
        document(format!("${most}$"), inline(&markup), format!("${most}$")),
        refused(Ask::Document, format!("${more}$"), 1).between(format!("${more}$")),
        document(format!("$${most}$$"), block(&markup), block(&markup)),
        refused(Ask::Document, format!("$${more}$$"), 1),
        document(&prose, &prose, &prose),
        refused(Ask::Document, prose.clone() + "p", 1),
        scope(Ask::Page, &prose).gives(&prose).counts(1, 0),
        refused(Ask::Page, prose.clone() + "p", 1),
        refused(Ask::Page, "\n".repeat(DOCUMENT + 1), 1),
        scope(Ask::Page, "\n".repeat(DOCUMENT)).gives("\n".repeat(DOCUMENT)).counts(2, 0),
        scope(Ask::Page, "x\n\n".repeat(10_922)).gives("x\n\n".repeat(10_922)).counts(10_923, 0),
        scope(Ask::Page, "$\n\n".repeat(10_922)).gives("$\n\n".repeat(10_922)).counts(10_923, 10_922),
        refused(Ask::Page, page, 12),
        scope(Ask::Page, format!("${more}$")).gives(format!("${more}$")).counts(1, 1),
    ]
}

/// A page whose output has as many bytes: 700 formulas of 83 bytes with their breaks, and prose.
fn page_of(length: usize) -> Stored {
    let prose = "p".repeat(length - 700 * 85);
    let formulas = (inline("<mi>x</mi>") + "\n\n").repeat(700);
    scope(Ask::Page, "$x$\n\n".repeat(700) + &prose)
        .gives(formulas + &prose)
        .counts(701, 0)
}

/// One level of calls more than the limit allows; the levels that it allows are answered by the crate.
#[rustfmt::skip]
fn depths() -> Vec<Stored> {
    let deeper = LEVELS.iter().map(|&(open, close, levels)| refused(Ask::Both, nested(open, close, levels + 1), 10));
    let mut cases: Vec<Stored> = deeper.collect();
    let braces = nested("{", "}", 128);
    cases.extend([
        refused(Ask::Both, "{".repeat(129), 10),
        refused(Ask::Both, "{".repeat(4_096), 10),
        refused(Ask::Both, format!("{{{}", "}".repeat(3) + &braces), 10),
        refused(Ask::Document, format!("${braces}$"), 10).between(format!("${braces}$")),
        refused(Ask::Document, format!("$${braces}$$"), 10),
        scope(Ask::Page, format!("$${braces}$$")).gives(format!("$${braces}$$")).counts(1, 1),
    ]);
    cases
}

/// The store: 24 bytes a record, two records for each byte of a body; just enough, and a byte less.
#[rustfmt::skip]
fn stores() -> Vec<Stored> {
    let x = inline("<mi>x</mi>");
    vec![
        body("a", "<mi>a</mi>").store(48),
        body("a", "<mi>a</mi>").store(71),
        refused(Ask::Both, "a", 3).store(47),
        refused(Ask::Both, "a", 3).store(0),
        body("", "").store(0),
        body("ab", "<mi>a</mi><mi>b</mi>").store(96),
        refused(Ask::Both, "ab", 3).store(95),
        refused(Ask::Both, " ", 3).store(47),
        body("é", letter('é')).store(96),
        refused(Ask::Both, "é", 3).store(95),
        body("a'", "<msup><mi>a</mi><mo>′</mo></msup>").store(96),
        refused(Ask::Both, "{", 3).store(47),
        refused(Ask::Both, "{", 6).store(48),
        document("$x$", &x, "$x$").store(48),
        refused(Ask::Document, "$x$", 3).store(47).between("$x$"),
        refused(Ask::Document, "$$x$$", 3).store(47),
        document("prose", "prose", "prose").store(0),
        document("$$ $$ $x$", block("") + " " + &x, block("") + " $x$").store(48),
        refused(Ask::Document, "$${$$ $$ab$$", 6).store(48),
        refused(Ask::Document, "$$ab$$ $${$$", 3).store(48),
        scope(Ask::Page, "$x$").gives("$x$").counts(1, 1).store(47),
        scope(Ask::Page, "$x$").gives(&x).counts(1, 0).store(48),
        scope(Ask::Page, "$xy$\n\n$x$").gives("$xy$\n\n".to_owned() + &x).counts(2, 1).store(48),
    ]
}

/// The work buffer: just enough for the text of pass one, and a byte less.
#[rustfmt::skip]
fn works() -> Vec<Stored> {
    let x = inline("<mi>x</mi>");
    let y = block("<mi>y</mi>");
    vec![
        document("a", "a", "a").work(1),
        refused(Ask::Document, "a", 11).work(0),
        document("", "", "").work(0),
        refused(Ask::Document, "$", 11).work(0),
        refused(Ask::Document, "$", 4).work(1).between("$"),
        refused(Ask::Document, "${$", 11).work(2),
        refused(Ask::Document, "${$", 6).work(3).between("${$"),
        document("$$y$$", &y, &y).work(82),
        refused(Ask::Document, "$$y$$", 11).work(81),
        refused(Ask::Document, "$${$$", 6).work(0),
        refused(Ask::Document, "$$$$", 4).work(0),
        refused(Ask::Document, "$$$", 5).work(0),
        scope(Ask::Page, "ab").gives("ab").counts(1, 1).work(1),
        scope(Ask::Page, "ab").gives("ab").counts(1, 0).work(2),
        scope(Ask::Page, "$$y$$\n\n$x$").gives("$$y$$\n\n".to_owned() + &x).counts(2, 1).work(81),
        scope(Ask::Page, "$$y$$\n\n$x$").gives(format!("{y}\n\n{x}")).counts(2, 0).work(82),
        scope(Ask::Page, "").counts(1, 0).work(0),
    ]
}

/// The output: just enough, and a byte less; around 65,536 a page is written in another way.
#[rustfmt::skip]
fn outputs() -> Vec<Stored> {
    let x = inline("<mi>x</mi>");
    let y = block("<mi>y</mi>");
    let both = format!("{y} {x}");
    let too_long = |page: Stored| Stored { number: 12, ..page.gives("").counts(0, 0) };
    vec![
        scope(Ask::Block, "a").gives("<mi>a</mi>").output(82),
        refused(Ask::Block, "a", 12).output(81),
        refused(Ask::Block, "a", 12).output(0),
        scope(Ask::Inline, "a").gives("<mi>a</mi>").output(83),
        refused(Ask::Inline, "a", 12).output(82),
        refused(Ask::Both, "{", 6).output(0),
        refused(Ask::Both, "a", 3).store(47).output(0),
        document("$x$", &x, "$x$").output(83),
        refused(Ask::Document, "$x$", 12).output(82).between("$x$"),
        refused(Ask::Document, "${$", 6).output(0).between("${$"),
        document("", "", "").output(0),
        document("ab", "ab", "ab").output(2),
        refused(Ask::Document, "ab", 12).output(1).between("ab"),
        document("$$y$$ $x$", &both, y.clone() + " $x$").output(both.len()),
        refused(Ask::Document, "$$y$$ $x$", 12).output(both.len() - 1).between(y.clone() + " $x$"),
        scope(Ask::Page, "").counts(1, 0).output(0),
        scope(Ask::Page, "$x$").gives(&x).counts(1, 0).output(83),
        refused(Ask::Page, "$x$", 12).output(82),
        scope(Ask::Page, "a$\n\n").gives("a$\n\n").counts(2, 1).output(4),
        refused(Ask::Page, "a$\n\n", 12).output(3),
        page_of(65_535),
        page_of(65_536),
        page_of(65_537),
        page_of(65_537).output(65_537),
        too_long(page_of(65_537)).output(65_536),
        too_long(page_of(65_536)).output(65_535),
    ]
}

/// Of two reasons to refuse, the one that comes first in the document's order.
#[rustfmt::skip]
fn orders() -> Vec<Stored> {
    let long = [b"\xff".repeat(BODY + 1), b"\xff".repeat(DOCUMENT + 1)];
    vec![
        refused(Ask::Both, &long[0], 1).store(0).output(0),
        refused(Ask::Both, b"\xff", 2).store(0).output(0),
        refused(Ask::Both, "{", 3).store(0).output(0),
        refused(Ask::Document, &long[1], 1).work(0),
        refused(Ask::Document, b"$$$$\xff", 2).work(0),
        refused(Ask::Document, "$$$$", 4).store(0).work(0).output(0),
        refused(Ask::Document, "$$$", 5).store(0).work(0).output(0),
        refused(Ask::Document, "$$a$$", 3).store(0).work(0).output(0),
        refused(Ask::Document, "$${$$ $", 6).work(0).output(0),
        refused(Ask::Document, "$$\\left{$$ $${$$ $", 7).work(0).output(0),
        refused(Ask::Document, "$$\\begin{q}\\end{q}$$ $${$$", 8).work(0),
        refused(Ask::Document, "a$", 11).work(1).output(0),
        refused(Ask::Document, "a$", 4).work(2).output(0).between("a$"),
        refused(Ask::Document, "$a$ ${$", 6).output(0).between("$a$ ${$"),
        refused(Ask::Document, "$a$ ${$", 3).store(0).output(0).between("$a$ ${$"),
        refused(Ask::Page, &long[1], 1).store(0).work(0).output(0),
    ]
}

/// A part of a page, as it is cut by hand: a paragraph that the crate replaces, one that stands as typed, or a break.
pub enum Part {
    Replaced(&'static str),
    Left(&'static str),
    Break(&'static str),
}

use Part::{Break, Left, Replaced};

pub fn page_of_parts(parts: &[Part]) -> Stored {
    let mut case = scope(Ask::Page, "");
    for part in parts {
        let (Replaced(text) | Left(text) | Break(text)) = *part;
        case.input.extend_from_slice(text.as_bytes());
        let output = match part {
            Replaced(_) => oracle::replace(text).expect("the crate replaces it"),
            Left(_) | Break(_) => text.to_owned(),
        };
        case.output.extend_from_slice(output.as_bytes());
        case.paragraphs += usize::from(!matches!(part, Break(_)));
        case.left += usize::from(matches!(part, Left(_)));
    }
    case
}

#[rustfmt::skip]
fn pages_by_hand() -> Vec<Stored> {
    let pages: &[&[Part]] = &[
        &[Replaced("")],
        &[Replaced("prose without a dollar")],
        &[Replaced("\n")],
        &[Replaced(""), Break("\n\n"), Replaced("")],
        &[Replaced(""), Break("\n\n\n"), Replaced("")],
        &[Replaced("a\nb")],
        &[Replaced("a"), Break("\n\n"), Replaced("b")],
        &[Replaced("a"), Break("\n\n\n\n\n"), Replaced("b")],
        &[Replaced("a\n \nb")],
        &[Replaced("a"), Break("\n\n"), Replaced(" "), Break("\n\n"), Replaced("b")],
        &[Replaced("a"), Break("\n\n"), Replaced("")],
        &[Replaced(""), Break("\n\n"), Replaced("a")],
        &[Replaced("$x$"), Break("\n\n"), Replaced("$$y$$")],
        &[Left("a$$$"), Break("\n\n"), Replaced("$x$")],
        &[Replaced("$x$"), Break("\n\n"), Left("a$$$")],
        &[Left("$"), Break("\n\n"), Left("$")],
        &[Left("$x"), Break("\n\n"), Left("y$")],
        &[Left("$$x"), Break("\n\n"), Left("y$$")],
        &[Replaced("$x\ny$"), Break("\n\n"), Left("${$"), Break("\n\n\n"), Replaced("$z$")],
        &[Left("90$ and $x$"), Break("\n\n"), Replaced("$x$ and $y$")],
        &[Left("$\\left{$"), Break("\n\n"), Left("$\\begin{foo}\\end{foo}$"), Break("\n\n"), Left("$\\middle a$"), Break("\n\n"), Replaced("$|$")],
        &[Left("$$$$"), Break("\n\n"), Left("$$$"), Break("\n\n"), Left("$$a$b$$"), Break("\n\n"), Replaced("$$a$$ $b$")],
        &[Replaced("$$\\$\\$ $$"), Break("\n\n"), Left("$$\\$ $$"), Break("\n\n"), Replaced("$$\\$ $$ $")],
        &[Replaced("$\\zz$"), Break("\n\n"), Replaced("$}$"), Break("\n\n"), Replaced("$x_$")],
        &[Replaced("é$é$"), Break("\n\n"), Left("é$"), Break("\n\n"), Replaced("日本")],
    ];
    let mut cases: Vec<Stored> = pages.iter().map(|parts| page_of_parts(parts)).collect();
    let x = inline("<mi>x</mi>");
    cases.push(scope(Ask::Page, b"\xff$x$\n\n$x$").gives([b"\xff$x$\n\n", x.as_bytes()].concat()).counts(2, 1));
    cases.push(scope(Ask::Page, b"$x$\n\n\xc3\n\n\xa9").gives([x.as_bytes(), b"\n\n\xc3\n\n\xa9"].concat()).counts(3, 2));
    cases
}

/// A page that is cut by rule, document 02's where it has a CR LF or is in the strict dialect; none where a paragraph has an escape that document 01 changes.
pub fn page(manner: Manner, document: &[u8]) -> Option<Stored> {
    let mut case = scope(Ask::Page, document);
    case.manner = manner;
    if manner.strict || document.windows(2).any(|two| two == b"\r\n") {
        case.source = Source::Document02;
    }
    for (turn, piece) in pieces(document).into_iter().enumerate() {
        if turn % 2 == 1 {
            case.output.extend_from_slice(piece);
            continue;
        }
        case.paragraphs += 1;
        let text = std::str::from_utf8(piece).ok();
        if text.is_some_and(escapes) && manner == Manner::OLD {
            return None;
        }
        let replaced = text.map(|text| replaced(manner, text));
        if let Some(replaced) = &replaced {
            case.source = replaced.source.max(case.source);
        }
        match replaced.and_then(|replaced| replaced.answer.ok()) {
            Some(output) => case.output.extend_from_slice(output.as_bytes()),
            None => {
                case.left += 1;
                case.output.extend_from_slice(piece);
            }
        }
    }
    Some(case)
}

pub fn cases() -> Vec<Stored> {
    let parts = [
        lines(),
        traps(),
        panics(),
        three_dollars(),
        characters(),
        ill_formed(),
        lengths(),
        depths(),
        stores(),
        works(),
        outputs(),
        orders(),
        pages_by_hand(),
    ];
    parts.into_iter().flatten().collect()
}
