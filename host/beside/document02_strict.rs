//! Stored cases in the strict dialect whose answer is written by hand from document 02, §5; the list marks each of them.

use crate::document01::{block, body, document, inline, refused, scope, undefined};
use crate::inputs::nested;
use crate::stored::{Ask, Stored};

/// An operator, and an upright letter.
fn mo(text: &str) -> String {
    format!("<mo>{text}</mo>")
}

fn mi(text: &str) -> String {
    format!(r#"<mi mathvariant="normal">{text}</mi>"#)
}

fn stretched(text: &str) -> String {
    format!(r#"<mo stretchy="true">{text}</mo>"#)
}

fn sized(size: &str, text: &str) -> String {
    format!(r#"<mrow><mo maxsize="{size}" minsize="{size}">{text}</mo></mrow>"#)
}

fn fenced(open: &str, content: &str, close: &str) -> String {
    format!(
        r#"<mrow><mo stretchy="true" form="prefix">{open}</mo>{content}<mo stretchy="true" form="postfix">{close}</mo></mrow>"#
    )
}

fn command(name: &str) -> String {
    undefined(&format!(r#"Command(\"{name}\")"#))
}

/// `<`, `>` and `&` in a formula's text.
#[rustfmt::skip]
fn escapes() -> Vec<Stored> {
    vec![
        body("a<b", "<mi>a</mi><mo>&lt;</mo><mi>b</mi>"),
        body("<", mo("&lt;")),
        body(">", mo("&gt;")),
        body("\\lt\\gt", mo("&lt;") + &mo("&gt;")),
        body("]]>", mo("]").repeat(2) + &mo("&gt;")),
        body("<'", "<msup><mo>&lt;</mo><mo>′</mo></msup>"),
        body("\\frac<>", "<mfrac><mo>&lt;</mo><mo>&gt;</mo></mfrac>"),
        body("x_<^>", "<msubsup><mi>x</mi><mo>&lt;</mo><mo>&gt;</mo></msubsup>"),
        body("\\hat<", r#"<mover><mo>&lt;</mo><mo accent="true">^</mo></mover>"#),
        body("\\middle<", stretched("&lt;")),
        body("\\middle\\gt", stretched("&gt;")),
        body("\\slashed{<}", mo("&lt;&#x0338;")),
        body("\\slashed{>}", mo("&gt;&#x0338;")),
        body("\\slashed{\\&}", mi("&amp;&#x0338;")),
        body("\\slashed{\\mathbf\\&}", r#"<mi mathvariant="bold">&amp;&#x0338;</mi>"#),
        body("\\&", mi("&amp;")),
        body("\\And", mi("&amp;")),
        body("\\mathit\\&", "<mi>&amp;</mi>"),
        body("\\mathbf{a\\&}", r#"<mrow><mi mathvariant="bold">a</mi><mi mathvariant="bold">&amp;</mi></mrow>"#),
        body("\\text{a\\& b}", "<mtext>a&amp;b</mtext>"),
        body("\\text{a\\&", "<mtext>a&amp;</mtext>"),
        body("\\operatorname{\\&\\And}", "<mi>&amp;&amp;</mi>"),
        body("\\text{a<b}", "<mtext>a</mtext><mi>b</mi>".to_owned() + &undefined("RBrace")),
        body("\\<", command("&lt;")),
        body("\\>", command("&gt;")),
        body("\\<\\&\\>", command("&lt;") + &mi("&amp;") + &command("&gt;")),
        body("\\sqrt[<]\\<", format!("<mroot>{}<mo>&lt;</mo></mroot>", command("&lt;"))),
        body("\\&lt;", mi("&amp;") + "<mi>l</mi><mi>t</mi><mo>;</mo>"),
    ]
}

/// Text that both dialects print alike.
#[rustfmt::skip]
fn kept() -> Vec<Stored> {
    vec![
        body("'\"", mo("'") + &mi("\"")),
        body("\\\"", command(r#"\\\""#)),
        body("&", "<mtext>[PARSE ERROR: Ampersand]</mtext>"),
        body("\\\\", "<mtext>[PARSE ERROR: NewLine]</mtext>"),
        body("\\", command(r"\\0")),
        body("\\\u{7f}\\\t", command(r"\\u{7f}") + &command(r"\\t")),
        body("\\\u{301}", command("\u{301}")),
        body("\\slashed{a}", r#"<mi mathvariant="italic">a&#x0338;</mi>"#),
        body("\\partial", r#"<mo mathvariant="italic">∂</mo>"#),
    ]
}

/// The two brackets, `\ni`, the tag and the attribute.
#[rustfmt::skip]
fn mended() -> Vec<Stored> {
    let align = r#"<mtable columnalign="left"><mtr><mtd><mi>a</mi></mtd><mtd><mi>b</mi></mtd></mtr></mtable>"#;
    let rows = r#"<mtable columnalign="left"><mtr><mtd><mi>a</mi></mtd><mtd><mo>&lt;</mo></mtd></mtr><mtr><mtd></mtd></mtr></mtable>"#;
    let mut cases = vec![
        body("\\langle", mo("⟨")),
        body("\\rangle", mo("⟩")),
        body("\\left\\langle a\\right\\rangle", fenced("⟨", "<mi>a</mi>", "⟩")),
        body("\\left\\rangle\\right\\langle", fenced("⟩", "<mrow></mrow>", "⟨")),
        body("\\left.\\langle\\right\\rangle", fenced("", "<mo>⟨</mo>", "⟩")),
        body("\\middle\\langle", stretched("⟨")),
        body("\\middle{\\rangle}", stretched("⟩")),
        body("\\bigl\\langle", sized("1.2em", "⟨")),
        body("\\Biggr\\rangle", sized("2.470em", "⟩")),
        body("\\slashed{\\langle}", mo("⟨")),
        body("⟨", mi("⟨")),
        body("\\lang", command("lang")),
        body("\\ni", mo("∋")),
        body("\\notin", mo("∉")),
        body("a\\ni b\\notin c", "<mi>a</mi><mo>∋</mo><mi>b</mi><mo>∉</mo><mi>c</mi>"),
        body("\\slashed{\\ni}", mo("∋&#x0338;")),
        body("\\slashed{\\notin}", mo("∉&#x0338;")),
        body("\\middle\\ni", stretched("∋")),
        body("\\middle\\notin", stretched("∉")),
        body("\\ni'", "<msup><mo>∋</mo><mo>′</mo></msup>"),
        body("x_\\ni^\\notin", "<msubsup><mi>x</mi><mo>∋</mo><mo>∉</mo></msubsup>"),
        body("\\overbrace\\ni", "<mover><mo>∋</mo><mo>⏞</mo></mover>"),
        body("∋∉", mi("∋") + &mi("∉")),
        body("\\nix", command("nix")),
        body("\\begin{align}a&b\\end{q}", align),
        body("\\begin{align}a&<\\\\\\end{align}", rows),
        body("\\begin{matrix}a\\end{matrix}", "<mtable><mtr><mtd><mi>a</mi></mtd></mtr></mtable>"),
    ];
    let sizes = [
        ("bigl", "1.2em"), ("bigr", "1.2em"), ("Bigl", "1.623em"), ("Bigr", "1.623em"),
        ("biggl", "2.047em"), ("biggr", "2.047em"), ("Biggl", "2.470em"), ("Biggr", "2.470em"),
    ];
    cases.extend(sizes.map(|(name, size)| body(format!("\\{name}("), sized(size, "("))));
    cases
}

/// 15: every character that XML 1.0 forbids, looked for in the body and not in the markup; and those next to them.
#[rustfmt::skip]
fn forbidden() -> Vec<Stored> {
    let control = (1..32u8).filter(|byte| !b"\t\n\r".contains(byte)).map(char::from);
    let all = control.chain(['\u{fffe}', '\u{ffff}']);
    let mut cases: Vec<Stored> = all.map(|c| refused(Ask::Both, c.to_string(), 15)).collect();
    let within = [
        "a\x01", "\x01a", "\\\x01", "\\\x1f", "\\\u{fffe}", "\\text\x01", "\\text{\x01}", "\\text{a\x01b}", "\\operatorname{\u{ffff}}",
        "\\slashed{\x01}", "\\slashed\x01a\x01", "\\begin\x01matrix}a\\end", "\\begin{matrix}\x02\\end{matrix}", "x_\x01", "\\mathbf\x01",
        "\\left(\x01\\right)", "\x0b", "\x0c", "<\x01",
    ];
    cases.extend(within.map(|latex| refused(Ask::Both, latex, 15)));
    let allowed = ['\u{7f}', '\u{80}', '\u{9f}', '\u{d7ff}', '\u{e000}', '\u{fdd0}', '\u{fffd}', '\u{10000}', '\u{1fffe}', '\u{10ffff}'];
    cases.extend(allowed.map(|c| body(c.to_string(), mi(&c.to_string()))));
    cases.push(body("\t\n\r ", ""));
    cases
}

/// 15 comes behind that body's parsing, and so behind 1, 2, 14 and 3; 12 comes later still.
#[rustfmt::skip]
fn orders() -> Vec<Stored> {
    let within = |pairs| nested("{", "}", pairs).replace('a', "\x01");
    vec![
        refused(Ask::Both, "{\x01", 6),
        refused(Ask::Both, "\x01{", 6),
        refused(Ask::Both, "\x01\\left{a", 7),
        refused(Ask::Both, "\\begin{q}\x01\\end{q}", 8),
        refused(Ask::Both, "\\middle\x01", 9),
        refused(Ask::Both, "\\middle a\x01", 9),
        refused(Ask::Both, "x_a_\x01", 13),
        refused(Ask::Both, within(127), 15),
        refused(Ask::Both, within(128), 10),
        refused(Ask::Both, "\x01".repeat(4_096), 15),
        refused(Ask::Both, "\x01".repeat(4_097), 1),
        refused(Ask::Both, b"\x01\xff", 2),
        refused(Ask::Both, "\x01\0", 14),
        refused(Ask::Both, "\x01", 3).store(47),
        refused(Ask::Both, "\x01", 15).store(48).output(0),
        refused(Ask::Both, "\x01", 3).store(0).output(0),
        refused(Ask::Both, "<", 12).output(0),
        refused(Ask::Block, "<", 12).output(84),
        scope(Ask::Block, "<").gives(mo("&lt;")).output(85),
        refused(Ask::Inline, "\\langle", 12).output(84),
        scope(Ask::Inline, "\\langle").gives(mo("⟨")).output(85),
        refused(Ask::Block, "\\bigl(", 12).output(126),
        scope(Ask::Block, "\\bigl(").gives(sized("1.2em", "(")).output(127),
    ]
}

/// 15 in a document: before the next body, and before 11 or 12 of its pass; prose is copied.
#[rustfmt::skip]
fn documents() -> Vec<Stored> {
    let less = mo("&lt;");
    let (first, second) = (block(&less), inline(&less));
    let prose = "\x01 < > & \u{fffe} \\ni";
    let dollar = block(&mi("$"));
    vec![
        document("$<$ $$<$$", format!("{second} {first}"), format!("$<$ {first}")),
        document(prose, prose, prose),
        document(format!("{prose} $<$"), format!("{prose} {second}"), format!("{prose} $<$")),
        refused(Ask::Document, "$$\x01$$ $$\\middle a$$", 15),
        refused(Ask::Document, "$$\\middle a$$ $$\x01$$", 9),
        refused(Ask::Document, "$${\x01$$ $$\\middle a$$", 6),
        refused(Ask::Document, "$\x01$ $\\middle a$", 15).between("$\x01$ $\\middle a$"),
        refused(Ask::Document, "$\\middle a$ $\x01$", 9).between("$\\middle a$ $\x01$"),
        refused(Ask::Document, "$\x01$ $$\\middle a$$", 9),
        refused(Ask::Document, "$$\x01$$ $", 15),
        refused(Ask::Document, "$\x01$ $", 4).between("$\x01$ $"),
        refused(Ask::Document, "$$\x01$$ $$", 4),
        refused(Ask::Document, "$$\x01$$$$", 5),
        refused(Ask::Document, "$$\x01$$\0", 14),
        refused(Ask::Document, "$$\x01$$", 15).work(0).output(0),
        refused(Ask::Document, "$$\x01$$", 3).store(47),
        refused(Ask::Document, "$\x01$", 11).work(2),
        refused(Ask::Document, "$\x01$", 15).work(3).output(0).between("$\x01$"),
        refused(Ask::Document, "$$<$$", 11).work(84),
        document("$$<$$", &first, &first).work(85),
        refused(Ask::Document, "$<$", 12).output(85).between("$<$"),
        document("$<$", &second, "$<$").output(86),
        // a dollar that pass one prints makes the text behind it a body of pass two
        refused(Ask::Document, "$$\\$ $$\x01$", 15).between(format!("{dollar}\x01$")),
        refused(Ask::Document, "$\x01", 4).between("$\x01"),
    ]
}

/// A paragraph with a body that 15 refuses stands as typed.
#[rustfmt::skip]
fn pages() -> Vec<Stored> {
    let (less, x) = (inline(&mo("&lt;")), inline("<mi>x</mi>"));
    let page = |text: &str, output: String, paragraphs, left| scope(Ask::Page, text).gives(output).counts(paragraphs, left);
    vec![
        page("$<$", less.clone(), 1, 0),
        page("$\x01$", "$\x01$".into(), 1, 1),
        page("\x01", "\x01".into(), 1, 0),
        page("\x01 $x$\n\n$\x01$ $x$\r\n\r\n$<$", format!("\x01 {x}\n\n$\x01$ $x$\r\n\r\n{less}"), 3, 1),
        page("$$\\text\u{fffe}$$\n\n$x$", format!("$$\\text\u{fffe}$$\n\n{x}"), 2, 1),
        page("$$<$$", "$$<$$".into(), 1, 1).work(84),
        page("$$<$$", block(&mo("&lt;")), 1, 0).work(85),
        page("$<$", less, 1, 0).output(86),
        refused(Ask::Page, "$<$", 12).output(85),
        page("$\x01$", "$\x01$".into(), 1, 1).output(3),
        refused(Ask::Page, "$\x01$", 12).output(2),
    ]
}

pub fn cases() -> Vec<Stored> {
    let parts = [
        escapes(),
        kept(),
        mended(),
        forbidden(),
        orders(),
        documents(),
        pages(),
    ];
    parts.into_iter().flatten().map(Stored::strict).collect()
}
