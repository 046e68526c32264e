//! Stored cases whose answer is written by hand from document 02; the list marks each of them.

use crate::document01::Part::{self, Break, Left, Replaced};
use crate::document01::{
    block, body, document, inline, page_of_parts, refused, scope, undefined, EOF,
};
use crate::inputs::nested;
use crate::stored::{Ask, Source, Stored};

fn sub(base: &str, sub: &str) -> String {
    format!("<msub>{base}{sub}</msub>")
}

fn sup(base: &str, sup: &str) -> String {
    format!("<msup>{base}{sup}</msup>")
}

fn both(base: &str, sub: &str, sup: &str) -> String {
    format!("<msubsup>{base}{sub}{sup}</msubsup>")
}

/// A letter in italics.
fn mi(letter: char) -> String {
    format!("<mi>{letter}</mi>")
}

/// A letter with a prime.
fn primed(letter: char) -> String {
    sup(&mi(letter), "<mo>′</mo>")
}

/// §1: the other mark behind an operand makes one node of both scripts.
#[rustfmt::skip]
fn both_scripts() -> Vec<Stored> {
    let [x, y, a, b, c, d] = ['x', 'y', 'a', 'b', 'c', 'd'].map(mi);
    let (underscore, circumflex) = (undefined("Underscore"), undefined("Circumflex"));
    let ab = format!("<mrow>{a}{b}</mrow>");
    let xab = both(&x, &a, &b);
    vec![
        body("x_a^b", &xab),
        body("x^b_a", &xab),
        body("p_u^2", both(&mi('p'), &mi('u'), "<mn>2</mn>")),
        body("x _ a ^ b", &xab),
        body("x_a\t\n^\rb", &xab),
        body("x_{a}^{b}", &xab),
        body("{x}_a^b", &xab),
        body("{x_a^b}", &xab),
        body("{x_a}^b", sup(&sub(&x, &a), &b)),
        body("x_{ab}^b", both(&x, &ab, &b)),
        body("x_{a^b}^c", both(&x, &sup(&a, &b), &c)),
        body("x_a^by", xab.clone() + &y),
        body("x_a^by_c^d", xab.clone() + &both(&y, &c, &d)),
        body("x_a'^b", both(&x, &primed('a'), &b)),
        body("x^a'_b", both(&x, &b, &primed('a'))),
        body("x_a^b'", both(&x, &a, &primed('b'))),
        body("x_a^b''", both(&x, &a, &primed('b')) + "<mo>'</mo>"),
        body("x'_a^b", both(&primed('x'), &a, &b)),
        body("x'^b_a", both(&primed('x'), &a, &b)),
        body("x_a^", both(&x, &a, EOF)),
        body("x^b_", both(&x, EOF, &b)),
        body("x_^^a", both(&x, &circumflex, &a)),
        body("x^__a", both(&x, &a, &underscore)),
        body("x__^a", both(&x, &underscore, &a)),
        body("__a^b", both(&underscore, &a, &b)),
    ]
}

/// §1: scripts on what takes marks for itself, and in the operands of commands.
#[rustfmt::skip]
fn scripts_of_commands() -> Vec<Stored> {
    let [x, y, a, b, c, d] = ['x', 'y', 'a', 'b', 'c', 'd'].map(mi);
    let sum = format!("<munderover><mo>∑</mo>{a}{b}</munderover>");
    let integral = both("<mo>∫</mo>", &a, &b);
    let brace = format!("<mover>{x}<mo>⏞</mo></mover>");
    let labelled = format!("<munder>{x}<munder><mo>⏟</mo>{a}</munder></munder>");
    let fenced = r#"<mrow><mo stretchy="true" form="prefix">(</mo><mi>x</mi><mo stretchy="true" form="postfix">)</mo></mrow>"#;
    let xab = both(&x, &a, &b);
    vec![
        body("\\sum_a^b_c^d", both(&sum, &c, &d)),
        body("\\sum^b_a^d_c", both(&sum, &c, &d)),
        body("\\int_a^b_c^d", both(&integral, &c, &d)),
        body("\\lim^a_b", both("<mi>lim</mi>", &b, &a)),
        body("\\lim_a^b_c", both(&format!("<munder><mi>lim</mi>{a}</munder>"), &c, &b)),
        body("\\overbrace x_a^b", both(&brace, &a, &b)),
        body("\\underbrace x_a_b^c", both(&labelled, &b, &c)),
        body("x_\\sum_a^b^c", both(&x, &sum, &c)),
        body("x^\\int_a^b_c", both(&x, &c, &integral)),
        body("\\bm x_a^b", &xab),
        body("\\hat x_a^b", format!("<mover>{xab}<mo accent=\"true\">^</mo></mover>")),
        body("\\sqrt x_a^b", format!("<msqrt>{xab}</msqrt>")),
        body("\\frac x_a^b y", format!("<mfrac>{xab}{y}</mfrac>")),
        body("\\slashed{x_a^b}", &xab),
        body("\\left(x\\right)_a^b", both(fenced, &a, &b)),
        body("\\begin{matrix}x_a^b&y\\end{matrix}", format!("<mtable><mtr><mtd>{xab}</mtd><mtd>{y}</mtd></mtr></mtable>")),
    ]
}

/// §1: what the crate reads alike, since no mark comes next behind the operand of a mark taken in parse_node.
#[rustfmt::skip]
fn one_script() -> Vec<Stored> {
    let [x, a, b, c] = ['x', 'a', 'b', 'c'].map(mi);
    let (underscore, circumflex) = (undefined("Underscore"), undefined("Circumflex"));
    let sum = format!("<munderover><mo>∑</mo>{a}{b}</munderover>");
    vec![
        body("x^a'", sup(&x, &primed('a'))),
        body("x'^2", sup(&primed('x'), "<mn>2</mn>")),
        body("x__a", sub(&x, &underscore) + &a),
        body("x_^a", sub(&x, &circumflex) + &a),
        body("\\sum_a_b", sub(&format!("<munder><mo>∑</mo>{a}</munder>"), &b)),
        body("\\sum_a^b_c", sub(&sum, &c)),
        body("x_\\sum_a^b", sub(&x, &sum)),
        body("\\lim_a_b", sub(&format!("<munder><mi>lim</mi>{a}</munder>"), &b)),
        body("\\max_a_b", sub(&format!("<munder><mi>max</mi>{a}</munder>"), &b)),
    ]
}

/// §1: a mark repeated on one base is refused when it is met, before what stands behind it is read.
#[rustfmt::skip]
fn repeated_marks() -> Vec<Stored> {
    let repeated = [
        "x_a_b", "x^a^b", "x_a_", "x^a^", "x_a _ b", "x_a_{", "x_a_\\middle b", "x_a_b{", "{x_a_b", "x_a^b_c", "x_a^b^c", "x^a_b^c",
        "x^a_b_c", "x_a^b_", "x_a^b_{", "x^a'^b", "x_a'_b", "x'^a^b", "x_{a}_{b}", "x___a", "x^^^a", "x_^_a", "x_^^a_b", "__a_b",
        "\\sum_a_b_c", "\\sum_a^b_c_d", "\\sum^b^c^d", "\\int_a_b_c", "\\int_a^b_c^d_x", "\\lim_a_b_c", "\\lim^a^b", "\\max_a_b_c",
        "x_\\sum_a_b", "x_\\sum_a^b_c", "x^\\lim_a^b", "\\overbrace x^a^b^c", "\\overbrace x_a_b", "\\underbrace x_a_b_c",
        "\\hat x_a_b", "\\bm x_a_b", "\\sqrt x_a_b", "\\frac x_a_b y", "\\slashed{x_a_b}", "\\left(x_a_b", "\\begin{q}x_a_b\\end{q}",
    ];
    let mut cases: Vec<Stored> = repeated.iter().map(|latex| refused(Ask::Both, latex, 13)).collect();
    cases.extend([
        refused(Ask::Both, "\\middle x_a_b{", 9),
        refused(Ask::Both, "x_\\middle a_b", 9),
        refused(Ask::Both, "x_a^\\middle b_c", 9),
        refused(Ask::Both, "x_a^{", 6),
        refused(Ask::Both, "x_a^{b_c_", 13),
        refused(Ask::Both, "x_a^{_", 6),
        refused(Ask::Both, "x_\\left a_b", 7),
        refused(Ask::Both, "x_\\bigl a_b", 6),
        refused(Ask::Both, "x_\\begin{q}\\end_b", 8),
        refused(Ask::Both, "x^\\middle a_{", 9),
        refused(Ask::Both, "{\\left a x_a_b", 7),
    ]);
    cases
}

/// §1: an operand of a script is one call, not two, and 13 comes before the call that would be too deep.
#[rustfmt::skip]
fn depths() -> Vec<Stored> {
    let [x, a, b] = ['x', 'a', 'b'].map(mi);
    let within = |latex: &str, pairs: usize| nested("{", "}", pairs).replace('a', latex);
    let powers = |count: usize| format!("x{}", "^x".repeat(count));
    vec![
        body(within("x_a", 127), sub(&x, &a)),
        body(within("x_a^b", 127), both(&x, &a, &b)),
        body(within("x_{a}", 126), sub(&x, &a)),
        refused(Ask::Both, within("x_{a}", 127), 10),
        refused(Ask::Both, within("x_a^{b}", 127), 10),
        refused(Ask::Both, within("x_a", 128), 10),
        refused(Ask::Both, within("x_a_b", 127), 13),
        refused(Ask::Both, within("x_a_{b}", 127), 13),
        refused(Ask::Both, within("x_a^b_{c}", 127), 13),
        refused(Ask::Both, within("x_{a}_b", 127), 10),
        refused(Ask::Both, powers(254), 13),
        refused(Ask::Both, powers(255), 13),
        refused(Ask::Both, powers(2), 13),
        body(powers(1), sup(&x, &x)),
    ]
}

/// §1 in documents and pages, and beside the other reasons to refuse.
#[rustfmt::skip]
fn scripts_in_order() -> Vec<Stored> {
    let xab = both(&mi('x'), &mi('a'), &mi('b'));
    let (first, second) = (block(&xab), inline(&xab));
    vec![
        body("x_a^b", &xab).store(240),
        refused(Ask::Both, "x_a^b", 3).store(239),
        refused(Ask::Both, "x_a_b", 3).store(239),
        refused(Ask::Both, "x_a_b", 13).store(240).output(0),
        scope(Ask::Block, "x_a^b").gives(&xab).output(first.len()),
        refused(Ask::Block, "x_a^b", 12).output(first.len() - 1),
        document("$x_a^b$ $$x_a^b$$", format!("{second} {first}"), format!("$x_a^b$ {first}")),
        refused(Ask::Document, "$x_a_b$", 13).between("$x_a_b$"),
        refused(Ask::Document, "$x_a_b$", 13).output(0).between("$x_a_b$"),
        refused(Ask::Document, "$x_a_b$", 11).work(6),
        refused(Ask::Document, "$$x_a_b$$", 13).work(0),
        refused(Ask::Document, "$$x_a_b$$ $", 13),
        refused(Ask::Document, "$$x_a_b$$ $${$$", 13),
        refused(Ask::Document, "$${$$ $$x_a_b$$", 6),
        refused(Ask::Document, "$x_a_b$ $$\\middle$$", 9),
        refused(Ask::Document, "$x_a_b$ $", 4).between("$x_a_b$ $"),
        refused(Ask::Document, "$$$ $x_a_b$", 5),
        scope(Ask::Page, "$x_a_b$").gives("$x_a_b$").counts(1, 1),
        scope(Ask::Page, "$x_a_b$\n\n$x_a^b$").gives(format!("$x_a_b$\n\n{second}")).counts(2, 1),
        scope(Ask::Page, "$$x_a^b$$\n\n$$x^a^b$$\n\n$x_$").gives(format!("{first}\n\n$$x^a^b$$\n\n{}", inline(&sub(&mi('x'), EOF)))).counts(3, 1),
    ]
}

/// §3: a NUL anywhere in a body or a document, directly behind 2; a page keeps that paragraph as typed.
#[rustfmt::skip]
fn nuls() -> Vec<Stored> {
    let bodies = [
        "\0", "\0a", "a\0", "a\0b", "x_\0b", "\\sqrt\0a", "\\\0", "{\0", "{\0}", "\\left\0", "\\middle\0|", "x_a_\0", " \0", "\\zz\0", "\\text{a\0}", "\0\0",
    ];
    let documents = [
        "\0", "prose\0", "$a\0$", "$$a\0$$", "\0$", "$\0", "$$$\0", "$$$$\0", "$$\0$$$$", "$x$\0", "$${$$ \0", "$\\middle$ \0", "$$\\$ $$\0",
    ];
    let long = [b"\0".repeat(4_096), b"\0".repeat(4_097), b"\0".repeat(32_768), b"\0".repeat(32_769)];
    let x = inline("<mi>x</mi>");
    let nowhere = |case: Stored| case.store(0).work(0).output(0);
    let mut cases: Vec<Stored> = bodies.iter().map(|latex| refused(Ask::Both, latex, 14)).collect();
    cases.extend(bodies.iter().map(|latex| nowhere(refused(Ask::Both, latex, 14))));
    cases.extend(documents.iter().map(|text| refused(Ask::Document, text, 14)));
    cases.extend(documents.iter().map(|text| nowhere(refused(Ask::Document, text, 14))));
    cases.extend(documents.iter().map(|text| scope(Ask::Page, text).gives(text).counts(1, 1)));
    cases.extend([
        refused(Ask::Both, b"\0\xff", 2),
        refused(Ask::Both, b"\xff\0", 2),
        refused(Ask::Document, b"\0\xff", 2),
        refused(Ask::Document, b"$$$$\0\xff", 2),
        refused(Ask::Both, &long[0], 14),
        refused(Ask::Both, &long[1], 1),
        refused(Ask::Document, &long[2], 14),
        refused(Ask::Document, &long[3], 1),
        refused(Ask::Page, &long[3], 1),
        scope(Ask::Page, &long[2]).gives(&long[2]).counts(1, 1),
        body("\\", undefined(r#"Command(\"\\0\")"#)),
        body("x_\\", sub(&mi('x'), &undefined(r#"Command(\"\\0\")"#))),
        scope(Ask::Page, "\0\n\n$\0$\n\n\0$").gives("\0\n\n$\0$\n\n\0$").counts(3, 3),
        scope(Ask::Page, "$x$\n\n\0\n\n$x$").gives(format!("{x}\n\n\0\n\n{x}")).counts(3, 1),
        scope(Ask::Page, "$x$ \0\n\n$x$").gives(format!("$x$ \0\n\n{x}")).counts(2, 1),
        scope(Ask::Page, "\n\0\n").gives("\n\0\n").counts(1, 1),
        refused(Ask::Page, "$x$\n\n\0", 12).output(85),
        scope(Ask::Page, "$x$\n\n\0").gives(format!("{x}\n\n\0")).counts(2, 1).output(86),
    ]);
    cases
}

/// §4: a line end is LF or CR LF, and a break is a maximal run of two or more.
#[rustfmt::skip]
fn breaks() -> Vec<Stored> {
    let pages: &[&[Part]] = &[
        &[Left("$"), Break("\r\n\r\n"), Left("$")],
        &[Left("$"), Break("\r\n\n"), Left("$")],
        &[Left("$"), Break("\n\r\n"), Left("$")],
        &[Left("$"), Break("\n\r\n\r\n\n\r\n"), Left("$")],
        &[Left("$\r"), Break("\r\n\n"), Left("$")],
        &[Left("$\r\r"), Break("\r\n\r\n"), Left("$")],
        &[Left("$"), Break("\n\n"), Left("\r$")],
        &[Left("$"), Break("\r\n\r\n"), Left("\r$")],
        &[Left("$"), Break("\r\n\r\n"), Left("\r\r\n$")],
        &[Left("$\n\r"), Break("\r\n\r\n"), Left("$")],
        &[Left("$\r\n "), Break("\r\n\r\n"), Left(" \r\n$")],
        &[Replaced("$\n\r\r\n$")],
        &[Replaced("$\r\n\r\r\n$")],
        &[Replaced("$\r\n \r\n$")],
        &[Replaced("$\r\n$")],
        &[Replaced("$\n\r$")],
        &[Replaced("$\r\n\r$")],
        &[Replaced("$\r\r$")],
        &[Replaced("$\r$")],
        &[Replaced("$\r\r\n$")],
        &[Left("$a"), Break("\r\n\r\n"), Left("b$")],
        &[Left("$$a"), Break("\r\n\r\n"), Left("b$$")],
        &[Replaced("$a\r\nb$")],
        &[Replaced("")],
        &[Replaced("\r")],
        &[Replaced("\r\n")],
        &[Replaced("\n\r")],
        &[Replaced(""), Break("\r\n\r\n"), Replaced("")],
        &[Replaced(""), Break("\n\r\n"), Replaced("\r")],
        &[Replaced("\r"), Break("\r\n\r\n"), Replaced("")],
        &[Replaced("a"), Break("\r\n\r\n"), Replaced("b"), Break("\n\n"), Replaced("c"), Break("\r\n\n\r\n"), Replaced("d\r\n")],
        &[Replaced("Gate 3\r\nlifts $x$."), Break("\r\n\r\n"), Left("One slip: 90$"), Break("\r\n\r\n"), Replaced("$$y$$\r\n")],
        &[Left("\0"), Break("\r\n\r\n"), Replaced("$x$")],
        &[Left("$x_a_b$"), Break("\r\n\r\n"), Replaced("$x$")],
    ];
    pages.iter().map(|parts| page_of_parts(parts)).collect()
}

/// §4: what a paragraph takes of the work buffer, and the most breaks that a page may have.
#[rustfmt::skip]
fn breaks_and_sizes() -> Vec<Stored> {
    let ends = "\r\n".repeat(16_384);
    let page = |text: &str, paragraphs, left| scope(Ask::Page, text).gives(text).counts(paragraphs, left);
    vec![
        // The paragraph ends before the CR of its break, and a CR before it is text.
        page("a\r\n\nb", 2, 0).work(1),
        page("a\r\n\r\nb", 2, 0).work(1),
        page("a\r\r\n\nb", 2, 1).work(1),
        page("a\r\r\n\nb", 2, 0).work(2),
        page("a\n\n\rb", 2, 1).work(1),
        page("a\r\nb", 1, 1).work(3),
        page("a\r\nb", 1, 0).work(4),
        page(&ends, 2, 0),
        page(&"$\r\n\n".repeat(8_192), 8_193, 8_192),
        page(&"x\r\n\r\n".repeat(6_553), 6_554, 0),
        refused(Ask::Page, ends + "\n", 1),
    ]
}

pub fn cases() -> Vec<Stored> {
    let parts = [
        both_scripts(),
        scripts_of_commands(),
        one_script(),
        repeated_marks(),
        depths(),
        scripts_in_order(),
        nuls(),
        breaks(),
        breaks_and_sizes(),
    ];
    let cases = parts.into_iter().flatten();
    cases
        .map(|case| Stored {
            source: Source::Document02,
            ..case
        })
        .collect()
}
