//! The inputs that the crate answers, or document 02: every command, every character, every arm of the parser and the printer, and a sample of random ones.

use crate::case::Case;
use crate::random::Random;
use crate::words::Words;
use crate::{fixed, generate};

const SEED: u64 = 1;

/// Surroundings of each command: alone, with digits and scripts behind it, styled in a primed group, and as a fence.
const AROUND: [(&str, &str); 4] = [
    ("", ""),
    ("", "12_a^b"),
    ("{\\mathbf", " x}'"),
    ("\\left", " x\\right."),
];

/// At least one body for each arm of the parser and the printer, and each way through it.
#[rustfmt::skip]
const ARMS: &[&str] = &[
    // leaves and scripts
    "x", "12.5.6", ":=", ":", "∂", "\\partial", "\\sin", "\\,", "a\\,b\\quad c\\!d\\:e\\;f\\ g\\qquad h",
    "x_1", "x^2", "x_", "x^", "_", "^", "_a", "^a", "x_a^b", "x^a_b", "x_a_b", "x^a^b", "x_{a}^{b}", "{x_a}^b", "x__a", "x^^a", "x_^a",
    "'", "a'", "a''", "a'''", "a'^b", "a'_b", "a_b'", "a^'", "{}'", "+'", "\\alpha'", "1'", "x_\\frac12", "x^\\sqrt2",
    // groups
    "{", "}", "{}", "{a}", "{ab}", "{{a}}", "{{}}", "{a{b}c}", "{a", "a}b", "{+}", "{a}{b}", "{}_a", "{ab}_c^d",
    // roots, fractions and binomials
    "\\sqrt", "\\sqrt x", "\\sqrt12", "\\sqrt 12", "\\sqrt{}", "\\sqrt{ab}", "\\sqrt[3]{x}", "\\sqrt[]x", "\\sqrt[ab]{c}", "\\sqrt[3",
    "\\sqrt[3]", "\\sqrt x^2", "\\sqrt{x}^2", "\\sqrt[3]12", "\\sqrt]x", "\\sqrt[{]}]x", "\\sqrt [3]x", "\\sqrt'",
    "\\frac", "\\frac1", "\\frac12", "\\frac123", "\\frac 123", "\\frac1 2", "\\frac{1}{2}", "\\frac{a", "\\frac ab", "\\frac1x_2",
    "\\frac{1}{2}^3", "\\frac\\frac1234", "\\frac1.5", "\\frac\\sqrt12", "\\frac}", "\\frac'1", "\\frac&1",
    "\\binom", "\\binom nk", "\\binom12", "\\binom{n}{k}", "\\dbinom nk", "\\tbinom{n}{k}", "\\tbinom12'", "\\dbinom 12",
    // accents and sets
    "\\vec x", "\\vec{ab}", "\\bar", "\\hat x^2", "\\hat{x}_2", "\\overline{ab}", "\\underline x", "\\underline{a}'", "\\widehat\\alpha",
    "\\overset a b", "\\overset{a}{b}", "\\overset", "\\overset a", "\\underset a b", "\\underset{a}{b}'", "\\underset", "\\overset12",
    // braces
    "\\overbrace", "\\overbrace x", "\\overbrace{xy}", "\\overbrace x^{abc}", "\\overbrace x^", "\\overbrace x_a", "\\overbrace x^a_b",
    "\\overbrace x'^a", "\\underbrace", "\\underbrace x", "\\underbrace{x+y}_z", "\\underbrace x^a", "\\underbrace x_a^b",
    "\\underbrace x_\\sqrt a", "\\overbrace x^a'",
    // large operators, integrals and limits
    "\\sum", "\\sum_a", "\\sum^b", "\\sum_a^b", "\\sum^b_a", "\\sum_a^b_c", "\\sum_", "\\sum^", "\\sum_a^", "\\sum'", "\\sum_{a}'",
    "\\sum_a'^b",
    "\\prod_{i=1}^n x", "\\bigcup_a b", "\\int", "\\int_0", "\\int^1", "\\int_0^1", "\\int^1_0", "\\int_0^1_2", "\\int_", "\\int^",
    "\\oint_C f",
    "\\iint_D^{}", "\\int'", "\\lim", "\\lim_", "\\lim_{x\\to0}", "\\lim_x^2", "\\lim^2", "\\lim'_x", "\\limsup_x", "\\liminf_{n}",
    "\\max_a", "\\min",
    // slashes and styles
    "\\slashed", "\\slashed{D}", "\\slashed{+}", "\\slashed{\\partial}", "\\slashed{\\alpha}", "\\slashed{12}", "\\slashed{ab}",
    "\\slashed a",
    "\\slashed{\\hbar}", "\\slashed{\\mathbf p}", "\\slashed{<}", "\\slashed{(}", "\\slashed{}", "\\slashed{x_1}", "\\slashed{",
    "\\mathbf", "\\mathbf x", "\\mathbf{a{bc}d}", "\\mathbf{x^y}", "\\mathbf12", "\\mathbf 12", "\\mathbf{+}", "\\mathbf{{{a}b}c}",
    "\\mathbf{}",
    "\\mathrm{a\\mathbf{b}c}", "\\mathit{ab}", "\\mathbb R", "\\mathcal A", "\\mathscr A", "\\mathfrak{ab}", "\\mathsf x", "\\mathtt{x}",
    "\\bm{\\alpha}", "\\boldsymbol\\Gamma", "\\symbf x", "\\textbf{ab}", "\\textit{ab}", "\\texttt{a1}", "\\mathbf\\sin",
    "\\mathbf{\\frac ab}",
    "\\mathbf\\partial", "\\mathbf(", "\\mathbf{a&b}", "\\mathbf x_y", "\\mathbf{x}'",
    // fences
    "\\left(a\\right)", "\\left(\\right)", "\\left.a\\right|", "\\left[a\\right.", "\\left\\{a\\right\\}",
    "\\left\\langle a\\right\\rangle", "\\left:=a\\right:=",
    "\\left(\\frac ab\\middle|c\\right)", "\\left(a", "\\left(a\\right", "\\left(a\\right a", "\\left", "\\left a", "\\left{a\\right)",
    "\\left<a\\right>",
    "\\left(a\\left[b\\right]c\\right)", "\\right", "\\right)", "a\\right)b", "\\left(ab\\right)^2", "\\left(a\\right)'",
    "\\left\\|a\\right\\|", "\\left(}\\right)",
    "\\left\\lfloor a\\right\\rceil", "\\middle|", "\\middle(", "\\middle+", "\\middle<", "\\middle{|}", "\\middle\\langle", "\\middle:=",
    "\\middle\\sum",
    "\\middle\\int", "\\middle\\times", "\\middle|^2", "\\middle{{+}}", "\\middle\\mathbf+", "\\middle{", "\\middle\\left a",
    "\\middle\\bigl a",
    "\\bigl(", "\\Bigl[", "\\biggl|", "\\Biggl\\{", "\\bigr)", "\\Bigr]", "\\biggr|", "\\Biggr\\}", "\\bigl", "\\bigl a", "\\bigl.",
    "\\bigl(a\\bigr)", "\\bigl\\langle_a",
    "\\big(", "\\Bigg]", "\\bigl:=", "\\bigl{", "\\bigl('",
    // environments
    "\\begin{matrix}a&b\\\\c&d\\end{matrix}", "\\begin{pmatrix}a&b\\\\c&d\\end{pmatrix}", "\\begin{vmatrix}a\\end{vmatrix}",
    "\\begin{bmatrix}\\end{bmatrix}",
    "\\begin{align}a&=b\\\\&=c\\end{align}", "\\begin{matrix}\\end{matrix}", "\\begin{matrix}&\\end{matrix}",
    "\\begin{matrix}\\\\\\end{matrix}",
    "\\begin{matrix}a\\\\\\end{matrix}", "\\begin{matrix}{a&b}\\end{matrix}", "\\begin{matrix}{a&b}c\\end{matrix}",
    "\\begin{matrix}a\\\\'b\\end{matrix}",
    "\\begin{matrix}a&'b\\end{matrix}", "\\begin{matrix}&_a\\end{matrix}", "\\begin{foo}a\\end{foo}", "\\begin{foo}{\\end{foo}",
    "\\begin{foo}a", "\\begin{matrix}a",
    "\\begin{matrix}a\\end", "\\begin{matrix}a\\end{", "\\begin{matrix}a\\end{foo}", "\\begin{matrix}a\\end{matrix}b",
    "\\begin{matrix}a\\end{matrix}'",
    "\\begin{matrix}a\\end{matrix}^T", "\\begin", "\\begin{", "\\begin{matrix", "\\begin matrix", "\\begin{ma trix}a\\end{matrix}",
    "\\begin{matrix}\\begin{pmatrix}a\\end{pmatrix}&b\\end{matrix}",
    "\\begin{\\alpha}a\\end{}", "\\begin{}a\\end{}", "\\begin{Matrix}a\\end{}", "\\begin{matrix1}a\\end{}", "\\begin{matri}a\\end{}",
    "\\begin{aligned}a\\end{}", "\\begin{vmatrix}a&b\\\\c&d\\end{vmatrix}x",
    "\\end", "\\end{matrix}", "&", "\\\\", "a&b", "a\\\\b", "{a&b}", "&'", "\\\\_a", "\\frac&\\\\",
    // texts and names
    "\\text{if so}", "\\text{}", "\\text", "\\text{a1}", "\\text a", "\\text{\\alpha b}", "\\text{a}b", "\\text{ab", "\\text{a}'",
    "\\text{a_b}", "\\text{日本 é}",
    "\\operatorname{argmin}", "\\operatorname{}", "\\operatorname", "\\operatorname*{ab}", "\\operatorname{a b}_c", "\\operatorname{d}x",
    "\\operatorname{\\&}",
    // unknown commands, the end of the input and NUL
    "\\foo", "\\foo x", "\\", "a\\", "{\\}", "\\\0", "\0", "a\0b", "x_\0b", "x^\0", "\\frac\0ab", "\\sqrt\0a", "{a\0b}", "\\text{a\0b}",
    "\\left(\0\\right)", "\\sum_\0^a", "\\hat\0x", "\\bigl\0a",
    "\\begin{matrix}a\0\\end{matrix}", "\\overbrace\0^a", "\\slashed{\0}a", "\\mathbf\0a", "\\left\0", "\\0", "\\1", "\\12",
    // spaces
    "", " ", "\t\n\r ", " a b ", "1 2", "1 .5", "\\frac 1 2", "x _ a ^ b", "a '", "\u{a0}", "\u{2003}", "\x0b", "\x0c",
];

/// What opens a level of calls and what closes it, with the most levels that the limit of calls allows.
pub const LEVELS: &[(&str, &str, usize)] = &[
    ("{", "}", 127),
    ("x^{", "}", 127),
    ("x_{", "}", 127),
    ("x_a^{", "}", 127),
    ("x^{", "}_a", 127),
    ("x^\\bar ", "", 127),
    ("\\sqrt ", "", 127),
    ("\\sqrt[", "]b", 127),
    ("\\sqrt[a]", "", 127),
    ("\\frac1", "", 127),
    ("\\frac{", "}2", 63),
    ("\\binom1", "", 127),
    ("\\bar ", "", 127),
    ("\\underline ", "", 127),
    ("\\overset1", "", 127),
    ("\\underset1", "", 127),
    ("\\left(", "\\right)", 127),
    ("\\begin{matrix}", "\\end{matrix}", 127),
    ("\\overbrace ", "", 254),
    ("\\overbrace1^", "", 254),
    ("\\underbrace ", "", 254),
    ("\\underbrace1_", "", 254),
    ("\\sum_", "", 254),
    ("\\sum^", "", 254),
    ("\\sum_1^", "", 254),
    ("\\int_", "", 254),
    ("\\int^1_", "", 254),
    ("\\lim_", "", 254),
    ("\\mathbf ", "", 127),
    ("\\slashed{", "}", 127),
];

/// A letter in as many levels.
pub fn nested(open: &str, close: &str, levels: usize) -> String {
    format!("{}a{}", open.repeat(levels), close.repeat(levels))
}

/// Each command alone, and each arm.
pub fn arms(words: &Words) -> impl Iterator<Item = String> + '_ {
    let arms = ARMS.iter().map(|&latex| latex.to_owned());
    words.all.iter().cloned().chain(arms)
}

fn commands(words: &Words) -> impl Iterator<Item = String> + '_ {
    let around = AROUND.iter();
    around.flat_map(|(before, behind)| {
        words
            .all
            .iter()
            .map(move |word| format!("{before}{word}{behind}"))
    })
}

/// Every character of one byte, alone and as the name of a command, and some longer ones.
fn characters() -> impl Iterator<Item = String> {
    let longer =
        "\u{80}éδя日𝔸∑′−½²\u{301}\u{200b}\u{2061}\u{fffe}\u{feff}\u{10ffff}\u{d7ff}\u{e000}";
    let all = (0..128u8).map(char::from).chain(longer.chars());
    all.flat_map(|c| [format!("{c}"), format!("\\{c}"), format!("\\text{{a{c}b}}")])
}

/// Random cases of a kind, short ones.
fn sample<'a>(
    kind: &'static str,
    make: fn(&mut Random, &Words) -> Case,
    count: u64,
    words: &'a Words,
) -> impl Iterator<Item = String> + 'a {
    let inputs =
        (0..count).map(move |index| make(&mut Random::new(SEED, kind, index), words).input);
    let short = inputs.filter(|input| (1..=160).contains(&input.len()));
    short.filter_map(|input| String::from_utf8(input).ok())
}

pub fn bodies(words: &Words) -> impl Iterator<Item = String> + '_ {
    let arms = ARMS.iter().map(|&latex| latex.to_owned());
    let deepest = LEVELS
        .iter()
        .map(|&(open, close, levels)| nested(open, close, levels));
    commands(words)
        .chain(arms)
        .chain(characters())
        .chain(deepest)
        .chain(["{".repeat(128), "a".repeat(512)])
        .chain(sample("grammar", generate::grammar, 330, words))
        .chain(sample("damaged", generate::damaged, 90, words))
}

#[rustfmt::skip]
const DOCUMENTS: &[&str] = &[
    "$x$ and $$y$$", "$$x$$ $$y$$", "$x$$y$", "a $x", "$$x", "$$x$", "$x$$", "90$ and 100$", "\\$", "\\$x\\$", "$\\$", "$\\$$", "$$\\$ $$",
    "$$\\$\\$ $$",
    "$$\\$ $$ $", "$$\\$ $$ $x$ $", "$$\\text{\\$\\$} $$", "$$\\$\\$ $$$x$", "$ $$x$$ $", "$a$$b$$c$", "$$a$b$$", "$$a$b$c$$", "$$$$x",
    "x$$ $$x",
    "$${$$", "${$", "$\\left{$", "$$\\left{$$", "$\\begin{foo}\\end{foo}$", "$$\\begin{foo}\\end{foo}$$", "$a$ ${$", "$${$$ $\\left{$",
    "$${$$ $$\\left{$$",
    "$\\left{$ ${$", "$x$\n\n$y$", "<a b=\"$x$\">", "$x\ny$", "$$x\n\n y$$", "\0$x$\x01", "é$é$é", "日本$$語$$", "$\\text{a $x$ b}$",
    "$$\\zz\\$ $$", "$\\zz$",
    "$$&\\\\ $$ $}$", "$x$ < & \"", "$$\\foo$$ and $\\bar$",
];

pub fn documents(words: &Words) -> impl Iterator<Item = String> + '_ {
    let short = (0..).map_while(fixed::short_documents).take(259);
    let short = short.filter_map(|case| String::from_utf8(case.input).ok());
    let written = DOCUMENTS.iter().map(|&text| text.to_owned());
    short
        .chain(written)
        .chain(sample("documents", generate::documents, 150, words))
}

pub fn pages(words: &Words) -> impl Iterator<Item = Vec<u8>> + '_ {
    let short = (0..).map_while(fixed::short_pages).take(156);
    let short = short.map(|case| case.input);
    short.chain(sample("pages", generate::pages, 200, words).map(String::into_bytes))
}
