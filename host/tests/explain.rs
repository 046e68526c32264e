//! The program explain on whole pages, its output written by hand; and its search for a formula beside the replacement.

use host::formula::{first_refused, first_refused_in};
use host::{latex_to_mathml, replace_in, Display, Lent, Manner, Refusal};
use std::io::Write;
use std::process::{Command, Stdio};

/// What the program prints for a page.
fn explain(page: &[u8]) -> String {
    let mut child = Command::new(env!("CARGO_BIN_EXE_explain"))
        .stdin(Stdio::piped())
        .stdout(Stdio::piped())
        .spawn()
        .expect("explain starts");
    let mut input = child.stdin.take().expect("its input is a pipe");
    input.write_all(page).expect("it reads its input");
    drop(input);
    let out = child.wait_with_output().expect("explain ends");
    assert!(out.status.success());
    String::from_utf8(out.stdout).expect("it prints UTF-8")
}

/// Lines put together, each with its line feed.
fn lines(text: &[&str]) -> String {
    text.iter().map(|line| format!("{line}\n")).collect()
}

const ONE: &str =
    "    1 TooLong: A formula has more than 4,096 bytes, or the page more than 32,768: split it.";
const TWO: &str =
    "    2 IllFormed: Some characters are damaged (not UTF-8): delete them and type them again.";
const THREE: &str = "    3 StoreTooSmall: The formula is too long for the memory that is set aside for one: split it into shorter ones.";
const FOUR: &str = "    4 InvalidNumberOfDollarSigns: A dollar, or a pair of dollars, has no partner: a formula needs the same on both sides, and a space to the next.";
const FIVE: &str = "    5 ThreeDollarSigns: Three dollars stand in a row: a formula has one or two on each side, and a space to the next.";
const SIX: &str = r"    6 UnexpectedToken: Something is not closed: a `}`, a `]`, a `\right` or an `\end` is missing, or a bracket behind `\bigl`.";
const SEVEN: &str = r"    7 MissingParensethis: No bracket stands behind `\left` or `\right`: type one there (a brace as `\{`), or a period for none.";
const EIGHT: &str = r"    8 UnknownEnvironment: The name behind `\begin` is not known: matrix, pmatrix, bmatrix, vmatrix and align are.";
const NINE: &str = r"    9 MiddleOperand: Neither a bracket nor a sign stands behind `\middle`: type one there, such as `|`.";
const TEN: &str =
    "    10 TooDeep: Too many parts stand inside one another: take some out, or split the formula.";
const ELEVEN: &str = "    11 WorkTooSmall: The formulas between double dollars come out too long together: split the paragraph.";
const TWELVE: &str = "    12 OutputTooSmall: What comes out is longer than the memory that is set aside for it: make the text shorter.";
const THIRTEEN: &str = "    13 RepeatedMark: Two `_`, or two `^`, stand on the same sign: put braces around what belongs together, as in `x_{a_b}`.";
const FOURTEEN: &str = "    14 NulByte: A NUL, a character that does not show, stands in the text: delete the words around it and type them again.";

#[test]
fn nothing_stays_as_typed() {
    let one = "Nothing stays as typed: the page has 1 paragraph.\n";
    assert_eq!(explain(b""), one);
    assert_eq!(explain(b"prose without a dollar\n"), one);
    let gate = include_bytes!("../../examples/gate.txt");
    let four = "Nothing stays as typed: the page has 4 paragraphs.\n";
    assert_eq!(explain(gate), four);
}

#[test]
fn the_example_with_a_stray_dollar() {
    let want = lines(&[
        "Paragraph 3, line 8, stays as typed.",
        FOUR,
        "1 of 4 paragraphs stays as typed.",
    ]);
    assert_eq!(explain(include_bytes!("../../examples/slip.txt")), want);
}

#[test]
fn the_page_of_document_01() {
    let want = lines(&[
        "Paragraph 1, line 1, stays as typed.",
        FIVE,
        "1 of 2 paragraphs stays as typed.",
    ]);
    assert_eq!(explain(b"a$$$\n\n$x$"), want);
}

#[test]
fn a_page_with_one_paragraph() {
    let want = lines(&[
        "Paragraph 1, lines 1 to 2, stays as typed.",
        FOUR,
        "1 of 1 paragraph stays as typed.",
    ]);
    assert_eq!(explain(b"90$\nfor a rope\n"), want);
}

#[test]
fn the_number_of_a_formula_counts_its_own_kind() {
    let page = concat!(
        "\n\n$a$ and $$b$$\n$$\\frac{1}{2$$ and $c$\n\n\n",
        "$$a$$ then $b$ then\n$\\left{a\\right)$ and ${$\n",
    );
    let want = lines(&[
        "Paragraph 2, lines 3 to 4, stays as typed.",
        SIX,
        r"    Formula 2 between double dollars: \frac{1}{2",
        "Paragraph 3, lines 7 to 8, stays as typed.",
        SEVEN,
        r"    Formula 2 between single dollars: \left{a\right)",
        "2 of 3 paragraphs stay as typed.",
    ]);
    assert_eq!(explain(page.as_bytes()), want);
}

#[test]
fn a_double_dollar_formula_is_met_before_a_single_one() {
    let want = lines(&[
        "Paragraph 1, line 1, stays as typed.",
        NINE,
        r"    Formula 1 between double dollars: \middle a",
        "1 of 1 paragraph stays as typed.",
    ]);
    assert_eq!(explain(br"${$ and $$\middle a$$"), want);
}

#[test]
fn a_formula_between_dollars_that_pass_one_printed() {
    let want = lines(&[
        "Paragraph 1, line 1, stays as typed.",
        SIX,
        "    Formula 1 between single dollars: </mi><mo>+</mo><mi>x</mi></math>{",
        "1 of 1 paragraph stays as typed.",
    ]);
    assert_eq!(explain(br"$$\$+x$${$"), want);
}

#[test]
fn a_long_formula_is_shortened_and_its_lines_joined() {
    let body =
        "\\begin{q}\n\ta & b \\\\ c & d \u{3b1}\u{3b2}\u{3b3} 0123456789 0123456789 \\end{q}";
    let page = ["$$", body, "$$"].concat();
    let want = lines(&[
        "Paragraph 1, lines 1 to 2, stays as typed.",
        EIGHT,
        "    Formula 1 between double dollars: \\begin{q}  a & b \\\\ c & d \u{3b1}\u{3b2}\u{3b3} 0123456789 0123456...",
        "1 of 1 paragraph stays as typed.",
    ]);
    assert_eq!(explain(page.as_bytes()), want);
}

#[test]
fn a_formula_of_48_characters_is_shown_whole() {
    let body = ["{", &"0123456789".repeat(4), "abcdefg"].concat();
    let page = ["$", &body, "$\n\n$", &body, "h$"].concat();
    let want = lines(&[
        "Paragraph 1, line 1, stays as typed.",
        SIX,
        "    Formula 1 between single dollars: {0123456789012345678901234567890123456789abcdefg",
        "Paragraph 2, line 3, stays as typed.",
        SIX,
        "    Formula 1 between single dollars: {0123456789012345678901234567890123456789abcdefg...",
        "2 of 2 paragraphs stay as typed.",
    ]);
    assert_eq!(explain(page.as_bytes()), want);
}

/// The store of 61,440 bytes has 2,560 records, so 1,280 bytes are the longest body.
#[test]
fn a_formula_too_long_for_the_store_or_for_the_limit() {
    let fits = ["$", &"a".repeat(1_280), "$"].concat();
    let store = ["$", &"b".repeat(1_281), "$"].concat();
    let limit = ["$$", &"c".repeat(4_097), "$$"].concat();
    let page = [&fits[..], &store, &limit].join("\n\n");
    let b = [
        "    Formula 1 between single dollars: ",
        &"b".repeat(48),
        "...",
    ]
    .concat();
    let c = [
        "    Formula 1 between double dollars: ",
        &"c".repeat(48),
        "...",
    ]
    .concat();
    let want = lines(&[
        "Paragraph 2, line 3, stays as typed.",
        THREE,
        &b,
        "Paragraph 3, line 5, stays as typed.",
        ONE,
        &c,
        "2 of 3 paragraphs stay as typed.",
    ]);
    assert_eq!(explain(page.as_bytes()), want);
}

#[test]
fn a_formula_too_deep() {
    let page = ["$x$ $", &"{".repeat(128), "a", &"}".repeat(128), "$"].concat();
    let braces = [
        "    Formula 2 between single dollars: ",
        &"{".repeat(48),
        "...",
    ]
    .concat();
    let want = lines(&[
        "Paragraph 1, line 1, stays as typed.",
        TEN,
        &braces,
        "1 of 1 paragraph stays as typed.",
    ]);
    assert_eq!(explain(page.as_bytes()), want);
}

#[test]
fn a_mark_repeated_on_one_base() {
    let want = lines(&[
        "Paragraph 2, line 3, stays as typed.",
        THIRTEEN,
        "    Formula 2 between single dollars: p_u_2",
        "1 of 2 paragraphs stays as typed.",
    ]);
    assert_eq!(explain(b"$p_u^2$\n\n$p_u$ and $p_u_2$"), want);
}

/// Lines are counted by their ends, LF or CR LF, and a CR alone ends none.
#[test]
fn a_page_from_an_office_machine() {
    let page = concat!(
        "Gate 3\r\nlifts $x$.\r\n\r\n",
        "One slip: 90$\r\nfor a rope.\r\n\r\n\r\n",
        "$y$\rand\r$z$\r\n\n",
        "$\\frac{1\r\n}{2$\r\n",
    );
    let want = lines(&[
        "Paragraph 2, lines 4 to 5, stays as typed.",
        FOUR,
        "Paragraph 4, lines 10 to 11, stays as typed.",
        SIX,
        "    Formula 1 between single dollars: \\frac{1  }{2",
        "2 of 4 paragraphs stay as typed.",
    ]);
    assert_eq!(explain(page.as_bytes()), want);
}

/// It is found before any formula is read, so none is named.
#[test]
fn a_nul_in_the_text_or_in_a_formula() {
    let want = lines(&[
        "Paragraph 1, line 1, stays as typed.",
        FOURTEEN,
        "Paragraph 2, lines 3 to 4, stays as typed.",
        FOURTEEN,
        "2 of 3 paragraphs stay as typed.",
    ]);
    assert_eq!(explain(b"The gate\0\n\n$x$ and\n${\0$\n\n$y$"), want);
}

/// A closing brace alone prints 49 bytes, so two formulas of 1,000 are too long for the work buffer together.
#[test]
fn no_formula_is_named_where_none_is_refused_first() {
    let long = ["$$", &"}".repeat(1_000), "$$"].concat();
    let page = [&long[..], " ", &long, " ${$\n\n\u{e9}\n\n"].concat();
    let page = [page.as_bytes(), b"${$\xFF"].concat();
    let want = lines(&[
        "Paragraph 1, line 1, stays as typed.",
        ELEVEN,
        "Paragraph 3, line 5, stays as typed.",
        TWO,
        "2 of 3 paragraphs stay as typed.",
    ]);
    assert_eq!(explain(&page), want);
}

#[test]
fn a_formula_is_named_where_the_text_before_it_is_too_long() {
    let long = ["$$", &"}".repeat(1_000), "$$"].concat();
    let page = [&long[..], " ", &long, " $${$$"].concat();
    let want = lines(&[
        "Paragraph 1, line 1, stays as typed.",
        SIX,
        "    Formula 3 between double dollars: {",
        "1 of 1 paragraph stays as typed.",
    ]);
    assert_eq!(explain(page.as_bytes()), want);
}

#[test]
fn a_page_that_is_refused_whole() {
    let want = lines(&["The whole page is refused.", ONE]);
    assert_eq!(explain(&[b'$'; 32_769]), want);
    let long = ["$", &"}".repeat(1_000), "$\n\n"].concat().repeat(2);
    let page = [&long[..], "90$"].concat();
    let want = lines(&["The whole page is refused.", TWELVE]);
    assert_eq!(explain(page.as_bytes()), want);
}

/// The remedies that the sentences name, tried.
#[test]
fn what_the_sentences_advise_is_accepted() {
    let mut names = vec![];
    for name in ["matrix", "pmatrix", "bmatrix", "vmatrix", "align"] {
        names.push(format!("\\begin{{{name}}}a\\end{{{name}}}"));
    }
    let others = [
        r"\frac{1}{2}",
        r"\sqrt[3]{a}",
        r"\left(a\right)",
        r"\bigl(",
        r"\left\{a\right.",
        r"\left(a\middle|b\right)",
        r"\middle+",
        "x_{a_b}",
    ];
    for latex in others.into_iter().map(String::from).chain(names) {
        let (mut store, mut output) = (vec![0; 48 * latex.len()], vec![0; 1_024]);
        let mut lent = Lent {
            store: &mut store,
            work: &mut [],
            output: &mut output,
        };
        let answer = latex_to_mathml(latex.as_bytes(), Display::Block, &mut lent);
        assert!(answer.is_ok(), "{latex}: {answer:?}");
    }
}

/// Pieces of which documents are made: dollars of every kind, and bodies that are accepted and refused.
const PIECES: [&str; 16] = [
    "$",
    "$",
    "$$",
    "$$",
    " ",
    "a",
    r"\$ ",
    "{",
    "}",
    r"\middle",
    r"\left(",
    r"\right)",
    "^",
    "_",
    r"\begin{q}",
    "\u{1}",
];

/// A document made of as many pieces as wanted, the same for the same seed.
fn document(seed: &mut u64, pieces: usize) -> String {
    let mut text = String::new();
    for _ in 0..pieces {
        *seed = seed.wrapping_mul(6_364_136_223_846_793_005).wrapping_add(1);
        text += PIECES[(*seed >> 33) as usize % PIECES.len()];
    }
    text
}

/// The replacement and the search have nothing in common but the body translation.
#[test]
fn the_formula_found_is_refused_as_the_document_is() {
    let (mut store, mut work, mut output) = (vec![0; 2_000], vec![0; 9_000], vec![0; 20_000]);
    let mut lent = Lent {
        store: &mut store,
        work: &mut work,
        output: &mut output,
    };
    for manner in [Manner::OLD, Manner::STRICT] {
        let (mut seed, mut named) = (7, [0; 16]);
        for i in 0..100_000 {
            let text = document(&mut seed, 2 + i % 15);
            let Err(refusal) = replace_in(text.as_bytes(), manner, &mut lent) else {
                continue;
            };
            if refusal.is_of_a_body() {
                let found = first_refused_in(text.as_bytes(), manner, lent.store);
                assert_eq!(
                    found.map(|f| f.refusal),
                    Some(refusal),
                    "{text}, {manner:?}"
                );
                named[refusal.number() as usize] += 1;
            }
        }
        let all: u32 = named.iter().sum();
        assert!(all > 5_000, "only {all} documents were refused in a body");
        assert_eq!(named[15] > 500, manner.strict, "{} by 15", named[15]);
    }
}

#[test]
fn a_formula_behind_markup_longer_than_the_first_output() {
    let long = "}".repeat(100);
    let text = ["$$", &long, "$$ $", &long, "$ ${$"].concat();
    let found = first_refused(text.as_bytes(), &mut [0; 4_800]).expect("it is refused");
    assert_eq!((found.display, found.number), (Display::Inline, 2));
    assert_eq!(
        (&found.body[..], found.refusal),
        (&b"{"[..], Refusal::UnexpectedToken)
    );
}

#[test]
fn no_formula_where_the_dollars_do_not_pair() {
    for text in ["$", "$$", "$$$", "$$a$$$b$$", "$$$$", "a$b$c$"] {
        assert_eq!(
            first_refused(text.as_bytes(), &mut [0; 480]),
            None,
            "{text}"
        );
    }
}
