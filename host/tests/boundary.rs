//! The three operations at their limits: every number, every buffer afterwards, every line of document 01's list. The
//! expected values are written by hand from documents 01 and 02. Each is asked for in both dialects, which differ in none
//! of these answers but where it is said.

#[allow(dead_code)]
mod lent;

use host::Display::{self, Block, Inline};
use host::Manner;
use lent::{body, body_in, paged, raw_body, raw_page, raw_replacement, replacement};
use lent::{Raw, Sizes, Way, AMPLE, NOTHING, UNWRITTEN, WAYS};

fn block(markup: &str) -> Vec<u8> {
    let open = r#"<math xmlns="http://www.w3.org/1998/Math/MathML" display="block">"#;
    [open, markup, "</math>"].concat().into_bytes()
}

fn inline(markup: &str) -> Vec<u8> {
    let open = r#"<math xmlns="http://www.w3.org/1998/Math/MathML" display="inline">"#;
    [open, markup, "</math>"].concat().into_bytes()
}

fn wrapped(markup: &str, display: Display) -> Vec<u8> {
    match display {
        Block => block(markup),
        Inline => inline(markup),
    }
}

fn output(output: usize) -> Sizes {
    Sizes { output, ..AMPLE }
}

fn store(store: usize) -> Sizes {
    Sizes { store, ..AMPLE }
}

fn work(work: usize) -> Sizes {
    Sizes { work, ..AMPLE }
}

fn braces(pairs: usize) -> String {
    ["{".repeat(pairs), "a".into(), "}".repeat(pairs)].concat()
}

fn powers(count: usize) -> String {
    ["x", &"^x".repeat(count)].concat()
}

/// A body for each number that parsing meets.
fn parsing() -> Vec<(u32, String)> {
    vec![
        (6, "{".into()),
        (7, r"\left{a\right)".into()),
        (8, r"\begin{q}a\end{q}".into()),
        (9, r"\middle a".into()),
        (10, braces(128)),
        (13, "x_a_b".into()),
    ]
}

// ---- the list of document 01, with what document 02 changes of it

#[test]
fn the_lines_of_document_01() {
    let lines = [
        ("", ""),
        (r"\frac123", "<mfrac><mn>1</mn><mn>23</mn></mfrac>"),
        (
            r"\frac 123",
            r#"<mfrac><mn>123</mn><mtext>[PARSE ERROR: Undefined("EOF")]</mtext></mfrac>"#,
        ),
        ("x_a^b", "<msubsup><mi>x</mi><mi>a</mi><mi>b</mi></msubsup>"),
        ("a''", "<msup><mi>a</mi><mo>′</mo></msup><mo>'</mo>"),
        (
            r"\sum^n",
            r#"<mover><mi>n</mi><mo accent="false">∑</mo></mover>"#,
        ),
        (
            r"\",
            r#"<mtext>[PARSE ERROR: Undefined("Command(\"\\0\")")]</mtext>"#,
        ),
    ];
    for (latex, markup) in lines {
        for display in [Block, Inline] {
            body(
                latex.as_bytes(),
                display,
                AMPLE,
                Ok(&wrapped(markup, display)),
            );
        }
    }
}

/// Its line with an attribute that the strict dialect quotes.
#[test]
fn the_line_of_document_01_with_an_attribute() {
    let markup = inline(concat!(
        "<mtable columnalign=left><mtr><mtd><mi>a</mi></mtd><mtd><mi>b</mi></mtd></mtr>",
        "</mtable>"
    ));
    let latex = br"\begin{align}a&b\end{q}";
    body_in(Manner::OLD, latex, Inline, AMPLE, Ok(&markup));
}

#[test]
fn the_refused_lines_of_document_01() {
    for (latex, number) in [("{", 6), (r"\left{a\right)", 7), (r"\middle a", 9)] {
        body(latex.as_bytes(), Block, AMPLE, Err(number));
        body(latex.as_bytes(), Inline, AMPLE, Err(number));
    }
    replacement(b"$$$", AMPLE, Err(5), None);
    replacement(b"$$$$", AMPLE, Err(4), None);
    let text = block(r#"<mi>a</mi><mi mathvariant="normal">$</mi><mi>b</mi>"#);
    replacement(b"$$a$b$$", AMPLE, Err(4), Some(&text));
}

#[test]
fn the_depth_lines_of_document_01() {
    body(
        braces(127).as_bytes(),
        Block,
        AMPLE,
        Ok(&block("<mi>a</mi>")),
    );
    body(braces(128).as_bytes(), Block, AMPLE, Err(10));
    body(powers(254).as_bytes(), Inline, AMPLE, Err(13));
    body(powers(255).as_bytes(), Inline, AMPLE, Err(13));
}

#[test]
fn the_page_of_document_01() {
    let markup = inline("<mi>x</mi>");
    let want = [b"a$$$\n\n", &markup[..]].concat();
    let program = Sizes {
        store: 61_440,
        ..AMPLE
    };
    paged(b"a$$$\n\n$x$", program, Ok((&want, 2, 1)));
}

// ---- body translation

#[test]
fn body_1_behind_4096_bytes() {
    let markup = block(&"<mi>a</mi>".repeat(4_096));
    body(&[b'a'; 4_096], Block, AMPLE, Ok(&markup));
    body(&[b'a'; 4_097], Block, AMPLE, Err(1));
    body(&[b'a'; 4_097], Block, NOTHING, Err(1));
    body(&[0xFF; 4_097], Inline, AMPLE, Err(1));
}

#[test]
fn body_2_ill_formed() {
    let ill: [&[u8]; 8] = [
        b"\x80",
        b"a\xFF",
        b"\xC0\xAF",
        b"\xE0\x80\x80",
        b"\xE2\x88",
        b"\xED\xA0\x80",
        b"\xF4\x90\x80\x80",
        b"\xF8\x88\x80\x80\x80",
    ];
    for latex in ill {
        body(latex, Block, AMPLE, Err(2));
        body(latex, Inline, NOTHING, Err(2));
    }
    let markup = block("<mi mathvariant=\"normal\">\u{10FFFF}</mi>");
    body("\u{10FFFF}".as_bytes(), Block, AMPLE, Ok(&markup));
}

/// Document 02, §3: a NUL is looked for directly behind 2.
#[test]
fn body_14_between_2_and_3() {
    for latex in ["\0", "a\0", "\0a", "x_\0b", "\\\0", "{\0", "x_a_\0"] {
        body(latex.as_bytes(), Block, AMPLE, Err(14));
        body(latex.as_bytes(), Inline, NOTHING, Err(14));
    }
    body(b"\0\xFF", Block, AMPLE, Err(2));
    body(b"\xFF\0", Block, NOTHING, Err(2));
    body(&[0; 4_097], Block, AMPLE, Err(1));
    body(&[0; 4_096], Block, AMPLE, Err(14));
}

#[test]
fn body_3_a_store_one_byte_short() {
    body(b"a", Block, store(47), Err(3));
    body(b"a", Block, store(48), Ok(&block("<mi>a</mi>")));
    body(b"abc", Inline, store(143), Err(3));
    let markup = inline("<mi>a</mi><mi>b</mi><mi>c</mi>");
    body(b"abc", Inline, store(144), Ok(&markup));
    body(b"abc", Inline, store(145), Ok(&markup));
    body(b"{", Block, store(47), Err(3));
    body(&[b'a'; 4_096], Block, store(196_607), Err(3));
}

#[test]
fn body_each_number_of_parsing() {
    for (number, latex) in parsing() {
        body(latex.as_bytes(), Block, AMPLE, Err(number));
        body(latex.as_bytes(), Inline, output(0), Err(number));
    }
    body(br"\bigl a", Block, AMPLE, Err(6));
    body(br"\left(a\right a", Block, AMPLE, Err(7));
}

#[test]
fn body_the_first_met_while_parsing() {
    body(br"\begin{q}{\end{q}", Block, AMPLE, Err(6));
    body(br"\middle{", Block, AMPLE, Err(6));
    body(br"\middle a{", Block, AMPLE, Err(9));
    body(br"\left a\middle a", Block, AMPLE, Err(7));
}

/// Document 02, §1: both scripts on one base.
#[test]
fn body_both_scripts_on_one_base() {
    let both = block("<msubsup><mi>x</mi><mi>a</mi><mi>b</mi></msubsup>");
    for latex in ["x_a^b", "x^b_a", "x _ a ^ b", "{x}_{a}^{b}"] {
        body(latex.as_bytes(), Block, AMPLE, Ok(&both));
    }
    body(b"x_a^b", Block, store(240), Ok(&both));
    let primed = block("<msubsup><msup><mi>x</mi><mo>′</mo></msup><mi>a</mi><mi>b</mi></msubsup>");
    body(b"x'_a^b", Block, AMPLE, Ok(&primed));
    let over =
        block("<msub><munderover><mo>∑</mo><mi>a</mi><mi>b</mi></munderover><mi>c</mi></msub>");
    body(br"\sum_a^b_c", Block, AMPLE, Ok(&over));
    let limit = block("<msubsup><mi>lim</mi><mi>b</mi><mi>a</mi></msubsup>");
    body(br"\lim^a_b", Block, AMPLE, Ok(&limit));
}

/// Document 02, §1: a repeated mark is met before its own operand, and behind what the operand before it refuses.
#[test]
fn body_13_when_met() {
    for latex in [
        "x_a_",
        "x_a_{",
        r"x_a_\middle b",
        "x_a^b_c",
        "x^a'^b",
        "x___a",
    ] {
        body(latex.as_bytes(), Block, AMPLE, Err(13));
    }
    for latex in [r"\sum_a_b_c", r"x_\sum_a_b", r"\hat x_a_b", "{x_a_b"] {
        body(latex.as_bytes(), Block, AMPLE, Err(13));
    }
    body(br"x_\middle a_b", Block, AMPLE, Err(9));
    body(b"x_a^{", Block, AMPLE, Err(6));
    body(b"x_a_b", Block, store(239), Err(3));
}

/// Document 02, §1: the operand of a script is one call, so the innermost pair of braces may hold one.
#[test]
fn body_10_behind_a_script() {
    let within = |latex: &str, pairs| braces(pairs).replace('a', latex);
    let markup = block("<msub><mi>x</mi><mi>y</mi></msub>");
    body(within("x_y", 127).as_bytes(), Block, AMPLE, Ok(&markup));
    body(within("x_{y}", 127).as_bytes(), Block, AMPLE, Err(10));
    body(within("x_y_z", 127).as_bytes(), Block, AMPLE, Err(13));
}

#[test]
fn body_12_an_output_one_byte_short() {
    body(b"", Block, output(72), Ok(&block("")));
    body(b"", Block, output(71), Err(12));
    body(b"", Inline, output(73), Ok(&inline("")));
    body(b"", Inline, output(72), Err(12));
    body(b"a", Block, output(82), Ok(&block("<mi>a</mi>")));
    body(b"a", Block, output(81), Err(12));
}

#[test]
fn body_with_nothing_lent() {
    body(b"", Block, NOTHING, Err(12));
    body(b"a", Block, NOTHING, Err(3));
    let only_output = Sizes {
        output: 73,
        ..NOTHING
    };
    body(b"", Inline, only_output, Ok(&inline("")));
}

// ---- replacement

#[test]
fn replacement_1_behind_32768_bytes() {
    let text = [b'a'; 32_769];
    replacement(
        &text[..32_768],
        AMPLE,
        Ok(&text[..32_768]),
        Some(&text[..32_768]),
    );
    replacement(&text, AMPLE, Err(1), None);
    replacement(&text, NOTHING, Err(1), None);
    replacement(&[0xFF; 32_769], AMPLE, Err(1), None);
}

#[test]
fn replacement_1_a_body_of_4097_bytes() {
    let double = ["$$", &"a".repeat(4_097), "$$"].concat();
    replacement(double.as_bytes(), AMPLE, Err(1), None);
    let single = ["$", &"a".repeat(4_097), "$"].concat();
    replacement(single.as_bytes(), AMPLE, Err(1), Some(single.as_bytes()));
    let fits = ["$", &"a".repeat(4_096), "$"].concat();
    let markup = inline(&"<mi>a</mi>".repeat(4_096));
    replacement(fits.as_bytes(), AMPLE, Ok(&markup), Some(fits.as_bytes()));
}

#[test]
fn replacement_2_before_the_dollars() {
    replacement(b"\xFF", AMPLE, Err(2), None);
    replacement(b"\xFF$$$$", AMPLE, Err(2), None);
    replacement(b"$\xE2\x88$", NOTHING, Err(2), None);
}

/// Document 02, §3: a NUL anywhere in a document, in prose too, before the dollars are counted.
#[test]
fn replacement_14_between_2_and_4() {
    let texts = [
        "\0", "a\0", "$a\0$", "$$\0$$", "\0$", "$$$\0", "$$$$\0", "$x$ \0", "$${$$\0",
    ];
    for text in texts {
        replacement(text.as_bytes(), AMPLE, Err(14), None);
        replacement(text.as_bytes(), NOTHING, Err(14), None);
    }
    replacement(b"\0\xFF", AMPLE, Err(2), None);
    replacement(&[0; 32_769], AMPLE, Err(1), None);
    replacement(&[0; 32_768], AMPLE, Err(14), None);
}

#[test]
fn replacement_3_in_each_pass() {
    replacement(b"$$a$$", store(47), Err(3), None);
    replacement(b"$a$", store(47), Err(3), Some(b"$a$"));
    let markup = inline("<mi>a</mi>");
    replacement(b"$a$", store(48), Ok(&markup), Some(b"$a$"));
    let text = block("<mi>a</mi>");
    replacement(b"$$a$$", store(48), Ok(&text), Some(&text));
}

#[test]
fn replacement_4_in_each_pass() {
    replacement(b"$$a", AMPLE, Err(4), None);
    replacement(b"$$$$", NOTHING, Err(4), None);
    replacement(b"$$a$$$", AMPLE, Err(4), None);
    replacement(b"$", AMPLE, Err(4), Some(b"$"));
    replacement(b"a$b$c$", output(0), Err(4), Some(b"a$b$c$"));
}

#[test]
fn replacement_5_before_every_body() {
    replacement(b"$$$", NOTHING, Err(5), None);
    replacement(b"$${$$a$$$", AMPLE, Err(5), None);
    replacement(b"$$a$$$b$$", AMPLE, Err(5), None);
}

#[test]
fn replacement_each_number_of_parsing_in_each_pass() {
    for (number, latex) in parsing() {
        let double = ["a$$", &latex, "$$"].concat();
        replacement(double.as_bytes(), AMPLE, Err(number), None);
        replacement(double.as_bytes(), work(0), Err(number), None);
        let single = ["a$", &latex, "$"].concat();
        replacement(
            single.as_bytes(),
            AMPLE,
            Err(number),
            Some(single.as_bytes()),
        );
        replacement(
            single.as_bytes(),
            output(0),
            Err(number),
            Some(single.as_bytes()),
        );
    }
}

#[test]
fn replacement_the_first_body_that_is_refused() {
    replacement(br"$${$$ $$\middle a$$", AMPLE, Err(6), None);
    replacement(br"$$\middle a$$ $${$$", AMPLE, Err(9), None);
    replacement(br"${$ $$\middle a$$", AMPLE, Err(9), None);
    let text = [b"${$ ", &block("<mi>a</mi>")[..]].concat();
    replacement(b"${$ $$a$$", AMPLE, Err(6), Some(&text));
}

#[test]
fn replacement_11_before_pass_two() {
    replacement(b"abc", work(2), Err(11), None);
    replacement(b"abc", work(3), Ok(b"abc"), Some(b"abc"));
    replacement(b"$", work(0), Err(11), None);
    replacement(b"${$", work(2), Err(11), None);
    let text = block("<mi>a</mi>");
    replacement(b"$$a$$", work(81), Err(11), None);
    replacement(b"$$a$$", work(82), Ok(&text), Some(&text));
    let none = Sizes {
        output: 0,
        ..work(2)
    };
    replacement(b"abc", none, Err(11), None);
}

#[test]
fn replacement_12_last() {
    replacement(b"abc", output(2), Err(12), Some(b"abc"));
    replacement(b"abc", output(3), Ok(b"abc"), Some(b"abc"));
    let markup = inline("<mi>a</mi>");
    replacement(b"$a$", output(82), Err(12), Some(b"$a$"));
    replacement(b"$a$", output(83), Ok(&markup), Some(b"$a$"));
}

#[test]
fn replacement_with_nothing_lent() {
    replacement(b"", NOTHING, Ok(b""), Some(b""));
    replacement(b"a", NOTHING, Err(11), None);
    replacement(b"$$a$$", NOTHING, Err(3), None);
}

#[test]
fn replacement_both_passes() {
    let text = [b"a ", &block("<mi>x</mi>")[..], b" $y$ b"].concat();
    let parts = [
        b"a ",
        &block("<mi>x</mi>")[..],
        b" ",
        &inline("<mi>y</mi>"),
        b" b",
    ];
    replacement(b"a $$x$$ $y$ b", AMPLE, Ok(&parts.concat()), Some(&text));
}

#[test]
fn replacement_counts_the_dollars_that_pass_one_prints() {
    let text = block(r#"<mi mathvariant="normal">$</mi>"#);
    replacement(br"$$\$$$", AMPLE, Err(4), None);
    replacement(br"$$\$ $$", AMPLE, Err(4), Some(&text));
}

// ---- page

/// A paragraph for each number that a replacement can meet but 12, and what must be lent to meet it beside `$x$`.
fn left() -> Vec<(u32, Vec<u8>, Sizes)> {
    let mut cases = vec![
        (
            1,
            ["$", &"a".repeat(4_097), "$"].concat().into_bytes(),
            AMPLE,
        ),
        (2, b"a\xFFb".to_vec(), AMPLE),
        (3, b"$ab$".to_vec(), store(95)),
        (4, b"90$".to_vec(), AMPLE),
        (4, b"$$a".to_vec(), AMPLE),
        (5, b"a$$$".to_vec(), AMPLE),
        (11, b"$$a$$".to_vec(), work(81)),
        (14, b"a\0b".to_vec(), AMPLE),
        (14, b"$x\0$".to_vec(), AMPLE),
    ];
    for (number, latex) in parsing() {
        cases.push((number, ["$", &latex, "$"].concat().into_bytes(), AMPLE));
        cases.push((number, ["$$", &latex, "$$"].concat().into_bytes(), AMPLE));
    }
    cases
}

#[test]
fn page_leaves_a_paragraph_refused_by_any_number_but_12() {
    let markup = inline("<mi>x</mi>");
    let mut met = Vec::new();
    for (number, text, sizes) in left() {
        let alone = raw_replacement(Way::Plain, &text, sizes).expect("it has a replacement");
        assert_eq!(alone.number, number, "{}", String::from_utf8_lossy(&text));
        met.push(number);
        let before = [&text[..], b"\n\n$x$"].concat();
        let want = [&text[..], b"\n\n", &markup].concat();
        paged(&before, sizes, Ok((&want, 2, 1)));
        let between = [b"$x$\n\n\n", &text[..], b"\n\n$x$"].concat();
        let want = [&markup[..], b"\n\n\n", &text, b"\n\n", &markup].concat();
        paged(&between, sizes, Ok((&want, 3, 1)));
    }
    met.sort_unstable();
    met.dedup();
    assert_eq!(met, [1, 2, 3, 4, 5, 6, 7, 8, 9, 10, 11, 13, 14]);
}

#[test]
fn page_1_behind_32768_bytes() {
    let text = [b'a'; 32_769];
    paged(&text[..32_768], AMPLE, Ok((&text[..32_768], 1, 0)));
    paged(&text, AMPLE, Err(1));
    paged(&text, NOTHING, Err(1));
}

#[test]
fn page_12_an_output_one_byte_short() {
    let want = [b"a$$$\n\n", &inline("<mi>x</mi>")[..]].concat();
    paged(b"a$$$\n\n$x$", output(89), Ok((&want, 2, 1)));
    paged(b"a$$$\n\n$x$", output(88), Err(12));
    paged(b"$x$", output(10), Err(12));
    paged(b"\n\n", output(1), Err(12));
    paged(&[b'a'; 32_768], output(32_767), Err(12));
}

#[test]
fn page_longer_than_the_usual_output() {
    let one = inline(&"<mi>a</mi>".repeat(2_000));
    let source = ["$", &"a".repeat(2_000), "$\n\n"].concat().repeat(9);
    let want = [&one[..], b"\n\n"].concat().repeat(9);
    paged(source.as_bytes(), output(want.len()), Ok((&want, 10, 0)));
    paged(source.as_bytes(), output(want.len() - 1), Err(12));
}

#[test]
fn page_counts() {
    paged(b"", AMPLE, Ok((b"", 1, 0)));
    paged(b"\n", AMPLE, Ok((b"\n", 1, 0)));
    paged(b"\n\n", AMPLE, Ok((b"\n\n", 2, 0)));
    paged(b"\n\n\n\n\n", AMPLE, Ok((b"\n\n\n\n\n", 2, 0)));
    paged(b"a\nb", AMPLE, Ok((b"a\nb", 1, 0)));
    paged(b"\n\n$\n\n\n$\n\n", AMPLE, Ok((b"\n\n$\n\n\n$\n\n", 4, 2)));
    let prose = b"a\n\n".repeat(10_922);
    paged(&prose, AMPLE, Ok((&prose, 10_923, 0)));
    let stray = b"$\n\n".repeat(10_922);
    paged(&stray, AMPLE, Ok((&stray, 10_923, 10_922)));
}

/// Document 02, §4: a line end is LF or CR LF, and a break is a maximal run of two or more.
#[test]
fn page_breaks_of_line_ends() {
    let cases: [(&[u8], u64); 12] = [
        (b"$\r\n\r\n$", 2),
        (b"$\r\n\n$", 2),
        (b"$\n\r\n$", 2),
        (b"$\r\n\r\n\r\n\n$", 2),
        (b"$\r\r\n\n$", 2),
        (b"$\n\n\r$", 2),
        (b"\r\n\n", 2),
        (b"$\n\r\r\n$", 1),
        (b"$\r\r$", 1),
        (b"$\r\n$", 1),
        (b"$\n\r$", 1),
        (b"$\r\n\r$", 1),
    ];
    for (document, paragraphs) in cases {
        // where both dollars stand in one paragraph they enclose a body of blanks
        let dollars = document.contains(&b'$');
        let left = if dollars && paragraphs == 2 { 2 } else { 0 };
        let want = match (dollars, paragraphs) {
            (true, 1) => inline(""),
            _ => document.to_vec(),
        };
        paged(document, AMPLE, Ok((&want, paragraphs, left)));
    }
}

/// Document 02, §4: the CR before the first LF of a break is not the paragraph's, so it takes no place in the work buffer.
#[test]
fn page_a_paragraph_ends_before_the_cr_of_its_break() {
    paged(b"a\r\n\nb", work(1), Ok((b"a\r\n\nb", 2, 0)));
    paged(b"a\r\r\n\nb", work(1), Ok((b"a\r\r\n\nb", 2, 1)));
    paged(b"a\r\nb", work(3), Ok((b"a\r\nb", 1, 1)));
    paged(b"a\r\nb", work(4), Ok((b"a\r\nb", 1, 0)));
}

#[test]
fn page_with_nothing_lent() {
    paged(b"", NOTHING, Ok((b"", 1, 0)));
    paged(b"a", NOTHING, Err(12));
    let only_output = Sizes {
        output: 7,
        ..NOTHING
    };
    paged(b"abc\n\n$$", only_output, Ok((b"abc\n\n$$", 2, 2)));
    paged(b"abc\n\n", only_output, Ok((b"abc\n\n", 2, 1)));
}

// ---- what is written through the references

/// What a body or a document returns, which has no counts.
fn returned(number: u32, length: u64) -> Raw {
    Raw {
        number,
        length,
        paragraphs: UNWRITTEN,
        refused: UNWRITTEN,
    }
}

fn returned_by_page(number: u32, length: u64, paragraphs: u64, refused: u64) -> Raw {
    Raw {
        number,
        length,
        paragraphs,
        refused,
    }
}

#[test]
fn a_refusal_returns_length_0() {
    for way in WAYS {
        for (number, latex) in parsing() {
            let got = raw_body(way, latex.as_bytes(), AMPLE);
            assert_eq!(got, returned(number, 0));
        }
        let got = raw_body(way, b"", output(71));
        assert_eq!(got, returned(12, 0));
    }
}

#[test]
fn a_refused_replacement_returns_length_0() {
    for way in WAYS {
        for (number, latex, sizes) in left() {
            let Some(got) = raw_replacement(way, &latex, sizes) else {
                continue;
            };
            assert_eq!(got, returned(number, 0));
        }
        if let Some(got) = raw_replacement(way, b"abc", output(2)) {
            assert_eq!(got, returned(12, 0));
        }
    }
}

#[test]
fn a_refused_page_returns_0_for_both_counts() {
    for way in WAYS {
        if let Some(got) = raw_page(way, &[b'\n'; 32_769], AMPLE) {
            assert_eq!(got, returned_by_page(1, 0, 0, 0));
        }
        if let Some(got) = raw_page(way, b"a$$$\n\n$x$", output(88)) {
            assert_eq!(got, returned_by_page(12, 0, 0, 0));
        }
    }
}

#[test]
fn an_acceptance_returns_0_and_the_length() {
    for way in WAYS {
        assert_eq!(raw_body(way, b"", AMPLE), returned(0, 72));
        if let Some(got) = raw_replacement(way, b"a", AMPLE) {
            assert_eq!(got, returned(0, 1));
        }
        if let Some(got) = raw_page(way, b"a$$$\n\n$x$", AMPLE) {
            assert_eq!(got, returned_by_page(0, 89, 2, 1));
        }
    }
}
