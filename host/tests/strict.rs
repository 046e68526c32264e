//! The strict dialect of document 02, §5, beside the old one: what each prints, what 15 refuses, and what is left in the
//! lent buffers. The expected values are written by hand from document 02.

#[allow(dead_code)]
mod lent;

use host::Display::{self, Block, Inline};
use host::Manner;
use lent::{body, body_in, paged, paged_in, raw_body, raw_page, raw_replacement};
use lent::{replacement, replacement_in, Expected, Sizes, Way, AMPLE, NOTHING, WAYS};

const OLD: Manner = Manner::OLD;
const STRICT: Manner = Manner::STRICT;

fn wrapped(markup: &str, display: Display) -> Vec<u8> {
    let display = match display {
        Block => "block",
        Inline => "inline",
    };
    let open = r#"<math xmlns="http://www.w3.org/1998/Math/MathML" display=""#;
    [open, display, r#"">"#, markup, "</math>"]
        .concat()
        .into_bytes()
}

fn block(markup: &str) -> Vec<u8> {
    wrapped(markup, Block)
}

fn inline(markup: &str) -> Vec<u8> {
    wrapped(markup, Inline)
}

/// A body that both dialects accept, with the markup of each.
fn printed(latex: &str, old: &str, strict: &str) {
    for display in [Block, Inline] {
        let want = wrapped(old, display);
        body_in(OLD, latex.as_bytes(), display, AMPLE, Ok(&want));
        let want = wrapped(strict, display);
        body_in(STRICT, latex.as_bytes(), display, AMPLE, Ok(&want));
    }
}

/// A body that both dialects print alike.
fn printed_alike(latex: &str, markup: &str) {
    printed(latex, markup, markup);
}

/// The markup of an operator, of an upright letter, and of a parse error.
fn mo(text: &str) -> String {
    format!("<mo>{text}</mo>")
}

fn mi(text: &str) -> String {
    format!(r#"<mi mathvariant="normal">{text}</mi>"#)
}

fn undefined(text: &str) -> String {
    format!(r#"<mtext>[PARSE ERROR: Undefined("{text}")]</mtext>"#)
}

// ---- what is printed otherwise

#[test]
fn less_and_greater_are_escaped() {
    printed(
        "a<b",
        "<mi>a</mi><mo><</mo><mi>b</mi>",
        "<mi>a</mi><mo>&lt;</mo><mi>b</mi>",
    );
    printed("<", &mo("<"), &mo("&lt;"));
    printed(">", &mo(">"), &mo("&gt;"));
    printed(r"\lt", &mo("<"), &mo("&lt;"));
    printed(r"\gt", &mo(">"), &mo("&gt;"));
    printed(
        "]]>",
        "<mo>]</mo><mo>]</mo><mo>></mo>",
        "<mo>]</mo><mo>]</mo><mo>&gt;</mo>",
    );
    printed(
        r"\frac<>",
        "<mfrac><mo><</mo><mo>></mo></mfrac>",
        "<mfrac><mo>&lt;</mo><mo>&gt;</mo></mfrac>",
    );
    printed(
        "<'",
        "<msup><mo><</mo><mo>′</mo></msup>",
        "<msup><mo>&lt;</mo><mo>′</mo></msup>",
    );
    printed(
        r"\middle<",
        r#"<mo stretchy="true"><</mo>"#,
        r#"<mo stretchy="true">&lt;</mo>"#,
    );
    printed(
        r"\middle\gt",
        r#"<mo stretchy="true">></mo>"#,
        r#"<mo stretchy="true">&gt;</mo>"#,
    );
}

#[test]
fn ampersands_are_escaped() {
    printed(r"\&", &mi("&"), &mi("&amp;"));
    printed(r"\And", &mi("&"), &mi("&amp;"));
    printed(r"\text{\&}", "<mtext>&</mtext>", "<mtext>&amp;</mtext>");
    printed(
        r"\text{a\& b\And}",
        "<mtext>a&b&</mtext>",
        "<mtext>a&amp;b&amp;</mtext>",
    );
    printed(r"\operatorname{\&}", "<mi>&</mi>", "<mi>&amp;</mi>");
    printed(
        r"\mathbf\&",
        r#"<mi mathvariant="bold">&</mi>"#,
        r#"<mi mathvariant="bold">&amp;</mi>"#,
    );
    printed(r"\mathit\&", "<mi>&</mi>", "<mi>&amp;</mi>");
    printed(r"\&\&", &mi("&").repeat(2), &mi("&amp;").repeat(2));
}

/// The printer's own reference for the slash stays.
#[test]
fn a_slashed_sign_is_escaped_and_its_slash_is_not() {
    printed(
        r"\slashed{<}",
        "<mo><&#x0338;</mo>",
        "<mo>&lt;&#x0338;</mo>",
    );
    printed(
        r"\slashed{\&}",
        r#"<mi mathvariant="normal">&&#x0338;</mi>"#,
        r#"<mi mathvariant="normal">&amp;&#x0338;</mi>"#,
    );
    printed_alike(r"\slashed{a}", r#"<mi mathvariant="italic">a&#x0338;</mi>"#);
}

/// Debug's escapes come first, those of XML last; quotes stay.
#[test]
fn error_text_is_escaped() {
    let command = |name: &str| undefined(&format!(r#"Command(\"{name}\")"#));
    printed(r"\<", &command("<"), &command("&lt;"));
    printed(r"\>", &command(">"), &command("&gt;"));
    printed(
        r"\frac\<\>",
        &format!("<mfrac>{}{}</mfrac>", command("<"), command(">")),
        &format!("<mfrac>{}{}</mfrac>", command("&lt;"), command("&gt;")),
    );
    printed_alike("\\\"", &command(r#"\\\""#));
    printed_alike("\\\t", &command(r"\\t"));
    printed_alike("\\\u{7f}", &command(r"\\u{7f}"));
    printed_alike(r"\", &command(r"\\0"));
    printed_alike("\\\u{301}", &command("\u{301}"));
    printed_alike(r"\lang", &command("lang"));
    printed_alike("_", &undefined("Underscore"));
    printed_alike("&", "<mtext>[PARSE ERROR: Ampersand]</mtext>");
    printed_alike(r"\\", "<mtext>[PARSE ERROR: NewLine]</mtext>");
}

#[test]
fn angle_brackets_are_characters() {
    printed(r"\langle", &mo("&lang;"), &mo("\u{27e8}"));
    printed(r"\rangle", &mo("&rang;"), &mo("\u{27e9}"));
    printed(
        r"\left\langle a\right\rangle",
        concat!(
            r#"<mrow><mo stretchy="true" form="prefix">&lang;</mo><mi>a</mi>"#,
            r#"<mo stretchy="true" form="postfix">&rang;</mo></mrow>"#
        ),
        concat!(
            "<mrow><mo stretchy=\"true\" form=\"prefix\">\u{27e8}</mo><mi>a</mi>",
            "<mo stretchy=\"true\" form=\"postfix\">\u{27e9}</mo></mrow>"
        ),
    );
    printed(
        r"\left\rangle\right\langle",
        concat!(
            r#"<mrow><mo stretchy="true" form="prefix">&rang;</mo><mrow></mrow>"#,
            r#"<mo stretchy="true" form="postfix">&lang;</mo></mrow>"#
        ),
        concat!(
            "<mrow><mo stretchy=\"true\" form=\"prefix\">\u{27e9}</mo><mrow></mrow>",
            "<mo stretchy=\"true\" form=\"postfix\">\u{27e8}</mo></mrow>"
        ),
    );
}

#[test]
fn angle_brackets_stretched_and_sized_are_characters() {
    printed(
        r"\middle\langle",
        r#"<mo stretchy="true">&lang;</mo>"#,
        "<mo stretchy=\"true\">\u{27e8}</mo>",
    );
    printed(
        r"\middle\rangle",
        r#"<mo stretchy="true">&rang;</mo>"#,
        "<mo stretchy=\"true\">\u{27e9}</mo>",
    );
    printed(
        r"\bigl\langle",
        r#"<mrow><mo maxsize="1.2em" minsize="1.2em">&lang;</mro></mrow>"#,
        "<mrow><mo maxsize=\"1.2em\" minsize=\"1.2em\">\u{27e8}</mo></mrow>",
    );
    printed(
        r"\Biggr\rangle",
        r#"<mrow><mo maxsize="2.470em" minsize="2.470em">&rang;</mro></mrow>"#,
        "<mrow><mo maxsize=\"2.470em\" minsize=\"2.470em\">\u{27e9}</mo></mrow>",
    );
    printed(r"\slashed{\langle}", &mo("&lang;"), &mo("\u{27e8}"));
    printed_alike("\u{27e8}", &mi("\u{27e8}"));
}

/// `\notin` stays what it is in both.
#[test]
fn ni_is_no_longer_notin() {
    printed(r"\ni", &mo("\u{2209}"), &mo("\u{220b}"));
    printed_alike(r"\notin", &mo("\u{2209}"));
    printed(
        r"\slashed{\ni}",
        "<mo>\u{2209}&#x0338;</mo>",
        "<mo>\u{220b}&#x0338;</mo>",
    );
    printed_alike(r"\slashed{\notin}", "<mo>\u{2209}&#x0338;</mo>");
    printed(
        r"\middle\ni",
        "<mo stretchy=\"true\">\u{2209}</mo>",
        "<mo stretchy=\"true\">\u{220b}</mo>",
    );
    printed_alike(r"\middle\notin", "<mo stretchy=\"true\">\u{2209}</mo>");
    printed(
        r"a\ni b\notin c",
        "<mi>a</mi><mo>\u{2209}</mo><mi>b</mi><mo>\u{2209}</mo><mi>c</mi>",
        "<mi>a</mi><mo>\u{220b}</mo><mi>b</mi><mo>\u{2209}</mo><mi>c</mi>",
    );
    printed(
        r"\hat\ni",
        "<mover><mo>\u{2209}</mo><mo accent=\"true\">^</mo></mover>",
        "<mover><mo>\u{220b}</mo><mo accent=\"true\">^</mo></mover>",
    );
    printed(
        r"x_\ni^\notin",
        "<msubsup><mi>x</mi><mo>\u{2209}</mo><mo>\u{2209}</mo></msubsup>",
        "<msubsup><mi>x</mi><mo>\u{220b}</mo><mo>\u{2209}</mo></msubsup>",
    );
    printed_alike("\u{220b}", &mi("\u{220b}"));
    printed_alike("\u{2209}", &mi("\u{2209}"));
    printed_alike(r"\nix", &undefined(r#"Command(\"nix\")"#));
}

#[test]
fn the_attribute_of_align_is_quoted() {
    let cells = "<mtr><mtd><mi>a</mi></mtd><mtd><mi>b</mi></mtd></mtr></mtable>";
    printed(
        r"\begin{align}a&b\end{q}",
        &format!("<mtable columnalign=left>{cells}"),
        &format!(r#"<mtable columnalign="left">{cells}"#),
    );
    printed_alike(
        r"\begin{matrix}a&b\end{matrix}",
        &format!("<mtable>{cells}"),
    );
    printed(
        r"\begin{align}a&<\\&b\end{align}",
        concat!(
            "<mtable columnalign=left><mtr><mtd><mi>a</mi></mtd><mtd><mo><</mo></mtd></mtr>",
            "<mtr><mtd></mtd><mtd><mi>b</mi></mtd></mtr></mtable>"
        ),
        concat!(
            r#"<mtable columnalign="left"><mtr><mtd><mi>a</mi></mtd><mtd><mo>&lt;</mo></mtd></mtr>"#,
            "<mtr><mtd></mtd><mtd><mi>b</mi></mtd></mtr></mtable>"
        ),
    );
}

#[test]
fn a_sized_parenthesis_is_closed_by_its_name() {
    let sizes = [
        ("bigl", "1.2em"),
        ("bigr", "1.2em"),
        ("Bigl", "1.623em"),
        ("Bigr", "1.623em"),
        ("biggl", "2.047em"),
        ("biggr", "2.047em"),
        ("Biggl", "2.470em"),
        ("Biggr", "2.470em"),
    ];
    for (name, size) in sizes {
        let open = format!(r#"<mrow><mo maxsize="{size}" minsize="{size}">("#);
        printed(
            &format!(r"\{name}("),
            &format!("{open}</mro></mrow>"),
            &format!("{open}</mo></mrow>"),
        );
    }
}

#[test]
fn the_rest_is_printed_as_in_the_old_dialect() {
    printed_alike("", "");
    printed_alike("\"", &mi("\""));
    printed_alike("'", "<mo>'</mo>");
    printed_alike(r"\partial", r#"<mo mathvariant="italic">∂</mo>"#);
    printed_alike(r"\,", r#"<mspace width="0.16666667em"/>"#);
    printed_alike(
        r"{\sqrt[3]x}_a^b",
        "<msubsup><mroot><mi>x</mi><mn>3</mn></mroot><mi>a</mi><mi>b</mi></msubsup>",
    );
    printed_alike(
        r"\tbinom12",
        concat!(
            r#"<mstyle displaystyle="false"><mrow><mrow><mo stretchy="true" form="prefix">(</mo>"#,
            r#"<mfrac linethickness="0"><mn>1</mn><mn>2</mn></mfrac>"#,
            r#"<mo stretchy="true" form="postfix">)</mo></mrow></mrow></mstyle>"#
        ),
    );
}

// ---- 15

/// A body that the strict dialect alone refuses, by 15.
fn forbidden(latex: &str, old: &str) {
    body_in(OLD, latex.as_bytes(), Block, AMPLE, Ok(&block(old)));
    for sizes in [AMPLE, AMPLE.with_output(0)] {
        body_in(STRICT, latex.as_bytes(), Block, sizes, Err(15));
        body_in(STRICT, latex.as_bytes(), Inline, sizes, Err(15));
    }
}

#[test]
fn body_15_for_each_character_that_xml_forbids() {
    let control = (1..0x20).filter(|code| ![9, 10, 13].contains(code));
    for code in control.chain([0xfffe, 0xffff]) {
        let c = char::from_u32(code).expect("it is a character").to_string();
        forbidden(&c, &mi(&c));
        forbidden(&format!("a{c}"), &format!("<mi>a</mi>{}", mi(&c)));
        forbidden(
            &format!("\\text{{a{c}b}}"),
            &format!("<mtext>a{c}b</mtext>"),
        );
    }
}

/// The body is looked at and not the markup, which shows none of these.
#[test]
fn body_15_where_the_markup_has_only_ascii() {
    forbidden("\\\u{1}", &undefined(r#"Command(\"\\u{1}\")"#));
    forbidden("\\\u{1f}", &undefined(r#"Command(\"\\u{1f}\")"#));
    forbidden("\\text\u{1}", "<mtext></mtext>");
    forbidden("\\text\u{1}{", "<mtext></mtext>");
    forbidden(
        "\\slashed\u{1}a\u{1}",
        r#"<mi mathvariant="italic">a&#x0338;</mi>"#,
    );
    forbidden(
        "\\begin\u{1}matrix}a\\end",
        "<mtable><mtr><mtd><mi>a</mi></mtd></mtr></mtable>",
    );
}

#[test]
fn body_15_not_for_what_xml_allows() {
    for code in [
        0x7f, 0x80, 0x85, 0x9f, 0xd7ff, 0xe000, 0xfdd0, 0xfffd, 0x10000, 0x1fffe, 0x10ffff,
    ] {
        let c = char::from_u32(code).expect("it is a character").to_string();
        printed_alike(&c, &mi(&c));
    }
    printed_alike("\t\n\r ", "");
}

#[test]
fn body_15_behind_parsing() {
    let parsing = [
        (6, "{\u{1}"),
        (7, "\\left{\u{1}\\right)"),
        (8, "\\begin{q}\u{1}\\end{q}"),
        (9, "\\middle\u{1}"),
        (13, "x_a_\u{1}"),
    ];
    for (number, latex) in parsing {
        body(latex.as_bytes(), Block, AMPLE, Err(number));
        body(latex.as_bytes(), Inline, AMPLE.with_output(0), Err(number));
    }
    body(b"\x01{", Block, AMPLE, Err(6));
    let deep = [&"{".repeat(128), "\u{1}", &"}".repeat(128)].concat();
    body(deep.as_bytes(), Block, AMPLE, Err(10));
    let accepted = [&"{".repeat(127), "\u{1}", &"}".repeat(127)].concat();
    forbidden(&accepted, &mi("\u{1}"));
}

#[test]
fn body_15_behind_1_2_14_and_3() {
    body(&[1; 4_097], Block, AMPLE, Err(1));
    body_in(STRICT, &[1; 4_096], Block, AMPLE, Err(15));
    body(b"\x01\xFF", Block, AMPLE, Err(2));
    body(b"\x01\0", Block, AMPLE, Err(14));
    body(b"\x01", Block, AMPLE.with_store(47), Err(3));
    body_in(STRICT, b"\x01", Block, AMPLE.with_store(48), Err(15));
    body(b"\x01", Block, NOTHING, Err(3));
}

// ---- what is lent, every size from 0 on

/// Enough for what is tried here with every size.
const SMALL: Sizes = Sizes {
    store: 1_000,
    work: 1_000,
    output: 1_000,
};

/// What was made, where the lent size is what it needs or more, else a number.
fn fitting(size: usize, needed: usize, number: u32, made: &[u8]) -> Expected<'_> {
    if size < needed {
        Err(number)
    } else {
        Ok(made)
    }
}

/// A body with each size: 3 below the store that it needs, 12 below its output.
fn each_size(manner: Manner, latex: &str, markup: &str) {
    let (made, needed) = (block(markup), 48 * latex.len());
    for size in 0..=needed + 1 {
        let want = fitting(size, needed, 3, &made);
        let sizes = SMALL.with_store(size);
        body_in(manner, latex.as_bytes(), Block, sizes, want);
    }
    let made = inline(markup);
    for size in 0..=made.len() + 1 {
        let want = fitting(size, made.len(), 12, &made);
        let sizes = SMALL.with_output(size);
        body_in(manner, latex.as_bytes(), Inline, sizes, want);
    }
}

#[test]
fn body_with_every_size() {
    let old = "<mi>a</mi><mo><</mo><mi>b</mi>";
    let strict = "<mi>a</mi><mo>&lt;</mo><mi>b</mi>";
    assert_eq!((block(old).len(), block(strict).len()), (102, 105));
    each_size(OLD, "a<b", old);
    each_size(STRICT, "a<b", strict);
    each_size(STRICT, "", "");
}

/// Shorter in the strict dialect: `&lang;` has six bytes and U+27E8 three, `</mro>` one more than `</mo>`.
#[test]
fn body_where_the_old_dialect_needs_more() {
    let old = r#"<mrow><mo maxsize="1.2em" minsize="1.2em">&lang;</mro></mrow>"#;
    let strict = "<mrow><mo maxsize=\"1.2em\" minsize=\"1.2em\">\u{27e8}</mo></mrow>";
    let latex = br"\bigl\langle";
    let (old, strict) = (block(old), block(strict));
    assert_eq!(old.len(), strict.len() + 4);
    body_in(
        STRICT,
        latex,
        Block,
        AMPLE.with_output(strict.len()),
        Ok(&strict),
    );
    body_in(
        STRICT,
        latex,
        Block,
        AMPLE.with_output(strict.len() - 1),
        Err(12),
    );
    body_in(OLD, latex, Block, AMPLE.with_output(old.len() - 1), Err(12));
    body_in(OLD, latex, Block, AMPLE.with_output(old.len()), Ok(&old));
}

#[test]
fn replacement_with_every_size() {
    let document = b"a $$<$$ $>$";
    let made = block("<mo>&lt;</mo>");
    let first = [b"a ", &made[..], b" $>$"].concat();
    let made = [b"a ", &made[..], b" ", &inline("<mo>&gt;</mo>")].concat();
    for size in 0..=49 {
        let want = fitting(size, 48, 3, &made);
        let text = want.is_ok().then_some(&first[..]);
        replacement_in(STRICT, document, SMALL.with_store(size), want, text);
    }
    for size in 0..=first.len() + 1 {
        let want = fitting(size, first.len(), 11, &made);
        let text = want.is_ok().then_some(&first[..]);
        replacement_in(STRICT, document, SMALL.with_work(size), want, text);
    }
    for size in 0..=made.len() + 1 {
        let want = fitting(size, made.len(), 12, &made);
        let sizes = SMALL.with_output(size);
        replacement_in(STRICT, document, sizes, want, Some(&first));
    }
}

/// Its first paragraph needs 48 bytes of store and the length of its markup as a work buffer, or it is left too.
#[test]
fn page_with_every_size() {
    let document = b"$$<$$\n\n$\x01$\n\n90$".as_slice();
    let first = block("<mo>&lt;</mo>");
    let made = [&first[..], b"\n\n$\x01$\n\n90$"].concat();
    let page = |fits: bool| {
        if fits {
            Ok((&made[..], 3, 2))
        } else {
            Ok((document, 3, 3))
        }
    };
    for size in 0..=49 {
        paged_in(STRICT, document, SMALL.with_store(size), page(size >= 48));
    }
    for size in 0..=first.len() + 1 {
        let want = page(size >= first.len());
        paged_in(STRICT, document, SMALL.with_work(size), want);
    }
    for size in 0..=made.len() + 1 {
        let want = fitting(size, made.len(), 12, &made).map(|made| (made, 3, 2));
        paged_in(STRICT, document, SMALL.with_output(size), want);
    }
}

// ---- documents

#[test]
fn replacement_15_before_the_next_body() {
    replacement_in(STRICT, b"$$\x01$$ $$\\middle a$$", AMPLE, Err(15), None);
    replacement(b"$$\\middle a$$ $$\x01$$", AMPLE, Err(9), None);
    replacement_in(OLD, b"$$\x01$$ $$\\middle a$$", AMPLE, Err(9), None);
    replacement(b"$${\x01$$ $$\\middle a$$", AMPLE, Err(6), None);
    let text = b"$\x01$ $\\middle a$";
    replacement_in(STRICT, text, AMPLE, Err(15), Some(text));
    replacement_in(OLD, text, AMPLE, Err(9), Some(text));
    let text = b"$\\middle a$ $\x01$";
    replacement(text, AMPLE, Err(9), Some(text));
    let long = [b"$$\x01$$ $$", &[b'a'; 4_097][..], b"$$"].concat();
    replacement_in(STRICT, &long, AMPLE, Err(15), None);
    replacement_in(OLD, &long, AMPLE, Err(1), None);
}

#[test]
fn replacement_15_before_11_or_12_of_its_pass() {
    replacement_in(STRICT, b"$$\x01$$", AMPLE.with_work(0), Err(15), None);
    replacement_in(STRICT, b"$$\x01$$ $", AMPLE, Err(15), None);
    replacement(b"$\x01$", AMPLE.with_work(2), Err(11), None);
    replacement_in(
        STRICT,
        b"$\x01$",
        AMPLE.with_work(3),
        Err(15),
        Some(b"$\x01$"),
    );
    replacement_in(
        STRICT,
        b"$\x01$",
        AMPLE.with_output(0),
        Err(15),
        Some(b"$\x01$"),
    );
    replacement(b"$\x01$ $", AMPLE, Err(4), Some(b"$\x01$ $"));
    replacement(b"$$\x01$$ $$$", AMPLE, Err(5), None);
    replacement(b"$$\x01$$$$", AMPLE, Err(5), None);
    replacement(b"$$\x01$$ \0", AMPLE, Err(14), None);
    replacement(b"$$\x01$$ $$", AMPLE, Err(4), None);
    replacement(b"$$\x01$$", AMPLE.with_store(47), Err(3), None);
}

/// Prose is copied as ever: no character of it is refused or escaped.
#[test]
fn prose_is_copied() {
    let prose = "\u{1} < > & \u{fffe} \\ni \\langle".as_bytes();
    replacement(prose, AMPLE, Ok(prose), Some(prose));
    paged(prose, AMPLE, Ok((prose, 1, 0)));
    let text = [prose, b" $<$ ", prose].concat();
    let with = |markup: &str| [prose, b" ", &inline(markup), b" ", prose].concat();
    let (old, strict) = (with("<mo><</mo>"), with("<mo>&lt;</mo>"));
    replacement_in(OLD, &text, AMPLE, Ok(&old), Some(&text));
    replacement_in(STRICT, &text, AMPLE, Ok(&strict), Some(&text));
}

/// What pass two makes of a text that pass one has printed, character by character.
fn spelled(text: &str, strict: bool) -> String {
    let mut markup = String::new();
    let mut number = String::new();
    for c in text.chars() {
        if c.is_ascii_digit() {
            number.push(c);
            continue;
        }
        if !number.is_empty() {
            markup += &format!("<mn>{number}</mn>");
            number.clear();
        }
        match c {
            ' ' => (),
            '&' => markup += "<mtext>[PARSE ERROR: Ampersand]</mtext>",
            '<' if strict => markup += &mo("&lt;"),
            '>' if strict => markup += &mo("&gt;"),
            '<' | '>' | '=' | ':' | '/' | ';' => markup += &mo(&c.to_string()),
            'a'..='z' | 'A'..='Z' => markup += &format!("<mi>{c}</mi>"),
            _ => markup += &mi(&c.to_string()),
        }
    }
    markup
}

/// Pass two reads the markup of pass one, which is another text in each dialect.
#[test]
fn replacement_reads_its_own_markup_again() {
    for manner in [OLD, STRICT] {
        let less = if manner.strict { "&lt;" } else { "<" };
        let first = block(&format!(
            r#"<mi mathvariant="normal">$</mi><mo>{less}</mo>"#
        ));
        let first = [&first[..], b" $"].concat();
        let again = format!("</mi><mo>{less}</mo></math> ");
        let made = [
            r#"<math xmlns="http://www.w3.org/1998/Math/MathML" display="block">"#.as_bytes(),
            br#"<mi mathvariant="normal">"#,
            &inline(&spelled(&again, manner.strict)),
        ]
        .concat();
        let document = br"$$\$ < $$ $";
        replacement_in(manner, document, AMPLE, Ok(&made), Some(&first));
        let needed = 48 * again.len();
        replacement_in(
            manner,
            document,
            AMPLE.with_store(needed),
            Ok(&made),
            Some(&first),
        );
        let short = AMPLE.with_store(needed - 1);
        replacement_in(manner, document, short, Err(3), Some(&first));
    }
}

/// Prose of the document is a body's text where pass one has printed a dollar before it.
#[test]
fn replacement_15_for_prose_between_dollars_of_pass_one() {
    let document = b"$$\\$ $$\x01$";
    let first = [&block(r#"<mi mathvariant="normal">$</mi>"#)[..], b"\x01$"].concat();
    replacement_in(STRICT, document, AMPLE, Err(15), Some(&first));
    let made = [
        r#"<math xmlns="http://www.w3.org/1998/Math/MathML" display="block">"#.as_bytes(),
        br#"<mi mathvariant="normal">"#,
        &inline(&spelled("</mi></math>\u{1}", false)),
    ]
    .concat();
    replacement_in(OLD, document, AMPLE, Ok(&made), Some(&first));
}

/// The relations between the dialects are about bodies: the text of pass one is longer in one of the two.
#[test]
fn replacement_11_in_one_dialect_only() {
    let (old, strict) = (block("<mo><</mo>"), block("<mo>&lt;</mo>"));
    assert_eq!((old.len(), strict.len()), (82, 85));
    replacement_in(OLD, b"$$<$$", AMPLE.with_work(82), Ok(&old), Some(&old));
    replacement_in(STRICT, b"$$<$$", AMPLE.with_work(84), Err(11), None);
    replacement_in(
        STRICT,
        b"$$<$$",
        AMPLE.with_work(85),
        Ok(&strict),
        Some(&strict),
    );
}

// ---- pages

#[test]
fn page_leaves_a_paragraph_refused_by_15() {
    let document = "\u{1} $x$\n\n$\u{1}$ $x$\n\n$<$\n\n$$\\text\u{fffe}$$";
    let x = String::from_utf8(inline("<mi>x</mi>")).expect("it is text");
    let text = |markup: &str| String::from_utf8(inline(markup)).expect("it is text");
    let strict = format!(
        "\u{1} {x}\n\n$\u{1}$ $x$\n\n{}\n\n$$\\text\u{fffe}$$",
        text("<mo>&lt;</mo>")
    );
    let want = (strict.as_bytes(), 4, 2);
    paged_in(STRICT, document.as_bytes(), AMPLE, Ok(want));
    let last = String::from_utf8(block("<mtext></mtext>")).expect("it is text");
    let old = format!(
        "\u{1} {x}\n\n{} {x}\n\n{}\n\n{last}",
        text(&mi("\u{1}")),
        text("<mo><</mo>")
    );
    let want = (old.as_bytes(), 4, 0);
    paged_in(OLD, document.as_bytes(), AMPLE, Ok(want));
}

#[test]
fn page_breaks_are_the_same_in_both() {
    let document = "$<$\r\n\r\n$\u{1}$\n\r\n$>$\r\n";
    let less = String::from_utf8(inline("<mo>&lt;</mo>")).expect("it is text");
    let greater = less.replace("&lt;", "&gt;");
    let made = format!("{less}\r\n\r\n$\u{1}$\n\r\n{greater}\r\n");
    let want = (made.as_bytes(), 3, 1);
    paged_in(STRICT, document.as_bytes(), AMPLE, Ok(want));
}

// ---- what is written through the references

#[test]
fn a_refusal_by_15_returns_length_0() {
    for way in WAYS {
        let strict = way == Way::In(STRICT) || way == Way::Converter;
        let number = if strict { 15 } else { 0 };
        let got = raw_body(way, b"\x01", AMPLE);
        assert_eq!(got.number, number);
        assert_eq!(got.length == 0, strict);
        if let Some(got) = raw_replacement(way, b"$\x01$", AMPLE) {
            assert_eq!(got.number, number);
            assert_eq!(got.length == 0, strict);
        }
        if let Some(got) = raw_page(way, b"$\x01$\n\n$\x01$", AMPLE) {
            let counts = (got.number, got.paragraphs, got.refused);
            assert_eq!(counts, (0, 2, if strict { 2 } else { 0 }));
        }
    }
}
