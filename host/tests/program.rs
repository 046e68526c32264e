//! The page program at the edges of what it reads and writes: it takes standard input and gives a page, or a line with a number.

use std::io::Write;
use std::path::Path;
use std::process::{Command, Stdio};

/// What the program writes for a document.
fn page_main(document: &[u8]) -> Vec<u8> {
    let program = Path::new(env!("CARGO_MANIFEST_DIR")).join("../crates/page_main/out/page_main");
    assert!(
        program.is_file(),
        "crates/page_main/out/page_main is missing: run `rt run` in crates/page_main, then this again"
    );
    let mut child = Command::new(program)
        .stdin(Stdio::piped())
        .stdout(Stdio::piped())
        .spawn()
        .expect("page_main starts");
    let mut input = child.stdin.take().expect("its input is a pipe");
    // It reads no more than it needs, so a longer document may not be taken whole.
    let _ = input.write_all(document);
    drop(input);
    let out = child.wait_with_output().expect("page_main ends");
    assert!(out.status.success());
    out.stdout
}

#[test]
fn a_document_of_the_limit_is_a_page() {
    let document = vec![b'a'; 32_768];
    assert_eq!(page_main(&document), document);
}

#[test]
fn a_longer_document_is_refused_by_1() {
    for length in [32_769, 40_000] {
        assert_eq!(page_main(&vec![b'a'; length]), b"refused 1\n");
    }
}

#[test]
fn a_page_longer_than_the_output_is_refused_by_12() {
    let document = "$x$ ".repeat(1_000);
    assert_eq!(page_main(document.as_bytes()), b"refused 12\n");
}

#[test]
fn nothing_is_an_empty_page() {
    assert_eq!(page_main(b""), b"");
}

#[test]
fn a_stray_dollar_leaves_its_paragraph_alone() {
    let markup =
        r#"<math xmlns="http://www.w3.org/1998/Math/MathML" display="inline"><mi>x</mi></math>"#;
    for lines in ["\n\n", "\r\n\r\n"] {
        let document = ["a$$$", lines, "$x$"].concat();
        let page = ["a$$$", lines, markup].concat();
        assert_eq!(page_main(document.as_bytes()), page.as_bytes());
    }
}
