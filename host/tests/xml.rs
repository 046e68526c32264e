//! Some thousand bodies: an XML parser that is not ours takes every strict answer, and the dialects refuse alike but for 15.

#[allow(dead_code)]
#[path = "../beside/random.rs"]
mod random;

use host::{convert, latex_to_mathml_in, Display, Lent, Manner, Refusal};
use random::Random;
use std::io::Write;
use std::path::Path;
use std::process::{Command, Stdio};

/// Enough for every body here.
const STORE: usize = 48 * 4_096;
const OUTPUT: usize = 1 << 18;
/// How many random bodies are made, and how many of all must be accepted, so that the tests look at something.
const RANDOM: u64 = 4_000;
const ACCEPTED: usize = 5_000;

// ---- the bodies

/// The commands of the table, as its definition spells them.
fn commands() -> Vec<String> {
    let arms = include_str!("../../crates/token/specs/Arms.antt");
    let quoted = arms.lines().filter_map(|line| line.split_once(" => "));
    let names = quoted.filter_map(|(name, _)| name.trim().strip_prefix('"')?.strip_suffix('"'));
    names
        .map(|name| format!("\\{}", name.replace(r"\\", r"\")))
        .collect()
}

/// Each command where its text, a fence, an operand or a name is printed.
fn around(command: &str) -> [String; 10] {
    [
        format!("{command} a"),
        format!("{command}{{<}}{{>}}"),
        format!("{{\\mathbf{command} x}}'"),
        format!("\\left{command} x\\right{command}"),
        format!("\\middle{command}"),
        format!("\\Bigr{command}"),
        format!("\\slashed{{{command}}}"),
        format!("\\text{{a{command}b}}\\operatorname{{{command}}}"),
        format!("\\frac{{x_{command}}}{{\\sum^{command}}}"),
        format!("\\begin{{align}}a&{command} b\\\\\\end{{align}}"),
    ]
}

/// Each character alone, as the name of a command and in a text; every kind of XML's characters, and those that it forbids.
fn characters() -> Vec<String> {
    let far = [
        0xd7ff, 0xe000, 0xfffd, 0xfffe, 0xffff, 0x10000, 0x1fffe, 0x10ffff,
    ];
    let all = (1..0x250).chain(0x2190..0x2300).chain(far);
    all.filter_map(char::from_u32)
        .flat_map(|c| [format!("{c}"), format!("\\{c}"), format!("\\text{{a{c}b}}")])
        .collect()
}

struct Maker<'a> {
    random: Random,
    commands: &'a [String],
    text: String,
}

impl Maker<'_> {
    fn put(&mut self, piece: &str) {
        self.text.push_str(piece);
    }

    fn one(&mut self, pieces: &[&str]) {
        let piece = self.random.of(pieces);
        self.put(piece);
    }

    fn nodes(&mut self, depth: usize) {
        for _ in 0..self.random.below(4) {
            self.node(depth);
        }
    }

    fn group(&mut self, depth: usize) {
        self.put("{");
        self.nodes(depth);
        self.put("}");
    }

    /// A node whose parts are at most as deep.
    fn node(&mut self, depth: usize) {
        let kinds = if depth == 0 { 5 } else { 10 };
        match self.random.below(kinds) {
            0 | 1 => self.one(&[
                "a", "x", "12", "3.5", "é", "日", "\"", "+", "'", "]", ";", ":=",
            ]),
            2 => self.one(&[
                "<",
                ">",
                r"\&",
                r"\ni",
                r"\langle",
                r"\<",
                r"\>",
                r"\text{\&}",
                "]]>",
            ]),
            3 => self.one(&[
                "&", r"\\", "}", "_", "^", r"\zz", "\\\u{7f}", "\\\"", r"\&lt;", "\u{1}",
            ]),
            4 => self.command(),
            5 => self.group(depth - 1),
            6 => {
                self.command();
                self.group(depth - 1);
                self.group(depth - 1);
            }
            7 => {
                self.group(depth - 1);
                self.one(&["_", "^"]);
                self.group(depth - 1);
            }
            8 => self.fenced(depth - 1),
            _ => self.environment(depth - 1),
        }
    }

    fn command(&mut self) {
        let command = &self.commands[self.random.below(self.commands.len())];
        self.text.push_str(command);
        self.text.push(' ');
    }

    fn fenced(&mut self, depth: usize) {
        let parens = ["(", ".", "|", r"\langle", r"\rangle", r"\{", ":="];
        self.put(r"\left");
        self.one(&parens);
        self.nodes(depth);
        self.one(&[
            "",
            r"\middle<",
            r"\middle\ni",
            r"\middle\rangle",
            r"\biggl\langle",
        ]);
        self.put(r"\right");
        self.one(&parens);
    }

    fn environment(&mut self, depth: usize) {
        let name = self
            .random
            .of(&["align", "matrix", "pmatrix", "bmatrix", "vmatrix"]);
        self.put(&format!("\\begin{{{name}}}"));
        for _ in 0..self.random.below(5) {
            self.nodes(depth);
            self.one(&["&", r"\\"]);
        }
        self.put(&format!("\\end{{{name}}}"));
    }
}

fn bodies() -> Vec<String> {
    let commands = commands();
    assert_eq!(commands.len(), 474, "the table of commands is read");
    let mut bodies = commands.clone();
    bodies.extend(commands.iter().flat_map(|command| around(command)));
    bodies.extend(characters());
    for index in 0..RANDOM {
        let mut maker = Maker {
            random: Random::new(1, "xml", index),
            commands: &commands,
            text: String::new(),
        };
        for _ in 0..1 + index % 4 {
            maker.node(3);
        }
        bodies.push(maker.text);
    }
    bodies
}

// ---- the answers

type Answer = Result<Vec<u8>, Refusal>;

/// Buffers that are lent again and again.
struct Buffers {
    store: Vec<u8>,
    output: Vec<u8>,
}

impl Buffers {
    fn new() -> Buffers {
        Buffers {
            store: vec![0; STORE],
            output: vec![0; OUTPUT],
        }
    }

    fn lend(&mut self, room: usize) -> Lent<'_> {
        Lent {
            store: &mut self.store,
            work: &mut [],
            output: &mut self.output[..room],
        }
    }

    fn translate(&mut self, manner: Manner, latex: &str, room: usize) -> Answer {
        let lent = &mut self.lend(room);
        let answer = latex_to_mathml_in(latex.as_bytes(), Display::Block, manner, lent);
        answer.map(<[u8]>::to_vec)
    }

    fn convert(&mut self, latex: &str) -> Answer {
        let lent = &mut self.lend(OUTPUT);
        let answer = convert(latex.as_bytes(), Display::Block, lent);
        answer.map(<[u8]>::to_vec)
    }
}

// ---- the parser that is not ours

/// What xml/check.py says of each document, or nothing where there is no python3 with expat.
fn checked(documents: &[Vec<u8>]) -> Option<Vec<String>> {
    let script = Path::new(env!("CARGO_MANIFEST_DIR")).join("xml/check.py");
    let there = Command::new("python3")
        .args(["-c", "from xml.parsers import expat"])
        .stderr(Stdio::null())
        .status();
    if !there.is_ok_and(|status| status.success()) {
        eprintln!("python3 with expat is not here: no XML parser has looked at the answers");
        return None;
    }
    let mut child = Command::new("python3")
        .arg(script)
        .stdin(Stdio::piped())
        .stdout(Stdio::piped())
        .spawn()
        .expect("check.py starts");
    let mut input = child.stdin.take().expect("its input is a pipe");
    let mut list = Vec::new();
    for document in documents {
        list.extend(format!("{}\n", document.len()).into_bytes());
        list.extend(document);
    }
    // on a thread of its own, since check.py answers before it has read all
    let writer = std::thread::spawn(move || input.write_all(&list));
    let out = child.wait_with_output().expect("check.py ends");
    writer
        .join()
        .expect("the writer ends")
        .expect("check.py reads all");
    assert!(out.status.success(), "check.py failed");
    let lines = String::from_utf8(out.stdout).expect("check.py writes text");
    let lines: Vec<String> = lines.lines().map(str::to_owned).collect();
    assert_eq!(lines.len(), documents.len(), "an answer for each document");
    Some(lines)
}

#[test]
fn an_xml_parser_takes_every_strict_answer() {
    let mut buffers = Buffers::new();
    let bodies = bodies();
    let translated = bodies.iter().filter_map(|latex| {
        let answer = buffers.translate(Manner::STRICT, latex, OUTPUT);
        answer.ok().map(|markup| (latex, markup))
    });
    let (accepted, documents): (Vec<&String>, Vec<Vec<u8>>) = translated.unzip();
    assert!(accepted.len() >= ACCEPTED, "only {}", accepted.len());
    eprintln!(
        "{} strict answers of {} bodies",
        accepted.len(),
        bodies.len()
    );
    for (latex, line) in accepted.iter().zip(checked(&documents).unwrap_or_default()) {
        assert_eq!(line, "ok", "for {latex:?}");
    }
}

/// The old dialect's answers, and what no answer is: the parser can refuse.
#[test]
fn the_xml_parser_refuses_what_is_not_well_formed() {
    let mut buffers = Buffers::new();
    let bodies = [
        "a<b",
        r"\bigl(",
        r"\begin{align}a\end{align}",
        "\\text{\u{1}}",
        "\u{fffe}",
        r"\&",
        r"\langle",
        r"\<",
    ];
    let old = bodies.map(|latex| buffers.translate(Manner::OLD, latex, OUTPUT));
    let old = old.map(|answer| answer.expect("the old dialect accepts it"));
    let strict = bodies.map(|latex| buffers.translate(Manner::STRICT, latex, OUTPUT));
    let strict: Vec<Vec<u8>> = strict.into_iter().flatten().collect();
    assert_eq!(strict.len(), bodies.len() - 2, "two are refused by 15");
    let xmlns = "xmlns='http://www.w3.org/1998/Math/MathML'";
    let others = [
        "".to_owned(),
        "<math/>".to_owned(),
        format!("<mrow {xmlns}/>"),
        format!("<math {xmlns}/><math {xmlns}/>"),
        format!("<math {xmlns}/>a"),
        format!("<math {xmlns}><b xmlns=''/></math>"),
        format!("<math {xmlns}>\u{1}</math>"),
        format!("<math {xmlns}>&#1;</math>"),
    ];
    let documents = [&old[..], &strict, &others.map(String::into_bytes)].concat();
    let taken = old.len()..old.len() + strict.len();
    for (at, line) in checked(&documents).unwrap_or_default().iter().enumerate() {
        let document = String::from_utf8_lossy(&documents[at]);
        assert_eq!(line == "ok", taken.contains(&at), "{line} for {document}");
    }
}

/// Document 02: what the old dialect accepts is refused in the strict one by 15 or 12 only, and the other way round by 12.
#[test]
fn the_dialects_refuse_alike() {
    let mut buffers = Buffers::new();
    let mut counts = [0; 3];
    for latex in bodies() {
        let old = buffers.translate(Manner::OLD, &latex, OUTPUT);
        let strict = buffers.translate(Manner::STRICT, &latex, OUTPUT);
        assert_eq!(buffers.convert(&latex), strict, "the converter, {latex:?}");
        match (&old, &strict) {
            (Ok(old), Ok(strict)) => {
                counts[0] += 1;
                let least = old.len().min(strict.len());
                for (manner, made) in [(Manner::OLD, old), (Manner::STRICT, strict)] {
                    let want = match made.len() == least {
                        true => Ok(made.clone()),
                        false => Err(Refusal::OutputTooSmall),
                    };
                    let got = buffers.translate(manner, &latex, least);
                    assert_eq!(got, want, "{latex:?}");
                }
            }
            (Ok(_), Err(Refusal::ForbiddenCharacter)) => counts[1] += 1,
            (Err(old), Err(strict)) if old == strict => counts[2] += 1,
            _ => panic!("{latex:?}: {old:?} and {strict:?}"),
        }
    }
    let [both, forbidden, neither] = counts;
    assert!(both >= ACCEPTED, "only {both} accepted by both");
    assert!(forbidden >= 100, "only {forbidden} refused by 15");
    assert!(neither >= 100, "only {neither} refused by both");
}
