//! The random cases: bodies from a grammar, bytes, damaged copies, documents, pages, lent sizes, depths and lengths.

use crate::case::{Case, Operation, Rule, Size};
use crate::random::Random;
use crate::words::Words;

const LETTERS: [&str; 14] = [
    "a", "x", "Q", "é", "δ", "日", "𝔸", "\"", "%", "#", "\u{301}", "\u{200b}", "\x01", "~",
];
const NUMBERS: [&str; 8] = ["0", "12", "3.14", "1.", "9.9.9", "007", "42", "5"];
const OPERATORS: [&str; 13] = [
    "=", ";", ",", ".", "'", "+", "-", "*", "/", "!", "<", ">", ":",
];
const UNKNOWN: [&str; 8] = [
    "\\zz",
    "\\Frac",
    "\\é",
    "\\\u{301}",
    "\\\"",
    "\\\x02",
    "\\\u{ad}",
    "\\1",
];
const ENVIRONMENTS: [&str; 7] = [
    "matrix", "pmatrix", "bmatrix", "vmatrix", "align", "cases", "matri x",
];
const SPACES: [&str; 6] = [" ", " ", "\t", "\n", "\r", "  "];

/// Makes bodies; `room` bounds how many nodes are still made.
struct Grammar<'a> {
    random: &'a mut Random,
    words: &'a Words,
    text: String,
    room: usize,
}

impl Grammar<'_> {
    fn put(&mut self, piece: &str) {
        let command = self.text.rfind('\\').is_some_and(|at| {
            self.text[at + 1..]
                .bytes()
                .all(|byte| byte.is_ascii_alphabetic())
        });
        let letter = piece.starts_with(|c: char| c.is_ascii_alphabetic());
        if command && letter && !self.random.one_in(40) {
            self.text.push(' ');
        }
        self.text.push_str(piece);
    }

    fn one(&mut self, list: &[&str]) {
        let piece = self.random.of(list);
        self.put(piece);
    }

    fn nodes(&mut self, most: usize) {
        for _ in 0..self.random.below(most + 1) {
            self.node();
        }
    }

    fn group(&mut self) {
        self.put("{");
        self.nodes(4);
        self.put("}");
    }

    /// An operand: mostly a group, often one token.
    fn operand(&mut self) {
        if self.random.one_in(3) {
            self.node();
        } else {
            self.group();
        }
    }

    fn node(&mut self) {
        if self.room == 0 {
            self.one(&LETTERS[..3]);
            return;
        }
        self.room -= 1;
        match self.random.below(20) {
            0..=3 => self.one(&LETTERS),
            4 | 5 => self.one(&NUMBERS),
            6 | 7 => self.one(&OPERATORS),
            8 => self.one(&UNKNOWN),
            9 => self.one(&SPACES),
            10..=14 => self.command(),
            15 => self.group(),
            16 => self.scripts(),
            17 => self.fenced(),
            18 => self.environment(),
            _ => self.odd(),
        }
    }

    fn command(&mut self) {
        let word = self.words.any(self.random).to_owned();
        self.put(&word);
        match self.random.below(6) {
            0 => (),
            1 => self.one(&["1", "12", "1.5", " 2"]),
            2 => self.scripts_of_last(),
            _ => {
                for _ in 0..1 + self.random.below(2) {
                    self.operand();
                }
            }
        }
    }

    fn scripts(&mut self) {
        self.node();
        self.scripts_of_last();
    }

    fn scripts_of_last(&mut self) {
        for _ in 0..1 + self.random.below(2) {
            self.one(&["_", "^", "^", "'", "''"]);
            self.operand();
        }
    }

    fn fenced(&mut self) {
        for (place, command) in ["\\left", "\\middle", "\\right"].into_iter().enumerate() {
            if place == 1 && !self.random.one_in(4) {
                continue;
            }
            self.put(command);
            let fence = match self.random.below(12) {
                0 => ".".to_owned(),
                1 => "{".to_owned(),
                _ => self.words.paren(self.random).to_owned(),
            };
            self.put(&fence);
            if place < 2 {
                self.nodes(4);
            }
        }
    }

    fn environment(&mut self) {
        let common = self.random.below(ENVIRONMENTS.len() * 3) % 16 % ENVIRONMENTS.len();
        let name = format!("{{{}}}", ENVIRONMENTS[common]);
        self.put("\\begin");
        self.put(&name);
        for _ in 0..self.random.below(7) {
            self.nodes(2);
            self.one(&["&", "&", "\\\\", "\\\\\n", ""]);
        }
        self.put("\\end");
        self.put(&name);
    }

    fn odd(&mut self) {
        let pieces = [
            "\\sqrt[3]",
            "\\sqrt[",
            "]",
            "\\text{for }",
            "\\operatorname{sn}",
            "\\slashed{p}",
            "\\mathrm{ab{c}d}",
            "\0",
            "&",
            "\\\\",
            "\\$",
            "\\middle",
            "\\bigl",
            "}",
            "{",
            "\\",
            "_",
            "^",
            ":=",
            "\\frac123",
            "\\middle{|}",
            "\\mathbf\\middle+",
        ];
        self.one(&pieces);
    }
}

fn grammar_text(random: &mut Random, words: &Words, room: usize) -> String {
    let mut grammar = Grammar {
        random,
        words,
        text: String::new(),
        room,
    };
    grammar.nodes(6);
    grammar.text
}

fn some_room(random: &mut Random) -> usize {
    match random.below(60) {
        0 => 300,
        1..=6 => 60,
        _ => 4 + random.below(16),
    }
}

fn case(operation: Operation, input: Vec<u8>, random: &mut Random) -> Case {
    Case {
        operation,
        input,
        rule: Rule::enough(random.next() >> 8),
    }
}

fn some_body(input: Vec<u8>, random: &mut Random) -> Case {
    let block = random.one_in(2);
    case(Operation::Body { block }, input, random)
}

pub fn grammar(random: &mut Random, words: &Words) -> Case {
    let room = some_room(random);
    let text = grammar_text(random, words, room);
    some_body(text.into_bytes(), random)
}

fn byte(random: &mut Random) -> u8 {
    const COMMON: &[u8] = b"\\{}_^&$'. \n\0ax1[](|=:\"\x7f\
        \xc3\xa9\xcc\x81\xe2\x88\x91\xf0\x9d\x94\xb8\xed\xa0\x80\xf4\x90\xc0\xff";
    if random.one_in(4) {
        random.next() as u8
    } else {
        COMMON[random.below(COMMON.len())]
    }
}

/// Bytes without a rule, now and then only those below 128, to get past 2.
pub fn bytes(random: &mut Random, _: &Words) -> Case {
    let ascii = random.one_in(2);
    let most = if random.one_in(50) { 600 } else { 24 };
    let input = (0..random.below(most))
        .map(|_| byte(random))
        .filter(|&byte| !ascii || byte < 128)
        .collect();
    match random.below(4) {
        0 => case(Operation::Replacement, input, random),
        1 => case(Operation::Page, input, random),
        _ => some_body(input, random),
    }
}

/// Takes out, doubles, overwrites or moves a part.
fn damage(input: &mut Vec<u8>, random: &mut Random) {
    let begin = random.below(input.len() + 1);
    let end = (begin + random.below(5)).min(input.len());
    match random.below(6) {
        0 => drop(input.drain(begin..end)),
        1 => {
            let part = input[begin..end].to_vec();
            let at = random.below(input.len() + 1);
            input.splice(at..at, part);
        }
        2 => input.truncate(end),
        3 => drop(input.drain(..begin)),
        4 => input.insert(begin, byte(random)),
        _ => {
            for at in begin..end {
                input[at] = byte(random);
            }
        }
    }
}

pub fn damaged(random: &mut Random, words: &Words) -> Case {
    let room = some_room(random);
    let mut input = grammar_text(random, words, room).into_bytes();
    for _ in 0..1 + random.below(3) {
        damage(&mut input, random);
    }
    some_body(input, random)
}

fn prose(random: &mut Random) -> String {
    let pieces = [
        "The drum ",
        "turns",
        " ",
        "\n",
        ", ",
        "é",
        "日本 ",
        "gate 3",
        "<b>",
        "{",
        "\\",
        "\r\n",
    ];
    (0..random.below(4)).map(|_| random.of(&pieces)).collect()
}

/// A body for a document, often with dollars that pass one prints.
fn enclosed(random: &mut Random, words: &Words) -> String {
    let mut body = match random.below(4) {
        0 => "x".to_owned(),
        1 => prose(random),
        _ => {
            let room = random.below(10);
            grammar_text(random, words, room)
        }
    };
    if random.one_in(4) {
        let printed = [
            "\\$",
            "\\$\\$",
            "\\text{\\$\\$\\$\\$}",
            "\\$a\\$",
            "\\$\\\u{301}",
        ];
        body.push_str(random.of(&printed));
    }
    body
}

fn document_text(random: &mut Random, words: &Words) -> Vec<u8> {
    let mut text = String::new();
    let tidy = !random.one_in(3);
    for _ in 0..random.below(6) {
        text.push_str(&prose(random));
        let mark = random.of(&["$", "$$"]);
        text.push_str(mark);
        text.push_str(&enclosed(random, words));
        let close = if tidy {
            mark
        } else {
            random.of(&["$", "$$", "$$$", "$$$$", "", "\\$"])
        };
        text.push_str(close);
        if tidy && !random.one_in(10) {
            text.push(' ');
        }
    }
    text.push_str(&prose(random));
    let mut input = text.into_bytes();
    if random.one_in(25) {
        damage(&mut input, random);
    }
    input
}

pub fn documents(random: &mut Random, words: &Words) -> Case {
    let input = document_text(random, words);
    case(Operation::Replacement, input, random)
}

/// A break of the usual kinds, or any mix of line ends and lone CRs.
fn some_break(random: &mut Random) -> String {
    if random.one_in(3) {
        let ends = ["\n", "\r\n", "\r"];
        return (0..random.below(6)).map(|_| random.of(&ends)).collect();
    }
    let breaks = [
        "\n\n",
        "\n\n",
        "\n\n\n",
        "\n\n\n\n\n",
        "\n",
        "\r\n\r\n",
        "\r\n\r\n\r\n",
        "\n \n",
        "\n\n \n\n",
        "",
    ];
    random.of(&breaks).to_owned()
}

fn page_text(random: &mut Random, words: &Words) -> Vec<u8> {
    let mut page = Vec::new();
    for _ in 0..random.below(6) {
        let mut paragraph = document_text(random, words);
        if random.one_in(30) {
            damage(&mut paragraph, random);
        }
        page.extend(paragraph);
        page.extend(some_break(random).into_bytes());
    }
    if random.one_in(2) {
        page.extend(document_text(random, words));
    }
    page
}

pub fn pages(random: &mut Random, words: &Words) -> Case {
    let input = page_text(random, words);
    case(Operation::Page, input, random)
}

/// A length at or around a boundary; a record has 24 bytes and a byte of the body takes two.
fn size(random: &mut Random) -> Size {
    match random.below(13) {
        0 => Size::Fixed(0),
        1 => Size::Fixed(1),
        2 => Size::Fixed(random.below(200)),
        3 => Size::Fixed(65_536),
        4 => Size::Needed(-(random.below(60) as i64)),
        5 | 6 => Size::Needed(-1),
        7 => Size::Needed(1),
        8 => Size::Needed(-48),
        9 => Size::Fixed(1 << 18),
        _ => Size::Needed(0),
    }
}

pub fn sizes(random: &mut Random, words: &Words) -> Case {
    let mut case = match random.below(3) {
        0 => grammar(random, words),
        1 => documents(random, words),
        _ => pages(random, words),
    };
    // Mostly one of the three is not enough, so that each boundary decides the answer.
    match random.below(5) {
        0 => case.rule.store = size(random),
        1 => case.rule.work = size(random),
        2 => case.rule.output = size(random),
        _ => {
            case.rule = Rule {
                store: size(random),
                work: size(random),
                output: size(random),
            }
        }
    }
    case
}

/// What opens calls, what closes it, and about how many; the last two are rare, since most bodies with them are refused at once.
const OPENERS: [(&str, &str, usize); 23] = [
    ("{", "}", 2),
    ("x^{", "}", 2),
    ("x_{", "}", 2),
    ("x_a^{", "}", 2),
    ("x_{", "}^b", 2),
    ("x^\\bar ", "", 2),
    ("\\sqrt ", "", 2),
    ("\\sqrt[a]", "", 2),
    ("\\sqrt[", "]b", 2),
    ("\\frac1", "", 2),
    ("\\frac{", "}2", 2),
    ("\\bar ", "", 2),
    ("\\left(", "\\right)", 2),
    ("\\begin{matrix}", "\\end{matrix}", 2),
    ("\\overbrace ", "", 1),
    ("\\underbrace x_", "", 1),
    ("\\sum_", "", 1),
    ("\\int^a_", "", 1),
    ("\\lim_", "", 1),
    ("\\mathbf ", "", 2),
    ("\\slashed{", "}", 2),
    ("\\middle ", "", 1),
    ("x^", "", 1),
];
const COMMON_OPENERS: usize = OPENERS.len() - 2;

/// Openers with what closes them, mixed until about 256 calls are open.
fn deep_text(random: &mut Random) -> String {
    let usual = OPENERS[random.below(COMMON_OPENERS)];
    let wanted = 244 + random.below(24);
    let (mut text, mut closers, mut calls) = (String::new(), Vec::new(), 0);
    while calls < wanted {
        let (open, close, cost) = match random.below(8) {
            0 => OPENERS[random.below(COMMON_OPENERS)],
            1 if random.one_in(400) => OPENERS[COMMON_OPENERS + random.below(2)],
            _ => usual,
        };
        text.push_str(open);
        closers.push(close);
        calls += cost;
    }
    let innermost = [
        "a", "1", "+", "\\zz", "x'", "", "{", "x_a", "x_a^b", "x^{a}", "x_a_b",
    ];
    text.push_str(random.of(&innermost));
    while let Some(close) = closers.pop() {
        if !random.one_in(2_000) {
            text.push_str(close);
        }
    }
    text
}

pub fn deep(random: &mut Random, _: &Words) -> Case {
    let text = deep_text(random);
    if !random.one_in(4) {
        return some_body(text.into_bytes(), random);
    }
    let mark = random.of(&["$", "$$"]);
    let before = random.of(&["", "$x$ ", "$${$$ ", "$$x$$\n\n"]);
    let mut input = format!("{before}{mark}{text}{mark}").into_bytes();
    if random.one_in(2) {
        return case(Operation::Replacement, input, random);
    }
    input.extend_from_slice(random.of(&["", "\n\n$y$", "\n\n"]).as_bytes());
    case(Operation::Page, input, random)
}

/// A length next to a limit, on either side of it.
fn near(limit: usize, random: &mut Random) -> usize {
    limit - 2 + random.below(5)
}

fn filled(wanted: usize, mut piece: impl FnMut() -> Vec<u8>) -> Vec<u8> {
    let mut input = Vec::new();
    while input.len() < wanted {
        input.extend(piece());
    }
    input.truncate(wanted);
    input
}

/// A page of known paragraphs whose output ends next to the 65,536 bytes up to which the port parses once.
fn drafted(random: &mut Random) -> Vec<u8> {
    const PARAGRAPHS: [(&str, usize); 4] = [("$x$", 83), ("$$y$$", 82), ("90$", 3), ("prose", 5)];
    let wanted = near(65_536, random);
    let mut parts: Vec<String> = Vec::new();
    let mut length = 0;
    while length < wanted - 200 {
        let (paragraph, bytes) = PARAGRAPHS[random.below(4)];
        parts.push(paragraph.to_owned());
        length += bytes + 2;
    }
    let filler = "p".repeat(wanted - length);
    let place = random.below(parts.len() + 1);
    let last = random.one_in(2);
    parts.insert(if last { parts.len() } else { place }, filler);
    parts.join("\n\n").into_bytes()
}

fn long_document(random: &mut Random, words: &Words) -> Vec<u8> {
    let wanted = near(32_768, random);
    let pieces = [
        "plain prose, é. ",
        "$x$ \n\n$$y$$",
        "x\n\n",
        "$\n\n",
        "$x$",
        "x\r\n\r\n",
        "$\r\n\n",
        "\r\n",
        "\r",
    ];
    match random.below(10) {
        0 | 1 => filled(wanted, || document_text(random, words)),
        2 | 3 => filled(wanted, || page_text(random, words)),
        4 => {
            let body = b"a ".repeat(2_100)[..near(4_096, random)].to_vec();
            [b"$".to_vec(), body, b"$".to_vec()].concat()
        }
        5 | 6 => drafted(random),
        _ => {
            let piece = random.of(&pieces);
            filled(wanted, || piece.as_bytes().to_vec())
        }
    }
}

/// Inputs at and around a limit: a body's, a document's, and the length up to which a page is parsed once.
pub fn long(random: &mut Random, words: &Words) -> Case {
    let mut case = if random.one_in(3) {
        let wanted = near(4_096, random);
        let input = if random.one_in(2) {
            filled(wanted, || b"a b+".to_vec())
        } else {
            filled(wanted, || grammar_text(random, words, 12).into_bytes())
        };
        some_body(input, random)
    } else {
        let operation = random.of(&[&Operation::Replacement, &Operation::Page, &Operation::Page]);
        let input = long_document(random, words);
        case(*operation, input, random)
    };
    if random.one_in(3) {
        case.rule.output = size(random);
    }
    if random.one_in(8) {
        case.rule.work = size(random);
    }
    if random.one_in(8) {
        case.rule.store = size(random);
    }
    case
}
