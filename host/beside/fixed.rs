//! The cases that are gone through one by one: characters, commands, sequences of tokens and of scripts, NULs, short documents, pages and line ends, and what the dialects print otherwise.

use crate::case::{Case, Operation, Rule, Size};
use crate::words::Words;

/// Every kind of token and every class of character that the lexer or the parser tells apart.
const TOKENS: [&str; 59] = [
    " ",
    "a",
    "Z",
    "7",
    "3.",
    ".",
    "é",
    "\u{301}",
    "%",
    "\"",
    "\x7f",
    "=",
    ":",
    "'",
    "<",
    "(",
    "[",
    "]",
    "|",
    "{",
    "}",
    "_",
    "^",
    "&",
    "\\\\",
    "\\",
    "\\alpha",
    "\\zz",
    "\\\u{301}",
    "\\$",
    "\\\t",
    "\\left",
    "\\right",
    "\\middle",
    "\\bigl",
    "\\begin",
    "{matrix}",
    "{align}",
    "\\end",
    "\\frac",
    "\\binom",
    "\\dbinom",
    "\\overset",
    "\\underset",
    "\\overbrace",
    "\\underbrace",
    "\\sqrt",
    "\\int",
    "\\lim",
    "\\mathbf",
    "\\hat",
    "\\underline",
    "\\sum",
    "\\slashed",
    "\\text",
    "\\operatorname",
    "\\sin",
    "\\,",
    "\\partial",
];

/// Further tokens that stand around each command.
const MORE_TOKENS: [&str; 4] = ["\\quad", "\\langle", "\\tbinom", ":="];

/// What has scripts: plain bases, what takes marks for itself, and commands whose operand has them.
const BASES: [&str; 16] = [
    "x",
    "x'",
    "{x}",
    "{xy}",
    "_",
    "+",
    "\\sum",
    "\\int",
    "\\lim",
    "\\overbrace x",
    "\\underbrace{x}",
    "\\hat x",
    "\\bm x",
    "\\frac x",
    "\\text{x}",
    "\\middle|",
];

/// Behind a mark; where nothing stands, the next mark is the operand.
const OPERANDS: [&str; 13] = [
    "",
    "a",
    " a'",
    "{a}",
    "{a_b}",
    "{",
    "\\sum",
    "\\int",
    "\\lim ",
    "\\sqrt a",
    "\\underbrace a",
    "\\bm a",
    "\\middle a",
];

const ENDS: [&str; 6] = ["", "^", "_ {", "'", "}", "\\middle a"];

/// What the strict dialect prints otherwise or refuses, beside what it does not, and where such text is printed.
const STRICT: [&str; 29] = [
    "<",
    ">",
    "&",
    "\\&",
    "\\<",
    "\\langle",
    "\\ni",
    "\\notin",
    "∋",
    "⟩",
    "a",
    "\x01",
    "\\\x01",
    "\u{fffe}",
    "{",
    "}",
    "'",
    "_",
    "\\left",
    "\\right",
    "\\middle",
    "\\bigl",
    "\\slashed",
    "\\text",
    "\\operatorname",
    "\\mathbf",
    "\\hat",
    "\\begin{align}",
    "\\end",
];

/// Text that pass two reads again, and a character that only a body may not have.
const STRICT_DOCUMENT: [&str; 7] = ["$", "$$", "<", "\x01", "\\$", "{", "\n\n"];

/// Marks and bytes of short documents, all sequences of which are tried.
const DOCUMENT: [&str; 6] = ["$", "$$", "x", "\\", "{", "}"];
const PAGE: [&str; 5] = ["\n", "\n\n", "$", "x", "{"];

/// Every mix of line ends between bytes and dollars.
const LINE_ENDS: [&str; 4] = ["\n", "\r", "x", "$"];

/// A NUL and what refuses before or behind it, an ill-formed byte among them.
const NULS: [&[u8]; 7] = [b"\0", b"x", b"$", b"{", b"\n\n", b"\xff", b"\\"];

/// Writes the pieces of a sequence behind one another, with a space only where two would become one token.
fn join(pieces: &[&str]) -> String {
    let mut text = String::new();
    for piece in pieces {
        let open = text.rfind('\\').is_some_and(|at| {
            text.len() > at + 1 && text[at + 1..].bytes().all(|b| b.is_ascii_alphabetic())
        });
        if open && piece.starts_with(|c: char| c.is_ascii_alphabetic()) {
            text.push(' ');
        }
        text.push_str(piece);
    }
    text
}

/// The sequence with this index among those of the given length.
fn sequence<'a, T: ?Sized>(list: &[&'a T], length: u32, mut index: u64) -> Vec<&'a T> {
    let mut pieces = Vec::with_capacity(length as usize);
    for _ in 0..length {
        pieces.push(list[(index % list.len() as u64) as usize]);
        index /= list.len() as u64;
    }
    pieces
}

/// The index among all sequences as a length and an index among those of that length.
fn within(count: u64, longest: u32, mut index: u64) -> Option<(u32, u64)> {
    for length in 0..=longest {
        let all = count.pow(length);
        if index < all {
            return Some((length, index));
        }
        index -= all;
    }
    None
}

fn body(latex: String, turn: u64) -> Case {
    // Both displays come in turn, since the body's markup is the same.
    Case {
        operation: Operation::Body {
            block: turn % 2 == 0,
        },
        input: latex.into_bytes(),
        rule: Rule::enough(turn),
    }
}

/// Every character alone, as a command, in a text and behind a mark.
pub fn character(index: u64) -> Option<Case> {
    let code = index / 4;
    if code > 0x10_ffff {
        return None;
    }
    let Some(c) = char::from_u32(code as u32) else {
        // A surrogate's three bytes are ill-formed.
        let low = [
            0xed,
            0x80 | (code >> 6 & 0x3f) as u8,
            0x80 | (code & 0x3f) as u8,
        ];
        let mut case = body(String::new(), index);
        case.input = [b"x".repeat(index as usize % 4), low.to_vec()].concat();
        return Some(case);
    };
    let latex = match index % 4 {
        0 => format!("{c}"),
        1 => format!("\\{c}"),
        2 => format!("\\text{{a{c}b}}"),
        _ => format!("x^{c}\\mathbf{c}"),
    };
    Some(body(latex, index))
}

/// Every command before and behind every token, and every pair of commands.
pub fn command(words: &Words, index: u64) -> Option<Case> {
    let mut tokens: Vec<&str> = TOKENS.to_vec();
    tokens.extend(MORE_TOKENS);
    let count = words.all.len() as u64;
    let around = count * tokens.len() as u64 * 2;
    if index < around {
        let word = words.all[(index / 2 % count) as usize].as_str();
        let token = tokens[(index / 2 / count) as usize];
        let pieces = if index % 2 == 0 {
            [token, word, "a", "b"]
        } else {
            [word, token, "a", "}"]
        };
        return Some(body(join(&pieces), index / 2));
    }
    let pair = index - around;
    let first = words.all[(pair % count) as usize].as_str();
    let second = words.all.get((pair / count) as usize)?;
    Some(body(join(&[first, second, "1"]), pair))
}

pub fn tokens(index: u64) -> Option<Case> {
    let (length, at) = within(TOKENS.len() as u64, 4, index)?;
    Some(body(join(&sequence(&TOKENS, length, at)), index))
}

/// Every base with three marks and their operands, and every end.
pub fn scripts(index: u64) -> Option<Case> {
    let mut rest = index as usize;
    let mut take = |list: &[&'static str]| {
        let piece = list[rest % list.len()];
        rest /= list.len();
        piece
    };
    let mut text = take(&BASES).to_owned();
    for _ in 0..3 {
        text.push_str(take(&["_", "^"]));
        text.push_str(take(&OPERANDS));
    }
    text.push_str(take(&ENDS));
    (rest == 0).then(|| body(text, index))
}

/// Every sequence of up to four.
pub fn strict_bodies(index: u64) -> Option<Case> {
    let (length, at) = within(STRICT.len() as u64, 4, index)?;
    Some(body(join(&sequence(&STRICT, length, at)), index))
}

/// Every sequence of up to six, as a document and as a page.
pub fn strict_documents(index: u64) -> Option<Case> {
    let operations = [Operation::Replacement, Operation::Page];
    let operation = operations[index as usize % 2];
    text(operation, &STRICT_DOCUMENT, 6, index / 2)
}

/// All bytes, all pairs of bytes, and all sequences of four from the classes that UTF-8 tells apart.
pub fn short_bytes(index: u64) -> Option<Case> {
    const CLASSES: [u8; 22] = [
        0, 9, b'a', b'\\', b'{', b'$', 0x7f, 0x80, 0x8f, 0x90, 0x9f, 0xa0, 0xbf, 0xc0, 0xc2, 0xdf,
        0xe0, 0xed, 0xef, 0xf0, 0xf4, 0xf5,
    ];
    let classes = CLASSES.len() as u64;
    let input = if index < 256 {
        vec![index as u8]
    } else if index < 256 + 65_536 {
        vec![(index - 256) as u8, ((index - 256) >> 8) as u8]
    } else {
        let at = index - 256 - 65_536;
        let third = at / classes / classes;
        if third >= classes * classes {
            return None;
        }
        let class = |n: u64| CLASSES[(n % classes) as usize];
        vec![
            class(at),
            class(at / classes),
            class(third),
            class(third / classes),
        ]
    };
    let mut case = body(String::new(), index);
    case.input = input;
    Some(case)
}

fn text(operation: Operation, list: &[&str], longest: u32, index: u64) -> Option<Case> {
    let (length, at) = within(list.len() as u64, longest, index)?;
    Some(Case {
        operation,
        input: sequence(list, length, at).concat().into_bytes(),
        rule: Rule::enough(index),
    })
}

/// Every sequence of up to five as each operation's input, with enough lent and with nothing.
pub fn nuls(index: u64) -> Option<Case> {
    let (length, at) = within(NULS.len() as u64, 5, index / 6)?;
    let input: Vec<&[u8]> = sequence(&NULS, length, at);
    let operations = [
        Operation::Body { block: true },
        Operation::Replacement,
        Operation::Page,
    ];
    let nothing = Size::Fixed(0);
    let rules = [
        Rule::enough(index),
        Rule {
            store: nothing,
            work: nothing,
            output: nothing,
        },
    ];
    Some(Case {
        operation: operations[index as usize % 3],
        input: input.concat(),
        rule: rules[index as usize / 3 % 2],
    })
}

pub fn short_documents(index: u64) -> Option<Case> {
    text(Operation::Replacement, &DOCUMENT, 7, index)
}

pub fn short_pages(index: u64) -> Option<Case> {
    text(Operation::Page, &PAGE, 7, index)
}

/// Every sequence of up to nine, with a work buffer of the length that is needed, which is enough, or of 0 to 2 bytes.
pub fn line_ends(index: u64) -> Option<Case> {
    let mut case = text(Operation::Page, &LINE_ENDS, 9, index / 4)?;
    case.rule.work = match index % 4 {
        3 => Size::Needed(0),
        length => Size::Fixed(length as usize),
    };
    Some(case)
}
