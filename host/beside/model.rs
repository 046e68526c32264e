//! A parser apart from the crate's and the port's, which builds the crate's nodes: document 02 decides scripts, and document 01 the calls open together.
//!
//! No body that is read here has a NUL. A body that document 02 does not decide is held to the crate, its number and its markup; but for 10, since the crate has no limit.

use crate::case::Manner;
use crate::oracle::{wrapped, Answer};
use crate::printer::{allowed, print_all, NI, NOT_IN};
use latex2mathml::ast::Node;
use latex2mathml::attribute::{Accent, ColumnAlign, LineThickness, Variant};
use latex2mathml::token::Token;
use std::str::Chars;

const LIMIT: usize = 256;

/// What a body is read as.
pub struct Reading {
    /// Its nodes, or the number with which the parsing ends.
    nodes: Result<Vec<Node>, u32>,
    /// Whether a script mark comes next behind the operand of a mark taken in parse_node: the crate decides no such body.
    pub leaves: bool,
}

impl Reading {
    /// The number of the refusal, 0 where the body is accepted.
    pub fn number(&self) -> u32 {
        self.nodes.as_ref().err().copied().unwrap_or(0)
    }

    /// The markup as the crate prints it, in its wrapper.
    pub fn answer(&self, block: bool) -> Answer {
        let nodes = self.nodes.as_ref().map_err(|&number| number)?;
        let markup: String = nodes.iter().map(Node::to_string).collect();
        Ok(wrapped(&markup, block))
    }

    /// The same by the printer of both dialects, which the crate's must not differ from.
    pub fn old_answer(&self, block: bool) -> Answer {
        let nodes = self.nodes.as_ref().map_err(|&number| number)?;
        Ok(wrapped(&print_all(Manner::OLD, nodes), block))
    }

    /// The strict dialect's answer to the body that was read, with `\ni` apart: 15 comes behind the refusals of parsing.
    pub fn strict_answer(&self, latex: &str, block: bool) -> Answer {
        let nodes = self.nodes.as_ref().map_err(|&number| number)?;
        if !latex.chars().all(allowed) {
            return Err(15);
        }
        Ok(wrapped(&print_all(Manner::STRICT, nodes), block))
    }
}

/// A body as the crate reads it, but for what document 02 decides.
pub fn read(latex: &str) -> Reading {
    read_with(latex, NOT_IN)
}

/// The same, with `\ni` told from `\notin`.
pub fn read_apart(latex: &str) -> Reading {
    read_with(latex, NI)
}

fn read_with(latex: &str, ni: char) -> Reading {
    let mut parser = Parser {
        rest: latex.chars(),
        current: Token::EOF,
        next: Token::EOF,
        leaves: false,
        ni,
    };
    let nodes = parser.body();
    Reading {
        nodes,
        leaves: parser.leaves,
    }
}

struct Parser<'a> {
    rest: Chars<'a>,
    current: Token,
    next: Token,
    leaves: bool,
    /// The operator that `\ni` is.
    ni: char,
}

type Read<T> = Result<T, u32>;

/// What stands below and above an operator, where something does.
type Limits = (Option<Box<Node>>, Option<Box<Node>>);

// ---- the tokens

impl Parser<'_> {
    fn peek(&self) -> char {
        self.rest.clone().next().unwrap_or('\0')
    }

    fn take_while(&mut self, wanted: impl Fn(char) -> bool) -> String {
        let mut text = String::new();
        while !self.rest.as_str().is_empty() && wanted(self.peek()) {
            text.extend(self.rest.next());
        }
        text
    }

    fn advance(&mut self) {
        let takes_a_digit = matches!(
            self.next,
            Token::Sqrt | Token::Frac | Token::Binom(_) | Token::Style(_)
        );
        let next = if takes_a_digit && self.peek().is_ascii_digit() {
            Token::Number(self.rest.next().into_iter().collect())
        } else {
            self.token()
        };
        self.current = std::mem::replace(&mut self.next, next);
    }

    fn token(&mut self) -> Token {
        self.take_while(|c| matches!(c, ' ' | '\t' | '\n' | '\r'));
        if self.peek().is_ascii_digit() {
            let mut digits = self.take_while(|c| c.is_ascii_digit());
            if self.peek() == '.' {
                digits.extend(self.rest.next());
                digits.push_str(&self.take_while(|c| c.is_ascii_digit()));
            }
            return Token::Number(digits);
        }
        match self.rest.next().unwrap_or('\0') {
            '\\' => self.command(),
            ':' if self.peek() == '=' => {
                self.rest.next();
                Token::Paren(":=")
            }
            c => one_character(c),
        }
    }

    fn command(&mut self) -> Token {
        let name = self.take_while(|c| c.is_ascii_alphabetic());
        if name.is_empty() {
            let one = self.rest.next().unwrap_or('\0');
            return Token::from_command(&one.to_string());
        }
        match name.as_str() {
            "ni" => Token::Operator(self.ni),
            name => Token::from_command(name),
        }
    }
}

fn one_character(c: char) -> Token {
    match c {
        '\0' => Token::EOF,
        '{' => Token::LBrace,
        '}' => Token::RBrace,
        '_' => Token::Underscore,
        '^' => Token::Circumflex,
        '&' => Token::Ampersand,
        '(' => Token::Paren("("),
        ')' => Token::Paren(")"),
        '[' => Token::Paren("["),
        ']' => Token::Paren("]"),
        '|' => Token::Paren("|"),
        '=' | ';' | ',' | '.' | '\'' | '+' | '-' | '*' | '/' | '!' | '<' | '>' | ':' => {
            Token::Operator(c)
        }
        'a'..='z' | 'A'..='Z' => Token::Letter(c, Variant::Italic),
        _ => Token::Letter(c, Variant::Normal),
    }
}

// ---- the calls; `open` is how many are open already

impl Parser<'_> {
    fn body(&mut self) -> Read<Vec<Node>> {
        self.advance();
        self.advance();
        let mut nodes = Vec::new();
        while self.current != Token::EOF {
            nodes.push(self.node(0)?);
            self.advance();
        }
        Ok(nodes)
    }

    fn next_mark(&self) -> Option<Token> {
        let mark = matches!(self.next, Token::Underscore | Token::Circumflex);
        mark.then(|| self.next.clone())
    }

    /// A base and its scripts; a mark that it has already is refused before what stands behind it is read.
    fn node(&mut self, open: usize) -> Read<Node> {
        if open == LIMIT {
            return Err(10);
        }
        let base = self.single(open + 1)?;
        let Some(mark) = self.next_mark() else {
            return Ok(base);
        };
        let first = self.script(open + 1)?;
        let Some(other) = self.next_mark() else {
            return Ok(one_script(mark, base, first));
        };
        self.leaves = true;
        if other == mark {
            return Err(13);
        }
        let second = self.script(open + 1)?;
        if self.next_mark().is_some() {
            return Err(13);
        }
        Ok(both_scripts(mark, base, first, second))
    }

    fn script(&mut self, open: usize) -> Read<Node> {
        self.advance();
        self.advance();
        self.single(open)
    }

    fn single(&mut self, open: usize) -> Read<Node> {
        if open == LIMIT {
            return Err(10);
        }
        let node = match leaf(&self.current) {
            Some(node) => node,
            None => self.command_node(open + 1)?,
        };
        if self.next == Token::Operator('\'') {
            self.advance();
            let prime = Node::Operator('′');
            return Ok(Node::Superscript(Box::new(node), Box::new(prime)));
        }
        Ok(node)
    }

    fn command_node(&mut self, open: usize) -> Read<Node> {
        match self.current.clone() {
            Token::Sqrt => self.root(open),
            Token::Frac => self.fraction(LineThickness::Medium, open),
            Token::Binom(display) => {
                let content = self.fraction(LineThickness::Length(0), open)?;
                let binom = fenced("(", ")", content);
                Ok(match display {
                    Some(_) => Node::Style(display, Box::new(Node::Row(vec![binom]))),
                    None => binom,
                })
            }
            Token::Overset => {
                let (over, target) = self.two_operands(open)?;
                Ok(Node::Overset { over, target })
            }
            Token::Underset => {
                let (under, target) = self.two_operands(open)?;
                Ok(Node::Underset { under, target })
            }
            Token::Overbrace(op) => self.overbrace(op, open),
            Token::Underbrace(op) => self.underbrace(op, open),
            Token::BigOp(op) => Ok(big_operator(op, self.limits(open)?)),
            Token::Integral(op) => Ok(integral(op, self.limits(open)?)),
            Token::Lim(name) => {
                let lim = Node::Function(name.to_owned(), None);
                Ok(match self.explained(Token::Underscore, open)? {
                    Some(under) => Node::Under(Box::new(lim), under),
                    None => lim,
                })
            }
            Token::LBrace => self.group(Token::RBrace, open),
            Token::Begin => self.environment(open),
            _ => self.other_command(open),
        }
    }

    fn other_command(&mut self, open: usize) -> Read<Node> {
        match self.current.clone() {
            Token::Over(op, accent) => Ok(Node::OverOp(op, accent, self.operand(open)?)),
            Token::Under(op, accent) => Ok(Node::UnderOp(op, accent, self.operand(open)?)),
            Token::Style(variant) => Ok(styled(*self.operand(open)?, variant)),
            Token::Slashed => {
                self.advance();
                let target = self.operand(open)?;
                self.advance();
                Ok(Node::Slashed(target))
            }
            Token::Left => {
                let left = self.fence()?;
                let content = self.group(Token::Right, open)?;
                let right = self.fence()?;
                Ok(fenced(left, right, content))
            }
            Token::Middle => self.middle(open),
            Token::Big(size) => {
                self.advance();
                match self.current {
                    Token::Paren(paren) => Ok(Node::SizedParen { size, paren }),
                    _ => Err(6),
                }
            }
            Token::OperatorName => Ok(Node::Function(self.name(), None)),
            Token::Text => Ok(Node::Text(self.name())),
            token => Ok(Node::Undefined(format!("{token:?}"))),
        }
    }

    fn operand(&mut self, open: usize) -> Read<Box<Node>> {
        self.advance();
        self.node(open).map(Box::new)
    }

    fn two_operands(&mut self, open: usize) -> Read<(Box<Node>, Box<Node>)> {
        Ok((self.operand(open)?, self.operand(open)?))
    }

    fn fraction(&mut self, line: LineThickness, open: usize) -> Read<Node> {
        let (above, below) = self.two_operands(open)?;
        Ok(Node::Frac(above, below, line))
    }

    fn root(&mut self, open: usize) -> Read<Node> {
        self.advance();
        let mut degree = None;
        if self.current == Token::Paren("[") {
            degree = Some(Box::new(self.group(Token::Paren("]"), open)?));
            self.advance();
        }
        let content = self.node(open)?;
        Ok(Node::Sqrt(degree, Box::new(content)))
    }

    /// A single node behind the mark, where the mark comes next.
    fn explained(&mut self, mark: Token, open: usize) -> Read<Option<Box<Node>>> {
        if self.next != mark {
            return Ok(None);
        }
        let node = self.script(open)?;
        Ok(Some(Box::new(node)))
    }

    fn limits(&mut self, open: usize) -> Read<Limits> {
        let below = self.explained(Token::Underscore, open)?;
        let above = self.explained(Token::Circumflex, open)?;
        if below.is_none() && above.is_some() {
            return Ok((self.explained(Token::Underscore, open)?, above));
        }
        Ok((below, above))
    }

    fn overbrace(&mut self, op: char, open: usize) -> Read<Node> {
        self.advance();
        let target = Box::new(self.single(open)?);
        let brace = Box::new(Node::Operator(op));
        let over = match self.explained(Token::Circumflex, open)? {
            Some(over) => Box::new(Node::Overset {
                over,
                target: brace,
            }),
            None => brace,
        };
        Ok(Node::Overset { over, target })
    }

    fn underbrace(&mut self, op: char, open: usize) -> Read<Node> {
        self.advance();
        let target = Box::new(self.single(open)?);
        let brace = Box::new(Node::Operator(op));
        let under = match self.explained(Token::Underscore, open)? {
            Some(under) => Box::new(Node::Underset {
                under,
                target: brace,
            }),
            None => brace,
        };
        Ok(Node::Underset { under, target })
    }

    fn group(&mut self, end: Token, open: usize) -> Read<Node> {
        self.advance();
        let mut nodes = Vec::new();
        while self.current != end {
            if self.current == Token::EOF {
                return Err(6);
            }
            nodes.push(self.node(open)?);
            self.advance();
        }
        Ok(match nodes.len() {
            1 => nodes.remove(0),
            _ => Node::Row(nodes),
        })
    }

    fn fence(&mut self) -> Read<&'static str> {
        self.advance();
        match self.current {
            Token::Paren(paren) => Ok(paren),
            Token::Operator('.') => Ok(""),
            _ => Err(7),
        }
    }

    fn middle(&mut self, open: usize) -> Read<Node> {
        self.advance();
        match self.single(open)? {
            Node::Operator(op) => Ok(Node::StrechedOp(true, op.to_string())),
            Node::OtherOperator(op) => Ok(Node::StrechedOp(true, op.to_owned())),
            _ => Err(9),
        }
    }

    /// The letters behind a command and one token more.
    fn name(&mut self) -> String {
        self.advance();
        self.advance();
        let mut name = String::new();
        while let Token::Letter(c, _) = self.current {
            name.push(c);
            self.advance();
        }
        name
    }

    fn environment(&mut self, open: usize) -> Read<Node> {
        let name = self.name();
        let content = match self.group(Token::End, open)? {
            Node::Row(nodes) => nodes,
            node => vec![node],
        };
        let node = match name.as_str() {
            "align" => Node::Matrix(content, ColumnAlign::Left),
            "matrix" => Node::Matrix(content, ColumnAlign::Center),
            "pmatrix" => fenced("(", ")", Node::Matrix(content, ColumnAlign::Center)),
            "bmatrix" => fenced("[", "]", Node::Matrix(content, ColumnAlign::Center)),
            "vmatrix" => fenced("|", "|", Node::Matrix(content, ColumnAlign::Center)),
            _ => return Err(8),
        };
        self.name();
        Ok(node)
    }
}

// ---- the nodes

/// The node of a token that takes nothing behind it.
fn leaf(token: &Token) -> Option<Node> {
    Some(match token {
        Token::Number(digits) => Node::Number(digits.clone()),
        Token::Letter(c, variant) => Node::Letter(*c, *variant),
        Token::Operator(op) => Node::Operator(*op),
        Token::Function(name) => Node::Function((*name).to_owned(), None),
        Token::Space(width) => Node::Space(*width),
        Token::Paren(paren) => Node::OtherOperator(paren),
        Token::Ampersand => Node::Ampersand,
        Token::NewLine => Node::NewLine,
        _ => return None,
    })
}

fn fenced(open: &'static str, close: &'static str, content: Node) -> Node {
    Node::Fenced {
        open,
        close,
        content: Box::new(content),
    }
}

fn one_script(mark: Token, base: Node, script: Node) -> Node {
    let (base, script) = (Box::new(base), Box::new(script));
    match mark {
        Token::Underscore => Node::Subscript(base, script),
        _ => Node::Superscript(base, script),
    }
}

/// The subscript is printed first, whichever is read first.
fn both_scripts(mark: Token, base: Node, first: Node, second: Node) -> Node {
    let (sub, sup) = match mark {
        Token::Underscore => (first, second),
        _ => (second, first),
    };
    Node::SubSup {
        target: Box::new(base),
        sub: Box::new(sub),
        sup: Box::new(sup),
    }
}

fn big_operator(op: char, limits: Limits) -> Node {
    let target = Box::new(Node::Operator(op));
    match limits {
        (Some(under), Some(over)) => Node::UnderOver {
            target,
            under,
            over,
        },
        (Some(under), None) => Node::Under(target, under),
        (None, Some(over)) => Node::OverOp(op, Accent::False, over),
        (None, None) => *target,
    }
}

fn integral(op: char, limits: Limits) -> Node {
    let target = Box::new(Node::Operator(op));
    match limits {
        (Some(sub), Some(sup)) => Node::SubSup { target, sub, sup },
        (Some(sub), None) => Node::Subscript(target, sub),
        (None, Some(sup)) => Node::Superscript(target, sup),
        (None, None) => *target,
    }
}

/// A style reaches a letter and the letters of a row, but none below another node.
fn styled(node: Node, variant: Variant) -> Node {
    match node {
        Node::Letter(c, _) => Node::Letter(c, variant),
        Node::Row(nodes) => {
            let nodes = nodes.into_iter().map(|node| styled(node, variant));
            Node::Row(nodes.collect())
        }
        node => node,
    }
}
