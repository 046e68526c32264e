//! Prints the crate's nodes in both dialects: ast.rs arm by arm, with what document 02's §5 changes in the strict one.
//!
//! In the old dialect the crate's own printer must print the same, so that a slip in an arm shows. The crate reads `\ni` and
//! `\notin` as one operator; here a node of ∋ is `\ni`, since a ∋ that is typed is a letter.

use crate::case::Manner;
use latex2mathml::ast::Node;
use latex2mathml::attribute::{Accent, ColumnAlign, Variant};
use latex2mathml::DisplayStyle;

/// What `\ni` is read as where it is told from `\notin`, and what the crate has for both.
pub const NI: char = '∋';
pub const NOT_IN: char = '∉';

/// The characters of XML 1.0, production 2.
pub fn allowed(c: char) -> bool {
    matches!(c, '\t' | '\n' | '\r' | '\u{20}'..='\u{d7ff}' | '\u{e000}'..='\u{fffd}' | '\u{10000}'..='\u{10ffff}')
}

/// Undoes the one escape that document 01 leaves out: a character of 128 or above as the name of an unknown command.
pub fn undo_escapes(markup: &str) -> String {
    const OPEN: &str = "Command(\\\"\\\\u{";
    let mut text = String::with_capacity(markup.len());
    let mut rest = markup;
    while let Some(at) = rest.find(OPEN) {
        let digits = &rest[at + OPEN.len()..];
        let end = digits.find('}').unwrap_or(0);
        let code = u32::from_str_radix(&digits[..end], 16).unwrap_or(0);
        match char::from_u32(code) {
            Some(c) if code >= 128 => {
                text.push_str(&rest[..at]);
                text.push_str("Command(\\\"");
                text.push(c);
                rest = &digits[end + 1..];
            }
            _ => {
                text.push_str(&rest[..at + OPEN.len()]);
                rest = digits;
            }
        }
    }
    text.push_str(rest);
    text
}

pub fn print_all(manner: Manner, nodes: &[Node]) -> String {
    nodes.iter().map(|node| print(manner, node)).collect()
}

/// A formula's text.
fn text(manner: Manner, text: &str) -> String {
    if !manner.strict {
        return text.to_owned();
    }
    let mut escaped = String::new();
    for c in text.chars() {
        match c {
            '<' => escaped.push_str("&lt;"),
            '>' => escaped.push_str("&gt;"),
            '&' => escaped.push_str("&amp;"),
            _ => escaped.push(c),
        }
    }
    escaped
}

fn operator(manner: Manner, op: char) -> String {
    match op {
        NI if !manner.strict => NOT_IN.to_string(),
        _ => text(manner, &op.to_string()),
    }
}

/// A parenthesis, or an operator or a parenthesis that stretches: the crate has the names of two entities.
fn fence(manner: Manner, paren: &str) -> String {
    match paren {
        "&lang;" if manner.strict => "⟨".to_owned(),
        "&rang;" if manner.strict => "⟩".to_owned(),
        "&lang;" | "&rang;" => paren.to_owned(),
        _ if paren.chars().eq([NI]) => operator(manner, NI),
        _ => text(manner, paren),
    }
}

/// An element without attributes around nodes.
fn element(manner: Manner, name: &str, nodes: &[&Node]) -> String {
    let content: String = nodes.iter().map(|node| print(manner, node)).collect();
    format!("<{name}>{content}</{name}>")
}

fn print(m: Manner, node: &Node) -> String {
    match node {
        Node::Number(number) => format!("<mn>{number}</mn>"),
        Node::Letter(c, Variant::Italic) => format!("<mi>{}</mi>", text(m, &c.to_string())),
        Node::Letter(c, variant) => {
            let c = text(m, &c.to_string());
            format!(r#"<mi mathvariant="{variant}">{c}</mi>"#)
        }
        Node::Operator('∂') => r#"<mo mathvariant="italic">∂</mo>"#.to_owned(),
        Node::Operator(op) => format!("<mo>{}</mo>", operator(m, *op)),
        Node::Function(name, None) => format!("<mi>{}</mi>", text(m, name)),
        Node::Space(width) => format!(r#"<mspace width="{width}em"/>"#),
        Node::Text(name) => format!("<mtext>{}</mtext>", text(m, name)),
        Node::OtherOperator(paren) => format!("<mo>{}</mo>", fence(m, paren)),
        Node::StrechedOp(stretchy, op) => {
            format!(r#"<mo stretchy="{stretchy}">{}</mo>"#, fence(m, op))
        }
        Node::SizedParen { size, paren } => sized(m, size, paren),
        Node::Matrix(nodes, align) => matrix(m, nodes, *align),
        Node::Slashed(node) => slashed(m, node),
        Node::Ampersand | Node::NewLine | Node::Undefined(_) => parse_error(m, node),
        _ => print_parts(m, node),
    }
}

/// The nodes that are put together of others.
fn print_parts(m: Manner, node: &Node) -> String {
    match node {
        Node::Subscript(a, b) => element(m, "msub", &[a, b]),
        Node::Superscript(a, b) => element(m, "msup", &[a, b]),
        Node::SubSup { target, sub, sup } => element(m, "msubsup", &[target, sub, sup]),
        Node::OverOp(op, accent, target) => accented(m, "mover", target, *accent, *op),
        Node::UnderOp(op, accent, target) => accented(m, "munder", target, *accent, *op),
        Node::Overset { over, target } => element(m, "mover", &[target, over]),
        Node::Underset { under, target } => element(m, "munder", &[target, under]),
        Node::Under(target, under) => element(m, "munder", &[target, under]),
        Node::UnderOver {
            target,
            under,
            over,
        } => element(m, "munderover", &[target, under, over]),
        Node::Sqrt(Some(degree), content) => element(m, "mroot", &[content, degree]),
        Node::Sqrt(None, content) => element(m, "msqrt", &[content]),
        Node::Frac(above, below, line) => {
            let (above, below) = (print(m, above), print(m, below));
            format!("<mfrac{line}>{above}{below}</mfrac>")
        }
        Node::Row(nodes) => format!("<mrow>{}</mrow>", print_all(m, nodes)),
        Node::Fenced {
            open,
            close,
            content,
        } => fenced(m, open, close, content),
        Node::Style(Some(display), content) => {
            let block = *display == DisplayStyle::Block;
            let content = print(m, content);
            format!(r#"<mstyle displaystyle="{block}">{content}</mstyle>"#)
        }
        node => unreachable!("nothing makes {node:?}"),
    }
}

fn accented(m: Manner, name: &str, target: &Node, accent: Accent, op: char) -> String {
    let (target, op) = (print(m, target), operator(m, op));
    format!(r#"<{name}>{target}<mo accent="{accent}">{op}</mo></{name}>"#)
}

fn fenced(m: Manner, open: &str, close: &str, content: &Node) -> String {
    let (open, content, close) = (fence(m, open), print(m, content), fence(m, close));
    format!(
        r#"<mrow><mo stretchy="true" form="prefix">{open}</mo>{content}<mo stretchy="true" form="postfix">{close}</mo></mrow>"#
    )
}

/// The strict dialect closes the operator by its own name.
fn sized(m: Manner, size: &str, paren: &str) -> String {
    let name = if m.strict { "mo" } else { "mro" };
    let paren = fence(m, paren);
    format!(r#"<mrow><mo maxsize="{size}" minsize="{size}">{paren}</{name}></mrow>"#)
}

/// The strict dialect quotes the attribute.
fn alignment(m: Manner, align: ColumnAlign) -> &'static str {
    match align {
        ColumnAlign::Center => "",
        ColumnAlign::Left if m.strict => r#" columnalign="left""#,
        ColumnAlign::Left => " columnalign=left",
        ColumnAlign::Right => unreachable!("nothing makes it"),
    }
}

fn matrix(m: Manner, nodes: &[Node], align: ColumnAlign) -> String {
    let mut cells = String::new();
    for node in nodes {
        match node {
            Node::NewLine => cells.push_str("</mtd></mtr><mtr><mtd>"),
            Node::Ampersand => cells.push_str("</mtd><mtd>"),
            node => cells.push_str(&print(m, node)),
        }
    }
    let align = alignment(m, align);
    format!("<mtable{align}><mtr><mtd>{cells}</mtd></mtr></mtable>")
}

/// The slash is the printer's own and stays a reference.
fn slashed(m: Manner, node: &Node) -> String {
    match node {
        Node::Letter(c, variant) => {
            let c = text(m, &c.to_string());
            format!(r#"<mi mathvariant="{variant}">{c}&#x0338;</mi>"#)
        }
        Node::Operator(op) => format!("<mo>{}&#x0338;</mo>", operator(m, *op)),
        node => print(m, node),
    }
}

/// Debug's escapes come first, those of XML last; the strict dialect has document 01's text, without the escape that it leaves out.
fn parse_error(m: Manner, node: &Node) -> String {
    let mut debug = format!("{node:?}");
    if m.strict {
        debug = text(m, &undo_escapes(&debug));
    }
    format!("<mtext>[PARSE ERROR: {debug}]</mtext>")
}
