//! The unchanged crate's answers, with a number in place of an error or a panic.

use latex2mathml::{DisplayStyle, LatexError};
use std::panic::{catch_unwind, set_hook};

/// The text that the crate gives, or the number of document 01 that stands for its error.
pub type Answer = Result<String, u32>;

/// Keeps the crate's panics, which are answers here, off standard error.
pub fn silence_panics() {
    set_hook(Box::new(|_| ()));
}

fn number(error: &LatexError) -> u32 {
    match error {
        LatexError::InvalidNumberOfDollarSigns => 4,
        LatexError::UnexpectedToken { .. } => 6,
        LatexError::MissingParensethis { .. } => 7,
        LatexError::UnknownEnvironment(_) => 8,
    }
}

/// A panic counts as 9, so the caller decides 5 before it asks.
fn answer(call: impl FnOnce() -> Result<String, LatexError> + std::panic::UnwindSafe) -> Answer {
    match catch_unwind(call) {
        Ok(Ok(text)) => Ok(text),
        Ok(Err(error)) => Err(number(&error)),
        Err(_) => Err(9),
    }
}

fn style(block: bool) -> DisplayStyle {
    if block {
        DisplayStyle::Block
    } else {
        DisplayStyle::Inline
    }
}

pub fn translate(latex: &str, block: bool) -> Answer {
    answer(|| latex2mathml::latex_to_mathml(latex, style(block)))
}

/// Markup in the wrapper that the crate has for it.
pub fn wrapped(markup: &str, block: bool) -> String {
    let display = style(block);
    let open = r#"<math xmlns="http://www.w3.org/1998/Math/MathML" display="#;
    format!("{open}\"{display}\">{markup}</math>")
}

pub fn replace(document: &str) -> Answer {
    answer(|| latex2mathml::replace(document))
}
