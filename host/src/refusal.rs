//! The refusals of documents 01 and 02, by number, name and a sentence for whoever typed the page.

use std::fmt;

/// Why an operation refused; the names are those of the crate `error`.
#[derive(Clone, Copy, Debug, PartialEq, Eq)]
pub enum Refusal {
    /// 1: a body of more than 4,096 bytes or a document of more than 32,768
    TooLong,
    /// 2: bytes that are not well-formed UTF-8
    IllFormed,
    /// 3: the store has fewer records than twice the body's bytes
    StoreTooSmall,
    /// 4: an odd number of windows of two dollars, or of dollars in the text of pass one
    InvalidNumberOfDollarSigns,
    /// 5: three dollars in a row
    ThreeDollarSigns,
    /// 6: a group without its end, or a size without its parenthesis
    UnexpectedToken,
    /// 7: no parenthesis behind `\left` or `\right`
    MissingParensethis,
    /// 8: an environment that is not known
    UnknownEnvironment,
    /// 9: `\middle` before what is no operator
    MiddleOperand,
    /// 10: a call of the parser that would be the 257th open
    TooDeep,
    /// 11: the text of pass one is longer than the work buffer
    WorkTooSmall,
    /// 12: the result is longer than the output
    OutputTooSmall,
    /// 13: a mark repeated on one base
    RepeatedMark,
    /// 14: a NUL byte in a body or a document
    NulByte,
    /// 15: a body with a character that XML 1.0 forbids, in the strict dialect only
    ForbiddenCharacter,
    /// An answer that the documents do not have, which only another version of the archive can give.
    Unknown(u32),
}

impl Refusal {
    /// All of them, in the order of their numbers.
    pub const ALL: [Refusal; 15] = [
        Refusal::TooLong,
        Refusal::IllFormed,
        Refusal::StoreTooSmall,
        Refusal::InvalidNumberOfDollarSigns,
        Refusal::ThreeDollarSigns,
        Refusal::UnexpectedToken,
        Refusal::MissingParensethis,
        Refusal::UnknownEnvironment,
        Refusal::MiddleOperand,
        Refusal::TooDeep,
        Refusal::WorkTooSmall,
        Refusal::OutputTooSmall,
        Refusal::RepeatedMark,
        Refusal::NulByte,
        Refusal::ForbiddenCharacter,
    ];

    /// The refusal that a number stands for; 0 stands for none.
    pub fn from_number(number: u32) -> Refusal {
        Refusal::ALL
            .into_iter()
            .find(|refusal| refusal.number() == number)
            .unwrap_or(Refusal::Unknown(number))
    }

    /// Its number in the documents.
    pub fn number(self) -> u32 {
        match self {
            Refusal::TooLong => 1,
            Refusal::IllFormed => 2,
            Refusal::StoreTooSmall => 3,
            Refusal::InvalidNumberOfDollarSigns => 4,
            Refusal::ThreeDollarSigns => 5,
            Refusal::UnexpectedToken => 6,
            Refusal::MissingParensethis => 7,
            Refusal::UnknownEnvironment => 8,
            Refusal::MiddleOperand => 9,
            Refusal::TooDeep => 10,
            Refusal::WorkTooSmall => 11,
            Refusal::OutputTooSmall => 12,
            Refusal::RepeatedMark => 13,
            Refusal::NulByte => 14,
            Refusal::ForbiddenCharacter => 15,
            Refusal::Unknown(number) => number,
        }
    }

    /// The name that the sources have for it.
    pub fn name(self) -> &'static str {
        match self {
            Refusal::TooLong => "TooLong",
            Refusal::IllFormed => "IllFormed",
            Refusal::StoreTooSmall => "StoreTooSmall",
            Refusal::InvalidNumberOfDollarSigns => "InvalidNumberOfDollarSigns",
            Refusal::ThreeDollarSigns => "ThreeDollarSigns",
            Refusal::UnexpectedToken => "UnexpectedToken",
            Refusal::MissingParensethis => "MissingParensethis",
            Refusal::UnknownEnvironment => "UnknownEnvironment",
            Refusal::MiddleOperand => "MiddleOperand",
            Refusal::TooDeep => "TooDeep",
            Refusal::WorkTooSmall => "WorkTooSmall",
            Refusal::OutputTooSmall => "OutputTooSmall",
            Refusal::RepeatedMark => "RepeatedMark",
            Refusal::NulByte => "NulByte",
            Refusal::ForbiddenCharacter => "ForbiddenCharacter",
            Refusal::Unknown(_) => "Unknown",
        }
    }

    /// What is wrong and what to do about it, in words that need no knowledge of the program.
    pub fn sentence(self) -> &'static str {
        match self {
            Refusal::TooLong => "A formula has more than 4,096 bytes, or the page more than 32,768: split it.",
            Refusal::IllFormed => "Some characters are damaged (not UTF-8): delete them and type them again.",
            Refusal::StoreTooSmall => "The formula is too long for the memory that is set aside for one: split it into shorter ones.",
            Refusal::InvalidNumberOfDollarSigns => "A dollar, or a pair of dollars, has no partner: a formula needs the same on both sides, and a space to the next.",
            Refusal::ThreeDollarSigns => "Three dollars stand in a row: a formula has one or two on each side, and a space to the next.",
            Refusal::UnexpectedToken => r"Something is not closed: a `}`, a `]`, a `\right` or an `\end` is missing, or a bracket behind `\bigl`.",
            Refusal::MissingParensethis => r"No bracket stands behind `\left` or `\right`: type one there (a brace as `\{`), or a period for none.",
            Refusal::UnknownEnvironment => r"The name behind `\begin` is not known: matrix, pmatrix, bmatrix, vmatrix and align are.",
            Refusal::MiddleOperand => r"Neither a bracket nor a sign stands behind `\middle`: type one there, such as `|`.",
            Refusal::TooDeep => "Too many parts stand inside one another: take some out, or split the formula.",
            Refusal::WorkTooSmall => "The formulas between double dollars come out too long together: split the paragraph.",
            Refusal::OutputTooSmall => "What comes out is longer than the memory that is set aside for it: make the text shorter.",
            Refusal::RepeatedMark => "Two `_`, or two `^`, stand on the same sign: put braces around what belongs together, as in `x_{a_b}`.",
            Refusal::NulByte => "A NUL, a character that does not show, stands in the text: delete the words around it and type them again.",
            Refusal::ForbiddenCharacter => "A character that the panel's browser rejects, most of which do not show, stands in a formula: delete the formula and type it again.",
            Refusal::Unknown(_) => "The archive gave an answer that is not known here: build it and this program from the same sources.",
        }
    }

    /// Whether a body of a document meets it, so that a formula can be named for it.
    pub fn is_of_a_body(self) -> bool {
        matches!(
            self,
            Refusal::TooLong
                | Refusal::StoreTooSmall
                | Refusal::UnexpectedToken
                | Refusal::MissingParensethis
                | Refusal::UnknownEnvironment
                | Refusal::MiddleOperand
                | Refusal::TooDeep
                | Refusal::RepeatedMark
                | Refusal::ForbiddenCharacter
        )
    }
}

impl fmt::Display for Refusal {
    fn fmt(&self, f: &mut fmt::Formatter<'_>) -> fmt::Result {
        write!(f, "{} {}: {}", self.number(), self.name(), self.sentence())
    }
}

impl std::error::Error for Refusal {}

#[cfg(test)]
mod tests {
    use super::*;

    #[test]
    fn the_numbers_have_no_gap() {
        let numbers: Vec<u32> = Refusal::ALL.iter().map(|r| r.number()).collect();
        assert_eq!(numbers, [1, 2, 3, 4, 5, 6, 7, 8, 9, 10, 11, 12, 13, 14, 15]);
        assert_eq!(Refusal::from_number(4), Refusal::InvalidNumberOfDollarSigns);
        assert_eq!(Refusal::from_number(12), Refusal::OutputTooSmall);
        assert_eq!(Refusal::from_number(13), Refusal::RepeatedMark);
        assert_eq!(Refusal::from_number(14), Refusal::NulByte);
        assert_eq!(Refusal::from_number(15), Refusal::ForbiddenCharacter);
    }

    #[test]
    fn other_numbers_are_unknown() {
        for number in [0, 16, u32::MAX] {
            assert_eq!(Refusal::from_number(number), Refusal::Unknown(number));
            assert_eq!(Refusal::Unknown(number).number(), number);
        }
    }

    #[test]
    fn a_formula_can_be_named_for_these() {
        let numbers: Vec<u32> = Refusal::ALL
            .into_iter()
            .filter(|r| r.is_of_a_body())
            .map(Refusal::number)
            .collect();
        assert_eq!(numbers, [1, 3, 6, 7, 8, 9, 10, 13, 15]);
    }

    #[test]
    fn a_refusal_shows_number_name_and_sentence() {
        assert_eq!(
            Refusal::TooLong.to_string(),
            "1 TooLong: A formula has more than 4,096 bytes, or the page more than 32,768: split it."
        );
    }
}
