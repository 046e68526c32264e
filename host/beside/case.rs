//! A case: an operation, its input, and what is lent for it relative to what it needs.

/// How an operation prints.
#[derive(Clone, Copy, Debug, PartialEq, Eq, Hash)]
pub struct Manner {
    pub strict: bool,
}

impl Manner {
    pub const OLD: Manner = Manner { strict: false };
    pub const STRICT: Manner = Manner { strict: true };
    pub const ALL: [Manner; 2] = [Manner::OLD, Manner::STRICT];
}

/// Which of the port's functions is asked.
#[derive(Clone, Copy, Debug, PartialEq)]
pub enum Way {
    /// Document 01's, in the old dialect.
    Plain,
    /// The one that takes a manner.
    In(Manner),
    /// The strict translation of a body again.
    Converter,
}

#[derive(Clone, Copy, Debug, PartialEq)]
pub enum Operation {
    Body { block: bool },
    Replacement,
    Page,
}

/// A lent length: the needed one and some more or less, or a fixed one.
#[derive(Clone, Copy, Debug, PartialEq)]
pub enum Size {
    Needed(i64),
    Fixed(usize),
}

#[derive(Clone, Copy, Debug, PartialEq)]
pub struct Rule {
    pub store: Size,
    pub work: Size,
    pub output: Size,
}

#[derive(Clone, Debug)]
pub struct Case {
    pub operation: Operation,
    pub input: Vec<u8>,
    pub rule: Rule,
}

/// The lengths that are lent.
#[derive(Clone, Copy, Debug, PartialEq)]
pub struct Lent {
    pub store: usize,
    pub work: usize,
    pub output: usize,
}

impl Lent {
    pub const NOTHING: Lent = Lent {
        store: 0,
        work: 0,
        output: 0,
    };
    pub const UNLIMITED: Lent = Lent {
        store: usize::MAX,
        work: usize::MAX,
        output: usize::MAX,
    };
}

impl Operation {
    /// The functions that must give the answer of a manner.
    pub fn ways(self, manner: Manner) -> &'static [Way] {
        match self {
            _ if manner == Manner::OLD => &[Way::Plain, Way::In(Manner::OLD)],
            Operation::Body { .. } => &[Way::In(Manner::STRICT), Way::Converter],
            _ => &[Way::In(Manner::STRICT)],
        }
    }
}

impl Size {
    fn length(self, needed: usize) -> usize {
        match self {
            Size::Fixed(length) => length,
            Size::Needed(more) => needed.saturating_add_signed(more as isize),
        }
    }
}

impl Rule {
    /// Enough of everything, with a remainder that differs from case to case.
    pub fn enough(turn: u64) -> Rule {
        Rule {
            store: Size::Needed((turn % 50) as i64),
            work: Size::Needed((turn / 3 % 64) as i64),
            output: Size::Needed((turn / 7 % 100) as i64),
        }
    }

    pub fn lent(self, needed: Lent) -> Lent {
        Lent {
            store: self.store.length(needed.store),
            work: self.work.length(needed.work),
            output: self.output.length(needed.output),
        }
    }
}
