//! A case as it stands in the stored list, one to a line; crates/vectors/src/main.rt describes the line.

use crate::case::Manner;

pub const BLOCK: &str = "<math xmlns=\"http://www.w3.org/1998/Math/MathML\" display=\"block\">";
pub const INLINE: &str = "<math xmlns=\"http://www.w3.org/1998/Math/MathML\" display=\"inline\">";
pub const CLOSE: &str = "</math>";

/// A repetition is stored as one from this length on, and looked for so far back.
const SHORTEST: usize = 24;
const FURTHEST: usize = 200;

#[derive(Clone, Copy, Debug, PartialEq, Eq, Hash)]
pub enum Ask {
    /// A body in both displays.
    Both,
    Block,
    Inline,
    Document,
    Page,
}

/// Where an answer comes from.
#[derive(Clone, Copy, Debug, PartialEq, Eq, PartialOrd, Ord)]
pub enum Source {
    Crate,
    Document01,
    Document02,
}

/// The lengths that are lent, where they are not the program's own.
#[derive(Clone, Copy, Debug, Default, PartialEq, Eq, Hash)]
pub struct Lent {
    pub store: Option<usize>,
    pub work: Option<usize>,
    pub output: Option<usize>,
}

#[derive(Clone, Debug)]
pub struct Stored {
    pub ask: Ask,
    pub manner: Manner,
    pub lent: Lent,
    pub input: Vec<u8>,
    pub number: u32,
    /// Of a body without the wrapper.
    pub output: Vec<u8>,
    /// What the work buffer begins with after a replacement.
    pub work: Vec<u8>,
    pub paragraphs: usize,
    pub left: usize,
    pub source: Source,
}

impl Stored {
    pub fn new(ask: Ask, input: impl AsRef<[u8]>) -> Stored {
        Stored {
            ask,
            manner: Manner::OLD,
            lent: Lent::default(),
            input: input.as_ref().to_vec(),
            number: 0,
            output: Vec::new(),
            work: Vec::new(),
            paragraphs: 0,
            left: 0,
            source: Source::Crate,
        }
    }

    pub fn gives(self, output: impl AsRef<[u8]>) -> Stored {
        let output = output.as_ref().to_vec();
        Stored { output, ..self }
    }

    pub fn between(self, work: impl AsRef<[u8]>) -> Stored {
        let work = work.as_ref().to_vec();
        Stored { work, ..self }
    }

    pub fn counts(self, paragraphs: usize, left: usize) -> Stored {
        Stored {
            paragraphs,
            left,
            ..self
        }
    }

    pub fn store(mut self, length: usize) -> Stored {
        self.lent.store = Some(length);
        self
    }

    pub fn work(mut self, length: usize) -> Stored {
        self.lent.work = Some(length);
        self
    }

    pub fn output(mut self, length: usize) -> Stored {
        self.lent.output = Some(length);
        self
    }

    /// The same asked for in the strict dialect, which document 02 decides.
    pub fn strict(self) -> Stored {
        Stored {
            manner: Manner::STRICT,
            source: Source::Document02,
            ..self
        }
    }

    /// Whether the answers are the same, whatever is asked.
    pub fn answers_as(&self, other: &Stored) -> bool {
        let numbers = |case: &Stored| (case.number, case.paragraphs, case.left);
        numbers(self) == numbers(other) && self.output == other.output && self.work == other.work
    }

    fn head(&self) -> String {
        let mut head = String::from(match self.ask {
            Ask::Both => "M",
            Ask::Block => "B",
            Ask::Inline => "I",
            Ask::Document => "D",
            Ask::Page => "P",
        });
        if self.manner.strict {
            head.push('S');
        }
        head.push_str(match self.source {
            Source::Crate => "",
            Source::Document01 => "!",
            Source::Document02 => "!2",
        });
        let lent = [
            ('s', self.lent.store),
            ('w', self.lent.work),
            ('o', self.lent.output),
        ];
        for (letter, length) in lent {
            if let Some(length) = length {
                head.push_str(&format!("{letter}{length}"));
            }
        }
        let expected = [
            ('n', self.number as usize),
            ('p', self.paragraphs),
            ('l', self.left),
        ];
        for (letter, value) in expected {
            if value > 0 {
                head.push_str(&format!("{letter}{value}"));
            }
        }
        head
    }

    pub fn line(&self) -> Vec<u8> {
        let mut line = self.head().into_bytes();
        let texts = [&self.input, &self.output, &self.work];
        let last = texts.iter().rposition(|text| !text.is_empty());
        for text in &texts[..last.map_or(0, |last| last + 1)] {
            line.push(b'\t');
            line.extend(pack(text));
        }
        line.push(b'\n');
        line
    }
}

/// The longest repetition at a place: how far back it copies from, and how many bytes.
fn repetition(text: &[u8], at: usize) -> Option<(usize, usize)> {
    let count = |back: usize| {
        let same = |&i: &usize| text[i] == text[i - back];
        (at..text.len()).take_while(same).count()
    };
    let (back, mut count) = (1..=at.min(FURTHEST))
        .map(|back| (back, count(back)))
        .max_by_key(|&(back, count)| (count, FURTHEST - back))?;
    // The list stays text: no character is cut.
    while count > 0
        && text
            .get(at + count)
            .is_some_and(|&byte| byte & 0xc0 == 0x80)
    {
        count -= 1;
    }
    (count >= SHORTEST && count >= back).then_some((back, count))
}

fn pack(text: &[u8]) -> Vec<u8> {
    let plain = std::str::from_utf8(text).is_ok();
    let mut packed = Vec::new();
    let mut at = 0;
    while let Some(&byte) = text.get(at) {
        let opening = [("`B", BLOCK), ("`I", INLINE)]
            .into_iter()
            .find(|(_, tag)| text[at..].starts_with(tag.as_bytes()));
        if let Some((mark, tag)) = opening {
            packed.extend_from_slice(mark.as_bytes());
            at += tag.len();
        } else if let Some((back, count)) = repetition(text, at) {
            packed.extend_from_slice(format!("`*{back},{count};").as_bytes());
            at += count;
        } else {
            let as_itself = matches!(byte, b' '..=b'~') && byte != b'`' || byte >= 128 && plain;
            if as_itself {
                packed.push(byte);
            } else {
                packed.extend_from_slice(format!("`{byte:02x}").as_bytes());
            }
            at += 1;
        }
    }
    packed
}
