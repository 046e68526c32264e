//! The crate's commands, read from its token.rs and grouped by the token that each one makes.

use crate::random::Random;
use latex2mathml::token::Token;
use std::mem::discriminant;
use std::path::Path;

pub struct Words {
    pub all: Vec<String>,
    groups: Vec<Vec<String>>,
    pub parens: Vec<String>,
}

/// The text of the string that an arm `"text" => ..` begins with.
fn arm(line: &str) -> Option<String> {
    let rest = line.trim_start().strip_prefix('"')?;
    let (name, after) = match rest.strip_prefix("\\\\") {
        Some(after) => ("\\", after),
        None => rest.split_at(rest.find('"')?),
    };
    let after = after.strip_prefix('"')?;
    after
        .trim_start()
        .starts_with("=>")
        .then(|| name.to_owned())
}

impl Words {
    pub fn read(sources: &Path) -> std::io::Result<Words> {
        let text = std::fs::read_to_string(sources.join("token.rs"))?;
        let mut words = Words {
            all: Vec::new(),
            groups: Vec::new(),
            parens: ["(", ")", "[", "]", "|", ":="].map(str::to_owned).to_vec(),
        };
        let mut kinds = Vec::new();
        for name in text.lines().filter_map(arm) {
            let token = Token::from_command(&name);
            let kind = discriminant(&token);
            let command = format!("\\{name}");
            let at = kinds.iter().position(|&k| k == kind).unwrap_or_else(|| {
                kinds.push(kind);
                words.groups.push(Vec::new());
                kinds.len() - 1
            });
            words.groups[at].push(command.clone());
            if matches!(token, Token::Paren(_)) {
                words.parens.push(command.clone());
            }
            words.all.push(command);
        }
        Ok(words)
    }

    /// A command, each kind of token as likely as any other.
    pub fn any(&self, random: &mut Random) -> &str {
        let group = &self.groups[random.below(self.groups.len())];
        &group[random.below(group.len())]
    }

    pub fn paren(&self, random: &mut Random) -> &str {
        &self.parens[random.below(self.parens.len())]
    }
}
