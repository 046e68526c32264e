#!/usr/bin/env python3
"""Writes the command table of crates/token from the Rust's token.rs.

  tools/table.py TOKEN.RS

Run it at the repository's root, then `rt fmt` in crates/token. It writes, below crates/token,
  specs/Table.antt  the names of the commands, sorted by their bytes, each with its token
  src/table.rt      the same in Rattle, and for each first byte where its names begin
Nothing of it is trusted: the check holds `table::table` to specs/Table.antt, `table::start` to what specs/Key.antt counts in it, and
proofs/Agree.antt holds specs/Table.antt to the arms of specs/Command.antt: one of our own (OWN) before the Rust's.
"""
import re
import sys
from collections import namedtuple
from functools import cache
from pathlib import Path
from string import Template

CRATE = Path("crates/token")
ASCII = range(128)

STRING = r'"(?:\\.|[^"\\])*"'
CHARACTER = r"'(?:\\.|[^'\\])+'"
WIDTH = r"-?\d+\.(?:/\d+\.)?"
LITERAL = f"{STRING}|{CHARACTER}|{WIDTH}"

# The arms of our own, `own_arms` of specs/Command.antt: each is taken instead of the Rust's arm of that name.
OWN = {'"ni"': "Token::Operator('∋')"}

# A command's name, in bytes and as the Rust quotes it, and its token as the Rust has it.
Arm = namedtuple("Arm", "name quoted token")


def main(args):
    if args in (["-h"], ["--help"]):
        print(__doc__.strip())
        return
    if len(args) != 1:
        stop("give one argument, the path of the Rust's token.rs; --help says more")
    if not CRATE.is_dir():
        stop(f"there is no {CRATE} here; run it at the repository's root")
    arms = read_arms(args[0])
    # Both are made before the first is written, so that a source that is refused changes none.
    files = {"specs/Table.antt": table_spec(arms), "src/table.rt": source(arms)}
    for path, text in files.items():
        (CRATE / path).write_text(text, encoding="utf8")


def stop(why):
    print(f"table.py: {why}", file=sys.stderr)
    sys.exit(2)


# ---- the arms of the Rust

def read_arms(path):
    """The arms sorted by name, with our own instead of the Rust's: no two have the same."""
    arms = {}
    for quoted, token in re.findall(rf"^\s*({STRING})\s*=>\s*(Token::.*?),\s*$", read(path), re.M):
        name = unescape(quoted).encode()
        if name in arms:
            stop(f"{path} has two arms for {quoted}")
        arms[name] = Arm(name, quoted, token)
    if not arms:
        stop(f"{path} has no arm from a string to a token; it is not the Rust's token.rs")
    for quoted, token in OWN.items():
        name = unescape(quoted).encode()
        arms[name] = Arm(name, quoted, token)
    return sorted(arms.values())


def read(path):
    try:
        return Path(path).read_text(encoding="utf8")
    except UnicodeDecodeError:
        stop(f"{path} is not UTF-8")


def unescape(quoted):
    r"""The text between quotes: the escapes that occur are \\ and \u{h}."""
    return re.sub(r"\\u\{([0-9a-f]+)\}", lambda m: chr(int(m[1], 16)), quoted[1:-1]).replace(r"\\", "\\")


# ---- specs/Table.antt

TABLE_SPEC = Template("""\
-- The command table: the names of `own_arms`, sorted by their bytes, each with its token. Written by tools/table.py; the law file
-- `Agree` shows its order, and that it says what `own_arms` says.
-- Assumes nothing.
use Rattle.std.specs.Prelude.{ℕ, List, [], ◌∷◌, Some, None}
use Prim.Native.Char.{code}
use Rattle.attribute.specs.declared.Variant.TheVariants.{$variant}
use Rattle.attribute.specs.declared.Accent.TheVariants.{$accent}
use Rattle.attribute.specs.declared.DisplayStyle.TheVariants.{$style}
use Rattle.token.specs.declared.Token.{Token}
use Rattle.token.specs.declared.Token.TheVariants.{$token}
use Rattle.token.specs.Texts.{text, width}
use Rattle.token.specs.Spell.{Arm, ◌=>◌}

-- the number of its entries
abbrev pub size : ℕ
size = $size

-- each name with its token, spelled as the arms are
unfoldable pub entries : List (Arm Token)
entries =
$entries    []
""")


def table_spec(arms):
    return TABLE_SPEC.substitute(
        variant=used("attribute", "Variant", arms),
        accent=used("attribute", "Accent", arms),
        style=used("attribute", "DisplayStyle", arms),
        token=used("token", "Token", arms),
        size=len(arms),
        entries="".join(f"    {arm.quoted} => {in_antt(arm.token)} ∷\n" for arm in arms),
    )


def used(crate, enum, arms):
    """The variants of an enum that occur in the tokens, to be imported."""
    occurring = {variant for arm in arms for variant in re.findall(rf"\b{enum}::(\w+)", arm.token)}
    return ", ".join(variant for variant in variants(crate, enum) if variant in occurring)


def variants(crate, enum):
    declared = re.search(rf"^pub enum {enum} \{{(.*?)^\}}", read(f"crates/{crate}/src/lib.rt"), re.M | re.S)[1]
    return re.findall(r"^    (\w+)", declared, re.M)


def in_antt(token):
    """A token in antt: the call `f(x, y)` is there `(f x y)`, with no parentheses round the whole."""
    literals = iter(re.findall(LITERAL, token))
    call = re.sub(r"\w+::", "", re.sub(LITERAL, "@", token))
    applied = re.sub(r"(\w+)\(", r"(\1 ", call).replace(",", "")
    bare = applied[1:-1] if applied.startswith("(") else applied
    return re.sub("@", lambda _: spelled(next(literals)), bare)


def spelled(literal):
    """A literal in antt, by the definition that makes its number."""
    if literal.startswith("'"):
        return f'(code "{unescape(literal)}")'
    if literal.startswith('"'):
        return f'(text "{unescape(literal)}")'
    return f'(width "{literal}")'


# ---- src/table.rt

SOURCE = Template("""\
// The command table: the names of the commands, sorted by their bytes, each with its token. Written by tools/table.py from the Rust's token.rs.
// Names are strings: were they byte strings, the check of a function that names the static would run out of its steps at 192 rows.
ghost use Rattle.std.specs.Prelude.{◌≡◌, map};
ghost use Rattle.token.specs.Key.{row_of, rows, rows_of, start};

use super::Token;
use attribute::{Accent, DisplayStyle, Variant};

static TABLE: [(&'static str, Token); $size] = [
$rows];

// The table. No other function names the static, since the check of one that does goes through every row.
pub fn table() -> &'static [(&'static str, Token)]
    ensures { map row_of result.now ≡ rows }
{
    &TABLE
}

// For each byte below 128 how many names begin with a lesser one, and at 128 the number of names: each name is ASCII.
static STARTS: [u16; $bytes] = [
$starts
];

// The place of the first row whose name begins with the byte b or a greater one, or the number of rows where none does.
fn start(b: usize) -> usize
    ensures { result ≡ start b }
{
    match STARTS.get(b) {
        Some(&n) => usize::from(n),
        None => $size,
    }
}

// The rows whose names begin with a byte. A search of these alone compares far fewer names than one of the whole table.
pub fn rows_of(first: u8) -> &'static [(&'static str, Token)]
    ensures { map row_of result.now ≡ rows_of first }
{
    let b = usize::from(first);
    &table()[start(b)..start(b + 1)]
}
""")


def source(arms):
    return SOURCE.substitute(
        size=len(arms),
        rows="".join(f"    ({arm.quoted}, {in_rattle(arm.token)}),\n" for arm in arms),
        bytes=len(ASCII) + 1,
        starts="".join(f"    {n},\n" for n in starts(arms)),
    )


def starts(arms):
    """For each byte of ASCII how many names begin with a lesser one, and the number of names."""
    return [sum(arm.name[0] < b for arm in arms) for b in [*ASCII, len(ASCII)]]


def in_rattle(token):
    """A token of the Rust with a number for a literal."""
    return re.sub(LITERAL, lambda literal: number(literal[0]), token)


def number(literal):
    """A character is its code point, a text or a width its place in a list of specs/Texts.antt."""
    if literal.startswith("'"):
        return f"{ord(unescape(literal)):#x}"
    if literal.startswith('"'):
        return str(place(unescape(literal), numbered("texts"), "texts of specs/Texts.antt"))
    return str(place(literal, numbered("widths"), "widths of specs/Texts.antt"))


@cache
def numbered(list_name):
    """The strings of a list of specs/Texts.antt, read once for all arms."""
    spec = read(CRATE / "specs/Texts.antt")
    listed = re.search(rf"^{list_name} =(.*?)\[\]$", spec, re.M | re.S)[1]
    return [unescape(quoted) for quoted in re.findall(STRING, listed)]


def place(item, items, what):
    if item not in items:
        stop(f"{item!r} is not among the {what}")
    return items.index(item)


if __name__ == "__main__":
    try:
        main(sys.argv[1:])
    except OSError as error:
        stop(f"{error.filename}: {error.strerror}")
