//! Document 01's notation of trees, arrays and paths, written and read.
//!
//! A tree is its root, then, if it has labels, each with its array:
//! `v{1:[5, 6], 2:[]}`. Roots are `v`, `true`, `false`, integers and texts.
//! A text stands in double quotes; `\"`, `\\` and `\xNN`, a byte in
//! hexadecimal, write what could not stand there otherwise. Spaces are free,
//! and `5{}`, as document 000 writes it, is read as `5`. A path is its labels
//! with points between them; the empty one is written `ε`.

use crate::error::{BuildError, ParseCause, ParseError};
use crate::limits;
use crate::path::Path;
use crate::tree::{Array, Root, Text, Tree};
use std::fmt::{self, Display, Formatter, Write};
use std::str::FromStr;

impl Display for Text {
    fn fmt(&self, out: &mut Formatter<'_>) -> fmt::Result {
        out.write_char('"')?;
        for chunk in self.as_bytes().utf8_chunks() {
            for character in chunk.valid().chars() {
                put_character(character, out)?;
            }
            put_bytes(chunk.invalid(), out)?;
        }
        out.write_char('"')
    }
}

/// Writes a character of a text, escaped where it could not be read back or seen.
fn put_character(character: char, out: &mut Formatter<'_>) -> fmt::Result {
    match character {
        '"' | '\\' => write!(out, "\\{character}"),
        _ if character.is_control() => put_bytes(character.encode_utf8(&mut [0; 4]).as_bytes(), out),
        _ => out.write_char(character),
    }
}

/// Writes bytes as escapes.
fn put_bytes(bytes: &[u8], out: &mut Formatter<'_>) -> fmt::Result {
    bytes.iter().try_for_each(|byte| write!(out, "\\x{byte:02x}"))
}

impl Display for Root {
    fn fmt(&self, out: &mut Formatter<'_>) -> fmt::Result {
        match self {
            Root::Void => out.write_char('v'),
            Root::Boolean(value) => value.fmt(out),
            Root::Integer(value) => value.fmt(out),
            Root::Text(text) => text.fmt(out),
        }
    }
}

impl Display for Tree {
    fn fmt(&self, out: &mut Formatter<'_>) -> fmt::Result {
        self.root().fmt(out)?;
        let mut before = "{";
        for (label, array) in self.labels() {
            write!(out, "{before}{label}:{array}")?;
            before = ", ";
        }
        // without a label no brace was opened
        if before == "{" {
            Ok(())
        } else {
            out.write_char('}')
        }
    }
}

impl Display for Array {
    fn fmt(&self, out: &mut Formatter<'_>) -> fmt::Result {
        out.write_char('[')?;
        let mut before = "";
        for tree in self {
            write!(out, "{before}{tree}")?;
            before = ", ";
        }
        out.write_char(']')
    }
}

impl Display for Path {
    fn fmt(&self, out: &mut Formatter<'_>) -> fmt::Result {
        if self.is_empty() {
            return out.write_char('ε');
        }
        let mut before = "";
        for label in self.labels() {
            write!(out, "{before}{label}")?;
            before = ".";
        }
        Ok(())
    }
}

impl FromStr for Tree {
    type Err = ParseError;

    fn from_str(text: &str) -> Result<Tree, ParseError> {
        Reader::whole(text, |reader| reader.tree(1))
    }
}

impl FromStr for Array {
    type Err = ParseError;

    fn from_str(text: &str) -> Result<Array, ParseError> {
        Reader::whole(text, |reader| reader.array(1))
    }
}

impl FromStr for Path {
    type Err = ParseError;

    fn from_str(text: &str) -> Result<Path, ParseError> {
        Reader::whole(text, Reader::path)
    }
}

/// The text, and how far it has been read.
struct Reader<'t> {
    text: &'t str,
    at: usize,
}

impl<'t> Reader<'t> {
    /// Reads one thing that is the whole text, spaces around it aside.
    fn whole<T>(
        text: &'t str,
        read: impl FnOnce(&mut Reader<'t>) -> Result<T, ParseError>,
    ) -> Result<T, ParseError> {
        let mut reader = Reader { text, at: 0 };
        let value = read(&mut reader)?;
        reader.skip_spaces();
        match reader.rest() {
            "" => Ok(value),
            _ => Err(reader.expected("the end")),
        }
    }

    fn rest(&self) -> &'t str {
        self.text.get(self.at..).unwrap_or_default()
    }

    fn skip_spaces(&mut self) {
        let rest = self.rest();
        self.at += rest.len() - rest.trim_start().len();
    }

    fn error(&self, cause: ParseCause) -> ParseError {
        ParseError { at: self.at, cause }
    }

    fn expected(&self, what: &'static str) -> ParseError {
        self.error(ParseCause::Expected(what))
    }

    /// Takes a mark if it is next.
    fn takes(&mut self, mark: &str) -> bool {
        self.skip_spaces();
        let next = self.rest().starts_with(mark);
        if next {
            self.at += mark.len();
        }
        next
    }

    /// Takes a mark, or says that it should stand here.
    fn mark(&mut self, mark: &'static str) -> Result<(), ParseError> {
        if self.takes(mark) {
            Ok(())
        } else {
            Err(self.expected(mark))
        }
    }

    /// Takes letters and digits, with a minus before them or none; maybe nothing.
    fn word(&mut self) -> &'t str {
        self.skip_spaces();
        let rest = self.rest();
        let body = rest.strip_prefix('-').unwrap_or(rest);
        let after = body.trim_start_matches(|c: char| c.is_ascii_alphanumeric());
        let word = &rest[..rest.len() - after.len()];
        self.at += word.len();
        word
    }

    /// Takes an array whose trees have this depth.
    fn array(&mut self, depth: usize) -> Result<Array, ParseError> {
        self.mark("[")?;
        let mut array = Array::new();
        if self.takes("]") {
            return Ok(array);
        }
        loop {
            array.push(self.tree(depth)?);
            if self.takes("]") {
                return Ok(array);
            }
            if !self.takes(",") {
                return Err(self.expected("a comma or the end of the array"));
            }
        }
    }

    /// Takes a tree of this depth.
    fn tree(&mut self, depth: usize) -> Result<Tree, ParseError> {
        self.skip_spaces();
        // tested before its labels are read, so that the calls end
        if depth > limits::DEPTH {
            return Err(self.error(ParseCause::Limit(BuildError::TreeDeep(depth))));
        }
        let mut tree = Tree::new(self.root()?);
        if !self.takes("{") || self.takes("}") {
            return Ok(tree);
        }
        loop {
            tree = self.labelled(tree, depth)?;
            if self.takes("}") {
                return Ok(tree);
            }
            if !self.takes(",") {
                return Err(self.expected("a comma or the end of the labels"));
            }
        }
    }

    /// Takes a label with its array, and gives the tree with it.
    fn labelled(&mut self, tree: Tree, depth: usize) -> Result<Tree, ParseError> {
        self.skip_spaces();
        let at = self.at;
        let label = self.label()?;
        self.mark(":")?;
        let array = self.array(depth + 1)?;
        tree.with(label, array).map_err(|limit| ParseError { at, cause: ParseCause::Limit(limit) })
    }

    fn label(&mut self) -> Result<u8, ParseError> {
        self.skip_spaces();
        let at = self.at;
        match self.word().parse() {
            Ok(label) if label != 0 => Ok(label),
            _ => Err(ParseError { at, cause: ParseCause::Label }),
        }
    }

    fn root(&mut self) -> Result<Root, ParseError> {
        if self.takes("\"") {
            return self.text().map(Root::Text);
        }
        let at = self.at;
        let wrong = |cause| Err(ParseError { at, cause });
        match self.word() {
            "v" => Ok(Root::Void),
            "true" => Ok(Root::Boolean(true)),
            "false" => Ok(Root::Boolean(false)),
            word if is_integer(word) => match word.parse() {
                Ok(value) => Ok(Root::Integer(value)),
                Err(_) => wrong(ParseCause::Integer),
            },
            _ => wrong(ParseCause::Expected("a root (v, true, false, an integer or a text)")),
        }
    }

    /// Takes the rest of a text, behind its first quote.
    fn text(&mut self) -> Result<Text, ParseError> {
        let start = self.at;
        let mut bytes = Vec::new();
        loop {
            match self.rest().chars().next() {
                None => return Err(self.expected("the end of the text")),
                Some('"') => break self.at += 1,
                Some('\\') => bytes.push(self.escape()?),
                Some(character) => {
                    bytes.extend_from_slice(character.encode_utf8(&mut [0; 4]).as_bytes());
                    self.at += character.len_utf8();
                }
            }
        }
        Text::new(bytes).map_err(|limit| ParseError { at: start, cause: ParseCause::Limit(limit) })
    }

    /// Takes an escape: the byte that it stands for.
    fn escape(&mut self) -> Result<u8, ParseError> {
        let (byte, length) = match self.rest().as_bytes() {
            [b'\\', byte @ (b'"' | b'\\'), ..] => (Some(*byte), 2),
            [b'\\', b'x', high, low, ..] => (hexadecimal(*high, *low), 4),
            _ => (None, 0),
        };
        self.at += if byte.is_some() { length } else { 0 };
        byte.ok_or(self.error(ParseCause::Escape))
    }

    fn path(&mut self) -> Result<Path, ParseError> {
        if self.takes("ε") || self.rest().is_empty() {
            return Ok(Path::empty());
        }
        let mut labels = vec![self.label()?];
        while self.takes(".") {
            labels.push(self.label()?);
        }
        Path::new(labels).map_err(|limit| ParseError { at: 0, cause: ParseCause::Limit(limit) })
    }
}

/// Whether a word is digits, with a minus before them or none.
fn is_integer(word: &str) -> bool {
    let digits = word.strip_prefix('-').unwrap_or(word);
    !digits.is_empty() && digits.bytes().all(|byte| byte.is_ascii_digit())
}

/// The byte of two hexadecimal digits.
fn hexadecimal(high: u8, low: u8) -> Option<u8> {
    let digit = |byte: u8| char::from(byte).to_digit(16);
    u8::try_from(digit(high)? * 16 + digit(low)?).ok()
}
