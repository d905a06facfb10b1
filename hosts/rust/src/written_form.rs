//! Written forms of values, contents and replies, read and written.

use crate::error::Error;
use crate::ids::{ActionId, ObjId, Owner};
use crate::value::{Content, Value};
use std::fmt::Write;
use std::ops::RangeInclusive;
use std::{fmt, slice};

// How deep a value may be.
const MAX_DEPTH: u8 = 16;

/// The rest of a text that is being read. Each `take` and each reading call takes what it reads
/// from the beginning; if it returns `None`, it has stopped at what can't be read.
pub(crate) struct Reader<'t> {
    left: &'t str,
    // Whose the ids are that are read.
    owner: Owner,
}

impl<'t> Reader<'t> {
    /// Reads the whole text by `read`. If something is left over or can't be read, it is a bad
    /// text, with the place where the reading stopped. Its ids are nobody's.
    pub(crate) fn whole<T>(
        text: &'t str,
        read: impl FnOnce(&mut Reader<'t>) -> Option<T>,
    ) -> Result<T, Error> {
        Reader::whole_of(Owner::NOBODY, text, read)
    }

    /// The same, with ids of this guardian.
    pub(crate) fn whole_of<T>(
        owner: Owner,
        text: &'t str,
        read: impl FnOnce(&mut Reader<'t>) -> Option<T>,
    ) -> Result<T, Error> {
        let mut reader = Reader { left: text, owner };
        match read(&mut reader) {
            Some(thing) if reader.left.is_empty() => Ok(thing),
            _ => Err(Error::BadText {
                at: text.len() - reader.left.len(),
            }),
        }
    }

    /// Takes this beginning, if the rest has it.
    pub(crate) fn take(&mut self, beginning: &str) -> Option<()> {
        self.left = self.left.strip_prefix(beginning)?;
        Some(())
    }

    /// The text before the next space, or before the end.
    pub(crate) fn word(&mut self) -> &'t str {
        let end = self.left.find(' ').unwrap_or(self.left.len());
        let (word, left) = self.left.split_at(end);
        self.left = left;
        word
    }

    /// Takes all that is left.
    pub(crate) fn skip_rest(&mut self) {
        self.left = "";
    }

    // A number with this sign, within these bounds: as many digits as still make one.
    fn number(&mut self, sign: i64, within: RangeInclusive<i64>) -> Option<i64> {
        let mut number = None;
        for digit in self.left.bytes() {
            if !digit.is_ascii_digit() || number == Some(0) {
                break;
            }
            let last = sign * i64::from(digit - b'0');
            let longer = number.unwrap_or(0_i64).checked_mul(10);
            let longer = longer.and_then(|number| number.checked_add(last));
            let Some(longer) = longer.filter(|number| within.contains(number)) else {
                break;
            };
            number = Some(longer);
            self.left = &self.left[1..];
        }
        number
    }

    /// A number without a sign.
    pub(crate) fn nat(&mut self) -> Option<u32> {
        let number = self.number(1, 0..=i64::from(u32::MAX))?;
        u32::try_from(number).ok()
    }

    /// The number of a field or of a tag.
    pub(crate) fn tag(&mut self) -> Option<u8> {
        let number = self.number(1, 0..=i64::from(u8::MAX))?;
        u8::try_from(number).ok()
    }

    /// An integer.
    pub(crate) fn int(&mut self) -> Option<i64> {
        if self.take("-").is_some() {
            return self.number(-1, i64::MIN..=-1);
        }
        self.number(1, 0..=i64::MAX)
    }

    // The text before the closing quote, which is taken too.
    fn text(&mut self) -> Option<String> {
        let mut text = String::new();
        while self.take("\"").is_none() {
            let is_escaped = self.take("\\").is_some();
            let character = self.left.chars().next()?;
            text.push(match (is_escaped, character) {
                (true, 'n') => '\n',
                (true, '"' | '\\') => character,
                (true, _) | (false, '\n') => return None,
                (false, _) => character,
            });
            self.left = &self.left[character.len_utf8()..];
        }
        Some(text)
    }

    /// A value.
    pub(crate) fn value(&mut self) -> Option<Value> {
        self.value_at(1)
    }

    fn value_at(&mut self, level: u8) -> Option<Value> {
        if level > MAX_DEPTH {
            return None;
        }
        if self.take("null").is_some() {
            return Some(Value::Null);
        }
        if self.take("true").is_some() {
            return Some(Value::Bool(true));
        }
        if self.take("false").is_some() {
            return Some(Value::Bool(false));
        }
        if self.take("\"").is_some() {
            return self.text().map(Value::Text);
        }
        if self.take("@").is_some() {
            return self.object_number().map(Value::Atomic);
        }
        if self.take("[").is_some() {
            return self.values(level, "]").map(Value::Sequence);
        }
        if self.take("{").is_some() {
            return self.values(level, "}").map(Value::Fields);
        }
        if self.take("<").is_some() {
            let (tag, value) = self.choice(level)?;
            return Some(Value::Choice(tag, Box::new(value)));
        }
        self.int().map(Value::Int)
    }

    // The values before the closing bracket, which is taken too.
    fn values(&mut self, level: u8, close: &str) -> Option<Vec<Value>> {
        let mut values = Vec::new();
        if self.take(close).is_some() {
            return Some(values);
        }
        loop {
            values.push(self.value_at(level + 1)?);
            if self.take(close).is_some() {
                return Some(values);
            }
            self.take(",")?;
        }
    }

    fn choice(&mut self, level: u8) -> Option<(u8, Value)> {
        let tag = self.tag()?;
        self.take(":")?;
        let value = self.value_at(level + 1)?;
        self.take(">")?;
        Some((tag, value))
    }

    /// A content. Its parts are values, and may be as deep as values.
    pub(crate) fn content(&mut self) -> Option<Content> {
        if self.take("{").is_some() {
            return self.values(0, "}").map(Content::Record);
        }
        if self.take("<").is_some() {
            let (tag, value) = self.choice(0)?;
            return Some(Content::Variant { tag, value });
        }
        let low = self.int()?;
        self.take("[")?;
        let items = self.values(0, "]")?;
        Some(Content::Array { low, items })
    }

    /// A content, or `absent`.
    #[allow(
        clippy::option_option,
        reason = "the outer one says whether it could be read"
    )]
    pub(crate) fn content_or_absent(&mut self) -> Option<Option<Content>> {
        if self.take("absent").is_some() {
            return Some(None);
        }
        self.content().map(Some)
    }

    /// A version: its holder, and what that sees.
    pub(crate) fn version(&mut self) -> Option<(ActionId, Option<Content>)> {
        let holder = self.action()?;
        self.take(" ")?;
        Some((holder, self.content_or_absent()?))
    }

    /// An action, such as `a7`.
    pub(crate) fn action(&mut self) -> Option<ActionId> {
        self.take("a")?;
        let number = self.nat()?;
        Some(ActionId::of(self.owner, number))
    }

    /// An object, such as `o7`.
    pub(crate) fn object(&mut self) -> Option<ObjId> {
        self.take("o")?;
        self.object_number()
    }

    // The number of an object, such as `7`.
    fn object_number(&mut self) -> Option<ObjId> {
        let number = self.nat()?;
        Some(ObjId::of(self.owner, number))
    }
}

/// The compounds that are open while a value is written, from the outermost to the innermost. A
/// list in place of recursion, so that no value is too deep for the stack.
pub(crate) struct Writer<'v> {
    open: Vec<Open<'v>>,
}

// The rest of a compound that has been begun.
struct Open<'v> {
    parts: slice::Iter<'v, Value>,
    is_begun: bool,
    close: char,
}

impl<'v> Writer<'v> {
    /// Writes a value.
    pub(crate) fn value(f: &mut fmt::Formatter<'_>, value: &'v Value) -> fmt::Result {
        let mut writer = Writer { open: Vec::new() };
        writer.begin(f, value)?;
        writer.finish(f)
    }

    /// Writes these values between two brackets, separated by commas.
    pub(crate) fn list(
        f: &mut fmt::Formatter<'_>,
        open: char,
        values: &'v [Value],
        close: char,
    ) -> fmt::Result {
        let mut writer = Writer { open: Vec::new() };
        writer.enter(f, open, values, close)?;
        writer.finish(f)
    }

    fn enter(
        &mut self,
        f: &mut fmt::Formatter<'_>,
        open: char,
        parts: &'v [Value],
        close: char,
    ) -> fmt::Result {
        self.open.push(Open {
            parts: parts.iter(),
            is_begun: false,
            close,
        });
        f.write_char(open)
    }

    // Writes to the end what is open.
    fn finish(&mut self, f: &mut fmt::Formatter<'_>) -> fmt::Result {
        while let Some(innermost) = self.open.last_mut() {
            if let Some(part) = innermost.parts.next() {
                if innermost.is_begun {
                    f.write_char(',')?;
                }
                innermost.is_begun = true;
                self.begin(f, part)?;
            } else {
                f.write_char(innermost.close)?;
                self.open.pop();
            }
        }
        Ok(())
    }

    // Writes a scalar, or the beginning of a compound, which is then open.
    fn begin(&mut self, f: &mut fmt::Formatter<'_>, value: &'v Value) -> fmt::Result {
        match value {
            Value::Null => f.write_str("null"),
            Value::Bool(flag) => write!(f, "{flag}"),
            Value::Int(number) => write!(f, "{number}"),
            Value::Text(text) => write_text(f, text),
            Value::Atomic(object) => write!(f, "@{}", object.number()),
            Value::Sequence(values) => self.enter(f, '[', values, ']'),
            Value::Fields(values) => self.enter(f, '{', values, '}'),
            Value::Choice(tag, value) => {
                write!(f, "<{tag}")?;
                self.enter(f, ':', slice::from_ref(value), '>')
            }
        }
    }
}

fn write_text(f: &mut fmt::Formatter<'_>, text: &str) -> fmt::Result {
    f.write_char('"')?;
    for character in text.chars() {
        match character {
            '"' => f.write_str("\\\"")?,
            '\\' => f.write_str("\\\\")?,
            '\n' => f.write_str("\\n")?,
            other => f.write_char(other)?,
        }
    }
    f.write_char('"')
}
