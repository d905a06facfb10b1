//! Shapes: what the written form of one says, and why a text is none.

use crate::call::{Change, Query};
use std::fmt;

const MAX_DEPTH: usize = 16;
const MOST_NAMES: usize = 64;
const LONGEST_NAME: usize = 32;
const SCALARS: [&str; 5] = ["null", "bool", "int", "text", "atomic"];
// A kind of object, with the compound type that has the same parts.
const KINDS: [(&str, &str, Kind); 3] = [
    ("record", "struct", Kind::Record),
    ("array", "sequence", Kind::Array),
    ("variant", "oneof", Kind::Variant),
];

/// Why a text isn't the written form of a shape that can be made.
///
/// ```
/// use argus_guardian::{Error, Guardian};
/// let Err(Error::BadShape(fault)) = Guardian::new()?.declare("atomic_record[balance:integer]") else {
///     panic!("there is no such type");
/// };
/// assert_eq!(fault.at(), "atomic_record[balance:".len());
/// assert!(fault.to_string().starts_with("at byte 22: no type"));
/// # Ok::<(), Error>(())
/// ```
#[derive(Debug, Clone, PartialEq, Eq)]
pub struct ShapeFault {
    at: usize,
    why: String,
}

impl ShapeFault {
    /// Why this text is no shape. The library says only that it is none.
    pub(crate) fn of(text: &str) -> ShapeFault {
        match Shape::read(text) {
            Err(fault) => fault,
            Ok(_) => ShapeFault {
                at: 0,
                why: "the library doesn't take it".to_owned(),
            },
        }
    }

    /// How many bytes of the text could be read.
    #[must_use]
    pub fn at(&self) -> usize {
        self.at
    }

    /// What is wrong there, in words.
    #[must_use]
    pub fn why(&self) -> &str {
        &self.why
    }
}

impl fmt::Display for ShapeFault {
    fn fmt(&self, f: &mut fmt::Formatter<'_>) -> fmt::Result {
        write!(f, "at byte {}: {}", self.at, self.why)
    }
}

/// What kind of object it is.
#[derive(Debug, Clone, Copy, PartialEq, Eq)]
pub(crate) enum Kind {
    Record,
    Array,
    Variant,
}

/// A shape, taken apart: its written form, and those of the types in it.
#[derive(Debug, Clone, PartialEq, Eq)]
pub(crate) struct Shape {
    pub(crate) text: String,
    pub(crate) kind: Kind,
    /// The names of fields or tags, none for an array.
    pub(crate) names: Vec<String>,
    // Their types, or the one of an array's elements.
    types: Vec<String>,
}

impl Shape {
    /// The shape of this written form.
    pub(crate) fn read(text: &str) -> Result<Shape, ShapeFault> {
        let mut reader = ShapeReader { text, at: 0 };
        reader.want("atomic_")?;
        let word = reader.word("a kind")?;
        let Some((_, _, kind)) = KINDS.into_iter().find(|(it, _, _)| *it == word) else {
            return Err(reader.fault_before(word, "no kind: record, array and variant are"));
        };
        let mut shape = Shape {
            text: text.to_owned(),
            kind,
            names: Vec::new(),
            types: Vec::new(),
        };
        (shape.names, shape.types) = reader.parts(kind, 1)?;
        if reader.at < text.len() {
            return Err(reader.fault("something follows the shape"));
        }
        Ok(shape)
    }

    /// What the shape has where a query looks, as in `field balance is int`.
    pub(crate) fn place_of_query(&self, query: Query) -> String {
        self.place(match query {
            Query::Field(number) => (Kind::Record, number),
            Query::IsTag(number) | Query::TagValue(number) => (Kind::Variant, number),
            Query::Whole => return self.whole(),
            _ => (Kind::Array, 0),
        })
    }

    /// The same, where a change writes.
    pub(crate) fn place_of_change(&self, change: &Change) -> String {
        self.place(match change {
            Change::SetField(number, _) => (Kind::Record, *number),
            Change::ChangeTag(number, _) => (Kind::Variant, *number),
            Change::Create(_) | Change::Touch => return self.whole(),
            _ => (Kind::Array, 0),
        })
    }

    // The type at this place of a shape of this kind; else all of the shape.
    fn place(&self, (kind, number): (Kind, u8)) -> String {
        let (number, what) = match kind {
            Kind::Record => (number, "field "),
            Kind::Array => (0, "an element"),
            Kind::Variant => (number, "tag "),
        };
        let number = usize::from(number);
        match self.types.get(number) {
            Some(of) if self.kind == kind => {
                let name = self.names.get(number).map_or("", String::as_str);
                format!("{what}{name} is {of}")
            }
            _ => self.whole(),
        }
    }

    fn whole(&self) -> String {
        format!("its shape is {}", self.text)
    }
}

// The rest of a shape's written form.
struct ShapeReader<'t> {
    text: &'t str,
    at: usize,
}

impl<'t> ShapeReader<'t> {
    // What is in the brackets of this kind: the names, and the written forms of the types.
    fn parts(
        &mut self,
        kind: Kind,
        depth: usize,
    ) -> Result<(Vec<String>, Vec<String>), ShapeFault> {
        let (mut names, mut types) = (Vec::new(), Vec::new());
        self.want("[")?;
        loop {
            if kind != Kind::Array {
                let name = self.name(&names)?;
                names.push(name);
                self.want(":")?;
            }
            let begin = self.at;
            self.skip_type(depth)?;
            types.push(self.text[begin..self.at].to_owned());
            if kind == Kind::Array || !self.text[self.at..].starts_with(',') {
                self.want("]")?;
                return Ok((names, types));
            }
            self.at += 1;
        }
    }

    // A name that isn't one of these.
    fn name(&mut self, others: &[String]) -> Result<String, ShapeFault> {
        let name = self.word("a name")?;
        let why = if others.len() == MOST_NAMES {
            "more than 64 names"
        } else if name.len() > LONGEST_NAME {
            "a name of more than 32 letters"
        } else if others.iter().any(|it| it == name) {
            "the same name a second time"
        } else {
            return Ok(name.to_owned());
        };
        Err(self.fault_before(name, why))
    }

    fn skip_type(&mut self, depth: usize) -> Result<(), ShapeFault> {
        let word = self.word("a type")?;
        if depth > MAX_DEPTH {
            return Err(self.fault_before(word, "a type that is deeper than 16"));
        }
        if SCALARS.contains(&word) {
            return Ok(());
        }
        if let Some((_, _, kind)) = KINDS.into_iter().find(|(_, it, _)| *it == word) {
            return self.parts(kind, depth + 1).map(drop);
        }
        let why = "no type: null, bool, int, text, atomic, struct, sequence and oneof are";
        Err(self.fault_before(word, why))
    }

    fn word(&mut self, what: &str) -> Result<&'t str, ShapeFault> {
        let rest = &self.text[self.at..];
        let is_end = |it: char| !(it.is_ascii_lowercase() || it.is_ascii_digit() || it == '_');
        let word = &rest[..rest.find(is_end).unwrap_or(rest.len())];
        if word.is_empty() {
            return Err(self.fault(&format!("{what} is missing")));
        }
        self.at += word.len();
        Ok(word)
    }

    fn want(&mut self, word: &str) -> Result<(), ShapeFault> {
        if !self.text[self.at..].starts_with(word) {
            return Err(self.fault(&format!("`{word}` is missing")));
        }
        self.at += word.len();
        Ok(())
    }

    fn fault(&self, why: &str) -> ShapeFault {
        ShapeFault {
            at: self.at,
            why: why.to_owned(),
        }
    }

    fn fault_before(&self, word: &str, why: &str) -> ShapeFault {
        ShapeFault {
            at: self.at - word.len(),
            ..self.fault(why)
        }
    }
}
