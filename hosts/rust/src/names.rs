//! Objects by their names, which are in objects of the guardian, too: its catalogues.
//!
//! So a name outlives the process where the journal does. A change of an array copies it, so each catalogue has few
//! names, and there may be many of them. Python's package reads and writes the same ones.

use crate::call::{Call, Change};
use crate::error::Error;
use crate::guardian::Guardian;
use crate::ids::ObjId;
use crate::object::Object;
use crate::value::{Content, Value};
use std::collections::HashMap;

// Each object of this shape is a catalogue, of so many names.
const CATALOGUE: &str = "atomic_array[struct[name:text,object:atomic]]";
const NAMES: usize = 64;

/// The objects that have a name.
#[derive(Default)]
pub(crate) struct Names {
    objects: HashMap<String, Object>,
    by_number: HashMap<u32, String>,
    // The last catalogue, with how many names it has.
    catalogue: Option<(ObjId, usize)>,
}

impl Names {
    fn add(&mut self, object: &Object, name: &str) {
        let object = object.clone().called(name);
        self.by_number.insert(object.id().number(), name.to_owned());
        self.objects.insert(name.to_owned(), object);
    }
}

impl Guardian {
    /// The object of this name; if there is none, declares one of this shape and gives it the name.
    ///
    /// Names are in objects of the guardian, 64 in each, so they are where its journal is.
    /// A guardian with a log has them in its database, by `Logged::named`.
    ///
    /// # Errors
    ///
    /// [`Error::OtherShape`] if the object has another shape; [`Error::BadShape`]; [`Error::TooMany`];
    /// [`Error::Refused`] with `Conflict` if an action has locked a catalogue; [`Error::OutOfMemory`]. Then
    /// no object has got the name, but one may have been declared.
    ///
    /// ```
    /// use argus_guardian::{Error, Guardian};
    /// let guardian = Guardian::new()?;
    /// let account = guardian.named("account", "atomic_record[balance:int]")?;
    /// assert_eq!(guardian.named("account", "atomic_record[balance:int]")?, account);
    /// let error = guardian.named("account", "atomic_array[int]").expect_err("it is a record");
    /// assert_eq!(error.to_string(), "account has the shape atomic_record[balance:int]");
    /// # Ok::<(), Error>(())
    /// ```
    pub fn named(&self, name: &str, shape: impl AsRef<str>) -> Result<Object, Error> {
        let shape = shape.as_ref();
        if let Some(object) = self.find_named(name)? {
            return object.with_shape(shape);
        }
        let object = self.object(self.declare(shape)?)?.called(name);
        let mut names = self.names.take().unwrap_or_default();
        // If this fails, the next call reads the catalogues again.
        self.register(&mut names, &object, name)?;
        names.add(&object, name);
        self.names.set(Some(names));
        Ok(object)
    }

    /// The object of this name, if there is one.
    ///
    /// # Errors
    ///
    /// [`Error::OutOfMemory`].
    ///
    /// ```
    /// use argus_guardian::Guardian;
    /// let guardian = Guardian::new()?;
    /// assert_eq!(guardian.find_named("account")?, None);
    /// # Ok::<(), argus_guardian::Error>(())
    /// ```
    pub fn find_named(&self, name: &str) -> Result<Option<Object>, Error> {
        let names = match self.names.take() {
            Some(names) => names,
            None => Box::new(self.read_catalogues()?),
        };
        let found = names.objects.get(name).cloned();
        self.names.set(Some(names));
        Ok(found)
    }

    /// The name of the object, if it has one and somebody has asked for a name before.
    pub(crate) fn name_of(&self, object: ObjId) -> Option<String> {
        let names = self.names.take();
        let by_number = names.as_ref().map(|it| &it.by_number);
        let name = by_number.and_then(|it| it.get(&object.number()).cloned());
        self.names.set(names);
        name
    }

    fn read_catalogues(&self) -> Result<Names, Error> {
        let mut names = Names::default();
        for number in 0..self.objects() {
            let catalogue = ObjId::numbered(number);
            if self.shape(catalogue)? == CATALOGUE {
                let count = self.read_catalogue(catalogue, &mut names)?;
                names.catalogue = Some((catalogue, count));
            }
        }
        Ok(names)
    }

    // How many names this catalogue has.
    fn read_catalogue(&self, catalogue: ObjId, names: &mut Names) -> Result<usize, Error> {
        let Some(Content::Array { items, .. }) = self.base(catalogue)? else {
            return Ok(0);
        };
        let count = items.len();
        for item in items {
            let (name, id) = <(String, ObjId) as crate::FromValue>::from_value(item)?;
            names.add(&self.object(id)?, &name);
        }
        Ok(count)
    }

    // Puts the name into the last catalogue, or into a new one if that is full.
    fn register(&self, names: &mut Names, object: &Object, name: &str) -> Result<(), Error> {
        let (catalogue, count) = match names.catalogue.filter(|(_, count)| *count < NAMES) {
            Some(last) => last,
            None => (self.declare(CATALOGUE)?, 0),
        };
        let item = Value::from((name, object.id()));
        let change = if count == 0 {
            Change::Create(Content::from(vec![item]))
        } else {
            Change::Addh(item)
        };
        let top = self.call(&Call::BeginTop)?.action()?;
        let altered = self.call(&Call::Alter(top, catalogue, change));
        let committed = altered
            .and_then(|it| it.answer()?.done())
            .and_then(|()| self.call(&Call::Commit(top))?.answer()?.done());
        if committed.is_err() {
            // What it has failed for is returned.
            let _ = self.call(&Call::Abort(top));
        }
        names.catalogue = Some((catalogue, count + 1));
        committed
    }
}
