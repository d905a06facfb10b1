//! Atomic objects under nested transactions, in Rust over the proved archive `libargus.a`.
//!
//! A [`Guardian`] keeps records, arrays and variants for many actions. Each access is made by an
//! action: a topaction, a subaction of one, or a nested topaction. An action that aborts leaves no
//! trace, and committed topactions can't be distinguished from topactions run one after another.
//!
//! ```
//! use argus_guardian::{Access, Error, Guardian};
//!
//! let mut guardian = Guardian::new()?;
//! let account = guardian.named("account", "atomic_record[balance:int]")?;
//! let mut top = guardian.topaction()?;
//! top.create(&account, (5,))?;
//! {
//!     let sub = top.subaction()?;
//!     sub.set(&account, "balance", 7)?;
//!     // It isn't committed, so it aborts here.
//! }
//! assert_eq!(top.get::<i64>(&account, "balance")?, 5);
//! top.commit()?;
//! assert_eq!(guardian.base(&account)?, Some((5,).into()));
//! # Ok::<(), Error>(())
//! ```
//!
//! What an action does with objects is in the trait [`Access`]. [`Shared`] is a guardian that
//! threads share, by a mutex around each call.
//!
//! The archive is proved: each reply follows from the journal before the call (the repository's
//! README says it in full). This crate isn't proved: it calls the archive, reads its texts, and
//! keeps actions in guards. Nor is it proved of [`Shared`] that its waits end, or that they wait
//! only for what they say.

#![deny(missing_docs)]

mod access;
mod access_error;
mod action;
mod call;
mod call_list;
mod conversion;
mod error;
mod guardian;
mod ids;
mod library;
#[cfg(all(feature = "logged", unix))]
pub mod log;
mod names;
mod object;
mod page;
mod questions;
mod ready_commit;
mod record;
mod reply;
mod request;
mod resumption;
mod shape;
mod shared;
mod value;
mod views;
mod written_form;

pub use access::Access;
pub use access_error::{Contention, NameFault, TypeFault, TypeMismatch};
pub use action::Action;
use argus_guardian_sys as sys;
pub use call::{Call, Change, Query};
pub use call_list::{CallsMade, Demand, ListEnd, ListedCall};
pub use conversion::{FromContent, FromValue};
#[doc(hidden)]
pub use conversion::{fields_of, record_of};
pub use error::{CheckpointError, Error, Limit};
pub use guardian::Guardian;
pub use ids::{ActionId, ObjId};
pub use object::{AsObject, AsPart, Object};
pub use questions::{Lines, Listing, Status};
pub use ready_commit::{NotReady, ReadyCommit};
#[doc(hidden)]
pub use record::struct_of;
pub use record::{FieldType, Record};
pub use reply::{Answer, Refusal, Reply, Signal};
pub use resumption::{LineError, LineFault, RestoredGuardian, Resumption, TakenEnd, TakenLines};
pub use shape::ShapeFault;
pub use shared::Shared;
pub use shared::action::{SharedAction, Sharer};
pub use shared::circles::Deadlock;
pub use shared::retry::{MayConflict, is_conflict};
pub use value::{Content, Value};
pub use views::{ArrayView, VariantView};
