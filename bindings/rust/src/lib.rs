//! Union arrays and their builder, with the names that they have in the Rust crate arrow-array, over a library in which
//! every function is proved to meet its contract.
//!
//! A union array is one column of values of several kinds. Each slot has a type id, which names a column, and a value or
//! a null of that column.
//!
//! ```
//! use cangxole::{Processor, UnionBuilder, Value};
//!
//! # fn main() -> Result<(), cangxole::Refusal> {
//! let mut builder = UnionBuilder::new_dense(8)?;
//! builder.append("unit 12", 21.5)?;
//! builder.append_null::<f64>("unit 13")?;
//! builder.append("unit 12", 19.0)?;
//! assert_eq!(builder.append("unit 12", 19i32).unwrap_err().number(), 18); // a column keeps its kind
//!
//! let array = builder.finish();
//! let slot = array.value(2)?;
//! assert_eq!((slot.type_id, slot.name.as_str(), slot.value), (0, "unit 12", Value::Float64(19.0)));
//!
//! let nulls = array.logical_nulls(Processor::default())?;
//! assert_eq!((nulls.null_count(), nulls.is_null(1)), (1, true));
//! # Ok(())
//! # }
//! ```
//!
//! What a call refuses it answers with a [`Refusal`]: a number, and a sentence for it. A refused call changes nothing.
//! `docs/REFUSALS.md` of the repository has every number, its question, and which call asks it when.
//!
//! Builder and arrays own their memory. [`UnionBuilder::finish`] hands it to the array, [`UnionBuilder::finish_cloned`]
//! copies the parts in use, and slices share it, so that what an array tells stays as it is.

#![deny(missing_docs)]
#![deny(unsafe_code)]

mod array;
mod buffers;
mod builder;
mod child;
mod error;
#[allow(unsafe_code)]
#[doc(hidden)]
pub mod ffi;
mod kind;
mod nulls;
mod reading;
mod slot;

pub use array::UnionArray;
pub use builder::UnionBuilder;
pub use child::{Child, Column};
pub use error::{Refusal, RefusedReadings};
pub use kind::{Kind, Native, Value};
pub use nulls::{LogicalNulls, NullMask, Processor, Strategy};
pub use reading::Reading;
pub use slot::{Name, Slot, Slots};
