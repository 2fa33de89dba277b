//! The meal plan walker for Rust, over the proved C interface (include/mealplan.h).
//!
//! A plan's bytes are checked once, as a [`Plan`]. A [`Walker`] stands above its forest or at a node of it and moves by methods; a [`Place`] is where
//! it stands, to be kept and gone back to. [`Walker::why`] tells why a letter moves or doesn't there. One of [`Plan::walker_of`] walks the forest of one
//! rule alone. [`Plan::measure`] counts, [`Plan::spread`] writes out; by a list of [`Classes`], [`Plan::copy`] makes a client's copy and [`Plan::grams`]
//! weighs. What is turned down is [`Refused`], with its number, its position and a sentence.
//!
//! ```
//! use mealplan::{Format, Plan, Rule, seal_rules};
//!
//! // Document 01's sample plan.
//! let rules = [
//!     Rule::Empty,
//!     Rule::Node(97, 0),    // a leaf, a
//!     Rule::Node(98, 0),    // a leaf, b
//!     Rule::Pair(1, 2),     // both, side by side
//!     Rule::Part(99, 3, 2), // c over a b, a hole and b
//!     Rule::Join(4, 4),     // that in its own hole
//!     Rule::Fill(5, 1),     // and a in the hole that is left
//!     Rule::Pair(6, 3),
//! ];
//! let bytes = seal_rules(&rules, Format::Narrow, 7)?;
//! let plan = Plan::new(&bytes)?;
//!
//! let mut walker = plan.walker();
//! walker.first_root();
//! let mut children = vec![walker.first_child()];
//! while let Some(label) = walker.next_sibling() {
//!     children.push(Some(label));
//! }
//! assert_eq!(children, [97, 98, 99, 98].map(Some));
//! # Ok::<(), mealplan::Refused>(())
//! ```
//!
//! Below that are the functions of the C interface, on slices that the caller lends: [`check`], [`seal`], [`unseal`], [`measure`], [`spread`],
//! [`walk`], [`compare`], [`class`], [`copy`], [`grams`] and [`reason`]. Each answers `Ok` with the values that documents 01 and 02 give, or `Err` with
//! the refusal. Slices of 16-bit words are bytes, two to a word, low first; an odd last byte isn't counted. Answers are 32-bit words, four bytes to
//! each ([`labels`] reads them). How long each slice must be is told by [`work_bytes`], [`cursor_bytes`], [`answers_bytes`], [`plan_bytes`],
//! [`words_bytes`], [`text_bytes`] and [`copy_bytes`]. A cursor of zeros stands above the start rule's forest; [`stand_above`] puts one above that of
//! any closed rule.
//!
//! ```
//! // The same letters on buffers of one's own.
//! # let bytes = std::fs::read(concat!(env!("CARGO_MANIFEST_DIR"), "/../../samples/plan.bin")).unwrap();
//! let n = mealplan::check(&bytes)?.n.into();
//! let mut work = vec![0; mealplan::work_bytes(n)];
//! let mut cursor = vec![0; mealplan::cursor_bytes(n)];
//! let mut answers = [0; mealplan::answers_bytes(3)];
//! mealplan::walk(&bytes, &mut work, &mut cursor, b"afn", &mut answers)?;
//! assert!(mealplan::labels(&answers).eq([Some(99), Some(97), Some(98)]));
//! # Ok::<(), mealplan::Refused>(())
//! ```
//!
//! The crate needs no standard library, and the library that it links calls `memset` alone. Feature `alloc`, on by default, has what owns memory;
//! without it there are the functions, [`Plan`] with its rules, and [`Classes`].
#![no_std]
#![deny(missing_docs, unsafe_code)]

#[cfg(not(target_pointer_width = "64"))]
compile_error!("the library is for machines of 64 bits");

#[cfg(feature = "alloc")]
extern crate alloc;

mod answers;
#[allow(unsafe_code)]
pub mod c;
mod classes;
mod cursor;
mod format;
mod limits;
#[cfg(feature = "alloc")]
mod place;
mod plan;
mod reason;
mod refused;
mod rule;
mod values;
#[cfg(feature = "alloc")]
mod walker;

pub use answers::{DIVIDER, Label, NOWHERE, labels};
pub use c::calls::{check, class, compare, copy, grams, measure, reason, seal, spread, unseal, walk};
pub use classes::{Classes, LabelRow};
pub use cursor::{rule_word, stand_above};
pub use format::Format;
pub use limits::*;
#[cfg(feature = "alloc")]
pub use place::Place;
pub use plan::Plan;
pub use reason::Reason;
pub use refused::{Refusal, Refused};
pub use rule::Rule;
#[cfg(feature = "alloc")]
pub use rule::seal_rules;
pub use values::{Checked, Compared, Measured, Unsealed};
#[cfg(feature = "alloc")]
pub use walker::Walker;
