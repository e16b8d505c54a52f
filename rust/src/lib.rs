//! Lays documents out on a strip of so many columns.
//!
//! A document is built in a [`Draft`], a constructor a call, and laid out at a width. A [`Refusal`] has a number and says why.
//!
//! ```
//! use pursegable::{Draft, Refused};
//!
//! fn row() -> Result<(), Refused> {
//!     let draft = Draft::new();
//!     let row = draft.concat([draft.text("Fis"), draft.softline(), draft.text("neu beledern")])?;
//!     assert_eq!(draft.lay(row, 16)?, "Fis neu beledern");
//!     assert_eq!(draft.lay(row, 12)?, "Fis\nneu beledern");
//!     Ok(())
//! }
//! # row().unwrap();
//! ```
//!
//! Underneath is a static library that is proved: for any contents of the buffers it ends, answers what the layout rules say and
//! writes nothing outside of what it is lent. This crate gives it slices, so that lengths are right and nothing overlaps, and names
//! for its numbers. It is `no_std`. What borrows never allocates; [`Draft::new`] and [`Strip::new`], which own their buffers, need
//! the feature `alloc`, which is on unless it is turned off.
//!
//! | to | there is |
//! |---|---|
//! | build a document | [`Draft`], with [`Block`] for the block layouts |
//! | lay it out, with marks, in buffers used again | [`Strip`], which gives [`Laid`] |
//! | lay out a table that is there | [`layout`](fn@layout), [`sheet`], [`label`] |
//! | ask why a group broke | [`why`](fn@why), which gives a [`Reason`] |
//! | call the exports with numbers as C does | [`raw`] |
//!
//! The page `docs/FROM-PRETTY.md` of the repository says what each function of crate pretty is here.

#![no_std]
#![warn(missing_docs)]
#![deny(unsafe_code)]

#[cfg(feature = "alloc")]
extern crate alloc;

mod answer;
mod block;
mod constructors;
mod draft;
mod event;
mod layout;
mod lent;
mod node;
#[allow(unsafe_code)]
pub mod raw;
pub mod sizes;
mod why;

pub use answer::{Laid, Refusal, Refused};
pub use block::Block;
pub use draft::Draft;
pub use event::{Event, Events, Mark, Piece, Pieces};
pub use layout::{Strip, label, layout, sheet};
pub use node::{Node, Operand};
pub use why::{Reason, why};

/// The Rust of the page for those who come from crate pretty, run as tests.
#[cfg(doctest)]
#[doc = include_str!("../../docs/FROM-PRETTY.md")]
struct FromPretty;
