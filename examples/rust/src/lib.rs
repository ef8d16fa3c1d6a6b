//! Riddoskam for Rust: AMF0 values, LSO files and AMF packets, read and written over lent buffers, with no allocation.
//!
//! # Reading
//!
//! A reading fills a lent image, and gives a view over it: a [`File`], a [`Packet`], a [`Value`], or [`Values`] one behind the other.
//!
//! ```
//! use riddoskam::{image_room, File, Refusal};
//!
//! fn price(input: &[u8], shelf: &str) -> Result<Option<f64>, Refusal> {
//!     let mut image = [0; image_room(8192)];
//!     let file = File::read(input, &mut image)?;
//!     let cents = |shelf| file.get(shelf)?.get("cents")?.as_number();
//!     Ok(cents(shelf))
//! }
//! # let input = include_bytes!(concat!(env!("CARGO_MANIFEST_DIR"), "/../../samples/prices.sol"));
//! assert_eq!(price(input, "A-01")?, Some(129.0));
//! assert_eq!(price(input, "Z-99")?, None);
//! let refusal = price(&input[..600], "A-01").unwrap_err();
//! assert!(refusal.to_string().starts_with("refused with answer 3 at byte 572: "));
//! # Ok::<_, Refusal>(())
//! ```
//!
//! A key of which there are more pairs leads to the last. [`File::index`] makes an index, by which keys are found without a walk. [`Entries`] reads a packet entry by
//! entry, so that a damaged one costs itself alone. A view that was read has what the library proved of the reading; an image from elsewhere is judged by the
//! library first ([`File::of`]).
//!
//! # Writing
//!
//! What was read is written by [`File::write`], [`Packet::write`] and [`Value::write`]. What is new is built in [`build`], and written by the same.
//!
//! # Refusals
//!
//! A refused reading tells why and where: a [`Refusal`] has the [`Answer`] and the place in the input. So does [`packet_cut`]. The other calls tell the answer
//! alone: writings and [`index`] read no input, [`record_at`] was given its place, and [`packet_nth`] is refused where [`packet_cut`] is, which tells the place.
//! A `Refusal` turns into its `Answer` by `?`, and both are errors. A refused reading leaves the image zero, and a refused writing changes nothing.
//!
//! # The calls themselves
//!
//! Below the views are the calls of the library, one by one, for whoever keeps images and indexes: a reading ([`lso_parse`], ..) fills an image, a row of
//! records ([`record_at`]); a text in it is a place and a length in the input ([`part`]). An image is its first `made` bytes: the zeros behind them would be taken
//! for numbers. An [`index`](index()) beside an image finds a value by its keys ([`find`]). [`put`] lays a record.
//!
//! # What is proved, and what isn't
//!
//! Every function here is safe. What the C functions ask of a caller, that pointers and lengths are right and that what is written overlaps nothing, is what
//! `&[u8]` and `&mut [u8]` say. All else is proved of the library: each call ends on every input, and its contract gives every byte that it leaves. This crate
//! above it is not proved: it is Rust, with `unsafe` at the calls alone, no recursion but for printing, which has no more than 32 levels, and tests.
#![no_std]
#![deny(missing_docs)]

#[cfg(test)]
extern crate std;

mod answer;
pub mod build;
mod calls;
mod file;
mod packet;
mod sys;
mod values;
mod view;

pub use answer::{Answer, Refusal};
pub use calls::{
    find, image_room, index, index_room, inside, lso_parse, lso_parse_incomplete, lso_write_to_bytes, packet_cut, packet_nth, packet_parse, packet_parse_entry,
    packet_parse_incomplete, packet_parse_span, packet_write_to_bytes, parse_single_element, part, put, record_at, step, write_value, Cutting, Entry, Numbers,
    Reading, Record, Role, Text, BYTES, ENTRY_NUMBERS, IMAGE, INDEX_RECORD, LEVELS, NO_ENTRY,
};
pub use file::File;
pub use packet::{Address, Entries, Header, Headers, Message, Messages, Packet, PacketEntry};
pub use values::Values;
pub use view::{Content, Date, Items, Kind, Pairs, Value};

/// The version of the library and of this crate.
pub const VERSION: &str = env!("CARGO_PKG_VERSION");
