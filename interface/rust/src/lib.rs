//! The ration table from Rust: a dictionary from keys to values on a card of 32-bit words that keeps them without power.
//! `include/ration_table.h` is the manual; this crate gives its calls types.
//!
//! - [`Table`] is a card that is open and idle. An update takes it and gives an [`Update`]; its last step gives it back.
//!   So no second update can be started before the final answer of the first.
//! - [`Update`], [`Repair`] and [`Formatting`] are in progress and have to be stepped. One that is dropped is a power cut:
//!   open the card again.
//! - `find`, `next_after`, `pairs`, `family_total` and `write_dump` work on all of them.
//! - [`calls`] are the same calls one by one, without that order.
//!
//! A card is formatted, a ration put in, power cut and the card opened again:
//!
//! ```
//! use core::num::NonZeroU32;
//! use ration_table::{card_words, Opened, Progress, Refusal, StateBlock, Table};
//!
//! fn main() -> Result<(), Refusal> {
//!     let mut card = [0; card_words(12)]; // kept without power
//!     let key = NonZeroU32::new(7).unwrap();
//!     {
//!         let mut state = StateBlock::new(); // lost with power
//!         let (table, ()) = Table::format(&mut card, &mut state)?.finish()?;
//!         let update = table.insert(key, 70)?;
//!         let Progress::Stored { more: update, .. } = update.step()? else { panic!() }; // the value
//!         let Progress::Stored { more: update, .. } = update.step()? else { panic!() }; // the key: now the pair is in
//!         drop(update); // power goes before the final answer
//!     }
//!     let mut state = StateBlock::new();
//!     let table = match Table::open(&mut card, &mut state)? {
//!         Opened::Idle(table) => table,
//!         Opened::Repairing(repair) => repair.finish()?.0,
//!     };
//!     assert_eq!(table.find(key)?.answer, Some(70));
//!     Ok(())
//! }
//! ```
//!
//! # To change a value
//!
//! An insert does not overwrite. A delete and then an insert are two updates and not one change: **where power goes between
//! them the key is absent**. [`Table::insert`] says more.
//!
//! # To walk a card
//!
//! [`Table::pairs`] is an iterator over all pairs, in rising order of their keys; [`Table::next_after`] one step of it, from any
//! number on:
//!
//! ```
//! use ration_table::{Refusal, Table};
//!
//! fn print(table: &Table) -> Result<(), Refusal> {
//!     for pair in table.pairs() {
//!         let (ration, record) = pair?;
//!         println!("ration {ration}: dose record {record}");
//!     }
//!     Ok(())
//! }
//! ```
//!
//! # How deep
//!
//! What `find`, `next_after` and a finished update answer comes [`WithDepth`]: how many internal nodes stood on the way down when
//! the call began, tagged ones counted.
//!
//! # What a feed family holds
//!
//! The top 4 bits of a key are its family ([`family_of`]); [`Table::family_total`] tells how many pairs one has, without a look at
//! the card:
//!
//! ```
//! use ration_table::{Refusal, Table, FAMILIES};
//!
//! fn print(table: &Table) -> Result<(), Refusal> {
//!     for family in 0..FAMILIES {
//!         println!("family {family}: {} rations", table.family_total(family)?);
//!     }
//!     Ok(())
//! }
//! ```
//!
//! # To keep an update across calls
//!
//! A step takes the update and hands it back, so what keeps it, say from one tick of a controller to the next, is an
//! `Option` that each tick takes it out of and puts it back into:
//!
//! ```
//! use ration_table::{Progress, Refusal, Table, Update};
//!
//! enum Work<'a> {
//!     Idle(Table<'a>),
//!     Updating(Update<'a>),
//! }
//!
//! struct Controller<'a> {
//!     work: Option<Work<'a>>, // taken out only within a tick
//! }
//!
//! impl Controller<'_> {
//!     fn tick(&mut self) -> Result<(), Refusal> {
//!         let (work, answer) = match self.work.take() {
//!             Some(Work::Updating(update)) => match update.step() {
//!                 Ok(Progress::Stored { more, .. }) => (Some(Work::Updating(more)), Ok(())),
//!                 Ok(Progress::Done(table, _answer)) => (Some(Work::Idle(table)), Ok(())),
//!                 Err(refused) => (Some(Work::Updating(refused.unchanged)), Err(refused.refusal)),
//!             },
//!             idle => (idle, Ok(())),
//!         };
//!         self.work = work;
//!         answer
//!     }
//! }
//! ```
//!
//! The card and the block have to outlive it; in static memory they do, and it is a `Controller<'static>`. Where they stand in
//! one struct with what is in progress, which no borrow allows, keep the words and the [`StateBlock`] there and use [`calls`]:
//! the block remembers what is in progress. `examples/controller` is a whole program.
//!
//! # A card behind a bus
//!
//! Lend a copy of it in memory, and bring each word stored to the card before the next step: [`InProgress::finish_with`], or
//! the place in [`Progress::Stored`].
//!
//! # To abandon an update
//!
//! Open the card again: [`InProgress::into_parts`].
//!
//! # To build
//!
//! No allocation, no dependencies, no `std`; Rust 1.81 or newer, on x86-64 Linux. It links the archive `libration_table.a`, which
//! `interface/make-archive` makes. As a dependency, `ration_table = { path = ".../interface/rust" }`, it takes it from the
//! repository's `target/staticlib`, or from the folder that the environment variable `RATION_TABLE_LIB` names. With plain
//! `rustc`:
//!
//! ```text
//! rustc --edition 2021 -O --crate-type rlib --crate-name ration_table -L target/staticlib interface/rust/src/lib.rs
//! rustc --edition 2021 -O --extern ration_table=libration_table.rlib your_program.rs
//! ```
#![no_std]

pub mod calls;
mod pairs;
mod refusal;
mod table;

pub use calls::{StateBlock, WithDepth};
pub use pairs::Pairs;
pub use refusal::Refusal;
pub use table::{FinalAnswer, Formatting, InProgress, Opened, Progress, Refused, Repair, Table, Unfinished, Update};

pub const LEAST_NODES: usize = 4;
pub const MOST_NODES: usize = 2600;

/// The feed families are 0 to 15.
pub const FAMILIES: u32 = 16;

/// The family of a key: its top 4 bits.
pub const fn family_of(key: u32) -> u32 {
    key >> 28
}

/// The words of a card with so many nodes.
pub const fn card_words(nodes: usize) -> usize {
    8 + 24 * nodes
}

/// The bytes of the dump of a card with so many nodes.
pub const fn dump_bytes(nodes: usize) -> usize {
    (4 * card_words(nodes)).div_ceil(512) * 512
}
