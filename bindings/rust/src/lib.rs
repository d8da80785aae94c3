#![no_std]
#![cfg_attr(docsrs, feature(doc_cfg))]
#![cfg_attr(archive, doc = include_str!("../README.md"))]
#![cfg_attr(
    not(archive),
    doc = "Safe types over the monitor's trap entry, built here without the calls."
)]
#![deny(unsafe_op_in_unsafe_fn)]
#![warn(missing_docs)]
// Of clippy's pedantic lints these don't fit here. Constant functions can't call `try_from`, and what they cast is below 129:
#![allow(clippy::cast_possible_truncation)]
// the six bytes of a name have no better names:
#![allow(clippy::many_single_char_names)]
// a listing's room is moved into it once:
#![allow(clippy::large_types_passed_by_value)]
#![cfg_attr(not(archive), allow(dead_code))]

#[cfg(lacks_archive)]
compile_error!(env!("LACKS_ARCHIVE"));

#[cfg(feature = "alloc")]
extern crate alloc;
#[cfg(any(feature = "std", test))]
extern crate std;

#[cfg(test)]
#[macro_use]
mod offset;

mod answer;
#[cfg(archive)]
mod called;
pub mod calls;
#[cfg(feature = "compare")]
#[cfg_attr(docsrs, doc(cfg(feature = "compare")))]
pub mod compare;
mod counters;
#[cfg(feature = "delays")]
#[cfg_attr(docsrs, doc(cfg(feature = "delays")))]
pub mod delays;
mod layout;
mod list;
mod listing;
pub mod log;
mod message;
mod name;
mod numbers;
mod places;
mod queues;
mod refusal;
mod registers;
#[cfg(feature = "screen")]
#[cfg_attr(docsrs, doc(cfg(feature = "screen")))]
pub mod screen;
mod semaphore;
mod shown;
#[cfg(all(archive, feature = "quick"))]
mod sound;
mod table;
#[cfg(feature = "tape")]
#[cfg_attr(docsrs, doc(cfg(feature = "tape")))]
pub mod tape;
mod told;
mod waiting;
#[cfg(feature = "walks")]
#[cfg_attr(docsrs, doc(cfg(feature = "walks")))]
mod walk;
#[cfg(feature = "why")]
#[cfg_attr(docsrs, doc(cfg(feature = "why")))]
pub mod why;

pub use answer::{
    AnswerWait, Cleaned, EventWait, InterruptWait, Interrupted, SemaphoreWait, Sent, Ticked,
};
pub use calls::Call;
pub use counters::{counter_fault, CounterFault};
#[cfg(archive)]
pub use layout::Builder;
pub use layout::{Edition, NotLaidOut};
pub use list::{Cause, Fault, List};
pub use listing::{Listed, Listing, Rows, Standing};
pub use message::{Message, Text};
pub use name::name_words;
pub use numbers::{Buffer, Device, Process, Semaphore};
pub use places::table_words;
pub use refusal::Refusal;
#[cfg(all(archive, feature = "quick"))]
#[cfg_attr(docsrs, doc(cfg(feature = "quick")))]
pub use sound::{KeptWords, SoundTable};
pub use table::{Reason, State, Table};
pub use waiting::{Rings, Stuck};
#[cfg(feature = "walks")]
#[cfg_attr(docsrs, doc(cfg(feature = "walks")))]
pub use walk::Walk;
