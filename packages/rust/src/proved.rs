//! The proved sources of Muxandu as plain Rust: all the rules of the calendar, of time and of texts
//! that this package has.
//!
//! The repository has these functions as Rattle sources, Rust with contracts, and proves that each
//! meets its contract. `make/erase write` takes the contracts out and writes this module; only this
//! page and the module [`memory`] are written by hand. The libraries `calendar_values`,
//! `plain_times`, `utc_times`, `offset_times`, `stamp_times`, `rfc3339`, `local_texts`,
//! `duration_texts` and `format_descriptions` are modules here. So are `zones`, `zone_files` and
//! `zoned_times`, which [`crate::zones`] alone calls: their types have fields whose ranges Rust
//! does not keep. Each type also has the methods of the traits [`AsUtc`], [`Assume`], [`ToOffset`],
//! [`ToTimestamp`] and [`Rfc3339`] itself, so that a program imports none of these.
//!
//! # Proofs, and the programs that you trust
//!
//! 1. Every function has the proved body, word by word. The proof covers callers that meet its
//!    `requires`, and a `usize` of 64 bits. `Date`, `Time`, `UtcOffset`, `SignedDuration` and
//!    `Timestamp` have a field more, `niche`, which has one value: an `Option` of one then takes no
//!    more memory.
//! 2. You trust `make/erase`, which takes the contracts out, and `gate/check_erased`, which shares
//!    no code with it and compares each word.
//! 3. You trust rustc and its `core` in place of Rattle's compiler and library.
//! 4. You trust the lines of [`memory`]: a list whose growth can fail.
//! 5. A call that breaks a `requires` panics, and names the line of its caller.
//!
//! A function whose wrong use nothing would stop is closed: this module alone calls it.
//! `make/erased_lists/requires.txt` lists all that require something.
//!
//! # Contracts
//!
//! The page of a function has its contract under the heading Contract, in the words of the source.
//! A `requires` is your duty as a caller; an `ensures` states the result.
//! `docs/proofs/STATEMENT.md` has on one page all that you must believe, and `make/explain NAME`
//! prints a contract with every definition that it leads to.
//!
//! # Whether it is in step
//!
//! The file `CHECKSUMS` names the kit that proved the sources, and the trees of their folders as
//! `git rev-parse HEAD:FOLDER` prints them. It has the SHA-256 of each source and of each file of
//! this module. `make/erase check` compares them, `gate/check_erased` compares the words, and
//! `make/erase compare` makes the module again.

// What the made modules have for Rattle or for their contracts alone.
#![allow(dead_code, reason = "some functions here have no caller")]
#![allow(unused_imports, reason = "some imports serve links of the docs alone")]
#![allow(unused_labels, reason = "proofs name the places of loops")]
#![allow(unused_variables, reason = "proofs name the places of loops")]
#![allow(missing_docs, reason = "the sources document what their users call")]
#![allow(clippy::manual_range_contains, reason = "sources compare both ends")]
#![allow(
    clippy::assign_op_pattern,
    clippy::let_and_return,
    clippy::manual_div_ceil,
    clippy::manual_find,
    clippy::manual_ignore_case_cmp,
    clippy::manual_is_multiple_of,
    clippy::manual_map,
    clippy::manual_ok_err,
    clippy::needless_range_loop,
    clippy::question_mark,
    clippy::single_match,
    clippy::too_many_arguments,
    clippy::while_let_on_iterator,
    reason = "proofs follow the sources"
)]
#![allow(
    clippy::precedence,
    clippy::type_complexity,
    clippy::wrong_self_convention,
    reason = "these are the sources' own"
)]
#![allow(
    rustdoc::private_intra_doc_links,
    reason = "the sources link to functions that are closed here"
)]
#![allow(clippy::new_without_default, reason = "the sources have no Default")]

pub mod calendar_values;
pub mod duration_texts;
pub mod format_descriptions;
pub mod local_texts;
pub mod memory;
pub mod offset_times;
pub mod plain_times;
pub mod rfc3339;
pub mod stamp_times;
pub mod utc_times;
pub(crate) mod zone_files;
pub(crate) mod zoned_times;
pub(crate) mod zones;

pub use calendar_values::{
    ComponentRange, Date, DateAdjustment, Month, Part, SignedDuration, Text, Time, UtcOffset,
    Weekday, days_in_month, days_in_year, is_leap_year,
};
pub use offset_times::{Assume, OffsetDateTime, ToOffset};
pub use plain_times::PlainDateTime;
pub use rfc3339::{Component, Rfc3339, TextRefusal, parse_rfc3339};
pub use stamp_times::{Held, Moment, Step, StoppedAt, Timestamp, ToTimestamp, chain, run};
pub use utc_times::{AsUtc, UtcDateTime};
