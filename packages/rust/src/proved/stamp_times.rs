// Made by make/erase of crates/stamp_times/src/lib.rt. Do not edit.
//! Instants by their Unix seconds, runs of calls over instants of every type, and chains of
//! conversions.
pub mod batches;
pub mod chains;
pub mod logs;
pub mod moment_logs;
pub mod reciprocal;
pub mod runs;
mod timestamp;
mod to_timestamp;

pub use batches::Batch;
pub use chains::chain;
pub use chains::steps::{Held, Step, StoppedAt};
pub use runs::calls::{Call, ClockPart, ClockRead, DatePart, DateRead, Replace, Reply, Shift};
pub use runs::moment::Moment;
pub use runs::{run, run_both};
pub use timestamp::Timestamp;
pub use to_timestamp::ToTimestamp;
