// Made by make/erase of crates/stamp_times/src/batches.rt. Do not edit.
//! Many timestamps at once.
use crate::proved::stamp_times::Timestamp;
use crate::proved::stamp_times::runs::put_in_room;
use crate::proved::memory::{AllocError, Global};

/// Timestamps, and the place of the count that was out of range, if one was.
pub struct Batch {
    pub stamps: crate::proved::memory::Vec<Timestamp>,
    pub refused: Option<usize>,
}

impl Timestamp {
    /// The beginnings of Unix seconds in their order, up to the first that
    /// [`Timestamp::from_seconds`] rejects, with the index of that one. `AllocError` if there is no
    /// memory for them. The call takes all memory first, and none for no seconds.
    ///
    /// # Contract
    ///
    /// ```text
    /// ensures all { IfOk result (λ batch. IfNone batch.refused
    ///     (batch.stamps.items ≡ map instant_of_second seconds.now)) }
    /// ensures before { IfOk result (λ batch. IfSome batch.refused (λ place.
    ///     batch.stamps.items ≡ map instant_of_second (take place seconds.now))) }
    /// ensures refused { IfOk result (λ batch.
    ///     IfSome batch.refused (λ place. (place < length seconds.now)
    ///     × HoldsAt (λ second. ¬ IsInstant (instant_of_second second)) seconds.now place)) }
    /// ensures none { seconds.now ≡ [] → IsOk result }
    /// ```
    ///
    /// [docs/proofs/STATEMENT.md](crate::proved#contracts) explains the words.
    #[inline]
    pub fn from_seconds_slice(alloc: Global, seconds: &[i64]) -> Result<Batch, AllocError> {
        let mut stamps = crate::proved::memory::Vec::with_capacity(alloc, seconds.len())?;
        for (place, second) in seconds.iter().enumerate() {
            match Timestamp::from_seconds(*second) {
                Ok(stamp) => put_in_room(&mut stamps, stamp),
                Err(_) => {
                    return Ok(Batch {
                        stamps,
                        refused: Some(place),
                    });
                }
            }
        }
        Ok(Batch {
            stamps,
            refused: None,
        })
    }
}
