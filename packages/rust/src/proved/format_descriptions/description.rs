// Made by make/erase of crates/format_descriptions/src/description.rt. Do not edit.
//! Descriptions that are put together, in a table of fixed size.
use crate::proved::format_descriptions::Item;
// The most items that a description has.
const CAPACITY: usize = 20;

/// A description of at most 20 items. A contract sees the list of its items.
#[derive(Clone)]
pub struct Description {
    items: [Item; CAPACITY],
    len: usize,
}

impl Description {
    // No items.
    /// # Contract
    ///
    /// ```text
    /// ensures { result ≡ [] }
    /// ```
    ///
    /// [docs/proofs/STATEMENT.md](crate::proved#contracts) explains the words.
    #[inline]
    pub(crate) const fn new() -> Description {
        Description {
            items: [Item::Byte(0); CAPACITY],
            len: 0,
        }
    }

    // Adds items.
    /// # Contract
    ///
    /// ```text
    /// requires room { length self.old + length items.now ≤ 20 }
    /// ensures value { self.new ≡ self.old ++ items.now }
    /// ensures length { length self.new ≡ length self.old + length items.now }
    /// ```
    ///
    /// [docs/proofs/STATEMENT.md](crate::proved#contracts) explains the words.
    #[inline]
    pub(crate) fn push(&mut self, items: &[Item]) {
        let end = self.len + items.len();
        self.items[self.len..end].copy_from_slice(items);
        self.len = end;
    }

    /// The items.
    ///
    /// ```
    /// # use muxandu::proved::*;
    /// # fn main() -> Result<(), Box<dyn std::error::Error>> {
    /// use format_descriptions::Iso8601;
    /// assert_eq!(Iso8601::DEFAULT.description(false).items().len(), 16);
    /// # Ok(())
    /// # }
    /// ```
    ///
    /// # Contract
    ///
    /// ```text
    /// ensures items { result.now ≡ self.now }
    /// ensures at_most { length result.now ≤ 20 }
    /// ```
    ///
    /// [docs/proofs/STATEMENT.md](crate::proved#contracts) explains the words.
    #[inline]
    pub fn items(&self) -> &[Item] {
        &self.items[..self.len]
    }
}
