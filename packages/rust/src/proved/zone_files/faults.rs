// Made by make/erase of crates/zone_files/src/faults.rt. Do not edit.
//! Why a text is no rule, and where.
/// The kind of fault in a text that is no rule.
#[derive(Clone, Copy, Debug, PartialEq, Eq)]
pub enum RuleFault {
    /// The text has no name here: three letters or more, or between `<` and `>` three letters,
    /// digits and signs or more.
    Name,
    /// The text has no digit here, but a number must follow: also at its end.
    Digit,
    /// The number has too few digits or too many, or is out of range.
    Range,
    /// The text has another byte here than the one that must follow, or more bytes than a rule.
    Byte,
}

/// The error of a text that is no rule.
#[derive(Clone, Copy, Debug, PartialEq, Eq)]
pub struct RuleRefusal {
    /// The kind of fault.
    pub fault: RuleFault,
    /// The index of the byte where the part at fault begins.
    pub place: usize,
}

// A fault, and how many bytes of the text are left where it is.
#[derive(Clone, Copy)]
pub(crate) struct Stop {
    pub(crate) fault: RuleFault,
    pub(crate) left: usize,
}

// A fault at the beginning of what is left of the text.
/// # Contract
///
/// ```text
/// ensures { result ≡ stop_at fault text.now }
/// ```
///
/// [docs/proofs/STATEMENT.md](crate::proved#contracts) explains the words.
#[inline]
pub(crate) const fn stop_at(fault: RuleFault, text: &[u8]) -> Stop {
    Stop {
        fault,
        left: text.len(),
    }
}
