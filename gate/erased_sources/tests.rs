//! What Rattle's tests have of its runtime, in Rust.

use crate::proved::memory::{Global, Vec};

pub type Fail = std::boxed::Box<dyn std::error::Error>;

#[allow(unused_macros)]
macro_rules! format {
    ($($part:tt)*) => {
        Ok::<std::string::String, crate::proved::erased_tests::Fail>(std::format!($($part)*))
    };
}

/// A list of what a slice has.
pub trait ToList<T> {
    fn to_list(&self, _: Global) -> Result<Vec<T>, Fail>;
}

impl<T: Clone> ToList<T> for [T] {
    fn to_list(&self, _: Global) -> Result<Vec<T>, Fail> {
        Ok(self.to_vec().into())
    }
}

/// Refusals that tests return: in Rattle each value that prints is an error.
macro_rules! errors {
    ($($Refusal:path)+) => {
        $(
            impl std::fmt::Display for $Refusal {
                fn fmt(&self, f: &mut std::fmt::Formatter<'_>) -> std::fmt::Result {
                    write!(f, "{self:?}")
                }
            }

            impl std::error::Error for $Refusal {}
        )+
    };
}

errors! {
    crate::proved::zone_files::FileRefusal
    crate::proved::zone_files::RuleRefusal
    crate::proved::zoned_times::LocalRefusal
}
