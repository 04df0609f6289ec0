//! Operators of two types, each by one expression, for every module that needs them.

/// `+`, `-`, `+=` and `-=` of a type and a length of time, by the sum and the difference.
macro_rules! sums {
    ($($(#[$doc:meta])* $Type:ty, $Duration:ty: $self:ident, $duration:ident => $sum:expr, $difference:expr;)+) => {
        $(
            $(#[$doc])*
            impl core::ops::Add<$Duration> for $Type {
                type Output = $Type;

                #[track_caller]
                #[inline]
                fn add($self, $duration: $Duration) -> $Type {
                    $sum
                }
            }

            $(#[$doc])*
            impl core::ops::Sub<$Duration> for $Type {
                type Output = $Type;

                #[track_caller]
                #[inline]
                fn sub($self, $duration: $Duration) -> $Type {
                    $difference
                }
            }

            impl core::ops::AddAssign<$Duration> for $Type {
                #[track_caller]
                #[inline]
                fn add_assign(&mut self, duration: $Duration) {
                    *self = *self + duration;
                }
            }

            impl core::ops::SubAssign<$Duration> for $Type {
                #[track_caller]
                #[inline]
                fn sub_assign(&mut self, duration: $Duration) {
                    *self = *self - duration;
                }
            }
        )+
    };
}

/// `==` and `<` of two types in both orders: whether a value of each are equal, and their order.
macro_rules! compared {
    ($($First:ty, $Second:ty: $first:ident, $second:ident => $equal:expr, $order:expr;)+) => {
        $(
            impl PartialEq<$Second> for $First {
                #[inline]
                fn eq(&self, other: &$Second) -> bool {
                    let ($first, $second) = (*self, *other);
                    $equal
                }
            }

            impl PartialEq<$First> for $Second {
                #[inline]
                fn eq(&self, other: &$First) -> bool {
                    other == self
                }
            }

            impl PartialOrd<$Second> for $First {
                #[inline]
                fn partial_cmp(&self, other: &$Second) -> Option<core::cmp::Ordering> {
                    let ($first, $second) = (*self, *other);
                    Some($order)
                }
            }

            impl PartialOrd<$First> for $Second {
                #[inline]
                fn partial_cmp(&self, other: &$First) -> Option<core::cmp::Ordering> {
                    other.partial_cmp(self).map(core::cmp::Ordering::reverse)
                }
            }
        )+
    };
}
