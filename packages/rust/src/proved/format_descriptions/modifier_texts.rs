// Made by make/erase of crates/format_descriptions/src/modifier_texts.rt. Do not edit.
//! The modifiers of descriptions. The default of a modifier has no text.
use crate::proved::format_descriptions::{
    Case, NameForm, Padding, ReadCase, Sign, SubsecondDigits, UnixPrecision, WeekRule, WeekStart,
    WeekdayCount, YearBase, YearRange,
};

impl Padding {
    // The modifier `padding`.
    /// # Contract
    ///
    /// ```text
    /// ensures { result.now ≡ padding_modifier self }
    /// ```
    ///
    /// [docs/proofs/STATEMENT.md](crate::proved#contracts) explains the words.
    #[inline]
    pub(crate) const fn modifier(self) -> &'static [u8] {
        match self {
            Padding::Zero => b"",
            Padding::Space => b" padding:space",
            Padding::Bare => b" padding:none",
        }
    }
}

impl Sign {
    // The modifier `sign`.
    /// # Contract
    ///
    /// ```text
    /// ensures { result.now ≡ sign_modifier self }
    /// ```
    ///
    /// [docs/proofs/STATEMENT.md](crate::proved#contracts) explains the words.
    #[inline]
    pub(crate) const fn modifier(self) -> &'static [u8] {
        match self {
            Sign::Automatic => b"",
            Sign::Mandatory => b" sign:mandatory",
        }
    }
}

impl Case {
    // The modifier `case`.
    /// # Contract
    ///
    /// ```text
    /// ensures { result.now ≡ case_modifier self }
    /// ```
    ///
    /// [docs/proofs/STATEMENT.md](crate::proved#contracts) explains the words.
    #[inline]
    pub(crate) const fn modifier(self) -> &'static [u8] {
        match self {
            Case::Upper => b"",
            Case::Lower => b" case:lower",
        }
    }
}

impl ReadCase {
    // The modifier `case_sensitive`.
    /// # Contract
    ///
    /// ```text
    /// ensures { result.now ≡ read_case_modifier self }
    /// ```
    ///
    /// [docs/proofs/STATEMENT.md](crate::proved#contracts) explains the words.
    #[inline]
    pub(crate) const fn modifier(self) -> &'static [u8] {
        match self {
            ReadCase::Same => b"",
            ReadCase::Any => b" case_sensitive:false",
        }
    }
}

impl WeekdayCount {
    // The modifier `one_indexed`.
    /// # Contract
    ///
    /// ```text
    /// ensures { result.now ≡ count_modifier self }
    /// ```
    ///
    /// [docs/proofs/STATEMENT.md](crate::proved#contracts) explains the words.
    #[inline]
    pub(crate) const fn modifier(self) -> &'static [u8] {
        match self {
            WeekdayCount::FromOne => b"",
            WeekdayCount::FromZero => b" one_indexed:false",
        }
    }
}

impl YearBase {
    // The modifier `base`.
    /// # Contract
    ///
    /// ```text
    /// ensures { result.now ≡ base_modifier self }
    /// ```
    ///
    /// [docs/proofs/STATEMENT.md](crate::proved#contracts) explains the words.
    #[inline]
    pub(crate) const fn modifier(self) -> &'static [u8] {
        match self {
            YearBase::Calendar => b"",
            YearBase::IsoWeek => b" base:iso_week",
        }
    }
}

impl YearRange {
    // The modifier `range`.
    /// # Contract
    ///
    /// ```text
    /// ensures { result.now ≡ range_modifier self }
    /// ```
    ///
    /// [docs/proofs/STATEMENT.md](crate::proved#contracts) explains the words.
    #[inline]
    pub(crate) const fn modifier(self) -> &'static [u8] {
        match self {
            YearRange::Extended => b"",
            YearRange::Standard => b" range:standard",
        }
    }
}

impl SubsecondDigits {
    // The modifier `digits`.
    /// # Contract
    ///
    /// ```text
    /// ensures { result.now ≡ digits_modifier self }
    /// ```
    ///
    /// [docs/proofs/STATEMENT.md](crate::proved#contracts) explains the words.
    #[inline]
    pub(crate) const fn modifier(self) -> &'static [u8] {
        match self {
            SubsecondDigits::OneOrMore => b"",
            SubsecondDigits::One => b" digits:1",
            SubsecondDigits::Two => b" digits:2",
            SubsecondDigits::Three => b" digits:3",
            SubsecondDigits::Four => b" digits:4",
            SubsecondDigits::Five => b" digits:5",
            SubsecondDigits::Six => b" digits:6",
            SubsecondDigits::Seven => b" digits:7",
            SubsecondDigits::Eight => b" digits:8",
            SubsecondDigits::Nine => b" digits:9",
        }
    }
}

impl UnixPrecision {
    // The modifier `precision`.
    /// # Contract
    ///
    /// ```text
    /// ensures { result.now ≡ precision_modifier self }
    /// ```
    ///
    /// [docs/proofs/STATEMENT.md](crate::proved#contracts) explains the words.
    #[inline]
    pub(crate) const fn modifier(self) -> &'static [u8] {
        match self {
            UnixPrecision::Seconds => b"",
            UnixPrecision::Milliseconds => b" precision:millisecond",
            UnixPrecision::Microseconds => b" precision:microsecond",
            UnixPrecision::Nanoseconds => b" precision:nanosecond",
        }
    }
}

impl WeekStart {
    // The modifier `repr`.
    /// # Contract
    ///
    /// ```text
    /// ensures { result.now ≡ start_modifier self }
    /// ```
    ///
    /// [docs/proofs/STATEMENT.md](crate::proved#contracts) explains the words.
    #[inline]
    pub(crate) const fn modifier(self) -> &'static [u8] {
        match self {
            WeekStart::Sunday => b" repr:sunday",
            WeekStart::Monday => b" repr:monday",
        }
    }
}

impl WeekRule {
    // The modifier `repr`.
    /// # Contract
    ///
    /// ```text
    /// ensures { result.now ≡ rule_modifier self }
    /// ```
    ///
    /// [docs/proofs/STATEMENT.md](crate::proved#contracts) explains the words.
    #[inline]
    pub(crate) const fn modifier(self) -> &'static [u8] {
        match self {
            WeekRule::Iso => b"",
            WeekRule::Sunday => b" repr:sunday",
            WeekRule::Monday => b" repr:monday",
        }
    }
}

impl NameForm {
    // The modifier `repr` of the name of a month.
    /// # Contract
    ///
    /// ```text
    /// ensures { result.now ≡ month_modifier self }
    /// ```
    ///
    /// [docs/proofs/STATEMENT.md](crate::proved#contracts) explains the words.
    #[inline]
    pub(crate) const fn month_modifier(self) -> &'static [u8] {
        match self {
            NameForm::Long => b" repr:long",
            NameForm::Short => b" repr:short",
        }
    }

    // The modifier `repr` of the name of a day of the week.
    /// # Contract
    ///
    /// ```text
    /// ensures { result.now ≡ weekday_modifier self }
    /// ```
    ///
    /// [docs/proofs/STATEMENT.md](crate::proved#contracts) explains the words.
    #[inline]
    pub(crate) const fn weekday_modifier(self) -> &'static [u8] {
        match self {
            NameForm::Long => b"",
            NameForm::Short => b" repr:short",
        }
    }
}
