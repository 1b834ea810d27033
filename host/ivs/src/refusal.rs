//! The refusals by their names: [`Refusal`], and the bare numbers in [`numbers`].

use crate::{wording, Refused};
use std::fmt;

/// One line a refusal: its number, its name in Rust, its name in docs/RULES.md.
macro_rules! refusals {
    ($($number:literal $variant:ident $name:ident)*) => {
        /// Why a call is refused: number, name, what happened, what to do. docs/RULES.md says
        /// exactly when each is given.
        ///
        /// ```
        /// use ivs::Refusal;
        ///
        /// let refused = ivs::pack(0, 0, &[]).unwrap_err();
        /// assert_eq!(refused.refusal(), Some(Refusal::BadAxes));
        /// assert_eq!(Refusal::BadAxes.to_string(), "1 BAD_AXES");
        /// assert_eq!(Refusal::BadAxes.remedy(), "give 1 to 64 axes");
        /// ```
        #[derive(Clone, Copy, Debug, PartialEq, Eq, Hash, PartialOrd, Ord)]
        #[non_exhaustive]
        pub enum Refusal {
            $(
                #[doc = concat!(stringify!($number), " ", stringify!($name))]
                $variant = $number,
            )*
        }

        impl Refusal {
            /// Every refusal, by rising numbers.
            ///
            /// ```
            /// assert_eq!(ivs::Refusal::ALL[0], ivs::Refusal::BadAxes);
            /// ```
            pub const ALL: &'static [Refusal] = &[$(Refusal::$variant),*];
        }

        /// The numbers of the refusals, as the library answers them.
        ///
        /// ```
        /// let refused = ivs::read(&[], 0, 0, 0).unwrap_err();
        /// assert_eq!(refused.number, ivs::numbers::BAD_STORE);
        /// ```
        pub mod numbers {
            $(
                #[doc = concat!("[`Refusal::", stringify!($variant), "`](crate::Refusal::", stringify!($variant), ").")]
                pub const $name: u32 = $number;
            )*
        }
    };
}

refusals! {
    1 BadAxes BAD_AXES
    2 BadMode BAD_MODE
    3 BadJobLength BAD_JOB_LENGTH
    4 WorkShort WORK_SHORT
    6 UnknownRegion UNKNOWN_REGION
    7 RegionTwice REGION_TWICE
    8 Unfinished UNFINISHED
    9 SetsFull SETS_FULL
    10 ShapesFull SHAPES_FULL
    11 IdsShort IDS_SHORT
    12 MapShort MAP_SHORT
    13 LogShort LOG_SHORT
    14 OutShort OUT_SHORT
    20 BadStore BAD_STORE
    21 NoRow NO_ROW
    22 NoRegion NO_REGION
    30 UnknownKind UNKNOWN_KIND
    31 NotZero NOT_ZERO
    32 AxisOutOfTurn AXIS_OUT_OF_TURN
    33 AxisTooLate AXIS_TOO_LATE
    34 RegionUnfinished REGION_UNFINISHED
    40 TooManyGlyphs TOO_MANY_GLYPHS
    41 GlyphMapShort GLYPH_MAP_SHORT
    42 BadGlyphMap BAD_GLYPH_MAP
    43 BadWidths BAD_WIDTHS
    50 RegionsEqual REGIONS_EQUAL
    51 RegionsOrAxes REGIONS_OR_AXES
    52 JobTooLong JOB_TOO_LONG
    53 JobShort JOB_SHORT
    60 StoreTooBig STORE_TOO_BIG
    61 OriginsShort ORIGINS_SHORT
    62 NoId NO_ID
    63 OtherStore OTHER_STORE
    64 NoSet NO_SET
    70 LongValue LONG_VALUE
    71 BadRegion BAD_REGION
    72 WideSubtable WIDE_SUBTABLE
    73 PlacesShort PLACES_SHORT
    74 KeptShort KEPT_SHORT
}

impl Refusal {
    /// The refusal of a number; none of a number that is not given.
    ///
    /// ```
    /// assert_eq!(ivs::Refusal::of(20), Some(ivs::Refusal::BadStore));
    /// assert_eq!(ivs::Refusal::of(5), None);
    /// ```
    pub fn of(number: u32) -> Option<Refusal> {
        Refusal::ALL
            .iter()
            .copied()
            .find(|refusal| refusal.number() == number)
    }

    /// Its number, as the library answers it.
    ///
    /// ```
    /// assert_eq!(ivs::Refusal::NoRow.number(), 21);
    /// ```
    pub fn number(self) -> u32 {
        self as u32
    }

    /// Its name in docs/RULES.md.
    ///
    /// ```
    /// assert_eq!(ivs::Refusal::NoRow.name(), "NO_ROW");
    /// ```
    pub fn name(self) -> &'static str {
        wording::of(self.number()).0
    }

    /// What happened.
    ///
    /// ```
    /// assert_eq!(ivs::Refusal::NoRow.what(), "the store has no such row");
    /// ```
    pub fn what(self) -> &'static str {
        wording::of(self.number()).1
    }

    /// What to do.
    ///
    /// ```
    /// assert_eq!(ivs::Refusal::NotZero.remedy(), "write 0 there");
    /// ```
    pub fn remedy(self) -> &'static str {
        wording::of(self.number()).2
    }
}

impl fmt::Display for Refusal {
    fn fmt(&self, f: &mut fmt::Formatter<'_>) -> fmt::Result {
        write!(f, "{} {}", self.number(), self.name())
    }
}

impl Refused {
    /// Which refusal it is, to be matched by name; none of a number that this crate does not
    /// know.
    ///
    /// ```
    /// let refused = ivs::pack(1, 0, &[0; 12]).unwrap_err();
    /// match refused.refusal() {
    ///     Some(ivs::Refusal::UnknownKind) => assert_eq!(refused.place, 0),
    ///     other => panic!("{other:?}"),
    /// }
    /// ```
    pub fn refusal(&self) -> Option<Refusal> {
        Refusal::of(self.number)
    }
}

#[cfg(test)]
mod tests {
    use super::*;

    /// `BadAxes` of `BAD_AXES`.
    fn camel(name: &str) -> String {
        let part = |part: &str| part[..1].to_string() + &part[1..].to_lowercase();
        name.split('_').map(part).collect()
    }

    /// What has words has a line above, and the other way round.
    #[test]
    fn every_number_that_has_words() {
        for number in 0..=1_000 {
            let words = Some(wording::of(number).0).filter(|name| *name != "UNKNOWN");
            let refusal = Refusal::of(number);
            assert_eq!(refusal.map(Refusal::name), words, "{number}");
            let variant = refusal.map(|refusal| format!("{refusal:?}"));
            assert_eq!(variant, words.map(camel), "{number}");
        }
        assert!(Refusal::ALL.windows(2).all(|two| two[0] < two[1]));
    }
}
