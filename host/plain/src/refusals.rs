//! Refusals by number, name, place and byte.

use std::fmt;

/// The refusal numbers, by name.
pub mod number {
    #![allow(missing_docs)] // the names are those of docs/RULES.md
    pub const BAD_AXES: u32 = 1;
    pub const BAD_MODE: u32 = 2;
    pub const BAD_JOB_LENGTH: u32 = 3;
    pub const WORK_SHORT: u32 = 4;
    pub const UNKNOWN_REGION: u32 = 6;
    pub const REGION_TWICE: u32 = 7;
    pub const UNFINISHED: u32 = 8;
    pub const SETS_FULL: u32 = 9;
    pub const SHAPES_FULL: u32 = 10;
    pub const IDS_SHORT: u32 = 11;
    pub const MAP_SHORT: u32 = 12;
    pub const LOG_SHORT: u32 = 13;
    pub const OUT_SHORT: u32 = 14;
    pub const BAD_STORE: u32 = 20;
    pub const NO_ROW: u32 = 21;
    pub const NO_REGION: u32 = 22;
    pub const UNKNOWN_KIND: u32 = 30;
    pub const NOT_ZERO: u32 = 31;
    pub const AXIS_OUT_OF_TURN: u32 = 32;
    pub const AXIS_TOO_LATE: u32 = 33;
    pub const REGION_UNFINISHED: u32 = 34;
    pub const REGIONS_EQUAL: u32 = 50;
    pub const REGIONS_OR_AXES: u32 = 51;
    pub const JOB_TOO_LONG: u32 = 52;
    pub const JOB_SHORT: u32 = 53;
    pub const STORE_TOO_BIG: u32 = 60;
    pub const ORIGINS_SHORT: u32 = 61;
    pub const NO_ID: u32 = 62;
    pub const OTHER_STORE: u32 = 63;
    pub const NO_SET: u32 = 64;
    pub const LONG_VALUE: u32 = 70;
    pub const BAD_REGION: u32 = 71;
    pub const WIDE_SUBTABLE: u32 = 72;
    pub const PLACES_SHORT: u32 = 73;
    pub const KEPT_SHORT: u32 = 74;
}

/// The name of a refusal number.
pub fn name(refusal: u32) -> &'static str {
    match refusal {
        number::BAD_AXES => "BAD_AXES",
        number::BAD_MODE => "BAD_MODE",
        number::BAD_JOB_LENGTH => "BAD_JOB_LENGTH",
        number::WORK_SHORT => "WORK_SHORT",
        number::UNKNOWN_REGION => "UNKNOWN_REGION",
        number::REGION_TWICE => "REGION_TWICE",
        number::UNFINISHED => "UNFINISHED",
        number::SETS_FULL => "SETS_FULL",
        number::SHAPES_FULL => "SHAPES_FULL",
        number::IDS_SHORT => "IDS_SHORT",
        number::MAP_SHORT => "MAP_SHORT",
        number::LOG_SHORT => "LOG_SHORT",
        number::OUT_SHORT => "OUT_SHORT",
        number::BAD_STORE => "BAD_STORE",
        number::NO_ROW => "NO_ROW",
        number::NO_REGION => "NO_REGION",
        number::UNKNOWN_KIND => "UNKNOWN_KIND",
        number::NOT_ZERO => "NOT_ZERO",
        number::AXIS_OUT_OF_TURN => "AXIS_OUT_OF_TURN",
        number::AXIS_TOO_LATE => "AXIS_TOO_LATE",
        number::REGION_UNFINISHED => "REGION_UNFINISHED",
        number::REGIONS_EQUAL => "REGIONS_EQUAL",
        number::REGIONS_OR_AXES => "REGIONS_OR_AXES",
        number::JOB_TOO_LONG => "JOB_TOO_LONG",
        number::JOB_SHORT => "JOB_SHORT",
        number::STORE_TOO_BIG => "STORE_TOO_BIG",
        number::ORIGINS_SHORT => "ORIGINS_SHORT",
        number::NO_ID => "NO_ID",
        number::OTHER_STORE => "OTHER_STORE",
        number::NO_SET => "NO_SET",
        number::LONG_VALUE => "LONG_VALUE",
        number::BAD_REGION => "BAD_REGION",
        number::WIDE_SUBTABLE => "WIDE_SUBTABLE",
        number::PLACES_SHORT => "PLACES_SHORT",
        number::KEPT_SHORT => "KEPT_SHORT",
        _ => "unknown",
    }
}

/// A refusal, its place and its byte.
///
/// T5 says which place, T6 which byte. All counts are 0 and nothing lent but work is
/// touched (L1).
#[derive(Clone, Copy, Debug, PartialEq, Eq)]
pub struct Refused {
    /// The refusal number.
    pub number: u32,
    /// Where.
    pub place: u64,
    /// The byte within the record.
    pub byte: u64,
}

impl Refused {
    /// A refusal that names byte 0.
    pub fn at(number: u32, place: usize) -> Refused {
        Refused {
            number,
            place: place as u64,
            byte: 0,
        }
    }
}

impl fmt::Display for Refused {
    fn fmt(&self, f: &mut fmt::Formatter<'_>) -> fmt::Result {
        let Refused {
            number,
            place,
            byte,
        } = self;
        write!(f, "{number} {} at {place}, byte {byte}", name(*number))
    }
}
