//! What is said of each refusal number.

/// The refusal's name in docs/RULES.md, what happened, what to do.
pub fn of(number: u32) -> (&'static str, &'static str, &'static str) {
    match number {
        1 => (
            "BAD_AXES",
            "the axis count is 0 or above 64",
            "give 1 to 64 axes",
        ),
        2 => (
            "BAD_MODE",
            "the mode is neither 0 nor 1",
            "give 0 (deduplicating) or 1 (implicit indices)",
        ),
        3 => (
            "BAD_JOB_LENGTH",
            "the job is no whole number of records of 12 bytes, or has more than 1,048,576",
            "look whether the job was cut off, or make it smaller",
        ),
        4 => (
            "WORK_SHORT",
            "the work or the pair records lent are too few",
            "lend as many words as work_words says, and 1,048,576 pair records",
        ),
        6 => (
            "UNKNOWN_REGION",
            "the value names a region that has no axis records",
            "add the region's axis records, or name another",
        ),
        7 => (
            "REGION_TWICE",
            "the value's region has the coordinates of an earlier one of its set",
            "keep one value for each region in a set, zeros counted",
        ),
        8 => (
            "UNFINISHED",
            "the job ends inside a set or a region",
            "add the end record or the axis records that are missing",
        ),
        9 => (
            "SETS_FULL",
            "mode 1 takes 65,535 sets, and this ends one more",
            "use mode 0, or fewer sets",
        ),
        10 => (
            "SHAPES_FULL",
            "the sets have more than 1,024 shapes",
            "use mode 1, or split the job",
        ),
        11 => (
            "IDS_SHORT",
            "the ids lent are too few",
            "lend a word for each set",
        ),
        12 => (
            "MAP_SHORT",
            "the map lent is too small",
            "lend a word for each different set (or each set)",
        ),
        13 => (
            "LOG_SHORT",
            "the log lent is too small",
            "lend 3 words for each shape but one (3,069 always do)",
        ),
        14 => (
            "OUT_SHORT",
            "the output lent is too small for the store",
            "lend more bytes",
        ),
        20 => (
            "BAD_STORE",
            "the bytes are no item variation store, or end too early",
            "look whether the store was cut off or damaged",
        ),
        21 => (
            "NO_ROW",
            "the store has no such row",
            "ask for an outer and inner number of the map",
        ),
        22 => (
            "NO_REGION",
            "the store's list has no such region",
            "ask for a region below the list's count",
        ),
        30 => (
            "UNKNOWN_KIND",
            "the record's kind, byte 0, is none of 1 (axis), 2 (value) and 3 (end)",
            "look whether bytes were lost or added before it",
        ),
        31 => ("NOT_ZERO", "a byte that must be 0 is not", "write 0 there"),
        32 => (
            "AXIS_OUT_OF_TURN",
            "the axis record does not have the region and axis that are due",
            "write all axes of region 0, all of region 1 and so on; is the axis count the job's?",
        ),
        33 => (
            "AXIS_TOO_LATE",
            "the axis record stands behind a value or an end",
            "write the axis records of all regions before the first set",
        ),
        34 => (
            "REGION_UNFINISHED",
            "the value or end stands where a region lacks axis records",
            "write every axis of a region; is the axis count the job's?",
        ),
        40 => (
            "TOO_MANY_GLYPHS",
            "there are more than 1,048,576 glyphs",
            "give a word for each of at most so many",
        ),
        41 => (
            "GLYPH_MAP_SHORT",
            "the output lent is too small for the glyph map or the width table",
            "lend more bytes (6 and 4 for each glyph always do; 20 and the store more)",
        ),
        42 => (
            "BAD_GLYPH_MAP",
            "the bytes are no glyph map, or an empty one, or end too early",
            "look whether the map was cut off or damaged",
        ),
        43 => (
            "BAD_WIDTHS",
            "the bytes are no width table, or its store or its map stands outside them",
            "look whether the table was cut off or damaged",
        ),
        50 => (
            "REGIONS_EQUAL",
            "the store lists a region twice",
            "a job cannot say which of the two a value is for: have the store written with each region once",
        ),
        51 => (
            "REGIONS_OR_AXES",
            "the store has no axis, or more axes or regions than a job may have",
            "there is no job of it",
        ),
        52 => (
            "JOB_TOO_LONG",
            "the store's rows have more values than a job has records for",
            "cut the store down to the rows that are used",
        ),
        53 => (
            "JOB_SHORT",
            "the output lent is too small for the job",
            "lend more bytes (12 for each of 1,048,576 records always do)",
        ),
        60 => (
            "STORE_TOO_BIG",
            "the store would have more than 4,294,967,295 bytes",
            "use mode 0, or split the sets over several stores",
        ),
        61 => (
            "ORIGINS_SHORT",
            "the origins lent are too few",
            "lend 2 words for each shape (2,048 always do)",
        ),
        62 => (
            "NO_ID",
            "the build of the job gives no such id",
            "ask for ids below the distinct ids of the build, counted from 0",
        ),
        63 => (
            "OTHER_STORE",
            "the store is not what a build of the job writes",
            "lend the store of this very job, built in mode 0",
        ),
        64 => (
            "NO_SET",
            "the job has no set of that number",
            "ask for two of its sets, counted from 0",
        ),
        70 => (
            "LONG_VALUE",
            "the panel's reader takes values of 16 bits, -32,768 to 32,767",
            "build without the profile, or make the value smaller",
        ),
        71 => (
            "BAD_REGION",
            "the panel's reader skips a region with such an axis",
            "keep start <= peak <= end within -1 to 1, and the peak at 0 where start is below 0 and end above",
        ),
        72 => (
            "WIDE_SUBTABLE",
            "a subtable would have more than 32 regions in use, which the panel's reader does not take",
            "use mode 0, split the sets, or build without the profile",
        ),
        73 => (
            "PLACES_SHORT",
            "the places lent are too few",
            "lend a word for each entry of the list",
        ),
        74 => (
            "KEPT_SHORT",
            "the output lent is too small for the store, or the store would be longer than 4,294,967,295 bytes",
            "lend more bytes, or keep fewer rows",
        ),
        _ => ("UNKNOWN", "the refusal is not known", "report it"),
    }
}
