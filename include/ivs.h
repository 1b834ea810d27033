/* Fenikezo: item variation stores. Link with libivs.a (`make install`), which is for x86-64; `make dist` has one for Arm, too.
 * docs/RULES.md has the rules, by labels (J1, R6), which are given below.
 *
 * A slice passes as a pointer and a length. A pointer must not be null, also where the length is 0, and must be aligned
 * for its type; nothing lent may overlap anything else that is lent.
 *
 * Threads: every function may be called from any number of threads at once. The library has no memory of its own and
 * asks for none; it touches only what the call is lent. What a call may write to (what is lent without const) must not
 * be lent to another call, nor be read or written by anybody, until the call is back; what is only read may be lent to
 * many calls at once. */
#ifndef IVS_H
#define IVS_H

#include <stddef.h>
#include <stdint.h>

#ifdef __cplusplus
extern "C" {
#endif

/* The version of the header; the library's is the same. */
#define IVS_VERSION "0.1.0"

/* Every refusal: EACH(number, name). */
#define IVS_REFUSALS(EACH) \
    EACH(1, BAD_AXES) \
    EACH(2, BAD_MODE) \
    EACH(3, BAD_JOB_LENGTH) \
    EACH(4, WORK_SHORT) \
    EACH(6, UNKNOWN_REGION) \
    EACH(7, REGION_TWICE) \
    EACH(8, UNFINISHED) \
    EACH(9, SETS_FULL) \
    EACH(10, SHAPES_FULL) \
    EACH(11, IDS_SHORT) \
    EACH(12, MAP_SHORT) \
    EACH(13, LOG_SHORT) \
    EACH(14, OUT_SHORT) \
    EACH(20, BAD_STORE) \
    EACH(21, NO_ROW) \
    EACH(22, NO_REGION) \
    EACH(30, UNKNOWN_KIND) \
    EACH(31, NOT_ZERO) \
    EACH(32, AXIS_OUT_OF_TURN) \
    EACH(33, AXIS_TOO_LATE) \
    EACH(34, REGION_UNFINISHED) \
    EACH(40, TOO_MANY_GLYPHS) \
    EACH(41, GLYPH_MAP_SHORT) \
    EACH(42, BAD_GLYPH_MAP) \
    EACH(43, BAD_WIDTHS) \
    EACH(50, REGIONS_EQUAL) \
    EACH(51, REGIONS_OR_AXES) \
    EACH(52, JOB_TOO_LONG) \
    EACH(53, JOB_SHORT) \
    EACH(60, STORE_TOO_BIG) \
    EACH(61, ORIGINS_SHORT) \
    EACH(62, NO_ID) \
    EACH(63, OTHER_STORE) \
    EACH(64, NO_SET) \
    EACH(70, LONG_VALUE) \
    EACH(71, BAD_REGION) \
    EACH(72, WIDE_SUBTABLE) \
    EACH(73, PLACES_SHORT) \
    EACH(74, KEPT_SHORT)

/* The numbers by their names: IVS_DONE is 0, IVS_BAD_AXES is 1 and so on. Functions answer plain numbers. */
enum ivs_refusal {
#define IVS_EACH(number, name) IVS_##name = number,
    IVS_REFUSALS(IVS_EACH)
#undef IVS_EACH
    IVS_DONE = 0
};

/* The name of a number, as "BAD_AXES"; "DONE" of 0, and "UNKNOWN" of a number that is no refusal. */
static inline const char *ivs_name(uint32_t number) {
    switch (number) {
#define IVS_EACH(number, name) \
    case number: \
        return #name;
        IVS_REFUSALS(IVS_EACH)
#undef IVS_EACH
    case IVS_DONE:
        return "DONE";
    default:
        return "UNKNOWN";
    }
}

/* The modes of a build. */
enum ivs_mode {
    IVS_DEDUPLICATING = 0, /* equal sets share a row */
    IVS_IMPLICIT = 1       /* a row for each set, in its order, in one subtable */
};

/* The 32-bit words of work that a job of r records needs, with g regions at its head (J7):
 * 16 r + min(r, 1,024) x (g + 16 + 3 w), where w is g / 32 rounded up; 0 above the record limit (1,048,576), and no
 * more for more regions than there may be. */
size_t ivs_work_words(size_t records, size_t regions);

/* The regions at a job's head: the records of kind 1 that it begins with over the axis count, rounded up, at most as
 * many as there may be; 0 for no axes. */
size_t ivs_head_regions(uint32_t axes, const uint8_t *job, size_t job_len);

/* A record for a pair of groups that waits to be merged: room that is lent, with nothing in it for who lends it. */
typedef struct {
    uint32_t gain, first, second;
} ivs_pair;

/* The pair records that a build needs, whatever its job is. */
#define IVS_PAIRS 1048576

/* One build: a job (records of 12 bytes, J1) into a store. The mode is 0 deduplicating or 1 implicit indices. The
 * answer is the refusal number, 0 for done; R1 to R61 say when each is given, T1 to T6 which one (1 BAD_AXES,
 * 2 BAD_MODE, 3 BAD_JOB_LENGTH, 4 WORK_SHORT, 6 UNKNOWN_REGION, 7 REGION_TWICE, 8 UNFINISHED, 9 SETS_FULL,
 * 10 SHAPES_FULL, 11 IDS_SHORT, 12 MAP_SHORT, 13 LOG_SHORT, 14 OUT_SHORT; of a record's form 30 UNKNOWN_KIND,
 * 31 NOT_ZERO, 32 AXIS_OUT_OF_TURN, 33 AXIS_TOO_LATE, 34 REGION_UNFINISHED; just behind 13, 61 ORIGINS_SHORT, then
 * 60 STORE_TOO_BIG: the store would have more than 4,294,967,295 bytes, which mode 0 never makes).
 *
 * Lent: work, as many words as ivs_work_words says of the job; pairs, at least IVS_PAIRS records; out, for the store's bytes; ids,
 * a word for each set, its id; map, a word for each distinct id, outer x 65,536 + inner; log, 3 words for each shape
 * but one, of which each merge fills 3: first number, second number, gain; origins, 2 words for each shape: its number
 * and the place of the final group that it went into, from 0, before groups are cut into subtables (F6; mode 1 has no
 * log and no origins). What they hold before does not matter. What is not written is left as it was, and a refusal
 * writes nothing to out, ids, map, log and origins. Refusals 1 to 4 leave work and pairs as they were; every other
 * answer leaves zeros in all of them (L1 to L4). Too few words of work and too few pairs are both WORK_SHORT.
 *
 * The report has 16 words, and all are written (H2, A1): 0 the number, 1 the place (which record, from 0 on, for 6, 7,
 * 9 and 30 to 34; how many records for 8; 0 for all others), 2 store bytes, 3 subtables, 4 regions kept, 5 distinct
 * ids, 6 N (shapes before merging), 7 merges, 8 pairs weighed, 9 modelled size before merging, 10 after, 11 forecast,
 * which is the store's bytes, 12 the byte within the record (for 31 the first that should be 0 and is not; 0 for all
 * others), 13 to 15 zero. A refusal has zeros in 2 to 11. */
uint32_t ivs_build(uint32_t axes, uint32_t mode, const uint8_t *job, size_t job_len, uint32_t *work, size_t work_len, ivs_pair *pairs,
                   size_t pairs_len, uint8_t *out, size_t out_len, uint32_t *ids, size_t ids_len, uint32_t *map, size_t map_len,
                   uint32_t *log, size_t log_len, uint32_t *origins, size_t origins_len, uint64_t *report);

/* The same for the instrument makers' reader, which knows no 32-bit rows and skips odd regions: a build as ivs_build's,
 * or refused. After the checks above of a record, 70 LONG_VALUE (a value that 16 bits do not hold) and 71 BAD_REGION (an
 * axis record whose start, peak and end are not in order and within -1.0 to 1.0, or whose peak is not 0 where start is
 * below 0 and end above) at that record; after 10, 72 WIDE_SUBTABLE (a subtable of more than 32 columns) at place 0. */
uint32_t ivs_build_panel(uint32_t axes, uint32_t mode, const uint8_t *job, size_t job_len, uint32_t *work, size_t work_len,
                         ivs_pair *pairs, size_t pairs_len, uint8_t *out, size_t out_len, uint32_t *ids, size_t ids_len,
                         uint32_t *map, size_t map_len, uint32_t *log, size_t log_len, uint32_t *origins,
                         size_t origins_len, uint64_t *report);

/* What ivs_build would say of a job, with nothing lent to write to (A4, H5): how many bytes the store takes, and how
 * much to lend for it. Answer and report are those of a build that is lent enough of all else: refusals 1 to 4, 6 to 10,
 * 30 to 34 and 60, or the ten counts. A build then needs report[2] bytes of out, a word of ids for each set (each end
 * record), report[5] words of map, 3 words of log for each shape but one (report[6]) and 2 words of origins for each.
 * Work and pairs are lent as for a build, and left as by it. */
uint32_t ivs_forecast(uint32_t axes, uint32_t mode, const uint8_t *job, size_t job_len, uint32_t *work, size_t work_len,
                      ivs_pair *pairs, size_t pairs_len, uint64_t *report);

/* Where two sets of a job part (Q1 to Q5, H6); sets go by their numbers in the job, from 0. The answer is the refusal
 * number, 0 where they were compared: 1, 3, 4 (words of work alone), 6 to 8 and 30 to 34 as in a build, then 64 NO_SET.
 * Work is lent as for a build, and left as by it.
 *
 * The report has 16 words, and all are written: 0 the number, 1 the place and 12 the byte as for a build; 2 how the
 * first set stands to the second (0 equal, 1 smaller, 2 larger), and where they are not equal: 3 the index of the first
 * region where they differ, 4 the number in the job of the region that first used that index, 5 and 6 the values of the
 * first and of the second set there, as two's complement of 64 bits. All other words are zero. */
uint32_t ivs_part(uint32_t axes, const uint8_t *job, size_t job_len, uint32_t first, uint32_t second, uint32_t *work,
                  size_t work_len, uint64_t *report);

/* Why two ids of a job are where they are (Z1 to Z4, Z8): the job is built anew in mode 0, in all that is lent for it,
 * which is left as ivs_build leaves it. The answer is the refusal number, 0 where there is a reason: ivs_build's own in
 * mode 0; then 62 NO_ID, if either id is not below the number of distinct ids; then 63 OTHER_STORE, if the store that is
 * lent is not, in length and every byte, what the build writes.
 *
 * The report has 16 words, and all are written: 0 the number, 1 the place and 12 the byte as for a build; 2 the reason:
 * 1 same subtable, 2 cut apart at 65,535 rows, 3 groups never joined; and for 3: 3 and 4 what the first and the second
 * id's final group cost, 5 what they would cost as one, 6 the gain, which is 0 or less, as two's complement of 64 bits.
 * All other words are zero. */
uint32_t ivs_why(uint32_t axes, const uint8_t *job, size_t job_len, const uint8_t *store, size_t store_len, uint32_t first,
                 uint32_t second, uint32_t *work, size_t work_len, ivs_pair *pairs, size_t pairs_len, uint8_t *out,
                 size_t out_len, uint32_t *ids, size_t ids_len, uint32_t *map, size_t map_len, uint32_t *log,
                 size_t log_len, uint32_t *origins, size_t origins_len, uint64_t *report);

/* The bytes that show an id (Z5 to Z8): where `what` is 0 the end record in the job that first gave it, else its row
 * in the store. All else is as for ivs_why. The report's words 2 and 3 are where the part starts in the one that was
 * asked for, and how long it is; an empty part, also a row of no bytes, is 0 and 0. */
uint32_t ivs_show(uint32_t axes, const uint8_t *job, size_t job_len, const uint8_t *store, size_t store_len, uint32_t id,
                  uint32_t what, uint32_t *work, size_t work_len, ivs_pair *pairs, size_t pairs_len, uint8_t *out,
                  size_t out_len, uint32_t *ids, size_t ids_len, uint32_t *map, size_t map_len, uint32_t *log,
                  size_t log_len, uint32_t *origins, size_t origins_len, uint64_t *report);

/* The value of a region of the store's list in row `inner` of subtable `outer` (V1 to V8, H3). High half: 0 written, 1
 * no column (which means zero), else the refusal number (20 BAD_STORE, 21 NO_ROW, 22 NO_REGION); low half: the value's
 * 32 bits, 0 unless written. Any bytes may be read. */
uint64_t ivs_read(const uint8_t *store, size_t store_len, uint32_t outer, uint32_t inner, uint32_t region);

/* A glyph map (OpenType's DeltaSetIndexMap; G1 to G5, H4) of a word for each glyph, outer x 65,536 + inner, at most
 * 1,048,576 of them, into out. The inner bits and the bytes of an entry are the fewest that hold every word; trailing
 * repeats are left out. High half: 0 written, else the refusal number (40 TOO_MANY_GLYPHS, 41 GLYPH_MAP_SHORT); low
 * half: the bytes written, 0 unless written. 6 + 4 x words_len bytes always do. What is not written is left as it was,
 * and a refusal writes nothing. No words: the empty map, 4 bytes of zero. */
uint64_t ivs_write_glyphs(const uint32_t *words, size_t words_len, uint8_t *out, size_t out_len);

/* The word of a glyph; one past the end of the map has the last entry's (G6, G7, H4). High half: 0 read, else the
 * refusal number (42 BAD_GLYPH_MAP: a format above 1, a reserved bit, a map that is empty or runs past the end, or an
 * outer number above 65,535); low half: the word, 0 unless read. Any bytes may be read. */
uint64_t ivs_read_glyph(const uint8_t *map, size_t map_len, uint32_t glyph);

/* A width table (OpenType's HVAR; X1 to X5, X10) of a store, which goes in as it is, and a word for each glyph, outer x
 * 65,536 + inner, into out. No words: no map, and row n of subtable 0 is glyph n's, which is what mode 1 is for. High
 * half: 0 written, else the refusal number (40 TOO_MANY_GLYPHS, then 41 GLYPH_MAP_SHORT, also where the table is longer
 * than 4,294,967,295 bytes); low half: the bytes written, 0 unless written. 26 + store_len + 4 x words_len bytes always
 * do. What is not written is left as it was, and a refusal writes nothing. */
uint64_t ivs_write_widths(const uint8_t *store, size_t store_len, const uint32_t *words, size_t words_len, uint8_t *out,
                          size_t out_len);

/* The value of a region of the store's list in a glyph's row (X6, X7, X10); a glyph past the end of the map has the last
 * entry's row. The answer is as ivs_read's, with two refusals more, which come first: 43 BAD_WIDTHS (fewer than 20 bytes,
 * a major version other than 1, an offset of the store or of the map that is below 20 or not below the length; a map's
 * may be 0), then 42 BAD_GLYPH_MAP. Any bytes may be read. */
uint64_t ivs_read_width(const uint8_t *table, size_t table_len, uint32_t glyph, uint32_t region);

/* The 32-bit words of work that ivs_recover needs for a store of so many bytes (O2). */
size_t ivs_recover_words(size_t bytes);

/* A store read back into a job (O1 to O5, H8): its regions in the order of its list, then a set for each row, subtable
 * by subtable, which names the region of each value that is not zero. Any bytes may be read. The answer is the refusal
 * number, 0 for done: 4 WORK_SHORT, 20 BAD_STORE (also where only a subtable that nobody asks for is malformed),
 * 50 REGIONS_EQUAL (the list has a region twice), 51 REGIONS_OR_AXES (more regions or axes than a job may have, or no
 * axis), 52 JOB_TOO_LONG (more records than a job may have), 53 JOB_SHORT (the job does not fit in out).
 *
 * Lent: work, as many words as ivs_recover_words says; out, for the job's bytes. A refusal writes nothing to out, and
 * what stands behind the job is left as it was. WORK_SHORT leaves work as it was; every other answer leaves zeros in
 * all of it.
 *
 * The report has 16 words, and all are written: 0 the number, 1 the place, which is 0, 2 job bytes, 3 axes, 4 regions,
 * 5 sets; all other words, and after a refusal all but word 0, are zero. */
uint32_t ivs_recover(const uint8_t *store, size_t store_len, uint32_t *work, size_t work_len, uint8_t *out,
                     size_t out_len, uint64_t *report);

/* The 32-bit words of work that ivs_judge needs for a job of so many records and head regions and a store of so many
 * bytes (Y2); 0 above the record limit. */
size_t ivs_judge_words(size_t records, size_t regions, size_t bytes);

/* Whether a store, whoever built it, gives every set of a job (Y1 to Y6, H9): word n of words is the row of set n,
 * outer x 65,536 + inner. The store may order regions, subtables and rows as it likes, keep ones that nobody uses and
 * leave room between its parts. The answer is the refusal number, 0 where the store was judged: 1, 3, 4 (words of work
 * alone), 6 to 8 and 30 to 34 as in a build. Work is lent as ivs_judge_words says, and left as by a build.
 *
 * The report has 16 words, and all are written: 0 the number, 1 the place and 12 the byte as for a build; 2 the
 * verdict: 1 yes, 2 no by a set, 3 no by the store itself (malformed, of another axis count, or with a region twice);
 * for 2, 3 is the first set that fails. A set without a word fails; words past the sets are not looked at. All other
 * words are zero. */
uint32_t ivs_judge(uint32_t axes, const uint8_t *job, size_t job_len, const uint8_t *store, size_t store_len,
                   const uint32_t *words, size_t words_len, uint32_t *work, size_t work_len, uint64_t *report);

/* The 32-bit words of work that ivs_keep needs for a store of so many bytes and a list of so many rows (K2); 0 for more
 * than any memory holds. */
size_t ivs_keep_words(size_t bytes, size_t rows);

/* A store with only the rows of a list, outer x 65,536 + inner each, repeats allowed (K1 to K6, H10), and for each
 * entry of the list its row's new place, in the same form. Rows and subtables keep their order, columns and word counts
 * stay; a subtable without rows goes, and so does a region that no subtable names. The answer is the refusal number,
 * 0 for done: 4 WORK_SHORT, 20 BAD_STORE (also where only a subtable that the list does not name is malformed),
 * 21 NO_ROW (an entry names no row), 73 PLACES_SHORT (fewer words of places than entries), 74 KEPT_SHORT (the new store
 * does not fit in out, or is longer than 4,294,967,295 bytes).
 *
 * Lent: work, as many words as ivs_keep_words says; out, for the store's bytes; places, a word for each entry. A
 * refusal writes nothing to out and places, and what stands behind is left as it was. WORK_SHORT leaves work as it was;
 * every other answer leaves zeros in all of it.
 *
 * The report has 16 words, and all are written: 0 the number, 1 the place, which is 0, 2 store bytes, 3 subtables,
 * 4 regions kept, 5 rows kept; all other words, and after a refusal all but word 0, are zero. */
uint32_t ivs_keep(const uint8_t *store, size_t store_len, const uint32_t *rows, size_t rows_len, uint32_t *work,
                  size_t work_len, uint8_t *out, size_t out_len, uint32_t *places, size_t places_len, uint64_t *report);

#ifdef __cplusplus
}
#endif

#endif
