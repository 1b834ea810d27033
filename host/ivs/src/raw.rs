//! The calls of `libivs.a` (include/ivs.h), each with a safe face: the only file with
//! `unsafe`.
//!
//! The proved contracts ask for nothing, so no number and no content of a slice is tested
//! here. What the C boundary leaves open is what a pointer with a length may be, and of
//! that Rust's slices hold all: never null, aligned, as long as said, the lent ones apart.
//! Left is that both sides mean the same by `usize` and by a pair record, which is tested
//! when this is compiled.

#![allow(unsafe_code)]

use crate::{Lent, Pair, Profile};
use std::mem::size_of;

const _: () = assert!(usize::BITS == 64, "the library is for pointers of 64 bits");
const _: () = assert!(size_of::<Pair>() == 12, "a pair record is three words");

extern "C" {
    // crates/ivs/src/lib.rt; a slice is a pointer and a length.
    fn ivs_work_words(records: usize, regions: usize) -> usize;

    fn ivs_head_regions(axes: u32, job: *const u8, job_len: usize) -> usize;

    fn ivs_build(
        axes: u32,
        mode: u32,
        job: *const u8,
        job_len: usize,
        work: *mut u32,
        work_len: usize,
        pairs: *mut Pair,
        pairs_len: usize,
        out: *mut u8,
        out_len: usize,
        ids: *mut u32,
        ids_len: usize,
        map: *mut u32,
        map_len: usize,
        log: *mut u32,
        log_len: usize,
        origins: *mut u32,
        origins_len: usize,
        report: *mut u64,
    ) -> u32;

    fn ivs_build_panel(
        axes: u32,
        mode: u32,
        job: *const u8,
        job_len: usize,
        work: *mut u32,
        work_len: usize,
        pairs: *mut Pair,
        pairs_len: usize,
        out: *mut u8,
        out_len: usize,
        ids: *mut u32,
        ids_len: usize,
        map: *mut u32,
        map_len: usize,
        log: *mut u32,
        log_len: usize,
        origins: *mut u32,
        origins_len: usize,
        report: *mut u64,
    ) -> u32;

    fn ivs_forecast(
        axes: u32,
        mode: u32,
        job: *const u8,
        job_len: usize,
        work: *mut u32,
        work_len: usize,
        pairs: *mut Pair,
        pairs_len: usize,
        report: *mut u64,
    ) -> u32;

    fn ivs_part(
        axes: u32,
        job: *const u8,
        job_len: usize,
        first: u32,
        second: u32,
        work: *mut u32,
        work_len: usize,
        report: *mut u64,
    ) -> u32;

    fn ivs_why(
        axes: u32,
        job: *const u8,
        job_len: usize,
        store: *const u8,
        store_len: usize,
        first: u32,
        second: u32,
        work: *mut u32,
        work_len: usize,
        pairs: *mut Pair,
        pairs_len: usize,
        out: *mut u8,
        out_len: usize,
        ids: *mut u32,
        ids_len: usize,
        map: *mut u32,
        map_len: usize,
        log: *mut u32,
        log_len: usize,
        origins: *mut u32,
        origins_len: usize,
        report: *mut u64,
    ) -> u32;

    fn ivs_show(
        axes: u32,
        job: *const u8,
        job_len: usize,
        store: *const u8,
        store_len: usize,
        id: u32,
        what: u32,
        work: *mut u32,
        work_len: usize,
        pairs: *mut Pair,
        pairs_len: usize,
        out: *mut u8,
        out_len: usize,
        ids: *mut u32,
        ids_len: usize,
        map: *mut u32,
        map_len: usize,
        log: *mut u32,
        log_len: usize,
        origins: *mut u32,
        origins_len: usize,
        report: *mut u64,
    ) -> u32;

    fn ivs_read(store: *const u8, store_len: usize, outer: u32, inner: u32, region: u32) -> u64;

    fn ivs_write_glyphs(words: *const u32, words_len: usize, out: *mut u8, out_len: usize) -> u64;

    fn ivs_read_glyph(map: *const u8, map_len: usize, glyph: u32) -> u64;

    fn ivs_write_widths(
        store: *const u8,
        store_len: usize,
        words: *const u32,
        words_len: usize,
        out: *mut u8,
        out_len: usize,
    ) -> u64;

    fn ivs_read_width(table: *const u8, table_len: usize, glyph: u32, region: u32) -> u64;

    fn ivs_recover_words(bytes: usize) -> usize;

    fn ivs_recover(
        store: *const u8,
        store_len: usize,
        work: *mut u32,
        work_len: usize,
        out: *mut u8,
        out_len: usize,
        report: *mut u64,
    ) -> u32;

    fn ivs_judge_words(records: usize, regions: usize, bytes: usize) -> usize;

    fn ivs_judge(
        axes: u32,
        job: *const u8,
        job_len: usize,
        store: *const u8,
        store_len: usize,
        words: *const u32,
        words_len: usize,
        work: *mut u32,
        work_len: usize,
        report: *mut u64,
    ) -> u32;

    fn ivs_keep_words(bytes: usize, rows: usize) -> usize;

    fn ivs_keep(
        store: *const u8,
        store_len: usize,
        rows: *const u32,
        rows_len: usize,
        work: *mut u32,
        work_len: usize,
        out: *mut u8,
        out_len: usize,
        places: *mut u32,
        places_len: usize,
        report: *mut u64,
    ) -> u32;
}

pub fn work_words(records: usize, regions: usize) -> usize {
    // SAFETY: numbers go in and a number comes out; the contract asks for nothing.
    unsafe { ivs_work_words(records, regions) }
}

pub fn head_regions(axes: u32, job: &[u8]) -> usize {
    // SAFETY: the slice is only read.
    unsafe { ivs_head_regions(axes, job.as_ptr(), job.len()) }
}

type Build = unsafe extern "C" fn(
    u32,
    u32,
    *const u8,
    usize,
    *mut u32,
    usize,
    *mut Pair,
    usize,
    *mut u8,
    usize,
    *mut u32,
    usize,
    *mut u32,
    usize,
    *mut u32,
    usize,
    *mut u32,
    usize,
    *mut u64,
) -> u32;

pub fn build(
    profile: Profile,
    axes: u32,
    mode: u32,
    job: &[u8],
    lent: &mut Lent<'_>,
    report: &mut [u64; 16],
) -> u32 {
    let build: Build = match profile {
        Profile::Plain => ivs_build,
        Profile::Panel => ivs_build_panel,
    };
    // SAFETY: every pointer comes with the length of what it points to (16 for the
    // report), is never null and is aligned, also where the length is 0, as pointers of
    // slices are; the mutable ones overlap nothing, since they were borrowed so. The
    // contract asks for nothing else.
    unsafe {
        build(
            axes,
            mode,
            job.as_ptr(),
            job.len(),
            lent.work.as_mut_ptr(),
            lent.work.len(),
            lent.pairs.as_mut_ptr(),
            lent.pairs.len(),
            lent.out.as_mut_ptr(),
            lent.out.len(),
            lent.ids.as_mut_ptr(),
            lent.ids.len(),
            lent.map.as_mut_ptr(),
            lent.map.len(),
            lent.log.as_mut_ptr(),
            lent.log.len(),
            lent.origins.as_mut_ptr(),
            lent.origins.len(),
            report.as_mut_ptr(),
        )
    }
}

pub fn forecast(
    axes: u32,
    mode: u32,
    job: &[u8],
    work: &mut [u32],
    pairs: &mut [Pair],
    report: &mut [u64; 16],
) -> u32 {
    // SAFETY: as for `build`.
    unsafe {
        ivs_forecast(
            axes,
            mode,
            job.as_ptr(),
            job.len(),
            work.as_mut_ptr(),
            work.len(),
            pairs.as_mut_ptr(),
            pairs.len(),
            report.as_mut_ptr(),
        )
    }
}

pub fn part(
    axes: u32,
    job: &[u8],
    first: u32,
    second: u32,
    work: &mut [u32],
    report: &mut [u64; 16],
) -> u32 {
    // SAFETY: as for `build`.
    unsafe {
        ivs_part(
            axes,
            job.as_ptr(),
            job.len(),
            first,
            second,
            work.as_mut_ptr(),
            work.len(),
            report.as_mut_ptr(),
        )
    }
}

type Asked = unsafe extern "C" fn(
    u32,
    *const u8,
    usize,
    *const u8,
    usize,
    u32,
    u32,
    *mut u32,
    usize,
    *mut Pair,
    usize,
    *mut u8,
    usize,
    *mut u32,
    usize,
    *mut u32,
    usize,
    *mut u32,
    usize,
    *mut u32,
    usize,
    *mut u64,
) -> u32;

pub fn why(
    axes: u32,
    job: &[u8],
    store: &[u8],
    first: u32,
    second: u32,
    lent: &mut Lent<'_>,
    report: &mut [u64; 16],
) -> u32 {
    asked(ivs_why, axes, [job, store], [first, second], lent, report)
}

pub fn show(
    axes: u32,
    job: &[u8],
    store: &[u8],
    id: u32,
    what: u32,
    lent: &mut Lent<'_>,
    report: &mut [u64; 16],
) -> u32 {
    asked(ivs_show, axes, [job, store], [id, what], lent, report)
}

/// One of the two questions to a job and its store.
fn asked(
    call: Asked,
    axes: u32,
    [job, store]: [&[u8]; 2],
    numbers: [u32; 2],
    lent: &mut Lent<'_>,
    report: &mut [u64; 16],
) -> u32 {
    // SAFETY: as for `build`; job and store are only read, so that they may overlap.
    unsafe {
        call(
            axes,
            job.as_ptr(),
            job.len(),
            store.as_ptr(),
            store.len(),
            numbers[0],
            numbers[1],
            lent.work.as_mut_ptr(),
            lent.work.len(),
            lent.pairs.as_mut_ptr(),
            lent.pairs.len(),
            lent.out.as_mut_ptr(),
            lent.out.len(),
            lent.ids.as_mut_ptr(),
            lent.ids.len(),
            lent.map.as_mut_ptr(),
            lent.map.len(),
            lent.log.as_mut_ptr(),
            lent.log.len(),
            lent.origins.as_mut_ptr(),
            lent.origins.len(),
            report.as_mut_ptr(),
        )
    }
}

pub fn read(store: &[u8], outer: u32, inner: u32, region: u32) -> u64 {
    // SAFETY: as for `build`; nothing is written.
    unsafe { ivs_read(store.as_ptr(), store.len(), outer, inner, region) }
}

pub fn write_glyphs(words: &[u32], out: &mut [u8]) -> u64 {
    // SAFETY: as for `build`.
    unsafe { ivs_write_glyphs(words.as_ptr(), words.len(), out.as_mut_ptr(), out.len()) }
}

pub fn read_glyph(map: &[u8], glyph: u32) -> u64 {
    // SAFETY: as for `build`; nothing is written.
    unsafe { ivs_read_glyph(map.as_ptr(), map.len(), glyph) }
}

pub fn write_widths(store: &[u8], words: &[u32], out: &mut [u8]) -> u64 {
    // SAFETY: as for `build`.
    unsafe {
        ivs_write_widths(
            store.as_ptr(),
            store.len(),
            words.as_ptr(),
            words.len(),
            out.as_mut_ptr(),
            out.len(),
        )
    }
}

pub fn read_width(table: &[u8], glyph: u32, region: u32) -> u64 {
    // SAFETY: as for `build`; nothing is written.
    unsafe { ivs_read_width(table.as_ptr(), table.len(), glyph, region) }
}

pub fn recover_words(bytes: usize) -> usize {
    // SAFETY: as for `work_words`.
    unsafe { ivs_recover_words(bytes) }
}

pub fn recover(store: &[u8], work: &mut [u32], out: &mut [u8], report: &mut [u64; 16]) -> u32 {
    // SAFETY: as for `build`.
    unsafe {
        ivs_recover(
            store.as_ptr(),
            store.len(),
            work.as_mut_ptr(),
            work.len(),
            out.as_mut_ptr(),
            out.len(),
            report.as_mut_ptr(),
        )
    }
}

pub fn judge_words(records: usize, regions: usize, bytes: usize) -> usize {
    // SAFETY: as for `work_words`.
    unsafe { ivs_judge_words(records, regions, bytes) }
}

pub fn judge(
    axes: u32,
    job: &[u8],
    store: &[u8],
    words: &[u32],
    work: &mut [u32],
    report: &mut [u64; 16],
) -> u32 {
    // SAFETY: as for `build`.
    unsafe {
        ivs_judge(
            axes,
            job.as_ptr(),
            job.len(),
            store.as_ptr(),
            store.len(),
            words.as_ptr(),
            words.len(),
            work.as_mut_ptr(),
            work.len(),
            report.as_mut_ptr(),
        )
    }
}

pub fn keep_words(bytes: usize, rows: usize) -> usize {
    // SAFETY: as for `work_words`.
    unsafe { ivs_keep_words(bytes, rows) }
}

pub fn keep(
    store: &[u8],
    rows: &[u32],
    work: &mut [u32],
    out: &mut [u8],
    places: &mut [u32],
    report: &mut [u64; 16],
) -> u32 {
    // SAFETY: as for `build`.
    unsafe {
        ivs_keep(
            store.as_ptr(),
            store.len(),
            rows.as_ptr(),
            rows.len(),
            work.as_mut_ptr(),
            work.len(),
            out.as_mut_ptr(),
            out.len(),
            places.as_mut_ptr(),
            places.len(),
            report.as_mut_ptr(),
        )
    }
}
