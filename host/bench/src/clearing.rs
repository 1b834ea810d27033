//! How much of a build is the clearing of its work and its pair records.
//!
//! Clearing may take most of a small build, so that the rest cannot be told by taking
//! one time from another. The library clears each by one call of `memset`, work over all
//! words or all but the last one (`fill` writes that apart), pairs over all of them; the
//! linker is told (../build.rs) to bring every such call of this program here, where the
//! clock is read if it is one of the two.

// It calls, and is called by, what is not Rust.
#![allow(unsafe_code)]

use std::cell::Cell;
use std::mem::size_of_val;
use std::time::Duration;

use ivs::Pair;

use crate::clock::cpu_time;

/// When something began and when it ended.
type Span = (Duration, Duration);

/// Where something lies, its bytes, and how many of them at its end may be written apart.
#[derive(Clone, Copy)]
struct Watched {
    at: usize,
    long: usize,
    apart: usize,
}

const NOTHING: Watched = Watched {
    at: 0,
    long: 0,
    apart: 0,
};

thread_local! {
    /// What is watched, work and pairs.
    static WATCHED: Cell<[Watched; 2]> = const { Cell::new([NOTHING; 2]) };
    /// When each was cleared.
    static CLEARED: Cell<[Option<Span>; 2]> = const { Cell::new([None; 2]) };
}

extern "C" {
    /// The C library's, by the linker.
    fn __real_memset(to: *mut u8, byte: i32, count: usize) -> *mut u8;
}

/// Every `memset` of this program, by the linker.
///
/// # Safety
/// As for `memset`: `count` bytes from `to` on can be written.
#[no_mangle]
unsafe extern "C" fn __wrap_memset(to: *mut u8, byte: i32, count: usize) -> *mut u8 {
    let all =
        |it: &Watched| it.at == to as usize && (count == it.long || count + it.apart == it.long);
    let Some(part) = WATCHED.get().iter().position(all) else {
        // SAFETY: the caller's promise is passed on.
        return unsafe { __real_memset(to, byte, count) };
    };
    let began = cpu_time();
    // SAFETY: as above.
    let done = unsafe { __real_memset(to, byte, count) };
    let mut cleared = CLEARED.get();
    cleared[part] = Some((began, cpu_time()));
    CLEARED.set(cleared);
    done
}

/// How long a call took, and what of it was not clearing.
#[derive(Clone, Copy)]
pub struct Split {
    /// All of it.
    pub whole: Duration,
    /// Up to the first clearing, and between the two.
    pub rest: Duration,
}

/// Times a call that clears `work` and `pairs`, and nothing after them.
///
/// # Panics
/// Where it does not clear them.
pub fn split(
    work: &mut [u32],
    pairs: &mut [Pair],
    call: impl FnOnce(&mut [u32], &mut [Pair]),
) -> Split {
    WATCHED.set([
        Watched {
            at: work.as_ptr() as usize,
            long: size_of_val(work),
            apart: work.last().map_or(0, size_of_val),
        },
        Watched {
            at: pairs.as_ptr() as usize,
            long: size_of_val(pairs),
            apart: 0,
        },
    ]);
    CLEARED.set([None; 2]);
    let began = cpu_time();
    call(work, pairs);
    let ended = cpu_time();
    WATCHED.set([NOTHING; 2]);
    let cleared = |part: usize| CLEARED.get()[part].expect("each is cleared by one memset");
    let (one, other) = (cleared(0), cleared(1));
    let (first, last) = if one < other {
        (one, other)
    } else {
        (other, one)
    };
    // Of which the clock's own time is no part.
    let between = (last.0 - first.1).saturating_sub(reading());
    Split {
        whole: ended - began,
        rest: first.0 - began + between,
    }
}

/// From one reading of the clock to the next, at the least.
fn reading() -> Duration {
    let once = |_| {
        let began = cpu_time();
        cpu_time() - began
    };
    (0..100).map(once).min().unwrap_or_default()
}
