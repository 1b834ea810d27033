//! The library in two ways: linked, and by served/emulated.rs and served/served.c. Where an
//! archive for Arm was made of the same proofs (tools/staticlib), with Rattle's kit to link it
//! and Debian's emulator to run it, that one answers beside the linked one; else the linked one
//! answers twice. Every call goes both ways with the same memory, which held noise, and must
//! answer the same and leave the same in every byte that is lent.

#[path = "served/emulated.rs"]
mod emulated;

use ivs::{Lent, Pair, Profile};
use jobs::Rng;
use std::env;
use std::fs;
use std::path::{Path, PathBuf};
use std::process::Command;

/// What runs a program for Arm here: Debian's qemu-user.
const EMULATOR: &str = "qemu-aarch64";

/// What the archives were made of: both go by the same stamp.
fn stamp(archive: &str) -> Option<String> {
    let folder = Path::new(env!("CARGO_MANIFEST_DIR")).join("../../target/staticlib");
    let stamp = folder.join(archive).with_extension("a.stamp");
    fs::read_to_string(stamp).ok()
}

fn source() -> PathBuf {
    Path::new(env!("CARGO_MANIFEST_DIR")).join("tests/served/served.c")
}

/// The program for Arm, by the compiler and the linker of Rattle's kit; none where something is
/// lacking.
fn on_arm() -> Option<PathBuf> {
    let root = Path::new(env!("CARGO_MANIFEST_DIR")).join("../..");
    if env::var_os("IVS_LIB").is_some() || stamp("aarch64/libivs.a")? != stamp("libivs.a")? {
        return None;
    }
    Command::new(EMULATOR).arg("--version").output().ok()?;
    let page = Command::new("rt").arg("doc").output().ok()?.stdout;
    let page = PathBuf::from(String::from_utf8(page).ok()?.trim());
    let tools = page.parent()?.join("toolchain/bin");
    let program = Path::new(env!("CARGO_TARGET_TMPDIR")).join("ivs-served-arm");
    let object = program.with_extension("o");
    let compiled = Command::new(tools.join("clang"))
        .args(["--target=aarch64-unknown-linux-gnu", "-O2", "-Wall"])
        .args(["-ffreestanding", "-fno-builtin", "-fno-stack-protector"])
        .args(["-fno-pic", "-c", "-o"])
        .args([&object, &source()])
        .status();
    assert!(compiled.ok()?.success());
    let linked = Command::new(tools.join("ld.lld"))
        .args(["-static", "-o"])
        .args([&program, &object])
        .arg(root.join("target/staticlib/aarch64/libivs.a"))
        .status();
    assert!(linked.ok()?.success());
    Some(program)
}

/// The program with the archive that is linked here, too.
fn here() -> PathBuf {
    let program = Path::new(env!("CARGO_TARGET_TMPDIR")).join("ivs-served");
    let made = Command::new("cc")
        .args(["-O2", "-Wall", "-Werror", "-ffreestanding", "-fno-builtin"])
        .args(["-fno-stack-protector", "-fno-pic", "-no-pie"])
        .args(["-static", "-nostdlib", "-o"])
        .arg(&program)
        .arg(source())
        .arg(ivs::ARCHIVE)
        .output()
        .expect("cc can be run, as Rust links by it");
    let said = String::from_utf8_lossy(&made.stderr);
    assert!(made.status.success(), "{said}");
    program
}

/// Jobs with their axes: the examples, some at the limits, random ones, and of these some
/// damaged.
fn jobs() -> Vec<(u32, Vec<u8>)> {
    let examples = jobs::examples::all().into_iter().map(|e| e.job);
    let edges = [
        jobs::edges::shapes(300),
        jobs::edges::shapes(1_025),
        jobs::edges::merged(2_000),
        jobs::edges::behind(65_536),
    ];
    let random = (0..90).map(jobs::random::job);
    let all = examples
        .chain(edges)
        .chain(random)
        .chain((0..6).map(jobs::random::large));
    let sound: Vec<_> = all.map(|job| (job.axes as u32, job.to_bytes())).collect();
    let rng = &mut Rng::new(28);
    let damaged = |(axes, job): &(u32, Vec<u8>)| (*axes, jobs::damage::any(rng, job).1);
    let damaged: Vec<_> = sound.iter().step_by(3).map(damaged).collect();
    sound.into_iter().chain(damaged).collect()
}

/// All that a build is lent.
#[derive(Clone, Debug, PartialEq)]
struct Memory {
    work: Vec<u32>,
    pairs: Vec<Pair>,
    out: Vec<u8>,
    words: [Vec<u32>; 4],
    report: [u64; 16],
}

impl Memory {
    /// Noise, as much of it as the job asks for and some more; of anything one time in twenty
    /// one too few. Pairs are every second time zeros, which go the other way by a word.
    fn of(rng: &mut Rng, axes: u32, mode: u32, job: &[u8]) -> Memory {
        let done = ivs::forecast(axes, mode, job).unwrap_or_default();
        let mut room = |needed: u64| match rng.below(20) {
            0 => needed.saturating_sub(1) as usize,
            _ => needed as usize + rng.below(9),
        };
        let sizes = [
            job.len() as u64 / 12,
            done.distinct_ids,
            3 * done.shapes,
            2 * done.shapes,
        ];
        let sizes = sizes.map(&mut room);
        let regions = ivs::head_regions(axes, job);
        let work = room(ivs::work_words(job.len() / 12, regions) as u64);
        let (out, pairs) = (room(done.store_bytes), room(ivs::PAIRS as u64));
        let noise = rng.below(2) as u32 * 0xA5A5_A5A5;
        let mut words = |size| (0..size).map(|_| rng.bits() as u32).collect::<Vec<u32>>();
        Memory {
            work: words(work),
            words: sizes.map(&mut words),
            out: words(out).into_iter().map(|word| word as u8).collect(),
            pairs: vec![
                Pair {
                    gain: noise,
                    first: noise,
                    second: noise
                };
                pairs
            ],
            report: [7; 16],
        }
    }

    /// Noise for a call on a store: so many words of work, bytes and places, or one too few.
    fn for_store(rng: &mut Rng, sizes: [usize; 3]) -> Memory {
        let [work, out, places] = sizes.map(|size| (size + rng.below(6)).saturating_sub(1));
        Memory {
            work: vec![0xA5A5_A5A5; work],
            pairs: Vec::new(),
            out: vec![0xA5; out],
            words: [vec![], vec![0xA5A5_A5A5; places], vec![], vec![]],
            report: [7; 16],
        }
    }

    /// What a call answers that is lent all of it.
    fn lent(&mut self, call: impl Fn(&mut Lent<'_>, &mut [u64; 16]) -> u32) -> u32 {
        let [ids, map, log, origins] = &mut self.words;
        let mut lent = Lent {
            work: &mut self.work,
            pairs: &mut self.pairs,
            out: &mut self.out,
            ids,
            map,
            log,
            origins,
        };
        call(&mut lent, &mut self.report)
    }

    /// A call both ways, from this memory: the answer, which is one.
    fn both(
        &self,
        what: &str,
        linked: impl Fn(&mut Lent<'_>, &mut [u64; 16]) -> u32,
        served: impl Fn(&mut Lent<'_>, &mut [u64; 16]) -> u32,
    ) -> u32 {
        let (mut one, mut other) = (self.clone(), self.clone());
        let answers = (one.lent(linked), other.lent(served));
        assert_eq!(answers.0, answers.1, "{what}");
        assert!(one.report == other.report, "{what}: report");
        assert!(one.out == other.out, "{what}: out");
        for (i, name) in ["ids", "map", "log", "origins"].iter().enumerate() {
            assert!(one.words[i] == other.words[i], "{what}: {name}");
        }
        assert!(one.work == other.work, "{what}: work");
        assert!(one.pairs == other.pairs, "{what}: pairs");
        answers.0
    }
}

/// One test, since the program is named by a variable of the whole process.
#[test]
fn the_same_both_ways() {
    let program = match on_arm() {
        Some(program) => {
            env::set_var("IVS_EMULATOR", EMULATOR);
            program
        }
        None => {
            eprintln!("there is no archive for Arm, or nothing to run it with");
            here()
        }
    };
    env::set_var("IVS_SERVER", program);
    let rng = &mut Rng::new(28);
    let (mut done, mut refused, mut reasons) = (0, 0, 0);
    for (number, (axes, job)) in jobs().iter().enumerate() {
        let (axes, mode) = (*axes, rng.below(2) as u32);
        let (records, regions) = (job.len() / 12, ivs::head_regions(axes, job));
        assert_eq!(emulated::head_regions(axes, job), regions);
        let words = ivs::work_words(records, regions);
        assert_eq!(emulated::work_words(records, regions), words);
        let memory = Memory::of(rng, axes, mode, job);
        for profile in [Profile::Panel, Profile::Plain] {
            let answer = memory.both(
                &format!("job {number}, {profile:?}"),
                |lent, report| ivs::build_report_for(profile, axes, mode, job, lent, report),
                |lent, report| emulated::build(profile, axes, mode, job, lent, report),
            );
            done += usize::from(answer == 0);
            refused += usize::from(answer != 0);
        }
        memory.both(
            &format!("job {number}, forecast"),
            |lent, report| ivs::forecast_report(axes, mode, job, lent.work, lent.pairs, report),
            |lent, report| emulated::forecast(axes, mode, job, lent.work, lent.pairs, report),
        );
        let (first, second) = (rng.below(4) as u32, rng.below(4) as u32);
        memory.both(
            &format!("job {number}, part"),
            |lent, report| ivs::part_report(axes, job, first, second, lent.work, report),
            |lent, report| emulated::part(axes, job, first, second, lent.work, report),
        );
        if let Ok(packed) = ivs::pack(axes, mode, job) {
            tables(&packed);
        }
        reasons += questions(rng, number, axes, job);
    }
    assert!(done > 100 && refused > 50, "{done} {refused}");
    assert!(reasons > 30, "{reasons}");
    let done: usize = (0..80).map(|seed| whole(rng, seed)).sum();
    assert!(done > 100, "{done}");
}

/// Both questions to a job and its store, which one time in eight has a byte changed. How many
/// reasons there were.
fn questions(rng: &mut Rng, number: usize, axes: u32, job: &[u8]) -> usize {
    let mut store = ivs::pack(axes, 0, job).map_or(Vec::new(), |packed| packed.store);
    if !store.is_empty() && rng.one_in(8) {
        let at = rng.below(store.len());
        store[at] ^= 4;
    }
    let memory = Memory::of(rng, axes, 0, job);
    let (first, second) = (rng.below(4) as u32, rng.below(12) as u32);
    let why = memory.both(
        &format!("job {number}, why"),
        |lent, report| ivs::why_report(axes, job, &store, first, second, lent, report),
        |lent, report| emulated::why(axes, job, &store, first, second, lent, report),
    );
    let what = rng.below(3) as u32;
    memory.both(
        &format!("job {number}, show"),
        |lent, report| ivs::show_report(axes, job, &store, second, what, lent, report),
        |lent, report| emulated::show(axes, job, &store, second, what, lent, report),
    );
    usize::from(why == 0)
}

/// A store that others wrote, and once it is damaged: recovered, judged by what it was recovered
/// into, cut down to some of its rows. How many calls were done.
fn whole(rng: &mut Rng, seed: u64) -> usize {
    let store = jobs::stores::random(seed);
    let axes = store.axes as u32;
    let words = store
        .rows()
        .map(|(outer, inner, _)| (outer << 16 | inner) as u32);
    let words: Vec<u32> = words.collect();
    let job = ivs::recover(&store.bytes).unwrap().job;
    let (job, records) = (job.bytes(), job.bytes().len() / 12);
    let mut rows: Vec<u32> = words.clone();
    rng.shuffle(&mut rows);
    rows.truncate(rows.len() / 2);
    let mut done = 0;
    for bytes in [&store.bytes, &jobs::damage::store(rng, &store.bytes)] {
        let (long, regions) = (bytes.len(), ivs::head_regions(axes, job));
        let needed = [
            ivs::recover_words(long),
            ivs::judge_words(records, regions, long),
            ivs::keep_words(long, rows.len()),
        ];
        let other = [
            emulated::recover_words(long),
            emulated::judge_words(records, regions, long),
            emulated::keep_words(long, rows.len()),
        ];
        assert_eq!(needed, other);
        let recovered = Memory::for_store(rng, [needed[0], job.len(), 0]).both(
            &format!("store {seed}, recover"),
            |lent, report| ivs::recover_report(bytes, lent.work, lent.out, report),
            |lent, report| emulated::recover(bytes, lent.work, lent.out, report),
        );
        let judged = Memory::for_store(rng, [needed[1], 0, 0]).both(
            &format!("store {seed}, judge"),
            |lent, report| ivs::judge_report(axes, job, bytes, &words, lent.work, report),
            |lent, report| emulated::judge(axes, job, bytes, &words, lent.work, report),
        );
        let room = ivs::keep(bytes, &rows).map_or(0, |kept| kept.store.len());
        let kept = Memory::for_store(rng, [needed[2], room, rows.len()]).both(
            &format!("store {seed}, keep"),
            |lent, report| ivs::keep_report(bytes, &rows, lent.work, lent.out, lent.map, report),
            |lent, report| emulated::keep(bytes, &rows, lent.work, lent.out, lent.map, report),
        );
        done += [recovered, judged, kept]
            .iter()
            .filter(|answer| **answer == 0)
            .count();
    }
    done
}

/// The word that a reading stands for (include/ivs.h).
fn word(reading: Result<ivs::Reading, ivs::Refused>) -> u64 {
    match reading {
        Ok(ivs::Reading::Written(value)) => u64::from(value as u32),
        Ok(ivs::Reading::NoColumn) => 1 << 32,
        Err(refused) => u64::from(refused.number) << 32,
    }
}

/// Reading, the glyph map and the width table of a store.
fn tables(packed: &ivs::Packed) {
    let words = ivs::set_words(packed);
    let map = ivs::write_glyphs(&words).unwrap();
    let table = ivs::write_widths(&packed.store, &words).unwrap();
    let mut out = vec![0; map.len()];
    assert_eq!(emulated::write_glyphs(&words, &mut out), map.len() as u64);
    assert_eq!(out, map);
    let mut out = vec![0; table.len()];
    let bytes = emulated::write_widths(&packed.store, &words, &mut out);
    assert_eq!((bytes, &out), (table.len() as u64, &table));
    for glyph in 0..5 {
        let row = ivs::read_glyph(&map, glyph);
        let row = row.map_or_else(|r| u64::from(r.number) << 32, u64::from);
        assert_eq!(emulated::read_glyph(&map, glyph), row);
        for region in 0..3 {
            let read = emulated::read(&packed.store, 0, glyph, region);
            assert_eq!(read, word(ivs::read(&packed.store, 0, glyph, region)));
            let read = emulated::read_width(&table, glyph, region);
            assert_eq!(read, word(ivs::read_width(&table, glyph, region)));
        }
    }
}
