//! A list of cases, bad ones among them, with what a build answers to each and leaves in
//! everything lent (vectors/built-cases.txt and built-answers.txt): given again by the
//! plain reading and by the proved build, line by line.
//!
//! A case is a line of hexadecimal bytes: axes, mode, the bytes of out (two of them), the
//! words of ids, map, log and origins, then the job. Blanks are passed over, and so is the rest of a
//! line from a '#' on. What is lent holds, before each case, 7777 in 4,096 words of work,
//! ee in the bytes of out and 9999 in the words of ids, map, log and origins. Of work an answer says
//! only whether it is zero or untouched; the pair records must be the same.

use crate::check::same;
use crate::pairs::Pairs;
use crate::proved::counts;
use crate::run::Run;
use ivs::Lent;
use jobs::hex;
use plain::{Counts, Sizes};
use std::fmt::Write;
use std::fs;
use std::path::Path;

const WORK: u32 = 7_777;
const BYTE: u8 = 0xEE;
const WORD: u32 = 9_999;

/// The most bytes of out, and the most words of ids, map, log and origins.
const MOST: [usize; 2] = [512, 64];

/// A case of the list.
struct Listed<'a> {
    /// What stands behind the '#'.
    name: &'a str,
    axes: u32,
    mode: u32,
    sizes: Sizes,
    job: Vec<u8>,
}

/// Replays the list of a folder.
pub fn all(folder: &Path) -> Result<Run, String> {
    let read = |name: &str| {
        let path = folder.join(name);
        fs::read_to_string(&path).map_err(|e| format!("{}: {e}", path.display()))
    };
    let (cases, answers) = (read("built-cases.txt")?, read("built-answers.txt")?);
    let cases: Vec<Listed<'_>> = cases.lines().filter_map(listed).collect();
    let answers: Vec<&str> = answers.split_terminator("\n\n").collect();
    same("cases and answers", &cases.len(), &answers.len())?;
    let mut run = Run::default();
    let mut pairs = Pairs::default();
    for (case, due) in cases.iter().zip(answers) {
        run.plain.count(lines(case, &plain(case), due));
        let said = proved(case, &mut pairs);
        run.proved
            .count(said.and_then(|said| lines(case, &said, due)));
    }
    Ok(run)
}

/// The case of a line; of fewer than eight bytes there is none.
fn listed(line: &str) -> Option<Listed<'_>> {
    let (digits, name) = line.split_once('#').unwrap_or((line, ""));
    let bytes = hex::to_bytes(digits)?;
    let [axes, mode, high, low, ids, map, log, origins, job @ ..] = &bytes[..] else {
        return None;
    };
    let [out, words] = MOST;
    let few = |count: u8| usize::from(count).min(words);
    Some(Listed {
        name: name.trim(),
        axes: u32::from(*axes),
        mode: u32::from(*mode),
        sizes: Sizes {
            work: 4_096,
            pairs: plain::PAIRS,
            out: usize::from(u16::from_be_bytes([*high, *low])).min(out),
            ids: few(*ids),
            map: few(*map),
            log: few(*log),
            origins: few(*origins),
        },
        job: job.to_vec(),
    })
}

/// The lines are those that are due.
fn lines(case: &Listed<'_>, said: &str, due: &str) -> Result<(), String> {
    let told = |what| format!("{}: {what}", case.name);
    for (said, due) in said.lines().zip(due.lines()) {
        same("a line", said, due).map_err(told)?;
    }
    same("lines", &said.lines().count(), &due.lines().count()).map_err(told)
}

/// The words that are lent beside work: of ids, map, log and origins.
fn words_of(sizes: &Sizes) -> [Vec<u32>; 4] {
    [sizes.ids, sizes.map, sizes.log, sizes.origins].map(|n| vec![WORD; n])
}

/// What the plain reading says of a case.
fn plain(case: &Listed<'_>) -> String {
    let sizes = &case.sizes;
    let mut out = vec![BYTE; sizes.out];
    let [mut ids, mut map, mut log, mut origins] = words_of(sizes);
    let (head, untouched) = match plain::build(case.axes, case.mode, &case.job, sizes) {
        Ok(done) => {
            out[..done.store.len()].copy_from_slice(&done.store);
            ids[..done.ids.len()].copy_from_slice(&done.ids);
            map[..done.map.len()].copy_from_slice(&done.map);
            log[..done.log.len()].copy_from_slice(&done.log);
            origins[..done.origins.len()].copy_from_slice(&done.origins);
            (done_line(&done.counts), false)
        }
        Err(refused) => (
            refused_line(refused.number, refused.place, refused.byte),
            refused.number <= plain::number::WORK_SHORT,
        ),
    };
    let work = if untouched { "untouched" } else { "zero" };
    shown(&head, &out, [&ids, &map, &log, &origins], work)
}

/// What the proved build answers and leaves.
fn proved(case: &Listed<'_>, pairs: &mut Pairs) -> Result<String, String> {
    let sizes = &case.sizes;
    let mut work = vec![WORK; sizes.work];
    let mut out = vec![BYTE; sizes.out];
    let [mut ids, mut map, mut log, mut origins] = words_of(sizes);
    pairs.ready(sizes.pairs)?;
    let mut lent = Lent {
        work: &mut work,
        pairs: pairs.lend(),
        out: &mut out,
        ids: &mut ids,
        map: &mut map,
        log: &mut log,
        origins: &mut origins,
    };
    let head = match ivs::build_into(case.axes, case.mode, &case.job, &mut lent) {
        Ok(done) => done_line(&counts(&done)),
        Err(refused) => refused_line(refused.number, refused.place, refused.byte),
    };
    let all = |word: u32| work.iter().all(|&other| other == word);
    let (zero, untouched) = (all(0), all(WORK));
    pairs
        .left(untouched)
        .map_err(|what| format!("{}: {what}", case.name))?;
    let work = match (zero, untouched) {
        (true, _) => "zero",
        (_, true) => "untouched",
        _ => "left",
    };
    Ok(shown(&head, &out, [&ids, &map, &log, &origins], work))
}

/// The first line of a done build.
fn done_line(c: &Counts) -> String {
    format!(
        "done bytes {} subtables {} regions {} ids {} groups {} merges {} weighed {} before {} \
         after {} forecast {}",
        c.store_bytes,
        c.subtables,
        c.regions_kept,
        c.distinct_ids,
        c.shapes,
        c.merges,
        c.pairs,
        c.size_before,
        c.size_after,
        c.forecast
    )
}

/// The first line of a refusal.
fn refused_line(number: u32, place: u64, byte: u64) -> String {
    format!("refused {number} at {place} byte {byte}")
}

/// An answer as the list has it: its first line, then what was lent.
fn shown(head: &str, out: &[u8], words: [&[u32]; 4], work: &str) -> String {
    let mut text = format!("{head}\nout ");
    for byte in out {
        let _ = write!(text, "{byte:02x}");
    }
    for (name, words) in ["ids", "map", "log", "origins"].iter().zip(words) {
        let _ = write!(text, "\n{name}");
        for word in words {
            let _ = write!(text, " {word}");
        }
    }
    let _ = write!(text, "\nwork {work}");
    text
}
