//! As src/raw.rs, through a pipe to served.c, which has an archive that is not linked here and
//! may run under an emulator. The program is named by IVS_SERVER, and what runs it, if anything,
//! by IVS_EMULATOR.
//!
//! Pair records are 12 MiB for every build, and mostly zeros before and after it: zeros are
//! told by a word and not sent.

use crate::{Lent, Pair, Profile};
use std::env;
use std::io::{BufReader, BufWriter, Read, Write};
use std::process::{Child, ChildStdin, ChildStdout, Command, Stdio};
use std::sync::{Mutex, OnceLock};

/// What is asked.
const WORK_WORDS: u64 = 0;
const BUILD: u64 = 1;
const READ: u64 = 2;
const WRITE_GLYPHS: u64 = 3;
const READ_GLYPH: u64 = 4;
const FORECAST: u64 = 5;
const PART: u64 = 6;
const BUILD_PANEL: u64 = 7;
const WHY: u64 = 8;
const SHOW: u64 = 9;
const WRITE_WIDTHS: u64 = 20;
const READ_WIDTH: u64 = 21;
const HEAD_REGIONS: u64 = 29;
const RECOVER_WORDS: u64 = 30;
const RECOVER: u64 = 31;
const JUDGE_WORDS: u64 = 32;
const JUDGE: u64 = 33;
const KEEP_WORDS: u64 = 34;
const KEEP: u64 = 35;

/// Those that have a report.
const REPORTS: [u64; 9] = [
    BUILD,
    BUILD_PANEL,
    FORECAST,
    PART,
    WHY,
    SHOW,
    RECOVER,
    JUDGE,
    KEEP,
];

/// The program that answers. It leaves when its standard input ends, with this process, so
/// nobody waits for it.
struct Server {
    to: BufWriter<ChildStdin>,
    from: BufReader<ChildStdout>,
    _child: Child,
}

pub fn work_words(records: usize, regions: usize) -> usize {
    ask_alone([WORK_WORDS, records as u64, regions as u64, 0], &[]) as usize
}

pub fn head_regions(axes: u32, job: &[u8]) -> usize {
    ask_alone([HEAD_REGIONS, axes.into(), 0, 0], job) as usize
}

pub fn build(
    profile: Profile,
    axes: u32,
    mode: u32,
    job: &[u8],
    lent: &mut Lent<'_>,
    report: &mut [u64; 16],
) -> u32 {
    let what = match profile {
        Profile::Plain => BUILD,
        Profile::Panel => BUILD_PANEL,
    };
    ask([what, axes.into(), mode.into(), 0], job, lent, report) as u32
}

pub fn forecast(
    axes: u32,
    mode: u32,
    job: &[u8],
    work: &mut [u32],
    pairs: &mut [Pair],
    report: &mut [u64; 16],
) -> u32 {
    let lent = &mut lending(work, pairs, &mut []);
    ask([FORECAST, axes.into(), mode.into(), 0], job, lent, report) as u32
}

pub fn part(
    axes: u32,
    job: &[u8],
    first: u32,
    second: u32,
    work: &mut [u32],
    report: &mut [u64; 16],
) -> u32 {
    let lent = &mut lending(work, &mut [], &mut []);
    let what = [PART, axes.into(), first.into(), second.into()];
    ask(what, job, lent, report) as u32
}

pub fn why(
    axes: u32,
    job: &[u8],
    store: &[u8],
    first: u32,
    second: u32,
    lent: &mut Lent<'_>,
    report: &mut [u64; 16],
) -> u32 {
    ask_both(WHY, axes, [job, store], [first, second], lent, report)
}

pub fn show(
    axes: u32,
    job: &[u8],
    store: &[u8],
    id: u32,
    what: u32,
    lent: &mut Lent<'_>,
    report: &mut [u64; 16],
) -> u32 {
    ask_both(SHOW, axes, [job, store], [id, what], lent, report)
}

/// The store goes behind the job, whose length is told, and the two numbers go as one.
fn ask_both(
    what: u64,
    axes: u32,
    both: [&[u8]; 2],
    numbers: [u32; 2],
    lent: &mut Lent<'_>,
    report: &mut [u64; 16],
) -> u32 {
    let numbers = u64::from(numbers[1]) << 32 | u64::from(numbers[0]);
    let asked = [what, axes.into(), numbers, both[0].len() as u64];
    ask(asked, &both.concat(), lent, report) as u32
}

pub fn read(store: &[u8], outer: u32, inner: u32, region: u32) -> u64 {
    ask_alone([READ, outer.into(), inner.into(), region.into()], store)
}

/// The words go as work, the map as the output.
pub fn write_glyphs(words: &[u32], out: &mut [u8]) -> u64 {
    ask_lent([WRITE_GLYPHS, 0, 0, 0], &[], &mut words.to_vec(), out)
}

pub fn read_glyph(map: &[u8], glyph: u32) -> u64 {
    ask_alone([READ_GLYPH, glyph.into(), 0, 0], map)
}

/// The words go as work, the table as the output.
pub fn write_widths(store: &[u8], words: &[u32], out: &mut [u8]) -> u64 {
    ask_lent([WRITE_WIDTHS, 0, 0, 0], store, &mut words.to_vec(), out)
}

pub fn read_width(table: &[u8], glyph: u32, region: u32) -> u64 {
    ask_alone([READ_WIDTH, glyph.into(), region.into(), 0], table)
}

pub fn recover_words(bytes: usize) -> usize {
    ask_alone([RECOVER_WORDS, bytes as u64, 0, 0], &[]) as usize
}

pub fn recover(store: &[u8], work: &mut [u32], out: &mut [u8], report: &mut [u64; 16]) -> u32 {
    let lent = &mut lending(work, &mut [], out);
    ask([RECOVER, 0, 0, 0], store, lent, report) as u32
}

pub fn judge_words(records: usize, regions: usize, bytes: usize) -> usize {
    let asked = [JUDGE_WORDS, records as u64, regions as u64, bytes as u64];
    ask_alone(asked, &[]) as usize
}

/// The store goes as the output, the words as ids.
pub fn judge(
    axes: u32,
    job: &[u8],
    store: &[u8],
    words: &[u32],
    work: &mut [u32],
    report: &mut [u64; 16],
) -> u32 {
    let (mut store, mut words) = (store.to_vec(), words.to_vec());
    let mut lent = lending(work, &mut [], &mut store);
    lent.ids = &mut words;
    ask([JUDGE, axes.into(), 0, 0], job, &mut lent, report) as u32
}

pub fn keep_words(bytes: usize, rows: usize) -> usize {
    ask_alone([KEEP_WORDS, bytes as u64, rows as u64, 0], &[]) as usize
}

/// The rows go as ids, the places as the map.
pub fn keep(
    store: &[u8],
    rows: &[u32],
    work: &mut [u32],
    out: &mut [u8],
    places: &mut [u32],
    report: &mut [u64; 16],
) -> u32 {
    let mut rows = rows.to_vec();
    let mut lent = lending(work, &mut [], out);
    (lent.ids, lent.map) = (&mut rows, places);
    ask([KEEP, 0, 0, 0], store, &mut lent, report) as u32
}

/// Asks with nothing lent.
fn ask_alone(what: [u64; 4], bytes: &[u8]) -> u64 {
    ask_lent(what, bytes, &mut [], &mut [])
}

/// Asks with words and an output lent.
fn ask_lent(what: [u64; 4], bytes: &[u8], work: &mut [u32], out: &mut [u8]) -> u64 {
    ask(what, bytes, &mut lending(work, &mut [], out), &mut [0; 16])
}

/// Work, pairs and an output, and nothing else lent.
fn lending<'a>(work: &'a mut [u32], pairs: &'a mut [Pair], out: &'a mut [u8]) -> Lent<'a> {
    Lent {
        work,
        pairs,
        out,
        ids: &mut [],
        map: &mut [],
        log: &mut [],
        origins: &mut [],
    }
}

/// One question and its answer.
fn ask(what: [u64; 4], job: &[u8], lent: &mut Lent<'_>, report: &mut [u64; 16]) -> u64 {
    static SERVER: OnceLock<Mutex<Server>> = OnceLock::new();
    let server = SERVER.get_or_init(|| Mutex::new(Server::start()));
    let mut server = server.lock().expect("no call has failed before");
    server
        .ask(what, job, lent, report)
        .expect("the library's program answers")
}

impl Server {
    fn start() -> Server {
        let server = env::var_os("IVS_SERVER").expect("the test names the program");
        let mut command = match env::var_os("IVS_EMULATOR") {
            None => Command::new(server),
            Some(emulator) => {
                let mut command = Command::new(emulator);
                command.arg(server);
                command
            }
        };
        let mut child = command
            .stdin(Stdio::piped())
            .stdout(Stdio::piped())
            .spawn()
            .unwrap_or_else(|error| panic!("cannot run {command:?}: {error}"));
        let pipes = child.stdin.take().zip(child.stdout.take());
        let (to, from) = pipes.expect("both were asked for");
        Server {
            to: BufWriter::with_capacity(1 << 16, to),
            from: BufReader::with_capacity(1 << 16, from),
            _child: child,
        }
    }

    fn ask(
        &mut self,
        what: [u64; 4],
        job: &[u8],
        lent: &mut Lent<'_>,
        report: &mut [u64; 16],
    ) -> std::io::Result<u64> {
        let lengths = [
            job.len(),
            lent.work.len(),
            lent.pairs.len(),
            lent.out.len(),
            lent.ids.len(),
            lent.map.len(),
            lent.log.len(),
            lent.origins.len(),
        ];
        let held = lent.pairs.iter().any(|pair| *pair != Pair::default());
        let head = what.into_iter().chain(lengths.map(|length| length as u64));
        for word in head.chain([held.into()]) {
            self.to.write_all(&word.to_le_bytes())?;
        }
        self.to.write_all(job)?;
        self.give_words(lent.work)?;
        if held {
            self.give_pairs(lent.pairs)?;
        }
        self.to.write_all(lent.out)?;
        self.give_words(lent.ids)?;
        self.give_words(lent.map)?;
        self.give_words(lent.log)?;
        self.give_words(lent.origins)?;
        for word in report.iter() {
            self.to.write_all(&word.to_le_bytes())?;
        }
        self.to.flush()?;
        let answer = self.take_word()?;
        if [WRITE_GLYPHS, WRITE_WIDTHS].contains(&what[0]) {
            self.from.read_exact(lent.out)?;
        }
        if REPORTS.contains(&what[0]) {
            self.take_words(lent.work)?;
            match self.take_word()? {
                0 if held => lent.pairs.fill(Pair::default()),
                0 => {}
                _ => self.take_pairs(lent.pairs)?,
            }
            self.from.read_exact(lent.out)?;
            self.take_words(lent.ids)?;
            self.take_words(lent.map)?;
            self.take_words(lent.log)?;
            self.take_words(lent.origins)?;
            for word in report {
                *word = self.take_word()?;
            }
        }
        Ok(answer)
    }

    fn give_words(&mut self, words: &[u32]) -> std::io::Result<()> {
        let bytes: Vec<u8> = words.iter().flat_map(|word| word.to_le_bytes()).collect();
        self.to.write_all(&bytes)
    }

    fn take_words(&mut self, words: &mut [u32]) -> std::io::Result<()> {
        let mut bytes = vec![0; 4 * words.len()];
        self.from.read_exact(&mut bytes)?;
        for (word, bytes) in words.iter_mut().zip(bytes.chunks_exact(4)) {
            *word = u32::from_le_bytes([bytes[0], bytes[1], bytes[2], bytes[3]]);
        }
        Ok(())
    }

    fn give_pairs(&mut self, pairs: &[Pair]) -> std::io::Result<()> {
        let words = |pair: &Pair| [pair.gain, pair.first, pair.second];
        let words: Vec<u32> = pairs.iter().flat_map(words).collect();
        self.give_words(&words)
    }

    fn take_pairs(&mut self, pairs: &mut [Pair]) -> std::io::Result<()> {
        let mut words = vec![0; 3 * pairs.len()];
        self.take_words(&mut words)?;
        for (pair, words) in pairs.iter_mut().zip(words.chunks_exact(3)) {
            [pair.gain, pair.first, pair.second] = [words[0], words[1], words[2]];
        }
        Ok(())
    }

    fn take_word(&mut self) -> std::io::Result<u64> {
        let mut bytes = [0; 8];
        self.from.read_exact(&mut bytes)?;
        Ok(u64::from_le_bytes(bytes))
    }
}
