//! `fenikezo batch`: all jobs of a folder, on all processors; who is refused keeps nobody back.

use crate::arguments::Mode;
use crate::failure::Failure;
use crate::files;
use crate::input::Input;
use crate::json::{object, Json};
use crate::places;
use crate::show_job::count;
use crate::words::MODES;
use clap::Args;
use indicatif::{ProgressBar, ProgressStyle};
use ivs::Packed;
use std::collections::HashSet;
use std::fs;
use std::io::{self, IsTerminal};
use std::path::{Path, PathBuf};
use std::sync::atomic::{AtomicUsize, Ordering};
use std::sync::mpsc;
use std::thread;

const BATCH: &str = "\
Jobs are the files whose names end with .txt (texts) and .job. Exit status: 0 all done, 2 some
refused, 1 something else went wrong with some. Whatever it is, the others are done.";

/// Builds all jobs of a folder, and tells of each what became of it
#[derive(Args)]
#[command(after_help = BATCH)]
pub struct Batch {
    /// The folder
    pub folder: PathBuf,
    /// The folder to write the stores to, as NAME.store; else none is written
    #[arg(short = 'o', long = "out", value_name = "FOLDER")]
    pub out: Option<PathBuf>,
    /// The axis count of jobs that are no texts; else the one that a job looks like
    #[arg(long, value_name = "N")]
    pub axes: Option<u32>,
    /// The mode of all builds; else the smaller store is taken, dedup where they are alike
    #[arg(long, value_enum)]
    pub mode: Option<Mode>,
    /// How many are built at once; else as many as there are processors
    #[arg(long, value_name = "N")]
    pub jobs: Option<usize>,
    /// Print JSON
    #[arg(long)]
    pub json: bool,
}

/// What became of a job: the mode and the bytes of its store.
type Became = Result<(usize, usize), Failure>;

pub fn run(arguments: &Batch) -> Result<(), Failure> {
    let jobs = found(arguments)?;
    if let Some(out) = &arguments.out {
        fs::create_dir_all(out).map_err(|error| files::cannot_write(out, &error))?;
    }
    let bar = bar(jobs.len());
    let mut all: Vec<Became> = Vec::new();
    let mut unprinted = Ok(());
    each(arguments, &jobs, |number, became| {
        bar.inc(1);
        if unprinted.is_ok() && !arguments.json {
            unprinted = bar.suspend(|| files::print(&line(&jobs[number], &became)));
        }
        all.push(became);
    });
    bar.finish_and_clear();
    unprinted?;
    files::print(&if arguments.json {
        format!("{}\n", json(arguments, &jobs, &all))
    } else {
        summary(&all)
    })?;
    match tally(&all) {
        [_, 0, 0] => Ok(()),
        [_, _, failed] => Err(Failure::Some {
            refused: failed == 0,
        }),
    }
}

/// The jobs of the folder, by name. None may be written over, nor two stores be one.
fn found(arguments: &Batch) -> Result<Vec<PathBuf>, Failure> {
    let folder = &arguments.folder;
    let cannot =
        |error: io::Error| Failure::Other(format!("cannot read {}: {error}", folder.display()));
    let entries = fs::read_dir(folder).map_err(cannot)?;
    let is_job = |path: &PathBuf| {
        let ends = path
            .extension()
            .is_some_and(|end| end == "txt" || end == "job");
        ends && fs::metadata(path).is_ok_and(|file| file.is_file())
    };
    let paths: Result<Vec<PathBuf>, _> = entries.map(|entry| Ok(entry?.path())).collect();
    let mut jobs: Vec<PathBuf> = paths.map_err(cannot)?.into_iter().filter(is_job).collect();
    jobs.sort();
    let mut stems = HashSet::new();
    for job in &jobs {
        let _ = fs::metadata(job).map(|file| places::remember(job, &file));
        if !stems.insert(job.file_stem()) && arguments.out.is_some() {
            let name = store(Path::new(""), job);
            let words = format!(
                "two jobs of {} would be {}",
                folder.display(),
                name.display()
            );
            return Err(Failure::Other(words));
        }
    }
    Ok(jobs)
}

fn store(out: &Path, job: &Path) -> PathBuf {
    let mut name = job.file_stem().unwrap_or_default().to_os_string();
    name.push(".store");
    out.join(name)
}

/// A bar on a terminal, and nothing elsewhere.
fn bar(jobs: usize) -> ProgressBar {
    if !io::stderr().is_terminal() {
        return ProgressBar::hidden();
    }
    let bar = ProgressBar::new(jobs as u64);
    match ProgressStyle::with_template("{wide_bar} {pos} of {len}") {
        Ok(style) => bar.with_style(style),
        Err(_) => bar,
    }
}

/// Builds all jobs, some at once, and hands on what became of each, in their order.
fn each(arguments: &Batch, jobs: &[PathBuf], mut told: impl FnMut(usize, Became)) {
    let many = thread::available_parallelism().map_or(1, usize::from);
    let many = arguments.jobs.unwrap_or(many).clamp(1, jobs.len().max(1));
    let next = AtomicUsize::new(0);
    let (sender, receiver) = mpsc::channel();
    thread::scope(|scope| {
        for _ in 0..many {
            let (sender, next) = (sender.clone(), &next);
            scope.spawn(move || loop {
                let number = next.fetch_add(1, Ordering::Relaxed);
                let Some(job) = jobs.get(number) else {
                    break;
                };
                // The other end hears all.
                let _ = sender.send((number, built(arguments, job)));
            });
        }
        drop(sender);
        let mut waiting: Vec<Option<Became>> = jobs.iter().map(|_| None).collect();
        let mut due = 0;
        for (number, became) in receiver {
            waiting[number] = Some(became);
            while let Some(became) = waiting.get_mut(due).and_then(Option::take) {
                told(due, became);
                due += 1;
            }
        }
    });
}

fn built(arguments: &Batch, job: &Path) -> Became {
    let bytes = files::read(job)?;
    let is_text = job.extension().is_some_and(|end| end == "txt");
    let guess = || ivs::written_for(&bytes).map(|axes| axes as u32);
    let axes = if is_text {
        None
    } else {
        arguments.axes.or_else(guess)
    };
    let input = Input::of(job, bytes, axes)?;
    let (mode, packed) = packed(arguments.mode, &input)?;
    if let Some(out) = &arguments.out {
        files::write(&[(&store(out, job), packed.store.clone())])?;
    }
    Ok((mode, packed.store.len()))
}

/// The job packed in the mode that is asked for, or is smaller.
fn packed(mode: Option<Mode>, input: &Input) -> Result<(usize, Packed), Failure> {
    let pack = |mode: u32| ivs::pack(input.axes, mode, &input.job);
    if let Some(mode) = mode {
        let packed = pack(mode as u32).map_err(|refused| input.refused(refused))?;
        return Ok((mode as usize, packed));
    }
    match (pack(0), pack(1)) {
        (Ok(dedup), Ok(implicit)) if implicit.store.len() < dedup.store.len() => Ok((1, implicit)),
        (Ok(dedup), _) => Ok((0, dedup)),
        (Err(_), Ok(implicit)) => Ok((1, implicit)),
        (Err(refused), Err(_)) => Err(input.refused(refused)),
    }
}

fn line(job: &Path, became: &Became) -> String {
    match became {
        Ok((mode, bytes)) => format!("{}: {bytes} bytes, {}\n", job.display(), MODES[*mode]),
        Err(failure) => {
            let words = failure.to_string();
            let lines = words
                .lines()
                .map(|line| line.trim_start_matches("fenikezo: "));
            lines.map(|line| format!("{line}\n")).collect()
        }
    }
}

/// How many were done, refused, and neither.
fn tally(all: &[Became]) -> [usize; 3] {
    let mut tally = [0; 3];
    for became in all {
        tally[match became {
            Ok(_) => 0,
            Err(Failure::Refused(..) | Failure::Both(..)) => 1,
            Err(_) => 2,
        }] += 1;
    }
    tally
}

fn summary(all: &[Became]) -> String {
    let [done, refused, failed] = tally(all);
    let jobs = count(all.len(), "job", "jobs");
    format!("{jobs}: {done} done, {refused} refused, {failed} wrong\n")
}

fn json(arguments: &Batch, jobs: &[PathBuf], all: &[Became]) -> Json {
    let file = |job: &Path| ("file", job.display().to_string().into());
    let one = |(job, became): (&PathBuf, &Became)| match became {
        Ok((mode, bytes)) => {
            let store = arguments
                .out
                .as_ref()
                .map(|out| store(out, job).display().to_string());
            object([
                file(job),
                ("mode", MODES[*mode].into()),
                ("bytes", (*bytes).into()),
                ("store", store.into()),
            ])
        }
        Err(failure @ Failure::Other(_)) => {
            object([file(job)]).and(failure.json().unwrap_or(Json::Null))
        }
        Err(failure) => failure.json().unwrap_or(Json::Null),
    };
    let [done, refused, failed] = tally(all);
    object([
        ("jobs", Json::List(jobs.iter().zip(all).map(one).collect())),
        ("done", done.into()),
        ("refused", refused.into()),
        ("wrong", failed.into()),
    ])
}
