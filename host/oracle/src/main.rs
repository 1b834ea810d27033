//! `oracle record [FOLDER]` writes the source's answers as `vectors/*.txt`; `oracle source
//! [FOLDER]` says whether the source is there and is the one whose answers stand there.

use jobs::{edges, examples, glyphs, random, Job};
use oracle::vectors::{Case, Origin};
use oracle::{maps, source_digests};
use std::fmt::Display;
use std::path::{Path, PathBuf};
use std::process::ExitCode;
use std::{env, fs};

const USAGE: &str = "usage: oracle record|source [FOLDER]    (FOLDER: the repository's vectors/)";

/// What is said where the source is not.
const WITHOUT: &str = "the source, write-fonts 0.53.0, is not there to compare with; \
                       FENIKEZO_SOURCE names its folder";

/// The jobs of seeds 0 to this, without it, are recorded.
const SEEDS: u64 = 112;

/// And so are the glyph maps of seeds 0 to this.
const MAP_SEEDS: u64 = 200;

fn main() -> ExitCode {
    let arguments: Vec<String> = env::args().skip(1).collect();
    let words: Vec<&str> = arguments.iter().map(String::as_str).collect();
    let beside = PathBuf::from(concat!(env!("CARGO_MANIFEST_DIR"), "/../../vectors"));
    let done = match words[..] {
        ["record"] => record(&beside),
        ["record", folder] => record(Path::new(folder)),
        ["source"] => source(&beside),
        ["source", folder] => source(Path::new(folder)),
        _ => Err(USAGE.into()),
    };
    match done {
        Ok(()) => ExitCode::SUCCESS,
        Err(what) => {
            eprintln!("oracle: {what}");
            ExitCode::FAILURE
        }
    }
}

/// The files, each with the lines that its head has of the source.
fn files() -> [(&'static str, Vec<String>); 4] {
    [
        ("examples.txt", source_digests()),
        ("random.txt", source_digests()),
        ("edges.txt", source_digests()),
        (
            "glyphs.txt",
            Vec::from_iter(oracle::glyphs::source_digest()),
        ),
    ]
}

/// The source is there, all of it, and it is the one whose answers were recorded.
fn source(folder: &Path) -> Result<(), String> {
    for (name, lines) in files() {
        if lines.is_empty() {
            return Err(WITHOUT.into());
        }
        let path = folder.join(name);
        let text = fs::read_to_string(&path).map_err(|e| format!("{}: {e}", path.display()))?;
        if let Some(line) = lines.iter().find(|line| !text.contains(*line)) {
            let path = path.display();
            return Err(format!("{path} has answers of another source than {line}"));
        }
    }
    println!("the source, write-fonts 0.53.0, is there to compare with");
    Ok(())
}

fn record(folder: &Path) -> Result<(), String> {
    write(
        folder,
        "examples.txt",
        "The worked examples and other small jobs, written out.",
        &JOBS,
        examples::all()
            .iter()
            .map(|e| Case::record(e.name, Origin::Hex, &e.job, e.mode)),
    )?;
    let both = (0..SEEDS).flat_map(|seed| [(seed, 0), (seed, 1)]);
    write(
        folder,
        "random.txt",
        "Jobs that host/jobs/src/random.rs makes from seeds, in both modes.",
        &JOBS,
        both.map(|(seed, mode)| {
            let name = format!("{}, mode {mode}", random::recipe(seed));
            Case::record(&name, Origin::Seed(seed), &random::job(seed), mode)
        }),
    )?;
    write(
        folder,
        "edges.txt",
        "The large jobs of host/jobs/src/edges.rs that are not refused.",
        &JOBS,
        edge_jobs().into_iter().map(|(maker, count, job, mode)| {
            let name = format!("{maker} {count}, mode {mode}");
            Case::record(&name, Origin::Edge(maker.into(), count), &job, mode)
        }),
    )?;
    let short = glyphs::examples().into_iter();
    let short = short.map(|e| maps::Case::record(&e.name, maps::Origin::Hex, e.words));
    let made = (0..MAP_SEEDS).map(maps::Origin::Seed);
    let made = made.chain(glyphs::EDGES.map(maps::Origin::Rising));
    let made = made.chain(glyphs::EDGES.map(maps::Origin::Level));
    write(
        folder,
        "glyphs.txt",
        "Glyph maps of the words that host/jobs/src/glyphs.rs makes.",
        &MAPS,
        short.chain(made.map(maps::Case::record_made)),
    )
}

fn edge_jobs() -> Vec<(&'static str, usize, Job, u32)> {
    vec![
        ("one_shape", 65_535, edges::one_shape(65_535), 0),
        ("one_shape", 65_536, edges::one_shape(65_536), 0),
        ("one_shape", 65_535, edges::one_shape(65_535), 1),
        ("one_shape", 131_070, edges::one_shape(131_070), 0),
        ("one_shape", 131_071, edges::one_shape(131_071), 0),
        ("merged", 65_535, edges::merged(65_535), 0),
        ("merged", 65_536, edges::merged(65_536), 0),
        ("behind", 65_535, edges::behind(65_535), 0),
        ("behind", 65_536, edges::behind(65_536), 0),
        ("shapes", 1_024, edges::shapes(1_024), 0),
        ("shapes", 1_025, edges::shapes(1_025), 1),
        ("most_records", 0, edges::most_records(), 0),
        ("most_records", 0, edges::most_records(), 1),
        ("regions", 256, edges::regions(256), 0),
        ("regions", 257, edges::regions(257), 0),
        ("regions", 257, edges::regions(257), 1),
        ("regions", 32_767, edges::regions(32_767), 0),
        ("regions", 32_767, edges::regions(32_767), 1),
    ]
}

/// What the head of a file says of its answers.
struct Head {
    /// How the source was compiled.
    compiled: &'static str,
    /// What stands in the fields.
    fields: &'static str,
}

const JOBS: Head = Head {
    compiled: "# Answers of the source, write-fonts 0.53.0, compiled unchanged over stand-ins\n\
               # of the types it leans on (host/oracle). Made by, in host/:\n",
    fields: "# Store bytes are placed by rule B4 (the source gives pieces); map words\n\
             # are outer x 65,536 + inner; log and sizes are what the source told by\n\
             # log::trace!. The fields are explained in host/oracle/src/vectors.rs.\n",
};

const MAPS: Head = Head {
    compiled: "# Answers of the source, write-fonts 0.53.0: the items that pack a map, compiled\n\
               # unchanged over stand-ins of their types (host/oracle). Made by, in host/:\n",
    fields: "# Words are outer x 65,536 + inner, one for each glyph. The fields are explained in\n\
             # host/oracle/src/maps.rs.\n",
};

/// Writes one file, beside its place first.
fn write(
    folder: &Path,
    name: &str,
    about: &str,
    head: &Head,
    cases: impl Iterator<Item = Option<impl Display>>,
) -> Result<(), String> {
    let mut text = header(name, about, head);
    let mut count = 0;
    for case in cases {
        let case = case.ok_or(WITHOUT)?;
        text += &format!("\n{case}");
        count += 1;
    }
    let path = folder.join(name);
    let draft = folder.join(format!("{name}.new"));
    let said = |e: std::io::Error| format!("{}: {e}", path.display());
    fs::write(&draft, &text).map_err(said)?;
    fs::rename(&draft, &path).map_err(said)?;
    println!("{}: {count} cases, {} bytes", path.display(), text.len());
    Ok(())
}

fn header(name: &str, about: &str, head: &Head) -> String {
    let Head { compiled, fields } = head;
    let all = files();
    let lines = all.iter().filter(|file| file.0 == name);
    let lines = lines.flat_map(|file| &file.1);
    let lines: String = lines.map(|line| format!("# {line}\n")).collect();
    format!(
        "# {about}\n\
         #\n\
         {compiled}\
         #\n\
         #     cargo run --release -p oracle -- record\n\
         #\n\
         {lines}\
         #\n\
         {fields}"
    )
}
