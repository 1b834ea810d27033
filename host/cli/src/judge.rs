//! `fenikezo judge`: whether a store, whoever built it, gives the sets of a job. The library
//! says yes or no; of a no it is looked up here where the store and the job part.

use crate::failure::Failure;
use crate::input::{coordinates, Input};
use crate::json::{object, Json};
use crate::kind::{self, Kind};
use crate::show_job::count;
use crate::{files, names, row_list};
use clap::Args;
use ivs::{Store, Tent, Verdict};
use std::collections::HashMap;
use std::path::PathBuf;

const JUDGE: &str = "\
A list has a row a line, in the order of the job's sets: outer x 65536 + inner, as 'build --words'
writes it, or the outer and the inner number with a blank between them. '#' starts a comment.
A file '-' is standard input.
Exit status: 0 yes, 3 no, 2 the job is refused by number, 1 for anything else.";

/// Judges a store, whoever built it: whether it gives each set of a job at the set's row
#[derive(Args)]
#[command(after_help = JUDGE)]
pub struct Judge {
    /// The job: records of 12 bytes, or its text
    pub job: PathBuf,
    /// The store
    pub store: PathBuf,
    /// The row of each set
    pub words: PathBuf,
    /// The axis count that the job was written for, 1 to 64; a text has its own
    #[arg(long, value_name = "N")]
    pub axes: Option<u32>,
    /// Print JSON
    #[arg(long)]
    pub json: bool,
}

pub fn run(arguments: &Judge) -> Result<(), Failure> {
    let input = Input::read(&arguments.job, arguments.axes)?;
    let store = files::read(&arguments.store)?;
    if kind::of(&store) == Kind::Font {
        return Err(Failure::Other(kind::a_font(&arguments.store)));
    }
    let words = row_list::read(&arguments.words)?;
    let verdict = ivs::judge(input.axes, &input.job, &store, &words)
        .map_err(|refused| input.refused(refused))?;
    input.warn();
    let fault = match verdict {
        Verdict::Yes => None,
        Verdict::Set(set) => Some(of_set(&input, &store, &words, set as usize)?),
        Verdict::Store => Some(of_store(&input, &store)),
    };
    files::print(&match (arguments.json, &fault) {
        (true, _) => format!("{}\n", json(fault.as_ref())),
        (false, None) => {
            let sets = count(input.decode()?.sets.len(), "set", "sets");
            let (store, job) = (arguments.store.display(), arguments.job.display());
            format!("yes: {store} gives {sets} of {job}\n")
        }
        (false, Some(fault)) => format!("no: {}\n", fault.words()),
    })?;
    fault.map_or(Ok(()), |_| Err(Failure::No))
}

/// Why it is a no.
enum Fault {
    /// The store itself.
    Store(String),
    /// A set: its number, its line in a text, its row, and what is wrong there.
    Set {
        set: usize,
        line: Option<usize>,
        row: Option<(u32, u32)>,
        what: What,
    },
}

/// What is wrong with a set's row.
enum What {
    /// It is not there.
    NoRow(String),
    /// It gives a region, by its name and coordinates, another value.
    Value {
        region: (String, Vec<Tent>),
        reads: i32,
        should: i32,
    },
}

impl Fault {
    fn words(&self) -> String {
        let (set, line, row, what) = match self {
            Fault::Store(words) => return format!("the store itself: {words}"),
            Fault::Set {
                set,
                line,
                row,
                what,
            } => (set, line, row, what),
        };
        let line = line.map_or(String::new(), |line| format!(" (line {line})"));
        match (what, row) {
            (What::NoRow(words), _) => format!("set {set}{line}: {words}"),
            (
                What::Value {
                    region: (name, tents),
                    reads,
                    should,
                },
                row,
            ) => {
                let row = row.map_or(String::new(), |(outer, inner)| {
                    format!("row {inner} of subtable {outer} ")
                });
                let at = coordinates(tents);
                format!("set {set}{line}: {row}reads {reads} for {name} ({at}) and should read {should}")
            }
        }
    }
}

/// Where the row of a set that the library named is not the set's.
fn of_set(input: &Input, bytes: &[u8], words: &[u32], set: usize) -> Result<Fault, Failure> {
    let row = words.get(set).map(|word| (word >> 16, word & 0xFFFF));
    let fault = |what| Fault::Set {
        set,
        line: input.set_line(set),
        row,
        what,
    };
    let Some((outer, inner)) = row else {
        let rows = count(words.len(), "row", "rows");
        return Ok(fault(What::NoRow(format!(
            "it has no row: the list has {rows}"
        ))));
    };
    let store = Store::decode(bytes).map_err(|r| kind::refused_store(&input.file, bytes, r))?;
    let subtable = store.subtable(outer as usize).ok().flatten();
    let Some(subtable) = subtable.filter(|subtable| (inner as usize) < subtable.items) else {
        let words = format!("the store has no row {inner} of subtable {outer}");
        return Ok(fault(What::NoRow(words)));
    };
    let values = subtable
        .row(inner as usize)
        .map(|row| row.values().collect());
    let values: Vec<(usize, i32)> = values.unwrap_or_default();
    let reads: HashMap<&[Tent], i32> = values
        .iter()
        .map(|&(region, value)| (&store.regions[region][..], value))
        .collect();
    let job = input.decode()?;
    let due: HashMap<&[Tent], i32> = job.sets[set]
        .iter()
        .map(|&(region, value)| (&job.regions[usize::from(region)][..], value))
        .collect();
    // The set's own regions first, then what the row has beside them.
    let own = job.sets[set].iter().map(|&(region, _)| {
        let region = usize::from(region);
        (job.names[region].clone(), &job.regions[region])
    });
    let names = names::of_store(&store.regions, Some(&job));
    let other = values
        .iter()
        .map(|&(region, _)| (names[region].clone(), &store.regions[region]));
    let at = |values: &HashMap<&[Tent], i32>, tents: &[Tent]| {
        values.get(tents).copied().unwrap_or_default()
    };
    for (name, tents) in own.chain(other) {
        let (reads, should) = (at(&reads, tents), at(&due, tents));
        if reads != should {
            let region = (name, tents.clone());
            return Ok(fault(What::Value {
                region,
                reads,
                should,
            }));
        }
    }
    Ok(fault(What::NoRow("its row is not the set's".to_string())))
}

/// What is wrong with the store itself.
fn of_store(input: &Input, bytes: &[u8]) -> Fault {
    let store = match Store::decode(bytes) {
        Ok(store) => store,
        Err(refused) => return Fault::Store(kind::store_words(bytes, &refused)),
    };
    let bad = |outer: &usize| store.subtable(*outer).is_err();
    if let Some(outer) = (0..store.subtable_count()).find(bad) {
        return Fault::Store(format!("subtable {outer} is malformed, or ends too early"));
    }
    if store.axes != input.axes as usize {
        let (own, job) = (count(store.axes, "axis", "axes"), input.axes);
        return Fault::Store(format!("it has {own}, and the job {job}"));
    }
    let mut seen: HashMap<&[Tent], usize> = HashMap::new();
    for (number, region) in store.regions.iter().enumerate() {
        if let Some(first) = seen.insert(region, number) {
            let at = coordinates(region);
            return Fault::Store(format!(
                "its regions #{first} and #{number} are the same ({at})"
            ));
        }
    }
    Fault::Store("it is malformed".to_string())
}

fn json(fault: Option<&Fault>) -> Json {
    let verdict = |said: &str| object([("verdict", said.into())]);
    let rest =
        |set: Json, line: Json, row: Option<(u32, u32)>, what: Option<&What>, words: Json| {
            let value = match what {
                Some(What::Value {
                    region: (name, tents),
                    reads,
                    should,
                }) => [names::json(name, tents), (*reads).into(), (*should).into()],
                _ => [Json::Null, Json::Null, Json::Null],
            };
            let [region, reads, should] = value;
            object([
                ("set", set),
                ("line", line),
                ("outer", row.map(|(outer, _)| outer).into()),
                ("inner", row.map(|(_, inner)| inner).into()),
                ("region", region),
                ("reads", reads),
                ("should", should),
                ("words", words),
            ])
        };
    match fault {
        None => verdict("yes").and(rest(Json::Null, Json::Null, None, None, Json::Null)),
        Some(fault @ Fault::Store(_)) => {
            let words = fault.words().into();
            verdict("no").and(rest(Json::Null, Json::Null, None, None, words))
        }
        Some(
            fault @ Fault::Set {
                set,
                line,
                row,
                what,
            },
        ) => {
            let words = fault.words().into();
            verdict("no").and(rest((*set).into(), (*line).into(), *row, Some(what), words))
        }
    }
}
