//! A job, what it was packed to, and how: what `explain` and `report` tell of it.

use crate::failure::Failure;
use crate::history::{self, History};
use crate::input::Input;
use crate::job::Job;
use crate::json::{list, object, Json};
use crate::names;
use crate::show_job::{count, set_json};
use crate::text;
use ivs::{Packed, Refused, Store, Subtable};
use std::collections::HashMap;

const NO_SET: u32 = 64;

pub struct Story<'a> {
    input: &'a Input,
    pub job: Job,
    pub packed: Packed,
    /// Of the deduplicating mode.
    pub history: Option<History>,
    pub subtables: Vec<Columns>,
    /// The number in the job of each region of the store.
    pub kept: Vec<usize>,
    /// The sets of each id.
    sets_of: Vec<Vec<usize>>,
}

/// A subtable as it is written.
pub struct Columns {
    /// Region of the job and bytes of each column.
    pub columns: Vec<(usize, usize)>,
    pub rows: usize,
    pub row_bytes: usize,
}

impl Columns {
    fn of(subtable: Option<Subtable<'_>>, kept: &[usize]) -> Columns {
        let Some(subtable) = subtable else {
            return Columns {
                columns: Vec::new(),
                rows: 0,
                row_bytes: 0,
            };
        };
        let column = |column: &ivs::Column| (kept[column.region], column.bytes);
        Columns {
            columns: subtable.columns.iter().map(column).collect(),
            rows: subtable.items,
            row_bytes: subtable.row_bytes(),
        }
    }

    /// Its bytes in the store, without its offset (B3); a null one has none (B5).
    pub fn bytes(&self) -> usize {
        match self.rows {
            0 => 0,
            rows => 6 + 2 * self.columns.len() + rows * self.row_bytes,
        }
    }
}

/// What is told of a set.
pub struct Told {
    pub set: usize,
    pub line: Option<usize>,
    pub id: u32,
    /// The other sets of its id.
    pub alike: Vec<usize>,
    pub word: u32,
    pub outer: usize,
    pub inner: usize,
    /// By the names of the columns' regions.
    pub row: Vec<(String, i32)>,
    pub row_bytes: usize,
    /// What its values take by their own widths.
    pub own_bytes: usize,
    pub group: Option<usize>,
    pub merges: Vec<Merge>,
}

/// Two groups that were joined, to which, and the bytes saved.
pub struct Merge {
    pub first: usize,
    pub second: usize,
    pub joined: usize,
    pub gain: u32,
}

impl<'a> Story<'a> {
    pub fn of(input: &'a Input, mode: u32) -> Result<Story<'a>, Failure> {
        let refused = |refused: Refused| input.refused(refused);
        let job = input.decode()?;
        let packed = ivs::pack(input.axes, mode, &input.job).map_err(refused)?;
        let store = Store::decode(&packed.store).map_err(refused)?;
        let kept = kept(&job, &store);
        let columns = |subtable| Columns::of(subtable, &kept);
        let subtables = store
            .subtables()
            .map(|subtable| subtable.map(columns).map_err(refused))
            .collect::<Result<_, _>>()?;
        let mut sets_of = vec![Vec::new(); packed.map.len()];
        for (set, &id) in packed.ids.iter().enumerate() {
            sets_of[id as usize].push(set);
        }
        Ok(Story {
            input,
            history: (mode == 0).then(|| History::of(&job, &packed)),
            job,
            subtables,
            kept,
            sets_of,
            packed,
        })
    }

    pub fn told(&self, set: usize) -> Result<Told, Failure> {
        let Some(&id) = self.packed.ids.get(set) else {
            return Err(self.no_set());
        };
        let word = self.packed.map[id as usize];
        let outer = (word >> 16) as usize;
        let row = self.row(set, outer);
        let group = self.history.as_ref().map(|h| h.group_of[id as usize]);
        let own = row
            .iter()
            .map(|(_, value)| usize::from(history::width(*value)));
        Ok(Told {
            set,
            line: self.input.set_line(set),
            id,
            alike: self.sets_of[id as usize]
                .iter()
                .copied()
                .filter(|&s| s != set)
                .collect(),
            word,
            outer,
            inner: (word & 0xFFFF) as usize,
            own_bytes: own.sum(),
            row_bytes: self.subtables[outer].row_bytes,
            row,
            group,
            merges: group.map_or(Vec::new(), |group| self.merges(group)),
        })
    }

    fn no_set(&self) -> Failure {
        let refused = Refused::bare(NO_SET);
        let words = refused.explain(self.input.axes, &self.input.job);
        let what = words.split(';').next().unwrap_or_default();
        let words = format!("{what}; ask for one of its sets, counted from 0");
        Failure::Refused(self.input.file.display().to_string(), refused, words)
    }

    /// The values of a set, column by column. (That the store has them is what is proved.)
    fn row(&self, set: usize, outer: usize) -> Vec<(String, i32)> {
        let tents = |region: usize| &self.job.regions[region];
        let mut values = HashMap::new();
        for &(region, value) in &self.job.sets[set] {
            values.insert(tents(usize::from(region)), value);
        }
        let column = |&(region, _): &(usize, usize)| {
            let value = values.get(tents(region)).copied().unwrap_or_default();
            (self.job.names[region].clone(), value)
        };
        self.subtables[outer].columns.iter().map(column).collect()
    }

    fn merges(&self, group: usize) -> Vec<Merge> {
        let Some(history) = &self.history else {
            return Vec::new();
        };
        let merge = |joined: usize| {
            let (first, second, gain) = history.groups[joined].of?;
            Some(Merge {
                first,
                second,
                joined,
                gain,
            })
        };
        history
            .merges(group)
            .into_iter()
            .filter_map(merge)
            .collect()
    }

    /// `group 0 (1 set of bold:1)`.
    pub fn group(&self, number: usize) -> String {
        let Some(history) = &self.history else {
            return format!("group {number}");
        };
        let group = &history.groups[number];
        let name = |&(index, bytes): &(usize, u8)| {
            format!(" {}:{bytes}", self.job.names[history.regions[index]])
        };
        let shape: String = group.shape.iter().map(name).collect();
        let shape = if shape.is_empty() { " nothing" } else { &shape };
        format!(
            "group {number} ({} of{shape})",
            count(group.sets, "set", "sets")
        )
    }

    /// `subtable 0 has 2 rows of 2 bytes in columns bold:1 light:1, 14 bytes in all`.
    pub fn subtable(&self, outer: usize) -> String {
        let subtable = &self.subtables[outer];
        let name =
            |&(region, bytes): &(usize, usize)| format!(" {}:{bytes}", self.job.names[region]);
        let columns: String = subtable.columns.iter().map(name).collect();
        let columns = match columns.is_empty() {
            true => "without columns".to_string(),
            false => format!("in columns{columns}"),
        };
        format!(
            "subtable {outer} has {} of {} {columns}, {} in all",
            count(subtable.rows, "row", "rows"),
            count(subtable.row_bytes, "byte", "bytes"),
            count(subtable.bytes(), "byte", "bytes")
        )
    }

    pub fn subtable_json(&self, outer: usize) -> Json {
        let subtable = &self.subtables[outer];
        let column = |&(region, bytes): &(usize, usize)| {
            let name = self.job.names[region].as_str().into();
            object([("region", name), ("bytes", bytes.into())])
        };
        let group = self
            .history
            .as_ref()
            .map(|history| history.subtables[outer]);
        object([
            ("outer", outer.into()),
            ("group", group.into()),
            ("rows", subtable.rows.into()),
            ("row_bytes", subtable.row_bytes.into()),
            ("bytes", subtable.bytes().into()),
            ("columns", list(&subtable.columns, column)),
        ])
    }

    /// Whether sets have lines, and the line of one.
    pub fn is_lined(&self) -> bool {
        self.input.is_text()
    }

    pub fn line(&self, set: usize) -> Option<usize> {
        self.input.set_line(set)
    }

    /// The values of a set as ` bold=1`.
    pub fn values(&self, set: usize) -> String {
        text::values(&self.job.names, &self.job.sets[set])
    }

    pub fn set_json(&self, set: usize) -> Json {
        set_json(&self.job.names, &self.job.sets[set])
    }

    /// The job's regions, with their numbers in the store's list.
    pub fn regions_json(&self) -> Json {
        let regions = self.job.names.iter().zip(&self.job.regions).enumerate();
        list(regions, |(number, (name, tents))| {
            let place = self.kept.iter().position(|&region| region == number);
            names::json(name, tents).and(object([("store", place.into())]))
        })
    }
}

/// The job's region of each of the store's, by coordinates: the first that a value names.
fn kept(job: &Job, store: &Store<'_>) -> Vec<usize> {
    let mut first = HashMap::new();
    for &(region, _) in job.sets.iter().flatten() {
        let region = usize::from(region);
        first.entry(&job.regions[region]).or_insert(region);
    }
    store.regions.iter().map(|region| first[region]).collect()
}
