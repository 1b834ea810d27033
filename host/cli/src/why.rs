//! `fenikezo why`: why the rows of two sets are where they are, in a sentence.

use crate::arguments::AFTER;
use crate::failure::Failure;
use crate::files;
use crate::input::Input;
use crate::json::{list, object, Json};
use clap::Args;
use ivs::{Packed, Refusal, Refused, Why};
use std::path::PathBuf;

/// Tells why the rows of two sets are in one subtable, or in two, with what joining would cost
#[derive(Args)]
#[command(after_help = AFTER)]
pub struct Asked {
    /// The job: records of 12 bytes, or its text
    pub job: PathBuf,
    /// A set's number in the job, from 0
    pub first: u32,
    /// Another set's
    pub second: u32,
    /// The numbers are ids of the build, and not sets
    #[arg(long)]
    pub ids: bool,
    /// The axis count of a job; a text has its own
    #[arg(long, value_name = "N")]
    pub axes: Option<u32>,
    /// Print JSON
    #[arg(long)]
    pub json: bool,
}

/// Mode 0: in mode 1 there is but one subtable.
const DEDUPLICATING: u32 = 0;

pub fn run(asked: &Asked) -> Result<(), Failure> {
    let input = Input::read(&asked.job, asked.axes)?;
    let answer = Answer::of(asked, &input).map_err(|refused| input.refused(refused))?;
    input.warn();
    files::print(&if asked.json {
        format!("{}\n", answer.json())
    } else {
        format!("{}\n", answer.said(asked))
    })
}

/// Two ids with their rows' places, and the reason.
struct Answer {
    ids: [u32; 2],
    /// Outer and inner of each.
    rows: [(u32, u32); 2],
    why: Why,
}

impl Answer {
    fn of(asked: &Asked, input: &Input) -> Result<Answer, Refused> {
        let packed = ivs::pack(input.axes, DEDUPLICATING, &input.job)?;
        let ids = [
            id(asked, asked.first, &packed)?,
            id(asked, asked.second, &packed)?,
        ];
        let why = ivs::why(input.axes, &input.job, &packed.store, ids[0], ids[1])?;
        let row = |id: u32| {
            let word = packed.map[id as usize];
            (word >> 16, word & 0xFFFF)
        };
        Ok(Answer {
            ids,
            rows: ids.map(row),
            why,
        })
    }

    /// A sentence for a studio.
    fn said(&self, asked: &Asked) -> String {
        let name = if asked.ids { "id" } else { "set" };
        let both = format!("{name} {} and {name} {}", asked.first, asked.second);
        let [(outer, inner), (other_outer, other_inner)] = self.rows;
        if self.equal() {
            let because = if asked.ids { "one id" } else { "equal" };
            return format!(
                "{both} share row {inner} of subtable {outer} because they are {because}"
            );
        }
        match self.why {
            Why::SameSubtable => format!(
                "{both} are in the same subtable, rows {inner} and {other_inner} of subtable \
                 {outer}, because they are in one group"
            ),
            Why::CutApart => format!(
                "{both} are in different subtables, {outer} and {other_outer}, because their one \
                 group has more than 65,535 rows and was cut"
            ),
            Why::NeverJoined {
                costs: [first, second],
                joined,
                gain,
            } => {
                let more = match gain.unsigned_abs() {
                    0 => "save nothing".to_string(),
                    1 => "cost 1 byte more".to_string(),
                    more => format!("cost {more} bytes more"),
                };
                format!(
                    "{both} are in different subtables because joining their groups would {more} \
                     ({first} + {second} apart, {joined} together)"
                )
            }
        }
    }

    fn equal(&self) -> bool {
        self.ids[0] == self.ids[1]
    }

    fn json(&self) -> Json {
        let (why, costs, joined, gain) = match self.why {
            _ if self.equal() => ("equal", Json::Null, None, Json::Null),
            Why::SameSubtable => ("same_subtable", Json::Null, None, Json::Null),
            Why::CutApart => ("cut_apart", Json::Null, None, Json::Null),
            Why::NeverJoined {
                costs,
                joined,
                gain,
            } => (
                "never_joined",
                list(costs, Json::from),
                Some(joined),
                Json::Number(gain),
            ),
        };
        let row =
            |(outer, inner): (u32, u32)| object([("outer", outer.into()), ("inner", inner.into())]);
        object([
            ("why", why.into()),
            ("ids", list(self.ids, Json::from)),
            ("rows", list(self.rows, row)),
            ("costs", costs),
            ("joined", joined.into()),
            ("gain", gain),
        ])
    }
}

/// The id that a number stands for. Of an id the library says whether there is one.
fn id(asked: &Asked, number: u32, packed: &Packed) -> Result<u32, Refused> {
    if asked.ids {
        return Ok(number);
    }
    let id = packed.ids.get(number as usize);
    id.copied().ok_or(Refused::bare(Refusal::NoSet.number()))
}
