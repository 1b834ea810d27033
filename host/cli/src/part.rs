//! `fenikezo part`: where two sets of a job part, in words.

use crate::arguments::Part;
use crate::failure::Failure;
use crate::files;
use crate::input::Input;
use crate::json::{object, Json};
use crate::names;
use ivs::{Parted, Parting};

pub fn run(arguments: &Part) -> Result<(), Failure> {
    let input = Input::read(&arguments.job, arguments.axes)?;
    let (first, second) = (arguments.first, arguments.second);
    let parted = ivs::part(input.axes, &input.job, first, second)
        .map_err(|refused| input.refused(refused))?;
    input.warn();
    if arguments.json {
        return files::print(&format!("{}\n", json(&input, &parted)));
    }
    let sets = format!("set {first} and set {second}");
    files::print(&match parted {
        Parted::Equal => format!("{sets} are equal\n"),
        Parted::Smaller(at) | Parted::Larger(at) => {
            let region = input.region(at.region as usize);
            format!("{sets} part at {region}: {} and {}\n", at.first, at.second)
        }
    })
}

/// How the first stands to the second; the region and both values where they part.
fn json(input: &Input, parted: &Parted) -> Json {
    let at = |order: &str, at: &Parting| {
        let region = at.region as usize;
        object([
            ("first_is", order.into()),
            (
                "region",
                names::json(&input.name(region), &input.tents(region)),
            ),
            ("first", at.first.into()),
            ("second", at.second.into()),
        ])
    };
    match parted {
        Parted::Equal => object([
            ("first_is", "equal".into()),
            ("region", Json::Null),
            ("first", Json::Null),
            ("second", Json::Null),
        ]),
        Parted::Smaller(parting) => at("smaller", parting),
        Parted::Larger(parting) => at("larger", parting),
    }
}
