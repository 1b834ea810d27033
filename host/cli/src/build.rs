//! `fenikezo build`.

use crate::arguments::{Build, Profile};
use crate::failure::Failure;
use crate::files;
use crate::input::Input;
use crate::json::{list, object, Json};
use crate::numbers::{self, Number};
use crate::row_list;
use std::path::Path;

pub fn run(arguments: &Build) -> Result<(), Failure> {
    let places = places(arguments);
    let input = Input::read(&arguments.job, arguments.axes)?;
    let profile = match arguments.profile {
        Profile::Plain => ivs::Profile::Plain,
        Profile::Panel => ivs::Profile::Panel,
    };
    let packed = ivs::pack_for(profile, input.axes, arguments.mode as u32, &input.job)
        .map_err(|refused| input.refused(refused))?;
    input.warn();
    let outputs: Vec<(&Path, Vec<u8>)> = places
        .iter()
        .map(|&(path, part)| (path, part(&packed)))
        .collect();
    files::write(&outputs)?;
    let numbers = numbers::of(&packed.done);
    let said = if arguments.json {
        format!("{}\n", json(&numbers, &packed.origins))
    } else {
        numbers::table(&numbers)
    };
    let outputs: Vec<&Path> = places.iter().map(|&(path, _)| path).collect();
    files::print_beside(&outputs, &said)
}

type Part = fn(&ivs::Packed) -> Vec<u8>;

/// Where each part goes.
fn places(arguments: &Build) -> Vec<(&Path, Part)> {
    let asked: [(&Option<_>, Part); 6] = [
        (&arguments.store, |packed| packed.store.clone()),
        (&arguments.ids, |packed| lines(&packed.ids, 1)),
        (&arguments.map, |packed| lines(&packed.map, 1)),
        (&arguments.words, |packed| {
            row_list::text(&ivs::set_words(packed))
        }),
        (&arguments.log, |packed| lines(&packed.log, 3)),
        (&arguments.origins, |packed| lines(&packed.origins, 2)),
    ];
    let given = asked.into_iter();
    given
        .filter_map(|(path, part)| Some((path.as_deref()?, part)))
        .collect()
}

/// Words as text, so many a line.
fn lines(words: &[u32], a_line: usize) -> Vec<u8> {
    let mut text = String::new();
    for line in words.chunks(a_line) {
        let line: Vec<String> = line.iter().map(u32::to_string).collect();
        text += &line.join(" ");
        text.push('\n');
    }
    text.into_bytes()
}

/// The numbers, and of each starting shape its number and its final group.
fn json(numbers: &[Number], origins: &[u32]) -> Json {
    let origin = |origin: &[u32]| list(origin, |&word| word.into());
    numbers::json(numbers).and(object([("origins", list(origins.chunks(2), origin))]))
}
