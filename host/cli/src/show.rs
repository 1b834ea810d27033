//! `fenikezo show`: which of the two a file is.

use crate::arguments::Show;
use crate::failure::Failure;
use crate::input::Input;
use crate::kind::{self, Kind};
use crate::{files, names, show_job, show_store, text};
use ivs::Store;

pub fn run(arguments: &Show) -> Result<(), Failure> {
    let bytes = files::read(&arguments.file)?;
    // A store begins with its format, 0001, and no record of a job has kind 0.
    let is_store = bytes.first() == Some(&0) && kind::of(&bytes) != Kind::Font;
    if is_store && !arguments.text {
        return store(arguments, &bytes);
    }
    if arguments.names.is_some() {
        let file = arguments.file.display();
        return Err(Failure::Other(format!(
            "{file} is no store: leave out --names"
        )));
    }
    let input = Input::of(&arguments.file, bytes, arguments.axes)?;
    let job = input.decode()?;
    input.warn();
    files::print(&if arguments.json {
        format!("{}\n", show_job::json(&job))
    } else if arguments.text {
        text::text(&job)
    } else {
        show_job::table(&job)
    })
}

fn store(arguments: &Show, bytes: &[u8]) -> Result<(), Failure> {
    let refused = |refused| kind::refused_store(&arguments.file, bytes, refused);
    let store = Store::decode(bytes).map_err(refused)?;
    let job = match &arguments.names {
        // The job's axis count is the store's, or they have nothing to do with each other.
        Some(file) => {
            let axes = arguments.axes.unwrap_or(store.axes as u32);
            let bytes = files::read(file)?;
            let axes = Some(axes).filter(|_| kind::of(&bytes) != Kind::Text);
            Some(Input::of(file, bytes, axes)?.decode()?)
        }
        None => None,
    };
    let names = names::of_store(&store.regions, job.as_ref());
    let subtable = |outer| store.subtable(outer).map_err(refused);
    // Nothing is said of a store that is refused.
    store
        .subtables()
        .try_for_each(|s| s.map(|_| ()).map_err(refused))?;
    // One after another: together they may be far more than the file, since the subtables
    // of a store that others wrote may share bytes.
    if arguments.json {
        files::print(&show_store::json_head(&store, &names))?;
        for outer in 0..store.subtable_count() {
            let json = show_store::json_subtable(&names, subtable(outer)?.as_ref());
            files::print(&format!("{}{json}", if outer == 0 { "" } else { ", " }))?;
        }
        return files::print("]}\n");
    }
    files::print(&show_store::head(&store, &names))?;
    for outer in 0..store.subtable_count() {
        let text = show_store::subtable(outer, &names, subtable(outer)?.as_ref());
        files::print(&text)?;
    }
    Ok(())
}
