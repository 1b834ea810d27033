//! `fenikezo read`.

use crate::arguments::Read;
use crate::failure::Failure;
use crate::files;
use crate::json::object;
use crate::kind::{self, Kind};
use ivs::Reading;

pub fn run(arguments: &Read) -> Result<(), Failure> {
    let store = files::read(&arguments.store)?;
    // A font may begin as a store does.
    if kind::of(&store) == Kind::Font {
        return Err(Failure::Other(kind::a_font(&arguments.store)));
    }
    let reading = ivs::read(&store, arguments.outer, arguments.inner, arguments.region)
        .map_err(|refused| kind::refused_store(&arguments.store, &store, refused))?;
    let (value, column) = match reading {
        Reading::Written(value) => (value, true),
        // It means zero, and the first word says so.
        Reading::NoColumn => (0, false),
    };
    files::print(&if arguments.json {
        let json = object([("value", value.into()), ("column", column.into())]);
        format!("{json}\n")
    } else {
        format!("{value}{}\n", if column { "" } else { " (no column)" })
    })
}
