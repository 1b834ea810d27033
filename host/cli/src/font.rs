//! `fenikezo font`: the item variation stores of a font, looked at and packed anew.

use crate::arguments::{Font as Arguments, FontCommand, FontRepack, FontShow};
use crate::failure::{self, Failure};
use crate::files;
use crate::font_store::{self, Rows, Unpacked, TABLES};
use crate::font_table::repacked;
use crate::json::{object, Json};
use crate::kind::{self, Kind};
use crate::sfnt::Font;
use crate::show_job::count;
use std::fmt::Write;
use std::path::Path;

pub fn run(arguments: &Arguments) -> Result<(), Failure> {
    match &arguments.command {
        FontCommand::Show(arguments) => show(arguments),
        FontCommand::Repack(arguments) => repack(arguments),
    }
}

/// A table of a font with its store.
struct Stored<'a> {
    tag: &'static [u8; 4],
    table: &'a [u8],
    /// The bytes from the store on.
    store: &'a [u8],
}

impl Stored<'_> {
    fn name(&self) -> &'static str {
        std::str::from_utf8(self.tag).unwrap_or("?")
    }

    /// Why its rows cannot be numbered anew in the table itself; none where they can.
    fn bound(&self) -> Option<&'static str> {
        match self.tag {
            b"HVAR" | b"VVAR" | b"MVAR" => None,
            b"CFF2" => Some("its regions are named in the outlines"),
            b"COLR" => Some("its rows are named in the paints"),
            _ => Some("its rows are named in device tables all over the font"),
        }
    }

    /// The bytes of the table, were its store ours.
    fn with_ours(&self, glyphs: u32, mode: u32) -> Result<usize, Unpacked> {
        if let Some(table) = repacked(self.tag, self.table, glyphs, mode) {
            return table.map(|table| table.len());
        }
        let rows = Rows::of(self.store)?;
        let ours = rows.pack(mode, &rows.row_words())?.store.len();
        let own = font_store::extent(self.store).unwrap_or(self.store.len());
        Ok((self.table.len() + ours).saturating_sub(own))
    }

    /// The table packed anew in the mode that is smaller.
    fn smaller(&self, glyphs: u32) -> Result<Vec<u8>, Unpacked> {
        let tables = [0, 1].map(|mode| repacked(self.tag, self.table, glyphs, mode));
        let [shared, rows] = tables.map(|table| table.unwrap_or_else(|| Ok(self.table.to_vec())));
        match (shared, rows) {
            (Ok(shared), Ok(rows)) if rows.len() < shared.len() => Ok(rows),
            (Err(_), Ok(rows)) => Ok(rows),
            (shared, _) => shared,
        }
    }
}

fn stored<'a>(font: &Font<'a>) -> Vec<Stored<'a>> {
    let one = |&tag: &&'static [u8; 4]| {
        Some(Stored {
            tag,
            table: font.table(tag)?,
            store: font_store::of(font, tag)?,
        })
    };
    TABLES.iter().filter_map(one).collect()
}

fn parse<'a>(path: &Path, bytes: &'a [u8]) -> Result<Font<'a>, Failure> {
    let words = |words: String| match kind::of(bytes) {
        Kind::Store => "no font but a store: look at it by 'fenikezo show'".to_string(),
        Kind::Text => "no font but a text".to_string(),
        _ => format!("no font: {words}"),
    };
    let wrong = |wrong| Failure::Other(format!("{}: {}", path.display(), words(wrong)));
    Font::parse(bytes).map_err(wrong)
}

/// What a table takes, and would take.
struct Sizes {
    name: &'static str,
    bytes: usize,
    /// Its store, as far as that can be told.
    store: Option<usize>,
    /// With ours, in either mode.
    ours: [Result<usize, Unpacked>; 2],
    stays: bool,
}

impl Sizes {
    fn of(one: &Stored<'_>, glyphs: u32) -> Sizes {
        Sizes {
            name: one.name(),
            bytes: one.table.len(),
            store: font_store::extent(one.store),
            ours: [0, 1].map(|mode| one.with_ours(glyphs, mode)),
            stays: one.bound().is_some(),
        }
    }

    fn line(&self) -> String {
        let own = self
            .store
            .map_or("?".to_string(), |bytes| bytes.to_string());
        let [dedup, implicit] = [&self.ours[0], &self.ours[1]].map(|ours| match ours {
            Ok(bytes) => bytes.to_string(),
            Err(Unpacked::Refused(refused)) => format!("refused {}", refused.number),
            Err(Unpacked::Other(_)) => "-".to_string(),
        });
        let left = if self.stays { "  stays as it is" } else { "" };
        format!(
            "{:<6}{:>10}{own:>10}{dedup:>12}{implicit:>12}{left}\n",
            self.name, self.bytes
        )
    }

    fn json(&self) -> Json {
        let ours = |mode: usize| match &self.ours[mode] {
            Ok(bytes) => object([("bytes", (*bytes).into())]),
            Err(Unpacked::Refused(refused)) => failure::number(refused, &refused.to_string()),
            Err(Unpacked::Other(words)) => object([("failed", words.as_str().into())]),
        };
        object([
            ("table", self.name.into()),
            ("bytes", self.bytes.into()),
            ("store", self.store.into()),
            ("dedup", ours(0)),
            ("implicit", ours(1)),
            ("stays", self.stays.into()),
        ])
    }
}

fn show(arguments: &FontShow) -> Result<(), Failure> {
    let bytes = files::read(&arguments.font)?;
    let font = parse(&arguments.font, &bytes)?;
    let stored = stored(&font);
    let sizes = stored.iter().map(|one| Sizes::of(one, font.glyphs));
    if arguments.json {
        let json = object([
            ("glyphs", font.glyphs.into()),
            ("axes", font.axes.into()),
            (
                "tables",
                Json::List(sizes.map(|sizes| sizes.json()).collect()),
            ),
        ]);
        return files::print(&format!("{json}\n"));
    }
    let heads = ["table", "bytes", "store", "dedup", "implicit"];
    let mut text = format!(
        "font: {}, {}\n{:<6}{:>10}{:>10}{:>12}{:>12}\n",
        count(font.glyphs as usize, "glyph", "glyphs"),
        count(font.axes, "axis", "axes"),
        heads[0],
        heads[1],
        heads[2],
        heads[3],
        heads[4]
    );
    text.extend(sizes.map(|sizes| sizes.line()));
    files::print(&text)
}

/// Why a table of a font cannot be packed anew.
fn unpacked(font: &Path, table: &str, wrong: Unpacked) -> Failure {
    let table = format!("{}: {table}", font.display());
    match wrong {
        Unpacked::Refused(refused) => Failure::Refused(table, refused, refused.to_string()),
        Unpacked::Other(words) => Failure::Other(format!("{table}: {words}")),
    }
}

fn repack(arguments: &FontRepack) -> Result<(), Failure> {
    let bytes = files::read(&arguments.font)?;
    let font = parse(&arguments.font, &bytes)?;
    let (mut new, mut said, mut json) = (Vec::new(), String::new(), Vec::new());
    for one in stored(&font) {
        let name = one.name();
        if let Some(why) = one.bound() {
            let _ = writeln!(said, "{name}: left as it is, since {why}");
            json.push(object([("table", name.into()), ("stays", why.into())]));
            continue;
        }
        let table = one
            .smaller(font.glyphs)
            .map_err(|wrong| unpacked(&arguments.font, name, wrong))?;
        let _ = writeln!(
            said,
            "{name}: {} bytes, before {}",
            table.len(),
            one.table.len()
        );
        json.push(object([
            ("table", name.into()),
            ("bytes", table.len().into()),
            ("before", one.table.len().into()),
        ]));
        new.push((*one.tag, table));
    }
    if new.is_empty() {
        let words = format!(
            "{}: no table to pack anew\n{said}",
            arguments.font.display()
        );
        return Err(Failure::Other(words.trim_end().to_string()));
    }
    files::write(&[(arguments.out.as_path(), font.with(&new))])?;
    if arguments.json {
        said = format!("{}\n", object([("tables", Json::List(json))]));
    }
    files::print_beside(&[&arguments.out], &said)
}
