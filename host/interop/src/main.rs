//! The comparison as a program, with a table. Arguments are fonts in place of the usual ones.

use interop::{build, fonts, python};
use std::path::{Path, PathBuf};
use std::process::ExitCode;
use std::{env, fs, process};

fn main() -> ExitCode {
    let folder = env::temp_dir().join(format!("fenikezo-interop-{}", process::id()));
    let said = run(&folder);
    let _ = fs::remove_dir_all(&folder);
    match said {
        Ok(table) => {
            print!("{table}");
            ExitCode::SUCCESS
        }
        Err(wrong) => {
            eprintln!("{wrong}");
            ExitCode::FAILURE
        }
    }
}

fn run(folder: &Path) -> Result<String, String> {
    let usual = fonts()?;
    let named: Vec<PathBuf> = env::args_os().skip(1).map(PathBuf::from).collect();
    let fonts = if named.is_empty() { usual } else { named };
    fs::create_dir(folder).map_err(|wrong| format!("{}: {wrong}", folder.display()))?;
    python("jobs", folder, &fonts)?;
    build(folder)?;
    Ok(python("rows", folder, &fonts)? + &python("shape", folder, &fonts)?)
}
