//! Runs case files on the proved code and on the second solver: `cases PATH..` runs every *.case file of a folder, or one file. Prints a
//! line for each failure and, as the last line, "N passed, M failed", N and M counting each case once for each solver. The exit status is
//! 0 only if there was a case and none failed.

use comparison::cases::{Case, SOLVERS};
use comparison::count::{command, Count};
use std::path::{Path, PathBuf};
use std::process::ExitCode;

/// The case files of a folder in order, or the one file.
fn files(path: &Path) -> Result<Vec<PathBuf>, String> {
    if path.is_file() {
        return Ok(vec![path.into()]);
    }
    let entries = std::fs::read_dir(path).map_err(|error| error.to_string())?;
    let paths: Result<Vec<PathBuf>, _> = entries.map(|entry| entry.map(|entry| entry.path())).collect();
    let mut paths = paths.map_err(|error| error.to_string())?;
    paths.retain(|path| path.extension().is_some_and(|extension| extension == "case"));
    paths.sort();
    Ok(paths)
}

fn read(path: &Path) -> Result<Case, String> {
    Case::parse(&std::fs::read_to_string(path).map_err(|error| error.to_string())?)
}

fn main() -> ExitCode {
    let mut count = Count::plain();
    for argument in std::env::args_os().skip(1).map(PathBuf::from) {
        let paths = files(&argument).unwrap_or_else(|error| {
            count.fail(&format!("{}: {error}", argument.display()));
            Vec::new()
        });
        for path in paths {
            let case = read(&path);
            for solver in &SOLVERS {
                let (result, path) = (case.as_ref().map_err(String::clone).and_then(|case| case.judge(solver)), path.display());
                let result = result.map_err(|reason| format!("{reason}\n  alone: {} {path}", command("cases")));
                count.add(&format!("{path}, {}", solver.name), result, |_| String::new());
            }
        }
    }
    count.end()
}
