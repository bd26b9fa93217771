//! Counts of what passes and what fails. The first failures of a run are shown, and kept in files from which each can be run alone.

use std::fs::File;
use std::os::unix::fs::FileExt;
use std::path::{Path, PathBuf};
use std::process::{Command, ExitCode};

/// Most failures that are kept.
const KEPT: usize = 5;
/// Most lines that are shown of a file.
const LINES: usize = 60;

/// Set in a process that `watched` starts: the number of the call that is kept before it is made, from 1, or 0.
const SOUGHT: &str = "COMPARISON_SOUGHT";
/// The names of the file that has the number of the last call, and of those of a call that is sought.
const CALLS: &str = "calls";
const LAST: &str = "last";

/// The calls of a process that may end early. The file has their number.
struct Watch {
    calls: u64,
    sought: u64,
    file: File,
}

pub struct Count {
    /// Where failures are kept; none: all are shown and none is kept.
    folder: Option<PathBuf>,
    watch: Option<Watch>,
    passed: usize,
    failed: usize,
}

impl Count {
    /// Counts that keep failures in `target/failed/PROGRAM`, from which those of an earlier run are removed.
    pub fn keeping(program: &str) -> Count {
        let folder = folder(program);
        if folder.exists() {
            std::fs::remove_dir_all(&folder).expect("the failures of an earlier run can be removed");
        }
        let watch = std::env::var(SOUGHT).ok().map(|sought| {
            std::fs::create_dir_all(&folder).expect("a folder for failures");
            let file = File::create(folder.join(CALLS)).expect("a file for the number of the call");
            Watch { calls: 0, sought: sought.parse().expect("the number of a call"), file }
        });
        Count { folder: Some(folder), watch, ..Count::plain() }
    }

    pub fn plain() -> Count {
        Count { folder: None, watch: None, passed: 0, failed: 0 }
    }

    /// Before a call that may end the process; `keep_call` is as `keep` of `add`.
    pub fn record(&mut self, keep_call: impl FnOnce(&Path) -> String) {
        if let (Some(watch), Some(folder)) = (&mut self.watch, &self.folder) {
            watch.calls += 1;
            watch.file.write_all_at(&watch.calls.to_le_bytes(), 0).expect("the number of the call is written");
            if watch.calls == watch.sought {
                let stem = folder.join(LAST);
                keep(&stem, "how", keep_call(&stem).as_bytes());
            }
        }
    }

    /// Counts a result. `keep` writes files whose paths begin with the one given, and says what they are.
    pub fn add(&mut self, name: &str, result: Result<(), String>, keep: impl FnOnce(&Path) -> String) {
        let Err(reason) = result else {
            self.passed += 1;
            return;
        };
        match &self.folder {
            None => self.fail(&format!("{name}: {reason}")),
            Some(folder) if self.failed < KEPT => {
                let kept = keep(&folder.join((self.failed + 1).to_string()));
                self.fail(&format!("{name}: {reason}\n{kept}"));
            }
            _ => self.failed += 1,
        }
    }

    pub fn fail(&mut self, reason: &str) {
        self.failed += 1;
        println!("FAIL {reason}");
    }

    /// Something that has to be true of what is compared, so that it tests what it is meant to.
    pub fn show(&mut self, what: &str, shown: bool) {
        if !shown {
            self.fail(&format!("what is compared does not show: {what}"));
        }
    }

    /// The last line and the status: success if something passed and nothing failed.
    pub fn end(&self) -> ExitCode {
        println!("{} passed, {} failed", self.passed, self.failed);
        ExitCode::from(u8::from(self.failed > 0 || self.passed == 0))
    }
}

fn folder(program: &str) -> PathBuf {
    Path::new("target/failed").join(program)
}

/// Runs a whole comparison in a process of its own. If that ends early (a closed page, the end of the stack, a panic), it is run again
/// and the call in which it ended is kept before it is made, and shown.
pub fn watched(program: &str, whole: fn() -> ExitCode) -> ExitCode {
    if std::env::var_os(SOUGHT).is_some() {
        return whole();
    }
    let folder = folder(program);
    let mut process = Command::new(std::env::args_os().next().expect("the path of this program"));
    let status = process.env(SOUGHT, "0").status().expect("a process");
    if let Some(code @ 0..=1) = status.code() {
        // the folder stays where a failure is kept
        std::fs::remove_file(folder.join(CALLS)).and_then(|()| std::fs::remove_dir(&folder)).ok();
        return ExitCode::from(code as u8);
    }
    let calls = std::fs::read(folder.join(CALLS)).ok().and_then(|bytes| bytes.try_into().ok());
    let calls = calls.map_or(0, u64::from_le_bytes);
    let again = process.env(SOUGHT, calls.to_string()).output().expect("a process").status;
    let how = std::fs::read_to_string(folder.join(LAST).with_extension("how"));
    println!("FAIL the process ended with {status} in call {calls}, and again with {again}:\n{}", how.unwrap_or_default());
    ExitCode::FAILURE
}

/// Writes a file of a failure, and returns its path.
pub fn keep(stem: &Path, extension: &str, content: &[u8]) -> String {
    let path = stem.with_extension(extension);
    std::fs::create_dir_all(stem.parent().expect("a folder")).expect("a folder for failures");
    std::fs::write(&path, content).expect("a file of a failure");
    path.display().to_string()
}

/// The command of a program that stands beside this one.
pub fn command(program: &str) -> String {
    Path::new(&std::env::args_os().next().unwrap_or_default()).with_file_name(program).display().to_string()
}

/// The first lines of a file.
pub fn first_lines(content: &[u8]) -> String {
    let lines: Vec<&[u8]> = content.split_inclusive(|&byte| byte == b'\n').collect();
    let mut shown: String =
        lines.iter().take(LINES).map(|line| format!("    {}\n", first_bytes(line.strip_suffix(b"\n").unwrap_or(line)))).collect();
    if lines.len() > LINES {
        shown += &format!("    .. ({} lines)\n", lines.len());
    }
    shown
}

fn first_bytes(line: &[u8]) -> String {
    let start = &line[..line.len().min(200)];
    format!("{}{}", start.escape_ascii(), if start.len() < line.len() { ".." } else { "" })
}

/// Keeps a text, shows it and says how both programs are run on it. `more` are further arguments of `texts`.
pub fn keep_text(stem: &Path, text: &[u8], more: &str) -> String {
    let (path, shown) = (keep(stem, "txt", text), first_lines(text));
    let commands = [
        format!("{} {path}{more}", command("texts")),
        format!("crates/bucketmonk/out/bucketmonk < {path}"),
        format!("{} < {path}", command("second")),
    ];
    format!("  as a text, {path}, {} bytes:\n{shown}  alone: {}", text.len(), commands.join("\n         "))
}
