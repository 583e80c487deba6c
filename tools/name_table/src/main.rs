//! Makes the files of crates/names and crates/keysyms that follow from the lists of names. README.md
//! says when to run it.

mod antt;
mod files;
mod groups;
mod latin1;
mod lists;
mod table;
mod template;

use std::ffi::OsString;
use std::fs;
use std::io;
use std::path::Path;
use std::process::ExitCode;

use files::File;
use latin1::Latin1;
use lists::Lists;
use table::Table;

#[derive(Clone, Copy, Debug, PartialEq, Eq)]
enum Task {
    Write,
    /// Write nothing, and tell which files would change.
    Check,
}

fn task(arguments: &[OsString]) -> Option<Task> {
    match arguments {
        [] => Some(Task::Write),
        [only] if only == "--check" => Some(Task::Check),
        _ => None,
    }
}

fn main() -> ExitCode {
    let arguments: Vec<OsString> = std::env::args_os().skip(1).collect();
    let Some(task) = task(&arguments) else {
        eprintln!("usage, at the repository's root: name_table [--check]");
        return ExitCode::from(2);
    };
    match run(task, Path::new(".")) {
        Ok(changed) if task == Task::Check && changed > 0 => {
            eprintln!("without --check they are written");
            ExitCode::FAILURE
        }
        Ok(_) => ExitCode::SUCCESS,
        Err(refusal) => {
            eprintln!("{refusal}");
            ExitCode::FAILURE
        }
    }
}

/// Answers how many files changed or would change. All files are made before the first is written,
/// so that a list that is refused changes nothing.
fn run(task: Task, root: &Path) -> Result<usize, String> {
    let lists = Lists::read(root)?;
    let table = Table::new(&lists)?;
    let latin1 = Latin1::read(root)?;
    let made = files::made(&table, &latin1);
    let mut changed = 0;
    for file in &made {
        if stands(file, root)? {
            continue;
        }
        changed += 1;
        match task {
            Task::Check => println!("{} would change", file.path),
            Task::Write => {
                write(file, root)?;
                println!("{} written", file.path);
            }
        }
    }
    Ok(changed)
}

/// The file is there already, byte for byte.
fn stands(file: &File, root: &Path) -> Result<bool, String> {
    match fs::read(root.join(file.path)) {
        Ok(bytes) => Ok(bytes == file.text.as_bytes()),
        Err(error) if error.kind() == io::ErrorKind::NotFound => Ok(false),
        Err(error) => Err(format!("{}: {error}", file.path)),
    }
}

fn write(file: &File, root: &Path) -> Result<(), String> {
    let path = root.join(file.path);
    let written = match path.parent() {
        Some(folder) => fs::create_dir_all(folder).and_then(|()| fs::write(&path, &file.text)),
        None => fs::write(&path, &file.text),
    };
    written.map_err(|error| format!("{}: {error}", file.path))
}

#[cfg(test)]
mod tests {
    use super::*;

    fn task_of(arguments: &[&str]) -> Option<Task> {
        let arguments: Vec<OsString> = arguments.iter().map(OsString::from).collect();
        task(&arguments)
    }

    #[test]
    fn arguments() {
        assert_eq!(task_of(&[]), Some(Task::Write));
        assert_eq!(task_of(&["--check"]), Some(Task::Check));
        assert_eq!(task_of(&["--chek"]), None);
        assert_eq!(task_of(&["--check", "--check"]), None);
    }
}
