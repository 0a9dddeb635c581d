//! Builds wrong checkers. Several of them are modules of one program, each with a
//! mistake of its own: rustc is then started once for all, and what they use of
//! the standard library is built once.

use std::fmt::Write;
use std::fs;
use std::io;
use std::path::{Path, PathBuf};
use std::process::Command;

use super::list::Edit;

/// A checker, as files and folders of `src`.
const CHECKER: [&str; 11] = [
    "add.rs",
    "answer.rs",
    "change.rs",
    "check.rs",
    "convert.rs",
    "form",
    "implementation.rs",
    "learn.rs",
    "limits.rs",
    "mask.rs",
    "plan.rs",
];
/// The runner of vectors.
const RUNNER: [&str; 3] = ["answer.rs", "calls.rs", "vectors/file"];

/// A checker is built without optimising, since building takes longest, and
/// with the arithmetic of a released program, which does not look for overflow.
const BUILD_CHECKER: [&str; 8] = [
    "--crate-name=checker",
    "-Copt-level=0",
    "-Ccodegen-units=1",
    "-Coverflow-checks=off",
    "-Cdebug-assertions=off",
    "-Cpanic=abort",
    "-Cstrip=symbols",
    "--cap-lints=allow",
];
const BUILD_RUNNER: [&str; 4] =
    ["--crate-name=runner", "--crate-type=rlib", "-Copt-level=2", "--cap-lints=allow"];

pub fn here(path: &str) -> PathBuf {
    Path::new(env!("CARGO_MANIFEST_DIR")).join(path)
}

/// The library with the runner of vectors.
pub fn runner(folder: &Path) -> Result<PathBuf, String> {
    empty(folder).map_err(|error| error.to_string())?;
    copy_sources(folder, &RUNNER, "runner.rs").map_err(|error| error.to_string())?;
    let library = folder.join("librunner.rlib");
    build(rustc(&BUILD_RUNNER).arg("-o").arg(&library).arg(folder.join("runner.rs")))?;
    Ok(library)
}

/// The program with a checker for each of these lists of edits; its second
/// argument says which one is run, from 0.
pub fn checkers(folder: &Path, mistakes: &[&[Edit]], runner: &Path) -> Result<PathBuf, String> {
    empty(folder).map_err(|error| error.to_string())?;
    for (number, edits) in mistakes.iter().enumerate() {
        plant(&folder.join(module(number)), edits, number)?;
    }
    let root = folder.join("checker.rs");
    copy(&here("mistakes/checker.rs"), &root)
        .and_then(|()| fs::write(folder.join("all.rs"), all(mistakes.len())))
        .map_err(|error| error.to_string())?;
    let checker = folder.join("checker");
    let mut rustc = rustc(&BUILD_CHECKER);
    rustc.arg("--extern").arg(format!("runner={}", runner.display()));
    build(rustc.arg("-o").arg(&checker).arg(root))?;
    Ok(checker)
}

fn module(number: usize) -> String {
    format!("checker_{number}")
}

/// The sources with these edits, as a module: what they call the crate is it.
fn plant(folder: &Path, edits: &[Edit], number: usize) -> Result<(), String> {
    copy_sources(folder, &CHECKER, "mod.rs").map_err(|error| error.to_string())?;
    for edit in edits {
        change(&folder.join(&edit.file), |source| edit.apply(source))?;
    }
    let path = format!("crate::all::{}::", module(number));
    for file in files(folder).map_err(|error| error.to_string())? {
        change(&file, |source| Ok(source.replace("crate::", &path)))?;
    }
    Ok(())
}

/// The module of all checkers of a program, and how one is run by its number.
fn all(count: usize) -> String {
    let mut modules = String::new();
    let mut arms = String::new();
    for name in (0..count).map(module) {
        writeln!(modules, "#[path = \"{name}/mod.rs\"]\nmod {name};").expect(WRITES);
        writeln!(arms, "&{name}::implementation::Second,").expect(WRITES);
    }
    format!(
        "{modules}pub static ALL: [&(dyn runner::calls::Calls + Sync); {count}] = [\n{arms}];\n"
    )
}

const WRITES: &str = "a string takes all that is written";

fn empty(folder: &Path) -> io::Result<()> {
    if folder.exists() {
        fs::remove_dir_all(folder)?;
    }
    Ok(())
}

/// Copies sources and the root of a crate or module into a folder.
fn copy_sources(folder: &Path, sources: &[&str], root: &str) -> io::Result<()> {
    for source in sources {
        copy(&here("src").join(source), &folder.join(source))?;
    }
    copy(&here("mistakes").join(root), &folder.join(root))
}

/// A file, or a folder and all below it.
fn copy(from: &Path, to: &Path) -> io::Result<()> {
    if !from.is_dir() {
        fs::create_dir_all(to.parent().unwrap_or(to))?;
        return fs::copy(from, to).map(|_| ());
    }
    for entry in fs::read_dir(from)? {
        let name = entry?.file_name();
        copy(&from.join(&name), &to.join(&name))?;
    }
    Ok(())
}

/// All files below a folder.
fn files(folder: &Path) -> io::Result<Vec<PathBuf>> {
    let mut found = Vec::new();
    for entry in fs::read_dir(folder)? {
        let path = entry?.path();
        if path.is_dir() {
            found.extend(files(&path)?);
        } else {
            found.push(path);
        }
    }
    Ok(found)
}

fn change(file: &Path, with: impl Fn(&str) -> Result<String, String>) -> Result<(), String> {
    let source = fs::read_to_string(file).map_err(|error| error.to_string())?;
    fs::write(file, with(&source)?).map_err(|error| error.to_string())
}

fn rustc(arguments: &[&str]) -> Command {
    let program = std::env::var_os("RUSTC").unwrap_or_else(|| "rustc".into());
    let mut command = Command::new(program);
    command.arg("--edition=2021").args(arguments);
    command
}

fn build(rustc: &mut Command) -> Result<(), String> {
    let built = rustc.output().map_err(|error| format!("rustc: {error}"))?;
    match built.status.success() {
        true => Ok(()),
        false => Err(format!("does not build\n{}", String::from_utf8_lossy(&built.stderr))),
    }
}
