//! The list of planted mistakes: read from the text files of this folder, and
//! put into a source. README.md describes the files.

use std::collections::BTreeSet;
use std::fs;
use std::path::Path;

pub struct Mistake {
    pub name: String,
    /// The row, the limit or the sentence of the paper that it breaks.
    pub about: String,
    pub edits: Vec<Edit>,
}

/// Lines of a source file as they are, and the lines with the mistake.
pub struct Edit {
    /// A path below `src`.
    pub file: String,
    right: Vec<String>,
    wrong: Vec<String>,
}

impl Edit {
    /// The source with the mistake in it. The lines must stand in it just once,
    /// however far they are indented.
    pub fn apply(&self, source: &str) -> Result<String, String> {
        let lines: Vec<&str> = source.lines().collect();
        let stands = |window: &&[&str]| {
            window.iter().zip(&self.right).all(|(line, right)| line.trim() == right)
        };
        let windows = lines.windows(self.right.len());
        let at = windows.clone().position(|window| stands(&window));
        match (at, windows.filter(stands).count()) {
            (Some(at), 1) => {
                let wrong = self.wrong.iter().map(String::as_str);
                let (front, back) = (&lines[..at], &lines[at + self.right.len()..]);
                let all: Vec<&str> =
                    front.iter().copied().chain(wrong).chain(back.iter().copied()).collect();
                Ok(all.join("\n") + "\n")
            }
            (_, times) => {
                Err(format!("stands {times} times in {}: {}", self.file, self.right.join(" / ")))
            }
        }
    }
}

/// The mistakes of every text file of a folder, by the files' names.
pub fn all(folder: &Path) -> Result<Vec<Mistake>, String> {
    let entries = fs::read_dir(folder).map_err(|error| error.to_string())?;
    let mut files: Vec<_> = entries
        .filter_map(|entry| Some(entry.ok()?.path()))
        .filter(|path| path.extension().is_some_and(|extension| extension == "txt"))
        .collect();
    files.sort();
    let mut mistakes = Vec::new();
    for file in files {
        let in_file = |error: String| format!("{}: {error}", file.display());
        let text = fs::read_to_string(&file).map_err(|error| in_file(error.to_string()))?;
        mistakes.extend(read(&text).map_err(in_file)?);
    }
    let mut names = BTreeSet::new();
    match mistakes.iter().find(|mistake| !names.insert(mistake.name.as_str())) {
        Some(twice) => Err(format!("two mistakes have the name {}", twice.name)),
        None => Ok(mistakes),
    }
}

fn read(text: &str) -> Result<Vec<Mistake>, String> {
    let mut mistakes: Vec<Mistake> = Vec::new();
    for line in text.lines().filter(|line| !line.is_empty() && !line.starts_with('#')) {
        let (key, value) = line.split_once(' ').unwrap_or((line, ""));
        let value = value.trim().to_string();
        if key == "mistake" {
            mistakes.push(Mistake { name: value, about: String::new(), edits: Vec::new() });
            continue;
        }
        let mistake = mistakes.last_mut().ok_or("a line before the first mistake")?;
        if key == "about" {
            mistake.about = value;
        } else {
            mistake.take(key, value).map_err(|error| format!("{}: {error}", mistake.name))?;
        }
    }
    let lacking = |mistake: &&Mistake| {
        let changes = |edit: &Edit| !edit.right.is_empty() && edit.right != edit.wrong;
        mistake.about.is_empty() || mistake.edits.is_empty() || !mistake.edits.iter().all(changes)
    };
    match mistakes.iter().find(lacking) {
        Some(mistake) => Err(format!("{}: says nothing or changes nothing", mistake.name)),
        None => Ok(mistakes),
    }
}

impl Mistake {
    /// A line that names a file, or one of an edit. A line as it is, behind one
    /// with the mistake, begins another edit of the same file.
    fn take(&mut self, key: &str, value: String) -> Result<(), String> {
        let edit = |file: String| Edit { file, right: Vec::new(), wrong: Vec::new() };
        if key == "file" {
            self.edits.push(edit(value));
            return Ok(());
        }
        let last = self.edits.last().ok_or("an edit before its file")?;
        if key == "-" && !last.wrong.is_empty() {
            let next = edit(last.file.clone());
            self.edits.push(next);
        }
        let last = self.edits.last_mut().ok_or("an edit before its file")?;
        match key {
            "-" => last.right.push(value),
            "+" => last.wrong.push(value),
            _ => return Err(format!("no such key: {key}")),
        }
        Ok(())
    }
}
