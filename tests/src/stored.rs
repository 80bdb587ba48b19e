//! What the program `vectors` runs and has to print: its folder's `data`, `args` and `stdout`. The files are the judged
//! examples of the corpus and others that stand in `data` alone; the lines of each are worked out here.

use crate::answer::{blanks_between, marked, Answer};
use crate::{example, numbers};
use std::collections::BTreeMap;
use std::path::{Path, PathBuf};

/// So many numbers of a file are printed.
const SHOWN: usize = 4;
/// The first line that is about no file begins so. It and those behind it were worked out by hand.
const BEHIND_FILES: &str = "\nread ";

#[derive(PartialEq, Eq)]
pub struct Stored {
    pub files: BTreeMap<String, Vec<u8>>,
    pub args: String,
    pub stdout: String,
}

impl Stored {
    /// What stands there.
    pub fn read() -> Result<Stored, String> {
        let mut files = BTreeMap::new();
        let data = folder().join("data");
        for file in std::fs::read_dir(&data).map_err(|error| fault(&data, error))? {
            let path = file.map_err(|error| fault(&data, error))?.path();
            let name = path.file_name().unwrap_or_default().to_string_lossy().into_owned();
            files.insert(name, std::fs::read(&path).map_err(|error| fault(&path, error))?);
        }
        Ok(Stored { files, args: read_text("args")?, stdout: read_text("stdout")? })
    }

    /// What has to stand there: these files and the examples, all of them named, and their lines.
    pub fn renewed(&self) -> Result<Stored, String> {
        let mut files = self.files.clone();
        let judged = example::corpus()?.into_iter().filter(|(_, example)| example.judged);
        files.extend(judged.map(|(name, example)| (name, example.bytes)));
        let args = files.keys().map(|name| format!("{name}\n")).collect();
        let of_files: String = files.iter().map(|(name, bytes)| lines(name, bytes)).collect();
        let behind = self.stdout.find(BEHIND_FILES).ok_or("stdout: no line begins with 'read '")?;
        let stdout = of_files + &self.stdout[behind + 1..];
        Ok(Stored { files, args, stdout })
    }

    pub fn write(&self) -> Result<(), String> {
        for (name, bytes) in &self.files {
            write(&format!("data/{name}"), bytes)?;
        }
        write("args", self.args.as_bytes())?;
        write("stdout", self.stdout.as_bytes())
    }
}

/// The lines of one file: its numbers if it reads, its ceiling and store's length if it is accepted, its result lines.
fn lines(name: &str, bytes: &[u8]) -> String {
    let mut lines = String::new();
    if let Ok(list) = numbers::read(bytes) {
        let first: Vec<u64> = list.iter().take(SHOWN).map(|number| number.value).collect();
        lines += &format!("{name} numbers {} {}\n", list.len(), blanks_between(&first));
    }
    let answer = marked(bytes);
    if let Answer::Finished { ceiling, store, .. } = &answer {
        lines += &format!("{name} judged {ceiling} {}\n", store.len());
    }
    lines + &format!("{name} {}", answer.lines())
}

fn folder() -> PathBuf {
    Path::new(env!("CARGO_MANIFEST_DIR")).join("../crates/vectors")
}

fn read_text(name: &str) -> Result<String, String> {
    let path = folder().join(name);
    std::fs::read_to_string(&path).map_err(|error| fault(&path, error))
}

fn write(name: &str, bytes: &[u8]) -> Result<(), String> {
    let path = folder().join(name);
    std::fs::write(&path, bytes).map_err(|error| fault(&path, error))
}

fn fault(path: &Path, error: std::io::Error) -> String {
    format!("{}: {error}", path.display())
}
