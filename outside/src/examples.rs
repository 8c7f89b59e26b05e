//! The examples: sheets that show one thing each, with their registers.

mod definitions;

pub use definitions::all;

use std::collections::{BTreeMap, BTreeSet};
use std::fs;
use std::io;
use std::path::Path;

use crate::detector::AxleCounter;
use crate::program::{self, Program};
use crate::register::{self, BY_DETECTOR};
use crate::script::Script;
use crate::writer::Writer;

pub struct Example {
    name: &'static str,
    /// One sentence for an instructor.
    shows: &'static str,
    sheet: Vec<u8>,
}

impl Example {
    fn new(name: &'static str, shows: &'static str, sections: u16, script: Script) -> Self {
        let mut writer = Writer::new(sections);
        for event in script.into_events() {
            writer.event(event);
        }
        Self { name, shows, sheet: writer.into_bytes() }
    }

    /// The same with bytes at the end, whether or not they make an event.
    fn ending_in(mut self, bytes: &[u8]) -> Self {
        self.sheet.extend_from_slice(bytes);
        self
    }

    pub fn sheet(&self) -> &[u8] {
        &self.sheet
    }
}

/// Writes every example, and the table of them, into the directory.
pub fn write(directory: &Path) -> io::Result<bool> {
    fs::create_dir_all(directory)?;
    for (name, contents) in files() {
        fs::write(directory.join(name), contents)?;
    }
    Ok(true)
}

/// Whether the directory holds the examples as they would be written, and the
/// bench prints their registers.
pub fn compare(directory: &Path, bench: &Path) -> io::Result<bool> {
    let stale = stale_files(directory)?;
    for name in &stale {
        println!("{} is not as it would be written", directory.join(name).display());
    }
    let mut differing = 0;
    for example in all() {
        for (arguments, register) in BY_DETECTOR {
            let program = Program { path: bench, arguments };
            if !program::run(program, &example.sheet)?.is(&register(&example.sheet)) {
                let arguments = arguments.join(" ");
                println!("{}: the bench prints another register [{arguments}]", example.name);
                differing += 1;
            }
        }
    }
    let agree = stale.is_empty() && differing == 0;
    if agree {
        println!("compared {} examples: all agree", all().len());
    }
    Ok(agree)
}

/// The names of files that are missing, different, or of no example.
fn stale_files(directory: &Path) -> io::Result<Vec<String>> {
    let mut present = BTreeMap::new();
    for entry in fs::read_dir(directory)? {
        let entry = entry?;
        let name = entry.file_name().to_string_lossy().into_owned();
        present.insert(name, fs::read(entry.path())?);
    }
    let wanted = files();
    let differs = |name: &&String| present.get(*name) != wanted.get(*name);
    let names: BTreeSet<&String> = present.keys().chain(wanted.keys()).collect();
    Ok(names.into_iter().filter(differs).cloned().collect())
}

/// Every file of the examples, by name.
fn files() -> BTreeMap<String, Vec<u8>> {
    let mut files = BTreeMap::new();
    for example in all() {
        let register = register::of_sheet::<AxleCounter>(&example.sheet);
        files.insert(format!("{}.register", example.name), register.into_bytes());
        files.insert(format!("{}.sheet", example.name), example.sheet);
    }
    files.insert("README.md".to_string(), readme().into_bytes());
    files
}

fn readme() -> String {
    let rows: String = all()
        .iter()
        .map(|example| format!("| `{}` | {} |\n", example.name, example.shows))
        .collect();
    format!("{README_HEAD}{rows}")
}

const README_HEAD: &str = "\
# Examples

Each example is a sheet of events, `NAME.sheet`, with the register that a bench has to write for it, `NAME.register`. No program of the repository writes registers yet; the outside program works one out by itself:

```
target/outside/outside register < examples/train-through.sheet
```

`crates/sheet/out/sheet` tells the events of a sheet in words, once it is built. The files here, this page too, are written by `outside examples examples`; see [outside](../outside/README.md).

| Example | What it shows |
|-|-|
";
