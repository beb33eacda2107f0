//! Checks the wrong programs: that each function which a must-fail edit changes is refused by
//! a fact of its own, and that each function of every crate has as many wrong answers as it is
//! to have.
//!
//! `refusals [root] LOGS` reads the sources and edits of all crates and what the prover said of
//! each edit, LOGS/CRATE/LABEL.log (`tools/edit_logs.py` writes them). Of a function whose goals
//! wait for another that the edit changes too it reads a log of its own besides,
//! LOGS/CRATE/LABEL+FUNCTION.log. `refusals --wanted [root] LOGS` says which such logs are
//! wanted, each on a line: CRATE LABEL FUNCTION and the numbers of the edit's pairs, from 1 on,
//! that the log is to be made with.

use reference::refusals::{
    changes, declared, definition_around, laws, short, touched, verdict, wanted, Change, Declared,
    Function, Log, Touch, Verdict, EXCEPTED,
};
use std::collections::BTreeMap;
use std::path::{Path, PathBuf};
use std::process::ExitCode;
use std::{fmt, fs};

fn main() -> ExitCode {
    match run() {
        Ok(true) => ExitCode::SUCCESS,
        Ok(false) => ExitCode::FAILURE,
        Err(error) => {
            eprintln!("refusals: {error}");
            eprintln!("usage: refusals [--wanted] [root of the repository] LOGS");
            ExitCode::FAILURE
        }
    }
}

fn run() -> Result<bool, String> {
    let mut words: Vec<String> = std::env::args().skip(1).collect();
    let asks = words.first().is_some_and(|word| word == "--wanted");
    words.drain(..usize::from(asks));
    let (root, logs) = match &words[..] {
        [logs] => (PathBuf::from("."), PathBuf::from(logs)),
        [root, logs] => (PathBuf::from(root), PathBuf::from(logs)),
        _ => return Err("it takes one folder of logs, and before it at most a root".to_string()),
    };
    let mut count = Count::default();
    for name in names_in(&root.join("crates"))? {
        let krate = Krate::read(&root, &name)?;
        match asks {
            // Logs can have been made for some crates alone.
            true if !logs.join(&name).is_dir() => (),
            true => count.edits += krate.ask(&logs)?,
            false => count.add(&krate, &logs),
        }
    }
    if count.edits == 0 {
        return Err(format!("{} has no must-fail edits", root.display()));
    }
    if !asks {
        println!("{count}");
    }
    Ok(count.faults == 0)
}

/// What was found in all crates.
#[derive(Default)]
struct Count {
    edits: usize,
    functions: usize,
    wrong_answers: usize,
    /// How many public functions have so many wrong answers.
    public: BTreeMap<usize, usize>,
    faults: usize,
}

impl Count {
    fn add(&mut self, krate: &Krate, logs: &Path) {
        let mut refused: BTreeMap<Function, usize> = BTreeMap::new();
        for label in &krate.edits {
            let found = krate.judge(logs, label);
            println!("{}/{label}: {}", krate.name, told(&found));
            self.edits += 1;
            match found {
                Err(_) => self.faults += 1,
                Ok(verdict) => {
                    self.faults += verdict.faults.len();
                    for (function, count) in verdict.refused {
                        *refused.entry(function).or_default() += count;
                    }
                }
            }
        }
        for line in short(&krate.name, &krate.functions, &refused) {
            println!("{line}");
            self.faults += 1;
        }
        self.functions += krate.functions.len();
        self.wrong_answers += refused.values().sum::<usize>();
        for declared in krate.functions.iter().filter(|d| d.is_public) {
            let have = refused.get(&declared.function).copied().unwrap_or(0);
            *self.public.entry(have).or_default() += 1;
        }
    }
}

impl fmt::Display for Count {
    fn fmt(&self, out: &mut fmt::Formatter) -> fmt::Result {
        let Count {
            edits,
            functions,
            wrong_answers,
            ..
        } = self;
        write!(
            out,
            "{edits} edits, {wrong_answers} wrong answers refused in {functions} functions "
        )?;
        write!(out, "({} excepted); public functions", EXCEPTED.len())?;
        for (number, (answers, functions)) in self.public.iter().enumerate() {
            let sign = if number == 0 { ":" } else { "," };
            write!(out, "{sign} {functions} with {answers}")?;
        }
        match self.faults {
            0 => Ok(()),
            faults => write!(out, "; {faults} faults"),
        }
    }
}

fn told(found: &Result<Verdict, String>) -> String {
    match found {
        Err(error) => format!("can't be checked: {error}"),
        Ok(verdict) if !verdict.faults.is_empty() => verdict.faults.join("; "),
        Ok(verdict) if verdict.refused.is_empty() => "a definition, refused".to_string(),
        Ok(verdict) => {
            let answers: usize = verdict.refused.values().sum();
            let functions = verdict.refused.len();
            format!("{answers} wrong answers refused in {functions} functions")
        }
    }
}

/// A crate: its sources by file, its functions, and the names of its edits.
struct Krate {
    name: String,
    folder: PathBuf,
    sources: Vec<(String, String)>,
    functions: Vec<Declared>,
    edits: Vec<String>,
}

impl Krate {
    fn read(root: &Path, name: &str) -> Result<Krate, String> {
        let folder = root.join("crates").join(name);
        let mut sources = Vec::new();
        for file in names_in(&folder.join("src"))? {
            let file = format!("src/{file}");
            let source = read(&folder.join(&file))?;
            sources.push((file, source));
        }
        let functions = sources
            .iter()
            .flat_map(|(file, source)| declared(file, source));
        let functions = functions.collect();
        let must_fail = folder.join("must-fail");
        let names = match must_fail.is_dir() {
            true => names_in(&must_fail)?,
            false => Vec::new(),
        };
        let labels = names.iter().filter_map(|name| name.strip_suffix(".edit"));
        let edits = labels.map(str::to_string).collect();
        let name = name.to_string();
        Ok(Krate {
            name,
            folder,
            sources,
            functions,
            edits,
        })
    }

    fn judge(&self, logs: &Path, label: &str) -> Result<Verdict, String> {
        let edit = self.edit(label)?;
        let touches = self.touches(&edit)?;
        let text = read(&self.log_file(logs, label))?;
        let mut log = self.log(&text);
        for (function, _) in wanted(&touches, &log) {
            let own = read(&self.log_file(logs, &own_label(label, &function)))?;
            log.own.insert(function, own);
        }
        Ok(verdict(&touches, &laws(&edit), &log))
    }

    /// Says which logs of single functions are wanted, and returns the number of edits.
    fn ask(&self, logs: &Path) -> Result<usize, String> {
        for label in &self.edits {
            let touches = self.touches(&self.edit(label)?)?;
            let text = read(&self.log_file(logs, label))?;
            for (function, pairs) in wanted(&touches, &self.log(&text)) {
                print!("{} {label} {}", self.name, function.dotted_name());
                pairs.iter().for_each(|pair| print!(" {}", pair + 1));
                println!();
            }
        }
        Ok(self.edits.len())
    }

    fn edit(&self, label: &str) -> Result<String, String> {
        read(&self.folder.join(format!("must-fail/{label}.edit")))
    }

    fn log_file(&self, logs: &Path, label: &str) -> PathBuf {
        logs.join(&self.name).join(format!("{label}.log"))
    }

    fn log<'a>(&'a self, text: &'a str) -> Log<'a> {
        Log {
            krate: &self.name,
            text,
            own: BTreeMap::new(),
        }
    }

    fn touches(&self, edit: &str) -> Result<Vec<Touch>, String> {
        let changes = changes(edit)?;
        changes.iter().map(|change| self.touch(change)).collect()
    }

    fn touch(&self, change: &Change) -> Result<Touch, String> {
        let Change { file, old } = change;
        let source = read(&self.folder.join(file))?;
        if file.starts_with("src/") {
            return touched(file, &source, old).map(Touch::Code);
        }
        if !file.starts_with("specs/") {
            return Err(format!("{file} is in neither src nor specs"));
        }
        Ok(match definition_around(&source, old)? {
            Some(name) => Touch::Definition(self.citing(&name)),
            None => Touch::Import,
        })
    }

    fn citing(&self, definition: &str) -> Vec<Function> {
        let mut citing = Vec::new();
        for (file, source) in &self.sources {
            let cites = declared(file, source).into_iter();
            let cites = cites.filter(|declared| declared.cites(source, definition));
            citing.extend(cites.map(|declared| declared.function));
        }
        citing
    }
}

fn own_label(label: &str, function: &Function) -> String {
    format!("{label}+{}", function.dotted_name())
}

fn names_in(folder: &Path) -> Result<Vec<String>, String> {
    let complaint = |error| format!("{} can't be read: {error}", folder.display());
    let mut names = Vec::new();
    for entry in fs::read_dir(folder).map_err(complaint)? {
        let name = entry.map_err(complaint)?.file_name();
        names.push(name.to_string_lossy().into_owned());
    }
    names.sort();
    Ok(names)
}

fn read(file: &Path) -> Result<String, String> {
    fs::read_to_string(file).map_err(|error| format!("{} can't be read: {error}", file.display()))
}
