//! Wrong programs: the functions that an edit changes, and what each is refused by.
//!
//! The gate takes a wrong program for refused if anything in it is. Where an edit changes
//! several functions, one refusal could hide that another was accepted; and an error can say
//! no more than that a proof doesn't fit the changed code. So each changed function is held
//! to errors of its own, and those to be about facts.
//!
//! The prover needn't try a function's goals while one that it calls is not proved. What an edit
//! says of such a function is read from a log of its own too, of a check in which nothing but
//! that function is changed.

use std::collections::{BTreeMap, BTreeSet};
use std::ops::Range;

/// One text that an edit replaces, in a file named from the crate's folder.
#[derive(Debug, PartialEq)]
pub struct Change {
    pub file: String,
    pub old: String,
}

/// The replacements of an edit file. Lines of no known kind are comments.
pub fn changes(edit: &str) -> Result<Vec<Change>, String> {
    let mut file = None;
    let mut old = None;
    let mut changes = Vec::new();
    for line in edit.lines() {
        if let Some(path) = line.strip_prefix("file: ") {
            file = Some(path.trim());
        } else if let Some(text) = line.strip_prefix("old: ") {
            if old.replace(text).is_some() {
                return Err(format!("the `old` before `{text}` has no `new`"));
            }
        } else if line.starts_with("new:") {
            let file = file.ok_or("a pair stands before the first `file`")?;
            let old = old.take().ok_or("a `new` has no `old`")?;
            changes.push(Change {
                file: file.to_string(),
                old: old.to_string(),
            });
        }
    }
    match old {
        Some(text) => Err(format!("`{text}` has no `new`")),
        None if changes.is_empty() => Err("the edit has no pair".to_string()),
        None => Ok(changes),
    }
}

/// The laws that an edit names: what a changed definition that no contract names makes false.
pub fn laws(edit: &str) -> Vec<&str> {
    let lines = edit.lines();
    lines
        .filter_map(|line| line.strip_prefix("law: "))
        .collect()
}

/// A function of a crate: modules, type if it is a method, and name.
#[derive(Clone, Debug, PartialEq, Eq, PartialOrd, Ord)]
pub struct Function(Vec<String>);

impl Function {
    /// As a log names it: `krate::module::Type::name`.
    pub fn full_name(&self, krate: &str) -> String {
        format!("{krate}::{}", self.0.join("::"))
    }

    /// As the name of a log of its own has it: `module.Type.name`.
    pub fn dotted_name(&self) -> String {
        self.0.join(".")
    }

    /// Whether the file answers a goal of the function, or says an invariant or a measure.
    fn has(&self, file: &str) -> bool {
        let inside = file.strip_prefix("proofs/").unwrap_or("");
        let folder = inside
            .strip_suffix("/Answers.antt")
            .or_else(|| inside.strip_suffix("/Invariants.antt"));
        folder == Some(self.0.join("/").as_str())
    }
}

/// A function with a body, as its source declares it.
pub struct Declared {
    pub function: Function,
    pub is_public: bool,
    /// From its first line, so without the comment above it, to the brace that closes it.
    lines: Range<usize>,
}

impl Declared {
    /// Whether its contract names the definition.
    pub fn cites(&self, source: &str, definition: &str) -> bool {
        let mut lines = source.lines().skip(self.lines.start).take(self.lines.len());
        lines.any(|line| {
            let text = line.trim_start();
            let is_contract = ["requires ", "ensures ", "ghost "]
                .iter()
                .any(|word| text.starts_with(word));
            // What stands before the brace is the clause's own name.
            let clause = text.split_once('{').map_or("", |(_, clause)| clause);
            is_contract && uses(clause, definition)
        })
    }
}

/// The functions of a source file. What an `impl` of a trait says in ghost members is the
/// contract of its function, which every caller may call.
pub fn declared(file: &str, source: &str) -> Vec<Declared> {
    let lines: Vec<&str> = source.lines().collect();
    let modules = modules_of(file);
    let mut implementing = None;
    let mut found = Vec::new();
    for (first, line) in lines.iter().enumerate() {
        if let Some(head) = implementation(line) {
            implementing = Some((first, head));
        } else if *line == "}" {
            implementing = None;
        } else if let Some(name) = declared_function(line) {
            let mut path = modules.clone();
            path.extend(implementing.as_ref().map(|(_, head)| head.name.clone()));
            path.push(name.to_string());
            let of_trait = implementing.as_ref().filter(|(_, head)| head.is_of_trait);
            found.push(Declared {
                function: Function(path),
                is_public: of_trait.is_some() || line.trim_start().starts_with("pub "),
                lines: of_trait.map_or(first, |(start, _)| *start)..end_of_function(&lines, first),
            });
        }
    }
    found
}

/// What an `impl` is of, as the prover names it.
struct Implementation {
    name: String,
    is_of_trait: bool,
}

fn implementation(line: &str) -> Option<Implementation> {
    let rest = line.strip_prefix("impl")?;
    let rest = match rest.strip_prefix('<') {
        Some(generics) => generics.split_once('>')?.1,
        None => rest,
    };
    let head = rest.strip_prefix(' ')?.trim_end_matches('{').trim();
    Some(match head.split_once(" for ") {
        Some((of, kind)) => Implementation {
            name: camel(kind) + &camel(of),
            is_of_trait: true,
        },
        None => Implementation {
            name: leading_name(head).to_string(),
            is_of_trait: false,
        },
    })
}

/// A type's names, one behind the other, each with a capital: `From<Handed<()>>` is
/// `FromHandedUnit`.
fn camel(kind: &str) -> String {
    let kind = kind.replace("()", "unit");
    let names = kind.split(|letter| !is_of_name(letter));
    names
        .filter_map(|name| {
            let mut letters = name.chars();
            let first = letters.next()?.to_ascii_uppercase();
            Some(format!("{first}{}", letters.as_str()))
        })
        .collect()
}

/// The functions that the change of a text touches; a change of none is an error, since
/// then nothing would be asked of the log.
pub fn touched(file: &str, source: &str, old: &str) -> Result<Vec<Function>, String> {
    let lines: Vec<&str> = source.lines().collect();
    let line = only_line(source, old)?;
    let constant = declared_constant(lines[line]);
    let touched: Vec<Function> = declared(file, source)
        .into_iter()
        .filter(|declared| match constant {
            Some(name) => lines[declared.lines.clone()]
                .iter()
                .any(|text| uses(text, name)),
            None => declared.lines.contains(&line),
        })
        .map(|declared| declared.function)
        .collect();
    if touched.is_empty() {
        return Err(format!("`{old}` belongs to no function of {file}"));
    }
    Ok(touched)
}

/// The definition that a text of the specifications stands in; none where it is an import.
pub fn definition_around(source: &str, old: &str) -> Result<Option<String>, String> {
    let line = only_line(source, old)?;
    let above = source.lines().take(line + 1);
    let declaration = above
        .filter(|line| line.starts_with(char::is_alphabetic))
        .last()
        .ok_or(format!("`{old}` stands in no definition"))?;
    let mut words = declaration
        .split_whitespace()
        .skip_while(|word| ["abbrev", "unfoldable", "pub", "record", "data"].contains(word));
    Ok(words
        .next()
        .filter(|word| *word != "use")
        .map(str::to_string))
}

fn only_line(source: &str, old: &str) -> Result<usize, String> {
    let places: Vec<usize> = source.match_indices(old).map(|(at, _)| at).collect();
    match places[..] {
        [at] => Ok(source[..at].matches('\n').count()),
        _ => Err(format!("`{old}` occurs {} times, not once", places.len())),
    }
}

fn modules_of(file: &str) -> Vec<String> {
    let path = file.strip_prefix("src/").unwrap_or(file);
    match path.strip_suffix(".rt").unwrap_or(path) {
        "lib" | "main" => Vec::new(),
        modules => modules.split('/').map(str::to_string).collect(),
    }
}

/// One past the function's last line. Sources are formatted: the closing brace stands alone,
/// as far in as the `fn` line; a function on one line ends where the next one starts.
fn end_of_function(lines: &[&str], first: usize) -> usize {
    let indent = lines[first].len() - lines[first].trim_start().len();
    let closing = format!("{}}}", &lines[first][..indent]);
    for (number, line) in lines.iter().enumerate().skip(first + 1) {
        if *line == closing {
            return number + 1;
        }
        if declared_function(line).is_some() {
            return number;
        }
    }
    lines.len()
}

fn declared_function(line: &str) -> Option<&str> {
    let (before, after) = line.split_once("fn ")?;
    let mut words = before.split_whitespace();
    let declares = words.all(|word| ["pub", "extern", "\"C\""].contains(&word));
    let name = leading_name(after);
    let named = !name.is_empty() && after[name.len()..].starts_with(['(', '<']);
    let has_body = !line.ends_with(';');
    (declares && named && has_body).then_some(name)
}

fn declared_constant(line: &str) -> Option<&str> {
    let rest = line.strip_prefix("pub ").unwrap_or(line);
    rest.strip_prefix("const ").map(leading_name)
}

fn leading_name(text: &str) -> &str {
    let end = text.find(|letter| !is_of_name(letter));
    &text[..end.unwrap_or(text.len())]
}

fn uses(line: &str, name: &str) -> bool {
    let code = line.split("//").next().unwrap_or(line);
    code.split(|letter| !is_of_name(letter))
        .any(|word| word == name)
}

fn is_of_name(letter: char) -> bool {
    letter.is_alphanumeric() || letter == '_'
}

/// What one change of an edit touches.
pub enum Touch {
    /// The functions around it.
    Code(Vec<Function>),
    /// A definition, and the functions whose contracts name it.
    Definition(Vec<Function>),
    /// No more than a name that is brought in for another change.
    Import,
}

/// What the log says of an edit.
#[derive(Debug, Default, PartialEq)]
pub struct Verdict {
    /// The wrong answers that were refused, of each function.
    pub refused: BTreeMap<Function, usize>,
    /// Why the edit shows less than it says.
    pub faults: Vec<String>,
}

/// Counts what is refused. Of one function that is at most as much as the edit changes in it,
/// and at most as many as the facts that refuse it.
pub fn verdict(touches: &[Touch], laws: &[&str], log: &Log) -> Verdict {
    let mut refused = BTreeMap::new();
    let mut faults = laws_left(touches, laws, log);
    let mut changes: BTreeMap<&Function, usize> = BTreeMap::new();
    for touch in touches {
        let functions = touch.functions(log);
        if functions.is_empty() && matches!(touch, Touch::Definition(_)) && !touch.is_of_laws() {
            faults.push("a definition: no fact".to_string());
        }
        for function in functions {
            *changes.entry(function).or_default() += 1;
        }
    }
    for (function, changes) in changes {
        let Refusal { facts, misfits } = log.refusal_of(function);
        let name = function.full_name(log.krate);
        match misfits.first().and_then(|said| said.lines().next()) {
            Some(said) => faults.push(format!("{name}: a misfit, {said}")),
            None if facts.is_empty() => faults.push(format!("{name}: no fact")),
            None => drop(refused.insert(function.clone(), changes.min(facts.len()))),
        }
    }
    Verdict { refused, faults }
}

/// What the laws lack: there is one for each definition that no contract names, and each is
/// refused.
fn laws_left(touches: &[Touch], laws: &[&str], log: &Log) -> Vec<String> {
    let kept = laws.iter().filter(|law| !log.refuses_law(law));
    let mut faults: Vec<String> = kept.map(|law| format!("{law}: no fact")).collect();
    let definitions = touches.iter().filter(|touch| touch.is_of_laws()).count();
    if laws.len() < definitions {
        faults.push(format!("{definitions} definitions, {} laws", laws.len()));
    }
    faults
}

/// The changed functions of which the log needn't tell all that refuses them, each with the
/// pairs of the edit, from 0 on, that a log of its own is made with: those that touch it, and
/// those that bring in a name. None where that would be the whole edit again.
pub fn wanted(touches: &[Touch], log: &Log) -> Vec<(Function, Vec<usize>)> {
    let mut touching: BTreeMap<&Function, Vec<usize>> = BTreeMap::new();
    for (pair, touch) in touches.iter().enumerate() {
        if let Touch::Code(functions) | Touch::Definition(functions) = touch {
            for function in functions {
                touching.entry(function).or_default().push(pair);
            }
        }
    }
    touching.retain(|function, pairs| log.waits(function, pairs.len()));
    let with_imports = touching.into_iter().map(|(function, touching)| {
        let is_for =
            |pair: &usize| touching.contains(pair) || matches!(touches[*pair], Touch::Import);
        let pairs = (0..touches.len()).filter(is_for).collect();
        (function.clone(), pairs)
    });
    with_imports
        .filter(|(_, pairs): &(_, Vec<usize>)| pairs.len() < touches.len())
        .collect()
}

impl Touch {
    /// The functions that are held to it. Of those whose contracts name a definition, some can
    /// be right by the changed one too.
    fn functions(&self, log: &Log) -> Vec<&Function> {
        match self {
            Touch::Code(functions) => functions.iter().collect(),
            Touch::Definition(functions) => functions
                .iter()
                .filter(|function| !log.refusal_of(function).is_empty())
                .collect(),
            Touch::Import => Vec::new(),
        }
    }

    /// Whether only laws could refuse it.
    fn is_of_laws(&self) -> bool {
        matches!(self, Touch::Definition(functions) if functions.is_empty())
    }
}

/// Functions that no edit changes, and why.
pub const EXCEPTED: [(&str, &str); 6] = [
    (
        "bound::spoken",
        "each of its lines stands in another function too, so that no edit can name it",
    ),
    ("smsc33::main", "it has no contract"),
    ("smsc33::run", "it has no contract"),
    ("smsc33::read_turn", "it has no contract"),
    ("smsc33::fail", "it has no contract"),
    ("smsc33::without_number", "it has no contract"),
];

/// The functions of which too few wrong answers were refused: two of a public one, one of any
/// other.
pub fn short(krate: &str, all: &[Declared], refused: &BTreeMap<Function, usize>) -> Vec<String> {
    let mut short = Vec::new();
    for Declared {
        function,
        is_public,
        ..
    } in all
    {
        let name = function.full_name(krate);
        let least = if *is_public { 2 } else { 1 };
        let have = refused.get(function).copied().unwrap_or(0);
        let is_excepted = EXCEPTED.iter().any(|(excepted, _)| *excepted == name);
        match (is_excepted, have < least) {
            (false, true) => {
                short.push(format!("{name}: {have} wrong answers refused, not {least}"))
            }
            (true, false) => short.push(format!("{name} is excepted and needn't be")),
            _ => (),
        }
    }
    short
}

/// What the prover said of one wrong program.
pub struct Log<'a> {
    pub krate: &'a str,
    pub text: &'a str,
    /// What it said of functions where nothing else of the program was wrong.
    pub own: BTreeMap<Function, String>,
}

/// What refuses a function.
#[derive(Debug, Default, PartialEq)]
pub struct Refusal {
    /// What was to be proved of it and doesn't hold, each by its name.
    pub facts: BTreeSet<String>,
    /// Errors that only say that the proof doesn't fit the changed code.
    pub misfits: Vec<String>,
}

impl Refusal {
    fn is_empty(&self) -> bool {
        self.facts.is_empty() && self.misfits.is_empty()
    }
}

impl Log<'_> {
    /// What refuses the function by itself, so no error that follows from another's refusal.
    pub fn refusal_of(&self, function: &Function) -> Refusal {
        let own = self.own.get(function).map(String::as_str);
        let mut refusal = Refusal::default();
        for text in [Some(self.text), own].into_iter().flatten() {
            let errors = errors_in(text).into_iter();
            for error in errors.filter(|e| function.has(e.file) && !e.follows()) {
                match error.fact() {
                    Some(goal) => refusal.facts.extend([goal.to_string()]),
                    None => refusal.misfits.push(error.message),
                }
            }
            let name = function.full_name(self.krate);
            refusal.facts.extend(left_open(text, &name));
        }
        refusal
    }

    /// Whether the law is refused by itself, and as a fact.
    fn refuses_law(&self, law: &str) -> bool {
        let errors = errors_in(self.text).into_iter();
        errors
            .filter(|error| !error.follows())
            .any(|error| error.fact() == Some(law))
    }

    /// Whether fewer facts than the edit's changes refuse the function, and others may be left
    /// that the prover tries only once another function or a lemma is proved.
    fn waits(&self, function: &Function, changes: usize) -> bool {
        let Refusal { facts, misfits } = self.refusal_of(function);
        let name = function.full_name(self.krate);
        let (quoted, verdict) = (format!("`{name}`"), format!("fn {name}: "));
        let waits_for_a_callee = lines(self.text).any(|line| {
            let untried = line.starts_with("note: `search` has not tried the goals of ");
            let calls = [", which is not proved", ", which are not proved"];
            let calls = calls.iter().any(|words| line.contains(words));
            untried && line.contains(&quoted)
                || facts.is_empty() && calls && line.starts_with(&verdict)
        });
        let waits_for_a_lemma = || {
            let errors = errors_in(self.text).into_iter();
            errors
                .filter(|error| function.has(error.file))
                .any(|error| error.follows())
        };
        let may_be_more = facts.len() < changes && misfits.is_empty();
        may_be_more && (waits_for_a_callee || waits_for_a_lemma())
    }
}

/// The lines of a log. What is said before a long check ends stands behind words of its own,
/// and is said again at the end.
fn lines(text: &str) -> impl Iterator<Item = &str> {
    text.lines()
        .map(|line| line.strip_prefix("so far: ").unwrap_or(line))
}

/// The goals of a function that have no answer, and that the prover's search leaves open. They
/// stand in the function's line and in the notes above it; where an answer is refused, in the
/// notes alone.
fn left_open(text: &str, name: &str) -> Vec<String> {
    let verdict = format!("fn {name}: ");
    let mut open: Vec<&str> = Vec::new();
    let mut noted = Vec::new();
    for line in lines(text) {
        if let Some(told) = line.strip_prefix(&verdict) {
            open.append(&mut noted);
            let goals = told.split_once("`search` did not prove ");
            let goals = goals.and_then(|(_, goals)| goals.split(';').next());
            open.extend(goals.unwrap_or("").split('`').skip(1).step_by(2));
        }
        let mut notes = ["note: ", "help: ", "  "].iter();
        if notes.any(|words| line.starts_with(words)) {
            noted.extend(noted_goal(line));
        } else {
            noted.clear();
        }
    }
    open.into_iter().map(str::to_string).collect()
}

/// The goal of the function below that a note says is not proved.
fn noted_goal(line: &str) -> Option<&str> {
    let (place, told) = line.split_once(": it is not proved that ")?;
    let (_, goal) = told.rsplit_once("(`")?;
    let (goal, _) = goal.split_once("`)")?;
    place.starts_with("note: src/").then_some(goal)
}

fn errors_in(text: &str) -> Vec<Error<'_>> {
    let mut errors: Vec<Error> = Vec::new();
    let mut goes_on = false;
    for line in lines(text) {
        if goes_on && line.starts_with("  ") {
            errors.last_mut().into_iter().for_each(|e| e.go_on(line));
            continue;
        }
        let error = Error::read(line);
        goes_on = error.is_some();
        errors.extend(error);
    }
    errors
}

/// An error of the prover: where it stands, in which declaration if in any, and what it says.
struct Error<'a> {
    file: &'a str,
    declaration: Option<&'a str>,
    message: String,
}

impl<'a> Error<'a> {
    /// The error that a line starts with. Notes and summaries name files too, but behind words
    /// of their own.
    fn read(line: &'a str) -> Option<Error<'a>> {
        let (place, message) = line.split_once(": error: ")?;
        let mut place = place.strip_prefix("./").unwrap_or(place).split(':');
        let file = place.next()?;
        let placed = place.all(|number| number.parse::<usize>().is_ok());
        let declaration = message
            .strip_prefix('`')
            .and_then(|said| said.split_once("`: "))
            .map(|(name, _)| name);
        placed.then(|| Error {
            file,
            declaration,
            message: message.to_string(),
        })
    }

    fn go_on(&mut self, line: &str) {
        self.message.push('\n');
        self.message.push_str(line);
    }

    /// Whether it only says that something else is refused.
    fn follows(&self) -> bool {
        let said = self.message.lines().next().unwrap_or("");
        let follows = ["was not admitted", "not checked: "];
        follows.iter().any(|words| said.contains(words))
    }

    /// The declaration whose fact it refuses: none where it says no more than that the proof
    /// was written for other code. An invariant is a statement, so an error there refuses no
    /// fact.
    fn fact(&self) -> Option<&'a str> {
        let is_misfit = self.file.ends_with("/Invariants.antt") || self.is_misfit();
        self.declaration.filter(|_| !is_misfit)
    }

    fn is_misfit(&self) -> bool {
        let said = self.message.replace(ONLY_SHOWN, "");
        let mut expected = said
            .split("expected type `")
            .skip(1)
            .flat_map(|types| types.split('`').next());
        MISFITS.iter().any(|words| said.contains(words))
            || expected.any(|wants| ANY_TEST.iter().any(|words| wants.contains(words)))
    }
}

/// What the prover says where a proof speaks of calls, tests or goals that the changed code
/// doesn't have.
const MISFITS: [&str; 4] = [
    "that can be named from here",
    "has no field `",
    "is not in scope",
    "the list settles argument",
];

/// What it says of a name in a type that it shows.
const ONLY_SHOWN: &str = "is not in scope here, so what is shown";

/// How the type of a test starts or ends that a proof asks for, of a call's result or of
/// whatever values, where the changed code tests in another way.
const ANY_TEST: [&str; 2] = [".result (?", " c) (?"];

#[cfg(test)]
mod tests {
    use super::*;

    const SOURCE: &str = "\
pub const MOST: u32 = 512;

impl Place {
    pub fn none() -> Place
        ensures { result ≡ none }
    {
        Place { at: 0 }
    }
}

// One that MOST does not bound.
fn first(s: &[u8]) -> u8
    ensures { result ≡ head s }
{
    s[0]
}

const ALMOST: u32 = 511;

pub fn pick<'a, T: Copy>(n: u32, s: &'a [T]) -> &'a [T] {
    if MOST < n { &s[1..] } else { s }
}

#[unsafe(no_mangle)]
pub extern \"C\" fn last(n: u32) -> bool
    requires Good { 0 < n }
    ensures head { result ≡ n == most }
{
    n == MOST - 1
}

fn declared_elsewhere(n: u32) -> bool;
";

    const SPEC: &str = "\
use lib.Dec.{eqb}

-- the first one
abbrev pub head : List ℕ → ℕ
head s = get_or s 0 0

pub record Good (r : List ℕ) : Type 0 where
  pub size : length r ≡ 4
";

    fn names(file: &str, old: &str) -> Result<Vec<String>, String> {
        let touched = touched(file, SOURCE, old)?;
        Ok(touched.iter().map(|f| f.full_name("wire")).collect())
    }

    fn function(path: &str) -> Function {
        Function(path.split("::").map(str::to_string).collect())
    }

    #[test]
    fn an_edit_keeps_leading_blanks_and_its_last_file() {
        let edit = "a comment\nfile: src/a.rt\nold:     x,\nnew:     y,\nold: z\nnew:\n";
        let change = |old: &str| Change {
            file: "src/a.rt".to_string(),
            old: old.to_string(),
        };
        assert_eq!(changes(edit).unwrap(), [change("    x,"), change("z")]);
    }

    #[test]
    fn a_broken_edit_is_no_empty_one() {
        assert!(changes("old: x\nnew: y\n").is_err());
        assert!(changes("file: a\nold: x\nold: y\nnew: z\n").is_err());
        assert!(changes("file: a\nnew: z\n").is_err());
        assert!(changes("file: a\nold: x\n").is_err());
        assert!(changes("file: a\n").is_err());
    }

    #[test]
    fn functions_with_a_body_are_declared_and_some_are_public() {
        let told: Vec<(String, bool)> = declared("src/a.rt", SOURCE)
            .iter()
            .map(|d| (d.function.full_name("wire"), d.is_public))
            .collect();
        let expected = [
            ("wire::a::Place::none", true),
            ("wire::a::first", false),
            ("wire::a::pick", true),
            ("wire::a::last", true),
        ];
        assert_eq!(
            told,
            expected.map(|(name, public)| (name.to_string(), public))
        );
    }

    #[test]
    fn a_change_touches_the_function_around_it() {
        let found = |file, old| names(file, old).unwrap().join(" ");
        assert_eq!(found("src/a.rt", "at: 0"), "wire::a::Place::none");
        assert_eq!(found("src/lib.rt", "≡ head s"), "wire::first");
        assert_eq!(found("src/main.rt", "&s[1..]"), "wire::pick");
        assert_eq!(found("src/a/b.rt", "fn last"), "wire::a::b::last");
    }

    #[test]
    fn a_constant_touches_its_users() {
        let users = ["wire::a::pick", "wire::a::last"];
        assert_eq!(names("src/a.rt", " MOST: u32 = 512").unwrap(), users);
    }

    #[test]
    fn a_change_that_touches_nothing_is_an_error() {
        assert!(names("src/a.rt", "ALMOST: u32").is_err());
        assert!(names("src/a.rt", "impl Place").is_err());
        assert!(names("src/a.rt", "does not bound").is_err());
        assert!(names("src/a.rt", "u32").unwrap_err().contains("5 times"));
        assert!(names("src/a.rt", "u64").unwrap_err().contains("0 times"));
    }

    #[test]
    fn an_impl_is_named_as_the_prover_names_it() {
        let name = |line| implementation(line).map(|head| (head.name, head.is_of_trait));
        let named = |name: &str, is_of_trait| Some((name.to_string(), is_of_trait));
        assert_eq!(name("impl Place {"), named("Place", false));
        assert_eq!(name("impl<'a> Fields<'a> {"), named("Fields", false));
        assert_eq!(name("impl<T> Handed<T> {"), named("Handed", false));
        let moved = "impl From<Handed<()>> for InverookMoved {";
        assert_eq!(name(moved), named("InverookMovedFromHandedUnit", true));
        let octet = "impl From<Refusal> for u8 {";
        assert_eq!(name(octet), named("U8FromRefusal", true));
        assert_eq!(name("fn implement() {"), None);
    }

    #[test]
    fn a_definition_is_found_around_its_text_and_cited_by_contracts() {
        let around = |old| definition_around(SPEC, old).unwrap();
        assert_eq!(around("get_or s 0 0").as_deref(), Some("head"));
        assert_eq!(around("length r ≡ 4").as_deref(), Some("Good"));
        assert_eq!(around("{eqb}"), None);
        let cited = |definition| -> Vec<String> {
            let all = declared("src/lib.rt", SOURCE).into_iter();
            all.filter(|d| d.cites(SOURCE, definition))
                .map(|d| d.function.full_name("wire"))
                .collect()
        };
        assert_eq!(cited("head"), ["wire::first"]);
        assert_eq!(cited("most"), ["wire::last"]);
        assert!(cited("Place").is_empty());
        assert!(cited("Good").is_empty());
    }

    const PROOF: &str = "./proofs/a/Place/none/Answers.antt";

    fn log(text: &str) -> Log<'_> {
        Log {
            krate: "wire",
            text,
            own: BTreeMap::new(),
        }
    }

    fn refusal(text: &str) -> Refusal {
        log(text).refusal_of(&function("a::Place::none"))
    }

    fn facts(text: &str) -> Vec<String> {
        let Refusal { facts, misfits } = refusal(text);
        assert!(misfits.is_empty());
        facts.into_iter().collect()
    }

    #[test]
    fn a_fact_is_an_error_of_the_own_proof() {
        let line = |said: &str| format!("other\n{PROOF}:12:3: {said}\n");
        let differ = line("error: `returns`: as printed, the two types differ");
        assert_eq!(facts(&differ), ["returns"]);
        assert_eq!(facts(&differ.replace("./", "so far: ./")), ["returns"]);
        let twice = line("error: `returns-2`: x") + &differ + &differ;
        assert_eq!(facts(&twice), ["returns", "returns-2"]);
        assert!(refusal(&line("note: `rw` rewrote the goal: error")).is_empty());
        assert!(refusal(&format!("note: said at {PROOF}:1:2: error: `x`: y")).is_empty());
        assert!(refusal(&differ.replace("Place/none", "Place/none2")).is_empty());
        assert!(refusal(&differ.replace("a/Place", "b/Place")).is_empty());
        assert!(refusal(&differ.replace("none/Answers", "Laws")).is_empty());
    }

    #[test]
    fn what_follows_from_another_refusal_is_no_error() {
        for why in ["rejected", "not admitted"] {
            let said = format!("1 declaration that depends on `laws`, which was {why}, was");
            let line = format!("{PROOF}:5:5: error: {said} not checked: returns\n");
            assert!(refusal(&line).is_empty());
        }
    }

    fn is_misfit(said: &str) -> bool {
        let Refusal { facts, misfits } = refusal(&format!("{PROOF}:7:5: error: {said}\n"));
        facts.is_empty() && misfits.len() == 1
    }

    #[test]
    fn a_module_without_the_name_is_a_misfit() {
        assert!(is_misfit(
            "module `Rattle.wire.specs` has no `Tie` that can be named from here"
        ));
        assert!(is_misfit(
            "`returns-then-gone`: `goal.returns-then-gone`: module `Rattle.wire.proofs.a.Goals` has no `returns-then-gone` that can be named from here (names in it that begin alike: `returns`)"
        ));
    }

    #[test]
    fn a_record_without_the_field_is_a_misfit() {
        assert!(is_misfit(
            "`returns`: record `Lts.After-is_none2` has no field `is_none` — the fields that can be named here are `args`"
        ));
        assert!(is_misfit(
            "`returns`: record `Lts.After-known`\n  has no field `before`"
        ));
    }

    #[test]
    fn an_equation_that_nothing_settles_is_a_misfit() {
        assert!(is_misfit(
            "`returns`: `rw`: neither the goal nor the list settles argument 1 of the 1 that this equation leaves open"
        ));
    }

    #[test]
    fn a_test_of_something_else_than_a_call_gave_is_a_misfit() {
        assert!(is_misfit(
            "`returns`: as printed, the two types first differ where one has `c` (expected)\n  expected type `mathlib.Core.Path.◌≡◌ c.is_none-x.result (?3 c)`\n  but this has type `lib.Dec.leb 5 c.args.x ≡ mathlib.Core.Bool.true`"
        ));
    }

    #[test]
    fn a_test_for_the_opposite_is_a_misfit() {
        assert!(is_misfit(
            "`returns-then-b`: expected type `Prim.Native.Nat.◌≤◌ (?0 c) (?1 c)`, but this has type `c.args.b ≡ mathlib.Core.Bool.true`"
        ));
    }

    #[test]
    fn an_error_in_the_whole_of_a_proof_is_a_misfit() {
        assert!(is_misfit(
            "this file was not checked, because antt could not settle which modules it needs"
        ));
    }

    #[test]
    fn an_error_in_an_invariant_is_a_misfit() {
        let said = format!("{PROOF}:6:2: error: `invariant-loop-i`: differ\n");
        let Refusal { facts, misfits } = refusal(&said.replace("Answers", "Invariants"));
        assert!(facts.is_empty() && misfits.len() == 1);
    }

    #[test]
    fn a_name_that_only_a_shown_type_has_makes_no_misfit() {
        let said = "error: `returns`: differ\n  (`m` is not in scope here, so what is shown does not paste back as it stands)";
        assert_eq!(facts(&format!("{PROOF}:6:2: {said}\n")), ["returns"]);
        let found = "error: `returns`: expected type `one ≡ two`, but this has type `leb (?0 c) (?1 c) ≡ true`";
        assert_eq!(facts(&format!("{PROOF}:6:2: {found}\n")), ["returns"]);
    }

    #[test]
    fn a_search_leaves_facts_open() {
        let line = |name: &str, why: &str| {
            format!("fn {name}: no proof: expected answers in {PROOF}; {why}\n")
        };
        let open =
            "`search` did not prove `returns`, `returns-2`; it calls `b`, which is not proved";
        let both = ["returns", "returns-2"];
        assert_eq!(facts(&line("wire::a::Place::none", open)), both);
        assert!(refusal(&line("wire::a::Place::nones", open)).is_empty());
        let calls = "it calls `b`, which is not proved";
        assert!(refusal(&line("wire::a::Place::none", calls)).is_empty());
    }

    #[test]
    fn beside_a_refused_answer_the_notes_tell_what_is_open() {
        let note = |goal: &str| {
            format!("note: src/a.rt:5:1: it is not proved that the sum fits (at `..=n`) (`{goal}`); the facts allow\n")
        };
        let other = note("x") + "fn wire::a::other: not proved\n";
        let told = note("returns") + "help: a bound\n" + &note("add-y");
        let told = other + &told + "fn wire::a::Place::none: not proved\n";
        assert_eq!(facts(&told), ["add-y", "returns"]);
    }

    fn error_of(path: &str, need: &str) -> String {
        format!("./proofs/{path}/Answers.antt:1:1: error: `{need}`: differ\n")
    }

    fn code(path: &str) -> Touch {
        Touch::Code(vec![function(path)])
    }

    #[test]
    fn as_many_wrong_answers_count_as_are_changed_and_as_facts_refuse() {
        let one = error_of("first", "returns");
        let two = one.clone() + &error_of("first", "returns-2");
        let counted = |touches: &[Touch], text: &str| {
            let Verdict { refused, faults } = verdict(touches, &[], &log(text));
            assert!(faults.is_empty());
            refused[&function("first")]
        };
        assert_eq!(counted(&[code("first"), code("first")], &two), 2);
        assert_eq!(counted(&[code("first"), code("first")], &one), 1);
        assert_eq!(counted(&[code("first")], &two), 1);
    }

    #[test]
    fn a_changed_function_without_a_fact_is_a_fault() {
        let text = error_of("first", "returns");
        let Verdict { refused, faults } = verdict(&[code("first"), code("last")], &[], &log(&text));
        assert_eq!(refused.len(), 1);
        assert_eq!(faults, ["wire::last: no fact"]);
    }

    #[test]
    fn a_fact_does_not_excuse_a_misfit() {
        let misfit = error_of("first", "returns-2").replace("differ", "has no field `x`");
        let text = error_of("first", "returns") + &misfit;
        let Verdict { refused, faults } = verdict(&[code("first")], &[], &log(&text));
        assert!(refused.is_empty());
        assert!(faults[0].starts_with("wire::first: a misfit"));
    }

    /// The functions that want a log of their own, and with which pairs.
    fn wanting(touches: &[Touch], text: &str) -> Vec<(String, Vec<usize>)> {
        let wanted = wanted(touches, &log(text)).into_iter();
        wanted
            .map(|(function, pairs)| (function.dotted_name(), pairs))
            .collect()
    }

    #[test]
    fn a_function_that_waits_wants_a_log_of_its_own() {
        let last = Touch::Code(vec![function("Place::last")]);
        let all = [code("first"), Touch::Import, last, code("first")];
        let own = |name: &str, pairs: &[usize]| vec![(name.to_string(), pairs.to_vec())];
        let line = "fn wire::Place::last: no proof: it calls `wire::first`, which is not proved\n";
        assert_eq!(wanting(&all, line), own("Place.last", &[1, 2]));
        assert!(wanting(&all, &(error_of("Place/last", "returns") + line)).is_empty());
        let misfit = error_of("Place/last", "returns").replace("differ", "has no field `x`");
        assert!(wanting(&all, &(misfit + line)).is_empty());
        let proved = "fn wire::Place::last: proved\n";
        assert!(wanting(&all, proved).is_empty());
        assert!(wanting(&all[1..3], line).is_empty());

        let untried = "note: `search` has not tried the goals of `wire::first`, which wait\n";
        let one = error_of("first", "returns") + untried;
        assert_eq!(wanting(&all, &one), own("first", &[0, 1, 3]));
        assert!(wanting(&all, &(one + &error_of("first", "returns-2"))).is_empty());
        let lemma = error_of("first", "x").replace(
            "`x`: differ",
            "1 declaration that depends on `law`, which was rejected, was not checked: returns",
        );
        assert_eq!(wanting(&all, &lemma), own("first", &[0, 1, 3]));
    }

    #[test]
    fn a_log_of_its_own_tells_what_refuses_a_function() {
        let text = error_of("first", "returns");
        let judged = |own: &str| {
            let own = BTreeMap::from([(function("last"), own.to_string())]);
            let log = Log { own, ..log(&text) };
            verdict(&[code("first"), code("last")], &[], &log)
        };
        let told = error_of("last", "returns") + &error_of("first", "loop-i");
        let Verdict { refused, faults } = judged(&told);
        assert_eq!(refused.len(), 2);
        assert!(faults.is_empty());
        assert_eq!(judged("fn wire::last: proved\n").faults.len(), 1);
        let misfit = told.replace("differ", "has no field `x`");
        assert!(judged(&misfit).faults[0].starts_with("wire::last: a misfit"));
    }

    #[test]
    fn a_changed_definition_counts_for_the_functions_that_it_refuses() {
        let text = error_of("first", "returns");
        let cited = Touch::Definition(vec![function("first"), function("last")]);
        let Verdict { refused, faults } = verdict(&[cited], &[], &log(&text));
        assert_eq!(refused, BTreeMap::from([(function("first"), 1)]));
        assert!(faults.is_empty());
        let accepted = Touch::Definition(vec![function("last")]);
        assert_eq!(verdict(&[accepted], &[], &log(&text)).faults.len(), 1);
    }

    #[test]
    fn a_definition_that_no_contract_names_is_refused_by_a_law_that_the_edit_names() {
        let faults = |edit: &str, text: &str| {
            let alone = [Touch::Definition(Vec::new())];
            verdict(&alone, &laws(edit), &log(text)).faults.len()
        };
        let law = "./proofs/Laws.antt:1:2: error: `x`: differ\n";
        assert_eq!(faults("# a comment\nlaw: x\n", law), 0);
        assert_eq!(faults("law: y\n", law), 1);
        assert_eq!(faults("# law: x\n", law), 1);
        let misfit = law.replace("differ", "has no field `y`");
        assert_eq!(faults("law: x\n", &misfit), 1);
        assert_eq!(faults("law: x\n", "fn wire::a::none: not proved\n"), 1);
    }

    #[test]
    fn a_public_function_needs_two_and_any_other_one() {
        let all = declared("src/lib.rt", SOURCE);
        let refused = BTreeMap::from([
            (function("Place::none"), 2),
            (function("first"), 1),
            (function("pick"), 1),
        ]);
        let told = short("wire", &all, &refused);
        assert_eq!(
            told,
            [
                "wire::pick: 1 wrong answers refused, not 2",
                "wire::last: 0 wrong answers refused, not 2"
            ]
        );
    }

    #[test]
    fn an_excepted_function_has_none() {
        let all = declared("src/main.rt", "fn main() {\n}\n\nfn other() {\n}\n");
        let told = short("smsc33", &all, &BTreeMap::new());
        assert_eq!(told, ["smsc33::other: 0 wrong answers refused, not 1"]);
        let both = BTreeMap::from([(function("main"), 1), (function("other"), 1)]);
        let told = short("smsc33", &all, &both);
        assert_eq!(told, ["smsc33::main is excepted and needn't be"]);
    }
}
