//! What has to be believed: the definitions that the page of promises rests on, and how long they are.
//!
//!     believed CRATES          holds the list at the head of the page to what is found, and the limits
//!     believed CRATES list     prints the list
//!
//! A definition rests on every name in its text that its file defines or imports, and so on from there. A name that the page lists as a
//! contract is not followed: the code is proved to meet it. It has to stand in a function's source. Lines are counted without imports,
//! comments and blanks. A name that is bound in a definition hides one of the file; where that is not seen, a definition too many is counted.

use std::collections::{BTreeMap, BTreeSet, HashMap};
use std::fs;
use std::path::{Path, PathBuf};
use std::process::exit;

const PAGE: &str = "promises/specs/Demands.antt";
// Under 250 for the base, and what the requests add: 28 for the last pick, 26 for taking back addresses, 19 for the listed ones,
// 74 for the module's end, 47 for choosing apart from sending, 53 for what the PEC catches.
const PAGE_LINES: usize = 250 + 28 + 26 + 19 + 74 + 47 + 53;
// 600 for the base, and what the requests add: 30 for the kinds of a wrong symbol, 36 for the last pick, 90 for taking
// back addresses, 55 for the listed ones, of which 25 are the rows of the table, 198 for the module's end, 97 for choosing
// apart from sending, 49 for what the PEC catches.
const BELIEVED_LINES: usize = 600 + 30 + 36 + 90 + 55 + 198 + 97 + 49;
const WIDTH: usize = 230;

/// A crate and a file of its specs.
type Place = (String, String);

#[derive(Default)]
struct File {
    /// Imported names: the place (or the path of a declared type) and the name there.
    imports: HashMap<String, (Origin, String)>,
    aliases: HashMap<String, Origin>,
    definitions: HashMap<String, Vec<String>>,
    /// Constructors of the data types that the file defines.
    constructors: HashMap<String, String>,
}

#[derive(Clone)]
enum Origin {
    Specs(Place),
    Type(String, String),
}

/// `Rattle.NAME.specs.FILE` or `Rattle.NAME.proofs.FILE`, where NAME is a crate of the repository and none of the kit's; the types of src/
/// are under `specs.declared`.
fn origin(path: &str, order: &[String]) -> Option<Origin> {
    let (name, rest) = path.strip_prefix("Rattle.")?.split_once('.')?;
    let name = order.iter().find(|known| *known == name)?.clone();
    if let Some(declared) = rest.strip_prefix("specs.declared.") {
        let declared = declared.strip_suffix(".TheVariants").unwrap_or(declared);
        let last = declared.rsplit('.').next()?;
        return Some(Origin::Type(name, last.to_string()));
    }
    let file = rest.strip_prefix("specs.").or_else(|| rest.strip_prefix("proofs."))?;
    Some(Origin::Specs((name, file.to_string())))
}

fn code(line: &str) -> &str {
    line.find("--").map_or(line, |at| &line[..at])
}

/// The name that a line at the margin begins to define, and whether it is a data type.
fn defined(line: &str) -> Option<(String, bool)> {
    let mut rest = line;
    while let Some(next) = ["abbrev ", "unfoldable ", "pub "].iter().find_map(|w| rest.strip_prefix(w)) {
        rest = next;
    }
    for (word, data) in [("record ", false), ("data ", true)] {
        if let Some(rest) = rest.strip_prefix(word) {
            return rest.split_whitespace().next().map(|n| (n.to_string(), data));
        }
    }
    let (name, mut after) = rest.split_once(' ')?;
    if after.starts_with('{') {
        after = after.split_once('}')?.1.trim_start();
    }
    after.starts_with(": ").then(|| (name.to_string(), false))
}

fn read_file(path: &Path, order: &[String]) -> File {
    let text = fs::read_to_string(path).unwrap_or_else(|e| fail(&format!("{}: {e}", path.display())));
    let mut file = File::default();
    let mut current: Option<(String, bool)> = None;
    for line in text.lines() {
        let used = line.strip_prefix("pub ").unwrap_or(line);
        if let Some(path) = used.strip_prefix("use ") {
            import(&mut file, path, order);
            continue;
        }
        if code(line).trim().is_empty() {
            continue;
        }
        if !line.starts_with(' ') {
            if let Some(found) = defined(line) {
                current = Some(found);
            }
        }
        if let Some((name, data)) = &current {
            let lines = file.definitions.entry(name.clone()).or_default();
            lines.push(code(line).to_string());
            if *data && lines.len() > 1 {
                if let Some((constructor, _)) = line.trim().split_once(" :") {
                    if line.starts_with("  ") && !line.starts_with("   ") {
                        file.constructors.insert(constructor.to_string(), name.clone());
                    }
                }
            }
        }
    }
    file
}

fn import(file: &mut File, path: &str, order: &[String]) {
    if let Some((path, alias)) = path.split_once(" as ").filter(|(p, _)| !p.contains('{')) {
        if let Some(from) = origin(path, order) {
            file.aliases.insert(alias.trim().to_string(), from);
        }
        return;
    }
    let Some((path, names)) = path.split_once(".{") else { return };
    let Some(from) = origin(path, order) else { return };
    for name in names.trim_end_matches('}').split(',') {
        let (there, here) = name.split_once(" as ").unwrap_or((name, name));
        file.imports.insert(here.trim().to_string(), (from.clone(), there.trim().to_string()));
    }
}

/// The names that a definition binds: in `(a b : T)`, after `λ`, and the fields of a record.
fn bound(lines: &[String]) -> BTreeSet<String> {
    let mut names = BTreeSet::new();
    let text = lines.join("\n");
    for part in text.split(['(', '{']).skip(1) {
        if let Some((binders, _)) = part.split_once(" :") {
            if !binders.contains([')', '}', '≡', '→', '(']) {
                names.extend(binders.split_whitespace().map(String::from));
            }
        }
    }
    for part in text.split('λ').skip(1) {
        if let Some((binders, _)) = part.split_once('.') {
            if !binders.contains(['(', '\n']) {
                names.extend(binders.split_whitespace().map(String::from));
            }
        }
    }
    for line in &lines[1..] {
        let field = line.trim().strip_prefix("pub ").unwrap_or(line.trim());
        if let Some((name, _)) = field.split_once(" : ") {
            if !name.contains(' ') {
                names.insert(name.to_string());
            }
        }
    }
    names
}

struct Search {
    crates: PathBuf,
    /// The names of the crates, in their order.
    order: Vec<String>,
    files: HashMap<Place, File>,
    contracts: BTreeSet<String>,
    met: BTreeSet<String>,
    /// What was found: by crate and file, each definition with its lines.
    found: BTreeMap<Place, BTreeMap<String, usize>>,
}

impl Search {
    fn file(&mut self, place: &Place) {
        if !self.files.contains_key(place) {
            let of = |folder| self.crates.join(&place.0).join(folder).join(format!("{}.antt", place.1));
            let path = Some(of("specs")).filter(|path| path.exists()).unwrap_or_else(|| of("proofs"));
            let file = read_file(&path, &self.order);
            self.files.insert(place.clone(), file);
        }
    }

    fn follow(&mut self, from: Origin, name: &str) {
        match from {
            Origin::Type(of, last) => self.declared(of, last),
            Origin::Specs(place) => self.visit(place, name),
        }
    }

    fn visit(&mut self, place: Place, name: &str) {
        self.file(&place);
        let file = &self.files[&place];
        if let Some(data) = file.constructors.get(name).filter(|d| *d != name).cloned() {
            return self.visit(place, &data);
        }
        let Some(lines) = file.definitions.get(name).cloned() else {
            match file.imports.get(name).cloned() {
                Some((from, there)) => return self.follow(from, &there),
                None => fail(&format!("{}/{}: no {name}", place.0, place.1)),
            }
        };
        if self.contracts.contains(name) {
            self.met.insert(name.to_string());
            return;
        }
        if self.found.entry(place.clone()).or_default().insert(name.to_string(), lines.len()).is_some() {
            return;
        }
        for (from, there) in self.cited(&place, name, &lines) {
            self.follow(from, &there);
        }
    }

    /// The names in a definition that are defined or imported.
    fn cited(&self, place: &Place, name: &str, lines: &[String]) -> Vec<(Origin, String)> {
        let file = &self.files[place];
        let hidden = bound(lines);
        let mut cited = Vec::new();
        for word in lines.iter().flat_map(|l| l.split(|c: char| c.is_whitespace() || "(){}[],;".contains(c))) {
            if word.is_empty() || word.starts_with('.') {
                continue;
            }
            let (first, rest) = word.split_once('.').unwrap_or((word, ""));
            if let (Some(from), false) = (file.aliases.get(first), rest.is_empty()) {
                cited.push((from.clone(), rest.split('.').next().unwrap_or(rest).to_string()));
            } else if hidden.contains(first) || first == name {
                continue;
            } else if let Some((from, there)) = file.imports.get(first) {
                cited.push((from.clone(), there.clone()));
            } else if file.definitions.contains_key(first) || file.constructors.contains_key(first) {
                cited.push((Origin::Specs(place.clone()), first.to_string()));
            }
        }
        cited
    }

    /// A struct or an enum of src/.
    fn declared(&mut self, of: String, name: String) {
        let mut sources = Vec::new();
        walk(&self.crates.join(&of).join("src"), &mut sources);
        let lines = sources.iter().find_map(|s| item(s, &name)).unwrap_or_else(|| fail(&format!("{of}/src: no type {name}")));
        self.found.entry((of, "src".to_string())).or_default().insert(name, lines);
    }
}

fn walk(folder: &Path, sources: &mut Vec<String>) {
    let mut entries: Vec<_> = fs::read_dir(folder).unwrap_or_else(|e| fail(&format!("{}: {e}", folder.display()))).flatten().map(|e| e.path()).collect();
    entries.sort();
    for path in entries {
        if path.is_dir() {
            walk(&path, sources);
        } else if path.extension().is_some_and(|e| e == "rt") {
            sources.push(fs::read_to_string(&path).unwrap_or_default());
        }
    }
}

/// The lines of a struct or enum, without comments.
fn item(source: &str, name: &str) -> Option<usize> {
    let lines: Vec<&str> = source.lines().collect();
    let at = lines.iter().position(|l| {
        let l = l.strip_prefix("pub ").unwrap_or(l);
        ["struct ", "enum "].iter().any(|w| {
            l.strip_prefix(w).and_then(|r| r.strip_prefix(name)).is_some_and(|r| r.starts_with([' ', '(', ';', '{']))
        })
    })?;
    if lines[at].ends_with([';', '}']) {
        return Some(1);
    }
    let end = at + lines[at..].iter().position(|l| *l == "}")?;
    Some(lines[at..=end].iter().filter(|l| !l.trim().is_empty() && !l.trim().starts_with("//")).count())
}

/// The list, as it stands on the page: file by file in the order of the crates, each definition with its lines, cut at the width.
fn list(found: &BTreeMap<Place, BTreeMap<String, usize>>, order: &[String]) -> Vec<String> {
    let mut words = Vec::new();
    for of in order {
        for ((_, file), definitions) in found.iter().filter(|((c, _), _)| c == of) {
            let first = words.len();
            words.extend(definitions.iter().map(|(name, lines)| format!("{name} {lines},")));
            words[first].insert_str(0, &format!("{of}/{file}: "));
            let last = words.len() - 1;
            words[last] = words[last].replace(',', ";");
        }
    }
    let mut out = Vec::new();
    let mut line = "--".to_string();
    for word in words {
        if line.chars().count() + 1 + word.chars().count() > WIDTH {
            out.push(line);
            line = "--".to_string();
        }
        line.push(' ');
        line.push_str(&word);
    }
    out.push(line.trim_end_matches(';').to_string() + ".");
    out
}

/// The crates in their order: crates.txt beside the folder.
fn order(crates: &Path) -> Vec<String> {
    let path = crates.join("../crates.txt");
    let text = fs::read_to_string(&path).unwrap_or_else(|e| fail(&format!("{}: {e}", path.display())));
    let words = text.lines().filter(|l| !l.starts_with('#')).filter_map(|l| l.split_once(':'));
    // A static library has the word staticlib after its name.
    words.filter_map(|(words, _)| words.split_whitespace().next()).map(String::from).collect()
}

fn fail(why: &str) -> ! {
    eprintln!("believed: {why}");
    exit(1)
}

fn main() {
    let arguments: Vec<String> = std::env::args().collect();
    let crates = PathBuf::from(arguments.get(1).unwrap_or_else(|| fail("which folder of crates?")));
    let page = fs::read_to_string(crates.join(PAGE)).unwrap_or_else(|e| fail(&format!("{PAGE}: {e}")));
    let lines: Vec<&str> = page.lines().collect();
    let contracts = lines.iter().find_map(|l| l.strip_prefix("-- CONTRACTS: ")).unwrap_or_else(|| fail("the page lists no CONTRACTS"));
    let place: Place = ("promises".to_string(), "Demands".to_string());
    let mut search = Search {
        crates: crates.clone(),
        order: order(&crates),
        files: HashMap::new(),
        contracts: contracts.trim_end_matches('.').split(", ").map(String::from).collect(),
        met: BTreeSet::new(),
        found: BTreeMap::new(),
    };
    search.file(&place);
    let statements: Vec<String> = search.files[&place].definitions.keys().cloned().collect();
    for name in &statements {
        search.visit(place.clone(), name);
    }
    search.found.remove(&place);
    let total: usize = search.found.values().flat_map(|d| d.values()).sum();
    let due = list(&search.found, &search.order);
    if arguments.get(2).is_some_and(|a| a == "list") {
        println!("-- BELIEVED: {total} lines");
        due.iter().for_each(|l| println!("{l}"));
        return;
    }
    check(&crates, &lines, &search, total, &due);
    println!("believed: {} statements on {} lines, resting on {} definitions of {total} lines", statements.len(), lines.len(), search.found.values().map(|d| d.len()).sum::<usize>());
}

fn check(crates: &Path, lines: &[&str], search: &Search, total: usize, due: &[String]) {
    if let Some(name) = search.contracts.iter().find(|c| !search.met.contains(*c)) {
        fail(&format!("the page lists the contract {name} and does not cite it"));
    }
    let mut sources = Vec::new();
    for entry in fs::read_dir(crates).unwrap_or_else(|e| fail(&e.to_string())).flatten() {
        let folder = entry.path().join("src");
        if folder.is_dir() {
            walk(&folder, &mut sources);
        }
    }
    let clauses: Vec<&str> = sources.iter().flat_map(|s| s.lines()).filter(|l| !l.trim().starts_with("//") && !l.trim().starts_with("ghost use")).collect();
    for name in &search.contracts {
        let cites = |l: &&str| l.split(|c: char| !c.is_alphanumeric() && !"_-'".contains(c)).any(|w| w == name);
        if !clauses.iter().any(cites) {
            fail(&format!("{name} stands in no contract of src/"));
        }
    }
    let at = lines.iter().position(|l| l.starts_with("-- BELIEVED: ")).unwrap_or_else(|| fail("the page has no list of what is BELIEVED"));
    if !lines[at].starts_with(&format!("-- BELIEVED: {total} lines")) {
        fail(&format!("the definitions have {total} lines, and the page says: {}", lines[at]));
    }
    for (k, line) in due.iter().enumerate() {
        if lines.get(at + 1 + k) != Some(&line.as_str()) {
            fail(&format!("the page's list differs: line {} should be\n{line}", at + 2 + k));
        }
    }
    if lines[at + 1 + due.len()].starts_with("--") {
        fail(&format!("the page's list has a line too many: {}", at + 2 + due.len()));
    }
    if lines.len() >= PAGE_LINES {
        fail(&format!("the page has {} lines; under {PAGE_LINES} are allowed", lines.len()));
    }
    if total > BELIEVED_LINES {
        fail(&format!("{total} lines have to be believed; {BELIEVED_LINES} are allowed"));
    }
}
