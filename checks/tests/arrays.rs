//! A merge keeps no table of rows in an array of its own (Item 5 of document 02). No contract can say so,
//! since a contract speaks of what a function leaves; the text of the code can: none of the functions
//! that a merge runs, once its tests are passed, has an array, a `Vec` or a `Box`. A table of rows in lent memory would be
//! written there, and that the contracts forbid.

use std::collections::{BTreeMap, BTreeSet};
use std::fs;
use std::path::Path;

/// A function by its crate and its name.
type Name = (String, String);

#[derive(Default)]
struct Code {
    /// The text of each function, from its name on, without comments and contracts.
    functions: BTreeMap<Name, String>,
    /// In each crate, the crates from which names are taken.
    imports: BTreeMap<Name, String>,
    /// The structs with an array in them.
    structs: BTreeSet<String>,
}

/// The code of every crate.
fn code() -> Code {
    let crates = Path::new(env!("CARGO_MANIFEST_DIR")).join("../crates");
    let mut code = Code::default();
    for folder in fs::read_dir(crates).expect("the crates") {
        let folder = folder.expect("a crate");
        let name = folder.file_name().into_string().expect("a crate's name");
        let Ok(files) = fs::read_dir(folder.path().join("src")) else { continue };
        for file in files {
            let text = fs::read_to_string(file.expect("a file").path()).expect("its text");
            code.read(&name, &text);
        }
    }
    code
}

impl Code {
    fn read(&mut self, of: &str, text: &str) {
        let (mut current, mut inside) = (None, None);
        // An import, up to its end, and how many brackets of a clause are open.
        let (mut import, mut clause) = (String::new(), 0);
        for line in text.lines() {
            let line = line.split("//").next().unwrap_or("");
            let words = line.trim_start();
            let is_clause = ["requires", "ensures"].iter().any(|word| words.starts_with(word));
            if clause > 0 || is_clause {
                clause += line.matches('{').count();
                clause -= line.matches('}').count();
            } else if !import.is_empty() || line.trim_start_matches("pub ").starts_with("use ") {
                import += words;
                if line.ends_with(';') {
                    self.take(of, import.trim_start_matches("pub ").trim_end_matches(';'));
                    import.clear();
                }
            } else if let Some((_, head)) = line.split_once("fn ").filter(|_| words == line) {
                let name = head.split(['(', '<']).next().expect("a name");
                current = Some((of.to_string(), name.to_string()));
                self.functions.insert((of.to_string(), name.to_string()), head.to_string());
            } else if let Some(name) =
                line.strip_suffix(" {").filter(|line| line.contains("struct "))
            {
                inside = Some(last_word(name).to_string());
            } else if line == "}" {
                (current, inside) = (None, None);
            } else if inside.is_some() {
                self.structs.extend(inside.clone().filter(|_| has_array(line)));
            } else if let Some(text) =
                current.as_ref().and_then(|name| self.functions.get_mut(name))
            {
                *text += line;
            }
        }
    }

    /// The names of an import: `use a::b`, `use a::{b, c::d}`.
    fn take(&mut self, of: &str, import: &str) {
        let path = import.strip_prefix("use ").expect("an import");
        let (from, names) = path.split_once("::").expect("a path");
        for name in names.split(['{', '}', ',']).map(last_word).filter(|name| !name.is_empty()) {
            self.imports.insert((of.to_string(), name.to_string()), from.to_string());
        }
    }

    /// The functions that one runs, itself among them.
    fn run_by(&self, of: &str, name: &str) -> BTreeSet<Name> {
        let mut found = BTreeSet::new();
        let mut next = vec![(of.to_string(), name.to_string())];
        while let Some(name) = next.pop() {
            let Some(text) = self.functions.get(&name) else { continue };
            if !found.insert(name.clone()) {
                continue;
            }
            for called in text.split('(').map(last_word).filter(|word| !word.is_empty()) {
                let here = (name.0.clone(), called.to_string());
                next.push(match self.imports.get(&here) {
                    Some(from) => (from.clone(), called.to_string()),
                    None => here,
                });
            }
        }
        found
    }

    /// Those of some functions that have an array, by itself or in a struct.
    fn with_arrays(&self, names: &BTreeSet<Name>) -> Vec<String> {
        let found = |name: &&Name| {
            let text = &self.functions[name];
            let mut words = text.split(|letter: char| !is_part(letter));
            has_array(text) || words.any(|word| self.structs.contains(word))
        };
        names.iter().filter(found).map(|name| name.1.clone()).collect()
    }
}

/// Whether a text has the type of an array, `[u32; 64]`, the value of one, `[0; 64]` or `[0, 1]`, or memory
/// of its own in another way, a `Vec` or a `Box`.
fn has_array(text: &str) -> bool {
    let mut inside = text.split('[').skip(1).filter_map(|text| text.split(']').next());
    let mut words = text.split(|letter: char| !is_part(letter));
    inside.any(|text| text.contains([';', ','])) || words.any(|word| ["Vec", "Box"].contains(&word))
}

fn is_part(letter: char) -> bool {
    letter.is_alphanumeric() || letter == '_'
}

fn last_word(text: &str) -> &str {
    text.rsplit(|letter: char| !is_part(letter)).next().unwrap_or("")
}

#[test]
fn a_merge_has_no_array() {
    let code = code();
    let run = code.run_by("merging", "merge");
    for (of, name) in [
        ("merging", "apply_one"),
        ("merging", "put_page"),
        ("merging", "replace_page"),
        ("regions", "copy_in"),
        ("loops", "copy"),
        ("words", "put"),
    ] {
        assert!(run.contains(&(of.to_string(), name.to_string())), "{name} is not reached");
    }
    assert_eq!(code.with_arrays(&run), Vec::<String>::new());
}

/// A release has the counts of merges of the open scans, in a table that it is handed and in an array that it
/// hands on: the search is not blind.
#[test]
fn the_arrays_of_a_release_are_found() {
    let code = code();
    assert_eq!(code.with_arrays(&code.run_by("merging", "release")), ["least", "release"]);
}
