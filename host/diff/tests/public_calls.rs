//! Every public call of the Rattle crates has its place in `crates/no_three/specs/NoThree.antt`: a field of its name, which cites the definitions that its
//! contract cites, or its name in the list of those that tell no answer by a number. So the theorem that no call gives number 3 stays one about all of them.
//! An export of `crates/ffi_c` is the call of its name in `crates/ffi`: it has the same parameters and contract, and calls that and nothing else.
use std::collections::{BTreeMap, BTreeSet};
use std::fs;
use std::path::{Path, PathBuf};

fn root() -> PathBuf {
    Path::new(env!("CARGO_MANIFEST_DIR")).join("../..")
}

/// The Rattle files below a folder.
fn sources(folder: &Path) -> Vec<PathBuf> {
    let inside = fs::read_dir(folder).into_iter().flatten().map(|f| f.unwrap().path());
    inside.flat_map(|f| if f.is_dir() { sources(&f) } else { vec![f] }).filter(|f| f.extension().is_some_and(|e| e == "rt")).collect()
}

fn words(text: &str) -> BTreeSet<&str> {
    text.split(|c: char| !(c.is_alphanumeric() || "_'".contains(c))).filter(|w| !w.is_empty()).collect()
}

/// A public function of a file, one of a type by its name too (`receive`, `Pool::new`).
struct Public<'a> {
    call: String,
    is_export: bool,
    /// Its parameters, its answer and its contract.
    stated: String,
    body: String,
    /// The definitions of specs/ that its contract cites.
    cited: BTreeSet<&'a str>,
}

/// The text as one line, with no space where a line may be broken.
fn in_one_line(text: &str) -> String {
    let words: Vec<&str> = text.split_whitespace().collect();
    words.join(" ").replace("( ", "(").replace(", )", ")").replace(",)", ")")
}

fn public(text: &str) -> Vec<Public<'_>> {
    let imported = text.lines().filter(|l| l.starts_with("ghost use ") && l.contains("specs.") && !l.contains(".declared.") && !l.contains(" Rattle.std."));
    let definitions: BTreeSet<&str> = imported.flat_map(|l| words(l.split_once('{').unwrap().1)).collect();
    let lines: Vec<&str> = text.lines().collect();
    let mut of = String::new();
    let mut in_trait = false;
    let mut found = vec![];
    for (at, line) in lines.iter().enumerate() {
        if let Some(name) = line.strip_prefix("impl ") {
            of = name.trim_end_matches(['{', ' ']).to_string() + "::";
        } else if let Some(name) = line.strip_prefix("pub trait ") {
            of = name.split([':', '<', ' ']).next().unwrap().to_string() + "::";
            in_trait = true;
        } else if *line == "}" {
            of.clear();
            in_trait = false;
        }
        let head = line.trim_start();
        // a method of a public trait is a public call too; it has no body here, and its contract ends the item
        if let (true, Some(rest)) = (in_trait, head.strip_prefix("fn ")) {
            let last = lines[at..].iter().position(|l| l.trim_end().ends_with(';')).unwrap();
            let contract = lines[at..=at + last].join("\n");
            let said = words(contract.split_once("ensures").map_or("", |c| c.1));
            found.push(Public {
                call: of.clone() + rest.split(['(', '<']).next().unwrap(),
                is_export: false,
                stated: in_one_line(contract.split_once("fn ").unwrap().1),
                body: String::new(),
                cited: definitions.iter().copied().filter(|d| said.contains(d)).collect(),
            });
        }
        let exported = head.strip_prefix("pub extern \"C\" fn ");
        if let Some(rest) = head.strip_prefix("pub fn ").or(exported) {
            // its body opens on a line of its own, and ends on one
            let whole: Vec<&str> = lines[at..].iter().take_while(|l| l.trim() != "{").copied().collect();
            let contract = whole.join("\n");
            let end = line[..line.len() - head.len()].to_string() + "}";
            let body: Vec<&str> = lines[at + whole.len()..].iter().skip(1).take_while(|l| **l != end).copied().collect();
            let said = words(contract.split_once("ensures").map_or("", |c| c.1));
            found.push(Public {
                call: of.clone() + rest.split(['(', '<']).next().unwrap(),
                is_export: exported.is_some(),
                stated: in_one_line(contract.split_once("fn ").unwrap().1),
                body: in_one_line(&body.join("\n")),
                cited: definitions.iter().copied().filter(|d| said.contains(d)).collect(),
            });
        }
    }
    found
}

/// `Pool::new` as the name of a field: `pool_new`.
fn field_name(call: &str) -> String {
    let mut name = String::new();
    for c in call.replace("::", "_").chars() {
        if c.is_ascii_uppercase() && !name.is_empty() {
            name.push('_');
        }
        name.push(c.to_ascii_lowercase());
    }
    name
}

#[test]
fn every_public_call_is_in_the_theorem() {
    const THEOREM: &str = "crates/no_three/specs/NoThree.antt";
    let theorem = fs::read_to_string(root().join(THEOREM)).unwrap();
    let (_, record) = theorem.split_once("pub record NoThree : Type 0 where\n").expect("the record");
    let fields: BTreeMap<&str, &str> = record.split("\n  pub ").flat_map(|f| f.trim_start().strip_prefix("pub ").unwrap_or(f).split_once(" : ")).collect();
    let listed: BTreeSet<&str> = record.lines().filter(|l| l.starts_with("-- ")).flat_map(|l| l.split('`').skip(1).step_by(2)).collect();

    let mut calls = BTreeSet::new();
    let (mut entries, mut exports) = (BTreeMap::new(), BTreeMap::new());
    for krate in fs::read_dir(root().join("crates")).unwrap().map(|k| k.unwrap().path()).filter(|k| !k.join("src/main.rt").exists()) {
        for file in sources(&krate.join("src")) {
            for Public { call, is_export, stated, body, cited } in public(&fs::read_to_string(&file).unwrap()) {
                let module = file.file_stem().unwrap().to_str().unwrap().to_string();
                if is_export {
                    assert!(krate.ends_with("ffi_c"), "{call} of {} is an export", file.display());
                    exports.insert(call, (stated, module, body));
                    continue;
                }
                assert!(!krate.ends_with("ffi_c"), "{call} of {} is no export", file.display());
                if krate.ends_with("ffi") {
                    entries.insert(call.clone(), (stated, module));
                }
                let field = field_name(&call);
                assert!(calls.insert(call.clone()), "{call} of {}: two public calls have one name here", file.display());
                match (fields.get(field.as_str()), listed.contains(call.as_str())) {
                    (Some(said), false) => {
                        let said = words(said);
                        let missing: Vec<_> = cited.iter().filter(|name| !said.contains(*name)).collect();
                        assert!(missing.is_empty() && !cited.is_empty(), "{call}: its contract cites {cited:?}, and the field {field} of {THEOREM} does not cite {missing:?}");
                    }
                    (None, true) => {}
                    _ => panic!("{call}: a public call has one place in {THEOREM}, as the field {field} or in the list"),
                }
            }
        }
    }
    assert!(entries.keys().eq(exports.keys()), "crates/ffi has {:?}, and crates/ffi_c exports {:?}", entries.keys(), exports.keys());
    for (call, (stated, module)) in &entries {
        let (exported, exporting, body) = &exports[call];
        assert!(exported == stated, "crates/ffi has {stated}\ncrates/ffi_c has {exported}");
        let names: Vec<&str> = stated.split_once('(').unwrap().1.split_once(')').unwrap().0.split(", ").map(|one| one.split(':').next().unwrap()).collect();
        let its_call = format!("ffi::{module}::{call}({})", names.join(", "));
        assert!(exporting == module && body.trim_end_matches(';') == its_call, "{call} of crates/ffi_c is {exporting}: {body}\nand not {module}: {its_call}");
    }
    let named: BTreeSet<String> = calls.iter().map(|c| field_name(c)).collect();
    for field in fields.keys() {
        assert!(named.contains(*field), "{THEOREM} has a field {field}, and there is no such public call");
    }
    for call in &listed {
        assert!(calls.contains(*call), "{THEOREM} lists {call}, and there is no such public call");
    }
    println!("\nthe theorem that no call gives 3: {} public calls, {} of them by a field", calls.len(), fields.len());
}
