//! The declarations of the entries agree: the Rattle source, hingefrost.h, and the two blocks of host/port, in names, order of parameters, types and
//! lengths of arrays. Each is read into the Rattle form, `name(pgns: &[u32], heads: &mut [u64; 64]) -> u32`, and the forms are compared.
use std::collections::BTreeMap;
use std::fs;
use std::path::{Path, PathBuf};

fn root() -> PathBuf {
    Path::new(env!("CARGO_MANIFEST_DIR")).join("../..")
}

fn read(path: &str) -> String {
    fs::read_to_string(root().join(path)).unwrap_or_else(|e| panic!("{path}: {e}"))
}

/// The text without comments.
fn code(text: &str) -> String {
    let lines: String = text.lines().map(|l| l.split("//").next().unwrap().to_string() + "\n").collect();
    let mut out = String::new();
    let mut rest = lines.as_str();
    while let Some((before, comment)) = rest.split_once("/*") {
        out += before;
        rest = comment.split_once("*/").expect("a comment ends").1;
    }
    out + rest
}

/// Constants by name, in all crates that have one of that name, and the value of a number, a name or a product of them.
#[derive(Default)]
struct Constants(BTreeMap<String, Vec<String>>);

impl Constants {
    fn add(&mut self, name: &str, value: &str) {
        self.0.entry(name.trim().into()).or_default().push(value.trim().trim_matches(|c| c == '(' || c == ')').into());
    }
    /// `const NAME: TYPE = VALUE;`
    fn add_rust(&mut self, text: &str) {
        for (_, rest) in text.match_indices("const ").map(|(at, word)| (at, &text[at + word.len()..])) {
            if let Some((name, value)) = rest.split_once(';').and_then(|(one, _)| one.split_once('=')) {
                self.add(name.split(':').next().unwrap(), value);
            }
        }
    }
    fn value(&self, text: &str) -> usize {
        text.split('*').map(str::trim).map(|word| word.parse().unwrap_or_else(|_| self.named(word))).product()
    }
    fn named(&self, word: &str) -> usize {
        let values: Vec<usize> = self.0.get(word).unwrap_or_else(|| panic!("what is {word}?")).iter().map(|v| self.value(v)).collect();
        assert!(values.iter().all(|v| *v == values[0]), "{word} is {values:?}");
        values[0]
    }
}

/// What stands between the bracket that is open and the one that closes it, and what follows.
fn bracketed(text: &str) -> (&str, &str) {
    let mut open = 1;
    for (at, c) in text.char_indices() {
        open += (c == '(') as i32 - (c == ')') as i32;
        if open == 0 {
            return (&text[..at], &text[at + 1..]);
        }
    }
    panic!("no end of {text}")
}

/// A slice in two parameters is one in the Rattle form.
fn in_one_form(name: &str, parameters: Vec<(String, String)>, answer: &str) -> String {
    let mut said = vec![];
    let mut rest = parameters.iter().peekable();
    while let Some((name, kind)) = rest.next() {
        let pointed = kind.strip_prefix("*const ").map(|t| ("&", t)).or(kind.strip_prefix("*mut ").map(|t| ("&mut ", t)));
        said.push(match pointed {
            Some((lent, t)) if rest.peek().is_some_and(|(n, k)| *n == format!("{name}_len") && k == "usize") => {
                rest.next();
                format!("{name}: {lent}[{t}]")
            }
            Some((lent, t)) => format!("{name}: {lent}{t}"),
            None => format!("{name}: {kind}"),
        });
    }
    format!("{name}({}){}", said.join(", "), if answer.is_empty() { String::new() } else { format!(" -> {answer}") })
}

/// `fn NAME(..) -> TYPE` after each `before`, of Rattle or Rust.
fn functions(text: &str, before: &[&str], constants: &Constants) -> Vec<String> {
    let mut found = vec![];
    for word in before {
        for (at, _) in text.match_indices(word) {
            let rest = &text[at + word.len()..];
            let Some((name, rest)) = rest.split_once('(').filter(|(name, _)| name.starts_with("hf_")) else { continue };
            let (inside, after) = bracketed(rest);
            let mut parameters = vec![];
            for one in inside.split(',').map(str::trim).filter(|one| !one.is_empty()) {
                let (name, kind) = one.split_once(':').unwrap_or_else(|| panic!("{one}"));
                // the length of an array is a number in the form that is compared
                let kind = match kind.split_once(';') {
                    Some((element, length)) => format!("{}; {}]", element.trim(), constants.value(length.trim().trim_end_matches(']'))),
                    None => kind.trim().into(),
                };
                parameters.push((name.trim().to_string(), kind));
            }
            let answer = after.trim_start().strip_prefix("->").map_or("", |a| a.trim_start().split([' ', '\n', ';', '{']).next().unwrap());
            found.push(in_one_form(name, parameters, answer));
        }
    }
    found.sort();
    found
}

fn c_type(text: &str) -> String {
    match text {
        "size_t" => "usize".into(),
        "bool" => "bool".into(),
        "void" => String::new(),
        _ => text.strip_prefix("uint").and_then(|n| n.strip_suffix("_t")).map_or_else(|| panic!("what is {text}?"), |n| format!("u{n}")),
    }
}

/// The header's declarations, but for the inline functions: `TYPE hf_..(..);` outside of braces.
fn in_c(text: &str, constants: &Constants) -> Vec<String> {
    let mut outside = String::new();
    let mut open = 0u32;
    for c in text.replace("extern \"C\" {", "").chars() {
        match c {
            '{' => open += 1,
            '}' if open <= 1 => {
                open = 0;
                outside.push(';');
            }
            '}' => open -= 1,
            _ if open == 0 => outside.push(c),
            _ => {}
        }
    }
    let mut found = vec![];
    for declaration in outside.split(';').map(str::trim).filter(|d| d.ends_with(')') && !d.starts_with("static ")) {
        let (head, rest) = declaration.split_once('(').unwrap();
        let (answer, name) = head.rsplit_once(' ').unwrap_or_else(|| panic!("{declaration}"));
        let mut parameters = vec![];
        for one in bracketed(rest).0.split(',') {
            let words: Vec<&str> = one.split_whitespace().collect();
            let constant = words[0] == "const";
            let [kind, name] = words[constant as usize..] else { panic!("{one}") };
            let lent = if constant { "" } else { "mut " };
            parameters.push(if let Some((name, length)) = name.split_once('[') {
                (name.into(), format!("&{lent}[{}; {}]", c_type(kind), constants.value(length.trim_end_matches(']'))))
            } else if let Some(name) = name.strip_prefix('*') {
                (name.to_string(), format!("*{} {}", if constant { "const" } else { "mut" }, c_type(kind)))
            } else {
                (name.into(), c_type(kind))
            });
        }
        found.push(in_one_form(name, parameters, &c_type(answer)));
    }
    found.sort();
    found
}

#[test]
fn the_declarations_agree() {
    let mut rattle_constants = Constants::default();
    let mut rattle = vec![];
    for krate in fs::read_dir(root().join("crates")).unwrap().map(|k| k.unwrap().path()) {
        for file in fs::read_dir(krate.join("src")).into_iter().flatten().map(|f| f.unwrap().path()).filter(|f| f.extension().is_some_and(|e| e == "rt")) {
            let text = code(&fs::read_to_string(file).unwrap());
            rattle_constants.add_rust(&text);
            if krate.ends_with("ffi_c") {
                rattle.push(text);
            }
        }
    }
    let rattle = functions(&rattle.concat(), &["pub extern \"C\" fn "], &rattle_constants);

    let header = code(&read("host/hingefrost.h"));
    let mut c_constants = Constants::default();
    for line in header.lines().filter_map(|l| l.strip_prefix("#define ")) {
        if let Some((name, value)) = line.split_once(' ') {
            c_constants.add(name, value);
        }
    }
    let declared: String = header.lines().filter(|l| !l.starts_with('#')).map(|l| l.to_string() + "\n").collect();
    let c = in_c(&declared, &c_constants);

    let mut rust_constants = Constants::default();
    for file in ["raw", "fast_packet"] {
        rust_constants.add_rust(&code(&read(&format!("host/port/src/{file}.rs"))));
    }
    let of_port = |file: &str, words: &[&str]| functions(&code(&read(file)), words, &rust_constants);
    let linked = of_port("host/port/src/entries.rs", &["pub safe fn ", "pub unsafe fn "]);
    let piped = of_port("host/port/src/piped.rs", &["pub fn ", "pub unsafe fn "]);

    for (place, found) in [("host/hingefrost.h", &c), ("host/port/src/entries.rs", &linked), ("host/port/src/piped.rs", &piped)] {
        for one in &rattle {
            let there = found.iter().find(|f| f.split('(').next() == one.split('(').next()).map_or("nothing of that name", |f| f);
            assert!(found.contains(one), "crates/ffi_c has {one}\n{place} has {there}");
        }
        for one in found {
            assert!(rattle.contains(one), "{place} declares {one}, which crates/ffi_c does not");
        }
        assert_eq!(found.len(), rattle.len(), "{place} declares an entry twice");
    }
    println!("\nthe declarations of the entries, in Rattle, C and Rust: {} entries alike", rattle.len());
}
