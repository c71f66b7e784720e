//! The functions and structs of include/trdp.h and of `raw` beside those that the library's source declares: each is brought
//! into one form, a list of C types, and the three are compared.

use std::collections::BTreeMap;
use std::fs;
use std::path::{Path, PathBuf};

/// By name: a function's return type and parameters, or a struct's fields with their types.
type Declared = BTreeMap<String, Vec<String>>;

fn repository() -> PathBuf {
    Path::new(env!("CARGO_MANIFEST_DIR")).join("..")
}

fn read(path: &str) -> String {
    let text = fs::read_to_string(repository().join(path)).expect(path);
    let without_comments = text.lines().map(|line| line.split("//").next().unwrap_or(""));
    without_comments.collect::<Vec<_>>().join("\n")
}

/// The text between an opening bracket, which `text` begins with, and the one that closes it; and what follows.
fn bracketed(text: &str) -> (&str, &str) {
    let mut depth = 0;
    for (at, c) in text.char_indices() {
        match c {
            '(' | '{' | '[' => depth += 1,
            ')' | '}' | ']' => depth -= 1,
            _ => continue,
        }
        if depth == 0 {
            return (&text[1..at], &text[at + 1..]);
        }
    }
    panic!("a bracket is not closed");
}

/// Cut at commas that no bracket holds.
fn items(text: &str) -> Vec<String> {
    let (mut depth, mut cut) = (0, vec![String::new()]);
    for c in text.chars() {
        match c {
            '(' | '{' | '[' => depth += 1,
            ')' | '}' | ']' => depth -= 1,
            ',' if depth == 0 => {
                cut.push(String::new());
                continue;
            }
            _ => {}
        }
        cut.last_mut().expect("never empty").push(c);
    }
    let trimmed = cut.iter().map(|item| item.split_whitespace().collect::<Vec<_>>().join(" "));
    trimmed.filter(|item| !item.is_empty()).collect()
}

/// A number's type, or a struct's name with its prefix, as C has it.
fn plain(name: &str) -> String {
    match name {
        "bool" => "bool".into(),
        "usize" => "size_t".into(),
        "i32" => "int32_t".into(),
        "u8" | "u16" | "u32" | "u64" => format!("uint{}_t", &name[1..]),
        _ => {
            let mut snake = String::from("trdp");
            for c in name.chars() {
                if c.is_ascii_uppercase() {
                    snake.push('_');
                }
                snake.push(c.to_ascii_lowercase());
            }
            snake
        }
    }
}

/// An array's length: a number, or a constant of the crate `packed`, which names the sizes of what is lent.
fn number(count: &str) -> String {
    if count.bytes().all(|octet| octet.is_ascii_digit()) {
        return count.into();
    }
    let constant = format!("pub const {count}: usize = ");
    let text = read("crates/packed/src/lib.rt");
    let from = text.find(&constant).expect("a constant") + constant.len();
    text[from..].split(';').next().expect("a number").into()
}

/// What a parameter or field of Rattle or Rust is in C: a slice is a pointer and a length, an array that is lent a pointer.
fn in_c(rust: &str) -> Vec<String> {
    for (reference, constant) in [("&mut ", ""), ("*mut ", ""), ("*const ", "const "), ("&", "const ")] {
        let Some(lent) = rust.strip_prefix(reference) else { continue };
        let Some(inner) = lent.strip_prefix('[') else { return vec![format!("{constant}{}*", plain(lent))] };
        let element = inner.split([';', ']']).next().expect("an element").trim();
        let pointer = format!("{constant}{}*", plain(element));
        return if inner.contains(';') { vec![pointer] } else { vec![pointer, "size_t".into()] };
    }
    match rust.strip_prefix('[').and_then(|array| array.strip_suffix(']')).and_then(|array| array.split_once("; ")) {
        Some((element, count)) => vec![format!("{}[{}]", plain(element), number(count))],
        None => vec![plain(rust)],
    }
}

/// The functions `fn trdp_..` of a text in Rattle or Rust.
fn functions(text: &str) -> Declared {
    let mut declared = Declared::new();
    for after in text.split("fn trdp_").skip(1) {
        let (name, rest) = after.split_at(after.find('(').expect("parameters"));
        let (parameters, rest) = bracketed(rest);
        let result = rest.trim_start().strip_prefix("->").expect("a result").trim_start();
        let result = result.split(|c: char| !c.is_alphanumeric()).next().expect("a type");
        let parameters = items(parameters).into_iter().flat_map(|item| in_c(item.split_once(": ").expect("a type").1));
        declared.insert(format!("trdp_{name}"), in_c(result).into_iter().chain(parameters).collect());
    }
    declared
}

/// The structs with `#[repr(C)]` of a text in Rattle or Rust.
fn structs(text: &str) -> Declared {
    let mut declared = Declared::new();
    for after in text.split("#[repr(C)]").skip(1) {
        let mut after = after.trim_start();
        while let Some(attribute) = after.strip_prefix('#') {
            after = bracketed(attribute).1.trim_start();
        }
        let (name, rest) = after.strip_prefix("pub struct ").expect("a struct").split_once(' ').expect("fields");
        let field = |item: String| {
            let (name, of) = item.strip_prefix("pub ").expect("public").split_once(": ").expect("a type");
            format!("{} {name}", in_c(of).concat())
        };
        declared.insert(plain(name), items(bracketed(rest).0).into_iter().map(field).collect());
    }
    declared
}

/// The header without comments and preprocessor lines.
fn header() -> String {
    let mut text = fs::read_to_string(repository().join("include/trdp.h")).expect("the header");
    while let Some(from) = text.find("/*") {
        let to = from + text[from..].find("*/").expect("a comment's end") + 2;
        text.replace_range(from..to, " ");
    }
    text.lines().filter(|line| !line.starts_with('#')).collect::<Vec<_>>().join("\n")
}

/// A C declaration cut into type and name: `const uint8_t *store` is `const uint8_t*` and `store`, `uint8_t id[16]` is `uint8_t[16]` and `id`.
fn cut(declaration: &str) -> (String, String) {
    let name_at = declaration.rfind([' ', '*']).map_or(0, |at| at + 1);
    let (of, name) = (declaration[..name_at].replace(" *", "*"), &declaration[name_at..]);
    match name.find('[') {
        Some(at) => (format!("{}{}", of.trim(), &name[at..]), name[..at].to_string()),
        None => (of.trim().to_string(), name.to_string()),
    }
}

fn header_functions(header: &str) -> Declared {
    let mut declared = Declared::new();
    for statement in header.split(';') {
        let Some(open) = statement.find("(") else { continue };
        let (result, name) = cut(&items(&statement[..open]).join(" "));
        let result = result.rsplit(['}', '{']).next().expect("a type").trim().to_string();
        let parameters = items(bracketed(&statement[open..]).0).into_iter().filter(|item| item != "void");
        declared.insert(name, [result].into_iter().chain(parameters.map(|item| cut(&item).0)).collect());
    }
    declared
}

fn header_structs(header: &str) -> Declared {
    let mut declared = Declared::new();
    for after in header.split("typedef struct ").skip(1) {
        let (name, rest) = after.split_once(' ').expect("fields");
        let fields = bracketed(rest).0.split(';').map(|field| field.split_whitespace().collect::<Vec<_>>().join(" "));
        let fields = fields.filter(|field| !field.is_empty()).map(|field| {
            let (of, name) = cut(&field);
            format!("{of} {name}")
        });
        declared.insert(name.to_string(), fields.collect());
    }
    declared
}

/// The source of the library and of the crates that its structs stand in.
fn sources() -> String {
    let crates = [
        "telegram",
        "pd",
        "md",
        "address",
        "timing",
        "topography",
        "arrival",
        "statistics",
        "publication",
        "subscription",
        "boundary",
        "trdp",
    ];
    crates.map(|name| read(&format!("crates/{name}/src/lib.rt"))).join("\n")
}

#[test]
fn functions_as_in_the_source() {
    let source = functions(&read("crates/trdp/src/lib.rt"));
    assert!(!source.is_empty());
    assert_eq!(header_functions(&header()), source, "include/trdp.h");
    assert_eq!(functions(&read("host/src/raw.rs")), source, "host/src/raw.rs");
}

#[test]
fn structs_as_in_the_source() {
    let source = structs(&sources());
    assert!(!source.is_empty());
    assert_eq!(header_structs(&header()), source, "include/trdp.h");
    assert_eq!(structs(&read("host/src/raw.rs")), source, "host/src/raw.rs");
}
