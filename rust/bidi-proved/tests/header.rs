//! src/ffi.rs declares what c/bidi.h does: each call, struct and number of it is in the header, word by word.
use std::collections::BTreeMap;
use std::fs;
use std::path::Path;

/// The numbers of enums, with the file that declares them and the prefix of their names in the header.
const ENUMS: [(&str, &str, &str); 6] = [
    ("numbers.rs", "Direction", "BIDI_"),
    ("numbers.rs", "Bracket", "BIDI_"),
    ("error.rs", "FaultKind", "BIDI_FAULT_"),
    ("judge.rs", "Wrong", "BIDI_WRONG_"),
    ("judge.rs", "Cause", "BIDI_CAUSE_"),
    ("numbers.rs", "Class", ""),
];

fn read(name: &str) -> String {
    fs::read_to_string(Path::new(env!("CARGO_MANIFEST_DIR")).join(name)).unwrap()
}

/// The header in one line, without comments.
fn header() -> String {
    let text = read("../../c/bidi.h");
    let mut parts = text.split("/*");
    let first = parts.next().unwrap().to_string();
    let code = parts.fold(first, |code, part| code + part.split_once("*/").unwrap().1);
    code.split_whitespace().collect::<Vec<_>>().join(" ")
}

fn ffi() -> String {
    read("src/ffi.rs").split_whitespace().collect::<Vec<_>>().join(" ")
}

/// The type of Rust that stands for a type of C.
fn type_of(c: &str) -> String {
    let (constant, c) = c.trim().strip_prefix("const ").map_or((false, c.trim()), |rest| (true, rest));
    let (pointer, name) = c.strip_suffix('*').map_or((false, c), |rest| (true, rest.trim()));
    let name = match name {
        "uint8_t" => "u8",
        "uint16_t" => "u16",
        "uint32_t" => "u32",
        "uint64_t" => "u64",
        "size_t" => "usize",
        other => other,
    };
    match (pointer, constant) {
        (true, true) => format!("*const {name}"),
        (true, false) => format!("*mut {name}"),
        (false, _) => name.to_string(),
    }
}

/// `TYPE NAME` of C as `NAME: TYPE` of Rust.
fn declared(c: &str) -> String {
    let at = c.trim().rfind([' ', '*']).unwrap() + 1;
    let (kind, name) = c.trim().split_at(at);
    format!("{name}: {}", type_of(kind))
}

/// The calls of the header, by their names, as Rust declares them.
fn calls() -> BTreeMap<String, String> {
    let header = header();
    let prototypes = header.split(';').filter(|part| part.trim().ends_with(')') && part.contains(" bidi_"));
    let call = |part: &str| {
        let (head, words) = part.trim().trim_end_matches(')').split_once('(').unwrap();
        let mut heads = head.split(' ').rev();
        let (name, kind) = (heads.next().unwrap(), heads.next().unwrap());
        let words = words.split(',').map(declared).collect::<Vec<_>>().join(", ");
        let result = if kind == "void" { String::new() } else { format!(" -> {}", type_of(kind)) };
        (name.to_string(), format!("pub fn {name}({words}){result};"))
    };
    prototypes.map(call).collect()
}

#[test]
fn calls_are_those_of_the_header() {
    let calls = calls();
    let ffi = ffi().replace("( ", "(").replace(", )", ")");
    let mut count = 0;
    for part in ffi.split("pub fn ").skip(1) {
        let name = part.split('(').next().unwrap();
        let line = format!("pub fn {}", &part[..=part.find(';').unwrap()]);
        assert_eq!(calls.get(name), Some(&line));
        count += 1;
    }
    assert!(count > 30, "{count} calls");
}

#[test]
fn structs_are_those_of_the_header() {
    let (header, ffi) = (header(), ffi());
    let mut count = 0;
    for part in header.split("typedef struct { ").skip(1) {
        let (body, rest) = part.split_once(" } ").unwrap();
        let name = rest.split(';').next().unwrap();
        let mut fields = String::new();
        for item in body.split(';').map(str::trim).filter(|item| !item.is_empty()) {
            let (kind, names) = item.split_once(' ').unwrap();
            fields.extend(names.split(',').map(|name| format!(" pub {}: {},", name.trim(), type_of(kind))));
        }
        if body.contains("void *at") {
            assert_eq!(body, "void *at; bool made;");
            assert!(ffi.contains("struct $name { at: *mut c_void, made: bool, }"));
            assert!(ffi.split("handles! {").nth(1).unwrap().split('}').next().unwrap().contains(name));
        } else if ffi.contains(&format!("pub struct {name} {{")) {
            assert!(
                ffi.contains(&format!("#[repr(C)] #[derive(Clone, Copy, Default)] pub struct {name} {{{fields} }}"))
            );
        } else {
            continue; // only calls that this crate doesn't make take it
        }
        count += 1;
    }
    assert_eq!(count, 12);
}

#[test]
fn numbers_are_those_of_the_header() {
    let header = header();
    for part in ffi().split("pub const BIDI_").skip(1) {
        let (name, rest) = part.split_once(": ").unwrap();
        let number = rest.split_once("= ").unwrap().1.split(';').next().unwrap().replace("usize::MAX", "SIZE_MAX");
        let (equals, defines) = (format!("BIDI_{name} = {number}"), format!("#define BIDI_{name} {number} "));
        let found = header.split(&equals).skip(1).any(|rest| rest.starts_with([',', ' ']));
        assert!(found || header.contains(&defines), "BIDI_{name}");
    }
}

/// The variants of an enum of this crate, with their numbers.
fn variants(file: &str, name: &str) -> Vec<(String, String)> {
    let source = read(&format!("src/{file}"));
    let body = source.split(&format!(" {name}: u")).nth(1).unwrap().split("\n    }").next().unwrap();
    let pairs = body.lines().filter_map(|line| line.trim().trim_end_matches(',').split_once(" = "));
    pairs.map(|(variant, number)| (variant.to_string(), number.to_string())).collect()
}

/// `AutoRtl` as `AUTO_RTL`.
fn in_capitals(variant: &str) -> String {
    let spaced = |(at, c): (usize, char)| if at > 0 && c.is_uppercase() { format!("_{c}") } else { c.to_string() };
    variant.char_indices().map(spaced).collect::<String>().to_uppercase()
}

#[test]
fn enums_are_those_of_the_header() {
    let header = header();
    for (file, name, prefix) in ENUMS {
        let variants = variants(file, name);
        assert!(variants.len() > 1, "{name}");
        for (variant, number) in &variants {
            let equals = format!("{prefix}{} = {number}", in_capitals(variant));
            let found = header.split(&equals).skip(1).any(|rest| rest.starts_with([',', ' ']));
            assert!(found || prefix.is_empty(), "{name}::{variant}");
        }
    }
    let classes: Vec<String> = variants("numbers.rs", "Class").into_iter().map(|(variant, _)| variant).collect();
    assert!(read("../../c/bidi.h").contains(&classes.join(" ")));
}
