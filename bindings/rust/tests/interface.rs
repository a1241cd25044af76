//! The header and the Rust declarations have the fields of crates/union_c and the parameters of crates/union_ffi_c: the
//! same names and types, in the same order. A compiler sees no difference between two parameters of one type.

use std::collections::BTreeMap;
use std::fs;
use std::path::{Path, PathBuf};

/// The names and types of a struct's fields, or of a function's parameters and of what it answers.
type Declared = BTreeMap<String, Vec<(String, String)>>;

fn path(inside: &str) -> PathBuf {
    Path::new(env!("CARGO_MANIFEST_DIR")).join("../..").join(inside)
}

/// A file without the lines of comments.
fn text(inside: &str) -> String {
    let text = fs::read_to_string(path(inside)).unwrap();
    text.lines().filter(|line| !line.trim_start().starts_with("//")).flat_map(|line| [line, "\n"]).collect()
}

/// The header without comments; `defined` is what `#define` lines give, with their continuations.
fn header() -> (String, BTreeMap<String, String>) {
    let whole = fs::read_to_string(path("bindings/union.h")).unwrap().replace("\\\n", " ");
    let code: String = whole.split("/*").map(|part| part.split_once("*/").map_or(part, |(_, after)| after)).collect();
    let define = |line: &str| {
        let (name, value) = line.strip_prefix("#define ")?.split_once(' ')?;
        Some((name.to_string(), value.trim().to_string()))
    };
    let defined = code.lines().filter_map(define).collect();
    (code.lines().filter(|line| !line.starts_with('#')).flat_map(|line| [line, "\n"]).collect(), defined)
}

/// A type by its name in the crate: `CColumn` of union_c is `Column`.
fn rust_type(name: &str) -> String {
    let name = name.trim().replace("MAX_COLUMNS", "128").replace("NAME_BYTES", "32");
    match name.strip_prefix("[C").or(name.strip_prefix('C')) {
        Some(rest) if rest.starts_with(char::is_uppercase) => name.replacen('C', "", 1),
        _ => name,
    }
}

/// A type of C by its name in the crate: `union_column` is `Column`.
fn c_type(name: &str) -> String {
    match (name, name.strip_prefix("union_")) {
        ("size_t", _) => "usize".to_string(),
        (_, Some(name)) => name.split('_').map(|word| word[..1].to_uppercase() + &word[1..]).collect(),
        _ => name.replace("uint", "u").replace("int", "i").replace("_t", ""),
    }
}

/// `name: type` of each part between commas.
fn named(list: &str) -> Vec<(String, String)> {
    let parts = list.split(',').map(str::trim).filter(|part| !part.is_empty());
    let part = |part: &str| part.split_once(':').map(|(name, kind)| (name.to_string(), kind.trim().to_string()));
    parts.map(|text| part(text).unwrap_or_else(|| panic!("{text}"))).collect()
}

/// The structs of a file of Rattle or Rust that are laid out as C's.
fn structs(inside: &str) -> Declared {
    let text = text(inside);
    let declared = |piece: &str| {
        let (name, rest) = piece.split_once("struct ").unwrap().1.split_once(" {").unwrap();
        let fields = named(&rest[..rest.find('}').unwrap()].replace("pub ", ""));
        (rust_type(name), fields.into_iter().map(|(name, kind)| (name, rust_type(&kind))).collect())
    };
    text.split("#[repr(C)]").skip(1).map(declared).collect()
}

/// A field or a parameter of C, as `const uint64_t *values`, by its name and its type in the crate.
fn of_c(text: &str, sizes: &BTreeMap<String, String>) -> (String, String) {
    let (kind, name) = text.trim().rsplit_once([' ', '*']).unwrap();
    let pointer = text.contains('*');
    let (access, kind) = match kind.trim_end_matches([' ', '*']).strip_prefix("const ") {
        Some(kind) => ("*const ", c_type(kind)),
        None => ("*mut ", c_type(kind.trim_end_matches([' ', '*']))),
    };
    match name.split_once('[') {
        Some((name, size)) => (name.to_string(), format!("[{kind}; {}]", sizes[size.trim_end_matches(']')])),
        None => (name.to_string(), if pointer { format!("{access}{kind}") } else { kind }),
    }
}

fn header_structs() -> Declared {
    let (code, defined) = header();
    let declared = |piece: &str| {
        let (fields, name) = piece.split_once('}').unwrap();
        let fields = fields.split(';').map(str::trim).filter(|field| !field.is_empty());
        (c_type(name[..name.find(';').unwrap()].trim()), fields.map(|field| of_c(field, &defined)).collect())
    };
    code.split("typedef struct {").skip(1).map(declared).collect()
}

fn header_functions() -> Declared {
    let (code, defined) = header();
    let declared = |statement: &str| {
        let (head, list) = statement.trim().strip_suffix(')')?.split_once('(')?;
        let (answer, name) = head.rsplit_once(char::is_whitespace)?;
        let list =
            list.replace("UNION_LENT_MUT", &defined["UNION_LENT_MUT"]).replace("UNION_LENT", &defined["UNION_LENT"]);
        let mut parts: Vec<_> = list.split(',').map(|part| of_c(part, &defined)).collect();
        parts.push(("answer".to_string(), c_type(answer.rsplit(char::is_whitespace).next()?)));
        Some((name.to_string(), parts))
    };
    code.split(';').filter_map(declared).collect()
}

/// A parameter of Rattle: a slice is a pointer and a length.
fn parameter((name, kind): (String, String)) -> Vec<(String, String)> {
    let (access, slice) = match kind.strip_prefix("&mut [") {
        Some(slice) => ("*mut ", Some(slice)),
        None => ("*const ", kind.strip_prefix("&[")),
    };
    match slice {
        Some(slice) => {
            vec![(name.clone(), access.to_string() + slice.trim_end_matches(']')), (name + "_len", "usize".to_string())]
        }
        None => vec![(name, rust_type(&kind))],
    }
}

/// The functions that crates/union_ffi_c exports.
fn exported() -> Declared {
    let files = fs::read_dir(path("crates/union_ffi_c/src")).unwrap().map(|file| file.unwrap().file_name());
    let mut all = Declared::new();
    for file in files {
        let text = text(&format!("crates/union_ffi_c/src/{}", file.to_str().unwrap()));
        for piece in text.split("#[unsafe(no_mangle)]\npub extern \"C\" fn ").skip(1) {
            let (name, rest) = piece.split_once('(').unwrap();
            let (list, rest) = rest.split_once(')').unwrap();
            let mut parts: Vec<_> = named(list).into_iter().flat_map(parameter).collect();
            let answer = rest.lines().next().unwrap().trim().strip_prefix("-> ").unwrap();
            parts.push(("answer".to_string(), rust_type(answer)));
            all.insert(name.to_string(), parts);
        }
    }
    all
}

/// The functions that src/ffi.rs declares: those of `functions!`, and the one that is lent nothing.
fn declared() -> Declared {
    let text = text("bindings/rust/src/ffi.rs");
    let between = |from: &str, to: &str| text.split_once(from).unwrap().1.split_once(to).unwrap().0;
    let lent = between("$($argument: $type,)*", "$(, $out");
    let mut rest = between("functions! {\n", "\n}\n").to_string();
    rest += between("unsafe extern \"C\" {\n", "\n}\n");
    let mut all = Declared::new();
    while let Some((head, tail)) = rest.split_once('(') {
        let (access, name) = head.trim().split_once(' ').unwrap();
        let (list, tail) = tail.split_once(')').unwrap();
        let (answer, tail) = tail.split_once(';').unwrap();
        let mut groups = list.split(';').map(str::trim);
        let mut parts: Vec<_> = named(groups.next().unwrap());
        if groups.next().is_some() {
            parts.extend(named(&lent.replace("$access", access)));
        }
        for (out, kind) in groups.flat_map(named) {
            parts.push((out.clone(), format!("*mut {kind}")));
            parts.push((out + "_len", "usize".to_string()));
        }
        parts.push(("answer".to_string(), answer.trim().strip_prefix("-> ").unwrap().to_string()));
        all.insert(name.to_string(), parts);
        rest = tail.to_string();
    }
    all
}

/// The places of a list, and the size of its struct at the end.
fn placed(list: impl Iterator<Item = (String, String)>, size: &str) -> Vec<(String, String)> {
    list.chain([("size".to_string(), size.to_string())]).collect()
}

/// The sizes and places that bindings/places.c asserts of the header.
fn header_places() -> Declared {
    let text = fs::read_to_string(path("bindings/places.c")).unwrap();
    let field = |line: &str| {
        let list = line.strip_prefix("FIELD(")?.strip_suffix(");")?;
        let parts: Vec<_> = list.split(", ").collect();
        Some((parts[1].to_string(), parts[3].to_string()))
    };
    let declared = |piece: &str| {
        let (name, size) = piece.split_once(");").unwrap().0.split_once(", ").unwrap();
        (c_type(name), placed(piece.lines().filter_map(field), size))
    };
    text.split("\nSIZE(").skip(1).map(declared).collect()
}

/// Those that src/ffi.rs asserts of the crate's structs.
fn places() -> Declared {
    let text = text("bindings/rust/src/ffi.rs");
    let list = text.split_once("\nplaces! {\n").unwrap().1.split_once("\n}\n").unwrap().0;
    let pair = |words: &str| words.trim().split_once(' ').map(|(a, b)| (a.to_string(), b.to_string())).unwrap();
    let declared = |piece: &str| {
        let (head, fields) = piece.split_once(':').unwrap();
        let (name, size) = pair(head);
        (name, placed(fields.split(',').map(pair), &size))
    };
    list.split(';').filter(|piece| !piece.trim().is_empty()).map(declared).collect()
}

fn same(what: &str, ours: &Declared, theirs: &Declared) {
    assert_eq!(ours.keys().collect::<Vec<_>>(), theirs.keys().collect::<Vec<_>>(), "{what}");
    for (name, parts) in ours {
        assert_eq!(parts, &theirs[name], "{what}: {name}");
    }
}

#[test]
fn structs_have_the_fields_of_union_c() {
    let exported = structs("crates/union_c/src/lib.rt");
    assert_eq!(exported.len(), 17);
    same("bindings/union.h", &header_structs(), &exported);
    same("bindings/rust/src/ffi.rs", &structs("bindings/rust/src/ffi.rs"), &exported);
}

#[test]
fn functions_have_the_parameters_of_union_ffi() {
    let exported = exported();
    assert_eq!(exported.len(), 23);
    same("bindings/union.h", &header_functions(), &exported);
    same("bindings/rust/src/ffi.rs", &declared(), &exported);
}

#[test]
fn places_are_asserted_of_every_field() {
    let places = places();
    same("bindings/places.c", &header_places(), &places);
    for (name, fields) in structs("crates/union_c/src/lib.rt") {
        let fields: Vec<_> = fields.iter().map(|(field, _)| field.as_str()).chain(["size"]).collect();
        assert_eq!(places[&name].iter().map(|(field, _)| field.as_str()).collect::<Vec<_>>(), fields, "{name}");
    }
}
