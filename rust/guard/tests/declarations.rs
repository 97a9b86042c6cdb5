//! The declarations of src/archive.rs fit the exported functions of crates/exports, its constants those of crates/decode, and its struct
//! that of crates/model.
//! Names of parameters are compared too: of two runs of one type, only the name tells which comes first.

use std::fs;
use std::path::Path;

/// How the name of the function begins that ends with the boundary's number.
const BOUNDARY: &str = "guard_boundary_";

/// A function's name, its parameters as name and type, and the type that it returns.
#[derive(Clone, Debug, PartialEq, Eq)]
struct Signature {
    name: String,
    parameters: Vec<(String, String)>,
    returns: String,
}

fn read(below_root: &str) -> String {
    let path = Path::new(env!("CARGO_MANIFEST_DIR")).join("../..").join(below_root);
    fs::read_to_string(&path).unwrap_or_else(|error| panic!("{}: {error}", path.display()))
}

fn without_comments(source: &str) -> String {
    source.lines().map(|line| line.split("//").next().unwrap_or("")).collect::<Vec<_>>().join("\n")
}

/// The signatures that follow each place of `opening` in a source, by name.
fn signatures(source: &str, opening: &str) -> Vec<Signature> {
    let source = without_comments(source);
    let mut signatures: Vec<_> = source.split(opening).skip(1).map(signature).collect();
    signatures.sort_by(|one, other| one.name.cmp(&other.name));
    signatures
}

/// The signature that a text begins with: `name(a: T, b: U) -> V` and whatever follows.
fn signature(text: &str) -> Signature {
    let (name, rest) = text.split_once('(').expect("a name and its parameters");
    let (parameters, rest) = rest.split_once(')').expect("the end of the parameters");
    let returns = match rest.trim_start().strip_prefix("->") {
        Some(returns) => returns.split_whitespace().next().expect("a type after the arrow"),
        None => "()",
    };
    let named = parameters.split(',').map(str::trim).filter(|parameter| !parameter.is_empty());
    Signature {
        name: name.trim().into(),
        parameters: named.map(parameter).collect(),
        returns: returns.trim_end_matches(';').into(),
    }
}

/// A name and its type, without the crate that declares it.
fn parameter(text: &str) -> (String, String) {
    let (name, kind) = text.split_once(':').expect("a parameter's name and type");
    (name.trim().into(), kind.trim().replace("model::", ""))
}

/// How a function on slices is declared for C: a slice is a pointer, then its length.
fn as_declared(function: &Signature) -> Signature {
    let mut parameters = Vec::new();
    for (name, kind) in &function.parameters {
        match pointer(kind) {
            Some(pointer) => {
                parameters.push((name.clone(), pointer));
                parameters.push((format!("{name}_length"), "usize".into()));
            }
            None => parameters.push((name.clone(), kind.clone())),
        }
    }
    Signature { parameters, ..function.clone() }
}

/// The pointer type of a slice.
fn pointer(kind: &str) -> Option<String> {
    let element = |slice: &str| slice.strip_suffix(']').map(String::from);
    if let Some(slice) = kind.strip_prefix("&mut [") {
        return Some(format!("*mut {}", element(slice)?));
    }
    Some(format!("*const {}", element(kind.strip_prefix("&[")?)?))
}

fn exported() -> Vec<Signature> {
    let exported = signatures(&read("crates/exports/src/lib.rt"), "pub extern \"C\" fn ");
    assert!(!exported.is_empty(), "crates/exports/src/lib.rt exports nothing");
    exported
}

/// The text of src/archive.rs before and after the end of its block of declarations.
fn archive() -> (String, String) {
    let source = read("rust/guard/src/archive.rs");
    let (_, block) = source.split_once("extern \"C\" {").expect("a block of declarations");
    let (block, functions) = block.split_once("\n}\n").expect("the end of the block");
    (block.into(), functions.into())
}

/// The same names, and for each the same signature.
fn assert_same(found: &[Signature], expected: &[Signature]) {
    let names = |functions: &[Signature]| -> Vec<String> {
        functions.iter().map(|function| function.name.clone()).collect()
    };
    assert_eq!(names(found), names(expected));
    for (found, expected) in found.iter().zip(expected) {
        assert_eq!(found, expected);
    }
}

#[test]
fn each_declaration_fits_the_rattle_source() {
    let declared = signatures(&archive().0, "fn ");
    let expected: Vec<_> = exported().iter().map(as_declared).collect();
    assert_same(&declared, &expected);
}

#[test]
fn each_safe_function_has_the_parameters_of_the_rattle_source() {
    let safe = signatures(&archive().1, "pub fn ");
    let named = |function: &Signature| Signature {
        name: function.name.strip_prefix("guard_").expect("one prefix").into(),
        ..function.clone()
    };
    // The function of the boundary's number is pointed to, and never called: tests/boundary.rs.
    let calls = exported().into_iter().filter(|function| !function.name.starts_with(BOUNDARY));
    let expected: Vec<_> = calls.map(|function| named(&function)).collect();
    assert_same(&safe, &expected);
}

/// The constants `pub const NAME: T = N;` of a source.
fn constants(source: &str) -> Vec<(String, String)> {
    let constant = |line: &str| {
        let (name, value) = line.strip_prefix("pub const ")?.strip_suffix(';')?.split_once('=')?;
        Some((name.trim().into(), value.trim().into()))
    };
    source.lines().filter_map(constant).collect()
}

#[test]
fn the_layout_is_that_of_the_rattle_source() {
    let expected = constants(&read("crates/decode/src/lib.rt"));
    assert!(!expected.is_empty());
    assert_eq!(constants(&read("rust/guard/src/archive.rs")), expected);
}

/// The fields `pub name: T` of the struct that C lays out as it stands, in their order.
fn fields(source: &str, name: &str) -> Vec<(String, String)> {
    let source = without_comments(source);
    let (before, rest) = source.split_once(&format!("pub struct {name} {{")).expect("the struct");
    let mut attributes = before.trim_end().lines().rev().take_while(|line| line.starts_with("#["));
    assert!(attributes.any(|line| line == "#[repr(C)]"), "{name} is laid out for C");
    let (inside, _) = rest.split_once('}').expect("the end of the struct");
    let fields = inside.split(',').filter_map(|field| field.trim().strip_prefix("pub "));
    fields.map(parameter).collect()
}

#[test]
fn a_device_is_that_of_the_rattle_source() {
    let expected = fields(&read("crates/model/src/lib.rt"), "Device");
    assert!(!expected.is_empty());
    assert_eq!(fields(&read("rust/guard/src/archive.rs"), "Device"), expected);
}

#[test]
fn unsafe_stands_in_one_module() {
    let folder = Path::new(env!("CARGO_MANIFEST_DIR")).join("src");
    let mut with_unsafe = Vec::new();
    for file in fs::read_dir(folder).unwrap() {
        let path = file.unwrap().path();
        let source = without_comments(&fs::read_to_string(&path).unwrap());
        if source.contains("unsafe {") || source.contains("extern ") {
            with_unsafe.push(path.file_name().unwrap().to_owned());
        }
    }
    assert_eq!(with_unsafe, ["archive.rs"]);
}

/// A change of the source that the comparison has to see.
fn assert_seen(declared: &str, changed: &str) {
    let declared = signatures(declared, "fn ");
    let changed: Vec<_> = signatures(changed, "fn ").iter().map(as_declared).collect();
    assert_ne!(declared, changed);
}

#[test]
fn the_comparison_sees_every_kind_of_change() {
    let declared =
        "fn f(a: *const u64, a_length: usize, b: *mut u64, b_length: usize, c: u64) -> u64;";
    let fitting = "fn f(a: &[u64], b: &mut [u64], c: u64) -> u64\n    ensures { .. }\n{\n}";
    let expected: Vec<_> = signatures(fitting, "fn ").iter().map(as_declared).collect();
    assert_eq!(signatures(declared, "fn "), expected);
    assert_seen(declared, "fn g(a: &[u64], b: &mut [u64], c: u64) -> u64 {");
    assert_seen(declared, "fn f(b: &mut [u64], a: &[u64], c: u64) -> u64 {");
    assert_seen(declared, "fn f(b: &[u64], a: &mut [u64], c: u64) -> u64 {");
    assert_seen(declared, "fn f(a: &[u64], b: &[u64], c: u64) -> u64 {");
    assert_seen(declared, "fn f(a: &[u64], b: &mut [u16], c: u64) -> u64 {");
    assert_seen(declared, "fn f(a: &[u64], b: &mut [u64], c: u32) -> u64 {");
    assert_seen(declared, "fn f(a: &[u64], b: &mut [u64]) -> u64 {");
    assert_seen(declared, "fn f(a: &[u64], b: &mut [u64], c: u64) -> u32 {");
    assert_seen(declared, "fn f(a: &[u64], b: &mut [u64], c: u64) {");
    let of_structs = "fn f(a: *const Device, a_length: usize) -> u64;";
    for fitting in ["fn f(a: &[Device]) -> u64 {", "fn f(a: &[model::Device]) -> u64 {"] {
        let expected: Vec<_> = signatures(fitting, "fn ").iter().map(as_declared).collect();
        assert_eq!(signatures(of_structs, "fn "), expected);
    }
    assert_seen(of_structs, "fn f(a: &mut [Device]) -> u64 {");
    assert_seen(of_structs, "fn f(a: &[Fields]) -> u64 {");
}
