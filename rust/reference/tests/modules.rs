//! The modules of every crate of the workspace form no circle: none names a module that names it, directly or through others.
//! What a module names is read from its source: the paths from the crate's root on, with re-exports followed to their module.

use std::collections::{BTreeMap, BTreeSet};
use std::fs;
use std::path::Path;

/// The code of each module of a crate, by its name; the root has the name of its file too.
type Modules = BTreeMap<String, String>;

/// Each module with those that it names.
type Graph<'a> = BTreeMap<&'a str, BTreeSet<&'a str>>;

/// A source without comments and attributes.
fn code(source: &str) -> String {
    let lines = source.lines().filter(|line| !line.trim_start().starts_with('#'));
    lines.flat_map(|line| [line.split("//").next().unwrap_or_default(), "\n"]).collect()
}

fn is_of_name(sign: char) -> bool {
    sign.is_alphanumeric() || sign == '_'
}

/// The name at the front of a text.
fn name(text: &str) -> &str {
    text.trim_start().split(|sign| !is_of_name(sign)).next().unwrap_or_default()
}

fn names(text: &str) -> impl Iterator<Item = &str> {
    text.split(|sign| !is_of_name(sign)).filter(|name| !name.is_empty())
}

/// The first names of a path, which may be a group in braces.
fn first_names(path: &str) -> Vec<&str> {
    let Some(group) = path.strip_prefix('{') else { return vec![name(path)] };
    let mut found = vec![name(group)];
    let mut depth = 0;
    for (at, sign) in group.char_indices() {
        match sign {
            '{' => depth += 1,
            '}' if depth == 0 => break,
            '}' => depth -= 1,
            ',' if depth == 0 => found.push(name(&group[at + 1..])),
            _ => {}
        }
    }
    found
}

fn graph<'a>(modules: &'a Modules, root: &'a str) -> Graph<'a> {
    let module = |name| modules.get_key_value(name).map(|(module, _)| module.as_str());
    // The names that the root hands on from its modules, and those that its own items have in them.
    let (mut handed_on, mut of_the_root) = (BTreeMap::new(), BTreeSet::new());
    for statement in modules[root].split(';').map(str::trim_start) {
        let bare = ["pub(crate) ", "pub "].iter().find_map(|seen| statement.strip_prefix(seen));
        let statement = bare.unwrap_or(statement);
        let Some(path) = statement.strip_prefix("use ") else {
            if !statement.starts_with("mod ") {
                of_the_root.extend(names(statement));
            }
            continue;
        };
        if let Some(module) = module(name(path)) {
            assert!(!path.contains('*'), "{root}: no name of {path} can be followed");
            handed_on.extend(names(path).map(|name| (name, module)));
        }
    }
    let led_to = |name| module(name).or_else(|| handed_on.get(name).copied());
    let named = |of: &str, code: &'a str| -> BTreeSet<_> {
        let mut named: BTreeSet<_> = if of == root {
            of_the_root.iter().filter_map(|name| led_to(name)).collect()
        } else {
            let above = ["crate::", "super::"];
            let paths = above.into_iter().flat_map(|above| code.split(above).skip(1));
            let found = paths.flat_map(first_names).filter(|name| !name.is_empty());
            found.map(|name| led_to(name).unwrap_or(root)).collect()
        };
        named.remove(of);
        named
    };
    modules.iter().map(|(of, code)| (of.as_str(), named(of, code))).collect()
}

/// A circle, if there is one: each module names the next, and the last one the first.
fn circle<'a>(graph: &Graph<'a>) -> Option<Vec<&'a str>> {
    let mut left: BTreeSet<&str> = graph.keys().copied().collect();
    // A module that names none of those left is in no circle.
    while let Some(&done) = left.iter().find(|&of| graph[of].is_disjoint(&left)) {
        left.remove(done);
    }
    let mut way = vec![*left.first()?];
    loop {
        let next = graph[way[way.len() - 1]].intersection(&left).next().copied()?;
        if let Some(begin) = way.iter().position(|&of| of == next) {
            return Some(way.split_off(begin));
        }
        way.push(next);
    }
}

/// The modules in the files of a folder, and those in its subfolders, which count as parts of the module that they are below.
fn read(folder: &Path, part_of: Option<&str>, modules: &mut Modules) {
    for file in fs::read_dir(folder).unwrap_or_else(|e| panic!("{}: {e}", folder.display())) {
        let path = file.expect("the folder can be read").path();
        let stem = path.file_stem().and_then(|stem| stem.to_str()).expect("a name in UTF-8");
        let module = part_of.unwrap_or(stem);
        if path.is_dir() {
            read(&path, Some(module), modules);
        } else {
            let source = fs::read_to_string(&path).expect("the file can be read");
            modules.entry(module.to_string()).or_default().push_str(&code(&source));
        }
    }
}

/// A crate by its root, which is that of the library where it has one. Programs beside it are crates of their own.
fn read_crate(folder: &Path) -> (&'static str, Modules) {
    let mut modules = Modules::new();
    read(&folder.join("src"), None, &mut modules);
    modules.remove("bin");
    if modules.contains_key("lib") {
        modules.remove("main");
        ("lib", modules)
    } else {
        ("main", modules)
    }
}

#[test]
fn no_crate_has_a_circle_of_modules() {
    let workspace = Path::new(env!("CARGO_MANIFEST_DIR")).join("..");
    let manifest = fs::read_to_string(workspace.join("Cargo.toml")).unwrap();
    let members = manifest.lines().find_map(|line| line.strip_prefix("members = "));
    let mut count = 0;
    for member in names(members.expect("the members stand in a line")) {
        let (root, modules) = read_crate(&workspace.join(member));
        // A crate without a root has programs of one file each.
        if modules.contains_key(root) {
            assert_eq!(circle(&graph(&modules, root)), None, "{member}");
            count += modules.len();
        }
    }
    println!("{count} modules read");
    assert!(count > 60, "modules of some crates are not found");
}

/// The circle of a root and two modules.
fn circle_of(root: &str, first: &str, second: &str) -> Option<String> {
    let sources = [("lib", root), ("first", first), ("second", second)];
    let modules = sources.map(|(module, source)| (module.to_string(), code(source))).into();
    circle(&graph(&modules, "lib")).map(|circle| circle.join(" "))
}

/// Each way of naming a module closes a circle, and a comment does not.
#[test]
fn a_circle_is_seen() {
    let root =
        "#![forbid(unsafe_code)]\n\nmod first;\nmod second;\n\npub use second::{two, Two};\n";
    let ways = [
        "use crate::second;",
        "use crate::second::two;",
        "use crate::{lib_item, second::{self, Two}};",
        "fn one() -> u32 { crate::second::two() }",
        "use super::second::Two;",
        "use crate::Two;",
        "use std::fmt;\nuse crate::{\n    two,\n    Two,\n};",
    ];
    for way in ways {
        assert_eq!(circle_of(root, way, "use crate::first;").as_deref(), Some("first second"));
        assert_eq!(circle_of(root, way, "use std::fmt; // crate::first"), None, "{way}");
    }
    let of_its_own = format!("{root}pub fn three() -> u32 {{ first::one() }}");
    assert_eq!(circle_of(&of_its_own, "use crate::three;", "").as_deref(), Some("first lib"));
    assert_eq!(circle_of(&of_its_own, "", "use crate::three;"), None);
}
