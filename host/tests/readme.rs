//! README.md's table of public names has what the crate has, and its table of files the files.
use std::collections::BTreeSet;
use std::fs;
use std::path::Path;

const README: &str = include_str!("../README.md");
const LIB: &str = include_str!("../src/lib.rs");

/// What stands in backquotes in the first column of the table with this head.
fn first_column(head: &str) -> BTreeSet<&'static str> {
    let (_, table) = README.split_once(head).unwrap();
    let rows = table.lines().skip(2).take_while(|row| row.starts_with('|'));
    rows.flat_map(|row| row.split('|').nth(1).unwrap().split('`').skip(1).step_by(2)).collect()
}

#[test]
fn public_names() {
    let used = LIB.split("pub use ").skip(1).flat_map(|rest| {
        let path = rest.split(';').next().unwrap();
        let names = path.split_once("::").unwrap().1.trim_matches(['{', '}']);
        names.split(',').map(str::trim).filter(|name| !name.is_empty())
    });
    let modules = LIB.split("pub mod ").skip(1).map(|rest| rest.split(';').next().unwrap());
    let public: BTreeSet<_> = used.chain(modules).collect();
    assert!(public.len() > 20);
    assert_eq!(first_column("| public name |"), public);
}

#[test]
fn files() {
    let folder = Path::new(env!("CARGO_MANIFEST_DIR"));
    let listed = first_column("| file |");
    for file in &listed {
        assert!(folder.join(file).exists(), "{file}");
    }
    for entry in fs::read_dir(folder.join("src")).unwrap() {
        let name = entry.unwrap().file_name().into_string().unwrap();
        let listed = [format!("src/{name}"), format!("src/{name}/")].iter().any(|path| listed.contains(path.as_str()));
        assert!(listed || name == "lib.rs", "{name}");
    }
}
