//! Puts rustyline's modules at the crate's root, where their `crate::` paths lead, and links the library: the build
//! script of differential/ and of bench/.
//!
//! Four files are compiled unchanged: two where they lie, undo.rs and kill_ring.rs as copies, each with a module of the
//! crate's own behind its text.
//! Of keymap.rs only the five items that document 01 takes are cut out; the rest of it needs the whole of rustyline.
use std::path::{Path, PathBuf};
use std::process::Command;
use std::{env, fs};

const WHOLE: [&str; 4] = ["line_buffer", "undo", "kill_ring", "layout"];
/// A module inside `undo` sees the private fields of `Changeset`, one inside `kill_ring` those of `KillRing`.
const INSIDE: [(&str, &str, &str); 2] =
    [("undo", "lists", "src/undo_lists.rs"), ("kill_ring", "slots", "src/ring_slots.rs")];
const KEYMAP: [&str; 5] =
    ["pub type RepeatCount ", "pub enum Word ", "pub enum At ", "pub enum CharSearch ", "pub enum Movement "];

/// A path that the script `run` hands over in the environment.
fn path(name: &str) -> PathBuf {
    println!("cargo:rerun-if-env-changed={name}");
    PathBuf::from(env::var(name).unwrap_or_else(|_| panic!("{name} is not set: start the script run")))
}

fn text_of(file: &Path) -> String {
    println!("cargo:rerun-if-changed={}", file.display());
    fs::read_to_string(file).unwrap_or_else(|e| panic!("{}: {e}", file.display()))
}

/// The declaration of a whole module.
fn module(file: &Path, name: &str) -> String {
    format!("#[allow(dead_code)]\n#[path = {file:?}]\nmod {name};\n")
}

/// The item of `text` whose first line begins with `head`, with the comments and derives above it.
fn item(text: &str, head: &str) -> String {
    let lines: Vec<&str> = text.lines().collect();
    let first = lines.iter().position(|line| line.starts_with(head)).expect(head);
    let last = (first..lines.len()).find(|&i| lines[i] == "}" || lines[i].ends_with(';')).expect(head);
    let above = lines[..first].iter().rev().take_while(|line| line.starts_with("///") || line.starts_with("#["));
    lines[first - above.count()..=last].join("\n")
}

fn link(archive: &Path) {
    println!("cargo:rerun-if-changed={}", archive.display());
    println!("cargo:rustc-link-arg-bins={}", archive.display());
}

/// The versions that go into the recorded answers: those of Cargo.lock, and the compiler's.
fn versions(own: &Path) -> String {
    let lock = text_of(&own.join("Cargo.lock"));
    let lines: Vec<&str> = lock.lines().collect();
    let version = |name: &str| {
        let at = lines.iter().position(|line| *line == format!("name = \"{name}\"")).expect(name);
        lines[at + 1].trim_start_matches("version = ").trim_matches('"')
    };
    let crates = ["unicode-segmentation", "unicode-width"].map(|name| format!("{name} {}", version(name)));
    let compiler = Command::new(env::var("RUSTC").unwrap()).arg("--version").output().unwrap();
    let compiler = String::from_utf8(compiler.stdout).unwrap();
    let compiler: Vec<&str> = compiler.split(' ').take(2).collect();
    format!("rustyline 19.0.0, {}, {}", crates.join(", "), compiler.join(" "))
}

fn main() {
    let source = path("RUSTYLINE_SRC").join("src");
    let out = PathBuf::from(env::var("OUT_DIR").unwrap());
    let own = PathBuf::from(env::var("CARGO_MANIFEST_DIR").unwrap());
    let mut root = String::new();
    for name in WHOLE {
        let mut file = source.join(name).with_extension("rs");
        let text = text_of(&file);
        if let Some((_, inner, inner_file)) = INSIDE.iter().find(|(outer, ..)| *outer == name) {
            let inner_file = own.join(inner_file);
            file = out.join(name).with_extension("rs");
            fs::write(&file, format!("{text}\n#[path = {inner_file:?}]\npub mod {inner};\n")).unwrap();
        }
        root += &module(&file, name);
    }
    let text = text_of(&source.join("keymap.rs"));
    root += "#[allow(dead_code)]\nmod keymap {\n";
    for head in KEYMAP {
        root += &item(&text, head);
        root += "\n\n";
    }
    root += "}\n";
    fs::write(out.join("rustyline.rs"), root).unwrap();
    println!("cargo:rustc-env=VERSIONS={}", versions(&own));
    println!("cargo:rustc-cfg=test");
    link(&path("TULOFEWA_ARCHIVE"));
    if env::var("CARGO_PKG_NAME").unwrap() == "bench" {
        link(&path("SCAN_BENCH_ARCHIVE"));
    }
}
