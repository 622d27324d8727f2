//! The crate where ./library has not run: it is documented and checked, and what is linked fails by a message that says
//! what to do.
use std::fs;
use std::path::{Path, PathBuf};
use std::process::Command;

fn copy(from: &Path, to: &Path) {
    if from.is_dir() {
        fs::create_dir_all(to).unwrap();
        for entry in fs::read_dir(from).unwrap() {
            let name = entry.unwrap().file_name();
            copy(&from.join(&name), &to.join(&name));
        }
    } else {
        fs::copy(from, to).unwrap();
    }
}

/// This crate at another place, beside which there is no library.
fn elsewhere() -> PathBuf {
    let crate_at = Path::new(env!("CARGO_TARGET_TMPDIR")).join("before_the_library/host");
    fs::create_dir_all(&crate_at).unwrap();
    for name in ["Cargo.toml", "Cargo.lock", "build.rs", "README.md", "src"] {
        copy(&Path::new(env!("CARGO_MANIFEST_DIR")).join(name), &crate_at.join(name));
    }
    crate_at
}

/// Does cargo end well? And what it says.
fn cargo(crate_at: &Path, command: &str, archive: Option<&str>) -> (bool, String) {
    let mut cargo = Command::new(env!("CARGO"));
    cargo.args([command, "--offline"]).current_dir(crate_at).env("CARGO_TARGET_DIR", crate_at.join("target"));
    cargo.env_remove("TULOFEWA_ARCHIVE").envs(archive.map(|path| ("TULOFEWA_ARCHIVE", path)));
    let output = cargo.output().unwrap();
    (output.status.success(), String::from_utf8(output.stderr).unwrap())
}

#[test]
fn docs_and_checks_need_no_library() {
    let crate_at = elsewhere();
    for (command, archive, works) in
        [("doc", None, true), ("check", None, true), ("check", Some(""), true), ("build", None, false)]
    {
        let (worked, said) = cargo(&crate_at, command, archive);
        assert_eq!(worked, works, "cargo {command}: {said}");
        assert!(said.contains("no static library") && said.contains("./library builds it"), "cargo {command}: {said}");
    }
    let (worked, said) = cargo(&crate_at, "check", Some("/nowhere/libtulofewa.a"));
    assert!(!worked && said.contains("there is no static library /nowhere/libtulofewa.a"), "{said}");
}
