//! Links the static library: TULOFEWA_ARCHIVE, a full path that must be there, or what ./library builds. Where that is
//! not built yet, `cargo check` and `cargo doc` work all the same; whatever is linked then fails for want of it.
use std::env;
use std::path::PathBuf;
use std::process::exit;

fn main() {
    println!("cargo:rerun-if-env-changed=TULOFEWA_ARCHIVE");
    let given = env::var_os("TULOFEWA_ARCHIVE").filter(|path| !path.is_empty()).map(PathBuf::from);
    let built = PathBuf::from(env::var_os("CARGO_MANIFEST_DIR").unwrap_or_default()).join("../target/libtulofewa.a");
    let archive = given.as_ref().unwrap_or(&built);
    let found = archive.canonicalize().ok().filter(|path| path.is_file());
    if found.is_none() {
        let shown = archive.display();
        if given.is_some() {
            eprintln!("TULOFEWA_ARCHIVE: there is no static library {shown}; without it ./library builds one");
            exit(1);
        }
        println!("cargo:warning=no static library {shown}: ./library builds it, and only then can programs be linked");
    }
    let archive = found.unwrap_or_else(|| archive.clone());
    let (Some(folder), Some(name)) = (archive.parent(), archive.file_name().and_then(|name| name.to_str())) else {
        eprintln!("TULOFEWA_ARCHIVE: {} cannot be named to the linker", archive.display());
        exit(1);
    };
    println!("cargo:rerun-if-changed={}", archive.display());
    println!("cargo:rustc-link-search=native={}", folder.display());
    println!("cargo:rustc-link-lib=static:+verbatim={name}");
}
