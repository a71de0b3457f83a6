//! Links the static library: the file that LOUGHCABLE_LIB names by its whole path, a library that is built already; else
//! `../crates/loughcable/out/libloughcable.a`, which `rt lib` makes in `crates/loughcable`.

use std::path::{Path, PathBuf};

fn main() {
    println!("cargo:rerun-if-env-changed=LOUGHCABLE_LIB");
    let library = std::env::var_os("LOUGHCABLE_LIB")
        .map(PathBuf::from)
        .unwrap_or_else(|| Path::new(env!("CARGO_MANIFEST_DIR")).join("../crates/loughcable/out/libloughcable.a"));
    println!("cargo:rerun-if-changed={}", library.display());
    match library.canonicalize() {
        Ok(file) if file.is_file() => link(&file),
        _ => stop(&library),
    }
}

fn link(file: &Path) {
    let (folder, name) = (file.parent().unwrap(), file.file_name().unwrap());
    println!("cargo:rustc-link-search=native={}", folder.display());
    println!("cargo:rustc-link-lib=static:+verbatim={}", name.to_string_lossy());
}

fn stop(library: &Path) {
    eprintln!(
        "{} is not there: make it by `rt lib` in crates/loughcable, or let LOUGHCABLE_LIB name a libloughcable.a that is built already",
        library.display()
    );
    std::process::exit(1);
}
