//! Links `libzugrenja_c.a`, and `liblibc_c.a`, through which it asks for memory. They are sought in the folder that `ZUGRENJA_LIB_DIR`
//! names; without it, where the repository's builds leave them, and in the kit that `rt` belongs to. The one made last is taken.

use std::env;
use std::path::{Path, PathBuf};
use std::process::Command;

const ARCHIVES: [&str; 2] = ["zugrenja_c", "libc_c"];

/// The folder of the kit's archives, if `rt` is there.
fn kit() -> Option<PathBuf> {
    let page = Command::new("rt").arg("doc").output().ok()?;
    let page = String::from_utf8(page.stdout).ok()?;
    Some(Path::new(page.trim()).parent()?.join("c"))
}

fn folders() -> Vec<PathBuf> {
    if let Some(folder) = env::var_os("ZUGRENJA_LIB_DIR") {
        return [PathBuf::from(folder)].into_iter().chain(kit()).collect();
    }
    let bindings = PathBuf::from(env::var_os("CARGO_MANIFEST_DIR").expect("cargo sets it")).join("..");
    let built = [bindings.join("../crates/zugrenja_c/out"), bindings.join("out")];
    built.into_iter().chain(kit()).collect()
}

fn main() {
    println!("cargo:rerun-if-env-changed=ZUGRENJA_LIB_DIR");
    let folders = folders();
    for archive in ARCHIVES {
        let file = format!("lib{archive}.a");
        let found: Vec<_> = folders.iter().map(|folder| folder.join(&file)).filter(|file| file.is_file()).collect();
        let made = |file: &&PathBuf| file.metadata().and_then(|file| file.modified()).ok();
        let Some(folder) = found.iter().max_by_key(made).and_then(|file| file.parent()) else {
            let sought: Vec<_> = folders.iter().map(|folder| folder.display().to_string()).collect();
            panic!(
                "no {file} in {}: `rt lib` in crates/zugrenja_c builds it, or set ZUGRENJA_LIB_DIR",
                sought.join(", ")
            );
        };
        for file in &found {
            println!("cargo:rerun-if-changed={}", file.display());
        }
        println!("cargo:rustc-link-search=native={}", folder.display());
        println!("cargo:rustc-link-lib=static={archive}");
    }
}
