//! Links libbizakoma.a. Where it is not there, or a source of it is newer, `rt lib` makes it in `crates/bizakoma` of the repository, which proves it
//! first. `BIZAKOMA_LIB_DIR` names a folder that holds the library already; then nothing is made.
use std::env;
use std::fs;
use std::path::{Path, PathBuf};
use std::process::Command;
use std::time::SystemTime;

/// The files that the library is made from.
fn sources(top: &Path) -> Vec<PathBuf> {
    let mut files = vec![top.join("crates.txt")];
    let mut folders: Vec<PathBuf> = ["lists", "stored", "rows", "rounds", "search", "bizakoma"]
        .iter()
        .flat_map(|name| ["src", "specs", "proofs"].map(|part| top.join("crates").join(name).join(part)))
        .collect();
    while let Some(folder) = folders.pop() {
        let Ok(entries) = fs::read_dir(&folder) else { continue };
        for entry in entries.flatten() {
            let path = entry.path();
            if path.is_dir() {
                folders.push(path);
            } else {
                files.push(path);
            }
        }
    }
    files
}

fn changed(path: &Path) -> Option<SystemTime> {
    fs::metadata(path).and_then(|data| data.modified()).ok()
}

/// Makes the library in its crate's folder, where it is not newer than its sources, and gives its folder.
fn make(top: &Path) -> PathBuf {
    let crate_folder = top.join("crates").join("bizakoma");
    let folder = crate_folder.join("out");
    let library = folder.join("libbizakoma.a");
    let files = sources(top);
    for file in &files {
        println!("cargo:rerun-if-changed={}", file.display());
    }
    println!("cargo:rerun-if-changed={}", library.display());
    let made = changed(&library);
    if made.is_none() || files.iter().any(|file| changed(file) > made) {
        let status = Command::new("rt").arg("lib").current_dir(&crate_folder).status();
        match status {
            Ok(status) if status.success() => {}
            Ok(status) => panic!("`rt lib` failed in crates/bizakoma: {status}"),
            Err(error) => {
                panic!("`rt` is not to be run ({error}): install the Rattle kit, or set BIZAKOMA_LIB_DIR to a folder with libbizakoma.a")
            }
        }
    }
    folder
}

fn main() {
    println!("cargo:rerun-if-changed=build.rs");
    println!("cargo:rerun-if-env-changed=BIZAKOMA_LIB_DIR");
    let folder = match env::var_os("BIZAKOMA_LIB_DIR") {
        Some(folder) => PathBuf::from(folder),
        None => make(&Path::new(&env::var("CARGO_MANIFEST_DIR").unwrap()).join("..")),
    };
    println!("cargo:rustc-link-search=native={}", folder.display());
    println!("cargo:rustc-link-lib=static=bizakoma");
}
