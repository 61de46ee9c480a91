//! Says where the original's files stand, and links the port.
//!
//! `EQLOG` names a checkout of eqlog; without it the files are those of the folder `shared` beside the repository.
//! `BIZAKOMA_LIB` names a folder with another `libbizakoma.a`; without it the library is that of the repository, made by `rt` if it is not there.
use std::path::{Path, PathBuf};
use std::process::Command;
use std::{env, fs};

/// The original's files that are compiled. `model_hom` is among them in another way: see `sources`.
const FILES: [&str; 5] = ["data", "model", "signature", "table", "unification"];

fn main() {
    let here = PathBuf::from(env::var("CARGO_MANIFEST_DIR").unwrap());
    println!("cargo:rerun-if-env-changed=EQLOG");
    println!("cargo:rerun-if-env-changed=BIZAKOMA_LIB");
    let out = PathBuf::from(env::var("OUT_DIR").unwrap());
    fs::write(out.join("files.rs"), sources(&original_at(&here))).unwrap();
    let library = library_at(here.parent().unwrap());
    println!("cargo:rerun-if-changed={}", library.join("libbizakoma.a").display());
    println!("cargo:rustc-link-search=native={}", library.display());
}

fn original_at(here: &Path) -> PathBuf {
    match env::var("EQLOG") {
        Ok(checkout) => Path::new(&checkout).join("eqlog-runtime/src"),
        Err(_) => here.join("../../shared/docs/src/eqlog-runtime/src"),
    }
}

/// The modules of the original, each from its file. The text of `model_hom.rs` is put into a module that has one function more, so that its private
/// `find_with_pairs` can be called; the file itself stays as it is.
fn sources(original: &Path) -> String {
    let mut text = String::new();
    for name in FILES {
        let file = original.join(name).with_extension("rs");
        text += &format!("#[path = {file:?}]\npub mod {name};\n");
        println!("cargo:rerun-if-changed={}", file.display());
    }
    let file = original.join("model_hom.rs");
    println!("cargo:rerun-if-changed={}", file.display());
    text + &format!("pub mod model_hom {{\n    include!({file:?});\n    include!({:?});\n}}\n", beside("find_with_fixed_pairs.rs"))
}

/// A file of ours beside the stand-ins.
fn beside(name: &str) -> PathBuf {
    PathBuf::from(env::var("CARGO_MANIFEST_DIR").unwrap()).join("src/original").join(name)
}

fn library_at(top: &Path) -> PathBuf {
    if let Ok(folder) = env::var("BIZAKOMA_LIB") {
        return PathBuf::from(folder);
    }
    let crate_folder = top.join("crates/bizakoma");
    let folder = crate_folder.join("out");
    if !folder.join("libbizakoma.a").exists() {
        let made = Command::new("rt").arg("lib").current_dir(crate_folder).status();
        assert!(made.expect("rt is not to be found").success(), "rt lib failed in crates/bizakoma");
    }
    folder
}
