//! Finds the folder that `bin/vtdm-c` made, and links its library; or says the command that makes it.

use std::env;
use std::fs;
use std::path::{Path, PathBuf};

/// The environment variable that names the folder. Without it, the folder is `out` at the top of the repository.
const FOLDER: &str = "VTDM_DIR";

fn main() {
    let own = Path::new(env!("CARGO_MANIFEST_DIR"));
    let top = own.ancestors().nth(2).unwrap_or(own);
    let given = env::var_os(FOLDER).map(PathBuf::from);
    println!("cargo::rerun-if-env-changed={FOLDER}");
    if given.as_ref().is_some_and(|it| it.is_relative()) {
        println!("cargo::error={FOLDER} is to be an absolute path");
        return;
    }
    let folder = given.unwrap_or_else(|| top.join("out"));
    match fault_of(&folder, top) {
        None => link(&folder),
        Some(fault) => {
            println!("cargo::error={fault}");
            println!("cargo::error=`{}/bin/vtdm-c {}` makes it", top.display(), folder.display());
            println!("cargo::error=(for another folder, {FOLDER} is to be its absolute path)");
        }
    }
}

/// Why the folder can't be used, if it can't. A library of another header than the repository's would be called wrongly.
fn fault_of(folder: &Path, top: &Path) -> Option<String> {
    let library = folder.join("lib/libvtdm.a");
    let header = folder.join("include/vtdm.h");
    let latest = top.join("c/vtdm.h");
    for path in [&library, &header, &latest] {
        println!("cargo::rerun-if-changed={}", path.display());
    }
    if !library.is_file() {
        return Some(format!("there is no C library at {}", library.display()));
    }
    let Ok(made) = fs::read(&header) else {
        return Some(format!("there is no header at {}", header.display()));
    };
    let is_old = fs::read(&latest).is_ok_and(|it| it != made);
    is_old.then(|| format!("the C library in {} was made with another header", folder.display()))
}

fn link(folder: &Path) {
    println!("cargo::rustc-link-search=native={}", folder.join("lib").display());
    println!("cargo::rustc-link-lib=static=vtdm");
}
