//! Links `libwurgalm.a`. `tools/build` writes the library to `target/staticlib` of the repository. WURGALM_ARCHIVE
//! names another folder. Without the library nothing is built, and one sentence says which command makes it.

use std::env;
use std::path::{Path, PathBuf};

fn archive_folder() -> PathBuf {
    match env::var_os("WURGALM_ARCHIVE") {
        Some(folder) => PathBuf::from(folder),
        None => Path::new(env!("CARGO_MANIFEST_DIR")).join("../../target/staticlib"),
    }
}

/// The folder of `libwurgalm.a`, or the sentence that says what to do.
fn linked() -> Result<PathBuf, String> {
    let folder = archive_folder();
    let archive = folder.join("libwurgalm.a");
    println!("cargo::rerun-if-changed={}", archive.display());
    if archive.exists() {
        return Ok(folder);
    }
    let how = "run `tools/build` in the repository's root, then build again";
    Err(format!("{} is not there: {how} (WURGALM_ARCHIVE names another folder)", archive.display()))
}

fn main() {
    println!("cargo::rerun-if-env-changed=WURGALM_ARCHIVE");
    match linked() {
        Ok(folder) => {
            println!("cargo::rustc-link-search=native={}", folder.display());
            println!("cargo::rustc-link-lib=static=wurgalm");
        }
        Err(sentence) => println!("cargo::error={sentence}"),
    }
}
