// SPDX-License-Identifier: MIT OR Apache-2.0
//! Finds libcizhmolat.a, which `./mps library DIR` makes: in the folder that `CIZHMOLAT_DIR` names, or in `lib` beside this file.

use std::env;
use std::path::{Path, PathBuf};
use std::process::exit;

const ARCHIVE: &str = "libcizhmolat.a";

fn main() {
    let folder = match env::var_os("CIZHMOLAT_DIR") {
        Some(folder) => PathBuf::from(folder),
        None => Path::new(env!("CARGO_MANIFEST_DIR")).join("lib"),
    };
    println!("cargo:rerun-if-env-changed=CIZHMOLAT_DIR");
    println!("cargo:rerun-if-changed={}", folder.join(ARCHIVE).display());
    if let Some(reason) = fault(&folder) {
        eprintln!("{reason}");
        exit(1);
    }
    println!("cargo:rustc-link-search=native={}", folder.display());
    println!("cargo:rustc-link-lib=static=cizhmolat");
}

/// Why the library can't be taken from that folder, and what to do.
fn fault(folder: &Path) -> Option<String> {
    let named = folder.display();
    if !folder.is_absolute() {
        return Some(format!(
            "CIZHMOLAT_DIR is {named}, and has to be an absolute path"
        ));
    }
    (!folder.join(ARCHIVE).is_file()).then(|| {
        format!("{named} has no {ARCHIVE}: make it by `./mps library DIR` in the repository of Cizhmolat, and set CIZHMOLAT_DIR to that DIR's absolute path")
    })
}
