//! Links the auditor's static library: that of the folder SIMPLEX_AUDIT_LIB, or the one that `make library` has built, or the
//! one that pkg-config finds. To check and to document the crate no library is needed, so if there is none that is only a
//! warning, and then no program links.

use std::env;
use std::path::PathBuf;
use std::process::Command;

const LIBRARY: &str = "libsimplex_audit.a";

/// The folder that `make install` has copied the library to, if pkg-config knows it.
fn installed() -> Option<PathBuf> {
    let asked = Command::new("pkg-config").args(["--variable=libdir", "simplex_audit"]).output().ok()?;
    let folder = String::from_utf8(asked.stdout).ok()?;
    asked.status.success().then(|| folder.trim_end().into())
}

/// The folder that has the library.
fn folder() -> Option<PathBuf> {
    let folders = match env::var_os("SIMPLEX_AUDIT_LIB") {
        Some(given) => vec![given.into()],
        None => {
            let built = PathBuf::from(env::var_os("CARGO_MANIFEST_DIR")?).join("../out");
            [Some(built), installed()].into_iter().flatten().collect()
        }
    };
    for folder in &folders {
        println!("cargo:rerun-if-changed={}", folder.join(LIBRARY).display());
    }
    folders.into_iter().find(|folder| folder.join(LIBRARY).exists())
}

fn main() {
    for name in ["SIMPLEX_AUDIT_LIB", "PKG_CONFIG_PATH"] {
        println!("cargo:rerun-if-env-changed={name}");
    }
    if let Some(folder) = folder() {
        println!("cargo:rustc-link-search=native={}", folder.display());
        println!("cargo:rustc-link-lib=static=simplex_audit");
    } else {
        println!(
            "cargo:warning=without {LIBRARY} no program links: run `make library`, or set SIMPLEX_AUDIT_LIB to its folder"
        );
        println!("cargo:rustc-link-lib=simplex_audit");
    }
}
