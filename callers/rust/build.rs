//! Links the archive: from the folder that IPCZ_LIB names, which is `lib` of the prefix that `tools/install_c.py` was given, or else from
//! the one that pkg-config tells.
use std::path::{Path, PathBuf};
use std::process::Command;

const ARCHIVE: &str = "libipcz_portals.a";

fn told_by_pkg_config() -> Result<PathBuf, String> {
    let program = std::env::var("PKG_CONFIG").unwrap_or_else(|_| "pkg-config".to_string());
    let output = Command::new(&program)
        .args(["--variable=libdir", "ipcz_portals"])
        .output()
        .map_err(|why| format!("{program} can't be run ({why})"))?;
    let told = String::from_utf8_lossy(&output.stdout);
    // (it may write a space as the shell wants it)
    let folder = told.trim().replace("\\ ", " ");
    if !output.status.success() || folder.is_empty() {
        return Err(format!("{program} knows no ipcz_portals"));
    }
    Ok(PathBuf::from(folder))
}

fn folder() -> Result<PathBuf, String> {
    match std::env::var_os("IPCZ_LIB") {
        Some(given) => Ok(PathBuf::from(given)),
        None => told_by_pkg_config().map_err(|why| format!("IPCZ_LIB isn't set, and {why}")),
    }
}

fn has_archive(folder: &Path) -> Result<(), String> {
    if folder.join(ARCHIVE).is_file() {
        return Ok(());
    }
    Err(format!("there is no {ARCHIVE} in {}", folder.display()))
}

fn main() {
    println!("cargo:rerun-if-env-changed=IPCZ_LIB");
    println!("cargo:rerun-if-env-changed=PKG_CONFIG");
    println!("cargo:rerun-if-env-changed=PKG_CONFIG_PATH");
    // Pages of documentation are made without the archive.
    if std::env::var_os("DOCS_RS").is_some() {
        return;
    }
    match folder().and_then(|folder| has_archive(&folder).map(|()| folder)) {
        Ok(folder) => {
            println!("cargo:rustc-link-search=native={}", folder.display());
            println!("cargo:rustc-link-lib=static=ipcz_portals");
        }
        Err(why) => {
            eprintln!("ipcz_portals isn't found: {why}.");
            eprintln!(
                "Install it by `python3 tools/install_c.py PREFIX`, and set IPCZ_LIB=PREFIX/lib or PKG_CONFIG_PATH=PREFIX/lib/pkgconfig."
            );
            std::process::exit(1);
        }
    }
}
