//! Finds libnizwarf: in the folder `NIZWARF_LIB_DIR` if that is set, otherwise by `pkg-config nizwarf`. With the feature
//! `static` the program has the library in it, and runs where that is not installed.

use std::env;
use std::path::Path;
use std::process::{exit, Command};

const NAME: &str = "nizwarf";
/// From this version on, and before the next major one, the library has what this crate uses.
const VERSIONS: [&str; 2] = [">= 0.4", "< 1"];

fn main() {
    for name in
        ["NIZWARF_LIB_DIR", "PKG_CONFIG", "PKG_CONFIG_PATH", "PKG_CONFIG_LIBDIR", "PKG_CONFIG_SYSROOT_DIR"]
    {
        println!("cargo:rerun-if-env-changed={name}");
    }
    println!("cargo:rerun-if-changed=build.rs");
    if env::var_os("DOCS_RS").is_some() {
        return; // documentation is not linked
    }
    let found = match env::var("NIZWARF_LIB_DIR") {
        Ok(folder) => link_folder(&folder),
        Err(_) => link_installed(),
    };
    if let Err(fault) = found {
        eprintln!("cannot find libnizwarf: {fault}");
        eprintln!("Install its development package, so that `pkg-config {NAME}` finds it, or set");
        eprintln!("NIZWARF_LIB_DIR to a directory with libnizwarf.a, with libnizwarf.so, or with");
        eprintln!("libnizwarf_codec.a and liblibc_c.a.");
        exit(1);
    }
}

/// Links the library in a folder.
fn link_folder(folder: &str) -> Result<(), String> {
    let has = |file: &str| Path::new(folder).join(file).exists();
    let libraries: &[&str] = if has("libnizwarf.a") {
        &["static=nizwarf"]
    } else if has("libnizwarf_codec.a") && has("liblibc_c.a") {
        &["static=nizwarf_codec", "static=libc_c"]
    } else if has("libnizwarf.so") && !is_static() {
        &["dylib=nizwarf"]
    } else {
        let kind = if is_static() { "no static library" } else { "none of its files" };
        return Err(format!("the folder {folder} has {kind}"));
    };
    // The linker runs in another folder.
    let folder = Path::new(folder).canonicalize().map_err(|fault| format!("the folder {folder}: {fault}"))?;
    println!("cargo:rustc-link-search=native={}", folder.display());
    for library in libraries {
        println!("cargo:rustc-link-lib={library}");
    }
    for file in ["libnizwarf.a", "libnizwarf_codec.a", "liblibc_c.a", "libnizwarf.so"] {
        let path = folder.join(file);
        if path.exists() {
            println!("cargo:rerun-if-changed={}", path.display());
        }
    }
    Ok(())
}

/// Whether the feature `static` is on.
fn is_static() -> bool {
    env::var_os("CARGO_FEATURE_STATIC").is_some()
}

/// Links the installed library.
fn link_installed() -> Result<(), String> {
    let versions = VERSIONS.map(|version| format!("{NAME} {version}"));
    if is_static() {
        run_pkg_config(&["--exists"], &versions)?;
        let folder = run_pkg_config(&["--variable=libdir"], &[NAME.into()])?;
        return link_folder(folder.trim());
    }
    let mut named = false;
    for word in run_pkg_config(&["--libs"], &versions)?.split_whitespace() {
        if let Some(folder) = word.strip_prefix("-L") {
            println!("cargo:rustc-link-search=native={folder}");
        } else if let Some(library) = word.strip_prefix("-l") {
            println!("cargo:rustc-link-lib={library}");
            named = true;
        }
    }
    if named {
        Ok(())
    } else {
        Err("pkg-config names no library".into())
    }
}

/// Returns the output of pkg-config.
fn run_pkg_config(words: &[&str], of: &[String]) -> Result<String, String> {
    let program = env::var("PKG_CONFIG").unwrap_or_else(|_| "pkg-config".into());
    let why = |why: &dyn std::fmt::Display| format!("NIZWARF_LIB_DIR is not set, and `{program}`: {why}");
    let said = Command::new(&program).args(words).arg("--print-errors").args(of).output();
    let said = said.map_err(|fault| why(&fault))?;
    if said.status.success() {
        Ok(String::from_utf8_lossy(&said.stdout).into_owned())
    } else {
        Err(why(&String::from_utf8_lossy(&said.stderr).trim()))
    }
}
