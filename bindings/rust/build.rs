//! Finds the C library `wesl`: in the folder that `WESL_LIB_DIR` names, or where pkg-config says that it is installed.
//!
//! It is linked statically where `libwesl.a` is there, unless `WESL_LIB_KIND` is `dylib`.
use std::env;
use std::path::{Path, PathBuf};
use std::process::{Command, ExitCode};

const HELP: &str = "set WESL_LIB_DIR to the folder of libwesl.a or libwesl.so, or PKG_CONFIG_PATH to that of wesl.pc";

fn main() -> ExitCode {
    for name in ["WESL_LIB_DIR", "WESL_LIB_KIND", "PKG_CONFIG", "PKG_CONFIG_PATH"] {
        println!("cargo::rerun-if-env-changed={name}");
    }
    match library_folder().and_then(|folder| Ok((kind_in(&folder)?, folder))) {
        Ok(((kind, file), folder)) => {
            println!("cargo::rerun-if-changed={}", folder.join(file).display());
            println!("cargo::rustc-link-search=native={}", folder.display());
            println!("cargo::rustc-link-lib={kind}=wesl");
            println!("cargo::metadata=lib_dir={}", folder.display());
            ExitCode::SUCCESS
        }
        Err(fault) => {
            println!("cargo::error={fault}: {HELP}");
            ExitCode::FAILURE
        }
    }
}

/// The folder of the library.
fn library_folder() -> Result<PathBuf, String> {
    match env::var_os("WESL_LIB_DIR") {
        Some(folder) => Path::new(&folder).canonicalize().map_err(|fault| format!("WESL_LIB_DIR: {fault}")),
        None => folder_by_pkg_config(),
    }
}

/// The folder of the library, as pkg-config tells it.
fn folder_by_pkg_config() -> Result<PathBuf, String> {
    let program = env::var_os("PKG_CONFIG").unwrap_or_else(|| "pkg-config".into());
    let ran = Command::new(&program)
        .args(["--variable=libdir", "wesl"])
        .output()
        .map_err(|fault| format!("{} does not run: {fault}", Path::new(&program).display()))?;
    let folder = String::from_utf8_lossy(&ran.stdout);
    match (ran.status.success(), folder.trim()) {
        (true, folder) if !folder.is_empty() => Ok(folder.into()),
        _ => Err("pkg-config knows no package wesl".into()),
    }
}

/// How the library in this folder is linked, and which file it is.
fn kind_in(folder: &Path) -> Result<(&'static str, &'static str), String> {
    let wanted = env::var("WESL_LIB_KIND").unwrap_or_default();
    if !["", "static", "dylib"].contains(&wanted.as_str()) {
        return Err(format!("WESL_LIB_KIND is `{wanted}`, and neither `static` nor `dylib`"));
    }
    [("static", "libwesl.a"), ("dylib", "libwesl.so")]
        .into_iter()
        .find(|(kind, file)| (wanted.is_empty() || wanted == *kind) && folder.join(file).is_file())
        .ok_or_else(|| format!("{} has no such library", folder.display()))
}
