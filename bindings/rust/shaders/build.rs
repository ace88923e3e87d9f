//! Links the folder shaders/ to one text of WGSL, by the program `wesl-text`: the one on the path, or that of `WESL_TEXT`.
//! The companion tools/wesl-text does too.
use std::env;
use std::ffi::OsString;
use std::fs;
use std::path::{Path, PathBuf};
use std::process::{Command, ExitCode};

fn main() -> ExitCode {
    match link("shaders", "shaders.wgsl", &["--feature", "fog"]) {
        Ok(()) => ExitCode::SUCCESS,
        Err(fault) => {
            fault.lines().for_each(|line| println!("cargo::error={line}"));
            ExitCode::FAILURE
        }
    }
}

/// Links a folder to a file of `OUT_DIR`. The build runs again where a file of the folder, or one that was loaded, changes.
fn link(folder: &str, output: &str, words: &[&str]) -> Result<(), String> {
    println!("cargo::rerun-if-env-changed=WESL_TEXT");
    println!("cargo::rerun-if-changed={folder}");
    let out = PathBuf::from(env::var_os("OUT_DIR").ok_or("there is no OUT_DIR: cargo runs this")?);
    let depfile = out.join(format!("{output}.d"));
    let program = env::var_os("WESL_TEXT").unwrap_or_else(|| OsString::from("wesl-text"));
    let ran = Command::new(&program)
        .arg(folder)
        .args(words)
        .arg("--output")
        .arg(out.join(output))
        .arg("--depfile")
        .arg(&depfile)
        .output()
        .map_err(|fault| format!("{} does not run: {fault}", Path::new(&program).display()))?;
    let told = String::from_utf8_lossy(&ran.stderr);
    if !ran.status.success() {
        return Err(format!("{} ends with {}\n{told}", Path::new(&program).display(), ran.status));
    }
    told.lines().for_each(|line| println!("cargo::warning={line}"));
    for file in files_of(&depfile).map_err(|fault| format!("{}: {fault}", depfile.display()))? {
        println!("cargo::rerun-if-changed={file}");
    }
    Ok(())
}

/// The files that a depfile names: those behind the first target, one line `FILE:` for each.
fn files_of(depfile: &Path) -> std::io::Result<Vec<String>> {
    let text = fs::read_to_string(depfile)?;
    let named = text.lines().skip(1).filter_map(|line| line.strip_suffix(':'));
    Ok(named.map(|name| name.replace("\\ ", " ").replace("\\#", "#").replace("$$", "$")).collect())
}
