//! Finds the library and links it, or says what is missing. It is `libgateway.a` as `make library` makes it, or the same
//! installed by `make install` as `libnotebook.a`.

use std::path::{Path, PathBuf};
use std::process::Command;

/// The library's names, as the linker knows them.
const LIBRARIES: [&str; 2] = ["notebook", "gateway"];
const EXPORTS: [&str; 6] =
    ["notebook_check", "notebook_index", "notebook_canonical", "notebook_cut", "notebook_join", "notebook_version"];
const ADVICE: &str = "run `make library` in the repository's root, or set NOTEBOOK_LIB_DIR to the folder that has \
                      libgateway.a or libnotebook.a, or install the library where pkg-config finds it";

/// Where the library is, and its version if a notebook.pc tells it.
struct Found {
    folder: PathBuf,
    version: Option<String>,
}

fn main() {
    println!("cargo::rerun-if-changed=build.rs");
    for name in ["NOTEBOOK_LIB_DIR", "PKG_CONFIG", "PKG_CONFIG_PATH"] {
        println!("cargo::rerun-if-env-changed={name}");
    }
    match found().and_then(|found| Ok((library(&found)?, found))) {
        Ok((name, found)) => {
            println!("cargo::rustc-link-search=native={}", found.folder.display());
            println!("cargo::rustc-link-lib=static={name}");
        }
        Err(message) => println!("cargo::error={message}"),
    }
}

/// The folder with the library: NOTEBOOK_LIB_DIR; else the repository's target/staticlib; else what pkg-config says.
fn found() -> Result<Found, String> {
    if std::env::var("CARGO_CFG_TARGET_ARCH").as_deref() != Ok("x86_64") {
        return Err("the library is made for x86-64; this build is for another processor".to_string());
    }
    if let Some(folder) = std::env::var_os("NOTEBOOK_LIB_DIR").map(PathBuf::from) {
        let relative = format!("NOTEBOOK_LIB_DIR is {}: it must be an absolute path", folder.display());
        return if folder.is_relative() { Err(relative) } else { Ok(Found { version: version_beside(&folder), folder }) };
    }
    let root = Path::new(env!("CARGO_MANIFEST_DIR")).join("../../..");
    let made = root.join("target/staticlib");
    // Where the repository is around this crate, what it makes later is taken then.
    if root.join("crates.txt").is_file() {
        println!("cargo::rerun-if-changed={}", made.join("libgateway.a").display());
    }
    // No notebook.pc tells the version of what the repository has made; the crate's tests compare it.
    let made_here = made.join("libgateway.a").is_file();
    let found = if made_here { Some(Found { folder: made, version: None }) } else { installed() };
    found.ok_or(format!("no library; {ADVICE}"))
}

fn installed() -> Option<Found> {
    let folder = PathBuf::from(pkg_config("--variable=libdir")?);
    Some(Found { folder, version: pkg_config("--modversion") })
}

fn pkg_config(question: &str) -> Option<String> {
    let program = std::env::var_os("PKG_CONFIG").unwrap_or("pkg-config".into());
    let output = Command::new(program).args([question, "notebook"]).output().ok()?;
    let answer = String::from_utf8(output.stdout).ok().filter(|_| output.status.success())?;
    Some(answer.trim_end_matches('\n').to_string())
}

/// The version in the notebook.pc that `make install` puts beside the library.
fn version_beside(folder: &Path) -> Option<String> {
    let file = folder.join("pkgconfig/notebook.pc");
    let text = std::fs::read_to_string(&file).ok()?;
    println!("cargo::rerun-if-changed={}", file.display());
    text.lines().find_map(|line| line.strip_prefix("Version: ")).map(str::to_string)
}

/// The name of the library in its folder, if it is of this crate's version and exports every call.
fn library(Found { folder, version }: &Found) -> Result<&'static str, String> {
    let archive = |name: &str| folder.join(format!("lib{name}.a"));
    let name = LIBRARIES.into_iter().find(|name| archive(name).is_file());
    let name = name.ok_or(format!("no libgateway.a or libnotebook.a in {}; {ADVICE}", folder.display()))?;
    let archive = archive(name);
    println!("cargo::rerun-if-changed={}", archive.display());
    let own = env!("CARGO_PKG_VERSION");
    if let Some(version) = version.as_ref().filter(|version| *version != own) {
        return Err(format!("{} is of version {version}, this crate of {own}; {ADVICE}", archive.display()));
    }
    let bytes = std::fs::read(&archive).map_err(|error| format!("{}: {error}", archive.display()))?;
    for export in EXPORTS {
        // The archive's own table has every exported name, ended by a zero.
        let name = [export.as_bytes(), b"\0"].concat();
        if !bytes.windows(name.len()).any(|part| part == name) {
            return Err(format!("{} does not export {export}, so it is an old one; {ADVICE}", archive.display()));
        }
    }
    Ok(name)
}
