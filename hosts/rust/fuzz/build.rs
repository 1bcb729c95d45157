//! Links clang's libFuzzer, or the driver and runtime of afl++ where NOTEBOOK_FUZZER is afl; or says what is missing.

use std::path::{Path, PathBuf};
use std::process::Command;

fn main() {
    println!("cargo::rerun-if-changed=build.rs");
    println!("cargo::rerun-if-env-changed=NOTEBOOK_FUZZER");
    let found = match std::env::var("NOTEBOOK_FUZZER").as_deref() {
        Ok("afl") => afl(),
        _ => libfuzzer(),
    };
    match found {
        Ok(files) => {
            for file in files {
                println!("cargo::rustc-link-arg-bins={}", file.display());
            }
            println!("cargo::rustc-link-arg-bins=-lstdc++");
        }
        Err(message) => println!("cargo::error={message}"),
    }
}

fn libfuzzer() -> Result<Vec<PathBuf>, String> {
    let name = "libclang_rt.fuzzer-x86_64.a";
    let output = Command::new("clang").arg("--print-runtime-dir").output();
    let folder = output.map_or(String::new(), |output| String::from_utf8_lossy(&output.stdout).trim().to_string());
    let found = [Path::new(&folder).join(name), Path::new(&folder).join("../linux").join(name)];
    let found = found.into_iter().find(|path| path.is_file());
    found
        .map(|path| vec![path])
        .ok_or(format!("no {name} beside clang: `hosts/packages fuzz` installs clang and libclang-rt-dev"))
}

fn afl() -> Result<Vec<PathBuf>, String> {
    let files = ["libAFLDriver.a", "afl-compiler-rt.o"].map(|name| Path::new("/usr/lib/afl").join(name));
    match files.iter().find(|file| !file.is_file()) {
        Some(file) => Err(format!("no {}: `hosts/packages afl` installs afl++", file.display())),
        None => Ok(files.to_vec()),
    }
}
