//! The command `notebook`: the gateway's five calls on files, folders and standard input. `notebook --help` describes it.

#![deny(unsafe_code)]
// It ends with 0, 1 or 2, so nothing that an input, a file or a limit of the system reaches may panic. `clippy.toml` lists
// macros and functions that panic too.
#![cfg_attr(
    not(test),
    forbid(
        clippy::disallowed_macros,
        clippy::disallowed_methods,
        clippy::expect_used,
        clippy::indexing_slicing,
        clippy::panic,
        clippy::print_stderr,
        clippy::print_stdout,
        clippy::string_slice,
        clippy::todo,
        clippy::unimplemented,
        clippy::unreachable,
        clippy::unwrap_used
    )
)]

mod arguments;
mod calls;
mod folder;
mod inputs;
mod json;
mod many;
mod names;
mod ordered;
mod screen;
mod summary;
#[allow(unsafe_code)]
mod system;
mod targets;
mod tell;
mod used;
mod whole;

use arguments::{Arguments, Call, Many, One, Parsed};
use inputs::Input;
use notebook::MOST_FILE_BYTES;
use std::ffi::OsString;
use std::io;
use std::process::ExitCode;
use std::sync::atomic::Ordering;
use tell::{Teller, Told};

#[global_allocator]
static MEMORY: system::Memory = system::Memory;

fn main() -> ExitCode {
    // Nothing should panic; what does ends with a status all the same.
    std::panic::set_hook(Box::new(|_| system::end(system::MISTAKE)));
    let words: Vec<OsString> = std::env::args_os().skip(1).collect();
    let json = system::JSON.load(Ordering::Relaxed);
    let status = match arguments::parse(words) {
        Ok(Parsed::Run(arguments)) => match other_version(notebook::version(), env!("CARGO_PKG_VERSION")) {
            Some(message) => {
                tell::complain(json, &message);
                Ok(tell::FAILED)
            }
            None => run(&arguments),
        },
        Ok(Parsed::Say(text)) => tell::write_out(text.as_bytes()).map(|()| tell::ACCEPTED),
        Err(message) => Ok(misused(json, &message)),
    };
    ExitCode::from(status.unwrap_or_else(|error| {
        // A reader that has seen enough is no reason for a message.
        if error.kind() != io::ErrorKind::BrokenPipe {
            tell::complain(json, &format!("standard output: {error}"));
        }
        tell::FAILED
    }))
}

/// What there is to say where the library is of another version than this command: its results may have another form.
fn other_version(library: u64, own: &str) -> Option<String> {
    let library = format!("{}.{}.{}", library / 10_000, library / 100 % 100, library % 100);
    (library != own).then(|| format!("the library is of version {library}, this command of {own}"))
}

fn misused(json: bool, message: &str) -> u8 {
    tell::complain(json, message);
    if !json {
        tell::write_err(b"Try `notebook --help`.\n");
    }
    tell::FAILED
}

/// Does what the arguments ask for and answers the exit status. An error is one of standard output.
fn run(arguments: &Arguments) -> io::Result<u8> {
    let results = matches!(arguments.call, Call::Many(Many::Check | Many::Index(_), _));
    let teller = Teller { json: arguments.json, results };
    let with_paths = |paths, call: &dyn Fn(&[OsString]) -> io::Result<u8>| match inputs::paths(paths) {
        Ok(paths) => call(&paths),
        Err((list, error)) => teller.failed(list, &error).write(),
    };
    match &arguments.call {
        Call::Many(call, paths) => with_paths(paths, &|paths| many::run(arguments, teller, call, paths)),
        Call::Join { output, paths } => with_paths(paths, &|paths| calls::join(teller, paths, output.as_deref()).write()),
        Call::One(call, path) => one_file(teller, call, &Input::alone(path, arguments.name.as_deref())).write(),
    }
}

fn one_file(teller: Teller, call: &One, input: &Input) -> Told {
    let file = match calls::read(teller, input, MOST_FILE_BYTES + 1) {
        Ok(file) => file,
        Err(failure) => return failure,
    };
    match call {
        One::Canonical { output } => calls::canonical(teller, &input.name, &file, output.as_deref()),
        One::Cut(cutting) => calls::cut(teller, &input.name, &file, cutting),
    }
}

#[cfg(test)]
mod tests {
    use super::*;

    #[test]
    fn a_library_of_another_version_is_told() {
        assert_eq!(other_version(400, "0.4.0"), None);
        assert_eq!(other_version(120_345, "12.3.45"), None);
        let message =
            |library: &str, own: &str| Some(format!("the library is of version {library}, this command of {own}"));
        assert_eq!(other_version(300, "0.4.0"), message("0.3.0", "0.4.0"));
        assert_eq!(other_version(400, "0.4.1"), message("0.4.0", "0.4.1"));
        assert_eq!(other_version(10_400, "0.4.0"), message("1.4.0", "0.4.0"));
    }
}
