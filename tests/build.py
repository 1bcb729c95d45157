"""Building and installing, from the outside: `make test-install` runs it after `make all`.

- `make install` under a prefix with blanks: the files that are there; from another folder a C program by pkg-config, a Rust program over the
  installed library, and the installed command; `make uninstall` leaves no file
- `make install` under a DESTDIR with blanks and without cargo
- `make run` shows the main job
- a tool that is missing or too old: `.ci/run`, `make run` and `make install` fail at once and name it
- `hosts/rust/fuzz/run --help`

Prints each difference; exit status 1 if there is one. What it writes is in target/, and removed at its end.
"""

import os
import shutil
import subprocess
import sys
import tempfile

ROOT = os.path.dirname(os.path.dirname(os.path.abspath(__file__)))
PROGRAMS = {"bin/notecheck", "bin/noteindex", "bin/notecanon", "bin/notecut", "bin/notejoin"}
LIBRARY = {"lib/libnotebook.a", "lib/pkgconfig/notebook.pc", "include/notebook.h"}
COUNTS = "check: 15 records, 1 group, 3 drugs"

SHOWN = """\
$ notebook check samples
samples/refused.csv: no 11 10: form
samples/visit.csv: ok 15 1 3
(exit status 1)
$ notebook canonical samples/visit.csv > canonical.csv
$ notebook cut --capacity 300 --id 20161115000001 --prefix piece- samples/visit.csv
samples/visit.csv: ok 3 675
piece-1: 281
piece-2: 289
piece-3: 105
$ notebook join piece-3 piece-1 piece-2 > joined.csv
$ cmp joined.csv canonical.csv
"""

# A program of somebody else.
CARGO_TOML = """\
[workspace]

[package]
name = "outside"
edition = "2021"

[dependencies]
notebook = { path = "notebook" }
"""
MAIN_RS = """\
fn main() {
    let file = std::fs::read("visit.csv").expect("the sample");
    let checked = notebook::check(&file).expect("an accepted file");
    println!("{} {} {} {}", checked.records, checked.groups, checked.drugs, notebook::version());
}
"""

# What the scripts use beside the tools that hosts/needs names.
PLAIN = ["sh", "env", "cat", "cp", "dirname", "grep", "head", "mktemp", "rm", "sed", "sort", "tail", "tee", "touch", "tr"]
NEEDED = {
    "gate": ["rt", "make", "cc", "c++", "python3", "cargo", "pkg-config"],
    "run": ["rt", "cc", "cargo"],
    "install": ["rt", "cc", "cargo"],
}
# It knows its version, notes every other use, and fails.
FAKE = """\
#!/bin/sh
case "$*" in *version) echo "fake $(cat "$0.version")" ;; *) echo "$*" >> "$0.used" && exit 1 ;; esac
"""

DIFFERENCES = []


def hold(holds, what):
    if not holds:
        DIFFERENCES.append(what)
        print("build.py:", what)


def call(words, folder=ROOT, more=None, seconds=600):
    """The exit status of a command (127 where there is none), its standard output, and both streams together."""
    told = {name: value for name, value in os.environ.items() if name not in ("MAKEFLAGS", "MAKELEVEL", "MFLAGS", "NOTEBOOK_LIB_DIR")}
    told.update(more or {})
    try:
        done = subprocess.run(words, cwd=folder, env=told, stdin=subprocess.DEVNULL, capture_output=True, text=True, timeout=seconds)
    except OSError as error:
        return 127, "", str(error)
    return done.returncode, done.stdout, done.stdout + done.stderr


def succeeds(words, folder=ROOT, more=None):
    """The standard output of a command that must end with 0."""
    status, out, said = call(words, folder, more)
    hold(status == 0, "%s ends with %d:\n%s" % (" ".join(words), status, said))
    return out


def files_below(folder):
    return {os.path.relpath(os.path.join(at, name), folder) for at, _, names in os.walk(folder) for name in names}


def version():
    with open(os.path.join(ROOT, "VERSION"), encoding="utf-8") as opened:
        text = opened.read().strip()
    major, minor, patch = (int(part) for part in text.split("."))
    return text, major * 10000 + minor * 100 + patch


# ---- installed under a prefix


def from_c(outside, found):
    shutil.copy(os.path.join(ROOT, "hosts/c/example.c"), outside)
    # as README says
    succeeds(["sh", "-c", 'eval "cc example.c $(pkg-config --cflags --libs notebook) -o example"'], outside, found)
    out = succeeds(["./example", "visit.csv"], outside).splitlines()
    hold(COUNTS in out and "join: 577 bytes, equal to the canonical file" in out, "the C example says %s" % out)
    hold(call(["sh", "-c", "./example visit.csv > /dev/full"], outside)[0] == 2, "the C example does not see that it cannot write")
    hold(succeeds(["pkg-config", "--modversion", "notebook"], outside, found).strip() == version()[0], "notebook.pc has another version")


def from_rust(outside, ways):
    """A copy of the crate without the repository around it, which finds the library in each of the ways."""
    shutil.copytree(os.path.join(ROOT, "hosts/rust/notebook"), os.path.join(outside, "notebook"))
    os.makedirs(os.path.join(outside, "src/bin"))
    shutil.copy(os.path.join(ROOT, "hosts/rust/notebook/examples/visit.rs"), os.path.join(outside, "src/bin"))
    for name, text in (("Cargo.toml", CARGO_TOML), ("src/main.rs", MAIN_RS)):
        with open(os.path.join(outside, name), "w", encoding="utf-8") as opened:
            opened.write(text)
    for way in ways:
        succeeds(["cargo", "build", "--offline", "--quiet", "--target-dir", "built"], outside, way)
        out = succeeds(["built/debug/outside"], outside)
        hold(out == "15 1 3 %d\n" % version()[1], "the Rust program by %s says %r" % (way, out))
    out = succeeds(["built/debug/visit", "visit.csv"], outside).splitlines()
    hold(COUNTS in out and "join: 577 bytes, the canonical file" in out, "the Rust example says %s" % out)
    hold(call(["sh", "-c", "built/debug/visit visit.csv > /dev/full"], outside)[0] == 1, "the Rust example panics where it cannot write")
    status, _, said = call(["cargo", "build", "--offline", "--target-dir", "built"], outside, {"NOTEBOOK_LIB_DIR": outside})
    hold(status != 0 and "no libgateway.a or libnotebook.a in" in said, "a folder without the library: %d, %s" % (status, said))


def from_shell(outside, prefix):
    command = os.path.join(prefix, "bin/notebook")
    hold(succeeds([command, "check", "visit.csv"], outside) == "visit.csv: ok 15 1 3\n", "the installed command gives another answer")
    hold(succeeds([command, "--version"], outside) == "notebook %s\n" % version()[0], "the installed command has another version")
    program = ["sh", "-c", '"$0" < visit.csv', os.path.join(prefix, "bin/notecheck")]
    hold(succeeds(program, outside) == "ok 15 1 3\n", "the installed program gives another answer")


def under_a_prefix(folder):
    prefix, outside = os.path.join(folder, "a prefix"), os.path.join(folder, "outside it")
    os.mkdir(outside)
    shutil.copy(os.path.join(ROOT, "samples/visit.csv"), outside)
    # a relative one, which notebook.pc must not keep
    words = ["BUILD=debug", "DESTDIR=", "PREFIX=" + os.path.relpath(prefix, ROOT)]
    succeeds(["make", "install"] + words)
    found = files_below(prefix)
    hold(found == PROGRAMS | LIBRARY | {"bin/notebook"}, "make install leaves %s" % sorted(found))
    pkg_config = {"PKG_CONFIG_PATH": os.path.join(prefix, "lib/pkgconfig")}
    from_c(outside, pkg_config)
    from_rust(outside, [pkg_config, {"NOTEBOOK_LIB_DIR": os.path.join(prefix, "lib"), "PKG_CONFIG": "false"}])
    from_shell(outside, prefix)
    succeeds(["make", "uninstall"] + words)
    hold(not files_below(prefix), "make uninstall leaves %s" % sorted(files_below(prefix)))


def under_a_destdir(folder):
    stage = os.path.join(folder, "a stage, it's for a package")
    words = ["CARGO=", "PREFIX=/opt/note book", "DESTDIR=" + stage]
    succeeds(["make", "install"] + words)
    found = {os.path.relpath(name, "opt/note book") for name in files_below(stage)}
    hold(found == PROGRAMS | LIBRARY, "make install CARGO= leaves %s" % sorted(found))
    with open(os.path.join(stage, "opt/note book/lib/pkgconfig/notebook.pc"), encoding="utf-8") as opened:
        hold("libdir=/opt/note book/lib\n" in opened.read(), "notebook.pc names another folder than the prefix")
    succeeds(["make", "uninstall"] + words)
    hold(not files_below(stage), "make uninstall leaves %s" % sorted(files_below(stage)))


# ---- what a machine lacks


def machine(folder, lacks, versions):
    """A folder for the path, with the plain commands, and with tools that only tell their versions, but for the one that is lacking."""
    path = tempfile.mkdtemp(dir=folder)
    for name in PLAIN:
        os.symlink(shutil.which(name), os.path.join(path, name))
    for name in set(NEEDED["gate"]) - {lacks}:
        with open(os.path.join(path, name), "w", encoding="utf-8") as opened:
            opened.write(FAKE)
        os.chmod(os.path.join(path, name), 0o755)
        with open(os.path.join(path, name + ".version"), "w", encoding="utf-8") as opened:
            opened.write(versions.get(name, "9.9.9"))
    return path


def fails_at_once(words, path, says):
    status, _, said = call(words, more={"PATH": path}, seconds=60)
    hold(status != 0 and says in said, "%s with %s: %d, %s" % (" ".join(words), says, status, said))
    used = sorted(name for name in os.listdir(path) if name.endswith(".used"))
    hold(not used, "%s with %s has used %s before it failed" % (" ".join(words), says, used))


def lacking(folder):
    make = shutil.which("make")
    uses = {"gate": [os.path.join(ROOT, ".ci/run")], "run": [make, "run"], "install": [make, "install", "PREFIX=" + folder]}
    for use, words in uses.items():
        for tool in NEEDED[use]:
            fails_at_once(words, machine(folder, tool, {}), "needs: missing for %s: %s" % (use, tool))
        fails_at_once(words, machine(folder, None, {"cargo": "1.65.0"}), "too old, fake 1.65.0")
    status, _, said = call([make, "install", "PREFIX=" + folder], more={"PATH": machine(folder, "cargo", {})})
    hold(status != 0 and "make install CARGO=" in said, "make install without cargo does not say what to do: %s" % said)


# ---- commands that show


def shows(folder):
    status, out, said = call(["make", "--silent", "run", "BUILD=debug"])
    hold(status == 0 and out.startswith(SHOWN) and len(out.splitlines()) == 13, "make run: %d, %s" % (status, said))
    path = machine(folder, None, {})
    status, out, said = call(["hosts/rust/fuzz/run", "--help"], more={"PATH": path}, seconds=60)
    hold(status == 0 and "fuzz/run [SECONDS]" in out, "fuzz/run --help: %d, %s" % (status, said))
    hold(call(["hosts/rust/fuzz/run", "ten"], more={"PATH": path}, seconds=60)[0] == 2, "fuzz/run takes `ten` for seconds")


def main():
    folder = tempfile.mkdtemp(prefix="build.", dir=os.path.join(ROOT, "target"))
    try:
        for test in (lacking, shows, under_a_prefix, under_a_destdir):
            test(folder)
    finally:
        shutil.rmtree(folder)
    print("build.py: %d differences" % len(DIFFERENCES))
    return 1 if DIFFERENCES else 0


if __name__ == "__main__":
    sys.exit(main())
