"""What the parts share: the programs under test, fresh folders and files, runs with a time limit, faults, and looking at what is left."""

import contextlib
import json
import os
import re
import shutil
import stat
import subprocess
import sys
import tempfile
from collections import namedtuple

ROOT = os.path.dirname(os.path.dirname(os.path.dirname(os.path.abspath(__file__))))
SHIM = os.path.join(ROOT, "target/c/failing.so")
LIMIT = 60  # seconds for each command: none takes two on a machine that has nothing else to do

sys.path.insert(0, os.path.join(ROOT, "tests"))
import oracle  # the paper's calls in Python, for bytes that are long to write by hand

place = {}  # where the command and the programs are, and the folder that holds all others

Result = namedtuple("Result", "status out err")


class Wrong(Exception):
    """A test has failed."""


class Skipped(Exception):
    """This machine does not let the test be run."""


# --- files ---

ID = "12345678901234"
FIRST = b"JAHISTC04,2\r\n"
SMALL = FIRST + b"1,A,1,19890108,,,,,,,\r\n"
SMALL_CANONICAL = FIRST + b"1,A,1,H010108,,,,,,,\r\n"
NOTE = b"4,x,,2\r\n"


def notes(count):
    """The small file with records 4."""
    return SMALL + NOTE * count


def canonical(data):
    return oracle.file_of(oracle.canonical_lines(data))


def pieces(data, capacity, ident=ID):
    return oracle.pieces_of(data, capacity, ident.encode())


def numbered(prefix, held):
    """The command's files: the numbers have as many digits as the last, so that they sort."""
    return {"%s%0*d" % (prefix, len(str(len(held))), k): one for k, one in enumerate(held, 1)}


def sample(name):
    with open(os.path.join(ROOT, "samples", name), "rb") as file:
        return file.read()


def write(folder, files):
    """Makes files (and their folders): a name with bytes; a text is the target of a link, None a folder."""
    for name, held in files.items():
        path = os.path.join(folder, name)
        os.makedirs(path if held is None else os.path.dirname(path), exist_ok=True)
        if isinstance(held, str):
            os.symlink(held, path)
        elif held is not None:
            with open(path, "wb") as file:
                file.write(held)


def held(path):
    """A file's bytes, a link's target as a text, None for a folder, and a word for anything else."""
    mode = os.lstat(path).st_mode
    if stat.S_ISLNK(mode):
        return os.readlink(path)
    if stat.S_ISDIR(mode):
        return None
    if not stat.S_ISREG(mode):
        return "no file"
    with open(path, "rb") as file:
        return file.read()


# Temporary files of the command, and of notecut with the prefix p.
PART = re.compile(r"(.*/)?\.notebook-[0-9a-f]{16}\.part")
DOTTED = re.compile(r"p\.[1-9][0-9]*\.\w{6}")


def tree(folder):
    """What is in a folder and below it, as `write` takes it."""
    found = {}
    for here, folders, files in os.walk(folder):
        for name in folders + files:
            path = os.path.join(here, name)
            found[os.path.relpath(path, folder)] = held(path)
    return found


def mode(folder, name):
    return stat.S_IMODE(os.lstat(os.path.join(folder, name)).st_mode)


# --- expectations ---


def shown(thing):
    text = repr(thing)
    return text if len(text) <= 300 else text[:200] + " .. " + text[-80:]


def same(what, got, wanted):
    if got != wanted:
        raise Wrong("%s: %s, not %s" % (what, shown(got), shown(wanted)))


def like(what, got, pattern):
    """The whole of some bytes is like a pattern."""
    if not re.fullmatch(pattern.encode(), got, re.DOTALL):
        raise Wrong("%s: %s, not like %s" % (what, shown(got), pattern))


def holds(what, condition):
    if not condition:
        raise Wrong(what)


def same_tree(folder, wanted):
    got = tree(folder)
    for name in sorted(set(got) | set(wanted)):
        holds("%s is left" % shown(name), name in wanted)
        holds("%s is missing" % shown(name), name in got)
        same("the bytes of %s" % shown(name), got[name], wanted[name])


def has_status(result, *allowed):
    if result.status not in allowed:
        raise Wrong("status %s, with %s on standard error" % (result.status, shown(result.err)))


def answers(result, status, out, err):
    has_status(result, status)
    like("standard output", result.out, out)
    like("standard error", result.err, err)


def objects(text):
    """A JSON object on each line."""
    try:
        found = [json.loads(line) for line in text.splitlines()]
    except ValueError:
        raise Wrong("not a JSON object on each line: %s" % shown(text))
    holds("not a JSON object on each line: %s" % shown(text), all(isinstance(one, dict) for one in found))
    return found


# --- runs ---


def program(text):
    """The words of a command line, the first with its path. A text is split at spaces."""
    words = text.split(" ") if isinstance(text, str) else list(text)
    folder = place["programs"] if words[0].startswith("note") and words[0] != "notebook" else place["command"]
    return [os.path.join(folder, words[0])] + words[1:]


def in_shell(words, limits="", under="", redirected=""):
    """The command started by a shell, under limits or another command, and with other descriptors."""
    return ["sh", "-c", '%s exec %s "$@" %s' % (limits, under, redirected), "sh"] + words


def environment(fault="", log=""):
    held = {"PATH": os.environ.get("PATH", "/usr/bin:/bin"), "LANG": "C"}
    if fault or log:
        held.update(LD_PRELOAD=SHIM, FAILING=fault)
    if log:
        held["FAILING_LOG"] = log
    return held


def run(text, folder, given=b"", limits="", under="", redirected="", fault="", log="", **more):
    """Runs a command line in a folder. A signal is a negative status, and a run that took too long ends with None."""
    words = program(text)
    if limits or under or redirected:
        words = in_shell(words, limits, under, redirected)
    streams = {"stdout": subprocess.PIPE, "stderr": subprocess.PIPE, **more}
    try:
        done = subprocess.run(words, cwd=folder, input=given, env=environment(fault, log), timeout=LIMIT, **streams)
    except subprocess.TimeoutExpired:
        return Result(None, b"", b"not ended after %d s" % LIMIT)
    return Result(done.returncode, done.stdout or b"", done.stderr or b"")


def logged(log):
    """The calls that were written to a log, in order: (name, descriptor)."""
    if not os.path.exists(log):
        return []
    with open(log) as file:
        lines = [line.split() for line in file]
    os.remove(log)
    return [(name, int(descriptor)) for name, descriptor in lines]


def calls_of(text, folder, given=b""):
    log = os.path.join(place["top"], "log")
    run(text, folder, given, log=log)
    return logged(log)


# Calls after which files are other than before.
CHANGING = set(
    "write writev pwrite pwrite64 open open64 openat openat64 mkstemp mkstemp64 close fsync fdatasync rename renameat renameat2 link linkat"
    " unlink unlinkat mkdir mkdirat rmdir fchmod chmod ftruncate ftruncate64 flock".split()
)

# --- places ---


def build_shim():
    os.makedirs(os.path.dirname(SHIM), exist_ok=True)
    warnings = "-std=c99 -Wall -Wextra -Wpedantic -Werror -O2".split()
    source = os.path.join(ROOT, "hosts/c/failing.c")
    subprocess.run([os.environ.get("CC", "cc"), *warnings, "-fPIC", "-shared", source, "-ldl", "-o", SHIM], check=True)


MEMORY_DISK = "/dev/shm"  # where syncing takes no time


@contextlib.contextmanager
def prepared(notebook, programs):
    """The command is copied, so that another user may run it."""
    build_shim()
    room = MEMORY_DISK if os.access(MEMORY_DISK, os.W_OK) else None
    with tempfile.TemporaryDirectory(dir=room) as top, tempfile.TemporaryDirectory() as command:
        os.chmod(top, 0o755)
        os.chmod(command, 0o755)
        place.update(top=top, command=command, programs=os.path.abspath(programs))
        shutil.copy(notebook, os.path.join(command, "notebook"))
        yield


@contextlib.contextmanager
def fresh_folder():
    folder = tempfile.mkdtemp(dir=place["top"])
    os.chmod(folder, 0o755)
    try:
        yield folder
    finally:
        shutil.rmtree(folder)


@contextlib.contextmanager
def small_disk(folder, size):
    """The folder is a file system of this size, if this user may mount one."""
    options = ["mount", "-t", "tmpfs", "-o", "size=" + size, "none", folder]
    try:
        done = subprocess.run(options, stdout=subprocess.DEVNULL, stderr=subprocess.DEVNULL)
        mounted = done.returncode == 0
    except FileNotFoundError:
        mounted = False
    if not mounted:
        raise Skipped("no file system can be mounted here")
    try:
        yield
    finally:
        subprocess.run(["umount", folder], check=True)
