"""Options and small things: --quiet, --summary, --files0-from, what a folder's run leaves out, errors in json, the bar on narrow terminals."""

import errno
import fcntl
import functools
import os
import pty
import re
import select
import struct
import subprocess
import termios
import time

from outside import jobs, tools
from outside.tools import ID, NOTE, SMALL, SMALL_CANONICAL, Wrong, answers, has_status, holds, notes, objects, run, same, same_tree, write

FORM = SMALL + b"4,x,H290229,2\r\n"  # refused with 11, line 3
FILES = {"d/a.csv": SMALL, "d/b.csv": FORM, "d/c.csv": FORM}
TOLD = "d/a.csv: ok 1 0 0\nd/b.csv: no 11 3: form\nd/c.csv: no 11 3: form\n"
REFUSED = "d/b.csv: no 11 3: form\nd/c.csv: no 11 3: form\n"
SUMMARY = "3 files: 1 accepted, 2 refused, 0 failed\nno 11: form: 2\n"
FAILURE = "notebook: nofile: [^\n]+\n"
OUT = {"out": None, "out/a.csv": SMALL_CANONICAL}

# command line, status, standard output, standard error
OPTIONS = [
    ("check --quiet d", 1, REFUSED, ""),
    ("check --quiet d/a.csv", 0, "", ""),
    ("check --quiet d/a.csv nofile", 2, "", FAILURE),
    ("index --quiet d", 1, REFUSED, ""),
    ("index --quiet d/a.csv", 0, "", ""),
    ("check --json --quiet d/a.csv", 0, "", ""),
    ("check --summary d", 1, TOLD + SUMMARY, ""),
    ("check --quiet --summary d", 1, REFUSED + SUMMARY, ""),
    ("check --summary d/a.csv", 0, "d/a.csv: ok 1 0 0\n1 file: 1 accepted, 0 refused, 0 failed\n", ""),
    ("check --quiet --summary d/a.csv nofile", 2, "2 files: 1 accepted, 0 refused, 1 failed\n", FAILURE),
    ("check --quiet --summary e.csv d/b.csv d/c.csv d/a.csv", 1,
     "e.csv: no 3 1: version\n" + REFUSED + "4 files: 1 accepted, 3 refused, 0 failed\nno 3: version: 1\nno 11: form: 2\n", ""),
    ("index --quiet --summary d", 1, REFUSED + SUMMARY, ""),
    ("check --json --quiet --summary d/a.csv", 0,
     '{"summary":{"files":1,"accepted":1,"refused":0,"failed":0,"skipped":0,"refusals":{}}}\n', ""),
    ("check --json --quiet --summary d/a.csv e.csv", 1,
     '{"file":"e.csv","ok":false,"number":3,"word":"version","line":1}\n'
     '{"summary":{"files":2,"accepted":1,"refused":1,"failed":0,"skipped":0,"refusals":{"3":1}}}\n', ""),
    ("check --json --summary --quiet nofile", 2,
     '{"file":"nofile","error":"[^\n]+"}\n{"summary":{"files":1,"accepted":0,"refused":0,"failed":1,"skipped":0,"refusals":{}}}\n', ""),
    ("canonical --to out --quiet d/a.csv", 0, "", ""),
    ("canonical --to out --quiet --summary d", 1, SUMMARY, REFUSED),
    ("canonical --to out --summary d/a.csv", 0, "d/a.csv: ok 35\n1 file: 1 accepted, 0 refused, 0 failed\n", ""),
    ("canonical --to out --json --quiet --summary d/a.csv nofile", 2,
     '{"summary":{"files":2,"accepted":1,"refused":0,"failed":1,"skipped":0,"refusals":{}}}\n', '{"file":"nofile","error":"[^\n]+"}\n'),
    ("join --quiet d/a.csv", 2, "", "notebook: .+"),
    ("cut --summary --capacity 9 --id %s d/a.csv" % ID, 2, "", "notebook: .+"),
    ("check d/a.csv", 0, "d/a.csv: ok 1 0 0\n", ""),
]


def escaped(text):
    """A text with braces and dots that stand for themselves, but the patterns that are written in it."""
    return re.escape(text).replace(re.escape("[^\n]+"), "[^\n]+").replace(re.escape(".+"), ".+")


def option(row, folder):
    line, status, out, err = row
    write(folder, {**FILES, "e.csv": jobs.REFUSED})
    answers(run("notebook " + line, folder), status, escaped(out), escaped(err))
    wanted = OUT if "--to" in line else {}
    same_tree(folder, {**FILES, "d": None, "e.csv": jobs.REFUSED, **wanted})


# --- --files0-from ---

LISTED = {"a.csv": SMALL, "b\nc.csv": notes(1), "list": b"a.csv\0b\nc.csv\0"}
BOTH = b"a.csv: ok 1 0 0\nb\\nc.csv: ok 2 0 0\n"


def names_from(folder):
    write(folder, LISTED)
    same("from a file", run("notebook check --files0-from list", folder), (0, BOTH, b""))
    same("from standard input", run("notebook check --files0-from -", folder, LISTED["list"]), (0, BOTH, b""))
    same("index", run("notebook index --quiet --files0-from list", folder), (0, b"", b""))
    same("canonical", run("notebook canonical --to out --files0-from list", folder), (0, b"a.csv: ok 35\nb\\nc.csv: ok 43\n", b""))
    same_tree(os.path.join(folder, "out"), {"a.csv": SMALL_CANONICAL, "b\nc.csv": SMALL_CANONICAL + NOTE})


def names_from_join(folder):
    names = list(jobs.PARTS)
    write(folder, {**jobs.PARTS, "list": "\0".join(names[::-1] + [""]).encode()})
    same("join", run("notebook join --files0-from list", folder), (0, tools.canonical(jobs.SIX), b""))


# command line, standard input's redirection: each is bad usage, or a failure
NO_NAMES = [
    ("check --files0-from nolist", ""),
    ("check --files0-from .", ""),
    ("check --files0-from list a.csv", ""),
    ("check --files0-from -", "<&-"),
    ("check --files0-from -", "<."),
    ("cut --capacity 9 --id %s --files0-from list" % ID, ""),
    ("check --files0-from", ""),
]


def no_names(row, folder):
    line, redirected = row
    write(folder, LISTED)
    answers(run("notebook " + line, folder, redirected=redirected), 2, "", "notebook: .+")
    json = run("notebook %s" % line.replace(" ", " --json ", 1), folder, redirected=redirected)
    has_status(json, 2)
    holds("no error told: %r" % (json,), any("error" in one for one in objects(json.out + json.err)))


# --- what a folder's run leaves out ---

PART = ".notebook-0123456789abcdef.part"
LEFT_OUT = {"d/a.csv": SMALL, "d/link": "a.csv", "d/dangling": "nowhere", "d/round": "."}
SKIPPED = {"d/link": "a symbolic link", "d/dangling": "a symbolic link", "d/round": "a symbolic link", "d/fifo": "not a regular file"}


def left_out(folder):
    write(folder, LEFT_OUT)
    os.mkfifo(os.path.join(folder, "d/fifo"))
    done = run("notebook check d", folder)
    same("status and standard output", (done.status, done.out), (0, b"d/a.csv: ok 1 0 0\n"))
    same("skipped", sorted(done.err.decode().splitlines()), sorted("notebook: %s: skipped: %s" % one for one in SKIPPED.items()))


def left_out_in_json(folder):
    write(folder, LEFT_OUT)
    os.mkfifo(os.path.join(folder, "d/fifo"))
    for call, where in (("check", "out"), ("index", "out"), ("canonical --to out", "err"), ("join", "err")):
        done = run("notebook %s --json d" % call, folder)
        has_status(done, 0)
        found = objects(getattr(done, where))
        same("skipped", {one["file"]: one["skipped"] for one in found if "skipped" in one}, SKIPPED)


def like_a_part(folder):
    """What has the name of a part is no input: it may be the half of a file, and must not pass unseen."""
    write(folder, {"d/a.csv": SMALL, "d/" + PART: SMALL})
    done = run("notebook check d", folder)
    same("check", done, (2, b"d/a.csv: ok 1 0 0\n", b"notebook: d/%s: named like a part that a run has left\n" % PART.encode()))


def named_link(folder):
    """A link that is named, and is in no folder, is read."""
    write(folder, {"a.csv": SMALL, "link": "a.csv"})
    same("check", run("notebook check link", folder), (0, b"link: ok 1 0 0\n", b""))


def report_in_folder(folder):
    write(folder, {"d/a.csv": SMALL})
    report = os.path.join(folder, "d/report")
    done = run("notebook check d", folder, redirected=">d/report")
    same("status and standard error", (done.status, done.err), (0, b"notebook: d/report: skipped: the output of this run\n"))
    same("the report", tools.held(report), b"d/a.csv: ok 1 0 0\n")
    done = run("notebook check d", folder, redirected=">d/report 2>d/errors")
    told = tools.held(os.path.join(folder, "d/errors"))
    same("the report", (done.status, tools.held(report)), (0, b"d/a.csv: ok 1 0 0\n"))
    same("the errors", sorted(told.splitlines()), [b"notebook: d/%s: skipped: the output of this run" % name for name in (b"errors", b"report")])
    os.remove(os.path.join(folder, "d/errors"))
    has_status(run("notebook check --json d", folder, redirected=">d/report"), 0)
    found = {one["file"]: one.get("skipped") for one in objects(tools.held(report))}
    same("the report in json", found, {"d/a.csv": None, "d/report": "the output of this run"})


def input_is_no_report(folder):
    """A file that is named is read, though a report of an earlier run is beside it."""
    write(folder, {"d/a.csv": SMALL, "d/report": b"d/a.csv: ok 1 0 0\n"})
    done = run("notebook check d", folder)
    same("check", done, (1, b"d/a.csv: ok 1 0 0\nd/report: no 2 1: line end\n", b""))


# --- errors in json ---

# command line, redirections, the stream of the object, its members
ERRORS = [
    ("check --json nofile", "", "out", {"file", "error"}),
    ("index --json nofile", "", "out", {"file", "error"}),
    ("canonical --json nofile", "", "err", {"file", "error"}),
    ("canonical --to out --json nofile", "", "err", {"file", "error"}),
    ("cut --json --capacity 9 --id %s nofile" % ID, "", "err", {"file", "error"}),
    ("join --json nofile", "", "err", {"file", "error"}),
    ("check --json", "", "err", {"error"}),
    ("check --json --frob", "", "err", {"error"}),
    ("check --frob --json", "", "err", {"error"}),
    ("cut --json --capacity x --id 1 a.csv", "", "err", {"error"}),
    ("frob --json", "", "err", {"error"}),
    ("check --json a.csv", ">/dev/full", "err", {"error"}),
    ("canonical --json a.csv", ">/dev/full", "err", {"error"}),
    ("cut --json --capacity 99 --id %s --prefix no/p a.csv" % ID, "", "err", {"file", "error"}),
]


def error_in_json(row, folder):
    line, redirected, stream, members = row
    write(folder, {"a.csv": SMALL})
    done = run("notebook " + line, folder, redirected=redirected)
    has_status(done, 2)
    found = objects(getattr(done, stream))
    same("members", [set(one) for one in found], [members])
    same("the other stream", done.err if stream == "out" else done.out, b"")


def options_in_help(folder):
    done = run("notebook --help", folder)
    has_status(done, 0)
    for option_name in ("--quiet", "--summary", "--files0-from", "--name", "--output", "--clinic LINE", "--clinic-code CODE"):
        holds("no %s in the help" % option_name, option_name.encode() in done.out)


# --- the bar ---


def terminal_run(columns, folder):
    """What the command writes to a terminal of this width, while a pipe among its inputs makes it wait."""
    write(folder, {"d/%02d.csv" % n: SMALL for n in range(40)})
    os.mkfifo(os.path.join(folder, "wait"))
    ours, theirs = pty.openpty()
    fcntl.ioctl(theirs, termios.TIOCSWINSZ, struct.pack("HHHH", 24, columns, 0, 0))
    words = tools.program("notebook check --jobs 1 wait d")
    child = subprocess.Popen(words, cwd=folder, env=tools.environment(), stdin=subprocess.DEVNULL, stdout=subprocess.DEVNULL, stderr=theirs)
    os.close(theirs)
    pipe = opened_by_reader(os.path.join(folder, "wait"))
    time.sleep(1)  # a bar is drawn after less
    os.write(pipe, SMALL)
    os.close(pipe)
    written = read_all(ours)
    status = child.wait(timeout=tools.LIMIT)
    os.close(ours)
    same("status", status, 0)
    return written


def opened_by_reader(path):
    """A pipe, open for writing, once somebody has opened it for reading."""
    end = time.monotonic() + tools.LIMIT
    while time.monotonic() < end:
        try:
            return os.open(path, os.O_WRONLY | os.O_NONBLOCK)
        except OSError as error:
            same("the error of opening a pipe", error.errno, errno.ENXIO)
        time.sleep(0.01)
    raise Wrong("nobody reads %s" % path)


def read_all(terminal):
    written, end = b"", time.monotonic() + tools.LIMIT
    while time.monotonic() < end and select.select([terminal], [], [], tools.LIMIT)[0]:
        try:
            got = os.read(terminal, 4096)
        except OSError:  # the other side is closed
            return written
        if not got:
            return written
        written += got
    return written


def screen(written, columns):
    """The rows of a terminal on which this was written, and the most columns that one had."""
    rows, row, column, most = {}, 0, 0, 0
    for sign in re.findall(r"\x1b\[[0-9;]*[A-Za-z]|.", written.decode(), re.DOTALL):
        if sign == "\r":
            column = 0
        elif sign == "\n":
            row += 1
        elif sign.endswith("K") and len(sign) > 1:
            rows = {at: held for at, held in rows.items() if at[0] != row or at[1] < (column if sign == "\x1b[K" else 0)}
        elif len(sign) > 1:
            raise Wrong("an unknown sequence: %r" % sign)
        else:
            row, column = (row + 1, 0) if column == columns else (row, column)
            rows[row, column] = sign
            column, most = column + 1, max(most, column + 1)
    return {at: held for at, held in rows.items() if held != " "}, row, most


def bar(columns, folder):
    """It is drawn in one row that it never fills, and nothing of it is left."""
    written = terminal_run(columns, folder)
    holds("no bar: %r" % written, re.search(rb"[0-9]+ of 41", written))
    left, row, most = screen(written, columns)
    same("rows that were begun", row, 0)
    holds("%d of %d columns" % (most, columns), most <= columns - 1)
    same("what is left", left, {})
    if columns >= 30:
        holds("no bar but numbers: %r" % written, b"[" in written and (b"#" in written or b"." in written))
    if columns < 20:
        holds("more than numbers: %r" % written, b"#" not in written and b"[" not in written.replace(b"\x1b[", b""))


def tests():
    partial = functools.partial
    return (
        [(row[0].replace(ID, "ID"), partial(option, row)) for row in OPTIONS]
        + [("names from a list", names_from), ("names from a list for join", names_from_join)]
        + [("no names: %s %s" % (row[0].replace(ID, "ID"), row[1]), partial(no_names, row)) for row in NO_NAMES]
        + [("left out of a folder", left_out), ("left out of a folder, in json", left_out_in_json), ("named like a part", like_a_part)]
        + [("a link that is named", named_link), ("a report in the folder", report_in_folder), ("an earlier report", input_is_no_report)]
        + [("%s %s: an object" % (row[0].replace(ID, "ID"), row[1]), partial(error_in_json, row)) for row in ERRORS]
        + [("options in the help", options_in_help)]
        + [("a bar on %d columns" % columns, partial(bar, columns)) for columns in (15, 30, 60, 100)]
    )
