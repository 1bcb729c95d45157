"""How a run ends: exit status 0, 1 or 2 of the command, and `error` lines of the programs, whatever is closed, full or limited."""

import functools
import os
import subprocess
import time

from outside import tools
from outside.tools import ID, answers, has_status, holds, like, notes, pieces, run, same, same_tree, write

VISIT, REFUSED = tools.sample("visit.csv"), tools.sample("refused.csv")
CUT = "notebook cut --capacity 160 --id " + ID
NO_OUTPUT = "notebook: [^\n]+\n"
NO_INPUT = "notebook: -: [^\n]+\n"
USAGE = "notebook: .+"
FORM = "refused.csv: no 11 10: form\n"
OK = "visit.csv: ok 15 1 3\n"

# command line, redirections, status, standard output, standard error
COMMAND = [
    # standard error cannot be written: nothing else changes
    ("notebook canonical refused.csv", "2>/dev/full", 1, "", ""),
    ("notebook canonical refused.csv", "2>&-", 1, "", ""),
    ("notebook cut --capacity 160 --id 1 visit.csv", "2>/dev/full", 2, "", ""),
    ("notebook join refused.csv", "2>/dev/full", 1, "", ""),
    ("notebook frob", "2>/dev/full", 2, "", ""),
    ("notebook frob", "2>&-", 2, "", ""),
    ("notebook", "2>/dev/full", 2, "", ""),
    ("notebook check nofile", "2>/dev/full", 2, "", ""),
    ("notebook check nofile visit.csv refused.csv", "2>/dev/full", 2, OK + FORM, ""),
    ("notebook check nofile visit.csv", "2>&-", 2, OK, ""),
    ("notebook check visit.csv", "2>&-", 0, OK, ""),
    ("notebook check refused.csv", "2>&-", 1, FORM, ""),
    ("notebook check --json nofile", "2>/dev/full", 2, '{"file":"nofile","error":[^\n]+}\n', ""),
    # standard output cannot be written
    ("notebook check visit.csv", ">/dev/full", 2, "", NO_OUTPUT),
    ("notebook check refused.csv", ">/dev/full", 2, "", NO_OUTPUT),
    ("notebook check visit.csv", ">&-", 2, "", NO_OUTPUT),
    ("notebook check refused.csv", ">&-", 2, "", NO_OUTPUT),
    ("notebook check --json visit.csv", ">/dev/full", 2, "", '{"error":"[^\n]+"}\n'),
    ("notebook check nofile", ">/dev/full 2>/dev/full", 2, "", ""),
    ("notebook check visit.csv", ">/dev/full 2>/dev/full", 2, "", ""),
    ("notebook check visit.csv", "<&- >&- 2>&-", 2, "", ""),
    ("notebook index visit.csv", ">/dev/full", 2, "", NO_OUTPUT),
    ("notebook index visit.csv", ">&-", 2, "", NO_OUTPUT),
    ("notebook index --clinic 7 visit.csv", ">/dev/full", 2, "", NO_OUTPUT),
    ("notebook canonical visit.csv", ">/dev/full", 2, "", NO_OUTPUT),
    ("notebook canonical visit.csv", ">&-", 2, "", NO_OUTPUT),
    (CUT + " visit.csv", ">/dev/full", 2, "", NO_OUTPUT),
    (CUT + " visit.csv", ">&-", 2, "", NO_OUTPUT),
    ("notebook join visit.csv", ">/dev/full", 2, "", NO_OUTPUT),
    ("notebook join visit.csv", ">&-", 2, "", NO_OUTPUT),
    ("notebook --help", ">/dev/full", 2, "", NO_OUTPUT),
    ("notebook --help", ">&-", 2, "", NO_OUTPUT),
    # standard input cannot be read: no verdict
    ("notebook check -", "<&-", 2, "", NO_INPUT),
    ("notebook check -", "<folder", 2, "", NO_INPUT),
    ("notebook check - visit.csv", "<&-", 2, OK, NO_INPUT),
    ("notebook check --json -", "<&-", 2, '{"file":"-","error":"[^\n]+"}\n', ""),
    ("notebook check --json -", "<folder", 2, '{"file":"-","error":"[^\n]+"}\n', ""),
    ("notebook index -", "<&-", 2, "", NO_INPUT),
    ("notebook index -", "<folder", 2, "", NO_INPUT),
    ("notebook canonical -", "<&-", 2, "", NO_INPUT),
    ("notebook canonical -", "<folder", 2, "", NO_INPUT),
    ("notebook canonical --json -", "<&-", 2, "", '{"file":"-","error":"[^\n]+"}\n'),
    (CUT + " -", "<&-", 2, "", NO_INPUT),
    (CUT + " -", "<folder", 2, "", NO_INPUT),
    ("notebook join -", "<&-", 2, "", NO_INPUT),
    ("notebook join -", "<folder", 2, "", NO_INPUT),
    ("notebook check visit.csv", "<&-", 0, OK, ""),
    # the words
    ("notebook", "", 2, "", USAGE),
    ("notebook frob", "", 2, "", USAGE),
    ("notebook check", "", 2, "", USAGE),
    ("notebook check --frob visit.csv", "", 2, "", USAGE),
    ("notebook check nofile", "", 2, "", "notebook: nofile: [^\n]+\n"),
    ("notebook check nofile refused.csv", "", 2, FORM, "notebook: nofile: [^\n]+\n"),
]

NOTECUT = "notecut 160 " + ID
WORDS = "error usage: notecut CAPACITY ID \\[PREFIX \\[USED\\]\\]\n"

# command line, redirections, standard output, standard error
PROGRAMS = [
    ("notecheck", "<&-", "", "error read\n"),
    ("notecheck", "<folder", "", "error read\n"),
    ("noteindex", "<&-", "", "error read\n"),
    ("noteindex", "<folder", "", "error read\n"),
    ("notecanon", "<&-", "", "error read\n"),
    ("notecanon", "<folder", "", "error read\n"),
    (NOTECUT, "<&-", "", "error read\n"),
    (NOTECUT, "<folder", "", "error read\n"),
    (NOTECUT + " p", "<folder", "", "error read\n"),
    ("notejoin", "<&-", "", "error read\n"),
    ("notejoin", "<folder", "", "error read\n"),
    ("notejoin nofile", "", "", "error read 1\n"),
    ("notejoin visit.csv nofile", "", "", "error read 2\n"),
    ("notejoin visit.csv folder", "", "", "error read 2\n"),
    ("notecheck", "<visit.csv >/dev/full", "", "error write\n"),
    ("notecheck", "<refused.csv >/dev/full", "", "error write\n"),
    ("notecheck", "<visit.csv >&-", "", "error write\n"),
    ("noteindex", "<visit.csv >/dev/full", "", "error write\n"),
    ("noteindex", "<visit.csv >&-", "", "error write\n"),
    ("notecanon", "<visit.csv >/dev/full", "", "error write\n"),
    ("notecanon", "<visit.csv >&-", "", "error write\n"),
    (NOTECUT, "<visit.csv >/dev/full", "", "error write\n"),
    (NOTECUT, "<visit.csv >&-", "", "error write\n"),
    ("notejoin", "<visit.csv >/dev/full", "", "error write\n"),
    ("notejoin visit.csv", ">&-", "", "error write\n"),
    ("notecheck", "<visit.csv 2>/dev/full", "ok 15 1 3\n", ""),
    ("notecheck", "<visit.csv 2>&-", "ok 15 1 3\n", ""),
    ("notecanon", "<refused.csv 2>/dev/full", "", ""),
    ("notecanon", "<refused.csv 2>&-", "", ""),
    ("notecheck", "<visit.csv >/dev/full 2>/dev/full", "", ""),
    ("notecut", "<visit.csv", "", WORDS),
    ("notecut x " + ID, "<visit.csv", "", WORDS),
    (NOTECUT + " p ids more", "<visit.csv", "", WORDS),
    (NOTECUT + " nofolder/p", "<visit.csv", "", "error write( 1)?\n"),
]

INPUTS = {"visit.csv": VISIT, "refused.csv": REFUSED, "folder": None}


def end_of(row, folder):
    line, redirected, status, out, err = row
    write(folder, INPUTS)
    answers(run(line, folder, redirected=redirected), status, out, err)
    same_tree(folder, INPUTS)


def program_end_of(row, folder):
    line, redirected, out, err = row
    write(folder, INPUTS)
    answers(run(line, folder, redirected=redirected), 0, out, err)
    same_tree(folder, INPUTS)


# --- a reader that is gone ---

# command line, which stream, status
BROKEN = [
    ("notebook check visit.csv", "stdout", 2),
    ("notebook check --json visit.csv", "stdout", 2),
    ("notebook index visit.csv", "stdout", 2),
    ("notebook canonical visit.csv", "stdout", 2),
    (CUT + " visit.csv", "stdout", 2),
    ("notebook join visit.csv", "stdout", 2),
    ("notebook --help", "stdout", 2),
    ("notebook frob", "stderr", 2),
    ("notebook check nofile", "stderr", 2),
    ("notebook canonical refused.csv", "stderr", 1),
    ("notebook check visit.csv", "stderr", 0),
]


def broken_pipe(row, folder):
    line, stream, status = row
    write(folder, INPUTS)
    reader, writer = os.pipe()
    os.close(reader)
    try:
        answers(run(line, folder, **{stream: writer}), status, "" if stream == "stdout" else ".*", "")
    finally:
        os.close(writer)


# --- closed descriptors: a new file must not be taken for one of them ---

CLOSED = ["<&-", ">&-", "2>&-", "<&- >&-", ">&- 2>&-", "<&- >&- 2>&-"]
PIECES = pieces(VISIT, 160)


def all_or_none(folder, inputs, made):
    """Whether what was to be made is there; it is there whole, or nothing is."""
    there = any(os.path.lexists(os.path.join(folder, name)) for name in made)
    same_tree(folder, {**inputs, **(made if there else {})})
    return there


def cut_with_closed(closed, folder):
    write(folder, INPUTS)
    made = tools.numbered("p-", PIECES)
    done = run(CUT + " --prefix p- visit.csv", folder, redirected=closed)
    same("status", done.status, 2 if ">&-" in closed.split() else 0)
    there = all_or_none(folder, INPUTS, made)
    holds("no pieces with status 0", there or done.status == 2)


def notecut_with_closed(closed, folder):
    write(folder, INPUTS)
    made = {"p.%d" % k: held for k, held in enumerate(PIECES, 1)}
    done = run(NOTECUT + " p", folder, redirected=closed + " <visit.csv" * ("<&-" not in closed))
    same("status", done.status, 0)
    like("standard output", done.out, "")
    all_or_none(folder, INPUTS, {} if "<&-" in closed else made)
    if "2>&-" not in closed:
        holds("neither ok nor error: %r" % done.err, done.err[:3] == b"ok " or done.err[:6] == b"error ")


# --- limits ---

MANY = {"d/%03d.csv" % n: tools.SMALL for n in range(200)}
MANY_OUT = "".join("%s: ok 1 0 0\n" % name for name in MANY).encode()
USER = "setpriv --reuid=64123 --regid=64123 --clear-groups " if os.geteuid() == 0 else ""


def no_threads(folder):
    write(folder, MANY)
    done = run("notebook check --jobs 64 d", folder, under=USER + "prlimit --nproc=1 --")
    same("the answers", (done.status, done.out, done.err), (0, MANY_OUT, b""))


def little_memory(kilobytes, folder):
    write(folder, MANY)
    limits = "ulimit -v %d;" % kilobytes
    if run("notebook --help", folder, limits=limits).status != 0:
        raise tools.Skipped("the command does not start in so little")
    done = run("notebook check --jobs 64 d", folder, limits=limits)
    has_status(done, *((0,) if kilobytes >= 20000 else (0, 2)))
    some_of_many(done)


def some_of_many(done):
    same("answers that are no answers", set(done.out.split(b"\n")) - set(MANY_OUT.split(b"\n")), set())
    holds("an answer is missing with status 0", done.status == 2 or done.out == MANY_OUT)


def few_files(most, folder):
    write(folder, {**MANY, **INPUTS})
    limits = "ulimit -n %d;" % most
    if run("notebook --help", folder, limits=limits).status != 0:
        raise tools.Skipped("the command does not start with so few")
    done = run("notebook check --jobs 4 d", folder, limits=limits)
    has_status(done, 0, 2)
    some_of_many(done)
    cut = run(CUT + " --prefix p- visit.csv", folder, limits=limits)
    has_status(cut, 0, 2)
    made = tools.numbered("p-", PIECES)
    there = all_or_none(folder, {**MANY, **INPUTS, "d": None}, made)
    same("whether the pieces are there", there, cut.status == 0)


def most_pieces(folder):
    """999 pieces under the usual limit of open files. Record 1 fills the first of 61 bytes, two records 4 each other one."""
    data = notes(998 * 2)
    write(folder, {"a.csv": data})
    line = "notebook cut --capacity 61 --id %s --prefix p- a.csv" % ID
    has_status(run(line, folder, limits="ulimit -n 1024;"), 0)
    made = tools.numbered("p-", pieces(data, 61))
    same("count of pieces", len(made), 999)
    same_tree(folder, {"a.csv": data, **made})


# command line, redirections, bytes that a file may have
FILE_SIZES = [
    (CUT + " --prefix p- visit.csv", "", 100),
    (CUT + " --prefix p- visit.csv", "", 0),
    ("notebook canonical --to out visit.csv", "", 100),
    ("notebook canonical --output c.csv visit.csv", "", 100),
    ("notebook join --output j.csv visit.csv", "", 0),
    ("notebook canonical visit.csv", ">report", 100),
    ("notebook check visit.csv", ">report", 0),
    ("notebook check nofile", "2>report", 0),
    (NOTECUT + " p", "<visit.csv", 100),
]


def file_size(row, folder):
    line, redirected, most = row
    write(folder, INPUTS)
    done = run(line, folder, limits="ulimit -c 0;", under="prlimit --fsize=%d --" % most, redirected=redirected)
    left = {name: held for name, held in tools.tree(folder).items() if name not in ("report", "out")}
    if line.startswith("notebook"):
        has_status(done, 2)
    else:  # the system may end a program, with a temporary file left
        left = {name: held for name, held in left.items() if not name.startswith("p.1.")}
    same("what is left", left, INPUTS)


def small_stack(folder):
    write(folder, INPUTS)
    write(folder, {"p%d" % k: held for k, held in enumerate(PIECES, 1)})
    limits = "ulimit -s 256;"
    answers(run("notebook check --jobs 4 visit.csv refused.csv", folder, limits=limits), 1, OK + FORM, "")
    done = run("notebook join " + " ".join("p%d" % k for k in range(len(PIECES), 0, -1)), folder, limits=limits)
    same("the joined file", (done.status, done.out), (0, tools.canonical(VISIT)))


def little_time(folder):
    """A limit on processor time, which the system tells by a signal."""
    write(folder, {"a.csv": notes(8000), "list": b"a.csv\0" * 100000})
    done = run("notebook check --quiet --files0-from list", folder, limits="ulimit -St 1;")
    same("standard output", (done.status, done.out), (2, b""))


def no_core(folder):
    """The limit is read while the command waits for its input."""
    words = tools.in_shell(tools.program("notebook check -"), limits="ulimit -c unlimited;")
    child = subprocess.Popen(words, stdin=subprocess.PIPE, stdout=subprocess.PIPE, env=tools.environment())
    limit = None
    try:
        for _ in range(2000):
            with open("/proc/%d/limits" % child.pid) as file:
                limit = next(line.split()[4] for line in file if line.startswith("Max core file size"))
            if limit == "0":
                break
            time.sleep(0.01)
    finally:
        child.communicate(tools.SMALL)
    same("bytes that a core may have", limit, "0")


def tests():
    def named(function, rows, name):
        return [(name(row), functools.partial(function, row)) for row in rows]

    def line(row):
        return (" ".join(row[0].split()) + " " + str(row[1])).strip()

    return (
        named(end_of, COMMAND, line)
        + named(program_end_of, PROGRAMS, line)
        + named(broken_pipe, BROKEN, lambda row: "%s, no reader of %s" % row[:2])
        + named(cut_with_closed, CLOSED, lambda closed: "cut --prefix " + closed)
        + named(notecut_with_closed, CLOSED, lambda closed: "notecut with a prefix " + closed)
        + [("no thread can be started", no_threads)]
        + named(little_memory, (20000, 16000, 12000, 10000, 8000, 6000), lambda size: "%d kilobytes of memory" % size)
        + named(few_files, (4, 5, 6, 8, 12), lambda most: "%d open files" % most)
        + [("999 pieces with 1024 open files", most_pieces)]
        + named(file_size, FILE_SIZES, lambda row: "%s %s, files of at most %d bytes" % row)
        + [("a stack of 256 kilobytes", small_stack), ("a second of processor time", little_time), ("no core", no_core)]
    )
