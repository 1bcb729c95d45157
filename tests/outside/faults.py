"""Every call of every command fails in turn, by hosts/c/failing.c. A run then ends as a clean one, or tells a failure: never a verdict, never a file
that is not whole. A retry without faults ends as a clean run; but one whose ID has been recorded is refused, and a new ID does."""

import errno
import functools
import os
import re
from collections import namedtuple

from outside import jobs, tools
from outside.tools import Wrong, has_status, holds, run, same, same_tree

READS = {"read", "pread", "pread64"}
WRITES = {"write", "writev", "pwrite", "pwrite64"}
MEMORY = {"malloc", "calloc", "realloc"}
STANDARD_ERROR = 2

# How the calls of a name fail; of the others, as `else` says. The number is what the call leaves in errno.
HOWS = {
    **{name: (errno.EIO, errno.EINTR, "short") for name in READS},
    **{name: (errno.ENOSPC, errno.EINTR, "short") for name in WRITES},
    **{name: (errno.ENOMEM,) for name in MEMORY},
    "pthread_create": (errno.EAGAIN,),
    "open": (errno.EACCES, errno.EMFILE),
    "open64": (errno.EACCES, errno.EMFILE),
    "renameat2": (errno.EIO, errno.EEXIST, errno.EINVAL, errno.ENOSYS),
    "flock": (errno.EWOULDBLOCK, errno.EINTR, errno.ENOLCK),
    "isatty": (errno.ENOTTY,),
    "fcntl": (),  # asks whether a descriptor is open, and cannot fail where it is
    "else": (errno.EIO,),
}
# One test for each of these and each command line.
SORTS = {"reading": READS, "writing": WRITES, "memory": MEMORY, "other calls": None}
ALL = "all calls"  # of the programs, which make few


# Its number among the calls of that name, and whether it writes the ID that the run records: the first that writes a file.
Call = namedtuple("Call", "name number descriptor records")


def how_named(how):
    return how if isinstance(how, str) else errno.errorcode[how]


def numbered_calls(job, calls):
    seen, found = {}, []
    records = bool(job.entry)
    for name, descriptor in calls:
        seen[name] = seen.get(name, 0) + 1
        of_ids = records and name in WRITES and descriptor > STANDARD_ERROR
        found.append(Call(name, seen[name], descriptor, of_ids))
        records = records and not of_ids
    return found


# --- what a run that had a fault may be ---


def harmless(job, call, how):
    """Whether the run has to end as a clean one. The kit's write takes an interruption for a failure, which the programs tell. An ID is written by
    one write, and a short one is a failure."""
    if call.records:
        return False
    if how == "short" or call.name in WRITES and call.descriptor == STANDARD_ERROR:
        return True
    return how == errno.EINTR and (call.name in READS or call.name in WRITES and job.command) or how in (errno.EINVAL, errno.ENOSYS)


def is_clean(job, done, call=None):
    """Where standard error cannot be written, a part of it may be missing, and a program may tell just that."""
    told = done.err == job.err
    if call and call.name in WRITES and call.descriptor == STANDARD_ERROR:
        told = job.err.startswith(done.err) or not job.command and done.err == b"error write\n"
    return told and done.status == job.status and job.out in (None, done.out)


def ids_left(job, folder, pieces_seen):
    """The file of IDs after a run that did not end as a clean one: all that it had, and the new ID whole or not at all. Where it was not there it
    may now be empty, or not there. Where a piece has been seen, the ID is recorded."""
    if not job.ids:
        return {}
    path = os.path.join(folder, job.ids)
    found = tools.held(path) if os.path.lexists(path) else None
    before, after = job.files.get(job.ids), job.after().get(job.ids)
    allowed = [after] if pieces_seen else [before, after] + [b""] * (before is None)
    holds("the file of IDs: %s" % tools.shown(found), found in allowed)
    if before is None and found is not None:
        same("mode of the file of IDs", oct(tools.mode(folder, job.ids)), oct(0o600))
    return {job.ids: found} if found is not None else {}


def files_left(job, folder, before, out=b""):
    """What is under a final name is whole and, but for canonical --to, all is there or nothing; beside that there are only the inputs, and
    what a killed run had left before."""
    new = {name: held for name, held in job.made.items() if name not in job.files}
    there = {name: held for name, held in new.items() if os.path.lexists(os.path.join(folder, name))}
    holds("only %s of %d files" % (sorted(there), len(new)), job.by_file or len(there) in (0, len(new)))
    folders = {name: None for name in job.folders() if os.path.isdir(os.path.join(folder, name))}
    parts = {name: held for name, held in tools.tree(folder).items() if name in before and tools.PART.fullmatch(name)}
    same_tree(folder, {**folders, **job.files, **there, **parts, **ids_left(job, folder, there or out)})


def left_by_kill(job, folder, out=b""):
    """What is there: inputs, whole files under final names, and temporary files that only their owner may read."""
    temporary = tools.PART if job.command else tools.DOTTED
    found = tools.tree(folder)
    ids = ids_left(job, folder, out or any(temporary.fullmatch(name) or name in job.made for name in found))
    for name, held in found.items():
        if name in ids:
            continue
        if temporary.fullmatch(name):
            same("mode of " + name, oct(tools.mode(folder, name)), oct(0o600))
            continue
        holds("%s is left" % name, name in job.after())
        same("bytes of " + name, held, job.after()[name])


def error_lines(job, done):
    """The failures told, by the command: lines on standard error, objects in json on either stream."""
    if job.json:
        return [one["error"] for one in tools.objects(done.err + done.out) if "error" in one]
    lines = done.err.splitlines()
    holds("standard error: %r" % done.err, all(line.startswith(b"notebook: ") for line in lines))
    return lines


def answers_kept(job, done, name):
    """Standard output has only lines of the clean run, in their order; or its beginning, where writing has failed."""
    if job.out is None or job.out.startswith(done.out) and name in WRITES:
        return
    one_file = job.command and job.line.split()[1] in ("canonical", "cut", "join") and not job.made
    if one_file or not job.command:
        same("standard output", done.out, b"")
    left = iter(job.out.splitlines(True))
    for line in done.out.splitlines(True):
        if job.json and b'"error":' in line:
            continue
        holds("standard output has %r" % line, line in left)


def command_failed(job, done, name):
    has_status(done, 2)
    if name not in MEMORY:  # without memory it is libc or the runtime that tells it, and in words of its own
        holds("no failure is told", error_lines(job, done))
    answers_kept(job, done, name)
    for line in done.err.splitlines(True):
        told = re.match(rb"notebook: (\S+): ", line)
        holds("an answer and a failure: %r" % line, not told or b"\n%s: " % told[1] not in b"\n" + done.out)
        holds("a verdict: %r" % line, not re.search(rb": (no|ok) [0-9]", line) or line in job.err.splitlines(True))


def program_failed(job, done, name):
    has_status(done, 0)
    word = "read" if name in READS and not job.made else "write" if name in WRITES else "(read|write|exists)"
    used = "used|" if "ids" in job.files and name not in WRITES else ""  # of no line: the file is a good one
    tools.like("standard error", done.err, "error (%s%s( [1-9][0-9]*)?)\n" % (used, word))
    answers_kept(job, done, name)


def judge(job, done, folder, before, call, how):
    if is_clean(job, done, call):
        holds("a short write of an ID is let pass", not (call.records and how == "short"))
        same_tree(folder, job.after())
        return
    if harmless(job, call, how):
        raise Wrong("not as a clean run: %s" % tools.shown(done))
    (command_failed if job.command else program_failed)(job, done, call.name)
    if call.records:  # undone
        same_tree(folder, {**before, **({} if job.ids in before else ids_left(job, folder, False))})
    elif call.name in MEMORY:  # without memory nothing can be removed: it is as after a kill
        left_by_kill(job, folder, done.out)
    else:
        files_left(job, folder, before, done.out)


# --- runs ---


def one_fault(job, call, how):
    with tools.fresh_folder() as folder:
        job.prepare(folder)
        before = tools.tree(folder)
        done = run(job.line, folder, job.given, fault="%s %d %s" % (call.name, call.number, how))
        judge(job, done, folder, before, call, how)
        if job.entry:
            retry_of_recording(job, folder)
        elif job.made:
            retry(job, folder)


def retry(job, folder):
    done = run(job.line, folder, job.given)
    holds("the retry: %s" % tools.shown(done), done.status == job.status and done.err == job.err and job.out in (None, done.out))
    same_tree(folder, job.after())


def retry_of_recording(job, folder):
    """An ID that is recorded is spent: the same command is refused, and with a new ID it ends as a clean run. Parts of a killed run may stay."""
    before = tools.tree(folder)
    if before.get(job.ids) == job.after()[job.ids]:
        same("the retry", run(job.line, folder, job.given), (2, b"", jobs.USED))
        same_tree(folder, before)
        job = job.with_new_id(before)
    done = run(job.line, folder, job.given)
    holds("the retry: %s" % tools.shown(done), is_clean(job, done))
    parts = {name: held for name, held in tools.tree(folder).items() if name in before and tools.PART.fullmatch(name)}
    kept = {name: held for name, held in job.after().items() if not tools.PART.fullmatch(name)}
    same_tree(folder, {**kept, **parts})


def sort_of(name):
    return next((sort for sort, names in SORTS.items() if names and name in names), "other calls")


def clean_calls(job, folder):
    """The calls of a clean run, which is judged too."""
    job.prepare(folder)
    log = os.path.join(tools.place["top"], "log")
    done = run(job.line, folder, job.given, log=log)
    calls = tools.logged(log)
    holds("the clean run: %s" % tools.shown(done), is_clean(job, done))
    same_tree(folder, job.after())
    holds("no calls seen", calls)
    return numbered_calls(job, calls)


def every_fault(job, sort, folder):
    """All faults of one command line and one sort of calls. The first that go wrong are told, with the count of all."""
    wrong, runs = [], 0
    for call in clean_calls(job, folder):
        for how in HOWS.get(call.name, HOWS["else"]) if sort in (ALL, sort_of(call.name)) else ():
            runs += 1
            try:
                one_fault(job, call, how)
            except Wrong as reason:
                wrong.append("%s %d %s: %s" % (call.name, call.number, how_named(how), reason))
    holds("no such calls", runs)
    holds("%d of %d runs, first: %s" % (len(wrong), runs, "; ".join(wrong[:3])), not wrong)


# --- a removal that fails too ---

# the first fault, on the way to which files are made; the removal that fails then
REMOVALS = ["write 3 28", "fsync 2 5"]


def removal_fails(job, fault, removal, folder):
    """What cannot be removed stays, but under no final name; a retry works."""
    job.prepare(folder)
    done = run(job.line, folder, job.given, fault="%s;%s 1 5" % (fault, removal))
    if job.command:
        has_status(done, 2)
    else:
        tools.like("standard error", done.err, "error write( [1-9][0-9]*)?\n")
    for name, held in job.made.items():
        path = os.path.join(folder, name)
        holds("%s is not whole" % name, not os.path.lexists(path) or tools.held(path) == held)
    has_status(run(job.line, folder, job.given), 0)
    left = {name for name in tools.tree(folder) if name not in job.after()}
    same("left by the command after a retry", left if job.command else set(), set())


def tests():
    every = jobs.READING + jobs.WRITING + jobs.AGAIN + jobs.KILLED + jobs.RECORDING + jobs.NOT_RECORDING
    partial = functools.partial
    return [("%s, %s" % (job.name, sort), partial(every_fault, job, sort)) for job in every for sort in (SORTS if job.command else [ALL])] + [
        ("%s, %s and no %s" % (job.name, fault, removal), partial(removal_fails, job, fault, removal))
        for job in jobs.WRITING
        for fault in REMOVALS
        for removal in ("unlink",)
        if job.line.split()[1] == "cut" or not job.command
    ]
