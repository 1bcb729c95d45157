"""Files are written whole or not at all, never over another, with mode 0600; a retry works."""

import functools
import os
import signal
import subprocess

from outside import jobs, tools
from outside.tools import NOTE, SMALL, SMALL_CANONICAL, answers, has_status, holds, notes, run, same, same_tree

# --- a clean run ---


def clean(job, folder):
    """What is asked for is there, for the owner alone, also where the mask would allow more."""
    job.prepare(folder)
    done = run(job.line, folder, job.given, limits="umask 0;")
    has_status(done, job.status)
    same_tree(folder, job.after())
    if job.out is not None:
        same("standard output", done.out, job.out)
    same("standard error", done.err, job.err)
    for name in {**job.made, **job.recorded()}:
        if name not in job.files:
            same("mode of " + name, oct(tools.mode(folder, name)), oct(0o600))
    for name in job.folders():
        if name.startswith("out"):
            same("mode of " + name, oct(tools.mode(folder, name)), oct(0o700))


def twice(job, folder):
    """A second run finds everything there and leaves it alone."""
    job.prepare(folder)
    first = run(job.line, folder, job.given)
    has_status(first, 0)
    same_tree(folder, job.after())
    before = {name: os.lstat(os.path.join(folder, name)) for name in job.made}
    second = run(job.line, folder, job.given)
    same("the second answer", second, first)
    same_tree(folder, job.after())
    for name, then in before.items():
        now = os.lstat(os.path.join(folder, name))
        same("inode and time of " + name, (now.st_ino, now.st_mtime_ns), (then.st_ino, then.st_mtime_ns))


# --- names that exist ---


def fifo(path, bytes_due):
    os.mkfifo(path)


def folder_there(path, bytes_due):
    os.mkdir(path)


def other_bytes(path, bytes_due):
    tools.write(os.path.dirname(path), {os.path.basename(path): bytes_due[:-1] + b"x"})


def more_bytes(path, bytes_due):
    tools.write(os.path.dirname(path), {os.path.basename(path): bytes_due + b"\x1a"})


def no_bytes(path, bytes_due):
    tools.write(os.path.dirname(path), {os.path.basename(path): b""})


def link_to_the_bytes(path, bytes_due):
    tools.write(os.path.dirname(path), {"elsewhere": bytes_due, os.path.basename(path): "elsewhere"})


def link_to_other_bytes(path, bytes_due):
    tools.write(os.path.dirname(path), {"elsewhere": b"kept", os.path.basename(path): "elsewhere"})


def dangling_link(path, bytes_due):
    os.symlink("nowhere", path)


OBSTACLES = (other_bytes, more_bytes, no_bytes, link_to_the_bytes, link_to_other_bytes, dangling_link, folder_there, fifo)


def obstacle(job, put, folder):
    """The last name exists as something else: it is told, and nothing is made."""
    name = list(job.made)[-1]
    job.prepare(folder)
    os.makedirs(os.path.dirname(os.path.join(folder, name)), exist_ok=True)
    put(os.path.join(folder, name), job.made[name])
    before = tools.tree(folder)
    done = run(job.line, folder, job.given)
    if job.command:
        has_status(done, 2)
        holds("standard error: %r" % done.err, done.err.startswith(b"notebook: " + name.encode()) and b"already exists" in done.err)
    else:
        answers(done, 0, "", "error exists %d\n" % len(job.made))
    others = {} if not job.by_file else dict(list(job.made.items())[:-1])
    same_tree(folder, {**before, **others})


# --- what lies under a temporary name ---

OUTPUT = jobs.WRITING[2]


def put_file(path, held):
    with open(path, "wb") as file:
        file.write(held)


def readable_part(path):
    put_file(path, OUTPUT.made["c.csv"][:20])
    os.chmod(path, 0o666)


def longer_file(path):
    put_file(path, OUTPUT.made["c.csv"] + b"x")


def other_file(path):
    put_file(path, b"x")


def linked_part(path):
    os.symlink("victim", path)


def dangling_part(path):
    os.symlink("nowhere", path)


def second_name_as_part(path):
    os.link(os.path.join(os.path.dirname(path), "victim"), path)


PLANTED = {readable_part: True, longer_file: False, other_file: False, linked_part: False, dangling_part: False, second_name_as_part: False, os.mkdir: False,
           os.mkfifo: False}


def planted(put, works, folder):
    """Something else is put where a killed run has left its part. Nothing but a part is written to or removed; the result has its bytes and its
    mode."""
    OUTPUT.prepare(folder)
    tools.write(folder, {"victim": b"kept"})
    has_status(run(OUTPUT.line, folder, fault="renameat2 1 before"), -9)
    part = next((name for name in os.listdir(folder) if tools.PART.fullmatch(name)), None)
    holds("no part is left", part)
    os.remove(os.path.join(folder, part))
    put(os.path.join(folder, part))
    before = tools.tree(folder)[part]
    done = run(OUTPUT.line, folder)
    has_status(done, *((0,) if works else (0, 2)))
    found = tools.tree(folder)
    if put in (longer_file, other_file):
        same("what was put there", (done.status, found.get(part)), (2, before))
    same("the victim", found["victim"], b"kept")
    same("whether there is something else", found.keys() - {"a.csv", "victim", "c.csv", part}, set())
    same("whether the file is there", "c.csv" in found, done.status == 0)
    if done.status == 0:
        same("the file", (found["c.csv"], oct(tools.mode(folder, "c.csv"))), (OUTPUT.made["c.csv"], oct(0o600)))


def onto_itself(folder):
    """An input that is named as the output stays as it is."""
    tools.write(folder, {"a.csv": SMALL, "c.csv": SMALL_CANONICAL})
    has_status(run("notebook canonical --output a.csv a.csv", folder), 2)
    has_status(run("notebook canonical --output c.csv c.csv", folder), 0)
    has_status(run("notebook join --output a.csv a.csv", folder), 0)
    same_tree(folder, {"a.csv": SMALL, "c.csv": SMALL_CANONICAL})


# --- a full disk ---

# command line, given, what is made
FULL = [
    ("notebook cut --capacity 69 --id %s --prefix disk/p- a.csv" % tools.ID, b"", tools.numbered("p-", jobs.PIECES)),
    ("notebook canonical --output disk/c.csv a.csv", b"", {"c.csv": tools.canonical(notes(3000))}),
    ("notebook join --output disk/c.csv a.csv", b"", {"c.csv": notes(3000)}),
    ("notebook canonical --to disk a.csv", b"", {"a.csv": tools.canonical(notes(3000))}),
    ("notecut 69 %s disk/p" % tools.ID, jobs.SIX, jobs.DOTTED),
]


def full_disk(row, folder):
    """On three pages nothing fits; after there is room the same command works."""
    line, given, made = row
    tools.write(folder, {"a.csv": jobs.SIX if "cut" in line else notes(3000), "disk": None})
    disk = os.path.join(folder, "disk")
    with tools.small_disk(disk, "12k"):
        done = run(line, folder, given)
        if line.startswith("notebook"):
            has_status(done, 2)
        else:
            answers(done, 0, "", "error write( [1-6])?\n")
        same_tree(disk, {})
        subprocess.run(["mount", "-o", "remount,size=1m", disk], check=True)
        has_status(run(line, folder, given), 0)
        same_tree(disk, made)


# --- one name for two inputs ---


def one_name(threads, folder):
    """The first has it, whatever the threads do."""
    tools.write(folder, {"d/x.csv": SMALL, "e/x.csv": notes(1), "e/y.csv": notes(1)})
    done = run("notebook canonical --to out --jobs %d d e" % threads, folder)
    has_status(done, 2)
    same("standard output", done.out, b"d/x.csv: ok 35\ne/y.csv: ok 43\n")
    holds("standard error: %r" % done.err, done.err.startswith(b"notebook: ") and done.err.count(b"\n") == 1 and b"x.csv" in done.err)
    same_tree(os.path.join(folder, "out"), {"x.csv": SMALL_CANONICAL, "y.csv": SMALL_CANONICAL + NOTE})


# --- two runs at once ---

CUT_A = "notebook cut --capacity 69 --id %s --prefix p- a.csv" % tools.ID
CUT_B = "notebook cut --capacity 69 --id %s --prefix p- b.csv" % tools.ID
INPUTS = {"a.csv": jobs.SIX, "b.csv": notes(10)}
SETS = {CUT_A: tools.numbered("p-", jobs.PIECES), CUT_B: tools.numbered("p-", tools.pieces(notes(10), 69))}


def start(line, folder, fault=""):
    streams = {"stdin": subprocess.DEVNULL, "stdout": subprocess.DEVNULL, "stderr": subprocess.PIPE}
    return subprocess.Popen(tools.program(line), cwd=folder, env=tools.environment(fault), **streams)


def ended(child):
    try:
        err = child.communicate(timeout=tools.LIMIT)[1]
    except subprocess.TimeoutExpired:
        child.kill()
        child.communicate()
        raise tools.Wrong("not ended after %d s" % tools.LIMIT)
    return tools.Result(child.returncode, b"", err)


def judge_both(folder, first, second, statuses):
    """The files are those of a run that has ended with 0, and none where none has."""
    good = [line for line, status in zip((first, second), statuses) if status == 0]
    holds("two runs with other bytes both ended with 0", first == second or len(good) < 2)
    same_tree(folder, {**INPUTS, **(SETS[good[0]] if good else {})})


def race(lines, folder):
    for _ in range(10):
        with tools.fresh_folder() as fresh:
            tools.write(fresh, INPUTS)
            both = [start(line, fresh) for line in lines]
            done = [ended(child) for child in both]
            for one in done:
                has_status(one, 0, 2)
            judge_both(fresh, *lines, [one.status for one in done])


def stopped(child):
    """Waits until it stops; whether it has, and not ended."""
    return os.WIFSTOPPED(os.waitpid(child.pid, os.WUNTRACED)[1])


def interleaved(lines, folder):
    """One run stops before each call that changes files, and the other one runs meanwhile."""
    first, second = lines
    tools.write(folder, INPUTS)
    calls = [name for name, _ in tools.calls_of(first, folder)]
    steps = [(name, calls[: at + 1].count(name)) for at, name in enumerate(calls) if name in tools.CHANGING]
    holds("no calls seen", steps)
    for name, number in steps:
        with tools.fresh_folder() as fresh:
            tools.write(fresh, INPUTS)
            child = start(first, fresh, "%s %d stop" % (name, number))
            if not stopped(child):
                raise tools.Wrong("not stopped at %s %d" % (name, number))
            other = run(second, fresh)
            os.kill(child.pid, signal.SIGCONT)
            done = ended(child)
            try:
                has_status(other, 0, 2)
                has_status(done, 0, 2)
                judge_both(fresh, first, second, (done.status, other.status))
            except tools.Wrong as wrong:
                raise tools.Wrong("stopped before %s %d: %s" % (name, number, wrong))


def no_folder(folder):
    tools.write(folder, {"a.csv": jobs.SIX})
    answers(run("notebook cut --capacity 69 --id %s --prefix no/p- a.csv" % tools.ID, folder), 2, "", "notebook: no/[^\n]+\n")
    answers(run("notebook canonical --output no/c.csv a.csv", folder), 2, "", "notebook: no/[^\n]+\n")
    same_tree(folder, {"a.csv": jobs.SIX})


def tests():
    pairs = {"the same pieces": (CUT_A, CUT_A), "other pieces": (CUT_A, CUT_B)}
    partial = functools.partial
    return (
        [(job.name, partial(clean, job)) for job in jobs.WRITING + jobs.AGAIN + jobs.RECORDING + jobs.NOT_RECORDING]
        + [(job.name + ", twice", partial(twice, job)) for job in jobs.WRITING]
        + [
            ("%s, %s" % (job.name, put.__name__.replace("_", " ")), partial(obstacle, job, put))
            for job in jobs.WRITING
            for put in OBSTACLES
        ]
        + [("on a full disk: " + row[0].replace(tools.ID, "ID"), partial(full_disk, row)) for row in FULL]
        + [("one name for two inputs, %d threads" % n, partial(one_name, n)) for n in (1, 2, 8)]
        + [("two runs at once, " + name, partial(race, lines)) for name, lines in pairs.items()]
        + [("a run while another one stops, " + name, partial(interleaved, lines)) for name, lines in pairs.items()]
        + [("under a temporary name: " + put.__name__.replace("_", " "), partial(planted, put, works)) for put, works in PLANTED.items()]
        + [("a folder that is not there", no_folder), ("an input as output", onto_itself)]
    )
