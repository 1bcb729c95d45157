"""SIGKILL before and after each call that changes files: no file under a final name is half-written, no piece is there whose ID was to be recorded and
is not, and the next run ends as a clean one."""

import functools
import os

from outside import faults, jobs, tools
from outside.tools import DOTTED, Wrong, holds, run, same


def right_after_retry(job, folder):
    """The command takes over what the killed run has left; notecut may leave it."""
    done = run(job.line, folder, job.given)
    holds("the retry: %s" % tools.shown(done), done.status == 0 and done.err == job.err and job.out in (None, done.out))
    if not job.command:
        for name in tools.tree(folder):
            if DOTTED.fullmatch(name):
                os.remove(os.path.join(folder, name))
    tools.same_tree(folder, job.after())


def one_kill(job, fault):
    with tools.fresh_folder() as folder:
        job.prepare(folder)
        done = run(job.line, folder, job.given, limits="umask 0;", fault=fault)
        same("status", done.status, -9)
        faults.left_by_kill(job, folder, done.out)
        (faults.retry_of_recording if job.entry else right_after_retry)(job, folder)


def every_kill(job, when, folder):
    wrong, runs = [], 0
    for call in faults.clean_calls(job, folder):
        if call.name not in tools.CHANGING:
            continue
        runs += 1
        fault = "%s %d %s" % (call.name, call.number, when)
        try:
            one_kill(job, fault)
        except Wrong as reason:
            wrong.append("%s: %s" % (fault, reason))
    holds("no call that changes files", runs)
    holds("%d of %d runs, first: %s" % (len(wrong), runs, "; ".join(wrong[:3])), not wrong)


# The command's retry is killed too; the third run is not.
TWICE = [("write 3 before", "renameat2 2 before"), ("renameat2 1 after", "renameat2 2 after"), ("fsync 2 before", "write 5 after")]


def two_kills(job, both, folder):
    job.prepare(folder)
    for fault in both:
        same("status", run(job.line, folder, job.given, fault=fault).status, -9)
        faults.left_by_kill(job, folder)
    right_after_retry(job, folder)


def tests():
    partial = functools.partial
    cut = jobs.WRITING[0]
    return [
        ("%s, killed %s each call" % (job.name, when), partial(every_kill, job, when))
        for job in jobs.WRITING + jobs.AGAIN + jobs.RECORDING
        for when in ("before", "after")
    ] + [("%s, killed at %s and at %s" % (cut.name, *both), partial(two_kills, cut, both)) for both in TWICE]
