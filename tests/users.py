"""Tests of the command and the programs from the outside: how they end, what they leave, what they tell.

    python3 tests/users.py [--notebook PATH] [--programs FOLDER] [PART..]

By default hosts/rust/target/debug/notebook and target/bin, and every part. A line for each test; the last line is `N passed, M failed`, and the
exit status 0 where none has failed. The parts are in tests/outside; faults come from hosts/c/failing.c, which is built into target/c.
"""

import argparse
import importlib
import os
import resource
import sys
import time

sys.dont_write_bytecode = True

from outside import tools

PROGRAMS = ("notecheck", "noteindex", "notecanon", "notecut", "notejoin")
PARTS = ("ends", "whole", "faults", "kills", "meaning", "clinics", "used", "names", "small")


def words_given():
    parser = argparse.ArgumentParser(description="Tests of the command and the programs from the outside.")
    parser.add_argument("--notebook", default=os.path.join(tools.ROOT, "hosts/rust/target/debug/notebook"))
    parser.add_argument("--programs", default=os.path.join(tools.ROOT, "target/bin"))
    parser.add_argument("parts", nargs="*", metavar="PART", help="of " + ", ".join(PARTS))
    given = parser.parse_args()
    for part in given.parts:
        if part not in PARTS:
            parser.error("no part %s: %s" % (part, ", ".join(PARTS)))
    for path in [given.notebook] + [os.path.join(given.programs, name) for name in PROGRAMS]:
        if not os.access(path, os.X_OK):
            parser.error("no program %s: build it first" % path)
    return given


def run_test(part, name, test):
    """`ok`, `FAIL` or `skip`, with the test's line told."""
    outcome, why = "ok", ""
    try:
        with tools.fresh_folder() as folder:
            test(folder)
    except tools.Wrong as wrong:
        outcome, why = "FAIL", ": %s" % wrong
    except tools.Skipped as skipped:
        outcome, why = "skip", ": %s" % skipped
    print("%-4s %s: %s%s" % (outcome, part, name, why.replace("\n", " ")), flush=True)
    return outcome


def seconds():
    used = [resource.getrusage(who) for who in (resource.RUSAGE_SELF, resource.RUSAGE_CHILDREN)]
    return sum(one.ru_utime + one.ru_stime for one in used)


def main():
    given = words_given()
    outcomes = []
    with tools.prepared(given.notebook, given.programs):
        for part in given.parts or PARTS:
            before, start = seconds(), time.monotonic()
            for name, test in importlib.import_module("outside." + part).tests():
                outcomes.append(run_test(part, name, test))
            print("     %s: %.1f s of processor time, %.1f s in all" % (part, seconds() - before, time.monotonic() - start))
    if "skip" in outcomes:
        print("%d skipped" % outcomes.count("skip"))
    print("%d passed, %d failed" % (outcomes.count("ok"), outcomes.count("FAIL")))
    return 1 if "FAIL" in outcomes else 0


if __name__ == "__main__":
    sys.exit(main())
