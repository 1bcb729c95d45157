"""IDs that have been used, 02 (vii): files of IDs, --used and --record-used of the command, and the fourth word of notecut.

That an ID is recorded before any piece appears is seen by the calls that a run makes, by runs that wait for the lock, and by runs that are at it at once;
faults.py and kills.py have these command lines too."""

import errno
import fcntl
import functools
import os
import signal
import subprocess
import tempfile
import time

from outside import faults, jobs, tools, whole
from outside.ends import CLOSED, USER
from outside.jobs import CUT, EARLIER, IDS, IDS_RUN, LINE, NEW_ID, PIECES, RECORD, SIX, USED, USED_JSON
from outside.tools import ID, Result, answers, has_status, holds, like, numbered, objects, pieces, run, same, same_tree, write

IDENT = ID.encode()
OUT = b"".join(PIECES)
MADE = numbered("p-", PIECES)
MANY = [b"%014d" % n for n in range(300)]

# --- files of IDs that are good ---


def forms(ids):
    """One list of IDs in every form that is read."""
    ends = [b"\n", b"\r\n"]
    return {
        "lines": b"".join(one + b"\n" for one in ids),
        "lines with 0Dh": b"".join(one + b"\r\n" for one in ids),
        "lines, no last end": b"\n".join(ids),
        "lines with 0Dh, no last end": b"\r\n".join(ids),
        "lines of both sorts": b"".join(one + ends[k % 2] for k, one in enumerate(ids)),
        "a run": b"".join(ids),
    }


# name of a list, the list, whether ID is in it
LISTS = [
    ("another", EARLIER[:1], False),
    ("three others", EARLIER, False),
    ("another twice", EARLIER[:1] * 2, False),
    ("300 others", MANY, False),
    ("the ID alone", [IDENT], True),
    ("the ID twice", [IDENT, IDENT], True),
    ("the ID first", [IDENT, *EARLIER], True),
    ("the ID second", [EARLIER[0], IDENT, *EARLIER[1:]], True),
    ("the ID last", [*EARLIER, IDENT], True),
    ("the ID last of 301", [*MANY, IDENT], True),
]
GOOD = {"%s, %s" % (name, form): (held, hit) for name, ids, hit in LISTS for form, held in forms(ids).items()}
GOOD["empty"] = (b"", False)
# Its bytes across two IDs are none of them.
GOOD.update(("the ID after %d bytes of a run" % at, (b"0" * at + IDENT + b"0" * (14 - at), False)) for at in range(1, 14))


def used(held, hit, folder):
    files = {"a.csv": SIX, "ids": held}
    write(folder, files)
    wanted = (2, b"", USED) if hit else (0, OUT, b"")
    same("--used", run(CUT + "--used ids a.csv", folder), wanted)
    same("--used -", run(CUT + "--used - a.csv", folder, held), wanted)
    same("with the notebook on standard input", run(CUT + "--used ids -", folder, SIX), (wanted[0], wanted[1], wanted[2].replace(b"a.csv", b"-")))
    same("--prefix", run(CUT + "--used ids --prefix p- a.csv", folder), wanted if hit else (0, jobs.CUT_OUT, b""))
    if hit:
        same("in json", run(CUT + "--json --used ids a.csv", folder), (2, b"", USED_JSON))
        same("with a name", run(CUT + "--name sent.csv --used ids a.csv", folder), (2, b"", USED.replace(b"a.csv", b"sent.csv")))
    same_tree(folder, {**files, **({} if hit else MADE)})


def used_by_program(held, hit, folder):
    write(folder, {"ids": held})
    wanted = b"no 24 0\n" if hit else b"ok 6 404\n"
    same("to standard output", run(["notecut", "69", ID, "", "ids"], folder, SIX), (0, b"" if hit else OUT, wanted))
    same_tree(folder, {"ids": held})
    same("with a prefix", run(["notecut", "69", ID, "p", "ids"], folder, SIX), (0, b"", wanted))
    same_tree(folder, {"ids": held, **({} if hit else jobs.DOTTED)})


# --- files of IDs that are bad ---

A, B = EARLIER[:2]

# what is wrong, the file, what is told of the first that is wrong
BAD = [
    ("an empty line alone", b"\n", "line 1"),
    ("0Dh 0Ah alone", b"\r\n", "line 1"),
    ("an empty line first", b"\n" + A + b"\n", "line 1"),
    ("an empty line between", A + b"\n\n" + B + b"\n", "line 2"),
    ("an empty line last", A + b"\n" + B + b"\n\n", "line 3"),
    ("0Dh 0Ah last", A + b"\r\n" + B + b"\r\n\r\n", "line 3"),
    ("13 digits", A + b"\n" + B[1:] + b"\n", "line 2"),
    ("13 digits last", IDS + A[:13], "line 4"),
    ("15 digits", A + b"\n" + B + b"0\n", "line 2"),
    ("15 digits first", b"0" + A + b"\n" + B + b"\n", "line 1"),
    ("28 digits", A + B + b"\n" + A, "line 1"),
    ("a letter", A + b"\n" + B[:13] + b"x\n", "line 2"),
    ("a letter first", b"O" + A[1:] + b"\n", "line 1"),
    ("a blank before", A + b"\n " + B + b"\n", "line 2"),
    ("a blank after", A + b" \n" + B + b"\n", "line 1"),
    ("a blank for a digit", A + b"\n" + b" " + B[1:] + b"\n", "line 2"),
    ("a tab after", A + b"\t\n", "line 1"),
    ("blanks alone", A + b"\n" + b" " * 14 + b"\n", "line 2"),
    ("a comment", b"# IDs\n" + A + b"\n", "line 1"),
    ("a comment after", A + b"\n" + B + b" # 2\n", "line 2"),
    ("a sign", b"+" + A[1:] + b"\n", "line 1"),
    ("a comma", A + b",\n", "line 1"),
    ("two in a line", A + b"\n" + A + b"," + B + b"\n", "line 2"),
    ("a slash", A + b"\n" + B[:13] + b"/\n", "line 2"),
    ("a colon", A + b"\n" + B[:13] + b":\n", "line 2"),
    ("00h", A + b"\n" + b"\0" * 14 + b"\n", "line 2"),
    ("FFh", A + b"\n" + B[:13] + b"\xff\n", "line 2"),
    ("bit 7", A + b"\n" + B[:13] + bytes([B[13] | 0x80]) + b"\n", "line 2"),
    ("wide digits", A + b"\n" + "１２３４５６７".encode("shift_jis") + b"\n", "line 2"),
    ("a BOM", b"\xef\xbb\xbf" + A + b"\n", "line 1"),
    ("UTF-16", (A + b"\n").decode().encode("utf-16-le"), "line 1"),
    ("1Ah last", A + b"\n\x1a", "line 2"),
    ("1Ah after the last", A + b"\n" + B + b"\x1a", "line 2"),
    ("0Dh 0Dh 0Ah", A + b"\n" + B + b"\r\r\n", "line 2"),
    ("0Dh in the middle", A + b"\n" + B[:7] + b"\r" + B[7:] + b"\n", "line 2"),
    ("0Dh alone at the end", A + b"\n" + B + b"\r", "line 2"),
    ("the ID is there too", LINE + A + b"\n" + B[1:] + b"\n", "line 3"),
    ("two that are wrong", A + b"\n" + B + b"\n" + b"x\ny\n", "line 3"),
    ("line 301", b"".join(one + b"\n" for one in MANY) + b"x\n" + LINE, "line 301"),
    # without a 0Ah it is a run
    ("a run of 1", b"1", "ID 1"),
    ("a run of 13", A[:13], "ID 1"),
    ("a run of 15", A + b"0", "ID 2"),
    ("a run of 27", A + B[:13], "ID 2"),
    ("a run of 41", IDS_RUN[:41], "ID 3"),
    ("a run with a letter", A + B[:13] + b"x" + IDENT, "ID 2"),
    ("a run with a letter first", b"x" + A[1:] + IDENT, "ID 1"),
    ("a run with a comma", A + b"," + B, "ID 2"),
    ("a run with a blank", A + b" " + B, "ID 2"),
    ("a run with a blank last", A + B + b" ", "ID 3"),
    ("a run with 0Dh", A + b"\r" + B + b"\r", "ID 2"),
    ("a run with 1Ah", A + b"\x1a", "ID 2"),
    ("a run with a BOM", b"\xef\xbb\xbf" + A, "ID 1"),
    ("a run of 00h", A + b"\0" * 14, "ID 2"),
    ("a run of blanks", b" " * 14, "ID 1"),
    ("a run with the ID first", IDENT + A[:13], "ID 2"),
    ("a run whose 301st is wrong", b"".join(MANY) + b"x" * 14 + IDENT, "ID 301"),
]


def told_of(name, where):
    return "notebook: %s: [^\n]*\\b%s\\b[^\n]*\n" % (name, where)


def bad_ids(held, where, folder):
    """No verdict, whatever the notebook, the ID and the capacity are: nothing on standard output, no piece, nothing recorded."""
    files = {"a.csv": SIX, "b.csv": jobs.REFUSED, "ids": held, "good": IDS}
    write(folder, files)
    for options in ("--used ids", "--record-used ids", "--used ids --record-used new", "--used ids --record-used good", "--used good --record-used ids"):
        for more in ("a.csv", "--prefix p- a.csv", "b.csv"):
            answers(run(CUT + "%s %s" % (options, more), folder), 2, "", told_of("ids", where))
            same_tree(folder, files)
    answers(run("notebook cut --capacity 69 --id 1 --used ids a.csv", folder), 2, "", told_of("ids", where))
    answers(run("notebook cut --capacity 0 --id %s --record-used ids a.csv" % ID, folder), 2, "", told_of("ids", where))
    answers(run(CUT + "--used - a.csv", folder, held), 2, "", told_of("-", where))
    for option in ("--used", "--record-used"):
        done = run(CUT + "--json %s ids a.csv" % option, folder)
        same("in json", (done.status, done.out), (2, b""))
        found = objects(done.err)
        same("members", [(set(one), one.get("file")) for one in found], [({"file", "error"}, "ids")])
        like("the error", found[0]["error"].encode(), "[^\n]*\\b%s\\b[^\n]*" % where)
    same_tree(folder, files)


def bad_ids_of_program(held, where, folder):
    write(folder, {"ids": held})
    wanted = b"error used %s\n" % where.split()[1].encode()
    for prefix in ("", "p"):
        for ident, capacity, given in ((ID, "69", SIX), ("1", "69", SIX), (ID, "0", SIX), (ID, "69", jobs.REFUSED)):
            same("notecut", run(["notecut", capacity, ident, prefix, "ids"], folder, given), (0, b"", wanted))
    same_tree(folder, {"ids": held})


# --- files of IDs that cannot be read ---

FOLDERS = {"a.csv": SIX, "folder": None, "file": b""}

# options, the name that is told
UNREADABLE = [
    ("--used nofile", "nofile"),
    ("--used folder", "folder"),
    ("--used no/ids", "no/ids"),
    ("--used file/ids", "file/ids"),
    ("--record-used folder", "folder"),
    ("--record-used no/ids", "no/ids"),
    ("--record-used file/ids", "file/ids"),
    ("--used nofile --record-used new", "nofile"),
    ("--used file --record-used folder", "folder"),
    ("--record-used /dev/null", "/dev/null"),
    ("--record-used fifo", "fifo"),
]


def unreadable(options, name, folder):
    write(folder, FOLDERS)
    os.mkfifo(os.path.join(folder, "fifo"))
    before = tools.tree(folder)
    for more in ("a.csv", "--prefix p- a.csv"):
        answers(run(CUT + "%s %s" % (options, more), folder), 2, "", "notebook: %s: [^\n]+\n" % name)
    done = run(CUT + "--json %s a.csv" % options, folder)
    same("in json", (done.status, done.out, [(set(one), one.get("file")) for one in objects(done.err)]), (2, b"", [({"file", "error"}, name)]))
    same_tree(folder, before)


def not_allowed(folder):
    """What another user may not read, or may read and not write, or may not make."""
    write(folder, {"a.csv": SIX, "secret": IDS, "ids": IDS})
    before = tools.tree(folder)
    modes = {"secret": 0o600 if USER else 0, "ids": 0o444, ".": 0o555}
    for name, mode in modes.items():
        os.chmod(os.path.join(folder, name), mode)
    try:
        for options in ("--used secret", "--record-used secret", "--record-used ids", "--record-used new"):
            answers(run(CUT + options + " a.csv", folder, under=USER), 2, "", "notebook: %s: [^\n]+\n" % options.split()[1])
        same("--used", run(CUT + "--used ids a.csv", folder, under=USER), (0, OUT, b""))
    finally:
        for name in modes:
            os.chmod(os.path.join(folder, name), 0o755)
    same_tree(folder, before)


def no_ids_at_all(folder):
    write(folder, {"a.csv": SIX})
    same("--used /dev/null", run(CUT + "--used /dev/null a.csv", folder), (0, OUT, b""))
    answers(run(CUT + "--used - a.csv", folder, redirected="<&-"), 2, "", "notebook: -: [^\n]+\n")
    same_tree(folder, {"a.csv": SIX})


MOST = 67108864


def most_ids(_):
    """4,194,304 lines of 16 bytes are the most. They are not put where the other files are: that place may be small."""
    with tempfile.TemporaryDirectory() as folder:
        lines = (A + b"\r\n") * (MOST // 16)
        same("bytes", len(lines), MOST)
        write(folder, {"a.csv": SIX, "ids": lines})
        path = os.path.join(folder, "ids")
        same("the most", run(CUT + "--used ids a.csv", folder), (0, OUT, b""))
        with open(path, "r+b") as file:
            file.seek(-16, os.SEEK_END)
            file.write(IDENT)
        same("the ID in the last line", run(CUT + "--used ids a.csv", folder), (2, b"", USED))
        with open(path, "ab") as file:
            file.write(b"1")
        for option in ("--used", "--record-used"):
            done = run(CUT + "%s ids a.csv" % option, folder)
            answers(done, 2, "", "notebook: ids: [^\n]+\n")
            holds("a line is told: %r" % done.err, b"line 4194305" not in done.err)
        same("bytes after it", os.stat(path).st_size, MOST + 1)


def most_ids_of_program(folder):
    for held, wanted in (
        ((A + b"\r\n") * 100000, (0, OUT, b"ok 6 404\n")),
        ((A + b"\r\n") * 99999 + IDENT + b"\r\n", (0, b"", b"no 24 0\n")),
        (A * 114285, (0, OUT, b"ok 6 404\n")),
        ((A + b"\r\n") * 100000 + b"1", (0, b"", b"error used\n")),
        (A * 114286, (0, b"", b"error used\n")),
        ((A + b"\n") * 200000, (0, b"", b"error used\n")),
    ):
        write(folder, {"ids": held})
        same("%d bytes" % len(held), run(["notecut", "69", ID, "", "ids"], folder, SIX), wanted)


# words of notecut after the ID, what is given, standard error
PROGRAM = [
    (["", "nofile"], SIX, "error used\n"),
    (["p", "nofile"], SIX, "error used\n"),
    (["", "folder"], SIX, "error used\n"),
    (["p", "file/ids"], SIX, "error used\n"),
    (["p", "nofile"], jobs.REFUSED, "error used\n"),
    (["", "ids"], jobs.REFUSED, "no 3 1\n"),
    (["", "used"], jobs.REFUSED, "no 3 1\n"),
    (["p", "used"], SIX, "no 24 0\n"),
    (["", "file", "more"], SIX, "error usage: .+"),
]


def program(words, given, err, folder):
    files = {"ids": IDS, "used": IDS + LINE, "folder": None, "file": b""}
    write(folder, files)
    answers(run(["notecut", "69", ID] + words, folder, given), 0, "", err)
    same_tree(folder, files)


def program_in_order(folder):
    """Standard input, the file of IDs, then 1 to 17, 24, 18."""
    files = {"ids": IDS, "used": IDS + LINE, "bad": b"x\n", "folder": None}
    write(folder, files)
    for prefix in ("", "p"):
        same("no input", run(["notecut", "69", ID, prefix, "bad"], folder, redirected="<&-"), (0, b"", b"error read\n"))
        same("no input, no file", run(["notecut", "69", ID, prefix, "nofile"], folder, redirected="<folder"), (0, b"", b"error read\n"))
        same("17", run(["notecut", "69", "1", prefix, "used"], folder, SIX), (0, b"", b"no 17 0\n"))
        same("24 before 18", run(["notecut", "20", ID, prefix, "used"], folder, SIX), (0, b"", b"no 24 0\n"))
        same("18", run(["notecut", "20", ID, prefix, "ids"], folder, SIX), (0, b"", b"no 18 0\n"))
        same("24 of one piece", run(["notecut", "999", ID, prefix, "used"], folder, SIX), (0, b"", b"no 24 0\n"))
    same("an empty prefix is none", run(["notecut", "69", ID, ""], folder, SIX), (0, OUT, b"ok 6 404\n"))
    same_tree(folder, files)


def program_with_closed(closed, folder):
    """A file of IDs must not be taken for a stream that is closed."""
    write(folder, {"a.csv": SIX, "ids": IDS})
    given = closed + " <a.csv" * ("<&-" not in closed)
    for prefix, made in (("", {}), ("p", jobs.DOTTED)):
        done = run(["notecut", "69", ID, prefix, "ids"], folder, redirected=given)
        same("status", done.status, 0)
        there = any(name in tools.tree(folder) for name in made)
        same_tree(folder, {"a.csv": SIX, "ids": IDS, **(made if there else {})})


# --- what is recorded ---

C = EARLIER[2]

# the file of IDs before, None where it is not there, and what a run adds to it
RECORDED = {
    "no file": (None, LINE),
    "an empty file": (b"", LINE),
    "a line": (A + b"\n", LINE),
    "lines": (IDS, LINE),
    "lines, the last without its end": (A + b"\n" + B, b"\n" + LINE),
    "a line with 0Dh": (A + b"\r\n", IDENT + b"\r\n"),
    "lines with 0Dh": (A + b"\r\n" + B + b"\r\n", IDENT + b"\r\n"),
    "lines with 0Dh, the last without its end": (A + b"\r\n" + B, b"\r\n" + IDENT + b"\r\n"),
    "a line with 0Dh last": (A + b"\n" + B + b"\r\n", IDENT + b"\r\n"),
    "a line without 0Dh last": (A + b"\r\n" + B + b"\n", LINE),
    "a line with 0Dh before one without an end": (A + b"\n" + B + b"\r\n" + C, b"\r\n" + IDENT + b"\r\n"),
    "a line without 0Dh before one without an end": (A + b"\r\n" + B + b"\n" + C, b"\n" + LINE),
    "an ID": (A, IDENT),
    "a run": (IDS_RUN, IDENT),
    "300 lines": (b"".join(one + b"\n" for one in MANY), LINE),
    "a run of 300": (b"".join(MANY), IDENT),
    "one ID in two lines": (A + b"\n" + A + b"\n", LINE),
    "an ID across two of a run": (b"0" * 5 + IDENT + b"0" * 9, IDENT),
}


def ids_file(held):
    return {} if held is None else {"ids": held}


def recorded(before, entry, folder):
    """In one piece and in several, with files and without. The file is the same one, with its mode; a new one is its owner's alone."""
    for capacity in (69, 999):
        for prefix in ("", "--prefix p- "):
            with tools.fresh_folder() as fresh:
                write(fresh, {"a.csv": SIX, **ids_file(before)})
                path = os.path.join(fresh, "ids")
                if before is not None:
                    os.chmod(path, 0o640)
                    there = os.stat(path).st_ino
                line = "notebook cut --capacity %d --id %s --record-used ids %sa.csv" % (capacity, ID, prefix)
                done = run(line, fresh, limits="umask 0;")
                cutting = pieces(SIX, capacity)
                has_status(done, 0)
                same("standard error", done.err, b"")
                if not prefix:
                    same("standard output", done.out, b"".join(cutting))
                after = {"a.csv": SIX, "ids": (before or b"") + entry, **(numbered("p-", cutting) if prefix else {})}
                same_tree(fresh, after)
                same("mode", oct(tools.mode(fresh, "ids")), oct(0o600 if before is None else 0o640))
                holds("another file is there", before is None or os.stat(path).st_ino == there)
                same("again", run(line, fresh), (2, b"", USED))
                same_tree(fresh, after)


def several(form, folder):
    """Ten runs, one after another."""
    write(folder, {"a.csv": SIX, "ids": forms(EARLIER)[form]})
    made = [b"3%013d" % k for k in range(10)]
    for one in made:
        line = CUT.replace(ID, one.decode()) + "--record-used ids a.csv"
        same("pieces", run(line, folder), (0, b"".join(pieces(SIX, 69, one.decode())), b""))
    ends = {"lines": b"\n", "lines with 0Dh": b"\r\n", "a run": b""}
    same_tree(folder, {"a.csv": SIX, "ids": forms(EARLIER)[form] + b"".join(one + ends[form] for one in made)})


# --used's file and --record-used's, before; whether the ID is used
BOTH = {
    "in neither": (IDS, A + b"\n", False),
    "in neither, no file": (IDS_RUN, None, False),
    "in the first": (IDS + LINE, A + b"\n", True),
    "in the first, no file": (IDENT, None, True),
    "in the second": (IDS, IDS + LINE, True),
    "in both": (IDENT, IDENT, True),
    "the first empty": (b"", A + b"\n", False),
    "a run and lines": (IDS_RUN + IDENT, A + b"\n", True),
}


def both_files(old, before, hit, folder):
    for option, given in (("--used old", b""), ("--used -", old)):
        for line in (CUT + "--record-used ids %s a.csv" % option, CUT + "%s --record-used ids a.csv" % option):
            with tools.fresh_folder() as fresh:
                files = {"a.csv": SIX, "old": old, **ids_file(before)}
                write(fresh, files)
                same(line, run(line, fresh, given), (2, b"", USED) if hit else (0, OUT, b""))
                same_tree(fresh, files if hit else {**files, "ids": (before or b"") + LINE})


def one_file_for_both(folder):
    write(folder, {"a.csv": SIX, "ids": IDS})
    same("first", run(CUT + "--used ids --record-used ids a.csv", folder), (0, OUT, b""))
    same_tree(folder, {"a.csv": SIX, "ids": IDS + LINE})
    same("again", run(CUT + "--used ids --record-used ids a.csv", folder), (2, b"", USED))
    same_tree(folder, {"a.csv": SIX, "ids": IDS + LINE})


# capacity, ID, notebook, status, what is told; the IDs have ID among them or not
REFUSED = [
    (69, ID, "b.csv", False, 1, "b.csv: no 3 1: version\n"),
    (69, ID, "b.csv", True, 1, "b.csv: no 3 1: version\n"),
    (20, "1", "b.csv", True, 1, "b.csv: no 3 1: version\n"),
    (69, "1", "a.csv", False, 2, "a.csv: no 17 0: ID\n"),
    (20, "1234567890123x", "a.csv", True, 2, "a.csv: no 17 0: ID\n"),
    (20, ID, "a.csv", True, 2, "a.csv: no 24 0: used\n"),
    (999, ID, "a.csv", True, 2, "a.csv: no 24 0: used\n"),
    (20, ID, "a.csv", False, 2, "a.csv: no 18 0: no cutting\n"),
]


def refused(capacity, ident, name, hit, status, told, folder):
    """The order of refusals is the call's. The file of IDs is as it was, and where there was none there is none."""
    ids = IDS + LINE * hit
    for files, options in (
        ({"ids": ids}, "--used ids"),
        ({"ids": ids}, "--record-used ids"),
        ({"old": ids, "ids": IDS_RUN}, "--used old --record-used ids"),
        ({"old": ids}, "--used old --record-used ids"),
        *([] if hit else [({}, "--record-used ids"), ({"ids": b""}, "--record-used ids")]),
    ):
        for prefix in ("", "--prefix p- "):
            with tools.fresh_folder() as fresh:
                files = {**files, "a.csv": SIX, "b.csv": jobs.REFUSED}
                write(fresh, files)
                line = "notebook cut --capacity %d --id %s %s %s%s" % (capacity, ident, options, prefix, name)
                same(options, run(line, fresh), (status, b"", told.encode()))
                same_tree(fresh, files)


def nothing_to_cut(folder):
    """A notebook that cannot be read spends no ID."""
    write(folder, {"ids": IDS, "folder": None})
    for name in ("nofile", "folder"):
        answers(run(RECORD + name, folder), 2, "", "notebook: %s: [^\n]+\n" % name)
    answers(run(RECORD + "-", folder, redirected="<&-"), 2, "", "notebook: -: [^\n]+\n")
    same_tree(folder, {"ids": IDS, "folder": None})


# --- words ---

BAD_USAGE = [CUT + words for words in (
    "a.csv --used", "a.csv --record-used", "a.csv --used=", "a.csv --record-used=", "--used ids", "--record-used ids", "--record-used - a.csv",
    "--use ids a.csv", "--record ids a.csv", "--used ids a.csv b.csv",
)] + [
    "notebook %s %s ids a.csv" % (call, option)
    for call in ("check", "index", "canonical", "canonical --to out", "join")
    for option in ("--used", "--record-used")
]


def bad_usage(line, folder):
    write(folder, {"a.csv": SIX, "b.csv": SIX, "ids": IDS})
    answers(run(line, folder, IDS), 2, "", "notebook: .+")
    words = line.split(" ")
    done = run(words[:2] + ["--json"] + words[2:], folder, IDS)
    same("in json", (done.status, done.out, [set(one) for one in objects(done.err)]), (2, b"", [{"error"}]))
    same_tree(folder, {"a.csv": SIX, "b.csv": SIX, "ids": IDS})


def input_once(folder):
    write(folder, {"ids": IDS})
    for line in (CUT + "--used - -", CUT + "- --used -", CUT + "--record-used ids --used - -"):
        answers(run(line, folder, SIX), 2, "", "notebook: [^\n]*standard input can be read only once.*")
    same_tree(folder, {"ids": IDS})


def name_shown(folder):
    """The name of a file of IDs is data too."""
    write(folder, {"a.csv": SIX, "i\nd\x1b": b"x\n"})
    for option in ("--used", "--record-used"):
        done = run(CUT.split() + [option, "i\nd\x1b", "a.csv"], folder)
        answers(done, 2, "", "notebook: i\\\\nd\\\\x1b: [^\n]*\\bline 1\\b[^\n]*\n")


def helped(folder):
    done = run("notebook --help", folder)
    for words in (b"--used FILE", b"--record-used FILE"):
        holds("the help has no %s" % words.decode(), words in done.out)


# --- what is on the disk before a piece appears ---

SYNCS = ("fsync", "fdatasync")
NEW, THERE, WITH_FILES, RUN = jobs.RECORDING


def steps(job, folder):
    """The calls of a clean run: those before the ID is written, back to where its descriptor was last closed; that one; those up to the first byte of
    a piece; and the rest."""
    calls = faults.clean_calls(job, folder)
    at = next((k for k, call in enumerate(calls) if call.records), None)
    holds("no call that records", at is not None)
    own = calls[at].descriptor
    begin = max([k for k, call in enumerate(calls[:at]) if (call.name, call.descriptor) == ("close", own)], default=-1) + 1
    out = next(k for k, call in enumerate(calls) if k > at and call.name in faults.WRITES)
    return calls[begin:at], calls[at], calls[at + 1 : out], calls[out:]


def in_order(job, folder):
    """Locked before the IDs are read; written by one call; synced with its folder, which a killed run may not have come to; the lock let go; then the
    pieces."""
    before, entry, between, rest = steps(job, folder)
    own = entry.descriptor
    mine = [call.name for call in before if call.descriptor == own and call.name in {"flock", *faults.READS}]
    same("first of locking and reading", mine[:1], ["flock"])
    holds("the IDs are not read", job.ids not in job.files or set(mine) & faults.READS)
    synced = [(call.name, call.descriptor) for call in between if call.name in SYNCS]
    holds("not synced: %s" % synced, synced and synced[0][1] == own)
    holds("the folder is not synced: %s" % synced, any(descriptor != own for _, descriptor in synced))
    let_go = [k for k, call in enumerate(between) if call.descriptor == own and call.name in ("flock", "close")]
    last = max(k for k, call in enumerate(between) if call.name in SYNCS)
    holds("the lock is not let go before the pieces, or before it is synced", let_go and let_go[0] > last)
    holds("written again", not any(call.descriptor == own and call.name in faults.WRITES for call in between))


def not_recorded(job, folder):
    """What is left by a run whose ID could not be recorded: no piece, and all IDs that were there."""
    held = tools.tree(folder)
    found = held.pop(job.ids, None)
    if job.ids in job.files or found != b"":
        same("the file of IDs", found, job.files.get(job.ids))
    same("the others", held, {name: data for name, data in job.files.items() if name != job.ids})


def fails_at(job, find, hows, undone, folder):
    """A call that fails before the pieces: status 2, no piece."""
    tried = find(steps(job, folder))
    holds("no such call", tried)
    for call in tried:
        for how in hows:
            with tools.fresh_folder() as fresh:
                job.prepare(fresh)
                fault = "%s %d %s" % (call.name, call.number, how)
                answers(run(job.line, fresh, fault=fault), 2, "", "notebook: [^\n]+\n")
                if undone:
                    not_recorded(job, fresh)
                else:
                    holds("a piece after " + fault, not job.made.keys() & tools.tree(fresh).keys())
                    faults.files_left(job, fresh, {})
                faults.retry_of_recording(job, fresh)


def the_lock(found):
    before, entry, _, _ = found
    return [call for call in before if (call.name, call.descriptor) == ("flock", entry.descriptor)][:1]


def the_entry(found):
    return [found[1]]


def the_syncs(found):
    return [call for call in found[2] if call.name in SYNCS]


# what fails, how, whether all is then as it was
FAILURES = {
    "the lock": (the_lock, (errno.ENOLCK, errno.EOPNOTSUPP, errno.ENOSYS, errno.EINVAL, errno.EIO), True),
    "the write": (the_entry, ("short", errno.ENOSPC, errno.EDQUOT, errno.EIO, errno.EFBIG), True),
    "a sync": (the_syncs, (errno.EIO, errno.ENOSPC), False),
}


def not_undone(job, folder):
    """The write is short and cannot be undone either: the IDs that were there are, and no piece is."""
    entry = steps(job, folder)[1]
    with tools.fresh_folder() as fresh:
        job.prepare(fresh)
        fault = "%s %d short;ftruncate 1 5;ftruncate64 1 5" % (entry.name, entry.number)
        answers(run(job.line, fresh, fault=fault), 2, "", "(notebook: [^\n]+\n)+")
        found = tools.tree(fresh)
        ids, before = found.pop(job.ids, b""), job.files.get(job.ids, b"")
        holds("the file of IDs: %s" % tools.shown(ids), ids.startswith(before) and (before + job.entry).startswith(ids))
        same("the others", found, {name: data for name, data in job.files.items() if name != job.ids})


def limited(before, folder):
    """The system writes five bytes of the ID and no more."""
    write(folder, {"a.csv": SIX, **ids_file(before)})
    done = run(RECORD + "a.csv", folder, limits="ulimit -c 0;", under="prlimit --fsize=%d --" % (len(before or b"") + 5))
    answers(done, 2, "", "notebook: [^\n]+\n")
    found = tools.tree(folder)
    holds("an ID in part: %s" % tools.shown(found), found.get("ids", b"") == (before or b""))
    same("after there is room", run(RECORD + "a.csv", folder), (0, OUT, b""))


def added_without_lock(folder):
    """Another program adds an ID without the lock before five bytes of the run's own are written: only these are taken back."""
    write(folder, {"a.csv": SIX, "ids": IDS})
    line = ["prlimit", "--fsize=%d" % (len(IDS) + 20), "--", *tools.program(RECORD + "a.csv")]
    streams = {"stdin": subprocess.DEVNULL, "stdout": subprocess.PIPE, "stderr": subprocess.PIPE}
    child = subprocess.Popen(line, cwd=folder, env=tools.environment("write 1 stop"), **streams)
    holds("the run does not stop", whole.stopped(child))
    with open(os.path.join(folder, "ids"), "ab") as ids:
        ids.write(NEW_ID.encode() + b"\n")
    child.send_signal(signal.SIGCONT)
    out, err = child.communicate()
    answers(Result(child.returncode, out, err), 2, "", "notebook: [^\n]+\n")
    same_tree(folder, {"a.csv": SIX, "ids": IDS + NEW_ID.encode() + b"\n"})


def full_disk(folder):
    """A page has room for 292 IDs and eight bytes."""
    write(folder, {"a.csv": SIX, "disk": None})
    disk = os.path.join(folder, "disk")
    held = b"".join(MANY[:292])
    line = CUT + "--record-used disk/ids a.csv"
    with tools.small_disk(disk, "4k"):
        write(disk, {"ids": held})
        answers(run(line, folder), 2, "", "notebook: [^\n]+\n")
        same_tree(disk, {"ids": held})
        subprocess.run(["mount", "-o", "remount,size=1m", disk], check=True)
        same("after there is room", run(line, folder), (0, OUT, b""))
        same_tree(disk, {"ids": held + IDENT})


def spent(folder):
    """An ID whose pieces could not be written stays recorded, and the same command is refused; a new ID does."""
    write(folder, {"a.csv": SIX, "ids": IDS})
    answers(run(RECORD + "a.csv", folder, redirected=">/dev/full"), 2, "", "notebook: [^\n]+\n")
    same_tree(folder, {"a.csv": SIX, "ids": IDS + LINE})
    same("again", run(RECORD + "a.csv", folder), (2, b"", USED))
    same("a new ID", run(RECORD.replace(ID, NEW_ID) + "a.csv", folder), (0, b"".join(pieces(SIX, 69, NEW_ID)), b""))
    same_tree(folder, {"a.csv": SIX, "ids": IDS + LINE + NEW_ID.encode() + b"\n"})


def with_closed(closed, folder):
    """The file of IDs must not be taken for a stream that is closed."""
    for prefix, made in (("", {}), ("--prefix p- ", MADE)):
        with tools.fresh_folder() as fresh:
            write(fresh, {"a.csv": SIX, "ids": IDS})
            done = run(RECORD + prefix + "a.csv", fresh, redirected=closed)
            same("status", done.status, 2 if ">&-" in closed.split() else 0)
            found = tools.tree(fresh)
            there = made if any(name in found for name in made) else {}
            ids = IDS if found.get("ids") == IDS and done.status == 2 and not there else IDS + LINE
            same_tree(fresh, {"a.csv": SIX, "ids": ids, **there})


# --- what is in the way of pieces ---

OTHER_NAMES = WITH_FILES.line.replace("--prefix p-", "--prefix q-")


def not_spent(folder, entry, told):
    """Nothing is made and nothing recorded, however often; with another prefix the same ID does."""
    before = tools.tree(folder)
    for _ in range(2):
        answers(run(WITH_FILES.line, folder), 2, "", told)
        same_tree(folder, before)
    same("with other names", run(OTHER_NAMES, folder), (0, jobs.CUT_OUT.replace(b"p-", b"q-"), b""))
    same_tree(folder, {**before, "ids": before.get("ids", b"") + entry, **numbered("q-", PIECES)})


def names_there(put, held, entry, folder):
    """A piece's name is there as something else."""
    write(folder, {"a.csv": SIX, **ids_file(held)})
    put(os.path.join(folder, "p-3"), MADE["p-3"])
    not_spent(folder, entry, "notebook: p-3: [^\n]*already exists[^\n]*\n")


def part_there(held, entry, folder):
    """A file that is no beginning of the piece lies where its part would."""
    write(folder, {"a.csv": SIX, **ids_file(held)})
    with tools.fresh_folder() as fresh:
        WITH_FILES.prepare(fresh)
        has_status(run(WITH_FILES.line, fresh, fault="renameat2 6 before"), -9)
        part = next(name for name in tools.tree(fresh) if tools.PART.fullmatch(name))
    write(folder, {part: b"kept"})
    not_spent(folder, entry, "notebook: p-6: [^\n]*in the way[^\n]*\n")


def ids_as_a_piece(held, entry, folder):
    """The file of IDs has the name of a piece."""
    files = {"a.csv": SIX, **({} if held is None else {"p-1": held})}
    write(folder, files)
    line = WITH_FILES.line.replace("--record-used ids", "--record-used p-1")
    for _ in range(2):
        answers(run(line, folder), 2, "", "notebook: p-1: [^\n]*already exists[^\n]*\n")
        same_tree(folder, files)
    same("with other names", run(line.replace("--prefix p-", "--prefix q-"), folder).status, 0)
    same_tree(folder, {**files, "p-1": (held or b"") + entry, **numbered("q-", PIECES)})


def between_the_looks(folder):
    """A name that appears once the names have been looked up: the ID is spent, and nothing else is made."""
    entry = steps(WITH_FILES, folder)[1]
    with tools.fresh_folder() as fresh:
        WITH_FILES.prepare(fresh)
        child = start(WITH_FILES.line, fresh, "%s %d stop" % (entry.name, entry.number))
        holds("not stopped", whole.stopped(child))
        write(fresh, {"p-3": b"kept"})
        os.kill(child.pid, signal.SIGCONT)
        answers(ended(child), 2, "", "notebook: p-3: [^\n]*already exists[^\n]*\n")
        same_tree(fresh, {"a.csv": SIX, "ids": LINE, "p-3": b"kept"})


def same_names_after_kill(job, folder):
    """A new ID after each kill, and the names of the killed run: all is written, or nothing is and the ID serves for other names."""
    ends = set()
    for call in faults.clean_calls(job, folder):
        if call.name not in tools.CHANGING:
            continue
        with tools.fresh_folder() as fresh:
            job.prepare(fresh)
            has_status(run(job.line, fresh, fault="%s %d after" % (call.name, call.number)), -9)
            before = tools.tree(fresh)
            line = job.line.replace(ID, NEW_ID)
            done = run(line, fresh)
            ends.add(done.status)
            if done.status != 0:
                answers(done, 2, "", "notebook: p-[1-6]: [^\n]+\n")
                same_tree(fresh, before)
                has_status(run(line.replace("--prefix p-", "--prefix q-"), fresh), 0)
            holds("not recorded", NEW_ID.encode() in tools.tree(fresh)["ids"])
    same("statuses", ends, {0, 2})


# --- runs at once ---


def start(line, folder, fault=""):
    streams = {"stdin": subprocess.DEVNULL, "stdout": subprocess.PIPE, "stderr": subprocess.PIPE}
    return subprocess.Popen(tools.program(line), cwd=folder, env=tools.environment(fault), **streams)


def ended(child):
    try:
        out, err = child.communicate(timeout=tools.LIMIT)
    except subprocess.TimeoutExpired:
        child.kill()
        child.communicate()
        raise tools.Wrong("not ended after %d s" % tools.LIMIT)
    return Result(child.returncode, out, err)


def one_id(count, before, entry, folder):
    """So many runs with one ID: one of them cuts, and the others are refused."""
    for _ in range(5):
        with tools.fresh_folder() as fresh:
            write(fresh, {"a.csv": SIX, **ids_file(before)})
            running = [start(RECORD + "--prefix %c- a.csv" % (97 + k), fresh) for k in range(count)]
            done = [ended(child) for child in running]
            same("statuses", sorted(one.status for one in done), [0] + [2] * (count - 1))
            for one in done:
                holds("a refusal: %s" % (one,), one.status == 0 or one == (2, b"", USED))
            winner = next(k for k, one in enumerate(done) if one.status == 0)
            same_tree(fresh, {"a.csv": SIX, "ids": (before or b"") + entry, **numbered("%c-" % (97 + winner), PIECES)})


def other_ids(count, before, end, folder):
    """So many runs, each with its ID: all cut, and every ID is there once and whole."""
    made = [b"3%013d" % k for k in range(count)]
    for _ in range(3):
        with tools.fresh_folder() as fresh:
            write(fresh, {"a.csv": SIX, **ids_file(before)})
            running = [start(RECORD.replace(ID, one.decode()) + "a.csv", fresh) for one in made]
            for one, child in zip(made, running):
                same("a cutting", ended(child), (0, b"".join(pieces(SIX, 69, one.decode())), b""))
            found = tools.tree(fresh).get("ids", b"")
            held = before or b""
            holds("the IDs that were there: %s" % tools.shown(found), found.startswith(held))
            size = 14 + len(end)
            rest = [found[at : at + size] for at in range(len(held), len(found), size)]
            same("the IDs", sorted(rest), [one + end for one in made])


# No width serves: a run that is refused, and that leaves no file of IDs where there was none.
NOT_CUT = jobs.Job("notebook cut --capacity 20 --id %s --record-used ids a.csv" % NEW_ID, {"a.csv": SIX}, status=2,
                   err=b"a.csv: no 18 0: no cutting\n", ids="ids")


def refused_among(folder):
    """Runs that are refused take away no file in which another run has recorded its ID."""
    made = [b"3%013d" % k for k in range(8)]
    for _ in range(10):
        with tools.fresh_folder() as fresh:
            write(fresh, NOT_CUT.files)
            running = [(start(NOT_CUT.line, fresh), start(RECORD.replace(ID, one.decode()) + "a.csv", fresh)) for one in made]
            for one, (refused_one, cutting) in zip(made, running):
                same("a refusal", ended(refused_one), (2, b"", NOT_CUT.err))
                same("a cutting", ended(cutting), (0, b"".join(pieces(SIX, 69, one.decode())), b""))
            same("the IDs", sorted(tools.tree(fresh).get("ids", b"").splitlines(True)), [one + b"\n" for one in made])


def interleaved(job, second, judged, folder):
    """One run stops before each call that changes files; another one starts meanwhile and may have to wait."""
    for call in faults.clean_calls(job, folder):
        if call.name not in tools.CHANGING:
            continue
        with tools.fresh_folder() as fresh:
            job.prepare(fresh)
            child = start(job.line, fresh, "%s %d stop" % (call.name, call.number))
            holds("not stopped at %s %d" % call[:2], whole.stopped(child))
            other = start(second, fresh)
            for _ in range(25):
                if other.poll() is None:
                    time.sleep(0.01)
            os.kill(child.pid, signal.SIGCONT)
            done = [ended(one) for one in (child, other)]
            try:
                judged(done, fresh)
            except tools.Wrong as wrong:
                raise tools.Wrong("stopped before %s %d: %s" % (call.name, call.number, wrong))


def both_cut(ident, done, folder):
    """The first run has ID, the second one this ID; one of them is refused if it is the same."""
    own, other = MADE, numbered("q-", pieces(SIX, 69, ident))
    wanted = [0, 2] if ident == ID else [0, 0]
    same("statuses of %s" % tools.shown(done), sorted(one.status for one in done), wanted)
    made = {**(own if done[0].status == 0 else {}), **(other if done[1].status == 0 else {})}
    found = tools.tree(folder)
    lines = found.pop("ids", b"").splitlines(True)
    same("the IDs", sorted(lines), sorted({LINE, ident.encode() + b"\n"}))
    same("the files", found, {"a.csv": SIX, **made})


def one_cuts(cuts, done, folder):
    """The first of them or the second, and the other one is refused."""
    same("the one that cuts", done[cuts], (0, jobs.CUT_OUT, b""))
    same("the one that is refused", done[1 - cuts], (2, b"", NOT_CUT.err))
    same_tree(folder, {"a.csv": SIX, "ids": LINE, **MADE})


MEANWHILE = {
    "one ID": (WITH_FILES, RECORD + "--prefix q- a.csv", functools.partial(both_cut, ID)),
    "two IDs": (WITH_FILES, RECORD.replace(ID, NEW_ID) + "--prefix q- a.csv", functools.partial(both_cut, NEW_ID)),
    "the other one is refused": (WITH_FILES, NOT_CUT.line, functools.partial(one_cuts, 0)),
    "it is refused": (NOT_CUT, WITH_FILES.line, functools.partial(one_cuts, 1)),
}


def let_go(folder):
    """A run that is at its pieces keeps nobody waiting, and its ID is spent."""
    WITH_FILES.prepare(folder)
    child = start(WITH_FILES.line, folder, "renameat2 1 stop")
    try:
        holds("not stopped", whole.stopped(child))
        same("one ID", run(RECORD + "a.csv", folder), (2, b"", USED))
        same("a new ID", run(RECORD.replace(ID, NEW_ID) + "a.csv", folder), (0, b"".join(pieces(SIX, 69, NEW_ID)), b""))
    finally:
        os.kill(child.pid, signal.SIGCONT)
        done = ended(child)
    has_status(done, 0)
    same_tree(folder, {"a.csv": SIX, "ids": LINE + NEW_ID.encode() + b"\n", **MADE})


# --- the lock is somebody else's ---


def is_waiting(child):
    """Until the system says that it waits for a lock; some do not say, and then it has had a second."""
    for _ in range(50):
        try:
            with open("/proc/locks") as file:
                if any("->" in line and str(child.pid) in line.split() for line in file):
                    break
        except OSError:
            pass
        time.sleep(0.02)
    return child.poll() is None


def add(held):
    def change(path):
        with open(path, "ab") as file:
            file.write(held)
    return change


def put(held):
    def change(path):
        write(os.path.dirname(path), {"new": held})
        os.rename(os.path.join(os.path.dirname(path), "new"), path)
    return change


NEW_LINE = NEW_ID.encode() + b"\n"

# what happens while a run waits, whether it then cuts, the file of IDs in the end, and the one that was locked
WAITING = {
    "nothing": (lambda path: None, True, IDS + LINE, None),
    "the ID is added": (add(LINE), False, IDS + LINE, None),
    "another ID is added": (add(NEW_LINE), True, IDS + NEW_LINE + LINE, None),
    "a bad line is added": (add(b"x\n"), None, IDS + b"x\n", None),
    "a file with the ID is put there": (put(LINE), False, LINE, IDS),
    "a file with another ID is put there": (put(NEW_LINE), True, NEW_LINE + LINE, IDS),
    "a run is put there": (put(NEW_ID.encode()), True, NEW_ID.encode() + IDENT, IDS),
    "it is removed": (os.remove, True, LINE, IDS),
}


def waiting(change, cuts, after, locked, kind, folder):
    """Waiting is no error. What counts is the file that has the name once the lock is had, as it is then."""
    write(folder, {"a.csv": SIX, "ids": IDS})
    path = os.path.join(folder, "ids")
    with open(path, "rb") as held:
        fcntl.flock(held, kind)
        child = start(RECORD + "--prefix p- a.csv", folder)
        try:
            holds("it does not wait for the lock", is_waiting(child))
            same_tree(folder, {"a.csv": SIX, "ids": IDS})
            change(path)
            fcntl.flock(held, fcntl.LOCK_UN)
        finally:
            fcntl.flock(held, fcntl.LOCK_UN)
            done = ended(child)
        if cuts is None:
            answers(done, 2, "", told_of("ids", "line 4"))
        else:
            same("the run", done, (0, jobs.CUT_OUT, b"") if cuts else (2, b"", USED))
        same_tree(folder, {"a.csv": SIX, "ids": after, **(MADE if cuts else {})})
        if locked is not None:
            held.seek(0)
            same("the file that was locked", held.read(), locked)


def reading_waits_for_none(folder):
    """--used takes no lock that another one has."""
    write(folder, {"a.csv": SIX, "ids": IDS})
    with open(os.path.join(folder, "ids"), "rb") as held:
        fcntl.flock(held, fcntl.LOCK_SH)
        same("--used", run(CUT + "--used ids a.csv", folder), (0, OUT, b""))


def tests():
    partial = functools.partial
    kinds = {"an exclusive lock": fcntl.LOCK_EX, "a shared lock": fcntl.LOCK_SH}
    starts = {"no file": (None, LINE), "lines": (IDS, LINE), "a run": (IDS_RUN, IDENT)}
    return (
        [("--used, " + name, partial(used, *row)) for name, row in GOOD.items()]
        + [("notecut, " + name, partial(used_by_program, *row)) for name, row in GOOD.items()]
        + [("bad IDs, " + name, partial(bad_ids, *row)) for name, *row in BAD]
        + [("notecut, bad IDs, " + name, partial(bad_ids_of_program, *row)) for name, *row in BAD]
        + [("cannot be read: " + row[0], partial(unreadable, *row)) for row in UNREADABLE]
        + [("IDs of another user", not_allowed), ("no IDs at all", no_ids_at_all), ("the most IDs", most_ids)]
        + [("notecut, the most IDs", most_ids_of_program)]
        + [("notecut 69 ID %s, %d bytes" % (" ".join(row[0]), len(row[1])), partial(program, *row)) for row in PROGRAM]
        + [("notecut, the order", program_in_order)]
        + [("notecut with IDs " + closed, partial(program_with_closed, closed)) for closed in CLOSED]
        + [("recorded: " + name, partial(recorded, *row)) for name, row in RECORDED.items()]
        + [("recorded one after another: " + form, partial(several, form)) for form in ("lines", "lines with 0Dh", "a run")]
        + [("--used and --record-used: " + name, partial(both_files, *row)) for name, row in BOTH.items()]
        + [("one file for both", one_file_for_both)]
        + [("refused: %s, capacity %d, %s" % (row[-1].strip(), row[0], "used" if row[3] else "not used"), partial(refused, *row)) for row in REFUSED]
        + [("nothing to cut", nothing_to_cut)]
        + [("bad usage: " + line.replace(ID, "ID"), partial(bad_usage, line)) for line in BAD_USAGE]
        + [("standard input twice", input_once), ("the name of a file of IDs", name_shown), ("the help", helped)]
        + [("in order: " + job.name, partial(in_order, job)) for job in jobs.RECORDING]
        + [("%s fails: %s" % (name, job.name), partial(fails_at, job, *row)) for name, row in FAILURES.items() for job in jobs.RECORDING]
        + [("not undone: " + job.name, partial(not_undone, job)) for job in jobs.RECORDING]
        + [("five bytes more: " + name, partial(limited, row[0])) for name, row in starts.items()]
        + [("an ID added without the lock", added_without_lock)]
        + [("on a full disk", full_disk), ("an ID is spent", spent)]
        + [
            ("%s, %s for a piece" % (name, put.__name__.replace("_", " ")), partial(names_there, put, *row))
            for name, row in starts.items()
            for put in whole.OBSTACLES
        ]
        + [("%s, a file for a part" % name, partial(part_there, *row)) for name, row in starts.items()]
        + [("%s, named as a piece" % name, partial(ids_as_a_piece, *row)) for name, row in starts.items()]
        + [("a name between the looks", between_the_looks)]
        + [("a new ID after each kill: " + job.name, partial(same_names_after_kill, job)) for job in jobs.RECORDING if job.made]
        + [("--record-used " + closed, partial(with_closed, closed)) for closed in CLOSED]
        + [("%d runs with one ID, %s" % (count, name), partial(one_id, count, *row)) for count in (2, 16) for name, row in starts.items()]
        + [("16 runs with other IDs, " + name, partial(other_ids, 16, row[0], row[1][14:])) for name, row in starts.items()]
        + [("runs that are refused among others", refused_among)]
        + [("a run while another one stops, " + name, partial(interleaved, *row)) for name, row in MEANWHILE.items()]
        + [("a run at its pieces", let_go), ("--used while it is locked", reading_waits_for_none)]
        + [("under %s: %s" % (kind, name), partial(waiting, *row, kinds[kind])) for kind in kinds for name, row in WAITING.items()]
    )
