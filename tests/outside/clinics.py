"""The clinic in the index, 02 (v): the command and the program print one index, and --clinic and --clinic-code choose among its entries.

Offsets, bytes and lines are counted by hand. An entry is chosen by its seventh number, or by the institution code of that line's 51, its
fourth item; the count of records before the entries is always the file's."""

import functools
import json

from outside import jobs, tools
from outside.tools import FIRST, ID, NOTE, SMALL, SMALL_CANONICAL, answers, has_status, holds, objects, run, same, same_tree, write

# Five groups: with an 11, a 51 and a doctor; with none of them; with another clinic; with the first one again; and with a 51 that has no
# code, and the first one's code for a name. Each line with its entry.
VISITS = [
    (b"1,A,1,19890108,,,,,,,", "1 13 21 0 0 0 0"),
    (b"5,20160411,1", "5 36 12 1 0 0 0"),
    (b"11,x,,,1234567,,,,1", "11 50 19 1 0 0 0"),
    (b"51,x,13,1,1234567,1", "51 71 19 1 0 0 5"),
    (b"55,x,,1", "55 92 7 1 0 0 5"),
    (b"201,1,x,1,x,1,,1", "201 101 16 1 6 0 5"),
    (b"281,1,x,1", "281 119 9 1 6 7 5"),
    (b"5,20160410,1", "5 130 12 2 0 0 0"),
    (b"201,1,x,1,x,1,,1", "201 144 16 2 0 0 0"),
    (b"5,20160409,1", "5 162 12 3 0 0 0"),
    (b"51,y,,,7654321,1", "51 176 16 3 0 0 12"),
    (b"601,x,", "601 194 6 3 0 0 12"),
    (b"5,20160408,1", "5 202 12 4 0 0 0"),
    (b"51,z,,,1234567,1", "51 216 16 4 0 0 15"),
    (b"401,x,1", "401 234 7 4 0 0 15"),
    (b"5,20160407,1", "5 243 12 5 0 0 0"),
    (b"51,1234567,,,,1", "51 257 15 5 0 0 18"),
    (b"701,x,x,x,,,1", "701 274 13 0 0 0 0"),
]
FILE = FIRST + b"".join(line + b"\r\n" for line, _ in VISITS)
ENTRIES = [entry for _, entry in VISITS]

# The same clinic in another line, and a file that has no group.
OTHER = SMALL + b"4,x,,2\r\n5,20160411,1\r\n51,x,,,1234567,1\r\n"
OTHER_ENTRIES = ["1 13 21 0 0 0 0", "4 36 6 0 0 0 0", "5 44 12 1 0 0 0", "51 58 16 1 0 0 5"]
FILES = {"d/a.csv": FILE, "d/b.csv": jobs.REFUSED, "d/c.csv": OTHER, "d/e.csv": SMALL}
REFUSED = "d/b.csv: no 3 1: version\n"

SAMPLE = """\
1 13 89 0 0 0 0
4 104 17 0 0 0 0
5 123 11 1 0 0 0
11 136 75 1 0 0 0
15 213 16 1 0 0 0
51 231 26 1 0 0 7
55 259 20 1 0 0 7
201 281 43 1 8 0 7
201 326 34 1 8 0 7
291 362 20 1 8 10 7
301 384 41 1 8 0 7
201 427 46 1 8 0 7
301 475 34 1 8 0 7
501 511 20 1 0 0 7
601 533 44 1 0 0 7
"""

# The most records that a file with a 51 has, and the 51 in its last line: 35 bytes, 8,184 times 8, and 24.
MOST = SMALL_CANONICAL + NOTE * 8184 + b"5,H280411,1\r\n51,x,,,,1\r\n"
MOST_INDEX = (
    "1 13 20 0 0 0 0\n"
    + "".join("4 %d 6 0 0 0 0\n" % (35 + 8 * at) for at in range(8184))
    + "5 65507 11 1 0 0 0\n51 65520 9 1 0 0 8188\n"
)


def lines(entries):
    return "".join(entry + "\n" for entry in entries)


def in_json(name, records, entries):
    """The command's object of an accepted file: an array of seven numbers for each entry."""
    index = [[int(number) for number in entry.split()] for entry in entries]
    return json.dumps({"file": name, "ok": True, "records": records, "index": index}, separators=(",", ":")) + "\n"


def whole(data, records, index, folder):
    """The whole index, of the program and of the command, with and without a 1Ah."""
    for held in (data, data + b"\x1a"):
        write(folder, {"a.csv": held})
        same("noteindex", run("noteindex", folder, held), (0, index.encode(), b""))
        same("notebook index", run("notebook index a.csv", folder), (0, b"a.csv: ok %d\n" % records + index.encode(), b""))
        wanted = in_json("a.csv", records, index.splitlines())
        same("in json", run("notebook index --json a.csv", folder), (0, wanted.encode(), b""))


# --- options ---

# words of the command, the entries that are left, counted from 0
CHOSEN = [
    ("--clinic 5", [3, 4, 5, 6]),
    ("--clinic 12", [10, 11]),
    ("--clinic 15", [13, 14]),
    ("--clinic 18", [16]),
    # lines of no 51: record 1, a 5, the 55, its drug, the 701 and one past it; and the number of a record
    ("--clinic 2", []),
    ("--clinic 3", []),
    ("--clinic 6", []),
    ("--clinic 7", []),
    ("--clinic 19", []),
    ("--clinic 20", []),
    ("--clinic 51", []),
    ("--clinic-code 1234567", [3, 4, 5, 6, 13, 14]),
    ("--clinic-code 7654321", [10, 11]),
    # no 51 has these
    ("--clinic-code 0000000", []),
    ("--clinic-code 1234568", []),
    ("--clinic-code 2345671", []),
]


def chosen(options, left, folder):
    entries = [ENTRIES[at] for at in left]
    for held in (FILE, FILE + b"\x1a"):
        write(folder, {"a.csv": held})
        text = (0, b"a.csv: ok 18\n" + lines(entries).encode(), b"")
        same("after index", run("notebook index %s a.csv" % options, folder), text)
        same("after the file", run("notebook index a.csv " + options, folder), text)
        same("from standard input", run("notebook index %s -" % options, folder, held), (0, b"-: " + text[1][7:], b""))
        same("in json", run("notebook index --json %s a.csv" % options, folder), (0, in_json("a.csv", 18, entries).encode(), b""))
    same_tree(folder, {"a.csv": FILE + b"\x1a"})


def of_visits(at):
    return lines(ENTRIES[k] for k in at)


# command line, status, standard output: several files, with the options that all calls on several files have
SEVERAL = [
    ("--clinic-code 1234567 d/a.csv d/c.csv", 0,
     "d/a.csv: ok 18\n" + of_visits([3, 4, 5, 6, 13, 14]) + "d/c.csv: ok 4\n" + OTHER_ENTRIES[3] + "\n"),
    ("--clinic-code 7654321 --jobs 3 d", 1, "d/a.csv: ok 18\n" + of_visits([10, 11]) + REFUSED + "d/c.csv: ok 4\nd/e.csv: ok 1\n"),
    ("--clinic 5 --jobs 1 d", 1, "d/a.csv: ok 18\n" + of_visits([3, 4, 5, 6]) + REFUSED + "d/c.csv: ok 4\n" + OTHER_ENTRIES[3] + "\nd/e.csv: ok 1\n"),
    ("--clinic 5 --json d/b.csv d/c.csv", 1,
     '{"file":"d/b.csv","ok":false,"number":3,"word":"version","line":1}\n' + in_json("d/c.csv", 4, OTHER_ENTRIES[3:])),
    ("--clinic 5 --quiet d", 1, REFUSED),
    ("--clinic-code 1234567 --quiet d/a.csv", 0, ""),
    ("--clinic 18 --summary d/a.csv", 0, "d/a.csv: ok 18\n" + of_visits([16]) + "1 file: 1 accepted, 0 refused, 0 failed\n"),
    ("--clinic 9 --name sent.csv d/c.csv", 0, "sent.csv: ok 4\n"),
    ("--clinic-code 1234567 --files0-from list", 0, "d/c.csv: ok 4\n" + OTHER_ENTRIES[3] + "\nd/e.csv: ok 1\n"),
    # after -- an option is a file's name
    ("--clinic 5 -- d/c.csv", 0, "d/c.csv: ok 4\n" + OTHER_ENTRIES[3] + "\n"),
]


def several(line, status, out, folder):
    write(folder, {**FILES, "list": b"d/c.csv\0d/e.csv\0"})
    same("index", run("notebook index " + line, folder), (status, out.encode(), b""))


# Bad usage. A clinic's line is 2 or more; one that is 5 only modulo 2^32 or 2^64 is none. A code is seven digits, not a part of them; z is a name.
BAD = [
    ["index", "--clinic", "0", "a.csv"],
    ["index", "--clinic", "1", "a.csv"],
    ["index", "--clinic", "", "a.csv"],
    ["index", "--clinic", "x", "a.csv"],
    ["index", "--clinic", "5x", "a.csv"],
    ["index", "--clinic", "-5", "a.csv"],
    ["index", "--clinic", "5.0", "a.csv"],
    ["index", "--clinic", " 5", "a.csv"],
    ["index", "--clinic", "4294967301", "a.csv"],
    ["index", "--clinic", "18446744073709551621", "a.csv"],
    ["index", "--clinic-code", "", "a.csv"],
    ["index", "--clinic-code", "123456", "a.csv"],
    ["index", "--clinic-code", "234567", "a.csv"],
    ["index", "--clinic-code", "12345670", "a.csv"],
    ["index", "--clinic-code", "12", "a.csv"],
    ["index", "--clinic-code", "z", "a.csv"],
    ["index", "--clinic-code", "123456x", "a.csv"],
    ["index", "--clinic-code", "-234567", "a.csv"],
    ["index", "--clinic-code", " 234567", "a.csv"],
    ["index", "--clinic", "5", "--clinic-code", "1234567", "a.csv"],
    ["index", "--clinic-code", "1234567", "--clinic", "5", "a.csv"],
    ["index", "a.csv", "--clinic"],
    ["index", "a.csv", "--clinic-code"],
    ["index", "--clinic", "5"],
    ["index", "--clinics", "5", "a.csv"],
]
BAD += [
    call.split() + [option, value, "a.csv"]
    for call in ("check", "canonical", "canonical --to out", "cut --capacity 99 --id " + ID, "join")
    for option, value in (("--clinic", "5"), ("--clinic-code", "1234567"))
]


def bad_usage(words, folder):
    write(folder, {"a.csv": FILE})
    answers(run(["notebook"] + words, folder), 2, "", "notebook: .+")
    done = run(["notebook", words[0], "--json"] + words[1:], folder)
    has_status(done, 2)
    same("standard output in json", done.out, b"")
    same("members", [set(one) for one in objects(done.err)], [{"error"}])
    same_tree(folder, {"a.csv": FILE})


def of_most(folder):
    """The last of the most records, which is the greatest line that a clinic has."""
    holds("bytes", len(MOST) == 65531)
    write(folder, {"a.csv": MOST})
    same("its line", run("notebook index --clinic 8188 a.csv", folder), (0, b"a.csv: ok 8187\n51 65520 9 1 0 0 8188\n", b""))
    same("the line before", run("notebook index --clinic 8187 a.csv", folder), (0, b"a.csv: ok 8187\n", b""))


def tests():
    partial = functools.partial
    indexes = {
        "five groups": (FILE, 18, lines(ENTRIES)),
        "one group": (OTHER, 4, lines(OTHER_ENTRIES)),
        "the sample": (tools.sample("visit.csv"), 15, SAMPLE),
        "the most records": (MOST, 8187, MOST_INDEX),
    }
    return (
        [("index of " + name, partial(whole, *row)) for name, row in indexes.items()]
        + [("index " + row[0], partial(chosen, *row)) for row in CHOSEN]
        + [("index " + row[0], partial(several, *row)) for row in SEVERAL]
        + [("bad usage: %s" % " ".join(words).replace(ID, "ID"), partial(bad_usage, words)) for words in BAD]
        + [("the greatest line of a clinic", of_most)]
    )
