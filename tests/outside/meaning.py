"""The command and the programs give one answer on the same bytes. Each answer here is written from documents 01 and 02."""

import functools
import random

from outside import jobs, tools
from outside.tools import FIRST, ID, NOTE, SMALL, SMALL_CANONICAL, answers, notes, run, same, write

PIECES, JOINED = jobs.PIECES, tools.canonical(jobs.SIX)
WORDS = dict(enumerate(
    "large,line end,version,character,record,piece,items,empty,long,edge,form,pair,place,missing,RP,date order,ID,no cutting,set,short".split(","), 1
))

# Files given to join: the joined file, or number and line. Piece 1 has four lines: line 1, record 1, a record 4, and its 911.
JOINS = {
    "in order": (PIECES, JOINED),
    "backwards": (PIECES[::-1], JOINED),
    "in no order": (random.Random(1).sample(PIECES, len(PIECES)), JOINED),
    "an empty file first": ([b""] + PIECES, JOINED),
    "an empty file among them": (PIECES[:2] + [b""] + PIECES[2:], JOINED),
    "an empty file last": (PIECES + [b""], JOINED),
    "1Ah after some": ([PIECES[0] + b"\x1a", PIECES[1], PIECES[2] + b"\x1a"] + PIECES[3:], JOINED),
    "1Ah after all": ([piece + b"\x1a" for piece in PIECES], JOINED),
    "1Ah in a file of its own": (PIECES[:1] + [b"\x1a"] + PIECES[1:], JOINED),
    "1Ah first": ([b"\x1a"] + PIECES, (2, 1)),
    "1Ah twice": ([PIECES[0] + b"\x1a\x1a"] + PIECES[1:], (2, 5)),
    "0Ah missing at the end of the first": ([PIECES[0][:-1]] + PIECES[1:], (2, 4)),
    "no line end at the end of the first": ([PIECES[0][:-2]] + PIECES[1:], (19, 0)),
    "the first cut off in line 1": ([PIECES[0][:5]] + PIECES[1:], (19, 0)),
    "the first cut off after record 1": ([SMALL_CANONICAL] + PIECES[1:], (19, 0)),
    "no line end at the end of the last": (PIECES[:-1] + [PIECES[-1][:-2]], (2, sum(p.count(b"\n") for p in PIECES))),
    "one missing": (PIECES[:-1], (19, 0)),
    "one twice": (PIECES + PIECES[:1], (19, 0)),
    "an empty file alone": ([b""], (2, 1)),
    "two empty files": ([b"", b""], (2, 1)),
    "a whole file": ([notes(2)], notes(2)),
    "a whole file in two parts": ([notes(2)[:20], notes(2)[20:]], notes(2)),
    "two whole files": ([SMALL, SMALL], (19, 0)),
    "a refused file": ([SMALL + b"9,x\r\n"], (5, 3)),
    "131,073 bytes": ([b"x" * 65536, b"x" * 65537], (1, 0)),
    "131,072 bytes": ([b"x" * 65536, b"x" * 65536], (2, 1)),
    "more than 131,073 bytes": ([b"x" * 65536] * 3, (1, 0)),
}


def joined(held, wanted, folder):
    names = ["f%d" % k for k in range(len(held))]
    write(folder, dict(zip(names, held)))
    done, proved = run(["notebook", "join"] + names, folder), run(["notejoin"] + names, folder)
    if isinstance(wanted, bytes):
        same("notebook join", done, (0, wanted, b""))
        same("notejoin", proved, (0, wanted, b""))
    else:
        number, line = wanted
        same("notebook join", done, (1, b"", b"join: no %d %d: %s\n" % (number, line, WORDS[number].encode())))
        same("notejoin", proved, (0, b"", b"no %d %d\n" % wanted))


def joined_from_input(folder):
    given = b"".join(PIECES)
    same("notebook join", run("notebook join -", folder, given), (0, JOINED, b""))
    same("notejoin", run("notejoin", folder, given), (0, JOINED, b""))


# --- check ---

GROUP = b"5,H280411,1\r\n"
DAMAGED = {
    "nothing": (b"", (2, 1)),
    "1Ah alone": (b"\x1a", (2, 1)),
    "no line end at the end": (SMALL[:-2], (2, 2)),
    "line ends of Unix": (SMALL.replace(b"\r\n", b"\n"), (2, 1)),
    "another version": (b"JAHISTC03,1\r\n", (3, 1)),
    "a byte that is no character": (SMALL + b"4,\x80,,2\r\n", (4, 3)),
    "a number that is not listed": (SMALL + b"04,x,,2\r\n", (5, 3)),
    "a piece": (SMALL + b"911,%s,2,1\r\n" % ID.encode(), (6, 3)),
    "an item too many": (SMALL + b"4,x,,2,\r\n", (7, 3)),
    "a required item empty": (SMALL + b"4,,,2\r\n", (8, 3)),
    "an item too long": (SMALL + b"4,%s,,2\r\n" % (b"x" * 401), (9, 3)),
    "a space at the end": (SMALL + b"4,x ,,2\r\n", (10, 3)),
    "a date that is none": (SMALL + b"4,x,H290229,2\r\n", (11, 3)),
    "a day under R before its first": (SMALL + b"4,x,R010430,2\r\n", (11, 3)),
    "a record out of place": (SMALL + NOTE + b"2,1,x,2\r\n", (13, 4)),
    "no record 1": (FIRST + NOTE, (14, 2)),
    "a newer group": (SMALL + GROUP + b"5,H280412,1\r\n", (16, 4)),
    "a newer group under R": (SMALL + b"5,20190430,1\r\n5,R010501,1\r\n", (16, 4)),
    "65,537 bytes": (notes(8187)[:-2] + b"xxxx\r\n\x1a", (1, 0)),
}


def checked(data, wanted, folder):
    write(folder, {"a.csv": data})
    number, line = wanted
    same("notebook check", run("notebook check a.csv", folder), (1, b"a.csv: no %d %d: %s\n" % (number, line, WORDS[number].encode()), b""))
    same("notecheck", run("notecheck", folder, data), (0, b"no %d %d\n" % wanted, b""))


def samples_checked(folder):
    for name, answer, status in (("visit.csv", b"ok 15 1 3", 0), ("refused.csv", b"no 11 10", 1)):
        data = tools.sample(name)
        write(folder, {name: data})
        answers(run("notebook check " + name, folder), status, "%s: %s(: form)?\n" % (name, answer.decode()), "")
        same("notecheck", run("notecheck", folder, data), (0, answer + b"\n", b""))


# --- days ---

# 02 (i): one day in each entry, as it is written and in every spelling that is read.
DAYS = {
    "H310430": ("20190430", "H310430"),
    "R010501": ("20190501", "H310501", "R010501"),
    "R691231": ("20871231", "H991231", "R691231"),
}


def dated(day):
    return SMALL_CANONICAL + b"4,x,%s,2\r\n" % day.encode()


def spelled(written, given, folder):
    """Canonical and cut write the day in its one spelling; join keeps the bytes."""
    write(folder, {"a.csv": dated(given)})
    same("notebook canonical", run("notebook canonical a.csv", folder), (0, dated(written), b""))
    same("notecanon", run("notecanon", folder, dated(given)), (0, dated(written), b""))
    same("notebook cut", run("notebook cut --capacity 69 --id %s a.csv" % ID, folder), (0, dated(written), b""))
    same("notecut", run("notecut 69 " + ID, folder, dated(given)), (0, dated(written), b"ok 1 %d\n" % len(dated(written))))
    same("notebook join", run("notebook join a.csv", folder), (0, dated(given), b""))
    same("notejoin", run("notejoin a.csv", folder), (0, dated(given), b""))


def sample_written(folder):
    """The sample has a day of R under H, and postal codes with a hyphen."""
    data = wanted = tools.sample("visit.csv")
    for given, canonical in ((b"H310508", b"R010508"), (b"105-0004", b"1050004")):
        # Without it the sample would show nothing of this spelling.
        same("%s is in the sample" % given.decode(), given in data, True)
        wanted = wanted.replace(given, canonical)
    write(folder, {"visit.csv": data})
    same("notebook canonical", run("notebook canonical visit.csv", folder), (0, wanted, b""))
    same("notecanon", run("notecanon", folder, data), (0, wanted, b""))


# --- kana names ---

# 02 (viii): of one script, and others.
ONE_SCRIPT = {"one-byte": "ｽｽﾞｷ TARO", "hiragana": "すずき　たろー", "katakana": "スズキ　タロー", "815Bh": "ー", "none": ""}
MIXED = {"hiragana and katakana": "すずきタロウ", "kanji": "鈴木　太郎", "two widths": "スズキ ﾀﾛｳ", "a middle dot": "スズキ・タロウ"}


def named(kana, birth=b"H010108"):
    return FIRST + b"1,A,1,%s,,,,,,,%s\r\n" % (birth, kana.encode("shift_jis"))


def kept(kana, folder):
    """Every call accepts the name, and its bytes stay."""
    given, wanted = named(kana, b"19890108"), named(kana)
    write(folder, {"a.csv": given})
    same("notebook check", run("notebook check a.csv", folder), (0, b"a.csv: ok 1 0 0\n", b""))
    same("notecheck", run("notecheck", folder, given), (0, b"ok 1 0 0\n", b""))
    same("notebook canonical", run("notebook canonical a.csv", folder), (0, wanted, b""))
    same("notecanon", run("notecanon", folder, given), (0, wanted, b""))
    same("notebook cut", run("notebook cut --capacity 75 --id %s a.csv" % ID, folder), (0, wanted, b""))
    same("notecut", run("notecut 75 " + ID, folder, given), (0, wanted, b"ok 1 %d\n" % len(wanted)))
    same("notebook join", run("notebook join a.csv", folder), (0, given, b""))
    same("notejoin", run("notejoin a.csv", folder), (0, given, b""))


def mixed(kana, folder):
    """There is no canonical file and no cutting."""
    given, told = named(kana), (1, b"", b"a.csv: no 11 2: form\n")
    write(folder, {"a.csv": given})
    same("notebook check", run("notebook check a.csv", folder), (1, told[2], b""))
    same("notecheck", run("notecheck", folder, given), (0, b"no 11 2\n", b""))
    same("notebook index", run("notebook index a.csv", folder), (1, told[2], b""))
    same("noteindex", run("noteindex", folder, given), (0, b"no 11 2\n", b""))
    same("notebook canonical", run("notebook canonical a.csv", folder), told)
    same("notecanon", run("notecanon", folder, given), (0, b"", b"no 11 2\n"))
    same("notebook cut", run("notebook cut --capacity 75 --id %s a.csv" % ID, folder), told)
    same("notecut", run("notecut 75 " + ID, folder, given), (0, b"", b"no 11 2\n"))
    same("notebook join", run("notebook join a.csv", folder), (1, b"", b"join: no 11 2: form\n"))
    same("notejoin", run("notejoin a.csv", folder), (0, b"", b"no 11 2\n"))


# --- refusals that are the operator's ---

# words of the command, words of notecut, number, word, status
REFUSED_CUTS = [
    ("--capacity 69 --id 1234567890123", "69 1234567890123", "a.csv", 17, "ID", 2),
    ("--capacity 69 --id 1234567890123x", "69 1234567890123x", "a.csv", 17, "ID", 2),
    ("--capacity 59 --id " + ID, "59 " + ID, "a.csv", 18, "no cutting", 2),
    ("--capacity 0 --id " + ID, "0 " + ID, "a.csv", 18, "no cutting", 2),
    ("--capacity 59 --id 1", "59 1", "b.csv", 3, "version", 1),
]


def refused_cut(row, folder):
    options, words, name, number, word, status = row
    files = {"a.csv": notes(18), "b.csv": jobs.REFUSED}
    write(folder, files)
    line = 1 if number == 3 else 0
    for more in ("", "--prefix p- "):
        done = run("notebook cut %s %s%s" % (options, more, name), folder)
        answers(done, status, "", "%s: no %d %d: %s\n" % (name, number, line, word))
    done = run("notebook cut --json %s %s" % (options, name), folder)
    answers(done, status, "", '{"file":"%s","ok":false,"number":%d,"word":"%s","line":%d}\n' % (name, number, word, line))
    answers(run("notecut " + words, folder, files[name]), 0, "", "no %d %d\n" % (number, line))
    answers(run("notecut %s p" % words, folder, files[name]), 0, "", "no %d %d\n" % (number, line))
    tools.same_tree(folder, files)


def cuts(folder):
    """Document 01's cases: 18 records 4 and capacity 60 give 10 pieces, 547 bytes; 2 and 51 give one piece."""
    for count, capacity, n, size in ((18, 60, 10, 547), (20, 69, 6, 404), (2, 51, 1, 51)):
        write(folder, {"a.csv": notes(count)})
        done = run("notebook cut --capacity %d --id %s a.csv" % (capacity, ID), folder)
        proved = run("notecut %d %s" % (capacity, ID), folder, notes(count))
        same("notebook cut", (done.status, done.out, done.err), (0, b"".join(tools.pieces(notes(count), capacity)), b""))
        same("notecut", (proved.out, proved.err), (done.out, b"ok %d %d\n" % (n, size)))
        same("bytes", len(done.out), size)


def tests():
    partial = functools.partial
    return (
        [("join, " + name, partial(joined, *row)) for name, row in JOINS.items()]
        + [("join from standard input", joined_from_input)]
        + [("check, " + name, partial(checked, *row)) for name, row in DAMAGED.items()]
        + [("check of the samples", samples_checked)]
        + [("canonical, cut and join of " + one, partial(spelled, written, one)) for written, ones in DAYS.items() for one in ones]
        + [("canonical of the sample", sample_written)]
        + [("a kana name, " + name, partial(kept, kana)) for name, kana in ONE_SCRIPT.items()]
        + [("a kana name with " + name, partial(mixed, kana)) for name, kana in MIXED.items()]
        + [("cut %s: %d" % (row[0].replace(ID, "ID"), row[3]), partial(refused_cut, row)) for row in REFUSED_CUTS]
        + [("cut, the cases of document 01", cuts)]
    )
