"""Names are data: escaped in text, on both streams, so that a line is an answer; in json as json does; and --name is all that is shown of a path."""

import functools
import os
import re
import subprocess

from outside import jobs, tools
from outside.tools import ID, SMALL, SMALL_CANONICAL, has_status, holds, objects, run, same, write

# name as bytes, as it is shown in text
SHOWN = {
    "plain": (b"a b.csv", "a b.csv"),
    "a line end": (b"a\nb.csv: ok 1 0 0", "a\\nb.csv\\x3a ok 1 0 0"),
    "a carriage return": (b"a\rb", "a\\rb"),
    "a tab": (b"a\tb", "a\\tb"),
    "a backslash": (b"a\\nb", "a\\\\nb"),
    "an escape sequence": (b"\x1b[31mred\x1b[0m", "\\x1b[31mred\\x1b[0m"),
    "a bell": (b"a\x07b", "a\\x07b"),
    "byte 1": (b"\x01", "\\x01"),
    "byte 1Fh": (b"\x1f", "\\x1f"),
    "byte 7Fh": (b"a\x7fb", "a\\x7fb"),
    "not UTF-8": (b"a\xff\xfeb", "a\\xff\\xfeb"),
    "Shift_JIS": (b"\x96\xf2.csv", "\\x96\\xf2.csv"),
    "the start of a character": (b"a\xe8\x96", "a\\xe8\\x96"),
    "a surrogate": (b"\xed\xa0\x80", "\\xed\\xa0\\x80"),
    "a byte that begins no character": (b"\xc0x", "\\xc0x"),
    "other scripts": ("é薬🙂".encode(), "é薬🙂"),
    "U+0080": ("a\u0080b".encode(), "a\\u{0080}b"),
    "next line": ("a\u0085b".encode(), "a\\u{0085}b"),
    "a control sequence of one character": ("a\u009b31mb".encode(), "a\\u{009b}31mb"),
    "U+009F": ("\u009f".encode(), "\\u{009f}"),
    "U+00A0": ("a\u00a0b".encode(), "a\u00a0b"),
    "no width": ("a\u200bb\u200fc".encode(), "a\\u{200b}b\\u{200f}c"),
    "U+200A": ("a\u200ab".encode(), "a\u200ab"),
    "line separators": ("a\u2028b\u2029".encode(), "a\\u{2028}b\\u{2029}"),
    "right to left": ("a\u202ecsv.b".encode(), "a\\u{202e}csv.b"),
    "U+202F": ("a\u202fb".encode(), "a\u202fb"),
    "isolates": ("a\u2066b\u2069".encode(), "a\\u{2066}b\\u{2069}"),
    "U+2060 and U+206F": ("a\u2060\u206f".encode(), "a\\u{2060}\\u{206f}"),
    "U+FEFF": ("\ufeffa".encode(), "\\u{feff}a"),
}


def name_in_text(raw, text, folder):
    """An answer on standard output, a refusal and a failure on standard error; in a folder, and in a word that is wrong."""
    name = os.fsdecode(raw)
    write(folder, {name: SMALL, "d/" + name: jobs.REFUSED})
    line = text.encode()
    same("check", run(["notebook", "check", name], folder), (0, line + b": ok 1 0 0\n", b""))
    same("check of a folder", run(["notebook", "check", "d"], folder), (1, b"d/" + line + b": no 3 1: version\n", b""))
    same("canonical", run(["notebook", "canonical", "d/" + name], folder), (1, b"", b"d/" + line + b": no 3 1: version\n"))
    missing = run(["notebook", "check", "no/" + name], folder)
    same("status", (missing.status, missing.out), (2, b""))
    holds("standard error: %r" % missing.err, missing.err.startswith(b"notebook: no/" + line + b": ") and missing.err.count(b"\n") == 1)
    cut = run(["notebook", "cut", "--capacity", "999", "--id", ID, "--prefix", "p" + name, name], folder)
    same("cut", cut, (0, line + b": ok 1 35\np" + line + b"1: 35\n", b""))


def name_in_json(raw, text, folder):
    name = os.fsdecode(raw)
    write(folder, {name: SMALL})
    for words, where, status in ((["check", name], "out", 0), (["check", "no" + name], "out", 2), (["canonical", "no" + name], "err", 2)):
        done = run(["notebook", words[0], "--json", words[1]], folder)
        has_status(done, status)
        told = getattr(done, where)
        signs = told.decode().rstrip("\n")
        holds("control characters: %r" % told, not any(sign < " " or "\x7f" <= sign <= "\x9f" for sign in signs))
        found = objects(told)
        same("count of lines", len(found), 1)
        named_by(found[0], os.fsencode(words[1]))


def named_by(found, raw):
    """The object names the file: as text, and in hexadecimal digits where that is not all."""
    try:
        same("file", (found.get("file"), found.get("file_hex")), (raw.decode(), None))
    except UnicodeDecodeError:
        same("file_hex", found.get("file_hex"), raw.hex())


# Words of the command line that a message repeats.
WORDS = [
    ["fr\nob"],
    ["check", "--fr\x1bob", "a.csv"],
    ["check", "--jobs", "1\n2", "a.csv"],
    ["index", "--clinic", "5\x1b", "a.csv"],
    ["cut", "--capacity", "\u202e9", "--id", ID, "a.csv"],
    ["check", "--files0-from", "no\nfile"],
    ["canonical", "--to", "a.csv\n", "a.csv", "no\nfile"],
    ["canonical", "--output", "no\n/c.csv", "a.csv"],
    ["cut", "--capacity", "69", "--id", ID, "--prefix", "no\x1b/p", "a.csv"],
]
UNSAFE = ("\n", "\x1b", "\u202e")


def words_in_messages(words, folder):
    write(folder, {"a.csv": SMALL})
    done = run(["notebook"] + words, folder)
    has_status(done, 2)
    lines = done.err.decode().splitlines()
    holds("standard error: %r" % done.err, lines and lines[0].startswith("notebook: "))
    holds("a line that does not say whose it is: %r" % done.err, all(line.startswith(("notebook: ", "Try ")) for line in lines))
    holds("a control character: %r" % done.err, not any(sign in line for sign in UNSAFE[1:] for line in lines))


def words_in_json(words, folder):
    write(folder, {"a.csv": SMALL})
    done = run(["notebook", words[0], "--json"] + words[1:], folder)
    has_status(done, 2)
    found = objects(done.out + done.err)
    holds("no error told: %r" % (found,), any("error" in one for one in found))


# --- --name ---

PATH = "secret/path/a.csv"
FILES = {PATH: SMALL, "secret/refused.csv": jobs.REFUSED}
SHORT = "notebook: sent.csv: "

# command line, status, standard output, standard error (a failure: its beginning)
NAMED = [
    ("check --name sent.csv " + PATH, 0, "sent.csv: ok 1 0 0\n", ""),
    ("check --name sent.csv secret/refused.csv", 1, "sent.csv: no 3 1: version\n", ""),
    ("check --json --name sent.csv secret/refused.csv", 1, '{"file":"sent.csv","ok":false,"number":3,"word":"version","line":1}\n', ""),
    ("check --name sent.csv -", 1, "sent.csv: no 2 1: line end\n", ""),
    ("index --name sent.csv " + PATH, 0, "sent.csv: ok 1\n1 13 21 0 0 0 0\n", ""),
    ("canonical --name sent.csv " + PATH, 0, SMALL_CANONICAL.decode(), ""),
    ("canonical --name sent.csv secret/refused.csv", 1, "", "sent.csv: no 3 1: version\n"),
    ("canonical --json --name sent.csv secret/refused.csv", 1, "", '{"file":"sent.csv","ok":false,"number":3,"word":"version","line":1}\n'),
    ("cut --name sent.csv --capacity 99 --id %s --prefix p- %s" % (ID, PATH), 0, "sent.csv: ok 1 35\np-1: 35\n", ""),
    ("cut --name sent.csv --capacity 9 --id %s %s" % (ID, PATH), 2, "", "sent.csv: no 18 0: no cutting\n"),
    ("check --name sent.csv secret/nofile", 2, "", SHORT),
    ("index --name sent.csv secret/nofile", 2, "", SHORT),
    ("canonical --name sent.csv secret/nofile", 2, "", SHORT),
    ("canonical --name sent.csv --output c.csv secret/nofile", 2, "", SHORT),
    ("cut --name sent.csv --capacity 9 --id %s secret/nofile" % ID, 2, "", SHORT),
    ("check --json --name sent.csv secret/nofile", 2, '{"file":"sent.csv","error":', ""),
    ("canonical --json --name sent.csv secret/nofile", 2, "", '{"file":"sent.csv","error":'),
]
# --name does not go with these.
NOT_NAMED = [
    "check --name sent.csv %s secret/refused.csv" % PATH,
    "check --name sent.csv secret",
    "canonical --name sent.csv --to out " + PATH,
    "join --name sent.csv " + PATH,
    "check --name sent.csv",
    "check --name",
]


def named(row, folder):
    line, status, out, err = row
    write(folder, FILES)
    done = run("notebook " + line, folder)
    has_status(done, status)
    same("standard output", done.out.decode()[: len(out) or None], out)
    same("standard error", done.err.decode()[: len(err) or None], err)
    for stream in (done.out, done.err):
        holds("the path is shown: %r" % stream, b"secret" not in stream and b"nofile" not in stream)


def not_named(line, folder):
    write(folder, FILES)
    done = run("notebook " + line, folder)
    has_status(done, 2)
    same("standard output", done.out, b"")
    holds("standard error: %r" % done.err, done.err.startswith(b"notebook: "))
    same("what is there", tools.tree(folder).keys() - FILES.keys() - {"secret", "secret/path"}, set())


def name_escaped(folder):
    write(folder, FILES)
    done = run(["notebook", "check", "--name", "a\nb\x1b", PATH], folder)
    same("check", done, (0, b"a\\nb\\x1b: ok 1 0 0\n", b""))
    done = run(["notebook", "check", "--name", os.fsdecode(b"\xff"), "secret/nofile"], folder)
    holds("standard error: %r" % done.err, done.err.startswith(b"notebook: \\xff: "))


def shown_filters():
    """The two filters of docs/OPERATING.md, of the command and of the program."""
    with open(os.path.join(tools.ROOT, "docs/OPERATING.md"), encoding="utf-8") as opened:
        blocks = re.findall(r"(?m)^    answer=(?:.*\n    )+esac$", opened.read())
    same("filters that are shown", [block.split()[0] for block in blocks], ["answer=$(notebook", "answer=$(notecheck"])
    return blocks


# A path, the name that the sender gave, the filter's status, and what the sender is told by the command and by the program.
FORGED = "x\nnotebook refused: forged"
FILTERED = (
    (PATH, "a.csv", 0, b"", b""),
    ("secret/refused.csv", "a.csv", 69, b"notebook refused: a.csv: no 3 1: version\n", b"notebook refused: no 3 1\n"),
    ("secret/refused.csv", FORGED, 69, b"notebook refused: x\\nnotebook refused\\x3a forged: no 3 1: version\n", b"notebook refused: no 3 1\n"),
    ("secret", "a.csv", 75, b"notebook: a.csv: Is a directory (os error 21)\n", b"error read\n"),
)


def filtered(folder):
    """The filters as they are shown, but for the name: an attachment's own."""
    write(folder, FILES)
    for at, script in enumerate(shown_filters()):
        script = 'file=$1 sent=$2 PATH=$3:$PATH\n' + script.replace("--name attachment", '--name "$sent"')
        for path, sent, status, *told in FILTERED:
            folders = tools.place["command"] + ":" + tools.place["programs"]
            done = subprocess.run(["sh", "-c", script, "sh", path, sent, folders], cwd=folder, capture_output=True, timeout=tools.LIMIT)
            same("filter %d for %s" % (at, path), (done.returncode, done.stderr), (status, told[at]))


def tests():
    partial = functools.partial
    return (
        [("text, " + name, partial(name_in_text, *row)) for name, row in SHOWN.items()]
        + [("json, " + name, partial(name_in_json, *row)) for name, row in SHOWN.items()]
        + [("words in a message: %s" % ascii(" ".join(words)), partial(words_in_messages, words)) for words in WORDS]
        + [("words in json: %s" % ascii(" ".join(words)), partial(words_in_json, words)) for words in WORDS[1:]]
        + [(row[0].replace(ID, "ID"), partial(named, row)) for row in NAMED]
        + [("not allowed: " + line, partial(not_named, line)) for line in NOT_NAMED]
        + [("--name is escaped", name_escaped), ("a mail filter", filtered)]
    )
